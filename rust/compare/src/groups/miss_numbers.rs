//! Why a rule missed: the number that is asked for, on both sides of the list's end and up to 64 bits, and the refusals
//! that come before it.

use crate::bench::{Bench, Run};
use crate::damages::{damaged_rules, with_bad_fields};
use crate::draws::Draws;
use crate::groups::miss_fields::{MATCHES, NARROW, OTHERS};
use crate::headers::{self, Header, LARGEST, WORKED};
use crate::lists::{self, wide_rules, Rule, EVERYTHING, MANNERS, WORKED_POLICY};
use crate::shared_ends::put;

pub fn run(bench: &mut Bench) -> Run {
    bench.group("limits", "misses: each number of 0 to 512 rules, and numbers past them up to 2^64 - 1", numbers)?;
    bench.group("limits", "misses: 513 rules, and words that are no list, whatever the number", no_lists)?;
    bench.group("damage", "misses: refused headers, before a number past the list", refused_headers)?;
    bench.group("damage", "misses: a rule not good, asked for by its own number and by others", bad_rules)?;
    bench.group("damage", "misses: twins, asked for by their own numbers and by others", twins)
}

/// Numbers past a list of this size: next to it, at every power of two and a number of the list more, and where eleven
/// or 44 times the number is small again in 32 or 64 bits.
fn past(size: u64) -> Vec<u64> {
    let mut numbers = vec![size, size + 1, 511, 512, 513, (1 << 32) - 1, u64::MAX - 1, u64::MAX];
    for power in (9..64).map(|bits| 1_u64 << bits) {
        numbers.extend([0, 1, size / 2, size.saturating_sub(1), size].map(|more| power + more));
    }
    for words in [11, 44] {
        for times in 1..words {
            let wraps = [1_u128 << 32, 1 << 64].map(|whole| (times * whole).div_ceil(words) as u64);
            numbers.extend(wraps.into_iter().flat_map(|wrap| [wrap - 1, wrap, wrap + 1]));
        }
    }
    numbers.extend([size, 1, 0].map(|more| (3 << 62) + more));
    numbers.retain(|&number| number >= size);
    numbers
}

/// A list in which neighbours miss in other fields, for the worked policy's first header: rule r in field r modulo 6.
fn list_of(size: usize) -> Vec<Rule> {
    let rule = |(number, wide): (usize, Rule)| match number % 6 {
        2 => put(wide, 2, [40_001 + number as u32, 65_535]),
        5 => wide,
        field => put(wide, field, OTHERS[field]),
    };
    wide_rules(size).into_iter().enumerate().map(rule).collect()
}

fn numbers(bench: &mut Bench) -> Run {
    for size in [0, 1, 2, 3, 17, 511, 512] {
        let words = list_of(size).concat();
        let case = format!("{size} rules");
        for number in 0..size as u64 {
            let answer = bench.rule_misses(&case, &words, &WORKED, number)?;
            assert_eq!((answer.number, answer.a), (0, number % 6), "the oracle: {case}, number {number}");
        }
        for number in past(size as u64) {
            let answer = bench.rule_misses(&case, &words, &WORKED, number)?;
            let given = (answer.number, answer.place, answer.extra, answer.a);
            assert_eq!(given, (2, number, 0, 0), "the oracle: {case}");
        }
    }
    Ok(())
}

/// Words that are no list are 1, and the number is not looked at.
fn no_lists(bench: &mut Bench) -> Run {
    let many = wide_rules(514).concat();
    for length in [1, 5, 10, 12, 21, 32, 34, 5_620, 5_622, 5_631, 5_633, 5_643, 5_644, 5_654] {
        for number in [0, 1, 2, 510, 511, 512, 513, 1 << 32, u64::MAX] {
            for header in [&WORKED[..], &WORKED[..4]] {
                let answer = bench.rule_misses(&format!("{length} words"), &many[..length], header, number)?;
                assert_eq!((answer.number, answer.place), (1, 0), "the oracle: {length} words");
            }
        }
    }
    Ok(())
}

/// Headers of every wrong length, and with every set of fields that are too large.
fn refused_headers(bench: &mut Bench) -> Run {
    let worked = WORKED_POLICY.concat();
    let full = wide_rules(512).concat();
    for list in [&[], &worked[..], &full[..]] {
        let size = (list.len() / EVERYTHING.len()) as u64;
        for number in [0, size.saturating_sub(1), size, 512, 1 << 32, u64::MAX] {
            for length in (0..=12).filter(|&length| length != 5) {
                for word in [0, u32::MAX] {
                    expect_3(bench, list, &vec![word; length], number, 5)?;
                }
            }
            for fields in 1..8_usize {
                for (point, choice) in [WORKED, LARGEST].into_iter().flat_map(|point| [(point, 0), (point, 4)]) {
                    let header = with_bad_fields(&point, fields, choice);
                    expect_3(bench, list, &header, number, 2 + u64::from(fields.trailing_zeros()))?;
                }
            }
        }
    }
    Ok(())
}

fn expect_3(bench: &mut Bench, list: &[u32], header: &[u32], number: u64, place: u64) -> Run {
    let case = format!("header {header:?}, {} words of rules", list.len());
    let answer = bench.rule_misses(&case, list, header, number)?;
    assert_eq!((answer.number, answer.place), (3, place), "the oracle: {case}");
    Ok(())
}

/// A header that is good, and one that is refused.
fn headers_for(rule: &Rule, draws: &mut Draws) -> [Header; 2] {
    let inside = headers::inside(rule, draws);
    [inside, with_bad_fields(&inside, 1 + draws.below(7), draws.below(5))]
}

/// The place is the rule that is not good, and not the number that is asked for.
fn bad_rules(bench: &mut Bench) -> Run {
    for seed in 4_020_000..4_020_010 {
        let mut draws = Draws::seeded(seed);
        let size = 1 + draws.below(6);
        let list = lists::good_list(&mut draws, size, MANNERS[seed as usize % 4]);
        let place = draws.below(size);
        for damaged in damaged_rules(&list.rules[place]) {
            let mut rules = list.rules.clone();
            rules[place] = damaged.rule;
            let case = format!("seed {seed}, rule {place} of {size}: {}", damaged.kind);
            for header in headers_for(&list.rules[place], &mut draws) {
                for number in [place, draws.below(size), size, usize::MAX] {
                    let answer = bench.rule_misses(&case, &rules.concat(), &header, number as u64)?;
                    assert_eq!((answer.number, answer.place as usize), (2, place), "the oracle: {case}");
                }
            }
        }
    }
    Ok(())
}

/// The list is refused for its twins, whichever rule is asked for. Without the later one it is not.
fn twins(bench: &mut Bench) -> Run {
    for seed in 4_030_000..4_030_040 {
        let mut draws = Draws::seeded(seed);
        let size = 2 + draws.below(12);
        let mut rules = lists::good_list(&mut draws, size, MANNERS[seed as usize % 4]).rules;
        let later = 1 + draws.below(size - 1);
        let earlier = draws.below(later);
        rules[later] = rules[earlier];
        let case = format!("seed {seed}, rule {later} of {size} is rule {earlier}");
        for header in headers_for(&rules[later], &mut draws) {
            for number in [0, earlier, later, size - 1, size, usize::MAX] {
                let answer = bench.rule_misses(&case, &rules.concat(), &header, number as u64)?;
                let given = (answer.number, answer.place as usize, answer.extra as usize);
                assert_eq!(given, (11, later, earlier), "the oracle: {case}");
            }
        }
        let [header, _] = headers_for(&rules[earlier], &mut draws);
        let answer = bench.rule_misses(&case, &rules[..later].concat(), &header, earlier as u64)?;
        assert_eq!((answer.number, answer.a), (0, MATCHES), "the oracle: {case}, without the later one");
    }
    bench.rule_misses("twins but for the action", &[NARROW, lists::acting(NARROW, 0)].concat(), &WORKED, 2).map(|_| ())
}
