//! The two searches that judge no list: good lists, lists of any length, damaged ones, and any room and header.

use oracle::rules::RULE_WORDS;
use oracle::Answer;

use crate::bench::{Bench, Run};
use crate::damages::{self, damaged_rules};
use crate::draws::Draws;
use crate::headers::{self, Header, LARGEST, WORKED};
use crate::lists::{self, Manner, EVERYTHING, MANNERS, WORKED_POLICY};

use super::drawn_damage::turn_words;

/// The most rules that are lent. A list that the rule check takes has 512.
const MANY_RULES: usize = 1_024;

pub fn run(bench: &mut Bench) -> Run {
    bench.group("correctness", "scans of drawn good lists, as the line search has them", good_lists)?;
    bench.group("limits", "scans of 0 to 1,024 rules, and of words past the last whole rule", any_lengths)?;
    bench.group("limits", "scans with every room from none to two more than the matches", every_room)?;
    bench.group("limits", "scans for headers of 0 to 12 words, and with too large fields", bad_headers)?;
    bench.group("damage", "scans of lists with every kind of damage", damaged_lists)?;
    bench.group("damage", "scans of words near the limits, and of wholly drawn words", drawn_words)
}

/// The list is good, so the line search and the scan answer the same, with any room.
fn good_lists(bench: &mut Bench) -> Run {
    let mut seed = 460_000;
    for size in [0, 1, 2, 5, 16, 40, 100, 300, 512] {
        for manner in MANNERS {
            let mut draws = Draws::seeded(seed);
            let list = lists::good_list(&mut draws, size, manner);
            let words = list.words();
            for _ in 0..20 {
                let header = header_for(&list.rules, &mut draws);
                let case = format!("seed {seed}, {manner:?} list of {size}");
                let first = bench.scan_first(&case, &words, &header)?;
                assert_eq!(first, bench.line_first(&case, &words, &header)?, "the oracle: {case}");
                let count = bench.scan_all(&case, &words, &header, size)?.a as usize;
                for room in [count.saturating_sub(1), count, count + 1] {
                    let all = bench.scan_all(&case, &words, &header, room)?;
                    assert_eq!(all, bench.line_all(&case, &words, &header, room)?, "the oracle: {case}");
                }
            }
            seed += 1;
        }
    }
    Ok(())
}

/// A header inside a rule of the list, at its corners, or anywhere.
fn header_for(rules: &[lists::Rule], draws: &mut Draws) -> Header {
    if rules.is_empty() || draws.once_in(4) {
        return headers::anywhere(draws);
    }
    let rule = draws.pick(rules);
    let inside = headers::inside(&rule, draws);
    let field = draws.below(5);
    let corner = headers::with(inside, field, draws.pick(&headers::corners(&rule, field)));
    draws.pick(&[inside, corner])
}

/// The words are cut within a rule at each place, before 512 rules and after. Where every rule matches, a rule that is
/// only begun would be seen in the count.
fn any_lengths(bench: &mut Bench) -> Run {
    for size in [0, 1, 2, 3, 10, 511, 512, 513, 514, 600, 1_000, MANY_RULES] {
        let everything = EVERYTHING.repeat(size + 1);
        let last_alone = [EVERYTHING.map(|_| 9).repeat(size), EVERYTHING.to_vec()].concat();
        for more in 0..RULE_WORDS {
            let words = RULE_WORDS * size + more;
            let case = format!("everything, {words} words");
            expect(scan(bench, &case, &everything[..words], &WORKED)?, size, 0);
            let case = format!("a rule that matches behind {size} that do not, {words} words");
            expect(scan(bench, &case, &last_alone[..words], &WORKED)?, 0, 0);
        }
        let case = format!("a rule that matches behind {size} that do not, whole");
        expect(scan(bench, &case, &last_alone, &WORKED)?, 1, size);
    }
    let mut seed = 470_000;
    for size in [513, 700, MANY_RULES] {
        for manner in MANNERS {
            let mut draws = Draws::seeded(seed);
            let list = lists::good_list(&mut draws, size, manner);
            for _ in 0..20 {
                let header = header_for(&list.rules, &mut draws);
                scan(bench, &format!("seed {seed}, {manner:?} list of {size}"), &list.words(), &header)?;
            }
            seed += 1;
        }
    }
    Ok(())
}

/// Both answers: the lowest number that matches, and how many match.
struct Scanned {
    first: Answer,
    all: Answer,
}

/// Both scans, for all with room for a number of every rule.
fn scan(bench: &mut Bench, case: &str, rules: &[u32], header: &[u32]) -> Result<Scanned, String> {
    let first = bench.scan_first(case, rules, header)?;
    let all = bench.scan_all(case, rules, header, rules.len() / RULE_WORDS)?;
    Ok(Scanned { first, all })
}

/// The oracle finds so many rules, from this one on.
fn expect(scanned: Scanned, count: usize, from: usize) {
    let first = if count == 0 { 0 } else { from as u64 + 1 };
    assert_eq!((scanned.all.number, scanned.all.a), (0, count as u64));
    assert_eq!((scanned.first.number, scanned.first.a), (0, first));
}

/// Too short a room names the whole number of matches, however short it is, and leaves all of it as found.
fn every_room(bench: &mut Bench) -> Run {
    let worked = WORKED_POLICY.concat();
    let not_good = EVERYTHING.map(|word| word * 2).repeat(20);
    let many = EVERYTHING.repeat(600);
    for (words, counts) in [(&worked[..], 3), (&not_good[..], 20), (&not_good[..219], 19), (&many[..], 600), (&[], 0)] {
        for room in 0..counts + 3 {
            let case = format!("{} words, {counts} matches", words.len());
            let answer = bench.scan_all(&case, words, &WORKED, room)?;
            let wanted = if room < counts { (4, counts, 0) } else { (0, 0, counts) };
            assert_eq!((answer.number, answer.place as usize, answer.a as usize), wanted);
        }
    }
    Ok(())
}

/// 3 comes before 4, for any list and any room.
fn bad_headers(bench: &mut Bench) -> Run {
    let mut draws = Draws::seeded(200_006);
    let worked = WORKED_POLICY.concat();
    let many = EVERYTHING.repeat(513);
    let none: Vec<u32> = vec![u32::MAX; 19];
    for list in [&[], &worked[..], &many[..], &none[..]] {
        for room in [0, 1, 513] {
            for length in (0..=12).filter(|&length| length != 5) {
                let random: Vec<u32> = (0..length).map(|_| draws.word()).collect();
                for header in [vec![0; length], vec![u32::MAX; length], random] {
                    let case = format!("seed 200006, header of {length} words");
                    expect_3(bench, &case, list, &header, room, 5)?;
                }
            }
            for fields in 1..8_usize {
                for choice in 0..5 {
                    let header = damages::with_bad_fields(&draws.pick(&[WORKED, LARGEST]), fields, choice);
                    let case = format!("seed 200006, set {fields} of bad fields, choice {choice}");
                    expect_3(bench, &case, list, &header, room, 2 + u64::from(fields.trailing_zeros()))?;
                }
            }
        }
    }
    Ok(())
}

fn expect_3(bench: &mut Bench, case: &str, list: &[u32], header: &[u32], room: usize, place: u64) -> Run {
    let all = bench.scan_all(case, list, header, room)?;
    let first = bench.scan_first(case, list, header)?;
    assert_eq!((all.number, all.place), (3, place), "the oracle: {case}");
    assert_eq!((first.number, first.place), (3, place), "the oracle: {case}");
    Ok(())
}

/// No damage of a rule is refused: the rule matches by its words as they are. Exact room and one less are tried.
fn damaged_lists(bench: &mut Bench) -> Run {
    let mut seed = 480_000;
    for size in [1, 3, 20] {
        for manner in MANNERS {
            let mut draws = Draws::seeded(seed);
            let list = lists::good_list(&mut draws, size, manner);
            let place = draws.below(size);
            let good = list.rules[place];
            for damaged in damaged_rules(&good) {
                let mut rules = list.rules.clone();
                rules[place] = damaged.rule;
                let case = format!("seed {seed}, {manner:?} list of {size}, rule {place}: {}", damaged.kind);
                for header in [headers::inside(&good, &mut draws), LARGEST, headers::anywhere(&mut draws)] {
                    let Scanned { first, all } = scan(bench, &case, &rules.concat(), &header)?;
                    assert_eq!((first.number, all.number), (0, 0), "the oracle: {case}");
                    let count = all.a as usize;
                    bench.scan_all(&case, &rules.concat(), &header, count)?;
                    bench.scan_all(&case, &rules.concat(), &header, count.saturating_sub(1))?;
                }
            }
            seed += 1;
        }
    }
    Ok(())
}

fn drawn_words(bench: &mut Bench) -> Run {
    for seed in 490_000..500_000 {
        let mut draws = Draws::seeded(seed);
        let size = draws.below(6);
        let mut words = lists::good_list(&mut draws, size, Manner::Mixed).words();
        match draws.below(3) {
            0 => words = (0..draws.below(80)).map(|_| draws.word() >> draws.pick(&[0, 8, 16, 24])).collect(),
            _ => turn_words(&mut words, draws.pick(&[2, 10, 30]), &mut draws),
        }
        words.truncate(words.len() - draws.below(words.len().min(12) + 1));
        let mut header = headers::anywhere(&mut draws);
        turn_words(&mut header, 4, &mut draws);
        let case = format!("seed {seed}, any words");
        scan(bench, &case, &words, &header)?;
        bench.scan_all(&case, &words, &header, draws.below(size + 1))?;
    }
    Ok(())
}
