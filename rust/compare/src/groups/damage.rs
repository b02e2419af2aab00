//! Damage: rules that are not good and headers that are too large, alone and several at once.

use crate::bench::{Bench, Run};
use crate::damages::{self, damaged_rules};
use crate::draws::Draws;
use crate::headers::{self, Header};
use crate::lists::{self, Manner, Rule, EVERYTHING, MANNERS, WORKED_POLICY};
use crate::texts;

const PURPOSE: &str = "damage";

pub fn run(bench: &mut Bench) -> Run {
    bench.group(PURPOSE, "every kind of damage at the first, a middle and the last rule", one_bad_rule)?;
    bench.group(PURPOSE, "each stray bit past each prefix length, in lists and in files", stray_bits)?;
    bench.group(PURPOSE, "two bad rules, the lower one named", two_bad_rules)?;
    bench.group(PURPOSE, "a bad rule after the first match", bad_after_match)?;
    bench.group(PURPOSE, "too large ports and protocols, alone and together", bad_headers)
}

fn one_bad_rule(bench: &mut Bench) -> Run {
    let mut seed = 310_000;
    for size in [1, 2, 3, 10, 511, 512] {
        for manner in MANNERS {
            let mut draws = Draws::seeded(seed);
            let list = lists::good_list(&mut draws, size, manner);
            for place in [0, size / 2, size - 1] {
                let header = headers::inside(&list.rules[place], &mut draws);
                for damaged in damaged_rules(&list.rules[place]) {
                    let mut rules = list.rules.clone();
                    rules[place] = damaged.rule;
                    let case = format!("seed {seed}, {manner:?} list of {size}, rule {place}: {}", damaged.kind);
                    expect_bad_rule(bench, &case, &rules, &header, place)?;
                }
            }
            seed += 1;
        }
    }
    Ok(())
}

fn stray_bits(bench: &mut Bench) -> Run {
    let mut draws = Draws::seeded(300_001);
    for field in 0..2 {
        for length in 0..32 {
            for address in [0, u32::MAX, draws.word()] {
                for position in length..32 {
                    let mut rule = EVERYTHING;
                    let [address, length] = lists::prefix(address, length);
                    rule[2 * field] = address + 2_u32.pow(31 - position);
                    rule[2 * field + 1] = length;
                    let case = format!("field {field}, length {length}, stray bit {position} of {address:#010x}");
                    let header = headers::with([0; 5], field, address);
                    let rules = [EVERYTHING, rule, WORKED_POLICY[0]];
                    expect_bad_rule(bench, &case, &rules, &header, 1)?;
                    let answer = bench.read_in_rooms(&case, &texts::rules_file(3, &rules))?;
                    assert_eq!((answer.number, answer.place), (9, 3), "the oracle: {case}");
                }
            }
        }
    }
    Ok(())
}

fn two_bad_rules(bench: &mut Bench) -> Run {
    for seed in 320_000..320_400 {
        let mut draws = Draws::seeded(seed);
        let size = 2 + draws.below(60);
        let manner = draws.pick(&MANNERS);
        let mut rules = lists::good_list(&mut draws, size, manner).rules;
        let header = headers::inside(&rules[0], &mut draws);
        let lower = draws.below(size - 1);
        let upper = lower + 1 + draws.below(size - lower - 1);
        for place in [lower, upper] {
            let kinds = damaged_rules(&rules[place]);
            rules[place] = kinds[draws.below(kinds.len())].rule;
        }
        let case = format!("seed {seed}, bad rules {lower} and {upper}");
        expect_bad_rule(bench, &case, &rules, &header, lower)?;
    }
    Ok(())
}

/// Rule 0 matches every header, so a search that stops there would miss the bad rule.
fn bad_after_match(bench: &mut Bench) -> Run {
    for seed in 330_000..330_100 {
        let mut draws = Draws::seeded(seed);
        let size = 2 + draws.below(100);
        let mut rules = lists::good_list(&mut draws, size, Manner::Mixed).rules;
        lists::put_everything(&mut rules, 0);
        let place = 1 + draws.below(size - 1);
        let kinds = damaged_rules(&rules[place]);
        let damaged = &kinds[draws.below(kinds.len())];
        rules[place] = damaged.rule;
        let header = headers::anywhere(&mut draws);
        let case = format!("seed {seed}, rule {place} after the first match: {}", damaged.kind);
        expect_bad_rule(bench, &case, &rules, &header, place)?;
    }
    Ok(())
}

/// All three calls give 2 at this rule, all-match with room and without.
fn expect_bad_rule(bench: &mut Bench, case: &str, rules: &[Rule], header: &Header, place: usize) -> Run {
    let words = rules.concat();
    let answer = bench.all_calls(case, &words, header)?;
    assert_eq!((answer.number, answer.place), (2, place as u64), "the oracle: {case}");
    bench.line_all(case, &words, header, 0)?;
    Ok(())
}

fn bad_headers(bench: &mut Bench) -> Run {
    let mut draws = Draws::seeded(300_002);
    let worked = WORKED_POLICY.concat();
    let drawn = lists::good_list(&mut draws, 30, Manner::Mixed);
    for list in [&[], worked.as_slice(), drawn.words().as_slice()] {
        for fields in 0..8 {
            for choice in 0..5 {
                for point in [[0; 5], headers::LARGEST, drawn.points[0], headers::anywhere(&mut draws)] {
                    let header = damages::with_bad_fields(&point, fields, choice);
                    for room in [0, 1, 30] {
                        let case = format!("seed 300002, set {fields} of bad fields, choice {choice}");
                        let all = bench.line_all(&case, list, &header, room)?;
                        let first = bench.line_first(&case, list, &header)?;
                        if fields > 0 {
                            let lowest = 2 + u64::from(fields.trailing_zeros());
                            assert_eq!((all.number, all.place), (3, lowest));
                            assert_eq!((first.number, first.place), (3, lowest));
                        }
                    }
                }
            }
        }
    }
    Ok(())
}
