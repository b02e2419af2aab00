//! The two writers of a list: what each refuses, in which order, and that what it writes reads back with its kind.

use oracle::rule_file::{list_text, Kind};
use oracle::rules::RULE_WORDS;

use crate::bench::{Bench, Run};
use crate::damages::damaged_rules;
use crate::draws::Draws;
use crate::lists::{self, acting, Rule, ACTION, EVERYTHING, MANNERS, WORKED_POLICY};
use crate::shared_ends::{put, with};
use crate::texts::Text;

const KINDS: [Kind; 2] = [Kind::Rules, Kind::Acl];

pub fn run(bench: &mut Bench) -> Run {
    bench.group("correctness", "acl files: each action, written and read back", each_action)?;
    bench.group("limits", "both writers: every room from none to three bytes more than the text", every_room)?;
    bench.group("damage", "rules writer: another action than 0 at each place, beside 11 and 4", refused_actions)?;
    bench.group("damage", "rules writer: another action than 0 beside each rule that is not good", two_faults)?;
    bench.group("damage", "both writers: every set of the faults 1, 2, 11 and 4", every_set)
}

/// The list as a file of the kind, and its words from there.
fn round(bench: &mut Bench, case: &str, kind: Kind, words: &[u32]) -> Run {
    let text = Text::of_list(kind, words);
    let written = bench.list_write(case, kind, words, text.bytes.len())?;
    assert_eq!((written.number, written.a), (0, text.bytes.len() as u64), "the oracle: {case}");
    let read = bench.read_in_rooms(case, &text)?;
    assert_eq!((read.number, read.b), (0, u64::from(kind == Kind::Acl)), "the oracle: {case}");
    Ok(())
}

/// Every action at once, each alone, and no rules; where all are 0, by both writers.
fn each_action(bench: &mut Bench) -> Run {
    let every: Vec<Rule> = (0..=255).map(|action| acting(with(3, [action, action]), action)).collect();
    round(bench, "each action in one list", Kind::Acl, &every.concat())?;
    for rule in &every {
        round(bench, &format!("action {} alone", rule[ACTION]), Kind::Acl, rule)?;
    }
    for kind in KINDS {
        round(bench, "no rules", kind, &[])?;
        round(bench, "worked policy", kind, &WORKED_POLICY.concat())?;
        let zeros: Vec<u32> = lists::wide_rules(512).into_iter().flat_map(|rule| acting(rule, 0)).collect();
        round(bench, "512 wide rules without actions", kind, &zeros)?;
    }
    round(bench, "512 wide rules", Kind::Acl, &lists::wide_rules(512).concat())
}

fn every_room(bench: &mut Bench) -> Run {
    let worked = [acting(WORKED_POLICY[0], 1), acting(WORKED_POLICY[1], 255), WORKED_POLICY[2]];
    let lists = [WORKED_POLICY.concat(), worked.concat(), EVERYTHING.to_vec(), acting(EVERYTHING, 10).to_vec(), vec![]];
    for words in lists {
        for kind in KINDS {
            let text = list_text(kind, &words);
            let bytes = text.as_ref().map_or(300, |text| text.len());
            for room in (0..=bytes + 3).chain([bytes + 300]) {
                let answer = bench.list_write("every room", kind, &words, room)?;
                let wanted = match &text {
                    Err(_) => (2, 0),
                    Ok(_) if room < bytes => (4, bytes),
                    Ok(_) => (0, 0),
                };
                assert_eq!((answer.number, answer.place as usize), wanted, "the oracle: {words:?}, room {room}");
            }
        }
    }
    Ok(())
}

/// 2 with the lowest rule that has another action than 0, whether there are twins or not, and in every room.
fn refused_actions(bench: &mut Bench) -> Run {
    for seed in 2_700_000..2_700_030 {
        let mut draws = Draws::seeded(seed);
        let size = 1 + draws.below(12);
        let mut rules = lists::good_list(&mut draws, size, MANNERS[seed as usize % 4]).rules;
        rules.iter_mut().for_each(|rule| rule[ACTION] = 0);
        for place in 0..size {
            for action in [1, 9, 255, 256, 512, 1 << 16, u32::MAX] {
                let mut acted = rules.clone();
                acted[place][ACTION] = action;
                if draws.once_in(2) {
                    acted[place + draws.below(size - place)][ACTION] |= 3;
                }
                if size > 1 && draws.once_in(2) {
                    let later = 1 + draws.below(size - 1);
                    let (earlier, own) = (acted[draws.below(later)], acted[later][ACTION]);
                    acted[later] = acting(earlier, own);
                }
                let case = format!("seed {seed}, rule {place} of {size} has action {action}");
                for room in [0, 20 * size, 200 * size] {
                    let answer = bench.list_write(&case, Kind::Rules, &acted.concat(), room)?;
                    assert_eq!((answer.number, answer.place as usize), (2, place), "the oracle: {case}");
                    bench.list_write(&case, Kind::Acl, &acted.concat(), room)?;
                }
            }
        }
    }
    Ok(())
}

/// The lower of the two rules is named, be it the one with the action or the one that is not good.
fn two_faults(bench: &mut Bench) -> Run {
    for seed in 2_710_000..2_710_008 {
        let mut draws = Draws::seeded(seed);
        let size = 2 + draws.below(6);
        let mut rules = lists::good_list(&mut draws, size, MANNERS[seed as usize % 4]).rules;
        rules.iter_mut().for_each(|rule| rule[ACTION] = 0);
        for damaged in damaged_rules(&rules[0]) {
            for (bad, acted) in [(0, size - 1), (size - 1, 0), (size / 2, size / 2)] {
                let mut wrong = rules.clone();
                wrong[bad] = damaged.rule;
                wrong[acted][ACTION] = wrong[acted][ACTION].max(1);
                let case = format!("seed {seed}, {} at {bad}, an action at {acted}", damaged.kind);
                let answer = bench.list_write(&case, Kind::Rules, &wrong.concat(), 200 * size)?;
                assert_eq!((answer.number, answer.place as usize), (2, bad.min(acted)), "the oracle: {case}");
                let answer = bench.list_write(&case, Kind::Acl, &wrong.concat(), 200 * size)?;
                assert_eq!((answer.number, answer.place as usize), (2, bad), "the oracle: {case}");
            }
        }
    }
    Ok(())
}

/// 1, then 2 for an action, then 11, then 4. The writer with actions has no 2 for them, and so 11 shows.
fn every_set(bench: &mut Bench) -> Run {
    for set in 0..16 {
        let has = |fault: usize| set >> fault & 1 == 1;
        for place in 0..4 {
            let mut rules: Vec<Rule> = (0..4).map(|number| put(EVERYTHING, 2, [number, 9])).collect();
            if has(1) {
                rules[place][ACTION] = 7;
            }
            if has(2) {
                rules[3] = acting(rules[1], rules[3][ACTION]);
            }
            let mut words = rules.concat();
            if has(0) {
                words.truncate(4 * RULE_WORDS - 1 - place);
            }
            let case = format!("set {set} of the faults, an action at {place}");
            let room = if has(3) { 40 } else { 400 };
            for kind in KINDS {
                let answer = bench.list_write(&case, kind, &words, room)?;
                let wanted = match () {
                    _ if has(0) => (1, 0),
                    _ if has(1) && kind == Kind::Rules => (2, place),
                    _ if has(2) => (11, 3),
                    _ => (if has(3) { 4 } else { 0 }, answer.place as usize),
                };
                assert_eq!((answer.number, answer.place as usize), wanted, "the oracle: {case}");
            }
        }
    }
    Ok(())
}
