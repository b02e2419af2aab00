//! Twins beside each other fault: 1 and 2 come before 11, and 3 to 8 after it. In a text 9 and 10 come before it, and 4
//! after it.

use oracle::rule_file::Kind;

use crate::bench::{Agreed, Bench, Run};
use crate::damages::{damaged_rules, with_bad_fields};
use crate::draws::Draws;
use crate::groups::twins::Pair;
use crate::headers::WORKED;
use crate::lists::{self, Rule, MANNERS, WORKED_POLICY};
use crate::text_damages::{self, DamagedText};
use crate::texts;
use crate::tree_damages;
use crate::trees::{self, Policy};

const PURPOSE: &str = "damage";

pub fn run(bench: &mut Bench) -> Run {
    bench.group(PURPOSE, "twins: beside a wrong number of words, and rules that are not good", before_11)?;
    bench.group(PURPOSE, "twins: beside wrong headers, trees and short rooms", after_11)?;
    bench.group(
        PURPOSE,
        "twins: texts cut at each byte, damaged, and with anything after their end",
        texts_of_twins,
    )?;
    bench.group(PURPOSE, "twins: readers with every room", every_room)
}

/// The worked policy with its rule 1 once more at the end.
const WORKED_TWINS: [Rule; 4] = [WORKED_POLICY[0], WORKED_POLICY[1], WORKED_POLICY[2], WORKED_POLICY[1]];

/// A drawn list with one pair of twins.
fn drawn_twins(seed: u64) -> (Vec<Rule>, Pair) {
    let mut draws = Draws::seeded(seed);
    let size = 2 + draws.below(20);
    let manner = draws.pick(&MANNERS);
    let mut rules = lists::good_list(&mut draws, size, manner).rules;
    let later = 1 + draws.below(size - 1);
    let earlier = draws.below(later);
    rules[later] = rules[earlier];
    (rules, [later, earlier])
}

/// All calls that judge the list refuse it so; each is lent all that it needs.
fn expect_refused(bench: &mut Bench, case: &str, words: &[u32], number: u64, place: usize) -> Run {
    let worked = trees::worked().policy;
    let policy = Policy { rules: words.to_vec(), ..worked };
    let all = bench.all_calls(case, words, &WORKED)?;
    let check = bench.tree_check(case, &policy)?;
    let built = bench.build(case, words, [60, 60])?;
    for answer in [all, check, built] {
        assert_eq!((answer.number, answer.place), (number, place as u64), "the oracle: {case}");
    }
    Ok(())
}

/// A word too few and too many, and 513 rules; each rule in turn not good, and both twins in the same way.
fn before_11(bench: &mut Bench) -> Run {
    for seed in 1_720_000..1_720_016 {
        let (rules, [later, earlier]) = drawn_twins(seed);
        let mut draws = Draws::seeded(seed);
        let words = rules.concat();
        let case = format!("seed {seed}, twins {later} and {earlier} of {}", rules.len());
        expect_refused(bench, &case, &words[..words.len() - 1], 1, 0)?;
        expect_refused(bench, &case, &[&words[..], &[0]].concat(), 1, 0)?;
        expect_refused(bench, &case, &[&words[..], &lists::wide_rules(513 - rules.len()).concat()].concat(), 1, 0)?;
        expect_refused(bench, &case, &words, 11, later)?;
        for place in 0..rules.len() {
            let kinds = damaged_rules(&rules[place]);
            let damaged = &kinds[draws.below(kinds.len())];
            let mut other = rules.clone();
            other[place] = damaged.rule;
            let case = format!("{case}, rule {place}: {}", damaged.kind);
            expect_refused(bench, &case, &other.concat(), 2, place)?;
            if place == later {
                other[earlier] = damaged.rule;
                expect_refused(bench, &format!("{case}, in both"), &other.concat(), 2, earlier)?;
            }
        }
    }
    Ok(())
}

/// A header of each wrong kind and each room, and trees with each damage: 11 is given before any of them is looked at.
fn after_11(bench: &mut Bench) -> Run {
    let (words, twins) = (WORKED_TWINS.concat(), (11, 3, 1));
    let wrong_headers = (1..8).map(|fields| with_bad_fields(&WORKED, fields, 0).to_vec());
    let headers = [vec![], WORKED[..4].to_vec(), [&WORKED[..], &[0]].concat(), WORKED.to_vec()];
    for header in headers.into_iter().chain(wrong_headers) {
        for room in [0, 1, 3, 4, 9] {
            let case = format!("worked policy with a twin, header {header:?}, room {room}");
            let all = bench.line_all(&case, &words, &header, room)?;
            let first = bench.line_first(&case, &words, &header)?;
            for answer in [all, first] {
                assert_eq!((answer.number, answer.place, answer.extra), twins, "the oracle: {case}");
            }
        }
    }
    let length = texts::rules_file(4, &WORKED_TWINS).bytes.len();
    for room in [0, 1, 2, 3, 4, 7, 14, length - 1, length, length + 1] {
        let case = format!("worked policy with a twin, room {room}");
        let writers = [Kind::Rules, Kind::Acl].map(|kind| bench.list_write(&case, kind, &words, room));
        for answer in writers.into_iter().chain([bench.build(&case, &words, [room, room])]) {
            let answer = answer?;
            assert_eq!((answer.number, answer.place, answer.extra), twins, "the oracle: {case}");
        }
    }
    let planted = trees::worked();
    let cuts = planted.places.cuts.iter().flat_map(|cut| tree_damages::cut_damages(&planted, cut));
    let leaves = planted.places.leaves.iter().flat_map(|leaf| tree_damages::leaf_damages(&planted, leaf));
    for damaged in cuts.chain(leaves).chain(tree_damages::end_damages(&planted)) {
        let case = format!("worked policy with a twin, {}", damaged.kind);
        let answer = bench.tree_check(&case, &Policy { rules: words.clone(), ..damaged.policy })?;
        assert_eq!((answer.number, answer.place, answer.extra), twins, "the oracle: {case}");
    }
    Ok(())
}

/// The file is judged whole before its rules are compared with each other.
fn texts_of_twins(bench: &mut Bench) -> Run {
    let text = texts::rules_file(4, &WORKED_TWINS);
    for length in 0..text.bytes.len() {
        let cut = text.with(text.bytes[..length].to_vec());
        let answer = bench.read_in_rooms(&format!("worked policy with a twin, cut to {length} bytes"), &cut)?;
        assert_eq!(answer.number, 10, "the oracle: a text that is cut");
    }
    for damaged in text_damages::afters(&text) {
        let answer = read(bench, &damaged)?;
        assert_eq!((answer.number, answer.place), (9, 7), "the oracle: {}", damaged.kind);
    }
    // Damage may leave twins or not; the oracle tells.
    let mut numbers = [0; 13];
    let two = texts::rules_file(2, &[WORKED_POLICY[1]; 2]);
    let lines = (0..text.lines().len()).flat_map(|line| text_damages::line_damages(&text, line));
    let digits = text_damages::numbers(&two).into_iter().flat_map(|digits| text_damages::number_damages(&two, digits));
    for damaged in lines.chain(digits) {
        numbers[read(bench, &damaged)?.number as usize] += 1;
    }
    assert!([0, 9, 11].iter().all(|&number| numbers[number] > 20), "some of each: {numbers:?}");
    Ok(())
}

fn read(bench: &mut Bench, damaged: &DamagedText) -> Agreed {
    bench.read_in_rooms(&format!("worked policy with a twin, {}", damaged.kind), &damaged.text)
}

/// 11 comes before 4, and nothing is written.
fn every_room(bench: &mut Bench) -> Run {
    for seed in 1_730_000..1_730_010 {
        let (rules, [later, earlier]) = drawn_twins(seed);
        let text = texts::rules_file(rules.len(), &rules);
        let needed = text.needed[0];
        let case = format!("seed {seed}, twins {later} and {earlier} of {}", rules.len());
        for room in (0..=20.min(needed)).chain([needed - 11, needed - 1, needed, needed + 1, needed + 100]) {
            let answer = bench.rules_read(&case, &text.bytes, room)?;
            let given = (answer.number, answer.place as usize, answer.extra as usize);
            assert_eq!(given, (11, later, earlier), "the oracle: {case}");
        }
    }
    Ok(())
}
