//! The order of refusals: inputs with several faults at once get the number that comes first in the order.

use oracle::rule_file::Kind;
use oracle::rules::RULE_WORDS;
use oracle::Answer;

use crate::bench::{Bench, Run};
use crate::damages::damaged_rules;
use crate::draws::Draws;
use crate::headers;
use crate::lists::{self, Manner, Rule, EVERYTHING};

/// The ways in which `break_length` and `break_header` break their words.
const FORMS: usize = 4;

/// The refusals of a line search, in their order.
const ORDER: [u64; 5] = [1, 2, 11, 3, 4];

/// Which of these refusals an input has a fault for: a bit for each, the lowest for the first.
#[derive(Clone, Copy, Debug)]
struct Faults(usize);

/// The inputs of one line search.
struct Input {
    words: Vec<u32>,
    header: Vec<u32>,
    room: usize,
}

pub fn run(bench: &mut Bench) -> Run {
    bench.group("damage", "every set of faults at once, in the order 1, 2, 11, 3, 4", every_set)
}

fn every_set(bench: &mut Bench) -> Run {
    let mut seed = 340_000;
    for faults in (0..1 << ORDER.len()).map(Faults) {
        for form in 0..FORMS * FORMS {
            // One rule has no twin.
            for size in [1, 2, 7, 100, 512].into_iter().filter(|&size| size > 1 || !faults.has(11)) {
                compare(bench, seed, size, faults, form)?;
                seed += 1;
            }
        }
    }
    Ok(())
}

/// Rule check looks for faults 1, 2 and 11 only, first-match for all but 4, all-match for all five, and the writer
/// with actions for all but 3, which it cannot have.
fn compare(bench: &mut Bench, seed: u64, size: usize, faults: Faults, form: usize) -> Run {
    let Input { words, header, room } = input(seed, size, faults, form);
    let case = format!("seed {seed}, list of {size}, {faults:?}, form {form}");
    let check = bench.rule_check(&case, &words)?;
    let first = bench.line_first(&case, &words, &header)?;
    let all = bench.line_all(&case, &words, &header, room)?;
    let text_room = if faults.has(4) { 12 * size } else { 100 * size };
    let writer = bench.list_write(&case, Kind::Acl, &words, text_room)?;
    bench.list_write(&case, Kind::Rules, &words, text_room)?;
    assert_eq!(check.number, faults.first_of(&[1, 2, 11]), "the oracle: {case}");
    assert_eq!(first.number, faults.first_of(&[1, 2, 11, 3]), "the oracle: {case}");
    assert_eq!(all.number, faults.first_of(&ORDER), "the oracle: {case}");
    assert_eq!(writer.number, faults.first_of(&[1, 2, 11, 4]), "the oracle: {case}");
    compare_misses(bench, &case, &words, &header, size as u64, first)
}

/// The call that says why a rule missed refuses as first-match does, whatever number is asked for. Only where that does
/// not is a number past the list 2.
fn compare_misses(bench: &mut Bench, case: &str, words: &[u32], header: &[u32], size: u64, first: Answer) -> Run {
    for number in [0, size / 2, size - 1, size, u64::MAX] {
        let answer = bench.rule_misses(case, words, header, number)?;
        let wanted = match first.number {
            0 if number >= size => (2, number),
            _ => (first.number, first.place),
        };
        assert_eq!((answer.number, answer.place), wanted, "the oracle: {case}, number {number}");
    }
    Ok(())
}

impl Faults {
    fn has(&self, number: u64) -> bool {
        let place = ORDER.iter().position(|&other| other == number).expect("a refusal of the order");
        self.0 >> place & 1 == 1
    }

    /// The first of these numbers that there is a fault for, or 0.
    fn first_of(&self, numbers: &[u64]) -> u64 {
        numbers.iter().copied().find(|&number| self.has(number)).unwrap_or(0)
    }
}

fn input(seed: u64, size: usize, faults: Faults, form: usize) -> Input {
    let mut draws = Draws::seeded(seed);
    let mut rules = lists::good_list(&mut draws, size, Manner::Mixed).rules;
    // One rule matches every header, so that no room is too short a room.
    lists::put_everything(&mut rules, size / 2);
    if faults.has(11) {
        let later = 1 + draws.below(size - 1);
        rules[later] = rules[draws.below(later)];
    }
    if faults.has(2) {
        break_rule(&mut rules, &mut draws);
    }
    let mut words = rules.concat();
    if faults.has(1) {
        break_length(&mut words, form % FORMS);
    }
    let mut header = headers::anywhere(&mut draws).to_vec();
    if faults.has(3) {
        break_header(&mut header, form / FORMS);
    }
    let room = if faults.has(4) { 0 } else { size };
    Input { words, header, room }
}

/// Damages one rule, in any way.
fn break_rule(rules: &mut [Rule], draws: &mut Draws) {
    let place = draws.below(rules.len());
    let kinds = damaged_rules(&rules[place]);
    rules[place] = kinds[draws.below(kinds.len())].rule;
}

/// Makes the words no list: a word too few, a word too many, 513 rules, or these and a word.
fn break_length(words: &mut Vec<u32>, form: usize) {
    if form >= 2 {
        words.extend(EVERYTHING.repeat(513 - words.len() / RULE_WORDS));
    }
    match form {
        0 => words.truncate(words.len() - 1),
        1 | 3 => words.push(u32::MAX),
        _ => {}
    }
}

/// Makes the words no header: too short, too long, or with too large a field.
fn break_header(words: &mut Vec<u32>, form: usize) {
    match form {
        0 => words.truncate(4),
        1 => words.push(0),
        2 => words[3] = 65_537,
        _ => words[4] = u32::MAX,
    }
}
