//! Why a rule missed: which field is the lowest that disagrees, for each field alone, for every set of them, and for
//! drawn lists, in which the rules that match are those that the line search lists.

use oracle::header::ABSENT_PORT;

use crate::bench::{Bench, Run};
use crate::draws::Draws;
use crate::groups::absent_ports::{takes, GOOD, VALUES};
use crate::headers::{self, Header, LARGEST, PORTS, WORKED};
use crate::lists::{self, Rule, EVERYTHING, LARGEST_END, MANNERS, WORKED_POLICY};
use crate::shared_ends::put;

const PURPOSE: &str = "correctness";

/// What the call gives for a rule that matches.
pub const MATCHES: u64 = 5;

/// A rule that is narrow in every field. It matches the worked policy's first header.
pub const NARROW: Rule = [0x0A01_0200, 24, 0xC0A8_0000, 16, 40_000, 40_010, 70, 80, 6, 17, 9];

/// For each field, words of a rule that its value in the worked policy's first header does not agree with.
pub const OTHERS: [[u32; 2]; 5] = [[0x0A01_0300, 24], [0xC0A9_0000, 16], [40_001, 65_535], [0, 79], [7, 255]];

/// The lengths of the prefixes that are tried.
const LENGTHS: [u32; 5] = [0, 1, 8, 31, 32];

pub fn run(bench: &mut Bench) -> Run {
    bench.group(PURPOSE, "misses: prefixes of lengths 0 to 32 against each flipped bit and both ends", prefixes)?;
    bench.group(PURPOSE, "misses: ranges of ports against values about 65,536, in each port", ports)?;
    bench.group(PURPOSE, "misses: ranges of protocols against each value at and beside their ends", protocols)?;
    bench.group(PURPOSE, "misses: every set of fields that disagree, the lowest given", every_set)?;
    bench.group(PURPOSE, "misses: drawn lists, 5 for the rules that the line search lists alone", drawn_lists)
}

/// The rule is compared where it stands between two others, and where it is the whole list.
fn expect(bench: &mut Bench, case: &str, rule: Rule, header: &Header, misses: u64) -> Run {
    for (words, number) in [([WORKED_POLICY[0], rule, WORKED_POLICY[1]].concat(), 1), (rule.to_vec(), 0)] {
        let answer = bench.rule_misses(case, &words, header, number)?;
        assert_eq!((answer.number, answer.a), (0, misses), "the oracle: {case}");
    }
    Ok(())
}

/// What one field must come to, all others agreeing.
fn alone(field: usize, agrees: bool) -> u64 {
    if agrees {
        MATCHES
    } else {
        field as u64
    }
}

fn prefixes(bench: &mut Bench) -> Run {
    let mut draws = Draws::seeded(4_000_000);
    let addresses = [0, u32::MAX, WORKED[0], draws.word(), draws.word()];
    for (field, length) in [0, 1].into_iter().flat_map(|field| LENGTHS.map(|length| (field, length))) {
        for (base, address) in [EVERYTHING, NARROW].into_iter().flat_map(|base| addresses.map(|own| (base, own))) {
            let rule = put(base, field, lists::prefix(address, length));
            let (low, high) = headers::range_of(&rule, field);
            let flipped = (0..32).map(|bit| address ^ (1 << bit));
            let ends = [low, high, low.wrapping_sub(1), high.wrapping_add(1), 0, u32::MAX];
            for value in flipped.chain(ends) {
                let case = format!("field {field}, {address:#010x}/{length} against {value:#010x}");
                let misses = alone(field, low <= value && value <= high);
                expect(bench, &case, rule, &headers::with(WORKED, field, value), misses)?;
            }
        }
    }
    Ok(())
}

/// A port that is absent agrees with the whole range alone, and one that is too large is refused.
fn ports(bench: &mut Bench) -> Run {
    for (field, range) in PORTS.into_iter().flat_map(|field| GOOD.map(|range| (field, range))) {
        for (base, value) in [EVERYTHING, NARROW].into_iter().flat_map(|base| VALUES.map(|value| (base, value))) {
            let case = format!("field {field}, {range:?} against {value}");
            let (rule, header) = (put(base, field, range), headers::with(WORKED, field, value));
            if value > ABSENT_PORT {
                let answer = bench.rule_misses(&case, &rule, &header, 0)?;
                assert_eq!((answer.number, answer.place), (3, field as u64), "the oracle: {case}");
            } else {
                expect(bench, &case, rule, &header, alone(field, takes(range, value)))?;
            }
        }
    }
    Ok(())
}

fn protocols(bench: &mut Bench) -> Run {
    for range in [[0, 255], [0, 0], [255, 255], [6, 6], [1, 254], [0, 127], [128, 255], [6, 17]] {
        for (base, value) in [EVERYTHING, NARROW].into_iter().flat_map(|base| (0..=255).map(move |own| (base, own))) {
            let case = format!("protocols {range:?} against {value}");
            let misses = alone(4, range[0] <= value && value <= range[1]);
            expect(bench, &case, put(base, 4, range), &headers::with(WORKED, 4, value), misses)?;
        }
    }
    Ok(())
}

/// The header leaves the rule in these fields: bit 0 of the set for field 0, and so on. And one header is compared with
/// a list of all 32 rules that disagree with it so.
fn every_set(bench: &mut Bench) -> Run {
    let lowest = |set: u32| u64::from(set.trailing_zeros()).min(MATCHES);
    for set in 0..32 {
        for choice in 0..6 {
            let header = broken(&WORKED, &NARROW, set, choice);
            expect(bench, &format!("set {set:#07b}, choice {choice}"), NARROW, &header, lowest(set))?;
        }
    }
    let rule =
        |set: u32| (0..5).filter(|field| set >> field & 1 == 1).fold(NARROW, |rule, at| put(rule, at, OTHERS[at]));
    let rules: Vec<Rule> = (0..32).map(rule).collect();
    for set in 0..32 {
        let answer = bench.rule_misses("a rule for each set", &rules.concat(), &WORKED, u64::from(set))?;
        assert_eq!((answer.number, answer.a), (0, lowest(set)), "the oracle: rule {set}");
    }
    Ok(())
}

/// The header with another value in each field of the set, which the rule, narrow in every field, does not agree with:
/// just below its range, just above it, or at an end of the field.
pub fn broken(header: &Header, rule: &Rule, set: u32, choice: usize) -> Header {
    std::array::from_fn(|field| {
        let (low, high) = headers::range_of(rule, field);
        let outside = [low - 1, high + 1, 0, LARGEST_END[field], LARGEST[field], low / 2];
        if set >> field & 1 == 1 {
            outside[(choice + field) % outside.len()]
        } else {
            header[field]
        }
    })
}

/// Lists are drawn in every manner. Of long ones only some rules are asked for, and the header's own.
fn drawn_lists(bench: &mut Bench) -> Run {
    let (mut seed, mut fields) = (4_010_000, [0; 6]);
    for size in [1, 2, 5, 16, 40, 100, 300, 512] {
        for manner in MANNERS {
            let mut draws = Draws::seeded(seed);
            let list = lists::good_list(&mut draws, size, manner);
            let words = list.words();
            for _ in 0..if size > 100 { 3 } else { 10 } {
                let own = draws.below(size);
                let inside = headers::inside(&list.rules[own], &mut draws);
                let point = draws.pick(&list.points);
                let near = draws.pick(&[inside, point]);
                let header = with_others(near, &list.rules[own], &mut draws);
                let case = format!("seed {seed}, {manner:?} list of {size}");
                let listed = bench.line_numbers(&case, &words, &header)?;
                let step = if size > 100 { 5 } else { 1 };
                for number in (0..size).step_by(step).chain([own, size - 1]) {
                    let misses = bench.rule_misses(&case, &words, &header, number as u64)?.a;
                    let is_listed = listed.contains(&(number as u32));
                    assert_eq!(misses == MATCHES, is_listed, "the library: {case}, rule {number}, {header:?}");
                    fields[misses as usize] += 1;
                }
            }
            seed += 1;
        }
    }
    assert!(fields.iter().all(|&count| count > 200), "some of each: {fields:?}");
    Ok(())
}

/// The header, of which up to three fields are then at corners of the rule, or anywhere.
pub fn with_others(mut header: Header, rule: &Rule, draws: &mut Draws) -> Header {
    for _ in 0..draws.below(4) {
        let field = draws.below(5);
        let anywhere = headers::anywhere(draws)[field];
        let [low, high, below, above] = headers::corners(rule, field);
        header[field] = draws.pick(&[low, high, below, below, above, above, anywhere, anywhere]);
    }
    header
}
