//! Correctness: good lists and good headers, at and around the corners of the rules.

use crate::bench::{Bench, Run};
use crate::draws::Draws;
use crate::headers::{self, Header, LARGEST};
use crate::lists::{self, List, EVERYTHING, LARGEST_END, MANNERS, WORKED_POLICY};

const PURPOSE: &str = "correctness";

/// The sizes of drawn lists. A list of every size is drawn in every manner.
const SIZES: [usize; 16] = [0, 1, 2, 3, 4, 5, 7, 10, 16, 25, 40, 64, 100, 180, 300, 512];
/// How often the sizes are gone through.
const ROUNDS: u64 = 6;
/// The rules of a list whose corners are searched for.
const CORNERED_RULES: usize = 6;
/// The headers of each other kind, for each list.
const OTHER_HEADERS: usize = 12;

pub fn run(bench: &mut Bench) -> Run {
    bench.group(PURPOSE, "the worked policy and the corners of its rules", worked_policy)?;
    bench.group(PURPOSE, "each prefix length against each flipped address bit", flipped_bits)?;
    bench.group(PURPOSE, "ranges against each value at and beside their ends", range_ends)?;
    bench.group(PURPOSE, "drawn good lists of 0 to 512 rules, headers at corners and anywhere", drawn_lists)
}

fn worked_policy(bench: &mut Bench) -> Run {
    const DESTINATION: u32 = 0xC0A8_0001;
    // Source, destination port, protocol, and how many rules match.
    let rows = [
        (0x0A01_0203, 80, 6, 3),
        (0x0A02_0001, 80, 6, 2),
        (0x0A01_0203, 443, 6, 2),
        (0x0A01_0203, 80, 17, 1),
        (0x09FF_FFFF, 80, 6, 1),
        (0x0AFF_FFFF, 80, 6, 2),
        (0x0B00_0000, 80, 6, 1),
    ];
    let words = WORKED_POLICY.concat();
    for (source, destination_port, protocol, matching) in rows {
        let header = [source, DESTINATION, 40_000, destination_port, protocol];
        let answer = bench.all_calls("worked policy", &words, &header)?;
        assert_eq!((answer.number, answer.a), (0, matching));
    }
    let list = List { rules: WORKED_POLICY.to_vec(), points: Vec::new() };
    let mut draws = Draws::seeded(100_001);
    search_corners(bench, &list, &mut draws, "worked policy")
}

/// A flipped bit within the length parts the header from the rule; one past it does not.
fn flipped_bits(bench: &mut Bench) -> Run {
    let mut draws = Draws::seeded(100_002);
    let addresses = [0, u32::MAX, 0x0A01_0203, draws.word(), draws.word()];
    for field in 0..2 {
        for length in 0..=32 {
            for address in addresses {
                let mut rule = EVERYTHING;
                rule[2 * field..2 * field + 2].copy_from_slice(&lists::prefix(address, length));
                let header = headers::with(headers::anywhere(&mut draws), field, address);
                let case = format!("field {field}, length {length}, address {address:#010x}");
                let answer = bench.all_calls(&format!("{case}, as it is"), &rule, &header)?;
                assert_eq!(answer.a, 1);
                for position in 0..32 {
                    let flipped = headers::with(header, field, address ^ 2_u32.pow(31 - position));
                    let answer = bench.all_calls(&format!("{case}, bit {position}"), &rule, &flipped)?;
                    assert_eq!(answer.a == 1, position >= length);
                }
            }
        }
    }
    Ok(())
}

/// Each range of some ends, against each value that is one of them or beside one. The whole range of a port holds an
/// absent one too.
fn range_ends(bench: &mut Bench) -> Run {
    let mut draws = Draws::seeded(100_003);
    for field in 2..5 {
        let largest = LARGEST_END[field];
        let ends = [0, 1, 2, largest / 2, largest / 2 + 1, largest - 1, largest];
        for low in ends {
            for high in ends.into_iter().filter(|&high| low <= high) {
                let mut rule = EVERYTHING;
                rule[2 * field..2 * field + 2].copy_from_slice(&[low, high]);
                let is_whole = low == 0 && high == largest;
                for value in ends.into_iter().chain([LARGEST[field]]) {
                    let header = headers::with(headers::anywhere(&mut draws), field, value);
                    let case = format!("field {field}, {low} to {high}, value {value}");
                    let answer = bench.all_calls(&case, &rule, &header)?;
                    assert_eq!(answer.a == 1, is_whole || (low <= value && value <= high));
                }
            }
        }
    }
    Ok(())
}

fn drawn_lists(bench: &mut Bench) -> Run {
    let mut seed = 110_000;
    for _ in 0..ROUNDS {
        for size in SIZES {
            for manner in MANNERS {
                let mut draws = Draws::seeded(seed);
                let list = lists::good_list(&mut draws, size, manner);
                search_list(bench, &list, &mut draws, &format!("seed {seed}, {manner:?} list of {size}"))?;
                seed += 1;
            }
        }
    }
    Ok(())
}

/// Searches the list for the points that it was drawn around, its corners, and headers anywhere.
fn search_list(bench: &mut Bench, list: &List, draws: &mut Draws, case: &str) -> Run {
    let answer = bench.rule_check(case, &list.words())?;
    assert_eq!((answer.number, answer.a), (0, list.rules.len() as u64));
    for point in &list.points {
        search(bench, list, point, draws, case)?;
    }
    search_corners(bench, list, draws, case)?;
    for _ in 0..OTHER_HEADERS {
        let header = headers::anywhere(draws);
        search(bench, list, &header, draws, case)?;
    }
    Ok(())
}

/// For some rules: each corner in one field with the others inside, and corners in all fields at once.
fn search_corners(bench: &mut Bench, list: &List, draws: &mut Draws, case: &str) -> Run {
    if list.rules.is_empty() {
        return Ok(());
    }
    for _ in 0..list.rules.len().min(CORNERED_RULES) {
        let rule = draws.pick(&list.rules);
        for field in 0..5 {
            for corner in headers::corners(&rule, field) {
                let header = headers::with(headers::inside(&rule, draws), field, corner);
                search(bench, list, &header, draws, case)?;
            }
        }
    }
    for _ in 0..OTHER_HEADERS {
        let rule = draws.pick(&list.rules);
        let header = std::array::from_fn(|field| draws.pick(&headers::corners(&rule, field)));
        search(bench, list, &header, draws, case)?;
    }
    Ok(())
}

/// First-match, all-match with ample room, and all-match with a room about as large as is needed.
fn search(bench: &mut Bench, list: &List, header: &Header, draws: &mut Draws, case: &str) -> Run {
    let words = list.words();
    let first = bench.line_first(case, &words, header)?;
    let all = bench.line_all(case, &words, header, list.rules.len() + draws.below(3))?;
    assert_eq!((first.number, all.number), (0, 0));
    assert_eq!(first.a > 0, all.a > 0);
    let room = (all.a as usize + draws.below(3)).saturating_sub(1);
    bench.line_all(case, &words, header, room)?;
    Ok(())
}
