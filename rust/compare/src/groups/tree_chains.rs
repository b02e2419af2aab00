//! Limits of trees: so many cuts one below the other.

use oracle::parts::Part;
use oracle::Answer;

use crate::bench::{Bench, Run};
use crate::headers::{LARGEST, WORKED};
use crate::lists::EVERYTHING;
use crate::shared_ends::with;
use crate::trees::{cut, leaf, Policy};

const PURPOSE: &str = "limits";

pub fn run(bench: &mut Bench) -> Run {
    bench.group(PURPOSE, "chains of 61 to 66 cuts and others, in every field and direction", chains)?;
    bench.group(PURPOSE, "chains of 64 to 1,500 cuts, searched", long_chains)?;
    bench.group(PURPOSE, "two chains of 62 and 63 cuts under a cut", two_chains)
}

/// How a chain goes on: each cut is the left child of the one above, the right child, or one after the other.
#[derive(Clone, Copy, Debug)]
pub enum Way {
    Left,
    Right,
    Turning,
}

/// A chain of so many cuts of this field, whose leaves all have these entries.
pub fn chain(field: usize, way: Way, cuts: u32, entries: &[u32]) -> Part {
    // The box of the innermost leaf, and each cut above it, from the innermost to the root.
    let middle = LARGEST[field] / 2;
    let mut part = leaf(entries);
    let (mut low, mut high) = (middle, middle);
    for step in 0..cuts {
        let to_left = match way {
            Way::Left => true,
            Way::Right => false,
            Way::Turning => (cuts - step).is_multiple_of(2),
        };
        part = if to_left {
            high += 1;
            cut(field, high - 1, part, leaf(entries))
        } else {
            low -= 1;
            cut(field, low, leaf(entries), part)
        };
    }
    part
}

fn chains(bench: &mut Bench) -> Run {
    for field in 0..5 {
        // Both rules hold every header that is searched for.
        let narrower = if field == 4 { with(3, [80, 80]) } else { with(4, [6, 6]) };
        let rules = [EVERYTHING, narrower];
        for way in [Way::Left, Way::Right, Way::Turning] {
            for cuts in [1, 2, 31, 32, 33, 61, 62, 63, 64, 65, 66, 100] {
                let root = chain(field, way, cuts, &[0, 1]);
                let policy = Policy::of(&rules, &root);
                let case = format!("{way:?} chain of {cuts} cuts in field {field}");
                let answer = bench.tree_check(&case, &policy)?;
                if cuts <= 63 {
                    assert_eq!(answer, Answer::completed(u64::from(cuts), 2, 0), "the oracle: {case}");
                } else {
                    let node = root.places().cuts[63].node;
                    assert_eq!((answer.number, answer.place), (6, node), "the oracle: {case}");
                }
                for value in [0, LARGEST[field] / 2, LARGEST[field] / 2 + 1, LARGEST[field]] {
                    let mut header = WORKED;
                    header[field] = value;
                    let answer = bench.tree_searches(&case, &policy, &header)?;
                    assert_eq!((answer.number, answer.a, answer.c), (0, 2, 2), "the oracle: {case}");
                }
            }
        }
    }
    Ok(())
}

/// A search has no limit of cuts.
fn long_chains(bench: &mut Bench) -> Run {
    for cuts in [64, 1_000, 1_023, 1_024, 1_500] {
        for way in [Way::Left, Way::Right, Way::Turning] {
            let policy = Policy::of(&[EVERYTHING], &chain(2, way, cuts, &[0]));
            let case = format!("{way:?} chain of {cuts} cuts");
            bench.tree_check(&case, &policy)?;
            for value in [0, 32_767, 32_768, 32_769, 65_535, 65_536] {
                let answer = bench.tree_searches(&case, &policy, &[1, 2, value, 3, 4])?;
                assert_eq!((answer.number, answer.a), (0, 1), "the oracle: {case}");
            }
        }
    }
    Ok(())
}

/// Cuts count for the leaves below them only, and each part has the depth that is left for it.
fn two_chains(bench: &mut Bench) -> Run {
    let under = cut(4, 9, chain(0, Way::Turning, 62, &[0]), chain(1, Way::Turning, 62, &[0]));
    let answer = bench.tree_check("two chains of 62 cuts under a cut", &Policy::of(&[EVERYTHING], &under))?;
    assert_eq!(answer, Answer::completed(63, 1, 0));
    let over = cut(4, 9, chain(0, Way::Turning, 62, &[0]), chain(1, Way::Turning, 63, &[0]));
    let answer = bench.tree_check("chains of 62 and 63 cuts under a cut", &Policy::of(&[EVERYTHING], &over))?;
    assert_eq!((answer.number, answer.place), (6, over.places().cuts[1 + 62 + 62].node));
    Ok(())
}
