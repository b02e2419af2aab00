//! The order in which a tree's faults are told: several at once get the first one's number and place.

use oracle::rules::RULE_WORDS;
use oracle::Answer;

use crate::bench::{Bench, Run};
use crate::draws::Draws;
use crate::groups::tree_damage::good_tree;
use crate::headers::WORKED;
use crate::tree_damages::{any_damage, DamagedTree};
use crate::trees::{self, Planted, Policy};

const PURPOSE: &str = "damage";

pub fn run(bench: &mut Bench) -> Run {
    bench.group(PURPOSE, "tree check: every set of faults at once", every_set)?;
    bench.group(PURPOSE, "tree search: every set of faults at once, in the order 3, 6, 7, 4", search_sets)?;
    bench.group(PURPOSE, "tree writer: every set of faults at once, in the order 1, 5, spelt, 4", writer_sets)?;
    bench.group(PURPOSE, "trees with two to four damages", several_damages)
}

/// The faults of a tree check that stand apart: 1, 2, 11, 5, not spelt, a wrong walk, a leaf that lacks a rule.
fn every_set(bench: &mut Bench) -> Run {
    for set in 0..128_u32 {
        let has = |fault: u32| (set >> fault) & 1 == 1;
        for form in 0..3 {
            let mut policy = trees::worked().policy;
            if has(6) {
                // Node 4 lists rule 1 in place of rule 2.
                policy.pool[4] = 1;
            }
            if has(5) {
                match form {
                    0 => policy.nodes[1] = u32::MAX,
                    1 => policy.nodes[2] = 1,
                    _ => policy.pool[2] = 0,
                }
            }
            if has(4) {
                break_spelling(&mut policy, form);
            }
            if has(3) {
                break_tree_words(&mut policy, form);
            }
            if has(2) {
                make_twins(&mut policy, form);
            }
            if has(1) {
                policy.rules[[9, 11, 24][form]] = [256, 33, 65_536][form];
            }
            if has(0) {
                policy.rules.truncate([29, 21, 1][form]);
            }
            let case = format!("worked policy, set {set} of faults, form {form}");
            let answer = bench.tree_check(&case, &policy)?;
            let lowest = set.trailing_zeros();
            let right = match lowest {
                0..=3 => answer.number == [1, 2, 11, 5][lowest as usize],
                4 | 5 => answer.number == 6 || answer.number == 7,
                6 => (answer.number, answer.place, answer.extra) == (8, 4, 2),
                _ => answer == Answer::completed(2, 3, 0),
            };
            assert!(right, "the oracle: {case}: {answer:?}");
            bench.tree_searches(&case, &policy, &WORKED)?;
        }
    }
    Ok(())
}

/// Rule 1 is made rule 0, or rule 2 is made rule 0 or rule 1.
fn make_twins(policy: &mut Policy, form: usize) {
    let (later, earlier) = [(1, 0), (2, 0), (2, 1)][form];
    policy.rules.copy_within(RULE_WORDS * earlier..RULE_WORDS * (earlier + 1), RULE_WORDS * later);
}

/// Node 0's first word, node 1's start, or node 4's start.
fn break_spelling(policy: &mut Policy, form: usize) {
    policy.nodes[[0, 4, 13][form]] = [6, 1, 3][form];
}

/// One word too few, too many nodes, or too long a pool.
fn break_tree_words(policy: &mut Policy, form: usize) {
    match form {
        0 => policy.nodes.truncate(14),
        1 => policy.nodes.extend([5, 5, 0].repeat(2_043)),
        _ => policy.pool.resize(4_097, 2),
    }
}

/// A header that is wrong, a node that is, a leaf that is, and too short a room, in every set.
fn search_sets(bench: &mut Bench) -> Run {
    for set in 0..16_u32 {
        let has = |fault: u32| (set >> fault) & 1 == 1;
        for form in 0..4 {
            let mut policy = trees::worked().policy;
            let mut header = WORKED.to_vec();
            if has(0) {
                break_header(&mut header, form);
            }
            if has(1) {
                break_walk(&mut policy, form);
            }
            if has(2) {
                break_leaf(&mut policy, form);
            }
            // Three entries match, or two besides a bad one.
            let room = if has(3) { form % 2 } else { 3 };
            let case = format!("worked policy, set {set} of faults, form {form}");
            let all = bench.tree_all(&case, &policy, &header, room)?;
            let first = bench.tree_first(&case, &policy, &header)?;
            let wanted = (0..4).find(|&fault| has(fault)).map_or(0, |fault| [3, 6, 7, 4][fault as usize]);
            assert_eq!(all.number, wanted, "the oracle: {case}");
            assert_eq!(first.number, if wanted == 4 { 0 } else { wanted }, "the oracle: {case}");
        }
    }
    Ok(())
}

/// A number of rules that is too large, words that are no tree's, not spelt, and too short a room, in every set.
fn writer_sets(bench: &mut Bench) -> Run {
    for set in 0..16_u32 {
        let has = |fault: u32| (set >> fault) & 1 == 1;
        for form in 0..3 {
            let mut policy = trees::worked().policy;
            if has(2) {
                break_spelling(&mut policy, form);
            }
            if has(1) {
                break_tree_words(&mut policy, form);
            }
            let rule_count = if has(0) { [513, 1 << 32, u64::MAX][form] } else { 3 };
            let room = if has(3) { [0, 1, 60][form] } else { 200 };
            let case = format!("worked policy, set {set} of faults, form {form}");
            let answer = bench.tree_write(&case, rule_count, &policy, room)?;
            let wanted = match set.trailing_zeros() {
                0 => 1,
                1 => 5,
                2 => [6, 7, 7][form],
                3 => 4,
                _ => 0,
            };
            assert_eq!(answer.number, wanted, "the oracle: {case}");
        }
    }
    Ok(())
}

/// Too short, too long, or with too large a field.
fn break_header(header: &mut Vec<u32>, form: usize) {
    match form {
        0 => header.truncate(4),
        1 => header.push(0),
        2 => header[3] = 65_537,
        _ => header[4] = u32::MAX,
    }
}

/// The root's right child, node 2's first word, node 2's right child, which is not taken, or node 2 not wholly there.
fn break_walk(policy: &mut Policy, form: usize) {
    match form {
        0 => policy.nodes[2] = 0,
        1 => policy.nodes[6] = 6,
        2 => policy.nodes[8] = 2,
        _ => policy.nodes.truncate(8),
    }
}

/// Node 3's first entry, its last entry, its count, or the rule of its last entry.
fn break_leaf(policy: &mut Policy, form: usize) {
    match form {
        0 => policy.pool[1] = 3,
        1 => policy.pool[3] = u32::MAX,
        2 => policy.nodes[11] = 5,
        _ => policy.rules.truncate(29),
    }
}

/// The words of one damaged tree are put into another of the same good tree, where they differ from it.
fn several_damages(bench: &mut Bench) -> Run {
    for seed in 660_000..664_000 {
        let mut draws = Draws::seeded(seed);
        let planted = good_tree(&mut draws);
        let DamagedTree { mut kind, mut policy, sides } = any_damage(&planted, &mut draws);
        for _ in 0..=draws.below(3) {
            let other = any_damage(&planted, &mut draws);
            put_damage(&planted, &mut policy, &other.policy);
            kind = format!("{kind}; {}", other.kind);
        }
        let case = format!("seed {seed}, {kind}");
        bench.tree_check(&case, &policy)?;
        bench.write_tree(&case, &policy)?;
        bench.tree_searches(&case, &policy, &trees::inside(&sides, &mut draws))?;
    }
    Ok(())
}

fn put_damage(planted: &Planted, to: &mut Policy, from: &Policy) {
    let good = &planted.policy;
    for (to, from, good) in [(&mut to.nodes, &from.nodes, &good.nodes), (&mut to.pool, &from.pool, &good.pool)] {
        for index in 0..to.len().min(from.len()) {
            if good.get(index) != Some(&from[index]) {
                to[index] = from[index];
            }
        }
    }
}
