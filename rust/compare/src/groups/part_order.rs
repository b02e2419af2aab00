//! The order in which going on tells faults: those of the list, of the part's lengths, the told number of rules, the
//! part's nodes and leaves, and the room.

use oracle::rules::RULE_WORDS;

use crate::bench::{Bench, Run};
use crate::draws::Draws;
use crate::groups::build_cases::AMPLE;
use crate::lists::ACTION;
use crate::part_damages::{nodes_of, with_entries};
use crate::stops::small_trees;
use crate::trees::Policy;

const PURPOSE: &str = "damage";

pub fn run(bench: &mut Bench) -> Run {
    bench.group(PURPOSE, "parts: every set of faults at once, in the order 1, 2, 11, 5, 6, 7, 8, 4", every_set)?;
    bench.group(PURPOSE, "parts: chosen faults, alone and together", chosen)?;
    bench.group(PURPOSE, "stops: bad lists beside short rooms, in the order 1, 2, 11, 4", bad_lists)?;
    bench.group("limits", "parts: told rule counts about the list's, 512, 2^32 and 2^64", told_counts)?;
    bench.group("limits", "parts: node words 0 to 12 and 6,130 to 6,150, pools about 4,096", lengths)
}

/// A part with a leaf, in a tree of the compiler: its list, so many nodes, and that leaf.
fn with_a_leaf((_, tree): &(String, Policy), draws: &mut Draws) -> (Policy, usize) {
    let leaves: Vec<usize> = nodes_of(tree, true).into_iter().filter(|&leaf| tree.nodes[3 * leaf + 2] > 1).collect();
    let leaf = draws.pick(&leaves);
    let stands = leaf + 1 + draws.below(tree.node_count() - leaf);
    (tree.stop_after(stands), leaf)
}

/// Nine faults, each there or not: 1, 2, 11, 5, another number of rules, not spelt, a wrong walk, a leaf that lacks a
/// rule, too little room.
fn every_set(bench: &mut Bench) -> Run {
    let trees = small_trees(2_410_000, 24, 21);
    for set in 0..512_u32 {
        let has = |fault: u32| set >> fault & 1 == 1;
        for form in 0..3 {
            let mut draws = Draws::seeded(2_400_000 + 3 * u64::from(set) + form);
            let (mut part, leaf) = with_a_leaf(&trees[draws.below(trees.len())], &mut draws);
            let mut told = part.rule_count();
            let mut wanted = vec![];
            let (mut rooms, stands) = (AMPLE, part.node_count());
            if has(8) {
                rooms = if form == 0 { [3 * stands - 1, AMPLE[1]] } else { [0, 0] };
                wanted.push((4, 3 * if form == 0 { stands } else { 1 }, 0));
            }
            if has(7) {
                let start = part.nodes[3 * leaf + 1] as usize;
                wanted.push((8, leaf, part.pool[start] as usize));
                part = with_entries(&part, leaf, |entries| {
                    entries.remove(0);
                });
            }
            if has(6) {
                // A value that leaves no right part, or a right child that is begun or not, wrongly.
                wanted.push((6, 0, 0));
                match form {
                    0 => part.nodes[1] = u32::MAX,
                    _ => part.nodes[2] = u32::from(part.nodes[2] == 0),
                }
            }
            if has(5) {
                wanted.push((7, leaf, 0));
                part.nodes[3 * leaf + 1] += 1;
            }
            if has(4) {
                wanted.push((6, 0, 0));
                told = [told + 1, told - 1, told + (1 << 32)][form as usize];
            }
            if has(3) {
                wanted.push((5, 0, 0));
                match form {
                    0 => part.nodes.push(5),
                    1 => part.nodes.clear(),
                    _ => part.pool.resize(4_097, 0),
                }
            }
            if has(2) {
                let last = part.rules.len() - RULE_WORDS;
                let first = part.rules[..RULE_WORDS].to_vec();
                part.rules[last..].copy_from_slice(&first);
                wanted.push((11, last / RULE_WORDS, 0));
            }
            if has(1) {
                part.rules[RULE_WORDS + 1] = 33;
                wanted.push((2, 1, 0));
            }
            if has(0) {
                part.rules.pop();
                wanted.push((1, 0, 0));
            }
            let case = format!("set {set} of faults, form {form}");
            let (answer, _) = bench.build_told(&case, told, &part, 1, rooms)?;
            let given = (answer.number, answer.place as usize, answer.extra as usize);
            assert_eq!(given, wanted.last().copied().unwrap_or((0, 0, 0)), "the oracle: {case}");
        }
    }
    Ok(())
}

/// What is wrong with a part, its nodes, its pool, and the refusal's number, place and extra.
type Case = (&'static str, &'static [[u32; 3]], &'static [u32], [u64; 3]);

/// Parts for 17 rules: destination ports 10, 20, .. 90 with protocol 1, and 10, 20, .. 80 with protocol 2. Their tree
/// has the nodes 3 50 4, 3 29 3, and leaves of rules 0, 1, 9, 10; then 2, 3, 4, 11, 12, 13; then 5 to 8 and 14 to 16.
const CASES: [Case; 28] = [
    ("good", &[[3, 50, 0], [3, 29, 3], [5, 0, 4], [5, 4, 6]], &[0, 1, 9, 10, 2, 3, 4, 11, 12, 13], [0, 0, 0]),
    ("a cut alone", &[[3, 50, 0]], &[], [0, 0, 0]),
    ("a cut alone, whose child is no node", &[[3, 50, 1]], &[], [6, 0, 0]),
    ("a child that is not begun, made the next node", &[[3, 50, 1], [3, 29, 0]], &[], [6, 0, 0]),
    ("both children wrong, of which the inner comes first", &[[3, 50, 1], [3, 29, 1]], &[], [6, 1, 0]),
    ("a child that is begun, made 0", &[[3, 50, 0], [5, 0, 1], [5, 1, 0]], &[0], [6, 0, 0]),
    ("a left part that ends with the last node, and a child", &[[4, 0, 1], [5, 0, 0]], &[], [6, 0, 0]),
    ("a left part that ends with the last node, and 0", &[[4, 0, 0], [5, 0, 0]], &[], [0, 0, 0]),
    ("a value that is the box's high", &[[3, 50, 0], [3, 50, 0]], &[], [6, 1, 0]),
    ("a value just below the box's high", &[[3, 50, 0], [3, 49, 0]], &[], [0, 0, 0]),
    ("a wrong value before a wrong child", &[[3, 65_536, 1], [3, 29, 1]], &[], [6, 0, 0]),
    ("a value of 65,535, which parts the absent port from the others", &[[3, 65_535, 0], [3, 29, 0]], &[], [0, 0, 0]),
    ("a value of 65,535, and two wrong children", &[[3, 65_535, 1], [3, 29, 1]], &[], [6, 1, 0]),
    ("a wrong inner value before a wrong outer child", &[[3, 50, 1], [3, 60, 0]], &[], [6, 1, 0]),
    ("a leaf that falls, before the children", &[[3, 50, 1], [3, 29, 1], [5, 0, 2]], &[1, 0], [7, 2, 0]),
    ("a wrong value before a leaf that falls", &[[3, 50, 0], [3, 50, 0], [5, 0, 2]], &[1, 0], [6, 1, 0]),
    ("a wrong child before a right leaf that falls", &[[4, 0, 1], [5, 0, 0], [5, 0, 2]], &[1, 0], [6, 0, 0]),
    ("a right leaf that falls", &[[4, 0, 2], [5, 0, 0], [5, 0, 2]], &[1, 0], [7, 2, 0]),
    ("a leaf that lacks rules", &[[3, 50, 0], [3, 29, 0], [5, 0, 2]], &[0, 10], [8, 2, 1]),
    ("a wrong child beside a leaf that lacks rules", &[[3, 50, 1], [3, 29, 0], [5, 0, 1]], &[0], [6, 0, 0]),
    ("two leaves that lack rules", &[[3, 50, 0], [3, 29, 3], [5, 0, 1], [5, 1, 0]], &[9], [8, 2, 0]),
    ("a leaf that is all, and lacks a rule", &[[5, 0, 2]], &[0, 1], [8, 0, 2]),
    ("a node left over", &[[4, 0, 2], [5, 0, 0], [5, 0, 0], [5, 0, 0]], &[], [6, 3, 0]),
    ("a cut left over, which is open", &[[5, 0, 0], [4, 0, 0]], &[], [6, 1, 0]),
    ("a first word that no node has, after a wrong value", &[[3, 65_536, 0], [6, 0, 0]], &[], [6, 1, 0]),
    ("an entry that is no rule, after a wrong child", &[[3, 50, 1], [5, 0, 1]], &[17], [7, 1, 0]),
    ("a pool word left over, after a wrong child", &[[3, 50, 1], [5, 0, 0]], &[0], [7, 2, 0]),
    ("a start that is wrong, before a wrong first word", &[[4, 0, 0], [5, 1, 0], [6, 0, 0]], &[], [7, 1, 0]),
];

fn chosen(bench: &mut Bench) -> Run {
    let rule = |number: u32| {
        let (port, protocol) = (10 * (number % 9 + 1), 1 + number / 9);
        [0, 0, 0, 0, 0, 65_535, port, port, protocol, protocol, 0]
    };
    let rules: Vec<u32> = (0..17).flat_map(rule).collect();
    for (case, nodes, pool, wanted) in CASES {
        let part = Policy { rules: rules.clone(), nodes: nodes.concat(), pool: pool.to_vec() };
        for most in [0, 1, 9, u64::MAX] {
            let (answer, _) = bench.build_on(case, &part, most, AMPLE)?;
            assert_eq!([answer.number, answer.place, answer.extra], wanted, "the oracle: {case}");
            let (answer, _) = bench.build_on(case, &part, most, [0, 0])?;
            let wanted = if wanted[0] == 0 { [4, 3, 0] } else { wanted };
            assert_eq!([answer.number, answer.place, answer.extra], wanted, "the oracle: {case}, without room");
        }
    }
    Ok(())
}

/// The list is judged before all else, by both calls.
fn bad_lists(bench: &mut Bench) -> Run {
    for (number, (case, tree)) in (0..).zip(small_trees(2_420_000, 15, 21)) {
        let mut draws = Draws::seeded(2_430_000 + number);
        let part = tree.stop_after(1 + draws.below(tree.node_count()));
        let nothing = Policy { nodes: vec![], pool: vec![], ..part.clone() };
        let count = tree.rule_count() as usize;
        let (one, other) = (draws.below(count), 1 + draws.below(count - 1));
        let mut lists = vec![];
        let mut put = |refusal: (u64, usize), change: &dyn Fn(&mut Vec<u32>)| {
            let mut rules = tree.rules.clone();
            change(&mut rules);
            lists.push((refusal, rules));
        };
        put((1, 0), &|rules| rules.truncate(rules.len() - 1));
        put((1, 0), &|rules| rules.push(0));
        put((1, 0), &|rules| rules.resize(513 * RULE_WORDS, 0));
        put((2, one), &|rules| rules[RULE_WORDS * one + 9] = 256);
        put((2, one), &|rules| rules[RULE_WORDS * one + 1] = 33);
        put((2, one), &|rules| rules[RULE_WORDS * one + ACTION] = 256);
        put((11, other), &|rules| rules.copy_within(..RULE_WORDS, RULE_WORDS * other));
        put((11, other), &|rules| rules.copy_within(..ACTION, RULE_WORDS * other));
        for (refusal, rules) in lists {
            for rooms in [[0, 0], [2, 0], [3, 4], AMPLE] {
                for most in [0, 1, u64::MAX] {
                    let (answer, _) = bench.build_some(&case, &rules, most, rooms)?;
                    assert_eq!((answer.number, answer.place as usize), refusal, "the oracle: {case}");
                    for part in [&part, &nothing] {
                        let part = Policy { rules: rules.clone(), ..part.clone() };
                        let (answer, _) = bench.build_told(&case, draws.below(40) as u64, &part, most, rooms)?;
                        assert_eq!((answer.number, answer.place as usize), refusal, "the oracle: {case}");
                    }
                }
            }
        }
    }
    Ok(())
}

/// Another number of rules is 6 at node 0, whatever else is wrong with the part, and however large it is.
fn told_counts(bench: &mut Bench) -> Run {
    for (number, (case, tree)) in (0..).zip(small_trees(2_440_000, 12, 21)) {
        let mut draws = Draws::seeded(2_450_000 + number);
        let (part, leaf) = with_a_leaf(&(case.clone(), tree), &mut draws);
        let mut broken = part.clone();
        broken.nodes[3 * leaf] = 6;
        let own = part.rule_count();
        let turning = [0, own, 512, 1 << 16, 1 << 32, 1 << 33, 1 << 63];
        let about =
            turning.into_iter().flat_map(|count| (0..7).map(move |over| count.wrapping_sub(3).wrapping_add(over)));
        for told in about.chain([own + 256, own + (1 << 16), own + (1 << 32), own + (1 << 63)]) {
            for (part, taken) in [(&part, 0), (&broken, 6)] {
                let (answer, _) = bench.build_told(&case, told, part, 1, AMPLE)?;
                let wanted = match told == own {
                    true => (taken, if taken == 6 { leaf } else { 0 }),
                    false => (6, 0),
                };
                assert_eq!((answer.number, answer.place as usize), wanted, "the oracle: {case}, {told} rules told");
            }
        }
    }
    Ok(())
}

/// Lengths of the part's words that are none, not whole nodes, or over the limits.
fn lengths(bench: &mut Bench) -> Run {
    let (_, tree) = &small_trees(2_460_000, 1, 21)[0];
    for words in (0..=12).chain(6_130..=6_150) {
        for entries in [0, 1, 4_095, 4_096, 4_097, 4_100] {
            let part = Policy { rules: tree.rules.clone(), nodes: vec![5; words], pool: vec![0; entries] };
            let case = format!("{words} node words, {entries} pool words");
            let (answer, _) = bench.build_on(&case, &part, 1, AMPLE)?;
            let is_wrong = words == 0 || words % 3 != 0 || words > 6_141 || entries > 4_096;
            assert_eq!(answer.number == 5, is_wrong, "the oracle: {case}");
            bench.build_told(&case, 600, &part, 1, [0, 0])?;
            bench.write_part(&case, &part)?;
        }
    }
    Ok(())
}
