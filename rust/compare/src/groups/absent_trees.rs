//! Packets without ports in the tree check: cuts about 65,535, and leaves that are right or wrong for the absent port.

use oracle::Answer;

use crate::bench::{Bench, Run};
use crate::groups::absent_ports::{search_policy, takes, without_ports, WHOLE};
use crate::groups::build_cases::AMPLE;
use crate::groups::part_others::finish;
use crate::headers::{self, LARGEST, PORTS, WORKED};
use crate::lists::{Rule, EVERYTHING};
use crate::shared_ends::with;
use crate::trees::{cut, leaf, Policy};

pub fn run(bench: &mut Bench) -> Run {
    bench.group("correctness", "absent ports: trees cut about 65,535, every set of entries in both leaves", leaves)?;
    bench.group("damage", "absent ports: cuts below cuts about 65,535, whole and stopped anywhere", chosen)?;
    bench.group("damage", "absent ports: both ports parted, each entry of each leaf dropped", both_ports)
}

/// Ranges of a port: all, all but the first ones, the last, and all but the last.
const RANGES: [[u32; 2]; 4] = [WHOLE, [1_024, 65_535], [65_535, 65_535], [0, 65_534]];

/// A rule for each of these ranges of this field.
fn rules(field: usize) -> [Rule; 4] {
    RANGES.map(|range| with(field, range))
}

/// The rules of the set that has their bits.
fn entries(set: u32) -> Vec<u32> {
    (0..RANGES.len() as u32).filter(|rule| set >> rule & 1 == 1).collect()
}

/// Ports that tell these ranges from each other, and each box of a cut below from its neighbours.
const PROBES: [u32; 8] = [0, 1, 1_023, 1_024, 65_533, 65_534, 65_535, 65_536];

/// The lowest rule that some port of the leaf's box needs, and that the leaf lacks. It is found port by port.
fn lacking(low: u32, high: u32, set: u32) -> Option<usize> {
    let is_needed = |rule: usize| PROBES.iter().any(|&port| low <= port && port <= high && takes(RANGES[rule], port));
    (0..RANGES.len()).find(|&rule| set >> rule & 1 == 0 && is_needed(rule))
}

/// The check must say what a look at each port says: 6 where the cut leaves no right part, else the first leaf that
/// lacks a rule. The searches take every tree.
fn leaves(bench: &mut Bench) -> Run {
    let mut refused_at_absent = 0;
    for field in PORTS {
        let top = LARGEST[field];
        for value in [0, 1_023, 65_533, 65_534, 65_535, 65_536, 65_537, u32::MAX] {
            for (left, right) in (0..16).flat_map(|left| (0..16).map(move |right| (left, right))) {
                let policy = Policy::of(&rules(field), &cut(field, value, leaf(&entries(left)), leaf(&entries(right))));
                let case = format!("a cut of field {field} at {value}, {left:#06b} and {right:#06b} in its leaves");
                let wanted = match (lacking(0, value, left), lacking(value.saturating_add(1), top, right)) {
                    _ if value >= top => (6, 0, 0),
                    (Some(rule), _) => (8, 1, rule),
                    (None, Some(rule)) => (8, 2, rule),
                    (None, None) => (0, 0, 0),
                };
                let answer = bench.tree_check(&case, &policy)?;
                let given = (answer.number, answer.place, answer.extra as usize);
                assert_eq!(given, wanted, "the oracle: {case}");
                refused_at_absent += u64::from(value == 65_535 && given.1 == 2);
                for port in [65_534, 65_535, 65_536] {
                    bench.tree_searches(&case, &policy, &headers::with(WORKED, field, port))?;
                }
            }
        }
    }
    assert!(refused_at_absent > 0, "some trees are wrong for the absent port alone");
    Ok(())
}

/// What is tried, the nodes and the pool for one port field, and the refusal's number, place and extra. A cut whose
/// first word is `OWN` is of that field, and one whose first word is `OTHER` of the other port.
type Case = (&'static str, &'static [[u32; 3]], &'static [u32], [u64; 3]);

const OWN: u32 = 2;
const OTHER: u32 = 3;

/// Trees for the four rules above.
const CASES: [Case; 13] = [
    (
        "the last port and the absent one, each by itself",
        &[[OWN, 65_534, 2], [5, 0, 3], [OWN, 65_535, 4], [5, 3, 3], [5, 6, 1]],
        &[0, 1, 3, 0, 1, 2, 0],
        [0, 0, 0],
    ),
    (
        "the absent one lacks the rule for all ports",
        &[[OWN, 65_534, 2], [5, 0, 3], [OWN, 65_535, 4], [5, 3, 3], [5, 6, 0]],
        &[0, 1, 3, 0, 1, 2],
        [8, 4, 0],
    ),
    (
        "the absent one has every rule but that for all ports",
        &[[OWN, 65_534, 2], [5, 0, 3], [OWN, 65_535, 4], [5, 3, 3], [5, 6, 3]],
        &[0, 1, 3, 0, 1, 2, 1, 2, 3],
        [8, 4, 0],
    ),
    (
        "the last port lacks its rule",
        &[[OWN, 65_534, 2], [5, 0, 3], [OWN, 65_535, 4], [5, 3, 2], [5, 5, 1]],
        &[0, 1, 3, 0, 1, 0],
        [8, 3, 2],
    ),
    (
        "all but the absent one, cut again below it",
        &[[OWN, 65_535, 4], [OWN, 65_534, 3], [5, 0, 3], [5, 3, 3], [5, 6, 1]],
        &[0, 1, 3, 0, 1, 2, 0],
        [0, 0, 0],
    ),
    (
        "all but the absent one, cut again at their end",
        &[[OWN, 65_535, 4], [OWN, 65_535, 3], [5, 0, 4], [5, 4, 1], [5, 5, 1]],
        &[0, 1, 2, 3, 0, 0],
        [6, 1, 0],
    ),
    (
        "the absent one alone, cut below itself",
        &[[OWN, 65_535, 2], [5, 0, 4], [OWN, 65_535, 4], [5, 4, 1], [5, 5, 1]],
        &[0, 1, 2, 3, 0, 0],
        [6, 2, 0],
    ),
    (
        "the absent one alone, cut at itself",
        &[[OWN, 65_535, 2], [5, 0, 4], [OWN, 65_536, 4], [5, 4, 1], [5, 5, 1]],
        &[0, 1, 2, 3, 0, 0],
        [6, 2, 0],
    ),
    ("a cut at the absent one", &[[OWN, 65_536, 2], [5, 0, 4], [5, 4, 0]], &[0, 1, 2, 3], [6, 0, 0]),
    ("a cut past it", &[[OWN, 65_537, 2], [5, 0, 4], [5, 4, 0]], &[0, 1, 2, 3], [6, 0, 0]),
    (
        "the absent one of both ports, each parted from the others",
        &[[OWN, 65_535, 4], [OTHER, 65_535, 3], [5, 0, 4], [5, 4, 4], [OTHER, 65_535, 6], [5, 8, 1], [5, 9, 1]],
        &[0, 1, 2, 3, 0, 1, 2, 3, 0, 0],
        [0, 0, 0],
    ),
    (
        "a packet without either port lacks a rule",
        &[[OWN, 65_535, 4], [OTHER, 65_535, 3], [5, 0, 4], [5, 4, 4], [OTHER, 65_535, 6], [5, 8, 1], [5, 9, 0]],
        &[0, 1, 2, 3, 0, 1, 2, 3, 0],
        [8, 6, 0],
    ),
    (
        "a packet without the other port lacks rules for all of those",
        &[[OTHER, 65_535, 2], [5, 0, 4], [5, 4, 1]],
        &[0, 1, 2, 3, 0],
        [8, 2, 1],
    ),
];

/// Each tree is checked, searched for every pair of ports about 65,535, and stopped after each number of nodes. From a
/// stop without a fault the build goes on, and what comes out is accepted.
fn chosen(bench: &mut Bench) -> Run {
    for field in PORTS {
        let other = if field == PORTS[0] { PORTS[1] } else { PORTS[0] };
        for (case, nodes, pool, wanted) in CASES {
            let named = |first: u32| match first {
                OWN => field as u32,
                OTHER => other as u32,
                leaf => leaf,
            };
            let nodes = nodes.iter().flat_map(|&[first, second, third]| [named(first), second, third]).collect();
            let policy = Policy { rules: rules(field).concat(), nodes, pool: pool.to_vec() };
            let case = format!("{case}, in field {field}");
            let answer = bench.tree_check(&case, &policy)?;
            assert_eq!([answer.number, answer.place, answer.extra], wanted, "the oracle: {case}");
            bench.write_tree(&case, &policy)?;
            for own_port in [65_534, 65_535, 65_536, 65_537] {
                for other_port in [65_535, 65_536] {
                    let header = headers::with(headers::with(WORKED, field, own_port), other, other_port);
                    bench.tree_searches(&case, &policy, &header)?;
                }
            }
            for stands in 1..=policy.node_count() {
                let part = policy.stop_after(stands);
                let (answer, _) = bench.build_on(&case, &part, 1, AMPLE)?;
                assert!(answer.number == 0 || answer.number == wanted[0], "the oracle: {case}, {stands} nodes");
                if answer.number == 0 {
                    finish(bench, &case, &part)?;
                }
            }
        }
    }
    Ok(())
}

/// The tree parts packets with a source port, packets without it, and packets without either. Each entry of each leaf
/// is needed there.
fn both_ports(bench: &mut Bench) -> Run {
    let rules = [EVERYTHING, with(2, [0, 1_023]), with(3, [1, 65_535]), with(4, [6, 6])];
    let planted = |[with_source, without, neither]: [Vec<u32>; 3]| {
        let right = cut(3, 65_535, leaf(&without), leaf(&neither));
        Policy::of(&rules, &cut(2, 65_535, leaf(&with_source), right))
    };
    let leaves = [vec![0, 1, 2, 3], vec![0, 2, 3], vec![0, 3]];
    let policy = planted(leaves.clone());
    let answer = bench.tree_check("both ports parted", &policy)?;
    assert_eq!(answer, Answer::completed(2, 4, 0), "the oracle: both ports parted");
    for header in without_ports(WORKED).into_iter().chain([WORKED]) {
        search_policy(bench, "both ports parted", &policy, &header)?;
    }
    for (which, node) in [1, 3, 4].into_iter().enumerate() {
        for place in 0..leaves[which].len() {
            let mut lacking = leaves.clone();
            let rule = lacking[which].remove(place);
            let case = format!("both ports parted, node {node} without rule {rule}");
            let answer = bench.tree_check(&case, &planted(lacking))?;
            assert_eq!((answer.number, answer.place, answer.extra), (8, node, u64::from(rule)), "the oracle: {case}");
        }
    }
    Ok(())
}
