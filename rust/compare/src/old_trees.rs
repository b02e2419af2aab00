//! Trees that were compiled before a port could be absent, for lists with ranges that end at 65,535. None of them is
//! cut there, and they are still right for their lists.

use crate::lists::{Rule, EVERYTHING, LARGEST_END};
use crate::shared_ends::{put, with};
use crate::trees::Policy;

/// A list and its old tree.
pub struct OldTree {
    pub name: &'static str,
    pub rules: Vec<Rule>,
    pub policy: Policy,
}

impl OldTree {
    fn of(name: &'static str, rules: Vec<Rule>, nodes: &[[u32; 3]], pool: &[u32]) -> OldTree {
        let policy = Policy { rules: rules.concat(), nodes: nodes.concat(), pool: pool.to_vec() };
        OldTree { name, rules, policy }
    }
}

pub fn old_trees() -> [OldTree; 4] {
    [
        OldTree::of("an old tree of nine ranges from 1, 2, .. 9 on", first_ports(), &FIRST_NODES, &NINE_RANGES_POOL),
        OldTree::of("an old tree of nine ranges up to the last port", last_ports(), &LAST_NODES, &NINE_RANGES_POOL),
        OldTree::of("an old tree of four ranges in both ports", both_ports(), &BOTH_NODES, &BOTH_POOL),
        OldTree::of("an old tree of clients and their servers", clients(), &CLIENT_NODES, &CLIENT_POOL),
    ]
}

/// Destination ports from 1 on, from 2 on, and so on.
fn first_ports() -> Vec<Rule> {
    (1..10).map(|low| with(3, [low, LARGEST_END[3]])).collect()
}

const FIRST_NODES: [[u32; 3]; 7] = [[3, 4, 2], [5, 0, 4], [3, 7, 4], [5, 4, 7], [3, 8, 6], [5, 11, 8], [5, 19, 9]];

/// The last nine source ports, the last eight, and so on.
fn last_ports() -> Vec<Rule> {
    (0..9).rev().map(|before| with(2, [LARGEST_END[2] - before, LARGEST_END[2]])).collect()
}

const LAST_NODES: [[u32; 3]; 7] =
    [[2, 65_530, 2], [5, 0, 4], [2, 65_533, 4], [5, 4, 7], [2, 65_534, 6], [5, 11, 8], [5, 19, 9]];

/// Both lists have it: the lowest four rules, seven, eight, and all.
const NINE_RANGES_POOL: [u32; 28] =
    [0, 1, 2, 3, 0, 1, 2, 3, 4, 5, 6, 0, 1, 2, 3, 4, 5, 6, 7, 0, 1, 2, 3, 4, 5, 6, 7, 8];

/// Each pair of four ranges, one of them whole.
fn both_ports() -> Vec<Rule> {
    let ranges = [[0, 65_535], [0, 1_023], [1_024, 65_535], [49_152, 65_535]];
    let pairs = ranges.into_iter().flat_map(|source| ranges.map(|destination| (source, destination)));
    pairs.map(|(source, destination)| put(put(with(4, [6, 6]), 2, source), 3, destination)).collect()
}

const BOTH_NODES: [[u32; 3]; 23] = [
    [2, 49_151, 12],
    [3, 49_151, 7],
    [4, 6, 6],
    [2, 1_023, 5],
    [5, 0, 6],
    [5, 6, 6],
    [5, 12, 0],
    [4, 6, 11],
    [2, 1_023, 10],
    [5, 12, 6],
    [5, 18, 6],
    [5, 24, 0],
    [3, 49_151, 18],
    [4, 6, 17],
    [3, 1_023, 16],
    [5, 24, 6],
    [5, 30, 6],
    [5, 36, 0],
    [4, 6, 22],
    [4, 5, 21],
    [5, 36, 0],
    [5, 36, 9],
    [5, 45, 0],
];
const BOTH_POOL: [u32; 45] = [
    0, 1, 2, 4, 5, 6, 0, 1, 2, 8, 9, 10, 0, 2, 3, 4, 6, 7, 0, 2, 3, 8, 10, 11, 0, 1, 8, 9, 12, 13, 0, 2, 8, 10, 12, 14,
    0, 2, 3, 8, 10, 11, 12, 14, 15,
];

/// Five networks, each with its service: from high ports to it, and back. Then ICMP, and everything.
fn clients() -> Vec<Rule> {
    const HIGH: [u32; 2] = [1_024, 65_535];
    let services = [22, 25, 53, 80, 443].into_iter().zip(0..);
    let mut rules: Vec<Rule> = services
        .flat_map(|(port, number)| {
            let network = [0x0A00_0000 + (number << 16), 16];
            let to = put(put(put(with(0, network), 2, HIGH), 3, [port, port]), 4, [6, 6]);
            let back = put(put(put(with(1, network), 2, [port, port]), 3, HIGH), 4, [6, 6]);
            [to, back]
        })
        .collect();
    rules.extend([with(4, [1, 1]), EVERYTHING]);
    rules
}

const CLIENT_NODES: [[u32; 3]; 5] = [[2, 53, 2], [5, 0, 5], [3, 53, 4], [5, 5, 5], [5, 10, 6]];
const CLIENT_POOL: [u32; 16] = [1, 3, 5, 10, 11, 0, 2, 4, 10, 11, 6, 7, 8, 9, 10, 11];
