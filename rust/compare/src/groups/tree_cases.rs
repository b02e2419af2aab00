//! The order in which the tree check tells faults: trees of few nodes, with the refusal that each of them gets.

use crate::bench::{Bench, Run};
use crate::lists::EVERYTHING;
use crate::shared_ends::with;
use crate::trees::Policy;

pub fn run(bench: &mut Bench) -> Run {
    bench.group("damage", "tree check: spelt, then the walk, then 8, each in its order", chosen_faults)
}

/// Trees of two rules that meet every leaf, with the refusal that they get. They are cut by the protocol alone.
fn chosen_faults(bench: &mut Bench) -> Run {
    let rules = [EVERYTHING, with(3, [0, 80])].concat();
    for (case, nodes, pool, number, place, extra) in chosen_cases() {
        let policy = Policy { rules: rules.clone(), nodes: nodes.concat(), pool: pool.to_vec() };
        bench.write_tree(case, &policy)?;
        let answer = bench.tree_check(case, &policy)?;
        assert_eq!((answer.number, answer.place, answer.extra), (number, place, extra), "the oracle: {case}");
        for protocol in [0, 9, 10, 99, 100, 255] {
            bench.tree_searches(case, &policy, &[0, 0, 0, 0, protocol])?;
        }
    }
    Ok(())
}

/// What is wrong, the nodes, the pool, and the refusal's number, place and extra.
type Case = (&'static str, Vec<[u32; 3]>, &'static [u32], u64, u64, u64);

fn chosen_cases() -> Vec<Case> {
    // The good tree: cut 0 at 99, with cut 1 at 9 and its leaves 2 and 3 on the left, and leaf 4 on the right.
    let good = vec![[4, 99, 4], [4, 9, 3], [5, 0, 2], [5, 2, 2], [5, 4, 2]];
    let with = |changes: &[(usize, [u32; 3])]| {
        let mut nodes = good.clone();
        for &(node, three) in changes {
            nodes[node] = three;
        }
        nodes
    };
    let left_over = |mut nodes: Vec<[u32; 3]>, end: [u32; 3]| {
        nodes.push(end);
        nodes
    };
    const POOL: &[u32] = &[0, 1, 0, 1, 0, 1];
    const FALLS_AT_2: &[u32] = &[1, 0, 0, 1, 0, 1];
    const FALLS_AT_3: &[u32] = &[0, 1, 1, 0, 0, 1];
    const FALLS_AT_4: &[u32] = &[0, 1, 0, 1, 1, 0];
    const REPEATS_AT_2_AND_4: &[u32] = &[1, 1, 0, 1, 0, 0];
    const TWO_AT_3: &[u32] = &[0, 1, 0, 2, 0, 1];
    let lacking = |starts: [u32; 3], counts: [u32; 3]| {
        with(&[2, 3, 4].map(|node| (node, [5, starts[node - 2], counts[node - 2]])))
    };
    vec![
        ("the left leaf falls, its cut's right child is wrong", with(&[(1, [4, 9, 4])]), FALLS_AT_2, 7, 2, 0),
        ("a left leaf falls, the root's right child is wrong", with(&[(0, [4, 99, 3])]), FALLS_AT_3, 7, 3, 0),
        ("the right leaf falls, its cut's right child is wrong", with(&[(1, [4, 9, 4])]), FALLS_AT_3, 6, 1, 0),
        ("the right leaf falls, the root's right child is wrong", with(&[(0, [4, 99, 3])]), FALLS_AT_4, 6, 0, 0),
        ("both right children are wrong", with(&[(0, [4, 99, 2]), (1, [4, 9, 2])]), POOL, 6, 1, 0),
        ("right children are themselves", with(&[(0, [4, 99, 0]), (1, [4, 9, 1])]), POOL, 6, 1, 0),
        ("a value is wrong, a leaf below falls", with(&[(1, [4, 99, 3])]), FALLS_AT_2, 6, 1, 0),
        ("a value is wrong, a leaf after it falls", with(&[(1, [4, 99, 3])]), FALLS_AT_4, 6, 1, 0),
        ("the root's value is wrong, and all else", with(&[(0, [4, 255, 1]), (1, [4, 255, 1])]), FALLS_AT_2, 6, 0, 0),
        ("the left part's value and the root's right child", with(&[(0, [4, 99, 1]), (1, [4, 100, 3])]), POOL, 6, 1, 0),
        ("two cuts share a leaf", vec![[4, 99, 3], [4, 9, 3], [5, 0, 2], [5, 2, 2]], &[0, 1, 0, 1], 6, 0, 0),
        ("the root's right child is a leaf of its left part", with(&[(0, [4, 99, 3])]), POOL, 6, 0, 0),
        ("two leaves do not rise", good.clone(), REPEATS_AT_2_AND_4, 7, 2, 0),
        ("a node left over", left_over(good.clone(), [5, 6, 0]), POOL, 6, 5, 0),
        ("a node left over, the last leaf falls", left_over(good.clone(), [5, 6, 0]), FALLS_AT_4, 7, 4, 0),
        ("a node left over, a right child wrong", left_over(with(&[(0, [4, 99, 5])]), [5, 6, 0]), POOL, 6, 0, 0),
        ("a node left over that is a wrong cut", left_over(good.clone(), [4, 255, 0]), POOL, 6, 5, 0),
        ("a node left over that is not spelt", left_over(good.clone(), [4, 9, 6]), POOL, 6, 5, 0),
        ("a leaf left over that is not spelt", left_over(good.clone(), [5, 5, 0]), POOL, 7, 5, 0),
        ("the last leaf is a cut", with(&[(4, [4, 200, 0])]), &[0, 1, 0, 1], 6, 5, 0),
        ("the last leaf is a cut, a leaf falls", with(&[(4, [4, 200, 0])]), &[0, 1, 1, 0], 7, 3, 0),
        ("the last leaf is a cut with a wrong value", with(&[(4, [4, 99, 0])]), &[0, 1, 0, 1], 6, 4, 0),
        ("the left part takes all nodes", vec![[4, 9, 1], [5, 0, 2]], &[0, 1], 6, 0, 0),
        ("not spelt at 3, and a walk that fails before", with(&[(0, [4, 255, 1])]), TWO_AT_3, 7, 3, 0),
        ("not spelt at 1 and 3", with(&[(1, [6, 9, 3])]), TWO_AT_3, 6, 1, 0),
        ("not spelt at 3 and 4", with(&[(4, [6, 0, 0])]), TWO_AT_3, 7, 3, 0),
        ("a leaf's start before a cut's right child", vec![[4, 99, 2], [5, 1, 2], [4, 200, 9]], &[0, 1], 7, 1, 0),
        ("a right child past the end, a start after it", with(&[(1, [4, 9, 5]), (2, [5, 1, 2])]), POOL, 6, 1, 0),
        ("counts short of the pool, and a wrong walk", with(&[(0, [4, 255, 1])]), &[0, 1, 0, 1, 0, 1, 0], 7, 5, 0),
        ("counts short of the pool by a word that is no rule", good.clone(), &[0, 1, 0, 1, 0, 1, 9], 7, 5, 0),
        ("counts short of the pool, and a node not spelt", with(&[(4, [7, 0, 0])]), POOL, 6, 4, 0),
        ("lacks at 2, 3 and 4", lacking([0, 1, 1], [1, 0, 0]), &[1], 8, 2, 0),
        ("lacks at 3 and 4", lacking([0, 2, 2], [2, 0, 1]), &[0, 1, 1], 8, 3, 0),
        ("lacks rule 1 at 3, and 0 at 4", lacking([0, 2, 3], [2, 1, 1]), &[0, 1, 0, 1], 8, 3, 1),
        ("lacks at 4", lacking([0, 2, 4], [2, 2, 1]), &[0, 1, 0, 1, 0], 8, 4, 1),
        ("lacks at 2, and falls at 4", lacking([0, 1, 3], [1, 2, 2]), &[0, 0, 1, 1, 0], 7, 4, 0),
        (
            "lacks at 2, and a node is left over",
            left_over(lacking([0, 0, 2], [0, 2, 2]), [5, 4, 0]),
            &[0, 1, 0, 1],
            6,
            5,
            0,
        ),
    ]
}
