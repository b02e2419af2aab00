//! The tree check and the judge by corners agree on small trees, right and damaged.

use oracle::builder::{build, grow, Limits};
use oracle::corners::{judge_by_corners, Verdict};
use oracle::parts::TreeWords;
use oracle::rules::{judge_rules, MOST_RULES};
use oracle::tree_check;

/// Numbers that look drawn, by a linear congruence.
struct Drawn(u64);

impl Drawn {
    fn below(&mut self, bound: u64) -> u64 {
        self.0 = self.0.wrapping_mul(6_364_136_223_846_793_005).wrapping_add(1_442_695_040_888_963_407);
        (self.0 >> 33) % bound
    }
}

/// Rules that end somewhere in two fields: destination port, often near 0 or near the largest port, and protocol.
fn small_list(drawn: &mut Drawn) -> Vec<u32> {
    let mut words = Vec::new();
    for _ in 0..drawn.below(4) {
        let ports = [drawn.below(8), 65_535 - drawn.below(3)];
        let ports = match drawn.below(4) {
            0 => [0, 65_535],
            1 => [drawn.below(8), ports[0]],
            2 => [65_535 - drawn.below(3), ports[1]],
            _ => ports,
        };
        let mut ends = [ports[0], ports[1], drawn.below(256), drawn.below(256)].map(|end| end as u32);
        ends[..2].sort_unstable();
        ends[2..].sort_unstable();
        words.extend([0, 0, 0, 0, 0, 65_535, ends[0], ends[1], ends[2], ends[3], 0]);
    }
    words
}

/// The number of the check's refusal, which the judge by corners must bear out.
fn agreed_number(rules: &[u32], nodes: &[u32], pool: &[u32]) -> u64 {
    let answer = tree_check(rules, nodes, pool);
    match judge_by_corners(rules, nodes, pool) {
        Verdict::Right => assert_eq!(answer.number, 0, "{rules:?} {nodes:?} {pool:?}"),
        Verdict::WrongList(_) => assert_eq!(answer.number, 8, "{rules:?} {nodes:?} {pool:?}"),
        Verdict::NotWellFormed => assert!([6, 7].contains(&answer.number), "{rules:?} {nodes:?} {pool:?}"),
    }
    answer.number
}

/// Takes one entry from the pool, and mends the counts and starts.
fn drop_entry(tree: &mut TreeWords, choice: usize) {
    let index = choice % tree.pool.len();
    tree.pool.remove(index);
    for node in tree.nodes.chunks_exact_mut(3).filter(|node| node[0] == 5) {
        let (start, count) = (node[1] as usize, node[2] as usize);
        if start > index {
            node[1] -= 1;
        } else if start + count > index {
            node[2] -= 1;
        }
    }
}

#[test]
fn built_and_grown_trees_are_accepted() {
    let mut drawn = Drawn(1);
    for leaf in [0, 1, 2].repeat(8) {
        let rules = small_list(&mut drawn);
        let list = judge_rules(&rules).expect("the list is good");
        let limits = Limits { leaf, cuts: 63, nodes: 2_047, entries: 4_096 };
        let built = build(&list, limits).expect("a small list is within the limits").words();
        assert_eq!(agreed_number(&rules, &built.nodes, &built.pool), 0);
        let grown = grow(&list, 4, &mut |bound| drawn.below(bound)).words();
        assert_eq!(agreed_number(&rules, &grown.nodes, &grown.pool), 0);
    }
}

#[test]
fn damaged_trees_get_the_same_verdict() {
    let mut drawn = Drawn(2);
    let mut numbers = [0; 9];
    for _ in 0..200 {
        let rules = small_list(&mut drawn);
        let list = judge_rules(&rules).expect("the list is good");
        let mut tree = grow(&list, 3, &mut |bound| drawn.below(bound)).words();
        let word = drawn.below(tree.nodes.len() as u64) as usize;
        match drawn.below(4) {
            3 if !tree.pool.is_empty() => drop_entry(&mut tree, drawn.0 as usize),
            0 => tree.nodes[word] = drawn.below(9) as u32,
            1 => tree.nodes[word] ^= 1,
            _ => {
                for entry in &mut tree.pool {
                    *entry = drawn.below(1 + list.len() as u64) as u32;
                }
            }
        }
        numbers[agreed_number(&rules, &tree.nodes, &tree.pool) as usize] += 1;
    }
    assert!([0, 6, 7, 8].iter().all(|&number| numbers[number] > 5), "{numbers:?}");
}

#[test]
fn a_build_over_its_limits_gives_none() {
    let words: Vec<u32> =
        (0..MOST_RULES as u32).flat_map(|rule| [rule << 23, 9, 0, 0, 0, 65_535, 0, 65_535, 0, 255, 0]).collect();
    let list = judge_rules(&words).expect("the list is good");
    let limits = Limits { leaf: 1, cuts: 63, nodes: 1_023, entries: 512 };
    assert!(build(&list, limits).is_some());
    assert!(build(&list, Limits { nodes: 1_022, ..limits }).is_none());
    assert!(build(&list, Limits { entries: 511, ..limits }).is_none());
    let shallow = build(&list, Limits { cuts: 3, ..limits }).expect("a cut tree within the limits");
    assert_eq!((shallow.places().most_cuts(), shallow.places().longest_leaf()), (3, 64));
}
