//! The limits of trees, on both sides, and the order in which the tree check tells faults.

use oracle::{tree_all, tree_check, tree_first, Answer};

const EVERYTHING: [u32; 11] = [0, 0, 0, 0, 0, 65_535, 0, 65_535, 0, 255, 0];

/// Two rules that meet every box of the trees below, which are cut by the protocol alone.
const TWO_RULES: [[u32; 11]; 2] = [EVERYTHING, [0, 0, 0, 0, 0, 65_535, 80, 80, 0, 255, 0]];

fn refused(number: u64, place: u64, extra: u64) -> Answer {
    Answer { number, place, extra, a: 0, b: 0, c: 0, d: 0 }
}

/// So many cuts one below the other, each the left child of the one above, and their leaves, all of count 0.
fn left_chain(cuts: u32) -> Vec<u32> {
    let nodes = 2 * cuts + 1;
    let mut words = Vec::new();
    for cut in 0..cuts {
        words.extend([0, 10_000 - cut, nodes - 1 - cut]);
    }
    words.extend([5, 0, 0].repeat(cuts as usize + 1));
    words
}

/// So many cuts one below the other, each the right child of the one above.
fn right_chain(cuts: u32) -> Vec<u32> {
    let mut words = Vec::new();
    for cut in 0..cuts {
        words.extend([0, cut, 2 * cut + 2, 5, 0, 0]);
    }
    words.extend([5, 0, 0]);
    words
}

#[test]
fn a_leaf_has_63_cuts_above_it_and_not_64() {
    for cuts in [0, 1, 62, 63] {
        assert_eq!(tree_check(&[], &left_chain(cuts), &[]), Answer::completed(u64::from(cuts), 0, 0));
        assert_eq!(tree_check(&[], &right_chain(cuts), &[]), Answer::completed(u64::from(cuts), 0, 0));
    }
    for cuts in [64, 65, 700] {
        assert_eq!(tree_check(&[], &left_chain(cuts), &[]), refused(6, 63, 0));
        assert_eq!(tree_check(&[], &right_chain(cuts), &[]), refused(6, 126, 0));
    }
}

#[test]
fn a_search_has_no_limit_of_cuts() {
    let answer = tree_first(&[], &right_chain(3_000), &[], &[u32::MAX, 0, 0, 0, 0]);
    assert_eq!(answer, Answer::completed(0, 3_001, 0));
    let answer = tree_all(&[], &left_chain(3_000), &[], &[0, 0, 0, 0, 0], &mut []);
    assert_eq!(answer, Answer::completed(0, 3_001, 0));
}

#[test]
fn node_words_and_pool_have_limits() {
    for words in [0, 1, 2, 4, 6_142, 6_143, 6_144] {
        assert_eq!(tree_check(&[], &vec![5; words], &[]), refused(5, 0, 0));
    }
    assert_eq!(tree_check(&[], &[5, 0, 0], &[0; 4_097]), refused(5, 0, 0));
    assert_eq!(tree_check(&[], &[5, 0, 0], &[0; 4_096]), refused(7, 1, 0));
    assert_eq!(tree_check(&[0], &[], &[]), refused(1, 0, 0));
    assert_eq!(tree_check(&[u32::MAX; 11], &[], &[]), refused(2, 0, 0));
    assert_eq!(tree_check(&EVERYTHING.repeat(2), &[], &[]), refused(11, 1, 0));
}

#[test]
fn spelt_is_judged_by_rising_node() {
    let check = |nodes: &[[u32; 3]], pool: &[u32]| tree_check(&TWO_RULES.concat(), &nodes.concat(), pool);
    assert_eq!(check(&[[5, 0, 2]], &[0, 1]), Answer::completed(0, 2, 0));
    assert_eq!(check(&[[5, 0, 1]], &[0]), refused(8, 0, 1));
    assert_eq!(check(&[[5, 0, 1]], &[1]), refused(8, 0, 0));
    assert_eq!(check(&[[6, 0, 2]], &[0, 1]), refused(6, 0, 0));
    assert_eq!(check(&[[5, 1, 1]], &[0, 1]), refused(7, 0, 0));
    assert_eq!(check(&[[5, 0, 3]], &[0, 1, 1]), refused(7, 0, 0));
    assert_eq!(check(&[[5, 0, 2]], &[0, 2]), refused(7, 0, 0));
    assert_eq!(check(&[[5, 0, 1]], &[0, 1]), refused(7, 1, 0));
    assert_eq!(check(&[[5, 0, 2]], &[0]), refused(7, 0, 0));
    assert_eq!(check(&[[5, u32::MAX, 1]], &[]), refused(7, 0, 0));
    // The value is no part of it, and a fault of a higher node comes before the walk's faults.
    assert_eq!(check(&[[4, 255, 2], [5, 0, 2], [5, 2, 3]], &[0, 1, 0, 1]), refused(7, 2, 0));
    assert_eq!(check(&[[4, 255, 2], [5, 0, 2], [5, 2, 2]], &[0, 1, 0, 1]), refused(6, 0, 0));
    assert_eq!(check(&[[4, 254, 3], [5, 0, 2], [5, 2, 2]], &[0, 1, 0, 1]), refused(6, 0, 0));
}

#[test]
fn the_walk_tells_its_first_fault() {
    let check = |nodes: &[[u32; 3]], pool: &[u32]| tree_check(&TWO_RULES.concat(), &nodes.concat(), pool);
    // The left leaf does not rise, and the right child is wrong.
    assert_eq!(check(&[[4, 9, 1], [5, 0, 2], [5, 2, 2]], &[1, 0, 0, 1]), refused(7, 1, 0));
    // The right child is wrong, and the right leaf does not rise.
    assert_eq!(check(&[[4, 9, 1], [5, 0, 2], [5, 2, 2]], &[0, 1, 1, 0]), refused(6, 0, 0));
    // The right leaf does not rise, and a node is left over.
    assert_eq!(check(&[[4, 9, 2], [5, 0, 2], [5, 2, 2], [5, 4, 0]], &[0, 1, 1, 1]), refused(7, 2, 0));
    assert_eq!(check(&[[4, 9, 2], [5, 0, 2], [5, 2, 2], [5, 4, 0]], &[0, 1, 0, 1]), refused(6, 3, 0));
    // The cut is the last node, so its left child is missing; or its left part takes all nodes.
    assert_eq!(check(&[[4, 9, 0]], &[]), refused(6, 1, 0));
    assert_eq!(check(&[[4, 9, 1], [5, 0, 2]], &[0, 1]), refused(6, 0, 0));
    // A leaf lacks a rule, and a higher one does not rise.
    assert_eq!(check(&[[4, 9, 2], [5, 0, 0], [5, 0, 2]], &[1, 0]), refused(7, 2, 0));
    assert_eq!(check(&[[4, 9, 2], [5, 0, 0], [5, 0, 2]], &[0, 1]), refused(8, 1, 0));
}
