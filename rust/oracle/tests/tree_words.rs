//! Tree search on words that no check would accept.

use oracle::{tree_all, tree_first, Answer};

const EVERYTHING: [u32; 11] = [0, 0, 0, 0, 0, 65_535, 0, 65_535, 0, 255, 0];
const HEADER: [u32; 5] = [7, 7, 7, 7, 7];

fn refused(number: u64, place: u64) -> Answer {
    Answer { number, place, extra: 0, a: 0, b: 0, c: 0, d: 0 }
}

/// Expects both searches to refuse so, with room and without.
fn expect_refused(rules: &[u32], nodes: &[u32], pool: &[u32], number: u64, place: u64) {
    for room in [0, 9] {
        let mut out = vec![7_777; room];
        assert_eq!(tree_all(rules, nodes, pool, &HEADER, &mut out), refused(number, place));
        assert!(out.iter().all(|&word| word == 7_777));
    }
    assert_eq!(tree_first(rules, nodes, pool, &HEADER), refused(number, place));
}

#[test]
fn a_node_that_is_not_wholly_there_is_6() {
    expect_refused(&[], &[], &[], 6, 0);
    expect_refused(&[], &[5], &[], 6, 0);
    expect_refused(&[], &[5, 0], &[], 6, 0);
    expect_refused(&[], &[0, 7, 9], &[], 6, 1);
    expect_refused(&[], &[0, 7, 9, 5, 0], &[], 6, 1);
    expect_refused(&[], &[0, 6, u32::MAX, 5, 0, 0], &[], 6, u64::from(u32::MAX));
    expect_refused(&[], &[6, 0, 0], &[], 6, 0);
}

#[test]
fn a_right_child_must_be_above_its_cut_whichever_way_is_taken() {
    for value in [6, 7] {
        expect_refused(&[], &[1, 7, 2, 1, value, 1, 5, 0, 0], &[], 6, 1);
        expect_refused(&[], &[1, value, 0, 5, 0, 0], &[], 6, 0);
    }
    // One past the last node is no fault unless it is taken.
    assert_eq!(tree_first(&[], &[2, 7, 2, 5, 0, 0], &[], &HEADER), Answer::completed(0, 2, 0));
    expect_refused(&[], &[2, 6, 2, 5, 0, 0], &[], 6, 2);
}

#[test]
fn a_leaf_past_the_pool_is_7() {
    expect_refused(&[], &[5, 1, 0], &[], 7, 0);
    expect_refused(&EVERYTHING, &[5, 0, 2], &[0], 7, 0);
    expect_refused(&EVERYTHING, &[5, u32::MAX, 1], &[0], 7, 0);
    expect_refused(&EVERYTHING, &[5, u32::MAX, 2], &[0], 7, 0);
    expect_refused(&EVERYTHING, &[5, 1, u32::MAX], &[0], 7, 0);
    assert_eq!(tree_first(&[], &[5, 1, 0], &[9], &HEADER), Answer::completed(0, 1, 0));
}

#[test]
fn an_entry_must_name_a_rule_that_is_wholly_lent() {
    let rules = EVERYTHING.repeat(2);
    expect_refused(&rules, &[5, 0, 3], &[0, 1, 2], 7, 0);
    expect_refused(&rules[..21], &[5, 0, 2], &[0, 1], 7, 0);
    expect_refused(&rules, &[5, 0, 2], &[0, u32::MAX], 7, 0);
    assert_eq!(tree_first(&rules[..21], &[5, 0, 1], &[0, 1], &HEADER), Answer::completed(1, 1, 1));
}

#[test]
fn entries_may_fall_and_repeat() {
    let rules = EVERYTHING.repeat(3);
    let mut out = [7_777; 6];
    let answer = tree_all(&rules, &[5, 1, 5], &[9, 2, 1, 1, 0, 2], &HEADER, &mut out);
    assert_eq!(answer, Answer::completed(5, 1, 5));
    assert_eq!(out, [2, 1, 1, 0, 2, 7_777]);
    assert_eq!(tree_all(&rules, &[5, 1, 5], &[9, 2, 1, 1, 0, 2], &HEADER, &mut [0; 4]), refused(4, 5));
    assert_eq!(tree_first(&rules, &[5, 1, 5], &[9, 2, 1, 1, 0, 2], &HEADER), Answer::completed(3, 1, 1));
}

#[test]
fn the_header_is_judged_first() {
    assert_eq!(tree_first(&[], &[], &[], &[0; 4]), refused(3, 5));
    assert_eq!(tree_all(&[], &[], &[], &[0, 0, 0, 65_537, 256], &mut []), refused(3, 3));
}
