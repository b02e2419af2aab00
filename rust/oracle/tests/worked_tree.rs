//! The tree rows of the scope's worked policy.

mod worked;

use oracle::{tree_all, tree_check, tree_first, Answer};
use worked::{header, policy, ADDRESS_10_1_2_3, AS_FOUND, NODES, POOL};

/// Expects this list after so many nodes and entries, with exact room and with more, and its first number after
/// `first_after` entries.
fn expect_list(header: [u32; 5], list: &[u32], visited: u64, compared: u64, first_after: u64) {
    let count = list.len() as u64;
    for spare in 0..3 {
        let mut out = vec![AS_FOUND; list.len() + spare];
        let answer = tree_all(&policy(), &NODES.concat(), &POOL, &header, &mut out);
        assert_eq!(answer, Answer::completed(count, visited, compared));
        assert_eq!(&out[..list.len()], list);
        assert!(out[list.len()..].iter().all(|&word| word == AS_FOUND));
    }
    let answer = tree_first(&policy(), &NODES.concat(), &POOL, &header);
    assert_eq!(answer, Answer::completed(u64::from(list[0]) + 1, visited, first_after));
}

fn refused(number: u64, place: u64, extra: u64) -> Answer {
    Answer { number, place, extra, a: 0, b: 0, c: 0, d: 0 }
}

#[test]
fn each_header_has_its_list_and_counts() {
    expect_list(header(ADDRESS_10_1_2_3, 80, 6), &[0, 1, 2], 3, 3, 1);
    expect_list(header(0x0A02_0001, 80, 6), &[0, 2], 3, 3, 1);
    expect_list(header(ADDRESS_10_1_2_3, 443, 6), &[1, 2], 3, 3, 2);
    expect_list(header(ADDRESS_10_1_2_3, 80, 17), &[2], 3, 3, 3);
    expect_list(header(0x09FF_FFFF, 80, 6), &[2], 2, 1, 1);
    expect_list(header(0x0AFF_FFFF, 80, 6), &[0, 2], 3, 3, 1);
    expect_list(header(0x0B00_0000, 80, 6), &[2], 3, 1, 1);
}

#[test]
fn the_tree_is_accepted() {
    assert_eq!(tree_check(&policy(), &NODES.concat(), &POOL), Answer::completed(2, 3, 0));
}

#[test]
fn without_entry_1_node_3_lacks_rule_1() {
    let nodes = [[0, 167_772_159, 2], [5, 0, 1], [0, 184_549_375, 4], [5, 1, 2], [5, 3, 1]];
    assert_eq!(tree_check(&policy(), &nodes.concat(), &[2, 0, 2, 2]), refused(8, 3, 1));
}

#[test]
fn a_value_that_leaves_no_left_part_is_6() {
    let mut nodes = NODES;
    nodes[2][1] = 167_772_159;
    assert_eq!(tree_check(&policy(), &nodes.concat(), &POOL), refused(6, 2, 0));
}

#[test]
fn no_rules_and_one_empty_leaf_are_accepted() {
    assert_eq!(tree_check(&[], &[5, 0, 0], &[]), Answer::completed(0, 0, 0));
    let answer = tree_all(&[], &[5, 0, 0], &[], &header(ADDRESS_10_1_2_3, 80, 6), &mut []);
    assert_eq!(answer, Answer::completed(0, 1, 0));
    assert_eq!(tree_first(&[], &[5, 0, 0], &[], &header(0, 0, 0)), Answer::completed(0, 1, 0));
}

#[test]
fn room_for_two_where_three_match_is_4_and_leaves_the_output() {
    for room in 0..3 {
        let mut out = vec![AS_FOUND; room];
        let answer = tree_all(&policy(), &NODES.concat(), &POOL, &header(ADDRESS_10_1_2_3, 80, 6), &mut out);
        assert_eq!(answer, refused(4, 3, 0));
        assert!(out.iter().all(|&word| word == AS_FOUND));
    }
}

#[test]
fn protocol_256_is_3_at_field_4() {
    let header = header(ADDRESS_10_1_2_3, 80, 256);
    assert_eq!(tree_all(&policy(), &NODES.concat(), &POOL, &header, &mut [0; 3]), refused(3, 4, 0));
    assert_eq!(tree_first(&policy(), &NODES.concat(), &POOL, &header), refused(3, 4, 0));
}
