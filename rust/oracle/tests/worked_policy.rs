//! The list rows of the scope's worked policy.

mod worked;

use oracle::{line_all, line_first, rule_check, Answer};
use worked::{header, policy, ADDRESS_10_1_2_3, AS_FOUND};

/// Expects this list with exact room, with more room, and its first number from first-match.
fn expect_list(header: [u32; 5], list: &[u32]) {
    let count = list.len() as u64;
    for spare in 0..3 {
        let mut out = vec![AS_FOUND; list.len() + spare];
        assert_eq!(line_all(&policy(), &header, &mut out), Answer::completed(count, 0, 0));
        assert_eq!(&out[..list.len()], list);
        assert!(out[list.len()..].iter().all(|&word| word == AS_FOUND));
    }
    assert_eq!(line_first(&policy(), &header), Answer::completed(u64::from(list[0]) + 1, 0, 0));
}

fn refused(number: u64, place: u64) -> Answer {
    Answer { number, place, extra: 0, a: 0, b: 0, c: 0, d: 0 }
}

#[test]
fn the_policy_is_good() {
    assert_eq!(rule_check(&policy()), Answer::completed(3, 0, 0));
}

#[test]
fn each_header_has_its_list() {
    expect_list(header(ADDRESS_10_1_2_3, 80, 6), &[0, 1, 2]);
    expect_list(header(0x0A02_0001, 80, 6), &[0, 2]);
    expect_list(header(ADDRESS_10_1_2_3, 443, 6), &[1, 2]);
    expect_list(header(ADDRESS_10_1_2_3, 80, 17), &[2]);
    expect_list(header(0x09FF_FFFF, 80, 6), &[2]);
    expect_list(header(0x0AFF_FFFF, 80, 6), &[0, 2]);
    expect_list(header(0x0B00_0000, 80, 6), &[2]);
}

#[test]
fn room_for_two_where_three_match_is_4_and_leaves_the_output() {
    for room in 0..3 {
        let mut out = vec![AS_FOUND; room];
        let answer = line_all(&policy(), &header(ADDRESS_10_1_2_3, 80, 6), &mut out);
        assert_eq!(answer, refused(4, 3));
        assert!(out.iter().all(|&word| word == AS_FOUND));
    }
}

#[test]
fn protocol_256_is_3_at_field_4() {
    let mut out = [AS_FOUND; 3];
    let header = header(ADDRESS_10_1_2_3, 80, 256);
    assert_eq!(line_all(&policy(), &header, &mut out), refused(3, 4));
    assert_eq!(line_first(&policy(), &header), refused(3, 4));
    assert_eq!(out, [AS_FOUND; 3]);
}
