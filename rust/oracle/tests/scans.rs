//! The two searches that judge no list: they take any words.

mod worked;

use oracle::{scan_all, scan_first, Answer};
use worked::{header, policy, ADDRESS_10_1_2_3, AS_FOUND};

const EVERYTHING: [u32; 11] = [0, 0, 0, 0, 0, 65_535, 0, 65_535, 0, 255, 0];
const HEADER: [u32; 5] = [7, 7, 7, 7, 7];

fn refused(number: u64, place: u64) -> Answer {
    Answer { number, place, extra: 0, a: 0, b: 0, c: 0, d: 0 }
}

/// Expects these numbers with exact room and with more, 4 with any less, and the first of them from first-match.
fn expect_list(rules: &[u32], header: &[u32], list: &[u32]) {
    let count = list.len() as u64;
    for room in 0..list.len() + 3 {
        let mut out = vec![AS_FOUND; room];
        let answer = scan_all(rules, header, &mut out);
        let written = if room < list.len() { 0 } else { list.len() };
        assert_eq!(answer, if room < list.len() { refused(4, count) } else { Answer::completed(count, 0, 0) });
        assert_eq!(out[..written], list[..written]);
        assert!(out[written..].iter().all(|&word| word == AS_FOUND));
    }
    assert_eq!(scan_first(rules, header), Answer::completed(list.first().map_or(0, |&rule| u64::from(rule) + 1), 0, 0));
}

#[test]
fn the_worked_policy() {
    expect_list(&policy(), &header(ADDRESS_10_1_2_3, 80, 6), &[0, 1, 2]);
    expect_list(&policy(), &header(ADDRESS_10_1_2_3, 443, 6), &[1, 2]);
    expect_list(&policy(), &header(0x0B00_0000, 80, 6), &[2]);
    expect_list(&[], &HEADER, &[]);
}

#[test]
fn rules_that_are_not_good_are_compared_as_they_are() {
    // A stray bit, a length over 32, a range that is turned round, and ends over the limits.
    let mut rules = EVERYTHING.repeat(6);
    rules[..2].copy_from_slice(&[7, 8]);
    rules[12] = 33;
    rules[26..28].copy_from_slice(&[8, 7]);
    rules[38] = 70_000;
    rules[53] = u32::MAX;
    expect_list(&rules, &HEADER, &[0, 3, 4, 5]);
}

#[test]
fn words_past_the_last_whole_rule_are_no_rule() {
    let rules = EVERYTHING.repeat(3);
    for words in 0..=33 {
        let list: Vec<u32> = (0..words as u32 / 11).collect();
        expect_list(&rules[..words], &HEADER, &list);
    }
}

#[test]
fn a_scan_has_no_limit_of_rules() {
    let mut rules = [8, 32, 0, 0, 0, 0, 0, 0, 0, 0, 0].repeat(700);
    rules.extend(EVERYTHING.repeat(2));
    expect_list(&rules, &HEADER, &[700, 701]);
}

#[test]
fn the_header_is_judged_before_the_room() {
    let rules = EVERYTHING.repeat(2);
    for (header, place) in [
        (vec![7; 4], 5),
        (vec![u32::MAX; 6], 5),
        (vec![], 5),
        (vec![7, 7, 65_537, 7, 256], 2),
        (vec![7, 7, 7, 65_537, 256], 3),
        (vec![7, 7, 65_536, 65_536, 256], 4),
    ] {
        for room in [0, 1, 2, 3] {
            let mut out = vec![AS_FOUND; room];
            assert_eq!(scan_all(&rules, &header, &mut out), refused(3, place));
            assert!(out.iter().all(|&word| word == AS_FOUND));
        }
        assert_eq!(scan_first(&rules, &header), refused(3, place));
        assert_eq!(scan_first(&[], &header), refused(3, place));
    }
}
