//! Matching of words that are no good rule. Line search never meets them; a tree search does.

use oracle::header::judge_header;
use oracle::matching::{bits, matches};
use oracle::rules::rule_of;

/// Does the rule of these words match this header?
fn match_words(words: [u32; 11], header: [u32; 5]) -> bool {
    matches(&rule_of(&words), &judge_header(&header).expect("the header is within its limits"))
}

#[test]
fn a_length_over_32_agrees_with_nothing() {
    for length in [33, 64, 256, u32::MAX] {
        assert!(!match_words([7, length, 0, 0, 0, 9, 0, 9, 0, 9, 0], [7, 0, 1, 1, 1]));
        assert!(!match_words([0, 0, 7, length, 0, 9, 0, 9, 0, 9, 0], [0, 7, 1, 1, 1]));
    }
}

#[test]
fn bits_past_the_length_do_not_matter() {
    assert!(match_words([0x0AFF_FFFF, 8, 0, 0, 0, 9, 0, 9, 0, 9, 0], [0x0A00_0000, 0, 1, 1, 1]));
    assert!(match_words([u32::MAX, 0, u32::MAX, 1, 0, 9, 0, 9, 0, 9, 0], [0, 0x8000_0000, 1, 1, 1]));
}

#[test]
fn range_ends_are_compared_as_they_are() {
    assert!(!match_words([0, 0, 0, 0, 8, 7, 0, 9, 0, 9, 0], [0, 0, 7, 1, 1]));
    assert!(!match_words([0, 0, 0, 0, 8, 7, 0, 9, 0, 9, 0], [0, 0, 8, 1, 1]));
    assert!(match_words([0, 0, 0, 0, 8, u32::MAX, 0, 9, 0, 9, 0], [0, 0, 65_535, 1, 1]));
    assert!(!match_words([0, 0, 0, 0, 8, u32::MAX, 0, 9, 0, 9, 0], [0, 0, 65_536, 1, 1]));
}

#[test]
fn the_first_bit_is_the_most_significant() {
    assert!(bits(0x8000_0000)[0]);
    assert!(bits(1)[31]);
    assert_eq!(bits(0x8000_0000).iter().filter(|&&bit| bit).count(), 1);
    assert_eq!(bits(1).iter().filter(|&&bit| bit).count(), 1);
    assert!(bits(u32::MAX).iter().all(|&bit| bit));
}
