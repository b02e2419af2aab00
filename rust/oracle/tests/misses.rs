//! Why a rule missed: the lowest field that disagrees, and the order of the refusals.

mod ports;
mod worked;

use oracle::{line_all, rule_misses, Answer};
use ports::{refused, with, Rule};
use worked::{header, policy, ADDRESS_10_1_2_3};

/// A rule that is narrow in every field, and a header that it matches.
const NARROW: Rule = [0x0A00_0000, 8, 0xC0A8_0000, 16, 40_000, 40_000, 80, 80, 6, 6, 7];
const HEADER: [u32; 5] = [ADDRESS_10_1_2_3, 0xC0A8_0001, 40_000, 80, 6];
/// A value of each field that it does not match.
const OTHER: [u32; 5] = [0x0B00_0000, 0xC0A9_0000, 40_001, 79, 7];

fn at(field: u64) -> Answer {
    Answer::completed(field, 0, 0)
}

#[test]
fn the_lowest_field_of_every_set_is_given() {
    for set in 0..32_u32 {
        let head: Vec<u32> =
            (0..5).map(|field| if set >> field & 1 == 1 { OTHER[field] } else { HEADER[field] }).collect();
        assert_eq!(rule_misses(&NARROW, &head, 0), at(u64::from(set.trailing_zeros().min(5))), "{set:#b}");
    }
}

#[test]
fn the_worked_policy() {
    for (head, misses) in [
        (header(ADDRESS_10_1_2_3, 80, 6), [5, 5, 5]),
        (header(0x0A02_0001, 80, 6), [5, 0, 5]),
        (header(ADDRESS_10_1_2_3, 443, 6), [3, 5, 5]),
        (header(ADDRESS_10_1_2_3, 80, 17), [4, 4, 5]),
        (header(ADDRESS_10_1_2_3, 1_024, 17), [3, 3, 5]),
        (header(0x09FF_FFFF, 80, 6), [0, 0, 5]),
        (header(ADDRESS_10_1_2_3, 65_536, 6), [3, 3, 5]),
        ([ADDRESS_10_1_2_3, 0, 65_536, 65_536, 6], [3, 3, 5]),
    ] {
        for (number, field) in (0..).zip(misses) {
            assert_eq!(rule_misses(&policy(), &head, number), at(field), "{head:?}, rule {number}");
        }
        let mut out = [9; 3];
        let count = line_all(&policy(), &head, &mut out).a as usize;
        let matching: Vec<u32> = (0..3).filter(|&number| misses[number as usize] == 5).collect();
        assert_eq!(out[..count], matching);
    }
}

#[test]
fn an_absent_port_agrees_with_the_range_of_all_ports_alone() {
    for field in [2, 3] {
        for (range, misses) in
            [([0, 65_535], false), ([0, 65_534], true), ([1, 65_535], true), ([65_535, 65_535], true)]
        {
            let wanted = at(if misses { field as u64 } else { 5 });
            assert_eq!(rule_misses(&with(field, range), &ports::head(field, 65_536), 0), wanted, "{range:?}");
        }
    }
}

#[test]
fn a_number_past_the_list_is_2_with_the_whole_number() {
    let past = |count: u64| [count, count + 1, 512, 1 << 32, (1 << 32) + 1, 1 << 62, 1 << 63, u64::MAX];
    for number in past(3) {
        assert_eq!(rule_misses(&policy(), &HEADER, number), refused(2, number, 0));
    }
    for number in past(0) {
        assert_eq!(rule_misses(&[], &HEADER, number), refused(2, number, 0));
    }
}

#[test]
fn the_list_comes_first_then_the_header_then_the_number() {
    let [mut bad, twins] = [policy(), [NARROW, NARROW].concat()];
    bad[11 + 1] = 33;
    for number in [0, 1, 2, 3, u64::MAX] {
        for header in [&HEADER[..], &HEADER[..4], &[0, 0, 65_537, 0, 0], &[0, 0, 0, 65_537, 256], &[0, 0, 0, 0, 256]] {
            assert_eq!(rule_misses(&policy()[..32], header, number), refused(1, 0, 0));
            assert_eq!(rule_misses(&bad, header, number), refused(2, 1, 0));
            assert_eq!(rule_misses(&twins, header, number), refused(11, 1, 0));
        }
        assert_eq!(rule_misses(&policy(), &HEADER[..4], number), refused(3, 5, 0));
        assert_eq!(rule_misses(&policy(), &[0, 0, 65_537, 0, 256], number), refused(3, 2, 0));
        assert_eq!(rule_misses(&[], &[0, 0, 0, 0, 256], number), refused(3, 4, 0));
    }
}
