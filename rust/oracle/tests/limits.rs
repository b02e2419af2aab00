//! The limits of rules, lists, headers and rooms, on both sides.

use oracle::{line_all, line_first, rule_check, Answer};

const EVERYTHING: [u32; 11] = [0, 0, 0, 0, 0, 65_535, 0, 65_535, 0, 255, 0];
const HEADER: [u32; 5] = [0x0A01_0203, 0xC0A8_0001, 40_000, 80, 6];

/// The rule that matches everything, with one word put in another's place.
fn with(word: usize, value: u32) -> [u32; 11] {
    let mut rule = EVERYTHING;
    rule[word] = value;
    rule
}

/// So many rules. They differ in the ends of the source port, and all match `HEADER`.
fn many(rules: u32) -> Vec<u32> {
    (0..rules).flat_map(|number| [0, 0, 0, 0, number, 65_535 - number, 0, 65_535, 0, 255, 0]).collect()
}

fn refused(number: u64, place: u64) -> Answer {
    Answer { number, place, extra: 0, a: 0, b: 0, c: 0, d: 0 }
}

fn matches(rule: &[u32; 11], header: &[u32; 5]) -> bool {
    let answer = line_first(rule, header);
    assert_eq!(answer.number, 0);
    answer.a > 0
}

#[test]
fn length_0_agrees_with_everything() {
    for address in [0, 1, 0x8000_0000, u32::MAX] {
        assert!(matches(&EVERYTHING, &[address, address, 0, 0, 0]));
    }
}

#[test]
fn length_32_agrees_with_one_address() {
    for word in [0, 2] {
        for address in [0, 0x0A01_0203, 0x8000_0000, u32::MAX] {
            let mut rule = with(word, address);
            rule[word + 1] = 32;
            let mut header = HEADER;
            header[word / 2] = address;
            assert!(matches(&rule, &header));
            for bit in 0..32 {
                header[word / 2] = address ^ (1 << bit);
                assert!(!matches(&rule, &header));
            }
        }
    }
}

#[test]
fn the_prefix_is_its_range() {
    let mut rule = with(0, 0x0A00_0000);
    rule[1] = 8;
    for (address, inside) in [(0x09FF_FFFF, false), (0x0A00_0000, true), (0x0AFF_FFFF, true), (0x0B00_0000, false)] {
        assert_eq!(matches(&rule, &[address, 0, 0, 0, 0]), inside);
    }
}

#[test]
fn length_33_and_stray_bits_are_2() {
    for word in [0, 2] {
        assert_eq!(rule_check(&with(word + 1, 33)), refused(2, 0));
        assert_eq!(rule_check(&with(word + 1, u32::MAX)), refused(2, 0));
        for length in 0..32 {
            for bit in 0..32 {
                let mut rule = with(word, 1 << bit);
                rule[word + 1] = length;
                // Bit 31 is the first of the address, so it is past the length only where the length is 0.
                let good = 31 - bit < length;
                assert_eq!(rule_check(&rule) == Answer::completed(1, 0, 0), good);
                assert_eq!(rule_check(&rule) == refused(2, 0), !good);
            }
        }
    }
}

#[test]
fn ranges_over_their_limit_or_turned_round_are_2() {
    for (word, largest) in [(4, 65_535), (6, 65_535), (8, 255)] {
        assert_eq!(rule_check(&with(word, largest)), Answer::completed(1, 0, 0));
        assert_eq!(rule_check(&with(word + 1, 0)), Answer::completed(1, 0, 0));
        assert_eq!(rule_check(&with(word, largest + 1)), refused(2, 0));
        assert_eq!(rule_check(&with(word + 1, largest + 1)), refused(2, 0));
        let mut turned = with(word, 8);
        turned[word + 1] = 7;
        assert_eq!(rule_check(&turned), refused(2, 0));
    }
}

#[test]
fn a_list_holds_512_rules_and_not_513() {
    let list = many(512);
    let mut out = [7_777; 513];
    assert_eq!(rule_check(&list), Answer::completed(512, 0, 0));
    assert_eq!(line_all(&list, &HEADER, &mut out), Answer::completed(512, 0, 0));
    assert!((0..512).all(|number| out[number as usize] == number));
    assert_eq!(out[512], 7_777);
    assert_eq!(line_first(&list, &HEADER), Answer::completed(1, 0, 0));

    let longer = many(513);
    let mut out = [7_777; 513];
    assert_eq!(rule_check(&longer), refused(1, 0));
    assert_eq!(line_all(&longer, &HEADER, &mut out), refused(1, 0));
    assert_eq!(line_first(&longer, &HEADER), refused(1, 0));
    assert_eq!(out, [7_777; 513]);
}

#[test]
fn no_rules_and_no_room_is_a_completed_search() {
    assert_eq!(rule_check(&[]), Answer::completed(0, 0, 0));
    assert_eq!(line_all(&[], &HEADER, &mut []), Answer::completed(0, 0, 0));
    assert_eq!(line_first(&[], &HEADER), Answer::completed(0, 0, 0));
    let elsewhere = with(8, 7);
    assert_eq!(line_all(&elsewhere, &HEADER, &mut []), Answer::completed(0, 0, 0));
    assert_eq!(line_first(&elsewhere, &HEADER), Answer::completed(0, 0, 0));
}

#[test]
fn the_lowest_bad_rule_is_named_even_after_the_first_match() {
    let mut list = many(5);
    list[4 * 11 + 1] = 33;
    assert_eq!(rule_check(&list), refused(2, 4));
    assert_eq!(line_first(&list, &HEADER), refused(2, 4));
    list[2 * 11 + 9] = 256;
    assert_eq!(rule_check(&list), refused(2, 2));
}

#[test]
fn refusals_come_in_order() {
    let mut list = EVERYTHING.to_vec();
    let mut header = HEADER.to_vec();
    assert_eq!(line_all(&list, &header, &mut []), refused(4, 1));
    header[3] = 65_537;
    header[4] = 256;
    assert_eq!(line_all(&list, &header, &mut []), refused(3, 3));
    header[2] = u32::MAX;
    assert_eq!(line_all(&list, &header, &mut []), refused(3, 2));
    header.push(0);
    assert_eq!(line_all(&list, &header, &mut []), refused(3, 5));
    assert_eq!(line_all(&list, &[], &mut []), refused(3, 5));
    list[1] = 33;
    assert_eq!(line_all(&list, &header, &mut []), refused(2, 0));
    list.push(0);
    assert_eq!(line_all(&list, &header, &mut []), refused(1, 0));
    assert_eq!(line_first(&list, &header), refused(1, 0));
}
