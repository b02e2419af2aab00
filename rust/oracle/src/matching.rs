//! In which field a rule and a header disagree first, and so when the rule matches. This is defined for any words, good
//! or not. The action takes no part in it.

use crate::header::{Header, ABSENT_PORT};
use crate::rules::{Prefix, Range, Rule};

/// The fields of a rule, and of a header.
pub const FIELDS: usize = 5;

/// Does the rule match the header? It does where they disagree in no field.
pub fn matches(rule: &Rule, header: &Header) -> bool {
    first_miss(rule, header) == FIELDS
}

/// The lowest field in which the rule and the header disagree, or the number of fields. The fields are looked at by
/// rising number.
pub fn first_miss(rule: &Rule, header: &Header) -> usize {
    if !agrees(rule.source, header.source) {
        return 0;
    }
    if !agrees(rule.destination, header.destination) {
        return 1;
    }
    if !takes_port(rule.source_port, header.source_port) {
        return 2;
    }
    if !takes_port(rule.destination_port, header.destination_port) {
        return 3;
    }
    if !lies_in(rule.protocol, header.protocol) {
        return 4;
    }
    FIELDS
}

/// Are the first *length* bits of both addresses the same? They are compared one by one, from the most
/// significant. Length 0 compares none, and so agrees with everything; a length over 32 agrees with nothing.
pub fn agrees(prefix: Prefix, address: u32) -> bool {
    let ours = bits(prefix.address);
    let theirs = bits(address);
    if prefix.length as usize > ours.len() {
        return false;
    }
    (0..prefix.length as usize).all(|position| ours[position] == theirs[position])
}

/// Does the range take the header's port? An absent port is taken by the range of all ports alone, whatever the ends of
/// the others; any other port is taken where it lies in the range.
pub fn takes_port(range: Range, port: u32) -> bool {
    if port == ABSENT_PORT {
        range.is_all_ports()
    } else {
        lies_in(range, port)
    }
}

/// Does the value lie in the range, ends included? A range with low over high holds nothing.
pub fn lies_in(range: Range, value: u32) -> bool {
    range.low <= value && value <= range.high
}

/// The 32 bits of a word, the most significant first. They are found by halving, from the last to the first.
pub fn bits(word: u32) -> [bool; 32] {
    let mut bits = [false; 32];
    let mut rest = word;
    for bit in bits.iter_mut().rev() {
        *bit = rest % 2 == 1;
        rest /= 2;
    }
    bits
}
