//! Every kind of damage that makes a good rule not good, and a good header refused.

use crate::headers::{Header, LARGEST};
use crate::lists::{Rule, ACTION, LARGEST_END};

/// A good rule with one kind of damage, and what the damage is.
pub struct Damaged {
    pub kind: String,
    pub rule: Rule,
}

/// The good rule with each kind of damage, none of which leaves it good.
pub fn damaged_rules(rule: &Rule) -> Vec<Damaged> {
    let mut all = Vec::new();
    for field in 0..2 {
        long_lengths(rule, field, &mut all);
        stray_bits(rule, field, &mut all);
    }
    for field in 2..5 {
        wrong_ranges(rule, field, &mut all);
    }
    large_actions(rule, &mut all);
    largest_words(rule, &mut all);
    all
}

/// Lengths over 32. Some of them are right again modulo 32, 64, 256 or 65,536.
fn long_lengths(rule: &Rule, field: usize, all: &mut Vec<Damaged>) {
    let length = rule[2 * field + 1];
    for wrong in [33, 34, 64, 32 + length + 1, 64 + length, 256 + length, 65_536 + length, 1 << 31, u32::MAX] {
        all.push(put(rule, 2 * field + 1, wrong, format!("field {field}: length {wrong}")));
    }
}

/// Each single address bit past the length.
fn stray_bits(rule: &Rule, field: usize, all: &mut Vec<Damaged>) {
    let (address, length) = (rule[2 * field], rule[2 * field + 1]);
    for position in length..32 {
        let bit = 2_u32.pow(31 - position);
        all.push(put(rule, 2 * field, address + bit, format!("field {field}: stray bit {position}")));
    }
}

/// Ranges that are turned round, or pass the limit with one end or both.
fn wrong_ranges(rule: &Rule, field: usize, all: &mut Vec<Damaged>) {
    let (low, high) = (rule[2 * field], rule[2 * field + 1]);
    let largest = LARGEST_END[field];
    let over = largest + 1;
    let ends = [
        (high + 1, high),
        (1, 0),
        (largest, largest - 1),
        (largest, 0),
        (0, over),
        (low, over),
        (over, over),
        (over, largest),
        (low, over + high),
        (over + low, over + high),
        (over + low, high),
        (0, u32::MAX),
        (low, u32::MAX),
        (u32::MAX, u32::MAX),
        (u32::MAX, high),
        (u32::MAX, 0),
    ];
    for (low, high) in ends {
        let mut damaged = put(rule, 2 * field, low, format!("field {field}: range {low} to {high}"));
        damaged.rule[2 * field + 1] = high;
        all.push(damaged);
    }
}

/// Actions over 255. Some of them are right again modulo 256 or 65,536.
fn large_actions(rule: &Rule, all: &mut Vec<Damaged>) {
    let action = rule[ACTION];
    for wrong in [256, 257, 511, 256 + action, 65_536 + action, 1 << 31] {
        all.push(put(rule, ACTION, wrong, format!("action {wrong}")));
    }
}

/// The largest 32-bit word in place of each word. As an address of length 32 it is good, and so left out.
fn largest_words(rule: &Rule, all: &mut Vec<Damaged>) {
    for word in 0..rule.len() {
        let is_good = (word == 0 || word == 2) && rule[word + 1] == 32;
        if !is_good {
            all.push(put(rule, word, u32::MAX, format!("word {word}: {}", u32::MAX)));
        }
    }
}

fn put(rule: &Rule, word: usize, value: u32, kind: String) -> Damaged {
    let mut rule = *rule;
    rule[word] = value;
    Damaged { kind, rule }
}

/// Values that are too large for a port or protocol field; some are right again modulo 256 or 65,536.
pub fn too_large(field: usize, value: u32) -> [u32; 5] {
    let over = LARGEST[field] + 1;
    [over, over + value, (1 << 16) + value % 256 + over, 1 << 31, u32::MAX]
}

/// The header with too large a value in each field of which the set has the bit: bit 0 for field 2, and so on.
pub fn with_bad_fields(header: &Header, fields: usize, choice: usize) -> Header {
    let mut damaged = *header;
    for field in 2..5 {
        if (fields >> (field - 2)) & 1 == 1 {
            damaged[field] = too_large(field, header[field])[choice];
        }
    }
    damaged
}
