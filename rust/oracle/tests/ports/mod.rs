//! Rules and headers that differ from everything, or from 7s, in one field.

// Each test takes what it needs of it.
#![allow(dead_code)]

use oracle::Answer;

pub type Rule = [u32; 11];

pub const EVERYTHING: Rule = [0, 0, 0, 0, 0, 65_535, 0, 65_535, 0, 255, 0];

/// The two port fields.
pub const PORTS: [usize; 2] = [2, 3];

/// Everything, but for this range in this field.
pub fn with(field: usize, range: [u32; 2]) -> Rule {
    let mut rule = EVERYTHING;
    rule[2 * field..2 * field + 2].copy_from_slice(&range);
    rule
}

/// The header with this value in this field.
pub fn head(field: usize, value: u32) -> [u32; 5] {
    let mut header = [7; 5];
    header[field] = value;
    header
}

pub fn refused(number: u64, place: u64, extra: u64) -> Answer {
    Answer { number, place, extra, a: 0, b: 0, c: 0, d: 0 }
}
