//! Boxes: a low and a high for each of the five fields, both ends included.

use crate::header::ABSENT_PORT;
use crate::rules::{Prefix, Range, Rule, LARGEST_PROTOCOL};

/// The values of one field that a box holds. Ends are 64-bit numbers, so that one more than any value is a number.
#[derive(Clone, Copy, Debug, PartialEq, Eq)]
pub struct Side {
    pub low: u64,
    pub high: u64,
}

/// The sides of a box, by field.
pub type Sides = [Side; 5];

/// The largest value of each field of a header. That of a port is the absent one.
pub const LARGEST: [u32; 5] = [u32::MAX, u32::MAX, ABSENT_PORT, ABSENT_PORT, LARGEST_PROTOCOL];

/// The root's box, which holds every header.
pub fn root_box() -> Sides {
    LARGEST.map(|largest| Side { low: 0, high: u64::from(largest) })
}

/// The box of all headers that the good rule matches.
pub fn box_of(rule: &Rule) -> Sides {
    [
        prefix_side(rule.source),
        prefix_side(rule.destination),
        ports_side(rule.source_port),
        ports_side(rule.destination_port),
        range_side(rule.protocol),
    ]
}

/// A prefix is the range from its address up to address + 2^(32 - length) - 1.
fn prefix_side(prefix: Prefix) -> Side {
    let low = u64::from(prefix.address);
    Side { low, high: low + 2_u64.pow(32 - prefix.length) - 1 }
}

/// A range of ports is what it says, but the range of all ports reaches the absent one too.
fn ports_side(range: Range) -> Side {
    if range.is_all_ports() {
        Side { low: 0, high: u64::from(ABSENT_PORT) }
    } else {
        range_side(range)
    }
}

fn range_side(range: Range) -> Side {
    Side { low: u64::from(range.low), high: u64::from(range.high) }
}

/// What a cut keeps for its left child: low to value.
pub fn left_of(mut sides: Sides, field: usize, value: u32) -> Sides {
    sides[field].high = u64::from(value);
    sides
}

/// What a cut keeps for its right child: value + 1 to high.
pub fn right_of(mut sides: Sides, field: usize, value: u32) -> Sides {
    sides[field].low = u64::from(value) + 1;
    sides
}

/// May the box be cut here? The value is at least the low and below the high, so neither part is empty.
pub fn may_cut(sides: &Sides, field: usize, value: u32) -> bool {
    sides[field].low <= u64::from(value) && u64::from(value) < sides[field].high
}

/// Do the boxes meet: is there a header in both? There is where every field has a value in both.
pub fn meet(ours: &Sides, theirs: &Sides) -> bool {
    (0..5).all(|field| {
        let low = ours[field].low.max(theirs[field].low);
        let high = ours[field].high.min(theirs[field].high);
        low <= high
    })
}
