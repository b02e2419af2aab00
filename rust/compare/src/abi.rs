//! The library's calls: how the lender is asked for one, and how an answer stands in the eight words that it writes.

use oracle::Answer;

use crate::arena::Lent;

/// The words of an answer: number, place, extra, a, b, c, d and one that is 0. A call writes all of them.
pub const ANSWER_WORDS: usize = 8;

/// The most slices that a request names, besides the answer.
const MOST_SLICES: usize = 6;
/// The numbers that a request has besides.
const NUMBERS: usize = 2;
/// The words of a request: the call, an offset and a length for each slice, the numbers, and the answer's offset.
const REQUEST_WORDS: usize = 1 + 2 * MOST_SLICES + NUMBERS + 1;

/// Words of 32 and of 64 bits are shared with x86-64 code, which puts the lowest byte first.
const _: () = assert!(cfg!(target_endian = "little"));

/// A call, by the number that `lender.c` has for it.
#[derive(Clone, Copy)]
pub enum Call {
    RuleCheck = 1,
    LineAll = 2,
    LineFirst = 3,
    TreeAll = 4,
    TreeFirst = 5,
    TreeCheck = 6,
    RulesWrite = 7,
    RulesRead = 8,
    TreeWrite = 9,
    TreeRead = 10,
    ScanAll = 11,
    ScanFirst = 12,
    Build = 13,
    BuildSome = 14,
    BuildOn = 15,
    PartWrite = 16,
    PartRead = 17,
    AclWrite = 18,
    RuleMisses = 19,
}

impl Call {
    /// The call's name in C.
    pub fn name(self) -> &'static str {
        match self {
            Call::RuleCheck => "wick_rule_check",
            Call::LineAll => "wick_line_all",
            Call::LineFirst => "wick_line_first",
            Call::TreeAll => "wick_tree_all",
            Call::TreeFirst => "wick_tree_first",
            Call::TreeCheck => "wick_tree_check",
            Call::RulesWrite => "wick_rules_write",
            Call::RulesRead => "wick_rules_read",
            Call::TreeWrite => "wick_tree_write",
            Call::TreeRead => "wick_tree_read",
            Call::ScanAll => "wick_scan_all",
            Call::ScanFirst => "wick_scan_first",
            Call::Build => "wick_build",
            Call::BuildSome => "wick_build_some",
            Call::BuildOn => "wick_build_on",
            Call::PartWrite => "wick_part_write",
            Call::PartRead => "wick_part_read",
            Call::AclWrite => "wick_acl_write",
            Call::RuleMisses => "wick_rule_misses",
        }
    }

    /// The call's number in a request, and in the lender's reply to it.
    pub fn number(self) -> u64 {
        self as u64
    }
}

/// What the lender is asked for.
pub struct Request<'a> {
    pub call: Call,
    /// In the order of the call's parameters.
    pub slices: &'a [Lent],
    /// In the order of the call's parameters; 0 where it takes none.
    pub numbers: [u64; NUMBERS],
    pub answer: Lent,
}

impl Request<'_> {
    /// The request as `lender.c` reads it.
    pub fn words(&self) -> [u64; REQUEST_WORDS] {
        assert!(self.slices.len() <= MOST_SLICES);
        let mut words = [0; REQUEST_WORDS];
        words[0] = self.call.number();
        for (pair, slice) in words[1..].chunks_exact_mut(2).zip(self.slices) {
            pair.copy_from_slice(&[slice.offset(), slice.length()]);
        }
        words[1 + 2 * MOST_SLICES..][..NUMBERS].copy_from_slice(&self.numbers);
        words[REQUEST_WORDS - 1] = self.answer.offset();
        words
    }
}

/// The words that a call must write where this is its answer.
pub fn answer_words(answer: &Answer) -> [u64; ANSWER_WORDS] {
    let Answer { number, place, extra, a, b, c, d } = *answer;
    [number, place, extra, a, b, c, d, 0]
}
