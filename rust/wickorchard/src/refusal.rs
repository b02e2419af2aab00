//! Why a call was refused.

use std::error::Error;
use std::fmt::{self, Display, Formatter};

use crate::raw::Answer;

/// What is wrong, with its place and, where it has one, its extra.
#[derive(Clone, Copy, Debug, PartialEq, Eq)]
pub enum Refusal {
    /// 1: the rule words are not a multiple of eleven, or over 5,632; or a tree or a part to write is for more than 512
    /// rules.
    RuleWordsWrong,
    /// 2: a rule is not good, or has an action that a rules file cannot hold. This is the lowest such rule. Or the list
    /// has no rule of this number, which was asked for.
    RuleNotGood { rule: u64 },
    /// 3: a port or the protocol of the header is too large, and this is the lowest such field; or the header is not
    /// five words, and the field is 5.
    HeaderWrong { field: u64 },
    /// 4: the lent output is too short, or a tree that is built has too many node words. So many numbers, words or
    /// bytes are needed.
    OutputShort { needed: u64 },
    /// 4: the lent pool is too short, or a tree that is built has too many pool words. So many words are needed.
    PoolShort { needed: u64 },
    /// 5: the node words are none, not a multiple of three, or over 6,141; or the pool is over 4,096.
    TreeWordsWrong,
    /// 6: a node is wrong, missing or left over; or a part is for another number of rules than the list has, and the
    /// node is 0.
    NodeWrong { node: u64 },
    /// 7: a leaf's start, count or entries are wrong.
    LeafWrong { node: u64 },
    /// 8: a leaf lacks a rule whose box meets the leaf's box.
    LeafLacksRule { node: u64, rule: u64 },
    /// 9: a line of the text is wrong. Lines count from 1.
    LineWrong { line: u64 },
    /// 10: the text stops before its end line, after so many whole lines.
    TextStops { lines: u64 },
    /// 11: a rule has the words of an earlier one, whatever their actions. This is the lowest such rule, and the
    /// earlier one.
    RuleHasTwin { rule: u64, earlier: u64 },
}

impl Refusal {
    /// What these words of an answer say: None where the call was completed.
    pub(crate) fn of(&[number, place, extra, ..]: &Answer) -> Option<Refusal> {
        Some(match (number, extra) {
            (0, _) => return None,
            (1, _) => Refusal::RuleWordsWrong,
            (2, _) => Refusal::RuleNotGood { rule: place },
            (3, _) => Refusal::HeaderWrong { field: place },
            (4, 0) => Refusal::OutputShort { needed: place },
            (4, _) => Refusal::PoolShort { needed: place },
            (5, _) => Refusal::TreeWordsWrong,
            (6, _) => Refusal::NodeWrong { node: place },
            (7, _) => Refusal::LeafWrong { node: place },
            (8, rule) => Refusal::LeafLacksRule { node: place, rule },
            (9, _) => Refusal::LineWrong { line: place },
            (10, _) => Refusal::TextStops { lines: place },
            (11, earlier) => Refusal::RuleHasTwin { rule: place, earlier },
            _ => unreachable!("the library's calls give no refusal {number}"),
        })
    }

    /// Its number, place and extra; 0 where it has none.
    pub fn number_place_extra(self) -> (u64, u64, u64) {
        match self {
            Refusal::RuleWordsWrong => (1, 0, 0),
            Refusal::RuleNotGood { rule } => (2, rule, 0),
            Refusal::HeaderWrong { field } => (3, field, 0),
            Refusal::OutputShort { needed } => (4, needed, 0),
            Refusal::PoolShort { needed } => (4, needed, 1),
            Refusal::TreeWordsWrong => (5, 0, 0),
            Refusal::NodeWrong { node } => (6, node, 0),
            Refusal::LeafWrong { node } => (7, node, 0),
            Refusal::LeafLacksRule { node, rule } => (8, node, rule),
            Refusal::LineWrong { line } => (9, line, 0),
            Refusal::TextStops { lines } => (10, lines, 0),
            Refusal::RuleHasTwin { rule, earlier } => (11, rule, earlier),
        }
    }
}

impl Display for Refusal {
    fn fmt(&self, to: &mut Formatter) -> fmt::Result {
        let (number, place, extra) = self.number_place_extra();
        write!(to, "refused with {number}, place {place}, extra {extra}")
    }
}

impl Error for Refusal {}
