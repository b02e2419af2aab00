//! What a call answers: the number, place and extra of a refusal, or the values of a completed call.

/// The answer of any call. A completed call has number, place and extra 0; a refused one has `a` to `d` 0.
/// Which values a completed call gives is said at the call; a value that is not named there is 0.
#[derive(Clone, Copy, Debug, PartialEq, Eq)]
pub struct Answer {
    pub number: u64,
    pub place: u64,
    pub extra: u64,
    pub a: u64,
    pub b: u64,
    pub c: u64,
    pub d: u64,
}

impl Answer {
    /// A completed call's answer, in which `d` is 0.
    pub fn completed(a: u64, b: u64, c: u64) -> Answer {
        Answer { number: 0, place: 0, extra: 0, a, b, c, d: 0 }
    }

    /// The same with `d`, the action of the rule that a first-match found.
    pub fn with_action(self, action: u32) -> Answer {
        Answer { d: u64::from(action), ..self }
    }

    pub fn refused(refusal: Refusal) -> Answer {
        let (number, place, extra) = refusal.number_place_extra();
        Answer { number, place, extra, a: 0, b: 0, c: 0, d: 0 }
    }
}

/// What is wrong, as in the scope's table of refusal numbers.
#[derive(Clone, Copy, Debug, PartialEq, Eq)]
pub enum Refusal {
    /// The rule words are not a multiple of eleven, or over 5,632; or a tree writer is told of more than 512 rules.
    RuleWords,
    /// A rule is not good; this is the lowest such rule.
    RuleNotGood { rule: usize },
    /// The list has no rule of this number, which may be any 64-bit one.
    NoSuchRule { number: u64 },
    /// The header is not five words.
    HeaderLength,
    /// A port or the protocol is too large; this is the lowest such field.
    HeaderField { field: usize },
    /// The lent output is too short for the numbers, words or bytes needed.
    OutputShort { needed: usize },
    /// The lent output is too short for the words of the pool.
    PoolShort { needed: usize },
    /// The node words are none, not a multiple of three, or over 6,141; or the pool is over 4,096.
    TreeWords,
    /// A node is wrong, missing or left over.
    NodeWrong { node: u64 },
    /// A leaf's start, count or entries are wrong; the node count stands for counts that do not make the pool.
    LeafWrong { node: u64 },
    /// A leaf lacks a rule whose box meets the leaf's box; these are the lowest such leaf, and its lowest such rule.
    LeafLacksRule { node: u64, rule: u64 },
    /// A text line is wrong; lines count from 1.
    LineWrong { line: usize },
    /// The text stops before its end line, after so many whole lines.
    TextStops { lines: usize },
    /// A rule has the words of an earlier one, whatever their actions. This is the lowest such rule, so there is just
    /// one such earlier one.
    RuleHasTwin { rule: usize, earlier: usize },
    /// The program's alone: a file is not opened, is not read to its end, or is over 65,536 bytes.
    FileNotRead,
}

impl Refusal {
    /// The table's row for this refusal.
    fn number_place_extra(self) -> (u64, u64, u64) {
        match self {
            Refusal::RuleWords => (1, 0, 0),
            Refusal::RuleNotGood { rule } => (2, rule as u64, 0),
            Refusal::NoSuchRule { number } => (2, number, 0),
            Refusal::HeaderLength => (3, 5, 0),
            Refusal::HeaderField { field } => (3, field as u64, 0),
            Refusal::OutputShort { needed } => (4, needed as u64, 0),
            Refusal::PoolShort { needed } => (4, needed as u64, 1),
            Refusal::TreeWords => (5, 0, 0),
            Refusal::NodeWrong { node } => (6, node, 0),
            Refusal::LeafWrong { node } => (7, node, 0),
            Refusal::LeafLacksRule { node, rule } => (8, node, rule),
            Refusal::LineWrong { line } => (9, line as u64, 0),
            Refusal::TextStops { lines } => (10, lines as u64, 0),
            Refusal::RuleHasTwin { rule, earlier } => (11, rule as u64, earlier as u64),
            Refusal::FileNotRead => (12, 0, 0),
        }
    }
}
