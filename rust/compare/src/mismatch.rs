//! What is written about a call on which the library and the oracle differ, or which the library does not answer.

use std::fmt::{self, Display, Formatter};

use oracle::rules::RULE_WORDS;

use crate::abi::{Call, ANSWER_WORDS};
use crate::arena::Difference;
use crate::lender::Silence;

/// The most rules of a list that are written out.
const SHOWN_RULES: u64 = 6;
/// The most nodes of a tree, and the most words of its pool, that are written out.
const SHOWN_NODES: usize = 40;
/// The most words of any other slice, and the most differences, that are written out.
const SHOWN_WORDS: usize = 12;
/// The most bytes of a text that are written out.
const SHOWN_BYTES: usize = 2_000;

/// A call and what it is given. What it does not take is None, or no room.
pub struct Inputs<'a> {
    pub call: Call,
    pub case: &'a str,
    pub rules: Option<&'a [u32]>,
    pub rule_count: Option<u64>,
    /// How many nodes are built at most.
    pub most: Option<u64>,
    /// The number of the rule that is asked for.
    pub asked: Option<u64>,
    /// The node words and the pool.
    pub tree: Option<(&'a [u32], &'a [u32])>,
    pub header: Option<&'a [u32]>,
    pub text: Option<&'a [u8]>,
    /// The elements of each output.
    pub rooms: &'a [usize],
}

impl<'a> Inputs<'a> {
    /// The call with nothing that it is given.
    pub fn of(call: Call, case: &'a str) -> Inputs<'a> {
        let (rule_count, most, asked) = (None, None, None);
        let (rules, tree, header, text) = (None, None, None, None);
        Inputs { call, case, rules, rule_count, most, asked, tree, header, text, rooms: &[] }
    }
}

/// What the library did.
pub enum Deed {
    /// It left the lent memory otherwise than the oracle has it, with this answer in it.
    Left { answer: [u64; ANSWER_WORDS], differences: Vec<Difference> },
    /// It did not come back from the call.
    Stayed(Silence),
}

/// A call, what it was given, and what differs.
pub struct Mismatch<'a> {
    pub group: &'a str,
    pub inputs: Inputs<'a>,
    pub library: Deed,
    pub oracle: [u64; ANSWER_WORDS],
}

impl Display for Mismatch<'_> {
    fn fmt(&self, to: &mut Formatter) -> fmt::Result {
        writeln!(to, "MISMATCH in {}", self.inputs.call.name())?;
        writeln!(to, "  group    {}", self.group)?;
        writeln!(to, "  case     {}", self.inputs.case)?;
        self.show_rules(to)?;
        if let Some(rule_count) = self.inputs.rule_count {
            writeln!(to, "  rules    {rule_count} by number")?;
        }
        if let Some(most) = self.inputs.most {
            writeln!(to, "  most     {most} nodes")?;
        }
        if let Some(asked) = self.inputs.asked {
            writeln!(to, "  asked    rule {asked}")?;
        }
        if let Some((nodes, pool)) = self.inputs.tree {
            writeln!(to, "  nodes    {} words", nodes.len())?;
            for (number, node) in nodes.chunks(3).enumerate().take(SHOWN_NODES) {
                writeln!(to, "    node {number}: {node:?}")?;
            }
            writeln!(to, "  pool     {} words: {:?}", pool.len(), &pool[..pool.len().min(SHOWN_NODES)])?;
        }
        if let Some(header) = self.inputs.header {
            let shown = &header[..header.len().min(SHOWN_WORDS)];
            writeln!(to, "  header   {} words: {shown:?}", header.len())?;
        }
        if let Some(text) = self.inputs.text {
            let shown = text[..text.len().min(SHOWN_BYTES)].escape_ascii();
            writeln!(to, "  text     {} bytes: \"{shown}\"", text.len())?;
        }
        if !self.inputs.rooms.is_empty() {
            writeln!(to, "  room     {:?}", self.inputs.rooms)?;
        }
        match &self.library {
            Deed::Left { answer, .. } => writeln!(to, "  library  {}", AnswerWords(answer))?,
            Deed::Stayed(silence) => writeln!(to, "  library  no answer: {silence}")?,
        }
        writeln!(to, "  oracle   {}", AnswerWords(&self.oracle))?;
        self.show_differences(to)
    }
}

impl Mismatch<'_> {
    /// Writes the first rules of the list, the one that is asked for, and those that either answer names: by its place,
    /// its extra, or the value of a first-match, which is the rule's number + 1.
    fn show_rules(&self, to: &mut Formatter) -> fmt::Result {
        let Some(rules) = self.inputs.rules else { return Ok(()) };
        writeln!(to, "  rules    {} words", rules.len())?;
        let names = |answer: &[u64], number: u64| [answer[1], answer[2]].contains(&number) || answer[3] == number + 1;
        let named = |number| match &self.library {
            Deed::Left { answer, .. } => names(answer, number) || names(&self.oracle, number),
            Deed::Stayed(_) => names(&self.oracle, number),
        };
        for (number, rule) in (0..).zip(rules.chunks(RULE_WORDS)) {
            if number < SHOWN_RULES || self.inputs.asked == Some(number) || named(number) {
                writeln!(to, "    rule {number}: {rule:?}")?;
            }
        }
        Ok(())
    }

    /// Writes the first places of the lent memory that differ, where the library came back from the call.
    fn show_differences(&self, to: &mut Formatter) -> fmt::Result {
        let Deed::Left { differences, .. } = &self.library else { return Ok(()) };
        writeln!(to, "  {} places of the lent memory differ", differences.len())?;
        for Difference { at, found, wanted } in differences.iter().take(SHOWN_WORDS) {
            writeln!(to, "    {at}: library {found:#x}, oracle {wanted:#x}")?;
        }
        Ok(())
    }
}

/// An answer's words with their names.
struct AnswerWords<'a>(&'a [u64; ANSWER_WORDS]);

impl Display for AnswerWords<'_> {
    fn fmt(&self, to: &mut Formatter) -> fmt::Result {
        let [number, place, extra, a, b, c, d, rest] = self.0;
        write!(to, "number {number}, place {place}, extra {extra}, a {a}, b {b}, c {c}, d {d}, rest {rest}")
    }
}
