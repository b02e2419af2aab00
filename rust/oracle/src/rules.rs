//! Rules: eleven words each, when one is good, and the rule check.

use crate::answer::{Answer, Refusal};
use crate::matching::bits;

/// The words of one rule: those of its fields, and its action.
pub const RULE_WORDS: usize = 11;
/// The words of its fields, which stand first. Only these are compared with a header, and with another rule's.
pub const FIELD_WORDS: usize = 10;
/// The most rules that a list holds.
pub const MOST_RULES: usize = 512;
/// The longest prefix, in bits.
pub const LONGEST_PREFIX: u32 = 32;
/// The largest port, and so the largest end of a rule's range of ports.
pub const LARGEST_PORT: u32 = 65_535;
/// The largest protocol.
pub const LARGEST_PROTOCOL: u32 = 255;
/// The largest action.
pub const LARGEST_ACTION: u32 = 255;

/// An address of which the first `length` bits count.
#[derive(Clone, Copy, Debug)]
pub struct Prefix {
    pub address: u32,
    pub length: u32,
}

/// The values from `low` to `high`, both ends included.
#[derive(Clone, Copy, Debug)]
pub struct Range {
    pub low: u32,
    pub high: u32,
}

impl Range {
    /// Is it exactly the range of all ports, 0 to 65,535? Only this one matches a packet without the port.
    pub fn is_all_ports(self) -> bool {
        self.low == 0 && self.high == LARGEST_PORT
    }
}

/// One rule, good or not.
#[derive(Clone, Copy, Debug)]
pub struct Rule {
    pub source: Prefix,
    pub destination: Prefix,
    pub source_port: Range,
    pub destination_port: Range,
    pub protocol: Range,
    /// What its user does with a packet that this rule decides about. A first-match gives it.
    pub action: u32,
}

/// Answers whether the list is of a right length, every rule of it good, and no two of them the same: 1, 2, then 11.
/// A completed check gives `a`, the number of rules.
pub fn rule_check(rules: &[u32]) -> Answer {
    match judge_rules(rules) {
        Err(refusal) => Answer::refused(refusal),
        Ok(list) => Answer::completed(list.len() as u64, 0, 0),
    }
}

/// The rules of a list that is right, in order; otherwise refusal 1; 2, at the lowest bad rule; or 11.
pub fn judge_rules(words: &[u32]) -> Result<Vec<Rule>, Refusal> {
    judge_rules_by(words, is_good)
}

/// The same, where a rule is taken if this test takes it; otherwise it is 2 there.
pub fn judge_rules_by(words: &[u32], takes: impl Fn(&Rule) -> bool) -> Result<Vec<Rule>, Refusal> {
    if !words.len().is_multiple_of(RULE_WORDS) || words.len() > MOST_RULES * RULE_WORDS {
        return Err(Refusal::RuleWords);
    }
    let mut list = Vec::new();
    for (number, words) in words.chunks_exact(RULE_WORDS).enumerate() {
        let rule = rule_of(words);
        if !takes(&rule) {
            return Err(Refusal::RuleNotGood { rule: number });
        }
        list.push(rule);
    }
    judge_twins(words)?;
    Ok(list)
}

/// Is each rule another one than all before it? Otherwise 11, at the lowest rule that is not. Two rules are the same
/// where the words of their fields are, whatever their actions; every rule is compared with every earlier one.
pub fn judge_twins(words: &[u32]) -> Result<(), Refusal> {
    let rules: Vec<&[u32]> = words.chunks_exact(RULE_WORDS).map(|words| &words[..FIELD_WORDS]).collect();
    for rule in 0..rules.len() {
        for earlier in 0..rule {
            if rules[earlier] == rules[rule] {
                return Err(Refusal::RuleHasTwin { rule, earlier });
            }
        }
    }
    Ok(())
}

/// The rule that these eleven words are.
pub fn rule_of(words: &[u32]) -> Rule {
    Rule {
        source: Prefix { address: words[0], length: words[1] },
        destination: Prefix { address: words[2], length: words[3] },
        source_port: Range { low: words[4], high: words[5] },
        destination_port: Range { low: words[6], high: words[7] },
        protocol: Range { low: words[8], high: words[9] },
        action: words[10],
    }
}

/// Is the rule good, as "Words for rules and headers" has it, and its action from 0 to 255?
pub fn is_good(rule: &Rule) -> bool {
    is_good_prefix(rule.source)
        && is_good_prefix(rule.destination)
        && is_good_range(rule.source_port, LARGEST_PORT)
        && is_good_range(rule.destination_port, LARGEST_PORT)
        && is_good_range(rule.protocol, LARGEST_PROTOCOL)
        && rule.action <= LARGEST_ACTION
}

/// The length is at most 32, and every address bit past it is zero.
fn is_good_prefix(prefix: Prefix) -> bool {
    if prefix.length > LONGEST_PREFIX {
        return false;
    }
    let past = &bits(prefix.address)[prefix.length as usize..];
    past.iter().all(|&bit| !bit)
}

/// Low is at most high, and neither is over the largest end that its field allows.
fn is_good_range(range: Range, largest: u32) -> bool {
    range.low <= range.high && range.low <= largest && range.high <= largest
}
