//! Why a rule missed: one rule of a list, named by its number, is compared with a header.

use crate::answer::{Answer, Refusal};
use crate::header::judge_header;
use crate::matching::first_miss;
use crate::rules::judge_rules;

/// Finds the lowest field in which the rule of this number and the header disagree: 1, 2, 11 for the list, 3 for the
/// header, then 2 with the number as it is given where there is no such rule. A completed call gives `a`, the field, or
/// the number of fields where the rule matches.
pub fn rule_misses(rules: &[u32], header: &[u32], number: u64) -> Answer {
    match miss(rules, header, number) {
        Err(refusal) => Answer::refused(refusal),
        Ok(field) => Answer::completed(field as u64, 0, 0),
    }
}

fn miss(rules: &[u32], header: &[u32], number: u64) -> Result<usize, Refusal> {
    let list = judge_rules(rules)?;
    let header = judge_header(header)?;
    for (own, rule) in (0..).zip(&list) {
        if own == number {
            return Ok(first_miss(rule, &header));
        }
    }
    Err(Refusal::NoSuchRule { number })
}
