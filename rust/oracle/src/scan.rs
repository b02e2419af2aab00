//! The scan: every whole rule of the words is compared with the header, from rule 0 on. No list is judged.

use crate::answer::{Answer, Refusal};
use crate::header::judge_header;
use crate::matching::matches;
use crate::rules::{rule_of, Rule, RULE_WORDS};

/// Writes the numbers of all matching rules to the start of `out`, rising: 3, then 4.
/// A completed scan gives `a`, how many numbers it wrote; the rest of `out` is as found. So is all of it
/// on a refusal. Where no rule matches, no room is needed.
pub fn scan_all(rules: &[u32], header: &[u32], out: &mut [u32]) -> Answer {
    match scan(rules, header) {
        Err(refusal) => Answer::refused(refusal),
        Ok(matching) if matching.len() > out.len() => Answer::refused(Refusal::OutputShort { needed: matching.len() }),
        Ok(matching) => {
            for (place, (number, _)) in out.iter_mut().zip(&matching) {
                *place = *number;
            }
            Answer::completed(matching.len() as u64, 0, 0)
        }
    }
}

/// Finds the lowest matching rule: 3. A completed scan gives `a`, the rule's number + 1, and `d`, its action, whatever
/// word that is; both are 0 where none matches.
pub fn scan_first(rules: &[u32], header: &[u32]) -> Answer {
    match scan(rules, header) {
        Err(refusal) => Answer::refused(refusal),
        Ok(matching) => match matching.first() {
            None => Answer::completed(0, 0, 0),
            Some((number, rule)) => Answer::completed(u64::from(*number) + 1, 0, 0).with_action(rule.action),
        },
    }
}

/// All matching rules with their numbers, rising; otherwise refusal 3. Words past the last whole rule are no rule.
fn scan(words: &[u32], header: &[u32]) -> Result<Vec<(u32, Rule)>, Refusal> {
    let header = judge_header(header)?;
    let mut matching = Vec::new();
    for (number, words) in (0..).zip(words.chunks_exact(RULE_WORDS)) {
        let rule = rule_of(words);
        if matches(&rule, &header) {
            matching.push((number, rule));
        }
    }
    Ok(matching)
}
