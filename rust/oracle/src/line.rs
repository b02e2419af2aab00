//! The line search: the list is judged, and then scanned.

use crate::answer::Answer;
use crate::rules::judge_rules;
use crate::scan::{scan_all, scan_first};

/// Writes the numbers of all matching rules to the start of `out`, rising: 1, 2, 11, and then as `scan_all` does.
pub fn line_all(rules: &[u32], header: &[u32], out: &mut [u32]) -> Answer {
    match judge_rules(rules) {
        Err(refusal) => Answer::refused(refusal),
        Ok(_) => scan_all(rules, header, out),
    }
}

/// Finds the lowest matching rule: 1, 2, 11, and then as `scan_first` does. The whole list is judged first, so a bad
/// rule after the first match is still 2, and a twin is 11.
pub fn line_first(rules: &[u32], header: &[u32]) -> Answer {
    match judge_rules(rules) {
        Err(refusal) => Answer::refused(refusal),
        Ok(_) => scan_first(rules, header),
    }
}
