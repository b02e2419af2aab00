//! What the crate `vectors` must write: the examples that the scope leaves unmarked, and the limits, answered by the
//! oracle. The examples are stated here once more, and share nothing with the crate's.

#![forbid(unsafe_code)]

mod actions;
mod limits;
mod misses;
mod say;
mod twins;
mod worked;

fn main() {
    worked::searches();
    worked::checks();
    worked::rule_file();
    worked::tree_file();
    twins::lists();
    twins::rule_file();
    actions::lists();
    actions::rule_file();
    misses::worked_list();
    misses::narrow_rule();
    misses::refused();
    limits::lengths();
    limits::ports();
    limits::rules();
    limits::cuts();
}
