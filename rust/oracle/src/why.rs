//! The program `why`: what it writes to standard output, from the words it is started with, from `rules.txt` and from
//! its standard input.

use crate::misses::rule_misses;
use crate::program::{load_rules, refused_line, replies, text_of_file, Found};
use crate::text::{number, parts};

/// The names of the fields, by number.
const NAMES: [&str; 5] = ["source", "destination", "source port", "destination port", "protocol"];

/// What the program writes. It is started with one word, the number of a rule; with any other words it writes nothing.
/// A refused `rules.txt` ends it, before it reads any input. The list may lack the rule: each header is then refused.
pub fn why(words: &[&[u8]], rules: Found, input: &[u8]) -> Vec<u8> {
    let [word] = words else { return Vec::new() };
    let Some(rule) = number(word) else { return Vec::new() };
    match (load_rules(rules), text_of_file(rules)) {
        (Err(answer), _) | (_, Err(answer)) => refused_line(answer).into_bytes(),
        (Ok(list), Ok(text)) => replies(input, |header| reply(&list, text, rule, header)).into_bytes(),
    }
}

/// What is written for a line that has this header.
fn reply(list: &[u32], text: &[u8], rule: u32, header: &[u32; 5]) -> String {
    let answer = rule_misses(list, header, u64::from(rule));
    if answer.number != 0 {
        return refused_line(answer);
    }
    let field = answer.a as usize;
    match NAMES.get(field) {
        None => "match\n".to_string(),
        Some(name) => format!("misses\t{field}\t{name}\t{}\n", own_words(text, rule, field)),
    }
}

/// The words of this field on the line of this rule, as they stand there. The first line is that of the count, and a
/// rule's line begins with two other words. An address with its length is one word, and a range is two.
fn own_words(text: &[u8], rule: u32, field: usize) -> String {
    let line = parts(text, b'\n')[1 + rule as usize];
    let words = parts(line, b'\t');
    let own = match field {
        0 => &words[2..3],
        1 => &words[3..4],
        2 => &words[4..6],
        3 => &words[6..8],
        _ => &words[8..10],
    };
    String::from_utf8_lossy(&own.join(&b'\t')).into_owned()
}
