//! The program: what it writes to standard output, from its two files and its standard input.
//!
//! The written list answers every line here, whether the tree is accepted or not: an accepted tree gives every header
//! the same answer, so what the program writes may not tell which of them served.

use crate::answer::{Answer, Refusal};
use crate::line::line_all;
use crate::nodes::{MOST_ENTRIES, MOST_NODES, NODE_WORDS};
use crate::rule_file::rules_read;
use crate::rules::{MOST_RULES, RULE_WORDS};
use crate::text::{address, number, parts};
use crate::tree_check::tree_check;
use crate::tree_file::tree_read;

/// The most bytes of a file that is read.
pub const MOST_BYTES: usize = 65_536;
/// The most bytes of an input line, newline apart.
pub const LONGEST_LINE: usize = 64;

/// What the program finds where one of its files should be.
#[derive(Clone, Copy, Debug)]
pub enum Found<'a> {
    /// There is nothing of its name.
    Missing,
    /// It cannot be opened, or it cannot be read to its end: a directory, for one.
    Unreadable,
    /// A file that holds these bytes.
    Bytes(&'a [u8]),
}

/// What the program writes to standard output. A refused `rules.txt` ends it, before it reads any input.
pub fn program(rules: Found, tree: Found, input: &[u8]) -> Vec<u8> {
    let mut written = String::new();
    let list = match load_rules(rules) {
        Ok(list) => list,
        Err(answer) => return refused_line(answer).into_bytes(),
    };
    if let Err(answer) = judge_tree_file(&list, tree) {
        written += &refused_line(answer);
    }
    written += &replies(input, |header| reply(&list, header));
    written.into_bytes()
}

/// What a program writes for its input, of which each whole line is to be a head line: what `reply` says to the header
/// of a line that is one, and 9 with its number, counted from 1, for any other. A last part without newline is 10.
pub fn replies(input: &[u8], reply: impl Fn(&[u32; 5]) -> String) -> String {
    let mut written = String::new();
    let mut lines = parts(input, b'\n');
    let last_part = lines.pop().expect("any input has a last part");
    for (line, bytes) in (1..).zip(&lines) {
        written += &match head_line(bytes) {
            Some(header) => reply(&header),
            None => refused_line(Answer::refused(Refusal::LineWrong { line })),
        };
    }
    if !last_part.is_empty() {
        written += &refused_line(Answer::refused(Refusal::TextStops { lines: lines.len() }));
    }
    written
}

/// The words of the list that `rules.txt` holds; otherwise 12, 9, 10 or 11.
pub fn load_rules(found: Found) -> Result<Vec<u32>, Answer> {
    let text = text_of_file(found)?;
    let mut words = vec![0; MOST_RULES * RULE_WORDS];
    let read = completed(rules_read(text, &mut words))?;
    words.truncate(read.a as usize * RULE_WORDS);
    Ok(words)
}

/// Is `tree.txt` a tree that may serve for this list? Otherwise 12, 9 or 10, or what the tree check refuses it with.
fn judge_tree_file(list: &[u32], found: Found) -> Result<(), Answer> {
    let text = text_of_file(found)?;
    let mut nodes = vec![0; MOST_NODES * NODE_WORDS];
    let mut pool = vec![0; MOST_ENTRIES];
    let read = completed(tree_read(text, &mut nodes, &mut pool))?;
    completed(tree_check(list, &nodes[..read.b as usize * NODE_WORDS], &pool[..read.c as usize]))?;
    Ok(())
}

/// The bytes of a file that can be read and is not too long; otherwise 12.
pub fn text_of_file(found: Found<'_>) -> Result<&[u8], Answer> {
    match found {
        Found::Bytes(bytes) if bytes.len() <= MOST_BYTES => Ok(bytes),
        _ => Err(Answer::refused(Refusal::FileNotRead)),
    }
}

fn completed(answer: Answer) -> Result<Answer, Answer> {
    if answer.number == 0 {
        Ok(answer)
    } else {
        Err(answer)
    }
}

/// What is written for a line that has this header.
fn reply(list: &[u32], header: &[u32; 5]) -> String {
    let mut matching = [0; MOST_RULES];
    match completed(line_all(list, header, &mut matching)) {
        Err(answer) => refused_line(answer),
        Ok(answer) => hit_line(&matching[..answer.a as usize]),
    }
}

/// The header of a line that is short enough and well shaped. Its ports and protocol are any 32-bit numbers.
fn head_line(line: &[u8]) -> Option<[u32; 5]> {
    if line.len() > LONGEST_LINE {
        return None;
    }
    let [b"head", source, destination, source_port, destination_port, protocol] = parts(line, b'\t')[..] else {
        return None;
    };
    Some([address(source)?, address(destination)?, number(source_port)?, number(destination_port)?, number(protocol)?])
}

fn hit_line(matching: &[u32]) -> String {
    let listed: String = matching.iter().map(|rule| format!("\t{rule}")).collect();
    format!("hit\t{}{listed}\n", matching.len())
}

pub fn refused_line(answer: Answer) -> String {
    format!("refused\t{}\t{}\t{}\n", answer.number, answer.place, answer.extra)
}
