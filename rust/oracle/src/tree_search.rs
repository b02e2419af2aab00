//! The tree search: a walk from node 0 to a leaf, whose entries are then compared in turn. It takes any words.

use crate::answer::{Answer, Refusal};
use crate::header::{judge_header, Header};
use crate::matching::matches;
use crate::nodes::{entries_of, node_at, Node};
use crate::rules::{rule_of, Rule, RULE_WORDS};

/// The leaf that a walk has come to, and its entries in order, each with the rule that it names.
struct Reached {
    visited: u64,
    entries: Vec<(u32, Rule)>,
}

/// Writes the matching numbers of the reached leaf to the start of `out`, in entry order: 3, 6, 7, then 4. A number
/// that stands there twice is written twice. A completed search gives `a`, how many numbers it wrote, `b`, the nodes
/// visited, and `c`, the entries compared; the rest of `out` is as found. So is all of it on a refusal.
pub fn tree_all(rules: &[u32], nodes: &[u32], pool: &[u32], header: &[u32], out: &mut [u32]) -> Answer {
    let (header, reached) = match tree_search(rules, nodes, pool, header) {
        Err(refusal) => return Answer::refused(refusal),
        Ok(found) => found,
    };
    let mut matching = Vec::new();
    for (entry, rule) in &reached.entries {
        if matches(rule, &header) {
            matching.push(*entry);
        }
    }
    if matching.len() > out.len() {
        return Answer::refused(Refusal::OutputShort { needed: matching.len() });
    }
    out[..matching.len()].copy_from_slice(&matching);
    Answer::completed(matching.len() as u64, reached.visited, reached.entries.len() as u64)
}

/// Finds the first matching entry of the reached leaf: 3, 6, then 7. A bad entry past the match is still 7. A completed
/// search gives `a`, the rule's number + 1, or 0 where none matches, `b`, the nodes visited, `c`, the entries compared
/// up to and including the match, and `d`, the rule's action, whatever word that is, or 0 where none matches.
pub fn tree_first(rules: &[u32], nodes: &[u32], pool: &[u32], header: &[u32]) -> Answer {
    let (header, reached) = match tree_search(rules, nodes, pool, header) {
        Err(refusal) => return Answer::refused(refusal),
        Ok(found) => found,
    };
    let mut compared = 0;
    for (entry, rule) in &reached.entries {
        compared += 1;
        if matches(rule, &header) {
            return Answer::completed(u64::from(*entry) + 1, reached.visited, compared).with_action(rule.action);
        }
    }
    Answer::completed(0, reached.visited, compared)
}

/// The header and the leaf that it comes to; otherwise refusal 3, 6 or 7, in this order.
fn tree_search(rules: &[u32], nodes: &[u32], pool: &[u32], header: &[u32]) -> Result<(Header, Reached), Refusal> {
    let header = judge_header(header)?;
    let (leaf, visited, start, count) = walk(nodes, &header)?;
    let wrong = Refusal::LeafWrong { node: leaf };
    let mut entries = Vec::new();
    for &entry in entries_of(pool, start, count).ok_or(wrong)? {
        // A last rule of fewer than eleven words is not wholly lent.
        let words = rules.chunks_exact(RULE_WORDS).nth(entry as usize).ok_or(wrong)?;
        entries.push((entry, rule_of(words)));
    }
    Ok((header, Reached { visited, entries }))
}

/// The leaf's node, the nodes visited with root and leaf, and the leaf's start and count; otherwise refusal 6. At every
/// cut the right child must be above the cut, whichever way is taken, so the walk ends.
fn walk(nodes: &[u32], header: &Header) -> Result<(u64, u64, u64, u64), Refusal> {
    let mut number = 0;
    let mut visited = 0;
    loop {
        let node = node_at(nodes, number)?;
        visited += 1;
        match node {
            Node::Leaf { start, count } => return Ok((number, visited, start, count)),
            Node::Cut { right, .. } if right <= number => return Err(Refusal::NodeWrong { node: number }),
            Node::Cut { field, value, .. } if field_of(header, field) <= value => number += 1,
            Node::Cut { right, .. } => number = right,
        }
    }
}

/// The header's value in this field. A cut compares an absent port as the number that it is.
fn field_of(header: &Header, field: usize) -> u32 {
    match field {
        0 => header.source,
        1 => header.destination,
        2 => header.source_port,
        3 => header.destination_port,
        _ => header.protocol,
    }
}
