//! The tree file: a line `tree`, a line `cut` or `leaf` for each node, and the end line. And the part file, which has
//! the line `part` in its place.

use crate::answer::{Answer, Refusal};
use crate::nodes::{entries_of, judge_tree_words, node_at, Node, LEAF, MOST_ENTRIES, MOST_NODES, NODE_WORDS};
use crate::parts::TreeWords;
use crate::rules::MOST_RULES;
use crate::spelt::judge_spelt;
use crate::text::{numbers, put_text, text_of, Lines};

/// The first word of a tree file.
const TREE: &str = "tree";
/// The first word of a part file.
const PART: &str = "part";

/// Writes the tree for so many rules as a text: 1, 5, *spelt*, then 4. It need not be well formed. `put_text` says what
/// a completed writer gives.
pub fn tree_write(rule_count: u64, nodes: &[u32], pool: &[u32], text: &mut [u8]) -> Answer {
    put_text(tree_text(rule_count, nodes, pool), text)
}

/// Writes the part of a tree for so many rules, as `tree_write` writes a tree.
pub fn part_write(rule_count: u64, nodes: &[u32], pool: &[u32], text: &mut [u8]) -> Answer {
    put_text(part_text(rule_count, nodes, pool), text)
}

/// The text of a tree that is spelt; otherwise refusal 1, 5, 6 or 7.
pub fn tree_text(rule_count: u64, nodes: &[u32], pool: &[u32]) -> Result<String, Refusal> {
    text_with(TREE, rule_count, nodes, pool)
}

/// The text of a part that is spelt; otherwise refusal 1, 5, 6 or 7.
pub fn part_text(rule_count: u64, nodes: &[u32], pool: &[u32]) -> Result<String, Refusal> {
    text_with(PART, rule_count, nodes, pool)
}

fn text_with(word: &str, rule_count: u64, nodes: &[u32], pool: &[u32]) -> Result<String, Refusal> {
    if rule_count > MOST_RULES as u64 {
        return Err(Refusal::RuleWords);
    }
    let node_count = judge_tree_words(nodes, pool)?;
    judge_spelt(nodes, node_count, pool, rule_count)?;
    let mut lines = vec![format!("{word}\t{rule_count}\t{node_count}\t{}", pool.len())];
    for own in 0..node_count {
        lines.push(match node_at(nodes, own)? {
            Node::Cut { field, value, right } => format!("cut\t{own}\t{field}\t{value}\t{right}"),
            Node::Leaf { start, count } => {
                let entries = entries_of(pool, start, count).expect("the leaf is spelt");
                let listed: String = entries.iter().map(|entry| format!("\t{entry}")).collect();
                format!("leaf\t{own}\t{count}{listed}")
            }
        });
    }
    Ok(text_of(lines))
}

/// Reads a tree from a text, and writes its words to the start of `nodes` and of `pool`: 9 or 10, then 4, for the nodes
/// before the pool. A completed reader gives `a`, the number of rules, `b`, of nodes, and `c`, of pool words; the rest
/// of `nodes` and of `pool` is as found. So is all of both on a refusal.
pub fn tree_read(text: &[u8], nodes: &mut [u32], pool: &mut [u32]) -> Answer {
    read_with(TREE, text, nodes, pool)
}

/// Reads a part from a text, as `tree_read` reads a tree. Each of the two readers takes its own file only.
pub fn part_read(text: &[u8], nodes: &mut [u32], pool: &mut [u32]) -> Answer {
    read_with(PART, text, nodes, pool)
}

fn read_with(word: &str, text: &[u8], nodes: &mut [u32], pool: &mut [u32]) -> Answer {
    let (counts, words) = match read_words(word, text) {
        Err(refusal) => return Answer::refused(refusal),
        Ok(tree) => tree,
    };
    if words.nodes.len() > nodes.len() {
        return Answer::refused(Refusal::OutputShort { needed: words.nodes.len() });
    }
    if words.pool.len() > pool.len() {
        return Answer::refused(Refusal::PoolShort { needed: words.pool.len() });
    }
    words.put(nodes, pool);
    Answer::completed(counts.rules as u64, counts.nodes as u64, counts.entries as u64)
}

/// What the first line says that there is.
#[derive(Clone, Copy)]
struct Counts {
    rules: usize,
    nodes: usize,
    entries: usize,
}

/// The tree or part that the text is, which begins with this word; otherwise 9 or 10.
fn read_words(word: &str, text: &[u8]) -> Result<(Counts, TreeWords), Refusal> {
    let mut lines = Lines::of(text);
    let counts = lines.next(|fields| read_counts(word, fields))?;
    let mut words = TreeWords::default();
    for _ in 0..counts.nodes {
        lines.next(|fields| read_node(fields, counts, &mut words))?;
    }
    lines.end(words.pool.len() == counts.entries)?;
    Ok((counts, words))
}

fn read_counts(word: &str, fields: &[&[u8]]) -> Option<Counts> {
    let (first, rest) = fields.split_first()?;
    if *first != word.as_bytes() {
        return None;
    }
    let [rules, nodes, entries] = numbers(rest)?[..] else { return None };
    let counts = Counts { rules: rules as usize, nodes: nodes as usize, entries: entries as usize };
    let within =
        counts.rules <= MOST_RULES && (1..=MOST_NODES).contains(&counts.nodes) && counts.entries <= MOST_ENTRIES;
    within.then_some(counts)
}

/// Adds the line's node and entries to those of the lines before. Gives None where they are not spelt; what was added
/// is then of no account.
fn read_node(fields: &[&[u8]], counts: Counts, words: &mut TreeWords) -> Option<()> {
    let (word, rest) = fields.split_first()?;
    let rest = numbers(rest)?;
    let (&own, rest) = rest.split_first()?;
    let node = match (*word, rest) {
        (b"cut", &[field, value, right]) if field < LEAF && (right as usize) < counts.nodes => [field, value, right],
        (b"leaf", [count, entries @ ..]) if is_spelt_leaf(*count, entries, counts) => {
            let start = words.pool.len() as u32;
            words.pool.extend(entries);
            [LEAF, start, *count]
        }
        _ => return None,
    };
    let is_next = own as usize == words.nodes.len() / NODE_WORDS;
    words.nodes.extend(node);
    (is_next && words.pool.len() <= counts.entries).then_some(())
}

/// There are as many entries as the count says, no more than there are rules, and each names a rule.
fn is_spelt_leaf(count: u32, entries: &[u32], counts: Counts) -> bool {
    entries.len() == count as usize
        && entries.len() <= counts.rules
        && entries.iter().all(|&entry| (entry as usize) < counts.rules)
}
