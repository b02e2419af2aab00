//! The words of trees: three for each node, and one pool of leaf entries.

use crate::answer::Refusal;

/// The words of one node.
pub const NODE_WORDS: usize = 3;
/// The most nodes of a tree.
pub const MOST_NODES: usize = 2_047;
/// The most entries of all leaves together.
pub const MOST_ENTRIES: usize = 4_096;
/// The first word of a leaf. Below it stand the five fields of a cut.
pub const LEAF: u32 = 5;

/// One node whose first word is right.
#[derive(Clone, Copy, Debug)]
pub enum Node {
    /// A header whose field is at most the value goes to the next node; otherwise it goes to the right child.
    Cut { field: usize, value: u32, right: u64 },
    /// The entries are the pool's words from `start` on, so many as `count`.
    Leaf { start: u64, count: u64 },
}

/// The node of this number; otherwise refusal 6 there: it is not wholly there, or its first word is over 5.
pub fn node_at(nodes: &[u32], number: u64) -> Result<Node, Refusal> {
    let wrong = Err(Refusal::NodeWrong { node: number });
    let Some(three) = nodes.chunks_exact(NODE_WORDS).nth(number as usize) else { return wrong };
    match three[0] {
        0..LEAF => Ok(Node::Cut { field: three[0] as usize, value: three[1], right: u64::from(three[2]) }),
        LEAF => Ok(Node::Leaf { start: u64::from(three[1]), count: u64::from(three[2]) }),
        _ => wrong,
    }
}

/// The pool's words that are the entries of a leaf; None where start plus count passes the pool's end. It may be equal
/// to the pool's length, and a leaf of count 0 passes the end too where its start does.
pub fn entries_of(pool: &[u32], start: u64, count: u64) -> Option<&[u32]> {
    let end = start + count;
    if end > pool.len() as u64 {
        return None;
    }
    Some(&pool[start as usize..end as usize])
}

/// The number of nodes that these words are; otherwise refusal 5.
pub fn judge_tree_words(nodes: &[u32], pool: &[u32]) -> Result<u64, Refusal> {
    let is_right = !nodes.is_empty()
        && nodes.len().is_multiple_of(NODE_WORDS)
        && nodes.len() <= MOST_NODES * NODE_WORDS
        && pool.len() <= MOST_ENTRIES;
    if is_right {
        Ok((nodes.len() / NODE_WORDS) as u64)
    } else {
        Err(Refusal::TreeWords)
    }
}
