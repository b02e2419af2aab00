//! When the words of a tree are *spelt*, as "Words for trees" has it.

use crate::answer::Refusal;
use crate::nodes::{entries_of, node_at, Node};

/// Are the words of this many nodes spelt, for a list of so many rules? Nodes are judged by rising number: 6 for a
/// first word or a right child, 7 for a leaf. Last, counts that do not make the pool are 7 with the node count.
pub fn judge_spelt(nodes: &[u32], node_count: u64, pool: &[u32], rule_count: u64) -> Result<(), Refusal> {
    let mut counts_below = 0;
    for number in 0..node_count {
        match node_at(nodes, number)? {
            Node::Cut { right, .. } => {
                if right >= node_count {
                    return Err(Refusal::NodeWrong { node: number });
                }
            }
            Node::Leaf { start, count } => {
                if start != counts_below || !is_spelt_leaf(pool, start, count, rule_count) {
                    return Err(Refusal::LeafWrong { node: number });
                }
                counts_below += count;
            }
        }
    }
    if counts_below != pool.len() as u64 {
        return Err(Refusal::LeafWrong { node: node_count });
    }
    Ok(())
}

/// The count is at most the number of rules, the entries are within the pool, and each of them names a rule.
fn is_spelt_leaf(pool: &[u32], start: u64, count: u64, rule_count: u64) -> bool {
    match entries_of(pool, start, count) {
        None => false,
        Some(entries) => count <= rule_count && entries.iter().all(|&entry| u64::from(entry) < rule_count),
    }
}
