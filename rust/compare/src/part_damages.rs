//! Damage to a part. Some damage leaves it right; the oracle tells.

use oracle::rules::RULE_WORDS;

use crate::draws::Draws;
use crate::lists::LARGEST_END;
use crate::trees::Policy;

/// The first so many nodes of a tree that may be damaged: as a stop of it, with the pool words that the leaves among
/// them say that they have.
pub fn cut_short(tree: &Policy, node_count: usize) -> Policy {
    let mut nodes = tree.nodes[..tree.nodes.len().min(3 * node_count)].to_vec();
    let mut entries = 0;
    for node in nodes.chunks_exact_mut(3) {
        match node[0] {
            5 => entries += node[2] as usize,
            _ if node[2] as usize >= node_count => node[2] = 0,
            _ => {}
        }
    }
    let pool = tree.pool[..entries.min(tree.pool.len())].to_vec();
    Policy { rules: tree.rules.clone(), nodes, pool }
}

/// The part with the leaves' starts as they must be by the counts before them.
pub fn mended(mut part: Policy) -> Policy {
    let mut start = 0_u32;
    for node in part.nodes.chunks_exact_mut(3).filter(|node| node[0] == 5) {
        node[1] = start;
        start = start.wrapping_add(node[2]);
    }
    part
}

/// The part without this node, and without its entries where it is a leaf.
pub fn without_node(part: &Policy, node: usize) -> Policy {
    let mut less = part.clone();
    let dropped: Vec<u32> = less.nodes.drain(3 * node..3 * node + 3).collect();
    if dropped[0] == 5 {
        less.pool.drain(dropped[1] as usize..(dropped[1] + dropped[2]) as usize);
    }
    mended(less)
}

/// The part with the entries of this leaf changed, and starts and count mended.
pub fn with_entries(part: &Policy, leaf: usize, change: impl FnOnce(&mut Vec<u32>)) -> Policy {
    let mut other = part.clone();
    let (start, count) = (part.nodes[3 * leaf + 1] as usize, part.nodes[3 * leaf + 2] as usize);
    let mut entries = part.pool[start..start + count].to_vec();
    change(&mut entries);
    other.nodes[3 * leaf + 2] = entries.len() as u32;
    other.pool.splice(start..start + count, entries);
    mended(other)
}

/// The numbers of the part's cuts, or of its leaves.
pub fn nodes_of(part: &Policy, leaves: bool) -> Vec<usize> {
    (0..part.node_count()).filter(|&node| (part.nodes[3 * node] == 5) == leaves).collect()
}

/// One drawn change of the part's words, or of the list.
pub fn change(part: &mut Policy, draws: &mut Draws) {
    let count = part.node_count();
    if count == 0 {
        part.nodes.extend([5, 0, 0]);
        return;
    }
    let (node, other) = (draws.below(count), draws.below(count));
    match draws.below(12) {
        0 => {
            let word = draws.below(part.nodes.len());
            part.nodes[word] ^= 1 << draws.below(32);
        }
        1 => {
            let word = draws.below(part.nodes.len());
            part.nodes[word] = draws.between(0, count as u32 + 2);
        }
        2 | 3 => part.nodes[3 * node + 2] = draws.pick(&[0, other as u32, count as u32 - 1, count as u32]),
        4 => drop(part.nodes.drain(3 * node..3 * node + 3)),
        5 => {
            let pool = part.pool.len() as u32;
            let more = draws.pick(&[[5, pool, 0], [0, 7, 0], [3, 50, 0], [4, 100, other as u32], [5, 0, 1]]);
            let at = draws.pick(&[3 * count, 3 * node]);
            part.nodes.splice(at..at, more);
        }
        6 => {
            for word in 0..3 {
                part.nodes.swap(3 * node + word, 3 * other + word);
            }
        }
        7 if !part.pool.is_empty() => {
            let word = draws.below(part.pool.len());
            part.pool[word] = draws.below(part.rules.len() / RULE_WORDS + 1) as u32;
        }
        8 if !part.pool.is_empty() => {
            let (one, two) = (draws.below(part.pool.len()), draws.below(part.pool.len()));
            part.pool.swap(one, two);
        }
        9 => part.nodes.truncate(part.nodes.len() - 1 - draws.below(3)),
        10 => part.pool.truncate(part.pool.len().saturating_sub(1)),
        _ if !part.rules.is_empty() => {
            // Another box for one of the rules.
            let rule = draws.below(part.rules.len() / RULE_WORDS);
            part.rules[RULE_WORDS * rule + 6] = 0;
            part.rules[RULE_WORDS * rule + 7] = draws.between(0, LARGEST_END[3]);
        }
        _ => part.nodes[3 * node + 1] ^= 1 << draws.below(32),
    }
}
