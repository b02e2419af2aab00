//! The compiler that stops: it builds some nodes of the list's tree, and goes on from what stands, as request d) says.
//!
//! What stands may have been made by others. It is then judged as a tree is, but its walk may run out of nodes; and
//! what it has not begun is built as the compiler builds, in the box and under the cuts that stand above.

use crate::answer::{Answer, Refusal};
use crate::boxes::{box_of, left_of, may_cut, right_of, root_box, Sides};
use crate::build::{Growth, Open, Room};
use crate::nodes::{entries_of, judge_tree_words, node_at, Node, NODE_WORDS};
use crate::parts::{PlacedLeaf, TreeWords};
use crate::rules::judge_rules;
use crate::spelt::judge_spelt;
use crate::tree_check::{judge_leaves, MOST_CUTS};

/// What a build has come to.
#[derive(Clone, Debug, PartialEq, Eq)]
pub struct Come {
    pub words: TreeWords,
    /// Is nothing left to build?
    pub whole: bool,
}

/// Builds the first `most` nodes of the list's tree, but at least one, and writes their words to the start of `nodes`
/// and of `pool`: 1, 2, 11, then 4 for the first of them that does not fit. A completed call gives `a`, the number of
/// nodes, `b`, of pool words, and `c`, 1 where the tree is whole and 0 where it is stopped; the rest of `nodes` and of
/// `pool` is as found. So is all of both on a refusal.
pub fn build_some(rules: &[u32], most: u64, nodes: &mut [u32], pool: &mut [u32]) -> Answer {
    put(begin(rules, most, Room::of(nodes, pool)), nodes, pool)
}

/// Goes on from a part that was built for a list of so many rules, by `most` nodes, but at least one: 1, 2, 11, 5, 6 at
/// node 0 for another number of rules, *spelt*, the preorder walk, 8, then 4 for the first node, from node 0 on, that
/// does not fit. A completed call writes and gives what `build_some` does, the part's own words included.
pub fn build_on(
    rules: &[u32],
    rule_count: u64,
    part_nodes: &[u32],
    part_pool: &[u32],
    most: u64,
    nodes: &mut [u32],
    pool: &mut [u32],
) -> Answer {
    let part = TreeWords { nodes: part_nodes.to_vec(), pool: part_pool.to_vec() };
    put(go_on(rules, rule_count, part, most, Room::of(nodes, pool)), nodes, pool)
}

fn put(come: Result<Come, Refusal>, nodes: &mut [u32], pool: &mut [u32]) -> Answer {
    match come {
        Err(refusal) => Answer::refused(refusal),
        Ok(Come { words, whole }) => {
            words.put(nodes, pool);
            Answer::completed(words.node_count(), words.pool.len() as u64, u64::from(whole))
        }
    }
}

/// What `build_some` comes to; otherwise 1, 2, 11 or 4.
pub fn begin(rules: &[u32], most: u64, room: Room) -> Result<Come, Refusal> {
    let boxes: Vec<Sides> = judge_rules(rules)?.iter().map(box_of).collect();
    some_more(Growth::from_nothing(), &boxes, most, room)
}

/// What `build_on` comes to; otherwise 1, 2, 11, 5, 6, 7, 8 or 4.
pub fn go_on(rules: &[u32], rule_count: u64, part: TreeWords, most: u64, room: Room) -> Result<Come, Refusal> {
    let list = judge_rules(rules)?;
    let node_count = judge_tree_words(&part.nodes, &part.pool)?;
    if rule_count != list.len() as u64 {
        return Err(Refusal::NodeWrong { node: 0 });
    }
    judge_spelt(&part.nodes, node_count, &part.pool, rule_count)?;
    let Walk { leaves, mut open, .. } = Walk::over(&part, node_count)?;
    judge_leaves(&list, &leaves)?;
    judge_room(&part, room)?;
    // The first one that was come to is built first.
    open.reverse();
    let boxes: Vec<Sides> = list.iter().map(box_of).collect();
    some_more(Growth { words: part, open }, &boxes, most, room)
}

/// Builds so many nodes more than stand already, but at least one. No sum is over 2^64 - 1 here, and no tree has so
/// many nodes.
fn some_more(mut growth: Growth, boxes: &[Sides], most: u64, room: Room) -> Result<Come, Refusal> {
    let until = growth.words.node_count().saturating_add(most.max(1));
    growth.grow(boxes, room, until)?;
    Ok(Come { words: growth.words, whole: growth.open.is_empty() })
}

/// Does each node of the part fit? Otherwise 4 for the first that does not, nodes before pool. The part is spelt.
fn judge_room(part: &TreeWords, room: Room) -> Result<(), Refusal> {
    for number in 0..part.node_count() {
        let needed = (number as usize + 1) * NODE_WORDS;
        if needed > room.nodes {
            return Err(Refusal::OutputShort { needed });
        }
        if let Node::Leaf { start, count } = node_at(&part.nodes, number)? {
            let needed = (start + count) as usize;
            if needed > room.pool {
                return Err(Refusal::PoolShort { needed });
            }
        }
    }
    Ok(())
}

/// The preorder walk over the words of a part, which are spelt.
struct Walk<'a> {
    part: &'a TreeWords,
    node_count: u64,
    /// The leaves come to, by rising node.
    leaves: Vec<PlacedLeaf>,
    /// What is not begun, in the order in which it would be.
    open: Vec<Open>,
}

impl Walk<'_> {
    /// The walk from the root; otherwise its first fault. Where the root's part is finished, no node may be left over.
    fn over(part: &TreeWords, node_count: u64) -> Result<Walk<'_>, Refusal> {
        let mut walk = Walk { part, node_count, leaves: Vec::new(), open: Vec::new() };
        match walk.node(0, Open { sides: root_box(), cuts_above: 0, right_child_at: None })? {
            Some(after) if after < node_count => Err(Refusal::NodeWrong { node: after }),
            _ => Ok(walk),
        }
    }

    /// Walks over the part that begins with the node of this number. Gives the first number after it, or None where it
    /// is not finished.
    fn node(&mut self, number: u64, own: Open) -> Result<Option<u64>, Refusal> {
        if number == self.node_count {
            self.open.push(own);
            return Ok(None);
        }
        let Open { sides, cuts_above, .. } = own;
        match node_at(&self.part.nodes, number)? {
            Node::Leaf { start, count } => {
                let entries = entries_of(&self.part.pool, start, count).expect("the leaf is spelt").to_vec();
                if entries.windows(2).any(|two| two[0] >= two[1]) {
                    return Err(Refusal::LeafWrong { node: number });
                }
                self.leaves.push(PlacedLeaf { node: number, sides, cuts_above, entries });
                Ok(Some(number + 1))
            }
            Node::Cut { field, value, right } => {
                let wrong = Err(Refusal::NodeWrong { node: number });
                if cuts_above == MOST_CUTS || !may_cut(&sides, field, value) {
                    return wrong;
                }
                let below = |sides, right_child_at| Open { sides, cuts_above: cuts_above + 1, right_child_at };
                let after_left = self.node(number + 1, below(left_of(sides, field, value), None))?;
                // The right part is begun where the left one is finished and a node comes after it.
                let begun = after_left.filter(|&after| after < self.node_count);
                if right != begun.unwrap_or(0) {
                    return wrong;
                }
                let right_child_at = Some(number as usize * NODE_WORDS + 2);
                self.node(begun.unwrap_or(self.node_count), below(right_of(sides, field, value), right_child_at))
            }
        }
    }
}
