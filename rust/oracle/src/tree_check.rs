//! The tree check: is the tree well formed, and does each leaf list every rule that can match there?

use crate::answer::{Answer, Refusal};
use crate::boxes::{box_of, left_of, may_cut, meet, right_of, root_box, Sides};
use crate::nodes::{entries_of, judge_tree_words, node_at, Node};
use crate::parts::{Part, PlacedLeaf, Places};
use crate::rules::{judge_rules, Rule};
use crate::spelt::judge_spelt;

/// The most cuts above any leaf.
pub const MOST_CUTS: u64 = 63;

/// Judges the tree for this list: 1, 2, 11, 5, *spelt*, the preorder walk, then 8. A completed check gives `a`, the
/// most cuts above a leaf, and `b`, the entries of the longest leaf.
pub fn tree_check(rules: &[u32], nodes: &[u32], pool: &[u32]) -> Answer {
    match judge_tree(rules, nodes, pool) {
        Err(refusal) => Answer::refused(refusal),
        Ok(places) => Answer::completed(places.most_cuts(), places.longest_leaf(), 0),
    }
}

fn judge_tree(rules: &[u32], nodes: &[u32], pool: &[u32]) -> Result<Places, Refusal> {
    let list = judge_rules(rules)?;
    let node_count = judge_tree_words(nodes, pool)?;
    judge_spelt(nodes, node_count, pool, list.len() as u64)?;
    let places = Walk { nodes, node_count, pool }.whole_tree()?.places();
    judge_leaves(&list, &places.leaves)?;
    Ok(places)
}

/// The preorder walk over words that are spelt.
struct Walk<'a> {
    nodes: &'a [u32],
    node_count: u64,
    pool: &'a [u32],
}

impl Walk<'_> {
    /// The tree, whose root's part ends at the last node; otherwise 6 at the first node left over, or the first fault.
    fn whole_tree(&self) -> Result<Part, Refusal> {
        let (root, end) = self.part(0, 0, root_box())?;
        if end < self.node_count {
            return Err(Refusal::NodeWrong { node: end });
        }
        Ok(root)
    }

    /// The part of this node, and the first number after it; otherwise the part's first fault in the walk's order.
    fn part(&self, number: u64, cuts_above: u64, sides: Sides) -> Result<(Part, u64), Refusal> {
        // A node past the last one is missing, and is 6 with its own number here.
        match node_at(self.nodes, number)? {
            Node::Cut { field, value, right } => self.cut(number, cuts_above, sides, field, value, right),
            Node::Leaf { start, count } => {
                let entries = entries_of(self.pool, start, count).expect("the leaf is spelt").to_vec();
                if entries.windows(2).any(|two| two[0] >= two[1]) {
                    return Err(Refusal::LeafWrong { node: number });
                }
                Ok((Part::Leaf { entries }, number + 1))
            }
        }
    }

    /// Depth, value, left part, right child's number, right part: the first of these that is wrong is told.
    fn cut(
        &self,
        number: u64,
        cuts_above: u64,
        sides: Sides,
        field: usize,
        value: u32,
        right_child: u64,
    ) -> Result<(Part, u64), Refusal> {
        let wrong = Err(Refusal::NodeWrong { node: number });
        if cuts_above >= MOST_CUTS {
            return wrong;
        }
        if !may_cut(&sides, field, value) {
            return wrong;
        }
        let (left, after_left) = self.part(number + 1, cuts_above + 1, left_of(sides, field, value))?;
        if right_child != after_left {
            return wrong;
        }
        let (right, after_right) = self.part(right_child, cuts_above + 1, right_of(sides, field, value))?;
        Ok((Part::Cut { field, value, left: Box::new(left), right: Box::new(right) }, after_right))
    }
}

/// By rising leaf: does it list every rule whose box meets its box? Otherwise 8, with the lowest rule that it lacks.
pub fn judge_leaves(list: &[Rule], leaves: &[PlacedLeaf]) -> Result<(), Refusal> {
    for leaf in leaves {
        for (number, rule) in (0_u32..).zip(list) {
            if meet(&box_of(rule), &leaf.sides) && !leaf.entries.contains(&number) {
                return Err(Refusal::LeafLacksRule { node: leaf.node, rule: u64::from(number) });
            }
        }
    }
    Ok(())
}
