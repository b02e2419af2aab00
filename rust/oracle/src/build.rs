//! The compiler: the one tree that request a) fixes for a list, as words. It follows HyperSplit with segment balance.
//!
//! It is not [`builder`](crate::builder). That one makes trees of any shape for the other calls to be tried on, and
//! parts a box by how many rules fall on each side; this one makes just one tree for each list, which the library's own
//! compiler must make too, word for word.
//!
//! Nothing is handed down from a box to its parts: for each node every rule of the list is looked at again.

use crate::answer::{Answer, Refusal};
use crate::boxes::{box_of, left_of, may_cut, meet, right_of, root_box, Sides};
use crate::nodes::{LEAF, MOST_ENTRIES, MOST_NODES, NODE_WORDS};
use crate::parts::TreeWords;
use crate::rules::judge_rules;
use crate::tree_check::MOST_CUTS;

/// A box that no more rules meet than these becomes a leaf.
pub const MOST_IN_LEAF: usize = 8;

/// The words that a tree may take.
#[derive(Clone, Copy, Debug)]
pub struct Room {
    pub nodes: usize,
    pub pool: usize,
}

impl Room {
    /// What is lent, as far as the scope's limits let it be used.
    pub fn of(nodes: &[u32], pool: &[u32]) -> Room {
        Room { nodes: nodes.len().min(LARGEST_ROOM.nodes), pool: pool.len().min(LARGEST_ROOM.pool) }
    }
}

/// The room of the scope's limits.
pub const LARGEST_ROOM: Room = Room { nodes: MOST_NODES * NODE_WORDS, pool: MOST_ENTRIES };

/// Builds the list's tree, and writes its words to the start of `nodes` and of `pool`: 1, 2, 11, then 4 for the first
/// node in preorder that does not fit. A completed build gives `a`, the number of nodes, and `b`, of pool words; the
/// rest of `nodes` and of `pool` is as found. So is all of both on a refusal.
pub fn build(rules: &[u32], nodes: &mut [u32], pool: &mut [u32]) -> Answer {
    match compile(rules, Room::of(nodes, pool)) {
        Err(refusal) => Answer::refused(refusal),
        Ok(words) => {
            words.put(nodes, pool);
            Answer::completed(words.node_count(), words.pool.len() as u64, 0)
        }
    }
}

/// The words of the list's tree; otherwise 1, 2, 11 or 4. It stops at the first node that does not fit, however large
/// the tree would be.
pub fn compile(rules: &[u32], room: Room) -> Result<TreeWords, Refusal> {
    let boxes: Vec<Sides> = judge_rules(rules)?.iter().map(box_of).collect();
    let mut growth = Growth::from_nothing();
    growth.grow(&boxes, room, u64::MAX)?;
    Ok(growth.words)
}

/// A box whose part is not begun yet.
pub struct Open {
    pub sides: Sides,
    pub cuts_above: u64,
    /// Where the number of the part's first node goes, once it is known. The left part's is written nowhere.
    pub right_child_at: Option<usize>,
}

/// A tree that is being built.
pub struct Growth {
    /// What stands of it, with 0 for each right child that is not begun.
    pub words: TreeWords,
    /// What is not begun. The last of them comes next.
    pub open: Vec<Open>,
}

impl Growth {
    /// Nothing stands yet, and the root is open.
    pub fn from_nothing() -> Growth {
        let root = Open { sides: root_box(), cuts_above: 0, right_child_at: None };
        Growth { words: TreeWords::default(), open: vec![root] }
    }

    /// Builds on until so many nodes stand, or nothing is open; otherwise 4 for the first node that does not fit.
    pub fn grow(&mut self, boxes: &[Sides], room: Room, until: u64) -> Result<(), Refusal> {
        while self.words.node_count() < until {
            let Some(next) = self.open.pop() else { break };
            self.add_node(next, boxes, room)?;
        }
        Ok(())
    }

    /// The first node of the part of this box: a leaf, or a cut whose two parts are then open.
    fn add_node(&mut self, own: Open, boxes: &[Sides], room: Room) -> Result<(), Refusal> {
        let Open { sides, cuts_above, right_child_at } = own;
        let words = &mut self.words;
        let own_at = words.nodes.len();
        if own_at + NODE_WORDS > room.nodes {
            return Err(Refusal::OutputShort { needed: own_at + NODE_WORDS });
        }
        if let Some(at) = right_child_at {
            words.nodes[at] = words.node_count() as u32;
        }
        let here: Vec<usize> = (0..boxes.len()).filter(|&rule| meet(&boxes[rule], &sides)).collect();
        match cut_of(boxes, &here, &sides, cuts_above) {
            None => {
                let start = words.pool.len();
                if start + here.len() > room.pool {
                    return Err(Refusal::PoolShort { needed: start + here.len() });
                }
                words.nodes.extend([LEAF, start as u32, here.len() as u32]);
                words.pool.extend(here.iter().map(|&rule| rule as u32));
            }
            Some((field, value)) => {
                words.nodes.extend([field as u32, value, 0]);
                let part = |sides, right_child_at| Open { sides, cuts_above: cuts_above + 1, right_child_at };
                // The left part is taken first, with all that hangs from it.
                self.open.push(part(right_of(sides, field, value), Some(own_at + 2)));
                self.open.push(part(left_of(sides, field, value), None));
            }
        }
        Ok(())
    }
}

/// Where this box is cut, these rules meeting it: the field and the value. None makes it a leaf.
fn cut_of(boxes: &[Sides], here: &[usize], sides: &Sides, cuts_above: u64) -> Option<(usize, u32)> {
    if here.len() <= MOST_IN_LEAF || cuts_above == MOST_CUTS {
        return None;
    }
    let by_field: [Vec<u32>; 5] = std::array::from_fn(|field| cut_values(boxes, here, sides, field));
    let most = by_field.iter().map(Vec::len).max().expect("there are five fields");
    let field = by_field.iter().position(|values| values.len() == most).expect("one of them has the most");
    let values = &by_field[field];
    values.get(values.len() / 2).map(|&middle| (field, middle))
}

/// The cut values of a field: of each rule its high, and its low less one, where the box may be cut there. They rise,
/// each once.
fn cut_values(boxes: &[Sides], here: &[usize], sides: &Sides, field: usize) -> Vec<u32> {
    let mut values = Vec::new();
    for &rule in here {
        let side = boxes[rule][field];
        values.push(side.high as u32);
        // A low of 0 gives no value.
        if side.low > 0 {
            values.push((side.low - 1) as u32);
        }
    }
    values.retain(|&value| may_cut(sides, field, value));
    values.sort_unstable();
    values.dedup();
    values
}
