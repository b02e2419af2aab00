//! A tree as parts that hold each other, and the words that it is written as.

use crate::boxes::{left_of, right_of, root_box, Sides};
use crate::nodes::{LEAF, NODE_WORDS};

/// A part of a tree: one node and all that hangs from it.
#[derive(Clone, Debug)]
pub enum Part {
    Cut { field: usize, value: u32, left: Box<Part>, right: Box<Part> },
    Leaf { entries: Vec<u32> },
}

/// The words of a tree.
#[derive(Clone, Debug, Default, PartialEq, Eq)]
pub struct TreeWords {
    pub nodes: Vec<u32>,
    pub pool: Vec<u32>,
}

impl TreeWords {
    /// How many nodes there are.
    pub fn node_count(&self) -> u64 {
        (self.nodes.len() / NODE_WORDS) as u64
    }

    /// Writes the words to the start of both, which have room for them.
    pub fn put(&self, nodes: &mut [u32], pool: &mut [u32]) {
        nodes[..self.nodes.len()].copy_from_slice(&self.nodes);
        pool[..self.pool.len()].copy_from_slice(&self.pool);
    }

    /// What request d) calls a stop after so many nodes of this whole tree: its first nodes, with 0 for each right
    /// child that is none of them, and the entries of the leaves among them.
    pub fn stop_after(&self, node_count: u64) -> TreeWords {
        let mut stop = TreeWords::default();
        for node in self.nodes.chunks_exact(NODE_WORDS).take(node_count as usize) {
            let [first, second, third] = [node[0], node[1], node[2]];
            if first == LEAF {
                stop.pool.extend(&self.pool[second as usize..][..third as usize]);
            }
            let is_open = first != LEAF && u64::from(third) >= node_count;
            stop.nodes.extend([first, second, if is_open { 0 } else { third }]);
        }
        stop
    }
}

/// A cut, where it stands.
#[derive(Clone, Debug)]
pub struct PlacedCut {
    pub node: u64,
    pub sides: Sides,
    pub field: usize,
    pub value: u32,
}

/// A leaf, where it stands.
#[derive(Clone, Debug)]
pub struct PlacedLeaf {
    pub node: u64,
    pub sides: Sides,
    pub cuts_above: u64,
    pub entries: Vec<u32>,
}

/// The cuts and leaves of a tree, each by rising node.
#[derive(Clone, Debug, Default)]
pub struct Places {
    pub cuts: Vec<PlacedCut>,
    pub leaves: Vec<PlacedLeaf>,
}

impl Part {
    /// How many nodes the part has.
    pub fn node_count(&self) -> u64 {
        match self {
            Part::Cut { left, right, .. } => 1 + left.node_count() + right.node_count(),
            Part::Leaf { .. } => 1,
        }
    }

    /// The words of the whole tree whose root this is.
    pub fn words(&self) -> TreeWords {
        let mut words = TreeWords::default();
        self.write(&mut words);
        words
    }

    /// Writes the part after what is written, in preorder.
    fn write(&self, words: &mut TreeWords) {
        match self {
            Part::Cut { field, value, left, right } => {
                let own = (words.nodes.len() / 3) as u64;
                let right_child = own + 1 + left.node_count();
                words.nodes.extend([*field as u32, *value, right_child as u32]);
                left.write(words);
                right.write(words);
            }
            Part::Leaf { entries } => {
                words.nodes.extend([LEAF, words.pool.len() as u32, entries.len() as u32]);
                words.pool.extend(entries);
            }
        }
    }

    /// Where the nodes of the whole tree stand, whose root this is.
    pub fn places(&self) -> Places {
        let mut places = Places::default();
        self.place(0, root_box(), 0, &mut places);
        places
    }

    fn place(&self, node: u64, sides: Sides, cuts_above: u64, places: &mut Places) {
        match self {
            Part::Cut { field, value, left, right } => {
                let (field, value) = (*field, *value);
                places.cuts.push(PlacedCut { node, sides, field, value });
                left.place(node + 1, left_of(sides, field, value), cuts_above + 1, places);
                let right_child = node + 1 + left.node_count();
                right.place(right_child, right_of(sides, field, value), cuts_above + 1, places);
            }
            Part::Leaf { entries } => {
                places.leaves.push(PlacedLeaf { node, sides, cuts_above, entries: entries.clone() });
            }
        }
    }
}

impl Places {
    /// The most cuts above a leaf.
    pub fn most_cuts(&self) -> u64 {
        self.leaves.iter().map(|leaf| leaf.cuts_above).max().unwrap_or(0)
    }

    /// The entries of the longest leaf.
    pub fn longest_leaf(&self) -> u64 {
        self.leaves.iter().map(|leaf| leaf.entries.len() as u64).max().unwrap_or(0)
    }
}
