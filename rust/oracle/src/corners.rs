//! A second judge of small trees, which knows nothing of boxes that meet: it searches for every corner header.
//!
//! A list of matches changes at the ends of rules and cuts only. So where some header gets a wrong list, a header gets
//! one too whose every value is an end of a rule or of a cut, or just beside one.

use crate::boxes::{box_of, root_box, LARGEST};
use crate::line::line_all;
use crate::nodes::{entries_of, judge_tree_words, node_at, Node};
use crate::rules::{judge_rules, RULE_WORDS};
use crate::tree_check::MOST_CUTS;
use crate::tree_search::tree_all;

/// What the tree is, by the definitions alone.
#[derive(Clone, Copy, Debug, PartialEq, Eq)]
pub enum Verdict {
    /// The tree is not well formed.
    NotWellFormed,
    /// The tree is well formed, yet some header gets a wrong list: this one.
    WrongList([u32; 5]),
    /// The tree is well formed, and every header gets the list that the line search gives it.
    Right,
}

/// The values of each field that are ends of rules and cuts, or just beside them, rising.
pub type Corners = [Vec<u32>; 5];

/// The verdict on a tree for a good list. The words have passed 1, 2, 11 and 5.
pub fn judge_by_corners(rules: &[u32], nodes: &[u32], pool: &[u32]) -> Verdict {
    if !is_well_formed(rules, nodes, pool) {
        return Verdict::NotWellFormed;
    }
    let corners = corners_of(rules, nodes);
    for number in 0..header_count(&corners) {
        let header = header_of(&corners, number);
        if !gets_its_list(rules, nodes, pool, &header) {
            return Verdict::WrongList(header);
        }
    }
    Verdict::Right
}

/// The corner values of a good list and of the cuts among these nodes, whose first words are at most 5.
pub fn corners_of(rules: &[u32], nodes: &[u32]) -> Corners {
    let mut corners: Corners = std::array::from_fn(|field| vec![0, LARGEST[field]]);
    for rule in judge_rules(rules).expect("the list is good") {
        for (field, side) in box_of(&rule).into_iter().enumerate() {
            add_ends(&mut corners, field, side.low, side.high);
        }
    }
    for number in 0..(nodes.len() / 3) as u64 {
        if let Ok(Node::Cut { field, value, .. }) = node_at(nodes, number) {
            // The left part ends at the value, and the right part begins just after it.
            add_ends(&mut corners, field, u64::from(value) + 1, u64::from(value));
        }
    }
    for values in &mut corners {
        values.sort_unstable();
        values.dedup();
    }
    corners
}

/// Adds a low end and a high end, and the values just outside of them, kept within the field.
fn add_ends(corners: &mut Corners, field: usize, low: u64, high: u64) {
    for value in [low.saturating_sub(1), low, high, high + 1] {
        corners[field].push(value.min(u64::from(LARGEST[field])) as u32);
    }
}

/// How many headers have a corner value in every field.
pub fn header_count(corners: &Corners) -> u64 {
    corners.iter().map(|values| values.len() as u64).product()
}

/// One of them: the number's remainders choose the values.
fn header_of(corners: &Corners, number: u64) -> [u32; 5] {
    let mut rest = number;
    std::array::from_fn(|field| {
        let values = &corners[field];
        let choice = rest % values.len() as u64;
        rest /= values.len() as u64;
        values[choice as usize]
    })
}

/// Does the tree search give the header the list that the line search gives it?
fn gets_its_list(rules: &[u32], nodes: &[u32], pool: &[u32], header: &[u32; 5]) -> bool {
    let mut by_line = vec![u32::MAX; rules.len() / RULE_WORDS];
    let mut by_tree = vec![u32::MAX; by_line.len()];
    let line = line_all(rules, header, &mut by_line);
    let tree = tree_all(rules, nodes, pool, header, &mut by_tree);
    line.number == 0 && tree.number == 0 && line.a == tree.a && by_line == by_tree
}

/// Is the tree well formed? The sentences of "Words for trees" are asked one by one; no order is kept.
pub fn is_well_formed(rules: &[u32], nodes: &[u32], pool: &[u32]) -> bool {
    let rule_count = judge_rules(rules).expect("the list is good").len() as u64;
    let node_count = judge_tree_words(nodes, pool).expect("the words are of a right length");
    let Ok(all) = (0..node_count).map(|number| node_at(nodes, number)).collect::<Result<Vec<Node>, _>>() else {
        return false;
    };
    is_spelt(&all, pool, rule_count) && stands_in_preorder(&all) && all.iter().all(|node| rises(node, pool))
}

/// Right children are nodes, leaves stand in the pool one after the other and fill it, and entries are rules.
fn is_spelt(all: &[Node], pool: &[u32], rule_count: u64) -> bool {
    let count_of = |node: &Node| match node {
        Node::Cut { .. } => 0,
        Node::Leaf { count, .. } => *count,
    };
    let counts_before = |number: usize| all[..number].iter().map(count_of).sum::<u64>();
    let nodes_right = all.iter().enumerate().all(|(number, node)| match node {
        Node::Cut { right, .. } => *right < all.len() as u64,
        Node::Leaf { start, count } => *start == counts_before(number) && *count <= rule_count,
    });
    let pool_filled = counts_before(all.len()) == pool.len() as u64;
    nodes_right && pool_filled && pool.iter().all(|&entry| u64::from(entry) < rule_count)
}

/// A leaf's entries rise strictly.
fn rises(node: &Node, pool: &[u32]) -> bool {
    match node {
        Node::Cut { .. } => true,
        Node::Leaf { start, count } => {
            let entries = entries_of(pool, *start, *count).expect("the tree is spelt");
            (1..entries.len()).all(|index| entries[index - 1] < entries[index])
        }
    }
}

/// Follows the stored children from the root, left before right. The nodes must come as 0, 1, 2 and so on to the last,
/// each cut with at most 62 cuts above it and a value inside of its box.
fn stands_in_preorder(all: &[Node]) -> bool {
    let mut waiting = vec![(0_u64, root_box(), 0)];
    let mut expected = 0;
    while let Some((number, sides, cuts_above)) = waiting.pop() {
        if number != expected || number >= all.len() as u64 {
            return false;
        }
        expected += 1;
        if let Node::Cut { field, value, right } = all[number as usize] {
            let (mut left_sides, mut right_sides) = (sides, sides);
            left_sides[field].high = u64::from(value);
            right_sides[field].low = u64::from(value) + 1;
            // The value is in the box, and neither part is empty.
            let parts_box = sides[field].low <= left_sides[field].high && right_sides[field].low <= sides[field].high;
            if cuts_above == MOST_CUTS || !parts_box {
                return false;
            }
            waiting.push((right, right_sides, cuts_above + 1));
            waiting.push((number + 1, left_sides, cuts_above + 1));
        }
    }
    expected == all.len() as u64
}
