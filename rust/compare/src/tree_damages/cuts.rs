//! Damage to a cut's three words, and to the parts that hang from it.

use oracle::parts::{Part, PlacedCut};

use super::{DamagedTree, WRONG_FIRST_WORDS};
use crate::trees::{part_at, Planted, Policy};

/// The tree with each kind of damage to this cut.
pub fn cut_damages(planted: &Planted, cut: &PlacedCut) -> Vec<DamagedTree> {
    let mut all = Vec::new();
    let mut put = |kind: &str, word: u64, value: u32| {
        let mut policy = planted.policy.clone();
        policy.nodes[(3 * cut.node + word) as usize] = value;
        let kind = format!("cut {}, {kind}: {value}", cut.node);
        all.push(DamagedTree { kind, policy, sides: cut.sides });
    };
    let (low, high) = (cut.sides[cut.field].low as u32, cut.sides[cut.field].high as u32);
    put("value at the box's low", 1, low);
    put("value below the box's low", 1, low.wrapping_sub(1));
    put("value at the box's high", 1, high);
    put("value just below the box's high", 1, high - 1);
    put("value over the box's high", 1, high.wrapping_add(1));
    for value in [cut.value.wrapping_sub(1), cut.value.wrapping_add(1), cut.value ^ (1 << 31), 0, u32::MAX] {
        put("value", 1, value);
    }
    let own = cut.node as u32;
    let count = planted.policy.node_count() as u32;
    let right = planted.policy.nodes[3 * cut.node as usize + 2];
    for value in [right - 1, right + 1, right + 2, own, own + 1, own + 2, 0, 1, own.wrapping_sub(1)] {
        put("right child", 2, value);
    }
    // Three times the last two, taken modulo 2^32, is a place in the node words.
    for value in [count - 1, count, count + 1, 1 << 16, u32::MAX, 0x5555_5556 + right, 0xAAAA_AAAB] {
        put("right child", 2, value);
    }
    for other in planted.places.cuts.iter().filter(|other| other.node != cut.node).take(6) {
        put("right child of another cut", 2, planted.policy.nodes[3 * other.node as usize + 2]);
    }
    for first in (0..=5).chain(WRONG_FIRST_WORDS) {
        put("first word", 0, first);
    }
    all
}

/// The tree with each kind of damage to its shape that a cut can have: parts swapped, doubled, lost and shared.
pub fn shape_damages(planted: &Planted, cut: &PlacedCut) -> Vec<DamagedTree> {
    let mut all = Vec::new();
    let mut put = |kind: &str, change: &dyn Fn(&mut Part)| {
        let mut root = planted.root.clone();
        change(part_at(&mut root, cut.node));
        let policy = Policy::of(&planted.rules, &root);
        all.push(DamagedTree { kind: format!("cut {}, {kind}", cut.node), policy, sides: cut.sides });
    };
    put("its parts swapped", &|part| {
        let Part::Cut { left, right, .. } = part else { return };
        std::mem::swap(left, right);
    });
    put("its left part twice", &|part| {
        let Part::Cut { left, right, .. } = part else { return };
        right.clone_from(left);
    });
    put("its right part twice", &|part| {
        let Part::Cut { left, right, .. } = part else { return };
        left.clone_from(right);
    });
    put("its left part in its place", &|part| {
        let Part::Cut { left, .. } = part else { return };
        *part = (**left).clone();
    });
    put("its right part in its place", &|part| {
        let Part::Cut { right, .. } = part else { return };
        *part = (**right).clone();
    });
    put("itself once more as its left part", &|part| {
        let whole = part.clone();
        let Part::Cut { left, .. } = part else { return };
        **left = whole;
    });
    if let Some(policy) = with_shared_leaf(planted, cut) {
        let kind = format!("cut {}, its right child made that of the cut below, and its own leaf gone", cut.node);
        all.push(DamagedTree { kind, policy, sides: cut.sides });
    }
    all
}

/// Where a cut's left child is a cut too and both right children are leaves, the lower leaf serves both, and the upper
/// one is taken out of the words. Everything else is mended, so that only the preorder is wrong.
fn with_shared_leaf(planted: &Planted, cut: &PlacedCut) -> Option<Policy> {
    let nodes = &planted.policy.nodes;
    let above = 3 * cut.node as usize;
    let below = above + 3;
    let (gone, kept) = (nodes[above + 2], nodes[below + 2]);
    let is_leaf = |node: u32| nodes[3 * node as usize] == 5;
    if nodes[below] == 5 || !is_leaf(gone) || !is_leaf(kept) {
        return None;
    }
    let mut policy = planted.policy.clone();
    let at = 3 * gone as usize;
    let (start, count) = (nodes[at + 1], nodes[at + 2]);
    policy.pool.drain(start as usize..(start + count) as usize);
    policy.nodes[above + 2] = kept;
    policy.nodes.drain(at..at + 3);
    for node in policy.nodes.chunks_exact_mut(3) {
        if node[0] < 5 && node[2] > gone {
            node[2] -= 1;
        }
        if node[0] == 5 && node[1] > start {
            node[1] -= count;
        }
    }
    Some(policy)
}
