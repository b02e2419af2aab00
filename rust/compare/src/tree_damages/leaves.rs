//! Damage to a leaf's three words, and to its entries.

use oracle::parts::{Part, PlacedLeaf};

use super::{DamagedTree, WRONG_FIRST_WORDS};
use crate::draws::Draws;
use crate::trees::{part_at, Planted, Policy};

/// The tree with each kind of damage to this leaf's own words, and to the words of its entries.
pub fn leaf_damages(planted: &Planted, leaf: &PlacedLeaf) -> Vec<DamagedTree> {
    let mut all = Vec::new();
    let at = 3 * leaf.node as usize;
    let (start, count) = (planted.policy.nodes[at + 1], planted.policy.nodes[at + 2]);
    let pool = planted.policy.pool.len() as u32;
    let rules = planted.rules.len() as u32;
    let mut put = |kind: &str, start: u32, count: u32| {
        let mut policy = planted.policy.clone();
        policy.nodes[at + 1..at + 3].copy_from_slice(&[start, count]);
        let kind = format!("leaf {}, {kind}: start {start}, count {count}", leaf.node);
        all.push(DamagedTree { kind, policy, sides: leaf.sides });
    };
    for (start, count) in [(start.wrapping_sub(1), count), (start + 1, count), (start.wrapping_sub(1), count + 1)] {
        put("another start", start, count);
    }
    for count in [count.wrapping_sub(1), count + 1, rules, rules + 1, 0, u32::MAX, 0_u32.wrapping_sub(start)] {
        put("another count", start, count);
    }
    for (start, count) in [(0, 0), (0, count), (pool, 0), (pool + 1, 0), (u32::MAX, 0), (pool, 1), (0, pool)] {
        put("another part of the pool", start, count);
    }
    for (start, count) in [(u32::MAX, 1), (u32::MAX, 2), (u32::MAX - count, count + 1), (u32::MAX - 4, 5 + pool)] {
        put("a part that passes 2^32", start, count);
    }
    for (start, count) in
        [(1, u32::MAX), (2, u32::MAX), (start + 1, u32::MAX), (1 << 31, 1 << 31), (u32::MAX, u32::MAX)]
    {
        put("a part that passes 2^32", start, count);
    }
    for first in (0..5).chain(WRONG_FIRST_WORDS) {
        let mut policy = planted.policy.clone();
        policy.nodes[at] = first;
        let kind = format!("leaf {}, first word: {first}", leaf.node);
        all.push(DamagedTree { kind, policy, sides: leaf.sides });
    }
    all
}

/// The tree with each kind of damage to some entries of this leaf. Counts and starts are mended where they change.
pub fn entry_damages(planted: &Planted, leaf: &PlacedLeaf, draws: &mut Draws) -> Vec<DamagedTree> {
    let mut all = Vec::new();
    let mut put = |kind: String, entries: Vec<u32>| {
        let mut root = planted.root.clone();
        *part_at(&mut root, leaf.node) = Part::Leaf { entries };
        let policy = Policy::of(&planted.rules, &root);
        all.push(DamagedTree { kind: format!("leaf {}, {kind}", leaf.node), policy, sides: leaf.sides });
    };
    let rules = planted.rules.len() as u32;
    let length = leaf.entries.len();
    let mut places = vec![0, length / 2, length.saturating_sub(1), draws.below(length.max(1))];
    places.sort_unstable();
    places.dedup();
    for &place in places.iter().filter(|&&place| place < length) {
        let mut dropped = leaf.entries.clone();
        dropped.remove(place);
        put(format!("entry {place} dropped"), dropped);
        let mut repeated = leaf.entries.clone();
        repeated.insert(place, leaf.entries[place]);
        put(format!("entry {place} repeated, and the count one more"), repeated);
        // Ten times the last one, taken modulo 2^32, is a place in the rule words.
        for wrong in [0, rules - 1, rules, rules + 1, u32::MAX, 1 << 31, 0x1999_999A] {
            let mut entries = leaf.entries.clone();
            entries[place] = wrong;
            put(format!("entry {place} made {wrong}"), entries);
        }
        if place + 1 < length {
            let mut swapped = leaf.entries.clone();
            swapped.swap(place, place + 1);
            put(format!("entries {place} and the next swapped"), swapped);
            let mut repeated = leaf.entries.clone();
            repeated[place + 1] = repeated[place];
            put(format!("entry {place} repeated in place of the next"), repeated);
        }
    }
    let mut turned = leaf.entries.clone();
    turned.reverse();
    put("entries turned round".to_string(), turned);
    put("every rule listed".to_string(), (0..rules).collect());
    put("no entry".to_string(), Vec::new());
    all
}
