//! Trees to search: one built to part the rules, and one grown at random. Both are well formed, and right for their
//! list by the way they are made.

use crate::boxes::{box_of, left_of, may_cut, meet, right_of, root_box, Side, Sides};
use crate::parts::Part;
use crate::rules::Rule;
use crate::tree_check::MOST_CUTS;

/// What a built tree may take.
#[derive(Clone, Copy, Debug)]
pub struct Limits {
    /// A part of no more rules than this becomes a leaf.
    pub leaf: usize,
    /// The most cuts above a leaf.
    pub cuts: u64,
    /// The most nodes.
    pub nodes: usize,
    /// The most entries of all leaves together.
    pub entries: usize,
}

/// Builds a tree that parts the rules at their ends, or gives None where it takes more than the limits.
pub fn build(list: &[Rule], limits: Limits) -> Option<Part> {
    let boxes: Vec<Sides> = list.iter().map(box_of).collect();
    let all: Vec<usize> = (0..list.len()).collect();
    let mut left = limits;
    build_part(&boxes, &all, root_box(), 0, limits, &mut left)
}

/// The part of this box, where these rules meet it. `left` is what of the limits is left for it and for what follows.
fn build_part(
    boxes: &[Sides],
    here: &[usize],
    sides: Sides,
    cuts_above: u64,
    limits: Limits,
    left: &mut Limits,
) -> Option<Part> {
    left.nodes = left.nodes.checked_sub(1)?;
    let cut = if here.len() <= limits.leaf || cuts_above >= limits.cuts.min(MOST_CUTS) {
        None
    } else {
        best_cut(boxes, here, &sides)
    };
    match cut {
        None => {
            left.entries = left.entries.checked_sub(here.len())?;
            Some(Part::Leaf { entries: here.iter().map(|&rule| rule as u32).collect() })
        }
        Some((field, value)) => {
            let mut part = |sides: Sides| {
                let inside = meeting(boxes, here, &sides);
                build_part(boxes, &inside, sides, cuts_above + 1, limits, left).map(Box::new)
            };
            let first = part(left_of(sides, field, value))?;
            let second = part(right_of(sides, field, value))?;
            Some(Part::Cut { field, value, left: first, right: second })
        }
    }
}

/// The rules among these whose boxes meet this box.
fn meeting(boxes: &[Sides], here: &[usize], sides: &Sides) -> Vec<usize> {
    here.iter().copied().filter(|&rule| meet(&boxes[rule], sides)).collect()
}

/// Of the middle end of each field, the one whose larger part is smallest; None where every cut leaves all rules on
/// both sides, or there is no end to cut at.
fn best_cut(boxes: &[Sides], here: &[usize], sides: &Sides) -> Option<(usize, u32)> {
    let mut best = None;
    for field in 0..5 {
        let mut ends = ends_inside(here.iter().map(|&rule| boxes[rule][field]), sides, field);
        ends.sort_unstable();
        if ends.is_empty() {
            continue;
        }
        let value = ends[ends.len() / 2];
        let on_left = meeting(boxes, here, &left_of(*sides, field, value)).len();
        let on_right = meeting(boxes, here, &right_of(*sides, field, value)).len();
        let cost = (on_left.max(on_right), on_left + on_right);
        if on_left + on_right < 2 * here.len() && best.is_none_or(|(least, _, _)| cost < least) {
            best = Some((cost, field, value));
        }
    }
    best.map(|(_, field, value)| (field, value))
}

/// The values at which a cut of this box goes along a low or a high end of these sides.
fn ends_inside(of: impl Iterator<Item = Side>, sides: &Sides, field: usize) -> Vec<u32> {
    of.flat_map(|side| [side.low.checked_sub(1), Some(side.high)])
        .flatten()
        .map(|value| value as u32)
        .filter(|&value| may_cut(sides, field, value))
        .collect()
}

/// Grows a tree of at most this many cuts, at values anywhere in the box, at its ends and at ends of rules. A leaf
/// lists all rules that meet its box, and now and then some that do not. `choose` gives a number below the one it is
/// given.
pub fn grow(list: &[Rule], cuts: u64, choose: &mut dyn FnMut(u64) -> u64) -> Part {
    let boxes: Vec<Sides> = list.iter().map(box_of).collect();
    grow_part(&boxes, root_box(), cuts, 0, choose)
}

fn grow_part(boxes: &[Sides], sides: Sides, cuts: u64, cuts_above: u64, choose: &mut dyn FnMut(u64) -> u64) -> Part {
    let field = choose(5) as usize;
    let Side { low, high } = sides[field];
    if cuts == 0 || cuts_above == MOST_CUTS || low == high {
        return Part::Leaf { entries: entries_for(boxes, &sides, choose) };
    }
    let ends = ends_inside(boxes.iter().map(|side| side[field]), &sides, field);
    let value = match choose(8) {
        0 => low as u32,
        1 => (high - 1) as u32,
        2..6 if !ends.is_empty() => ends[choose(ends.len() as u64) as usize],
        _ => (low + choose(high - low)) as u32,
    };
    // Now and then one side takes all the cuts that are left, so that some trees are deep.
    let for_left = match choose(4) {
        0 => 0,
        1 => cuts - 1,
        _ => choose(cuts),
    };
    let left = grow_part(boxes, left_of(sides, field, value), for_left, cuts_above + 1, choose);
    let right = grow_part(boxes, right_of(sides, field, value), cuts - 1 - for_left, cuts_above + 1, choose);
    Part::Cut { field, value, left: Box::new(left), right: Box::new(right) }
}

/// All rules that meet the box, rising; once in three leaves, some of the others too.
fn entries_for(boxes: &[Sides], sides: &Sides, choose: &mut dyn FnMut(u64) -> u64) -> Vec<u32> {
    let with_others = choose(3) == 0;
    let mut entries = Vec::new();
    for (rule, own) in (0..).zip(boxes) {
        if meet(own, sides) || (with_others && choose(4) == 0) {
            entries.push(rule);
        }
    }
    entries
}
