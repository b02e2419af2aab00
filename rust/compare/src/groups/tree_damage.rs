//! Damage to trees: each kind, at many places of good trees. Each damaged tree is checked, written, and searched with
//! headers that come to the damaged node.

use crate::bench::{Bench, Run};
use crate::draws::Draws;
use crate::lists::{self, MANNERS};
use crate::tree_damages::{self, DamagedTree};
use crate::trees::{self, Planted};

const PURPOSE: &str = "damage";

/// The cuts, and the leaves, of a tree that are damaged.
const PLACES: usize = 6;

pub fn run(bench: &mut Bench) -> Run {
    bench.group(PURPOSE, "cuts: values at the box's ends, right children, first words", bad_cuts)?;
    bench.group(PURPOSE, "leaves: starts, counts, sums past 2^32, first words", bad_leaves)?;
    bench.group(PURPOSE, "entries dropped, repeated, falling and out of range", bad_entries)?;
    bench.group(PURPOSE, "parts swapped, doubled and lost, leaves shared", bad_shapes)?;
    bench.group(PURPOSE, "pools short and long, nodes missing and left over", bad_ends)
}

fn bad_cuts(bench: &mut Bench) -> Run {
    each_tree(bench, 610_000, 30, |planted, draws| {
        some(&planted.places.cuts, draws).flat_map(|cut| tree_damages::cut_damages(planted, cut)).collect()
    })
}

fn bad_leaves(bench: &mut Bench) -> Run {
    each_tree(bench, 620_000, 30, |planted, draws| {
        some(&planted.places.leaves, draws).flat_map(|leaf| tree_damages::leaf_damages(planted, leaf)).collect()
    })
}

fn bad_entries(bench: &mut Bench) -> Run {
    each_tree(bench, 630_000, 40, |planted, draws| {
        let leaves: Vec<_> = some(&planted.places.leaves, draws).collect();
        leaves.into_iter().flat_map(|leaf| tree_damages::entry_damages(planted, leaf, draws)).collect()
    })
}

fn bad_shapes(bench: &mut Bench) -> Run {
    each_tree(bench, 640_000, 200, |planted, draws| {
        some(&planted.places.cuts, draws).flat_map(|cut| tree_damages::shape_damages(planted, cut)).collect()
    })
}

fn bad_ends(bench: &mut Bench) -> Run {
    each_tree(bench, 650_000, 40, |planted, _| tree_damages::end_damages(planted))
}

/// Some of them, from a drawn one on; all of them where they are few.
fn some<'a, T>(all: &'a [T], draws: &mut Draws) -> impl Iterator<Item = &'a T> {
    let first = draws.below(all.len().max(1));
    all.iter().cycle().skip(first).take(all.len().min(PLACES))
}

/// So many good trees, each with every damage that is asked for.
fn each_tree(
    bench: &mut Bench,
    first_seed: u64,
    trees: u64,
    mut damages: impl FnMut(&Planted, &mut Draws) -> Vec<DamagedTree>,
) -> Run {
    for seed in first_seed..first_seed + trees {
        let mut draws = Draws::seeded(seed);
        let planted = good_tree(&mut draws);
        let damaged = damages(&planted, &mut draws);
        for tree in damaged {
            let case = format!("seed {seed}, {}", tree.kind);
            bench.tree_check(&case, &tree.policy)?;
            bench.write_tree(&case, &tree.policy)?;
            let header = trees::inside(&tree.sides, &mut draws);
            let answer = bench.tree_searches(&case, &tree.policy, &header)?;
            if answer.a > 0 {
                bench.tree_all(&case, &tree.policy, &header, draws.below(answer.a as usize))?;
            }
        }
    }
    Ok(())
}

/// The worked policy's tree, a built one, or a grown one; in some every leaf lists every rule.
pub fn good_tree(draws: &mut Draws) -> Planted {
    let size = draws.pick(&[1, 2, 3, 5, 8, 30]);
    let manner = draws.pick(&MANNERS);
    let list = lists::good_list(draws, size, manner);
    match draws.below(8) {
        0 => trees::worked(),
        1 | 2 => trees::built(&list, 1 + size / 8, 63),
        3 | 4 => trees::grown_full(&lists::wide_rules(size), 6, draws),
        5 => trees::grown(&list, 40, draws),
        _ => trees::grown(&list, 5, draws),
    }
}
