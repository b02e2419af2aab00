//! Builds that stop: small trees to stop anywhere, and steps from a part to the end.

use crate::bench::{Bench, Stepped};
use crate::draws::Draws;
use crate::lists::{self, MANNERS};
use crate::shared_ends;
use crate::trees::{self, Policy};

/// So many drawn lists whose compiled trees have from 3 nodes to so many, each with its tree.
pub fn small_trees(first_seed: u64, count: usize, most_nodes: usize) -> Vec<(String, Policy)> {
    let mut small = Vec::new();
    for seed in first_seed.. {
        let mut draws = Draws::seeded(seed);
        let size = draws.between(9, 24) as usize;
        let manner = draws.pick(&MANNERS);
        let rules = match draws.below(3) {
            0 => lists::good_list(&mut draws, size, manner).rules,
            _ => shared_ends::list(&mut draws, size),
        };
        let fits = |tree: &Policy| (3..=most_nodes).contains(&tree.node_count());
        small.extend(trees::compiled(&rules).filter(fits).map(|tree| (format!("seed {seed}, list of {size}"), tree)));
        if small.len() == count {
            break;
        }
    }
    small
}

/// A room for the tree, and some words more.
pub fn room_for(tree: &Policy) -> [usize; 2] {
    [tree.nodes.len() + 4, tree.pool.len() + 2]
}

/// Goes on from the part, each time by one of these numbers of nodes, until it is whole or refused. Gives the last
/// answer and what stands then. Each step gets as far as it is asked to.
pub fn to_the_end(
    bench: &mut Bench,
    case: &str,
    part: &Policy,
    steps: &[u64],
    rooms: [usize; 2],
    draws: &mut Draws,
) -> Stepped {
    let mut part = part.clone();
    loop {
        let most = draws.pick(steps);
        let (answer, next) = bench.build_on(case, &part, most, rooms)?;
        if answer.number != 0 || answer.c == 1 {
            return Ok((answer, next));
        }
        assert_eq!(answer.a, part.node_count() as u64 + most.max(1), "the oracle: {case}");
        part = next;
    }
}
