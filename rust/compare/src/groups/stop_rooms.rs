//! Limits of the room that is lent to a build that stops. Only the nodes that are asked for must fit, those that stand
//! already included.

use crate::bench::{Bench, Run};
use crate::draws::Draws;
use crate::groups::build_rooms::{first_unfit, steps};
use crate::stops::{small_trees, to_the_end};
use crate::trees::Policy;

const PURPOSE: &str = "limits";

pub fn run(bench: &mut Bench) -> Run {
    bench.group(PURPOSE, "stops: every room of nodes and of the pool, from several stops", every_room)?;
    bench.group(PURPOSE, "stops: the same short room at each step, to the refusal of a build never stopped", same_room)
}

fn every_room(bench: &mut Bench) -> Run {
    for (case, tree) in small_trees(2_110_000, 6, 13) {
        let count = tree.node_count();
        let half = count / 2;
        for (stands, most) in
            [(0, 3), (0, count), (1, 1), (half, 1), (half, 3), (half, count), (count - 1, 1), (count, 1)]
        {
            rooms_about(bench, &case, &tree, stands, most)?;
        }
    }
    Ok(())
}

/// Every room of nodes with the exact pool, with none and with some; every room of the pool with the exact nodes, with
/// one word less and with more.
fn rooms_about(bench: &mut Bench, case: &str, tree: &Policy, stands: usize, most: usize) -> Run {
    let [nodes, pool] = [tree.nodes.len(), tree.pool.len()];
    for room in 0..=nodes + 3 {
        for pool_room in [0, pool / 2, pool] {
            step_in(bench, case, tree, stands, most, [room, pool_room])?;
        }
    }
    for room in 0..=pool + 2 {
        for node_room in [nodes - 1, nodes, nodes + 40] {
            step_in(bench, case, tree, stands, most, [node_room, room])?;
        }
    }
    Ok(())
}

/// One step with these rooms. The refusal is worked out from the whole tree, by another way than the oracle's.
fn step_in(bench: &mut Bench, case: &str, tree: &Policy, stands: usize, most: usize, rooms: [usize; 2]) -> Run {
    let until = (stands + most).min(tree.node_count());
    let (answer, _) = match stands {
        0 => bench.build_some(case, &tree.rules, most as u64, rooms)?,
        _ => bench.build_on(case, &tree.stop_after(stands), most as u64, rooms)?,
    };
    let wanted = match first_unfit(&steps(tree)[..until], rooms) {
        Some((place, extra)) => (4, place as u64, extra, 0),
        None => (0, 0, 0, until as u64),
    };
    let given = (answer.number, answer.place, answer.extra, answer.a);
    assert_eq!(given, wanted, "the oracle: {case}, {stands} and {most} nodes, rooms {rooms:?}");
    Ok(())
}

fn same_room(bench: &mut Bench) -> Run {
    let mut refused = 0;
    for (number, (case, tree)) in (0..).zip(small_trees(2_120_000, 120, 101)) {
        let mut draws = Draws::seeded(2_100_000 + number);
        for _ in 0..8 {
            // A room that ends with a node, or just before, on either side.
            let [words, entries] = draws.pick(&steps(&tree));
            let [words, entries] = [words, entries].map(|room| (room + draws.below(3)).saturating_sub(1));
            let rooms = draws.pick(&[[words, entries], [words, tree.pool.len()], [tree.nodes.len(), entries]]);
            let never_stopped = bench.build(&case, &tree.rules, rooms)?;
            let mut last = bench.build_some(&case, &tree.rules, draws.pick(&[1, 2, 9]), rooms)?;
            if last.0.number == 0 && last.0.c == 0 {
                last = to_the_end(bench, &case, &last.1, &[0, 1, 2, 5, 30], rooms, &mut draws)?;
            }
            let (answer, part) = last;
            let given = (answer.number, answer.place, answer.extra, answer.a, answer.b);
            let wanted =
                (never_stopped.number, never_stopped.place, never_stopped.extra, never_stopped.a, never_stopped.b);
            assert_eq!(given, wanted, "the oracle: {case}, rooms {rooms:?}");
            match answer.number {
                0 => assert_eq!(part, tree, "the oracle: {case}"),
                _ => refused += 1,
            }
        }
    }
    assert!(refused > 400, "most of these rooms are short: {refused}");
    Ok(())
}
