//! Builds that stop: what stands at each stop, and that any number of stops ends in the build never stopped.

use oracle::Answer;

use crate::bench::{Bench, Run};
use crate::deepest::DEEPEST;
use crate::draws::Draws;
use crate::groups::build_cases::AMPLE;
use crate::groups::build_limits::{many_entries, many_nodes};
use crate::lists::Rule;
use crate::shared_ends::{self, with};
use crate::stops::{room_for, small_trees, to_the_end};
use crate::trees::{self, Policy};

pub fn run(bench: &mut Bench) -> Run {
    bench.group(
        "correctness",
        "stops: every stop of small trees, and from each in drawn steps to the end",
        every_stop,
    )?;
    bench.group("correctness", "stops: from every stop of small trees by every number of nodes", every_step)?;
    bench.group("correctness", "stops: larger trees in drawn steps, and one node at a time", larger_trees)?;
    bench.group("limits", "stops: 0 to 2^64 - 1 nodes more, and sums past 2^32 and 2^64", far_steps)?;
    bench.group(
        "limits",
        "stops: trees past the limits, which end in the refusal of a build never stopped",
        past_limits,
    )
}

/// The stop after so many nodes is the tree's first nodes, or all of it, worked out from the whole tree.
fn expect_stop(case: &str, tree: &Policy, node_count: usize, (answer, part): &(Answer, Policy)) {
    let wanted = tree.stop_after(node_count);
    let whole = node_count >= tree.node_count();
    let sizes = Answer::completed(wanted.node_count() as u64, wanted.pool.len() as u64, u64::from(whole));
    assert_eq!((answer, part), (&sizes, &wanted), "the oracle: {case}, {node_count} nodes");
}

/// What stands at the end is the tree, which a build never stopped gives, and which the check accepts.
fn expect_tree(bench: &mut Bench, case: &str, tree: &Policy) -> Run {
    let built = bench.build(case, &tree.rules, room_for(tree))?;
    let sizes = Answer::completed(tree.node_count() as u64, tree.pool.len() as u64, 0);
    assert_eq!(built, sizes, "the oracle: {case}");
    let checked = bench.tree_check(case, tree)?;
    assert_eq!(checked.number, 0, "the oracle: {case}");
    Ok(())
}

fn every_stop(bench: &mut Bench) -> Run {
    for (number, (case, tree)) in (0..).zip(small_trees(2_010_000, 150, 61)) {
        let mut draws = Draws::seeded(2_000_000 + number);
        let rooms = room_for(&tree);
        for stands in 1..=tree.node_count() + 1 {
            let stop = bench.build_some(&case, &tree.rules, stands as u64, rooms)?;
            expect_stop(&case, &tree, stands, &stop);
            let last = to_the_end(bench, &case, &stop.1, &[0, 1, 2, 3, 7, 20], rooms, &mut draws)?;
            expect_stop(&case, &tree, tree.node_count(), &last);
        }
        expect_tree(bench, &case, &tree)?;
    }
    Ok(())
}

fn every_step(bench: &mut Bench) -> Run {
    for (case, tree) in small_trees(2_020_000, 40, 21) {
        for stands in 1..=tree.node_count() {
            let part = tree.stop_after(stands);
            for most in 0..=tree.node_count() - stands + 2 {
                let next = bench.build_on(&case, &part, most as u64, room_for(&tree))?;
                expect_stop(&case, &tree, stands + most.max(1), &next);
            }
        }
    }
    Ok(())
}

/// Lists whose trees have up to 2,047 nodes.
fn larger_lists() -> Vec<(String, Vec<Rule>)> {
    let strips = |count: u32| (0..count).map(|strip| with(0, [strip << 23, 9])).collect();
    let mut lists = vec![
        ("the deepest that was found".to_string(), DEEPEST.to_vec()),
        ("73 strips around a point, 38 ports".to_string(), many_nodes(73, 38)),
        ("64 nested ranges and 40 ports".to_string(), many_entries(64, 40)),
        ("300 strips".to_string(), strips(300)),
        ("512 strips".to_string(), strips(512)),
    ];
    for seed in 2_030_000..2_030_030 {
        let mut draws = Draws::seeded(seed);
        let size = draws.pick(&[20, 40, 64, 120]);
        lists.push((format!("seed {seed}, list of {size} with few ends"), shared_ends::list(&mut draws, size)));
    }
    lists
}

fn larger_trees(bench: &mut Bench) -> Run {
    let (mut largest, mut by_ones) = (0, 0);
    for (number, (case, rules)) in (0..).zip(larger_lists()) {
        let Some(tree) = trees::compiled(&rules) else { continue };
        let mut draws = Draws::seeded(2_040_000 + number);
        largest = largest.max(tree.node_count());
        for steps in [&[1, 5, 40, 200][..], &[100, 300, 700], &[900, u64::MAX]] {
            let stop = bench.build_some(&case, &tree.rules, draws.pick(steps), AMPLE)?;
            expect_stop(&case, &tree, stop.1.node_count(), &stop);
            let last = match stop.0.c {
                0 => to_the_end(bench, &case, &stop.1, steps, AMPLE, &mut draws)?,
                _ => stop,
            };
            expect_stop(&case, &tree, tree.node_count(), &last);
        }
        if tree.node_count() < 200 {
            let first = bench.build_some(&case, &tree.rules, 1, AMPLE)?;
            let last = to_the_end(bench, &case, &first.1, &[1], AMPLE, &mut draws)?;
            expect_stop(&case, &tree, tree.node_count(), &last);
            by_ones += 1;
        }
        expect_tree(bench, &case, &tree)?;
    }
    assert!(largest > 2_000 && by_ones > 8, "some trees are large, and some are not: {largest}, {by_ones}");
    Ok(())
}

/// Numbers of nodes at which a sum with those that stand, or three times it, would wrap or turn negative.
fn far_numbers(stands: u64) -> Vec<u64> {
    let turning = [1 << 31, 1 << 32, 1 << 33, 1 << 62, 1 << 63, 0, u64::MAX / 3, 2 * (u64::MAX / 3), 1 << 40];
    let about = |number: u64| (0..5).map(move |over| number.wrapping_sub(2).wrapping_add(over));
    let mut all: Vec<u64> = turning.into_iter().flat_map(about).collect();
    all.extend(turning.into_iter().flat_map(|number| about(number.wrapping_sub(stands))));
    all.extend([0, 1, 2_046, 2_047, 2_048, 6_141, 4_096].into_iter().chain(about(2_047_u64.wrapping_sub(stands))));
    all
}

fn far_steps(bench: &mut Bench) -> Run {
    for (case, tree) in small_trees(2_050_000, 6, 15) {
        let count = tree.node_count();
        for stands in [0, 1, count / 2, count - 1, count] {
            for most in far_numbers(stands as u64) {
                let until = stands as u128 + u128::from(most.max(1));
                let next = match stands {
                    0 => bench.build_some(&case, &tree.rules, most, room_for(&tree))?,
                    _ => bench.build_on(&case, &tree.stop_after(stands), most, room_for(&tree))?,
                };
                expect_stop(&case, &tree, until.min(count as u128) as usize, &next);
            }
        }
    }
    Ok(())
}

/// Each stop is that of a build that stops once, and the end is what `wick_build` gives.
fn past_limits(bench: &mut Bench) -> Run {
    let grid: Vec<Rule> = (0..512).map(|rule| with(rule as usize / 256, [(rule % 256) << 24, 8])).collect();
    let lists = [
        ("503 strips around a point", many_nodes(503, 0)),
        ("73 strips around a point, 39 ports", many_nodes(73, 39)),
        ("65 nested ranges and 40 ports", many_entries(65, 40)),
        ("256 nested ranges", many_entries(256, 0)),
        ("256 sources, and 256 destinations", grid),
    ];
    for (number, (case, rules)) in (0..).zip(lists) {
        let rules = rules.concat();
        let mut draws = Draws::seeded(2_060_000 + number);
        for rooms in [AMPLE, [3 * 700, 4_096], [6_141, 1_000]] {
            let never_stopped = bench.build(case, &rules, rooms)?;
            assert_eq!(never_stopped.number, 4, "the oracle: {case}");
            let (mut answer, mut part) = bench.build_some(case, &rules, draws.pick(&[1, 5]), rooms)?;
            let mut stops = 0;
            while answer.number == 0 {
                let once = bench.build_some(case, &rules, part.node_count() as u64, rooms)?;
                assert_eq!((answer, &part), (once.0, &once.1), "the oracle: {case}");
                (answer, part) = bench.build_on(case, &part, draws.pick(&[1, 20, 100, 400]), rooms)?;
                stops += 1;
            }
            assert_eq!((answer, stops > 0), (never_stopped, true), "the oracle: {case}");
        }
    }
    Ok(())
}
