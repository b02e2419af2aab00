//! Damage to parts: each kind, at each node of small parts, and drawn.

use oracle::Answer;

use crate::bench::{Bench, Run};
use crate::draws::Draws;
use crate::groups::build_cases::AMPLE;
use crate::groups::part_others::{finish, others_tree};
use crate::groups::tree_drawn::small_policy;
use crate::part_damages::{change, cut_short, mended, nodes_of, with_entries, without_node};
use crate::stops::{room_for, small_trees};
use crate::tree_damages::any_damage;
use crate::trees::Policy;

const PURPOSE: &str = "damage";

/// Nodes that may follow the last one of a part.
const LEFT_OVER: [[u32; 3]; 7] = [[5, 0, 0], [5, 0, 1], [0, 7, 0], [0, 0, 0], [3, 50, 1], [4, 255, 0], [6, 0, 0]];

pub fn run(bench: &mut Bench) -> Run {
    bench.group(PURPOSE, "parts: each right child made every number, begun or not", right_children)?;
    bench.group(PURPOSE, "parts: each entry of each leaf dropped, and each rule put into it", entries)?;
    bench.group(PURPOSE, "parts: values at and past the ends of each cut's box", values)?;
    bench.group(PURPOSE, "parts: each node dropped and doubled, and nodes left over", nodes)?;
    bench.group(PURPOSE, "parts: every kind of damage to a tree, and then stopped", damaged_trees)?;
    bench.group(PURPOSE, "parts: one to four drawn changes of good parts", drawn_changes)?;
    bench.group(PURPOSE, "parts: drawn small words in the shape of parts", small_words)
}

/// The refusal of the part, with ample room.
fn refused(bench: &mut Bench, case: &str, part: &Policy, wanted: (u64, usize, u64)) -> Run {
    let (answer, _) = bench.build_on(case, part, 1, AMPLE)?;
    assert_eq!((answer.number, answer.place as usize, answer.extra), wanted, "the oracle: {case}");
    Ok(())
}

/// Only one number is right for each right child: where it is begun its own, and otherwise 0.
fn right_children(bench: &mut Bench) -> Run {
    for (case, tree) in small_trees(2_310_000, 20, 17) {
        for stands in 1..=tree.node_count() {
            let part = tree.stop_after(stands);
            for cut in nodes_of(&part, false) {
                let right = part.nodes[3 * cut + 2];
                let far = [u32::MAX, 1 << 31, 1 << 16, 0x5555_5556, tree.nodes[3 * cut + 2]];
                for child in (0..=stands as u32 + 1).chain(far).filter(|&child| child != right) {
                    let mut other = part.clone();
                    other.nodes[3 * cut + 2] = child;
                    let case = format!("{case}, {stands} nodes, cut {cut} with right child {child}");
                    refused(bench, &case, &other, (6, cut, 0))?;
                }
            }
        }
    }
    Ok(())
}

/// A leaf that the compiler makes lists no rule too many: without any of its entries it lacks that rule. It may list
/// more.
fn entries(bench: &mut Bench) -> Run {
    let mut more = 0;
    for (case, tree) in small_trees(2_320_000, 20, 13) {
        for stands in 1..=tree.node_count() {
            let part = tree.stop_after(stands);
            for leaf in nodes_of(&part, true) {
                let (start, count) = (part.nodes[3 * leaf + 1] as usize, part.nodes[3 * leaf + 2] as usize);
                for place in 0..count {
                    let rule = part.pool[start + place];
                    let lacking = with_entries(&part, leaf, |entries| {
                        entries.remove(place);
                    });
                    let case = format!("{case}, {stands} nodes, leaf {leaf} without rule {rule}");
                    refused(bench, &case, &lacking, (8, leaf, u64::from(rule)))?;
                }
                for rule in (0..tree.rule_count() as u32).filter(|rule| !part.pool[start..start + count].contains(rule))
                {
                    let fuller = with_entries(&part, leaf, |entries| {
                        entries.push(rule);
                        entries.sort_unstable();
                    });
                    let case = format!("{case}, {stands} nodes, leaf {leaf} with rule {rule}");
                    let (answer, _) = finish(bench, &case, &fuller)?;
                    assert_eq!(answer.number, 0, "the oracle: {case}");
                    more += 1;
                }
                if count > 1 {
                    let turned = with_entries(&part, leaf, |entries| entries.swap(0, 1));
                    refused(bench, &format!("{case}, leaf {leaf} turned"), &turned, (7, leaf, 0))?;
                    let twice = with_entries(&part, leaf, |entries| entries[1] = entries[0]);
                    refused(bench, &format!("{case}, leaf {leaf} with a rule twice"), &twice, (7, leaf, 0))?;
                }
            }
        }
    }
    assert!(more > 500, "many leaves do not list every rule: {more}");
    Ok(())
}

/// A value below its box's high, and not below its low, is right; what is built beside it then differs. Elsewhere it is
/// 6 at the cut, though nothing below the cut is begun.
fn values(bench: &mut Bench) -> Run {
    let mut taken = 0;
    for seed in 2_330_000..2_330_040 {
        let mut draws = Draws::seeded(seed);
        let planted = others_tree(&mut draws);
        for cut in planted.places.cuts.iter().take(12) {
            // The cut is the last node, and then come its left child and all.
            let own = cut.node as usize;
            for stands in [own + 1, own + 2, planted.policy.node_count()] {
                let (low, high) = (cut.sides[cut.field].low, cut.sides[cut.field].high);
                for value in [low.wrapping_sub(1), low, high - 1, high, high + 1, u64::from(u32::MAX), 0] {
                    let mut part = planted.policy.stop_after(stands);
                    part.nodes[3 * own + 1] = value as u32;
                    let case = format!("seed {seed}, {stands} nodes, cut {own} at {value}");
                    let (answer, _) = finish(bench, &case, &part)?;
                    let inside = (low..high).contains(&u64::from(value as u32));
                    match inside {
                        true if stands == own + 1 => taken += usize::from(answer.number == 0),
                        true => {}
                        false => assert_eq!((answer.number, answer.place), (6, cut.node), "the oracle: {case}"),
                    }
                }
            }
        }
    }
    assert!(taken > 150, "many of the values are right: {taken}");
    Ok(())
}

fn nodes(bench: &mut Bench) -> Run {
    let trees = small_trees(2_340_000, 8, 15).into_iter().chain((2_341_000..2_341_010).map(|seed| {
        let tree = others_tree(&mut Draws::seeded(seed)).policy;
        (format!("seed {seed}, a tree of others"), tree)
    }));
    for (case, tree) in trees {
        for stands in 1..=tree.node_count().min(15) {
            let part = tree.stop_after(stands);
            for node in 0..stands {
                let mut dropped = part.clone();
                dropped.nodes.drain(3 * node..3 * node + 3);
                let mut doubled = part.clone();
                let own = doubled.nodes[3 * node..3 * node + 3].to_vec();
                doubled.nodes.splice(3 * node..3 * node, own);
                let case = format!("{case}, {stands} nodes, node {node} dropped or doubled");
                for damaged in [without_node(&part, node), dropped, mended(doubled.clone()), doubled] {
                    step(bench, &case, &damaged)?;
                }
            }
            for last in LEFT_OVER {
                let mut over = part.clone();
                over.nodes.extend(last);
                step(bench, &format!("{case}, {stands} nodes and {last:?}"), &mended(over))?;
            }
        }
        // Where nothing is open, a node that follows is left over.
        let count = tree.node_count();
        for last in [[5, tree.pool.len() as u32, 0], [0, 7, 0], [4, 100, count as u32]] {
            let mut over = tree.clone();
            over.nodes.extend(last);
            if over.nodes.len() <= 6_141 {
                refused(bench, &format!("{case}, whole, and {last:?}"), &over, (6, count, 0))?;
            }
        }
    }
    Ok(())
}

/// One step from a part that may be damaged. What is whole is accepted.
fn step(bench: &mut Bench, case: &str, part: &Policy) -> Result<Answer, String> {
    let (answer, next) = bench.build_on(case, part, 2, AMPLE)?;
    if answer.number == 0 {
        finish(bench, case, &next)?;
    }
    Ok(answer)
}

fn damaged_trees(bench: &mut Bench) -> Run {
    let mut tally = [0; 13];
    for seed in 2_350_000..2_353_000 {
        let mut draws = Draws::seeded(seed);
        let planted = others_tree(&mut draws);
        let damaged = any_damage(&planted, &mut draws);
        let count = damaged.policy.node_count().max(1);
        let stands = if draws.once_in(2) { count } else { 1 + draws.below(count) };
        let part = cut_short(&damaged.policy, stands);
        let case = format!("seed {seed}, {}, {stands} nodes", damaged.kind);
        tally[step(bench, &case, &part)?.number as usize] += 1;
        bench.write_part(&case, &part)?;
    }
    assert!([0, 6, 7, 8].into_iter().all(|number| tally[number] > 100), "each comes often: {tally:?}");
    Ok(())
}

fn drawn_changes(bench: &mut Bench) -> Run {
    let own = small_trees(2_360_000, 100, 41);
    let mut tally = [0; 13];
    for seed in 2_370_000..2_378_000 {
        let mut draws = Draws::seeded(seed);
        let tree = match draws.below(2) {
            0 => own[draws.below(own.len())].1.clone(),
            _ => others_tree(&mut draws).policy,
        };
        let mut part = tree.stop_after(1 + draws.below(tree.node_count()));
        for _ in 0..draws.pick(&[1, 1, 2, 4]) {
            change(&mut part, &mut draws);
        }
        let part = if draws.once_in(3) { mended(part) } else { part };
        let told = if draws.once_in(20) { draws.below(30) as u64 } else { part.rule_count() };
        let most = draws.pick(&[0, 1, 2, 9, u64::MAX]);
        let rooms = if draws.once_in(3) { [draws.below(90), draws.below(90)] } else { AMPLE };
        let case = format!("seed {seed}, a part with drawn changes");
        let (answer, next) = bench.build_told(&case, told, &part, most, rooms)?;
        tally[answer.number as usize] += 1;
        if answer.number == 0 {
            finish(bench, &case, &next)?;
        }
    }
    assert!([0, 4, 5, 6, 7, 8].into_iter().all(|number| tally[number] > 100), "each comes often: {tally:?}");
    Ok(())
}

/// Few nodes whose words are all small, so that every test is passed now and then. Right children are 0 more often.
fn small_words(bench: &mut Bench) -> Run {
    let mut tally = [0; 13];
    for seed in 2_390_000..2_398_000 {
        let mut draws = Draws::seeded(seed);
        let mut part = small_policy(&mut draws);
        for node in part.nodes.chunks_exact_mut(3).filter(|node| node[0] < 5) {
            if draws.once_in(2) {
                node[2] = 0;
            }
        }
        let case = format!("seed {seed}, small words");
        let rooms = draws.pick(&[room_for(&part), AMPLE, [6, 2]]);
        let (answer, next) = bench.build_on(&case, &part, draws.pick(&[1, 2, 20]), rooms)?;
        tally[answer.number as usize] += 1;
        if answer.number == 0 {
            finish(bench, &case, &next)?;
        }
    }
    assert!([0, 4, 6, 7, 8].into_iter().all(|number| tally[number] > 100), "each comes often: {tally:?}");
    Ok(())
}
