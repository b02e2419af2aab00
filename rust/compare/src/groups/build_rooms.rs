//! Limits of the room that is lent to the compiler, and the order of its refusals: the list is judged first.

use oracle::rules::RULE_WORDS;

use crate::bench::{Bench, Run};
use crate::damages::damaged_rules;
use crate::draws::Draws;
use crate::groups::build_cases::AMPLE;
use crate::lists::{self, Rule, EVERYTHING, MANNERS};
use crate::shared_ends::{self, around_a_header, variant, with};
use crate::trees::{self, Policy};

pub fn run(bench: &mut Bench) -> Run {
    bench.group("limits", "build: every room of nodes and of the pool, small trees", small_trees)?;
    bench.group("limits", "build: drawn rooms about larger trees", larger_trees)?;
    bench.group("damage", "build: bad lists beside short rooms, in the order 1, 2, 11, 4", bad_lists)
}

/// The nodes of a tree that a build comes to in turn: the node words up to and with each, the entries likewise.
pub fn steps(policy: &Policy) -> Vec<[usize; 2]> {
    let mut entries = 0;
    let mut all = Vec::new();
    for (number, node) in policy.nodes.chunks(3).enumerate() {
        if node[0] == 5 {
            entries += node[2] as usize;
        }
        all.push([3 * (number + 1), entries]);
    }
    all
}

/// What the rooms must be refused with: place and extra for the first node that does not fit.
pub fn first_unfit(steps: &[[usize; 2]], rooms: [usize; 2]) -> Option<(usize, u64)> {
    steps.iter().find_map(|&[words, entries]| match () {
        _ if words > rooms[0] => Some((words, 0)),
        _ if entries > rooms[1] => Some((entries, 1)),
        _ => None,
    })
}

/// Builds with these rooms. The refusal is worked out from the whole tree, by another way than the oracle's.
fn build_in(bench: &mut Bench, case: &str, policy: &Policy, steps: &[[usize; 2]], rooms: [usize; 2]) -> Run {
    let answer = bench.build(case, &policy.rules, rooms)?;
    let wanted = match first_unfit(steps, rooms) {
        Some((place, extra)) => (4, place as u64, extra),
        None => (0, 0, 0),
    };
    assert_eq!((answer.number, answer.place, answer.extra), wanted, "the oracle: {case}, rooms {rooms:?}");
    Ok(())
}

fn small_trees(bench: &mut Bench) -> Run {
    let mut trees = vec![
        ("no rules".to_string(), Vec::new()),
        ("one rule".to_string(), vec![EVERYTHING]),
        ("nine times one range".to_string(), (0..9).map(|number| variant(with(2, [100, 200]), 2, number)).collect()),
        ("nine around a header".to_string(), around_a_header(9)),
    ];
    for seed in 1_340_000..1_340_160 {
        let mut draws = Draws::seeded(seed);
        let size = draws.between(7, 14) as usize;
        let rules = match draws.below(3) {
            0 => {
                let manner = draws.pick(&MANNERS);
                lists::good_list(&mut draws, size, manner).rules
            }
            _ => shared_ends::list(&mut draws, size),
        };
        trees.push((format!("seed {seed}, list of {size}"), rules));
    }
    let mut built = 0;
    for (case, rules) in &trees {
        let Some(policy) = trees::compiled(rules) else { continue };
        if policy.nodes.len() > 120 {
            continue;
        }
        every_room(bench, case, &policy)?;
        built += 1;
    }
    assert!(built > 60, "many trees are small: {built}");
    Ok(())
}

/// Every room of nodes with the exact pool, with none and with some; every room of the pool with the exact nodes, with
/// one word less and with more.
fn every_room(bench: &mut Bench, case: &str, policy: &Policy) -> Run {
    let steps = steps(policy);
    let [nodes, pool] = [policy.nodes.len(), policy.pool.len()];
    for room in 0..=nodes + 3 {
        for pool_room in [0, pool / 2, pool] {
            build_in(bench, case, policy, &steps, [room, pool_room])?;
        }
    }
    for room in 0..=pool + 2 {
        for node_room in [nodes - 1, nodes, nodes + 40] {
            build_in(bench, case, policy, &steps, [node_room, room])?;
        }
    }
    Ok(())
}

fn larger_trees(bench: &mut Bench) -> Run {
    for seed in 1_350_000..1_350_080 {
        let mut draws = Draws::seeded(seed);
        let size = draws.pick(&[20, 40, 64, 120]);
        let rules = shared_ends::list(&mut draws, size);
        let case = format!("seed {seed}, list of {size} with few ends");
        let Some(policy) = trees::compiled(&rules) else { continue };
        let steps = steps(&policy);
        let [nodes, pool] = [policy.nodes.len(), policy.pool.len()];
        for _ in 0..10 {
            // A room that ends with a node, or just before, on either side.
            let [words, entries] = draws.pick(&steps);
            let near = |draws: &mut Draws, words: usize| (words + draws.below(3)).saturating_sub(1);
            let (node_room, pool_room) = (near(&mut draws, words), near(&mut draws, entries));
            for rooms in [[node_room, pool_room], [nodes, pool_room], [node_room, pool], [nodes + 1, pool + 1]] {
                build_in(bench, &case, &policy, &steps, rooms)?;
            }
        }
    }
    Ok(())
}

fn bad_lists(bench: &mut Bench) -> Run {
    for seed in 1_360_000..1_360_060 {
        let mut draws = Draws::seeded(seed);
        let size = draws.pick(&[1, 3, 9, 20, 100, 512]);
        let good = shared_ends::list(&mut draws, size);
        let mut rooms = vec![[0, 0], [2, 0], [3, 0], [3, 8], [30, 30], AMPLE];
        rooms.push([draws.below(200), draws.below(200)]);
        let [place, other] = [draws.below(size), draws.below(size)];
        for damaged in damaged_rules(&good[place]) {
            let mut rules = good.clone();
            rules[place] = damaged.rule;
            let case = format!("seed {seed}, list of {size}, rule {place}: {}", damaged.kind);
            let room = draws.pick(&rooms);
            expect(bench, &case, &rules.concat(), room, (2, place))?;
            // Another bad rule, and the lower one is named.
            rules[other] = [u32::MAX; RULE_WORDS];
            expect(bench, &case, &rules.concat(), room, (2, place.min(other)))?;
        }
        for &room in &rooms {
            twins(bench, seed, &good, room)?;
            broken_lengths(bench, seed, &good, room)?;
        }
    }
    Ok(())
}

/// The last rule is made the first: 11, however short the room is; and 2 where a rule is bad besides.
fn twins(bench: &mut Bench, seed: u64, good: &[Rule], room: [usize; 2]) -> Run {
    let last = good.len() - 1;
    if last == 0 {
        return Ok(());
    }
    let mut rules = good.to_vec();
    rules[last] = rules[0];
    let case = format!("seed {seed}, list of {} whose last rule is its first", good.len());
    expect(bench, &case, &rules.concat(), room, (11, last))?;
    rules[last / 2][3] = 33;
    expect(bench, &case, &rules.concat(), room, (2, last / 2))
}

/// A word too few, a word too many, 513 rules, or these and a word: 1, though a rule is bad besides.
fn broken_lengths(bench: &mut Bench, seed: u64, good: &[Rule], room: [usize; 2]) -> Run {
    let mut words = good.concat();
    words[1] = 33;
    let case = format!("seed {seed}, list of {} that is not whole, or too long", good.len());
    expect(bench, &case, &words, room, (2, 0))?;
    expect(bench, &case, &words[..words.len() - 1], room, (1, 0))?;
    words.push(0);
    expect(bench, &case, &words, room, (1, 0))?;
    words.pop();
    words.extend(EVERYTHING.repeat(513 - good.len()));
    expect(bench, &case, &words, room, (1, 0))?;
    words.push(0);
    expect(bench, &case, &words, room, (1, 0))
}

fn expect(bench: &mut Bench, case: &str, words: &[u32], room: [usize; 2], wanted: (u64, usize)) -> Run {
    let answer = bench.build(case, words, room)?;
    assert_eq!((answer.number, answer.place as usize), wanted, "the oracle: {case}");
    Ok(())
}
