//! Limits of the compiler: the largest lists, trees at and past the limits of nodes and entries, and the deepest trees.

use oracle::nodes::{MOST_ENTRIES, MOST_NODES};
use oracle::Answer;

use crate::bench::{Agreed, Bench, Run};
use crate::deepest::DEEPEST;
use crate::groups::build_cases::{build_well, AMPLE};
use crate::lists::{Rule, EVERYTHING};
use crate::shared_ends::{put, with};

const PURPOSE: &str = "limits";

/// The node words and the pool words of the scope's limits.
const LIMITS: [usize; 2] = [3 * MOST_NODES, MOST_ENTRIES];

pub fn run(bench: &mut Bench) -> Run {
    bench.group(PURPOSE, "build: lists of 0 to 513 rules, each rule in its own strip", list_sizes)?;
    bench.group(PURPOSE, "build: trees of 2,047 nodes and of 4,096 entries, and of one more", just_within)?;
    bench.group(PURPOSE, "build: trees far past the limits, which are refused at the first node that is", far_past)?;
    bench.group(PURPOSE, "build: the deepest trees", deep_trees)
}

fn list_sizes(bench: &mut Bench) -> Run {
    for size in [0, 1, 2, 8, 9, 10, 63, 64, 65, 255, 256, 511, 512, 513] {
        for field in 0..5 {
            let strip = |number: u32| match field {
                0 | 1 => with(field, [number << 22, 10]),
                // There are 256 protocols. After them they come again, without the lowest destination ports.
                4 => put(with(4, [number % 256; 2]), 3, [number / 256, 65_535]),
                _ => with(field, [100 * number, 100 * number + 99]),
            };
            let rules: Vec<Rule> = (0..size).map(strip).collect();
            let case = format!("{size} strips of field {field}");
            if size > 512 {
                let answer = bench.build(&case, &rules.concat(), AMPLE)?;
                assert_eq!((answer.number, answer.place), (1, 0), "the oracle: {case}");
            } else {
                let policy = build_well(bench, &case, &rules)?;
                in_rooms(bench, &case, &rules, [policy.nodes.len(), policy.pool.len()])?;
            }
        }
    }
    Ok(())
}

/// The tree takes these words. It is built with just that room, and with one word less of either.
fn in_rooms(bench: &mut Bench, case: &str, rules: &[Rule], [nodes, pool]: [usize; 2]) -> Run {
    let words = rules.concat();
    let answer = bench.build(case, &words, [nodes, pool])?;
    assert_eq!(answer, Answer::completed(nodes as u64 / 3, pool as u64, 0), "the oracle: {case}");
    refused(case, bench.build(case, &words, [nodes - 1, pool]), [nodes, 0])?;
    if pool > 0 {
        let answer = bench.build(case, &words, [nodes, pool - 1])?;
        assert_eq!((answer.number, answer.extra), (4, 1), "the oracle: {case}");
    }
    Ok(())
}

/// The build is refused with 4, this place and this extra.
fn refused(case: &str, answer: Agreed, wanted: [usize; 2]) -> Run {
    let answer = answer?;
    let given = [answer.place as usize, answer.extra as usize];
    assert_eq!((answer.number, given), (4, wanted), "the oracle: {case}");
    Ok(())
}

/// Rules for every second of so many strips of sources; nine around one destination, one pair of ports and one
/// protocol, of which some hold the next value too, and which part each strip again and again; and some for the last
/// source and single ports.
pub fn many_nodes(strips: u32, ports: u32) -> Vec<Rule> {
    let mut rules: Vec<Rule> = (0..strips).map(|strip| with(0, [(2 * strip + 1) << 20, 12])).collect();
    rules.extend((0..9).map(|number| {
        let more = |bit: u32| number >> bit & 1;
        [0, 0, 76, 32 - more(3), 7, 7 + more(0), 7, 7 + more(1), 7, 7 + more(2), 0]
    }));
    rules.extend((0..ports).map(|port| [u32::MAX, 32, 0, 0, 2 * port + 1, 2 * port + 1, 0, 65_535, 0, 255, 0]));
    rules
}

/// So many ranges of ports, each inside the one before, and so many single ports after them.
pub fn many_entries(nested: u32, single: u32) -> Vec<Rule> {
    let mut rules: Vec<Rule> = (0..nested).map(|inner| with(2, [inner, 40_000 - inner])).collect();
    rules.extend((0..single).map(|port| with(2, [50_000 + 2 * port; 2])));
    rules
}

fn just_within(bench: &mut Bench) -> Run {
    for (strips, ports) in [(73, 38), (75, 19)] {
        let case = format!("{strips} strips around a point, {ports} ports");
        let rules = many_nodes(strips, ports);
        let policy = build_well(bench, &case, &rules)?;
        assert_eq!(policy.node_count(), MOST_NODES, "the oracle: {case}");
        in_rooms(bench, &case, &rules, [policy.nodes.len(), policy.pool.len()])?;
        past_nodes(bench, &case, &many_nodes(strips, ports + 1))?;
        past_nodes(bench, &case, &many_nodes(strips + 1, ports))?;
    }
    for single in [40, 42, 44] {
        let case = format!("64 nested ranges and {single} ports");
        let rules = many_entries(64, single);
        let policy = build_well(bench, &case, &rules)?;
        assert_eq!(policy.pool.len(), MOST_ENTRIES, "the oracle: {case}");
        in_rooms(bench, &case, &rules, [policy.nodes.len(), policy.pool.len()])?;
        past_pool(bench, &case, &many_entries(65, single))?;
    }
    Ok(())
}

/// However much room there is, the first node past the limit is told; with less room, the first that does not fit.
fn past_nodes(bench: &mut Bench, case: &str, rules: &[Rule]) -> Run {
    let words = rules.concat();
    for nodes in [LIMITS[0], LIMITS[0] + 1, LIMITS[0] + 2, LIMITS[0] + 3, AMPLE[0] + 40] {
        refused(case, bench.build(case, &words, [nodes, AMPLE[1]]), [LIMITS[0] + 3, 0])?;
    }
    for nodes in [0, 2, 3, 100, LIMITS[0] - 4, LIMITS[0] - 3, LIMITS[0] - 1] {
        refused(case, bench.build(case, &words, [nodes, AMPLE[1]]), [nodes / 3 * 3 + 3, 0])?;
    }
    for pool in [0, 1, 9, 100, 1_000] {
        bench.build(case, &words, [AMPLE[0], pool])?;
    }
    Ok(())
}

/// The same for the pool: the place is the entries up to and with the first leaf that does not fit.
fn past_pool(bench: &mut Bench, case: &str, rules: &[Rule]) -> Run {
    let words = rules.concat();
    let whole = bench.build(case, &words, AMPLE)?;
    assert_eq!((whole.number, whole.extra), (4, 1), "the oracle: {case}");
    assert!(whole.place as usize > LIMITS[1], "the oracle: {case}");
    for pool in [LIMITS[1], LIMITS[1] + 1, whole.place as usize, whole.place as usize + 40] {
        refused(case, bench.build(case, &words, [AMPLE[0], pool]), [whole.place as usize, 1])?;
    }
    for pool in [0, 1, 100, LIMITS[1] - 600, LIMITS[1] - 1] {
        let answer = bench.build(case, &words, [AMPLE[0], pool])?;
        assert_eq!((answer.number, answer.extra), (4, 1), "the oracle: {case}");
    }
    for nodes in [0, 3, 60, LIMITS[0]] {
        bench.build(case, &words, [nodes, AMPLE[1]])?;
    }
    Ok(())
}

fn far_past(bench: &mut Bench) -> Run {
    past_nodes(bench, "503 strips around a point", &many_nodes(503, 0))?;
    for count in [100, 256, 512] {
        past_pool(bench, &format!("{count} nested ranges of ports"), &many_entries(count, 0))?;
    }
    // A leaf is met by four sources and four destinations at most, so there would be 4,096 leaves.
    let grid: Vec<Rule> = (0..512).map(|rule| with(rule as usize / 256, [(rule % 256) << 24, 8])).collect();
    past_pool(bench, "256 sources, and 256 destinations", &grid)?;
    // Every rule in the way of every other, in all fields.
    let crossing: Vec<Rule> = (0..512)
        .map(|rule: u32| match rule % 5 {
            0 | 1 => with(rule as usize % 5, [rule.wrapping_mul(0x9E37_79B9) & 0xFFFF_FF00, 24]),
            4 => with(4, [rule % 251; 2]),
            field => with(field as usize, [127 * rule, 127 * rule + 60]),
        })
        .collect();
    past_pool(bench, "512 rules that cross each other", &crossing)
}

/// The stop at 63 cuts cannot be reached from nothing. A cut at the middle value leaves at most half of its field's
/// values on either side. 512 rules have at most 1,024 values of an address or a port, gone after 11 cuts, and 255 of
/// the protocol, gone after 8, so no more than 52 cuts stand above a leaf. Within the limits of nodes and entries there
/// are fewer still: `DEEPEST` has the most that a search by steps has found.
fn deep_trees(bench: &mut Bench) -> Run {
    let policy = build_well(bench, "the deepest that was found", &DEEPEST)?;
    let answer = bench.tree_check("the deepest that was found", &policy)?;
    assert_eq!(answer.a, 31, "the oracle: the deepest that was found");
    in_rooms(bench, "the deepest that was found", &DEEPEST, [policy.nodes.len(), policy.pool.len()])?;
    for rule in 0..DEEPEST.len() {
        let mut rules = DEEPEST.to_vec();
        rules[rule] = EVERYTHING;
        bench.build(&format!("the deepest that was found, rule {rule} made everything"), &rules.concat(), AMPLE)?;
        rules.remove(rule);
        bench.build(&format!("the deepest that was found, without rule {rule}"), &rules.concat(), AMPLE)?;
    }
    Ok(())
}
