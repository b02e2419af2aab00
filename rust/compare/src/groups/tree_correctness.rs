//! Correctness of trees: good ones are accepted with their figures, and searched as the list is searched.

use oracle::rules::RULE_WORDS;
use oracle::Answer;

use crate::bench::{Bench, Run};
use crate::draws::Draws;
use crate::headers::{Header, WORKED};
use crate::lists::{self, MANNERS};
use crate::trees::{self, cut, leaf, Planted, Policy};

const PURPOSE: &str = "correctness";

/// The sizes of drawn lists. For each of them a list is drawn in every manner.
const SIZES: [usize; 14] = [0, 1, 2, 3, 4, 5, 7, 10, 16, 25, 40, 100, 250, 512];

pub fn run(bench: &mut Bench) -> Run {
    bench.group(PURPOSE, "the worked policy's tree, its rows and its corners", worked_policy)?;
    bench.group(PURPOSE, "trees built for drawn lists, headers at corners of rules and cuts", built_trees)?;
    bench.group(PURPOSE, "trees grown at random for drawn lists, with extra entries", grown_trees)?;
    bench.group(PURPOSE, "tree search with every room from none to two more than the matches", every_room)
}

fn worked_policy(bench: &mut Bench) -> Run {
    const DESTINATION: u32 = 0xC0A8_0001;
    // Source, destination port and protocol; matches, nodes visited, entries compared; first rule, and after how many.
    let rows = [
        (0x0A01_0203, 80, 6, 3, 3, 3, 0, 1),
        (0x0A02_0001, 80, 6, 2, 3, 3, 0, 1),
        (0x0A01_0203, 443, 6, 2, 3, 3, 1, 2),
        (0x0A01_0203, 80, 17, 1, 3, 3, 2, 3),
        (0x09FF_FFFF, 80, 6, 1, 2, 1, 2, 1),
        (0x0AFF_FFFF, 80, 6, 2, 3, 3, 0, 1),
        (0x0B00_0000, 80, 6, 1, 3, 1, 2, 1),
    ];
    let worked = trees::worked();
    for (source, destination_port, protocol, matching, visited, compared, first, after) in rows {
        let header = [source, DESTINATION, 40_000, destination_port, protocol];
        let all = bench.tree_all("worked policy", &worked.policy, &header, 3)?;
        assert_eq!(all, Answer::completed(matching, visited, compared));
        let one = bench.tree_first("worked policy", &worked.policy, &header)?;
        assert_eq!(one, Answer::completed(first + 1, visited, after));
    }
    let answer = bench.tree_check("worked policy", &worked.policy)?;
    assert_eq!(answer, Answer::completed(2, 3, 0));
    worked_refusals(bench, &worked)?;
    for seed in 500_000..500_100 {
        search_as_list(bench, "worked policy", &worked, &mut Draws::seeded(seed))?;
    }
    Ok(())
}

/// The rows that are refused, and the tree for no rules.
fn worked_refusals(bench: &mut Bench, worked: &Planted) -> Run {
    let inner = cut(0, 184_549_375, leaf(&[0, 2]), leaf(&[2]));
    let lacking = Policy::of(&worked.rules, &cut(0, 167_772_159, leaf(&[2]), inner));
    let answer = bench.tree_check("worked policy, entry 1 taken from node 3", &lacking)?;
    assert_eq!((answer.number, answer.place, answer.extra), (8, 3, 1));

    let mut same_value = worked.policy.clone();
    same_value.nodes[3 * 2 + 1] = 167_772_159;
    let answer = bench.tree_check("worked policy, node 2's value made 167772159", &same_value)?;
    assert_eq!((answer.number, answer.place), (6, 2));

    let nothing = Policy::of(&[], &leaf(&[]));
    let answer = bench.tree_check("no rules, one leaf of count 0", &nothing)?;
    assert_eq!(answer, Answer::completed(0, 0, 0));
    bench.tree_searches("no rules, one leaf of count 0", &nothing, &WORKED)?;

    let answer = bench.tree_all("worked policy, room for 2", &worked.policy, &WORKED, 2)?;
    assert_eq!((answer.number, answer.place), (4, 3));
    let mut protocol_256 = WORKED;
    protocol_256[4] = 256;
    let answer = bench.tree_searches("worked policy, protocol 256", &worked.policy, &protocol_256)?;
    assert_eq!((answer.number, answer.place), (3, 4));
    Ok(())
}

fn built_trees(bench: &mut Bench) -> Run {
    let mut seed = 510_000;
    for (leaf, cuts) in [(1, 63), (1, 5), (2, 8), (4, 63), (16, 3)] {
        for size in SIZES {
            for manner in MANNERS {
                let mut draws = Draws::seeded(seed);
                let list = lists::good_list(&mut draws, size, manner);
                let planted = trees::built(&list, leaf, cuts);
                let case = format!("seed {seed}, {manner:?} list of {size}, built with leaves of {leaf}");
                search_planted(bench, &case, &planted, 24, &mut draws)?;
                seed += 1;
            }
        }
    }
    Ok(())
}

fn grown_trees(bench: &mut Bench) -> Run {
    let mut seed = 520_000;
    for cuts in [0, 1, 2, 3, 5, 8, 20, 70, 400] {
        for size in SIZES {
            for manner in MANNERS {
                let mut draws = Draws::seeded(seed);
                let list = lists::good_list(&mut draws, size, manner);
                let planted = trees::grown(&list, cuts, &mut draws);
                let case = format!("seed {seed}, {manner:?} list of {size}, grown with {cuts} cuts");
                search_planted(bench, &case, &planted, 20, &mut draws)?;
                seed += 1;
            }
        }
    }
    Ok(())
}

/// The tree is accepted, its figures are those of its parts, and so many headers get the list's answers.
fn search_planted(bench: &mut Bench, case: &str, planted: &Planted, headers: usize, draws: &mut Draws) -> Run {
    let answer = bench.tree_check(case, &planted.policy)?;
    let figures = Answer::completed(planted.places.most_cuts(), planted.places.longest_leaf(), 0);
    assert_eq!(answer, figures, "the oracle: {case}");
    for _ in 0..headers {
        search_as_list(bench, case, planted, draws)?;
    }
    Ok(())
}

/// Both tree searches for one header give what the line searches give, and no more nodes and entries than the figures.
fn search_as_list(bench: &mut Bench, case: &str, planted: &Planted, draws: &mut Draws) -> Run {
    let header = trees::header_for(planted, draws);
    let Policy { rules, nodes, pool } = &planted.policy;
    let mut by_line = vec![u32::MAX; rules.len() / RULE_WORDS];
    let mut by_tree = by_line.clone();
    let line = oracle::line_all(rules, &header, &mut by_line);
    let tree = oracle::tree_all(rules, nodes, pool, &header, &mut by_tree);
    assert_eq!((line.number, line.a, by_line), (tree.number, tree.a, by_tree), "the oracle: {case}");

    let first = bench.tree_first(case, &planted.policy, &header)?;
    let by_list = oracle::line_first(rules, &header);
    assert_eq!((first.a, first.d), (by_list.a, by_list.d), "the oracle: {case}");
    let room = line.a as usize + draws.below(3);
    let all = bench.tree_all(case, &planted.policy, &header, room)?;
    assert!(all.b <= planted.places.most_cuts() + 1 && all.c <= planted.places.longest_leaf(), "the oracle: {case}");
    if line.a > 0 {
        bench.tree_all(case, &planted.policy, &header, draws.below(line.a as usize))?;
    }
    Ok(())
}

fn every_room(bench: &mut Bench) -> Run {
    let worked = trees::worked();
    each_room(bench, "worked policy", &worked.policy, &WORKED)?;
    for size in [1, 2, 17, 511, 512] {
        let planted = trees::grown_full(&lists::wide_rules(size), 3, &mut Draws::seeded(530_000));
        each_room(bench, &format!("seed 530000, {size} wide rules"), &planted.policy, &WORKED)?;
    }
    let mut seed = 530_001;
    for size in [1, 2, 3, 5, 8, 13, 20, 34, 55, 80] {
        for manner in MANNERS {
            let mut draws = Draws::seeded(seed);
            let list = lists::good_list(&mut draws, size, manner);
            let planted = trees::grown(&list, 6, &mut draws);
            let case = format!("seed {seed}, {manner:?} list of {size}");
            for header in [draws.pick(&list.points), trees::header_for(&planted, &mut draws)] {
                each_room(bench, &case, &planted.policy, &header)?;
            }
            seed += 1;
        }
    }
    Ok(())
}

/// Too short a room names the whole number of matches, however short it is.
fn each_room(bench: &mut Bench, case: &str, policy: &Policy, header: &Header) -> Run {
    let count = bench.tree_searches(case, policy, header)?.a;
    for room in 0..=count + 2 {
        let answer = bench.tree_all(case, policy, header, room as usize)?;
        if room < count {
            assert_eq!((answer.number, answer.place), (4, count));
        } else {
            assert_eq!((answer.number, answer.a), (0, count));
        }
    }
    for room in [513, 600, 1_024] {
        bench.tree_all(case, policy, header, room)?;
    }
    Ok(())
}
