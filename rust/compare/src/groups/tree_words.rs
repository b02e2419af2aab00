//! Tree search on words that no check accepts: it takes any, and its walk still ends.

use oracle::rules::RULE_WORDS;
use oracle::Answer;

use crate::bench::{Bench, Run};
use crate::damages;
use crate::draws::Draws;
use crate::groups::tree_damage::good_tree;
use crate::headers::{Header, LARGEST, WORKED};
use crate::lists::{self, Manner, EVERYTHING, LARGEST_END};
use crate::trees::{self, Policy};

const PURPOSE: &str = "damage";

pub fn run(bench: &mut Bench) -> Run {
    bench.group(PURPOSE, "tree search: nodes that are not wholly there", short_nodes)?;
    bench.group(PURPOSE, "tree search: right children not above their cut, at every cut of a walk", right_children)?;
    bench.group(PURPOSE, "tree search: entries that fall and repeat", free_entries)?;
    bench.group(PURPOSE, "tree search: rules that are not good or not wholly lent", free_rules)?;
    bench.group(PURPOSE, "tree search: header lengths 0 to 12, too large ports and protocols", bad_headers)?;
    bench.group(PURPOSE, "tree search: slices longer than the limits", long_slices)
}

/// The tree's words end after each number of words, so that some walks come to a node that is not there.
fn short_nodes(bench: &mut Bench) -> Run {
    for seed in 810_000..810_060 {
        let mut draws = Draws::seeded(seed);
        let planted = good_tree(&mut draws);
        let all = planted.policy.nodes.len();
        for words in (0..all.min(30)).chain(all.saturating_sub(8)..all) {
            let mut policy = planted.policy.clone();
            policy.nodes.truncate(words);
            let case = format!("seed {seed}, {words} node words");
            for _ in 0..3 {
                let header = trees::header_for(&planted, &mut draws);
                bench.tree_searches(&case, &policy, &header)?;
            }
        }
    }
    // Children that are far away are named by their own number.
    for right in [2, 3, 255, 256, 65_535, 65_536, 0x5555_5555, 0x5555_5556, 0xAAAA_AAAB, u32::MAX - 1, u32::MAX] {
        let policy = Policy { rules: EVERYTHING.to_vec(), nodes: vec![1, 7, right, 5, 0, 1], pool: vec![0] };
        let answer = bench.tree_searches(&format!("right child {right}, taken"), &policy, &[0, 8, 0, 0, 0])?;
        assert_eq!((answer.number, answer.place), (6, u64::from(right)));
        let answer = bench.tree_searches(&format!("right child {right}, not taken"), &policy, &[0, 7, 0, 0, 0])?;
        assert_eq!(answer, Answer::completed(1, 2, 1));
    }
    Ok(())
}

/// On the walk of a header, each cut in turn gets each right child up to the one after it.
fn right_children(bench: &mut Bench) -> Run {
    for seed in 820_000..820_150 {
        let mut draws = Draws::seeded(seed);
        let planted = good_tree(&mut draws);
        let header = trees::header_for(&planted, &mut draws);
        for node in cuts_of_walk(&planted.policy, &header) {
            let own = node as u32;
            for right in [0, 1, own.saturating_sub(1), own, own + 1, own + 2, planted.policy.node_count() as u32] {
                let mut policy = planted.policy.clone();
                policy.nodes[3 * node + 2] = right;
                let case = format!("seed {seed}, cut {node} with right child {right}");
                let answer = bench.tree_searches(&case, &policy, &header)?;
                if right <= own {
                    assert_eq!((answer.number, answer.place), (6, u64::from(own)), "the oracle: {case}");
                }
            }
        }
    }
    Ok(())
}

/// The cuts that the header comes to in a good tree.
fn cuts_of_walk(policy: &Policy, header: &Header) -> Vec<usize> {
    let mut cuts = Vec::new();
    let mut node = 0;
    while policy.nodes[3 * node] < 5 {
        cuts.push(node);
        let three = &policy.nodes[3 * node..3 * node + 3];
        node = if header[three[0] as usize] <= three[1] { node + 1 } else { three[2] as usize };
    }
    cuts
}

/// Leaves anywhere in the pool, with entries in any order. A matching number is written each time it stands there.
fn free_entries(bench: &mut Bench) -> Run {
    for seed in 830_000..833_000 {
        let mut draws = Draws::seeded(seed);
        let size = 1 + draws.below(6);
        let list = lists::good_list(&mut draws, size, Manner::Mixed);
        let length = draws.below(20);
        let pool: Vec<u32> = (0..length).map(|_| draws.below(size) as u32).collect();
        let mut leaf = || {
            let start = draws.below(length + 1) as u32;
            let past = u32::from(draws.once_in(10));
            [5, start, draws.between(0, length as u32 - start) + past]
        };
        let nodes = [[4, 99, 3], leaf(), leaf(), leaf()].concat();
        let policy = Policy { rules: list.words(), nodes, pool };
        let mut header = draws.pick(&list.points);
        header[4] = draws.pick(&[header[4], 99, 100]);
        let case = format!("seed {seed}, entries in any order");
        let count = bench.tree_searches(&case, &policy, &header)?.a as usize;
        for room in [0, count.saturating_sub(1), count] {
            bench.tree_all(&case, &policy, &header, room)?;
        }
    }
    Ok(())
}

/// Rule words are drawn or damaged, and end within a rule. Only entries that name a rule wholly lent are right.
fn free_rules(bench: &mut Bench) -> Run {
    for seed in 840_000..843_000 {
        let mut draws = Draws::seeded(seed);
        let size = 1 + draws.below(5);
        let list = lists::good_list(&mut draws, size, Manner::Nested);
        let mut rules = list.words();
        let rarity = draws.pick(&[1, 6, 20]);
        for word in &mut rules {
            if draws.once_in(rarity) {
                let drawn = draws.word();
                *word = draws.pick(&[0, 1, 32, 33, 64, 255, 256, 65_535, 65_536, 1 << 31, u32::MAX, drawn, *word ^ 1]);
            }
        }
        if draws.once_in(2) {
            rules.truncate(rules.len() - draws.below(RULE_WORDS));
        }
        let count = draws.below(size + 2);
        let pool: Vec<u32> = (0..count).map(|_| draws.below(size) as u32).collect();
        let policy = Policy { rules, nodes: vec![5, 0, count as u32], pool };
        let header = draws.pick(&[list.points[0], WORKED, LARGEST, LARGEST_END, [0; 5]]);
        bench.tree_searches(&format!("seed {seed}, rules of any words"), &policy, &header)?;
    }
    worked_rules(bench)?;
    // Each number of words less than two rules: an entry that names the second is wrong.
    for words in 0..=2 * RULE_WORDS {
        for pool in [&[0][..], &[1], &[0, 1], &[1, 0]] {
            let rules = EVERYTHING.repeat(2)[..words].to_vec();
            let policy = Policy { rules, nodes: vec![5, 0, pool.len() as u32], pool: pool.to_vec() };
            let answer = bench.tree_searches(&format!("{words} rule words, entries {pool:?}"), &policy, &WORKED)?;
            let lent = pool.iter().all(|&entry| RULE_WORDS * (entry as usize + 1) <= words);
            assert_eq!(answer.number, if lent { 0 } else { 7 });
        }
    }
    Ok(())
}

/// A rule of the worked policy is made one that is not good, at the match, before it and after it.
fn worked_rules(bench: &mut Bench) -> Run {
    let worked = trees::worked().policy;
    for (rule, word) in [(0, 1), (1, 1), (2, 1), (0, 9), (1, 6), (2, 0)] {
        let mut policy = worked.clone();
        policy.rules[RULE_WORDS * rule + word] = u32::MAX;
        let case = format!("worked policy, word {word} of rule {rule} made the largest");
        bench.tree_first(&case, &policy, &WORKED)?;
        for room in 0..4 {
            bench.tree_all(&case, &policy, &WORKED, room)?;
        }
    }
    Ok(())
}

/// Headers of any length, and with each set of fields too large, before trees that are right and trees that are not.
fn bad_headers(bench: &mut Bench) -> Run {
    let worked = trees::worked().policy;
    let nothing = Policy { rules: Vec::new(), nodes: Vec::new(), pool: Vec::new() };
    for policy in [&worked, &nothing] {
        for length in 0..=12 {
            let header: Vec<u32> = WORKED.into_iter().cycle().take(length).collect();
            let answer = bench.tree_searches(&format!("header of {length} words"), policy, &header)?;
            assert!(length == 5 || (answer.number, answer.place) == (3, 5));
        }
        for fields in 1..8 {
            for choice in 0..5 {
                let header = damages::with_bad_fields(&WORKED, fields, choice);
                let case = format!("set {fields} of bad fields, choice {choice}");
                let answer = bench.tree_searches(&case, policy, &header)?;
                assert_eq!((answer.number, answer.place), (3, 2 + u64::from(fields.trailing_zeros())));
            }
        }
    }
    Ok(())
}

/// More rules, nodes and pool words than any tree has, and numbers past the limits written.
fn long_slices(bench: &mut Bench) -> Run {
    let mut draws = Draws::seeded(850_000);
    // 600 rules and one leaf of 4,500 entries that all match.
    let pool: Vec<u32> = (0..4_500).map(|_| draws.below(600) as u32).collect();
    let long = Policy { rules: EVERYTHING.repeat(600), nodes: vec![5, 0, 4_500], pool };
    for room in [0, 5, 4_499, 4_500, 4_501, 4_600] {
        let answer = bench.tree_all("seed 850000, one leaf of 4,500", &long, &WORKED, room)?;
        assert_eq!(answer.number, if room < 4_500 { 4 } else { 0 });
    }
    let answer = bench.tree_first("seed 850000, one leaf of 4,500", &long, &WORKED)?;
    assert_eq!((answer.b, answer.c), (1, 1));
    let mut none = long.clone();
    none.rules = [0, 0, 0, 0, 0, 0, 0, 0, 7, 7, 0].repeat(600);
    let answer = bench.tree_first("seed 850000, one leaf of 4,500 without a match", &none, &WORKED)?;
    assert_eq!(answer, Answer::completed(0, 1, 4_500));
    bench.tree_check("seed 850000, one leaf of 4,500", &long)?;
    // A walk through 2,400 nodes, left and right, to rule 599.
    for right in [false, true] {
        let mut nodes = Vec::new();
        for node in 0..2_399 {
            nodes.extend([0, if right { 0 } else { u32::MAX }, node + 1 + u32::from(!right)]);
        }
        nodes.extend([5, 4_400, 3]);
        let mut policy = Policy { nodes, ..long.clone() };
        policy.pool[4_400..4_403].copy_from_slice(&[599, 599, 0]);
        let case = format!("seed 850000, a walk through 2,400 nodes, right: {right}");
        let answer = bench.tree_all(&case, &policy, &WORKED, 10)?;
        assert_eq!(answer, Answer::completed(3, 2_400, 3));
        assert_eq!(bench.tree_first(&case, &policy, &WORKED)?, Answer::completed(600, 2_400, 1));
        policy.pool[4_402] = 600;
        let answer = bench.tree_all(&case, &policy, &WORKED, 2)?;
        assert_eq!((answer.number, answer.place), (7, 2_399));
        bench.tree_first(&case, &policy, &WORKED)?;
        policy.nodes.truncate(3 * 2_399 + 2);
        let answer = bench.tree_searches(&case, &Policy { pool: vec![0], ..policy }, &WORKED)?;
        assert_eq!((answer.number, answer.place), (6, 2_399));
    }
    Ok(())
}
