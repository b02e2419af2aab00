//! Limits of trees: the largest sizes, and word counts on both sides of what is allowed.

use oracle::parts::Part;
use oracle::rules::RULE_WORDS;
use oracle::Answer;

use crate::bench::{Bench, Run};
use crate::draws::Draws;
use crate::groups::tree_chains::{chain, Way};
use crate::headers::{Header, LARGEST, WORKED};
use crate::lists::{self, Manner, Rule, EVERYTHING, WORKED_POLICY};
use crate::trees::{self, cut, leaf, Planted, Policy};

const PURPOSE: &str = "limits";

pub fn run(bench: &mut Bench) -> Run {
    bench.group(PURPOSE, "512 rules, 2,047 nodes and 4,096 pool words, and one more of each", largest_sizes)?;
    bench.group(PURPOSE, "node words 0 to 12 and 6,130 to 6,150, pools about 4,096", word_counts)?;
    bench.group(PURPOSE, "one leaf, with rules and without", one_leaf)
}

/// A rule for each 512th of the source addresses.
pub fn strips() -> Vec<Rule> {
    (0..512)
        .map(|strip| {
            let mut rule = EVERYTHING;
            rule[..2].copy_from_slice(&[strip << 23, 9]);
            rule
        })
        .collect()
}

/// A balanced tree over the strips: each of 1,024 leaves has half a strip, and lists its rule and three others.
fn strip_tree(low: u32, leaves: u32) -> Part {
    if leaves > 1 {
        let half = leaves / 2;
        let value = (low + half) * (1 << 22) - 1;
        return cut(0, value, strip_tree(low, half), strip_tree(low + half, half));
    }
    let rule = low / 2;
    let mut entries = [rule, (rule + 1) % 512, (rule + 7) % 512, (rule + 300) % 512];
    entries.sort_unstable();
    leaf(&entries)
}

/// 512 rules, 2,047 nodes and 4,096 pool words.
pub fn largest_tree() -> Planted {
    let planted = Planted::of(&strips(), strip_tree(0, 1_024));
    let Policy { rules, nodes, pool } = &planted.policy;
    assert_eq!((rules.len(), nodes.len(), pool.len()), (5_632, 6_141, 4_096));
    planted
}

fn largest_sizes(bench: &mut Bench) -> Run {
    let planted = largest_tree();
    let largest = &planted.policy;
    let answer = bench.tree_check("the largest sizes", largest)?;
    assert_eq!(answer, Answer::completed(10, 4, 0));
    let mut draws = Draws::seeded(540_000);
    for _ in 0..300 {
        let header = trees::header_for(&planted, &mut draws);
        let answer = bench.tree_searches("seed 540000, the largest sizes", largest, &header)?;
        assert_eq!((answer.number, answer.b, answer.c), (0, 11, 4));
    }
    one_more(bench, largest)?;
    each_dropped(bench, &planted, &mut draws)
}

/// One more rule, node or pool word, in every set of these. The searches do not mind.
fn one_more(bench: &mut Bench, largest: &Policy) -> Run {
    for set in 0..8 {
        for whole in [true, false] {
            let mut policy = largest.clone();
            if set & 1 > 0 {
                policy.rules.extend(&EVERYTHING[..if whole { RULE_WORDS } else { 1 }]);
            }
            if set & 2 > 0 {
                policy.nodes.extend(&[5, 4_096, 0][..if whole { 3 } else { 1 }]);
            }
            if set & 4 > 0 {
                policy.pool.push(0);
            }
            let case = format!("one more of the set {set}, whole: {whole}");
            bench.write_tree(&case, &policy)?;
            let answer = bench.tree_check(&case, &policy)?;
            let wanted = if set & 1 > 0 { 1 } else { 5 };
            assert!(set == 0 || answer.number == wanted, "the oracle: {case}");
            let answer = bench.tree_searches(&case, &policy, &WORKED)?;
            assert_eq!(answer.number, 0, "the oracle: {case}");
        }
    }
    Ok(())
}

/// In the largest tree, one leaf lacks its rule.
fn each_dropped(bench: &mut Bench, planted: &Planted, draws: &mut Draws) -> Run {
    let mut leaves = vec![0, 1, 2, 511, 512, 1_022, 1_023];
    leaves.extend((0..20).map(|_| draws.below(1_024)));
    for number in leaves {
        let placed = &planted.places.leaves[number];
        let rule = number as u32 / 2;
        let mut root = planted.root.clone();
        let others: Vec<u32> = placed.entries.iter().copied().filter(|&entry| entry != rule).collect();
        *trees::part_at(&mut root, placed.node) = leaf(&others);
        let case = format!("the largest sizes, leaf {number} without its rule");
        let answer = bench.tree_check(&case, &Policy::of(&planted.rules, &root))?;
        assert_eq!((answer.number, answer.place, answer.extra), (8, placed.node, u64::from(rule)));
    }
    Ok(())
}

/// Node words of each length are cut from, or go on after, trees that are right. Pools likewise.
fn word_counts(bench: &mut Bench) -> Run {
    let worked = trees::worked().policy;
    let largest = Policy::of(&strips(), &strip_tree(0, 1_024));
    for policy in [&worked, &largest] {
        for words in (0..=12).chain(6_130..=6_150).chain([7_000, 8_190, 8_192]) {
            let mut other = policy.clone();
            other.nodes = policy.nodes.iter().copied().chain([5, 0, 0].into_iter().cycle()).take(words).collect();
            check_and_search(bench, &format!("{words} node words"), &other)?;
            other.nodes = [5, 0, 0].into_iter().cycle().take(words).collect();
            check_and_search(bench, &format!("{words} words of empty leaves"), &other)?;
            other.nodes = vec![0; words];
            check_and_search(bench, &format!("{words} node words of 0"), &other)?;
        }
        for words in (0..=6).chain(4_090..=4_100).chain([5_000]) {
            let mut other = policy.clone();
            other.pool = policy.pool.iter().copied().chain(std::iter::repeat(1)).take(words).collect();
            check_and_search(bench, &format!("pool of {words}"), &other)?;
            other.nodes = vec![5, 0, words as u32];
            check_and_search(bench, &format!("pool of {words}, one leaf"), &other)?;
        }
    }
    let nothing = Policy { rules: Vec::new(), nodes: Vec::new(), pool: Vec::new() };
    for words in [0, 1, 2, 4, 6_141, 6_142, 6_144] {
        for pool in [0, 4_096, 4_097] {
            let policy = Policy { nodes: vec![5; words], pool: vec![0; pool], ..nothing.clone() };
            let answer = check_and_search(bench, &format!("{words} node words of 5, pool of {pool}"), &policy)?;
            assert_eq!(answer.number, if words == 6_141 && pool < 4_097 { 7 } else { 5 });
        }
    }
    Ok(())
}

/// Gives back the check's answer.
fn check_and_search(bench: &mut Bench, case: &str, policy: &Policy) -> Result<Answer, String> {
    for header in [WORKED, [0; 5], LARGEST] {
        bench.tree_first(case, policy, &header)?;
        bench.tree_all(case, policy, &header, 5)?;
    }
    bench.write_tree(case, policy)?;
    bench.tree_check(case, policy)
}

fn one_leaf(bench: &mut Bench) -> Run {
    let mut draws = Draws::seeded(550_000);
    for size in [0, 1, 2, 3, 20, 511, 512] {
        let rules = lists::good_list(&mut draws, size, Manner::Mixed).rules;
        let all: Vec<u32> = (0..size as u32).collect();
        let case = format!("seed 550000, one leaf for {size} rules");
        let policy = Policy::of(&rules, &leaf(&all));
        let answer = check_and_search(bench, &case, &policy)?;
        assert_eq!(answer, Answer::completed(0, size as u64, 0));
        for missing in [0, size / 2, size.saturating_sub(1)].into_iter().filter(|_| size > 0) {
            let mut entries = all.clone();
            entries.remove(missing);
            let answer = check_and_search(bench, &case, &Policy::of(&rules, &leaf(&entries)))?;
            assert_eq!((answer.number, answer.place, answer.extra), (8, 0, missing as u64));
        }
    }
    // Count 0 may stand at the pool's end, and not past it.
    for (start, pool) in [(0, 0), (0, 1), (1, 1), (1, 0), (2, 1), (u32::MAX, 0), (5, 4)] {
        let policy = Policy { rules: WORKED_POLICY.concat(), nodes: vec![5, start, 0], pool: vec![0; pool] };
        let answer = check_and_search(bench, &format!("count 0, start {start}, pool of {pool}"), &policy)?;
        assert_eq!(answer.number, if start == 0 && pool == 0 { 8 } else { 7 });
    }
    // Cuts for no rules, with leaves of count 0.
    let header: Header = [1, 2, 3, 4, 5];
    for cuts in [1, 2, 63] {
        let policy = Policy::of(&[], &chain(1, Way::Turning, cuts, &[]));
        let answer = bench.tree_check(&format!("{cuts} cuts and no rules"), &policy)?;
        assert_eq!(answer, Answer::completed(u64::from(cuts), 0, 0));
        bench.tree_searches(&format!("{cuts} cuts and no rules"), &policy, &header)?;
    }
    Ok(())
}
