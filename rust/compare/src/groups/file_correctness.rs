//! Correctness of files: what is written reads back, with each number of digits and at each size.

use oracle::rule_file::Kind;
use oracle::rules::RULE_WORDS;
use oracle::Answer;

use crate::bench::{Bench, Run};
use crate::draws::Draws;
use crate::lists::{self, Manner, Rule, EVERYTHING, MANNERS};
use crate::texts::{self, kind_of, Text};
use crate::trees::{self, Policy};

const PURPOSE: &str = "correctness";

/// The sizes of drawn lists, about each number of digits.
const SIZES: [usize; 16] = [0, 1, 2, 3, 4, 5, 9, 10, 11, 40, 99, 100, 101, 250, 511, 512];
/// The numbers of nodes of drawn trees, about each number of digits.
const NODE_COUNTS: [usize; 14] = [1, 2, 3, 5, 9, 10, 11, 40, 99, 100, 101, 999, 1_000, 1_001];

pub fn run(bench: &mut Bench) -> Run {
    bench.group(PURPOSE, "the worked policy's two files", worked_policy)?;
    bench.group(PURPOSE, "drawn good lists of 0 to 512 rules, written and read back", drawn_lists)?;
    bench.group(PURPOSE, "trees built and grown for drawn lists, written and read back", drawn_trees)?;
    bench.group(PURPOSE, "trees that are spelt and no more, written and read back", spelt_trees)?;
    bench.group(PURPOSE, "numbers of each length, written and read back", digits)
}

fn worked_policy(bench: &mut Bench) -> Run {
    let policy = trees::worked().policy;
    round_rules(bench, "worked policy", &policy.rules)?;
    round_tree(bench, "worked policy", &policy)?;
    let [_, mut tree] = texts::worked();
    tree.bytes.pop();
    let answer = bench.read_in_rooms("worked policy, without the last newline", &tree)?;
    assert_eq!((answer.number, answer.place), (10, 6));
    Ok(())
}

fn drawn_lists(bench: &mut Bench) -> Run {
    let mut seed = 1_010_000;
    for _ in 0..4 {
        for size in SIZES {
            for manner in MANNERS {
                let list = lists::good_list(&mut Draws::seeded(seed), size, manner);
                round_rules(bench, &format!("seed {seed}, {manner:?} list of {size}"), &list.words())?;
                seed += 1;
            }
        }
    }
    Ok(())
}

fn drawn_trees(bench: &mut Bench) -> Run {
    let mut seed = 1_020_000;
    for cuts in [0, 1, 2, 4, 9, 30, 400] {
        for size in SIZES {
            let mut draws = Draws::seeded(seed);
            let manner = draws.pick(&MANNERS);
            let list = lists::good_list(&mut draws, size, manner);
            let case = format!("seed {seed}, {manner:?} list of {size}, {cuts} cuts");
            round_tree(bench, &case, &trees::grown(&list, cuts, &mut draws).policy)?;
            round_tree(bench, &case, &trees::built(&list, 1 + size / 16, cuts.min(63)).policy)?;
            seed += 1;
        }
    }
    Ok(())
}

fn spelt_trees(bench: &mut Bench) -> Run {
    let mut seed = 1_030_000;
    for rules in [0, 1, 2, 3, 10, 11, 100, 101, 512] {
        for nodes in NODE_COUNTS.into_iter().chain([2, 3, 4, 5, 2_047]) {
            let policy = trees::spelt(rules, nodes, &mut Draws::seeded(seed));
            round_tree(bench, &format!("seed {seed}, {nodes} nodes for {rules} rules"), &policy)?;
            seed += 1;
        }
    }
    Ok(())
}

/// Each number of digits, in octets, lengths, ports, protocols and cut values.
fn digits(bench: &mut Bench) -> Run {
    let mut draws = Draws::seeded(1_000_001);
    let powers = (0..10).map(|digits| 10_u32.pow(digits));
    let mut turning: Vec<u32> = powers.flat_map(|ten| [ten - 1, ten, ten + 1, 2 * ten, 2 * ten - 1]).collect();
    turning.extend([255, 249, 250, 65_535, u32::MAX - 1, u32::MAX, u32::MAX - 5, 4_000_000_000, 3_999_999_999]);
    let cuts: Vec<[u32; 3]> = turning.iter().map(|&value| [draws.below(5) as u32, value, 0]).collect();
    round_tree(bench, "seed 1000001, turning values", &Policy { rules: vec![], nodes: cuts.concat(), pool: vec![] })?;
    for &value in &turning {
        let low = [value % 65_536, value % 65_536, value % 256];
        let mut rule = EVERYTHING;
        for (field, low) in (2..5).zip(low) {
            rule[2 * field] = low;
        }
        round_rules(bench, &format!("low ends of {value}"), &rule)?;
        for (field, high) in (2..5).zip(low) {
            rule[2 * field + 1] = high;
        }
        round_rules(bench, &format!("both ends of {value}"), &rule)?;
    }
    for place in 0..4 {
        let rules: Vec<Rule> = (0..=255).map(|octet| with_octet(&mut draws, place, octet)).collect();
        round_rules(bench, &format!("seed 1000001, each octet at {place}"), &rules.concat())?;
    }
    for length in 0..=32 {
        let mut rule = EVERYTHING;
        for pair in rule[..4].chunks_exact_mut(2) {
            pair.copy_from_slice(&lists::prefix(draws.word(), length));
        }
        round_rules(bench, &format!("seed 1000001, length {length}"), &rule)?;
    }
    Ok(())
}

/// A rule whose addresses have this octet at this place.
fn with_octet(draws: &mut Draws, place: usize, octet: u8) -> Rule {
    let mut rule = lists::good_list(draws, 1, Manner::Scattered).rules[0];
    for pair in rule[..4].chunks_exact_mut(2) {
        let mut octets = draws.word().to_be_bytes();
        octets[place] = octet;
        pair.copy_from_slice(&[u32::from_be_bytes(octets), 32]);
    }
    rule
}

/// The list is written as each kind that can hold its actions, and each text is read back as the same words.
fn round_rules(bench: &mut Bench, case: &str, words: &[u32]) -> Run {
    bench.write_rules(case, words)?;
    let kinds = if kind_of(words) == Kind::Acl { &[Kind::Acl][..] } else { &[Kind::Rules, Kind::Acl] };
    for &kind in kinds {
        let text = Text::of_list(kind, words);
        let written = bench.list_write(case, kind, words, text.bytes.len())?;
        let counts = Answer::completed((words.len() / RULE_WORDS) as u64, u64::from(kind == Kind::Acl), 0);
        read_back(bench, case, &text, written, counts)?;
        let mut back = vec![0; words.len()];
        oracle::rules_read(&text.bytes, &mut back);
        assert_eq!(back, words, "the oracle: {case}");
    }
    Ok(())
}

/// The tree is written, and its text is read back as the same words.
fn round_tree(bench: &mut Bench, case: &str, policy: &Policy) -> Run {
    let Policy { nodes, pool, .. } = policy;
    let text = Text::of_tree(policy);
    let written = bench.write_tree(case, policy)?;
    let counts = Answer::completed(policy.rule_count(), policy.node_count() as u64, pool.len() as u64);
    read_back(bench, case, &text, written, counts)?;
    let (mut back_nodes, mut back_pool) = (vec![0; nodes.len()], vec![0; pool.len()]);
    oracle::tree_read(&text.bytes, &mut back_nodes, &mut back_pool);
    assert_eq!((&back_nodes, &back_pool), (nodes, pool), "the oracle: {case}");
    Ok(())
}

/// The writer gave the text's bytes; read with exact room, the text gives these counts.
fn read_back(bench: &mut Bench, case: &str, text: &Text, written: Answer, counts: Answer) -> Run {
    assert_eq!(written, Answer::completed(text.bytes.len() as u64, 0, 0), "the oracle: {case}");
    let read = bench.read(case, text, text.needed)?;
    assert_eq!(read, counts, "the oracle: {case}");
    bench.read_in_rooms(case, text)?;
    Ok(())
}
