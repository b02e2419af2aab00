//! Damage to trees drawn at random: flipped bits of good trees, and small words of no meaning.

use oracle::rules::RULE_WORDS;

use crate::bench::{Bench, Run};
use crate::draws::Draws;
use crate::groups::tree_damage::good_tree;
use crate::headers::{self, Header};
use crate::lists::{self, Rule, EVERYTHING};
use crate::trees::{self, Policy};

const PURPOSE: &str = "damage";

pub fn run(bench: &mut Bench) -> Run {
    bench.group(PURPOSE, "drawn bits flipped in good trees", flipped_trees)?;
    bench.group(PURPOSE, "drawn small words in the shape of trees", small_words)?;
    bench.group(PURPOSE, "wholly drawn node and pool words", drawn_words)
}

/// One to three bits are flipped, in the node words, the pool, now and then the rules.
fn flipped_trees(bench: &mut Bench) -> Run {
    for seed in 710_000..716_000 {
        let mut draws = Draws::seeded(seed);
        let planted = good_tree(&mut draws);
        let mut policy = planted.policy.clone();
        for _ in 0..=draws.below(3) {
            let words = match draws.below(8) {
                0 => &mut policy.rules,
                1 | 2 => &mut policy.pool,
                _ => &mut policy.nodes,
            };
            if !words.is_empty() {
                let word = draws.below(words.len());
                words[word] ^= flip(&mut draws);
            }
        }
        let case = format!("seed {seed}, flipped bits");
        bench.tree_check(&case, &policy)?;
        bench.write_tree(&case, &policy)?;
        let header = trees::header_for(&planted, &mut draws);
        bench.tree_searches(&case, &policy, &header)?;
        bench.tree_all(&case, &policy, &header, draws.below(4))?;
    }
    Ok(())
}

/// A word with one bit; low bits are as likely as all others together, since numbers of nodes and rules are small.
fn flip(draws: &mut Draws) -> u32 {
    let places = draws.pick(&[3, 6, 32]);
    2_u32.pow(draws.below(places) as u32)
}

/// Few nodes whose words are all small, so that every test is passed now and then. The leaves' starts are mostly those
/// that they must be.
fn small_words(bench: &mut Bench) -> Run {
    for seed in 730_000..750_000 {
        let mut draws = Draws::seeded(seed);
        let policy = small_policy(&mut draws);
        let header = small_header(&mut draws);
        let case = format!("seed {seed}, small words");
        bench.tree_check(&case, &policy)?;
        bench.write_tree(&case, &policy)?;
        bench.tree_first(&case, &policy, &header)?;
        bench.tree_all(&case, &policy, &header, draws.below(5))?;
    }
    Ok(())
}

pub fn small_policy(draws: &mut Draws) -> Policy {
    let rule_count = draws.below(4);
    let rules = lists::different(rule_count, || small_rule(draws));
    let node_count = draws.pick(&[1, 1, 2, 3, 3, 3, 4, 5, 5, 5, 7]);
    let mut nodes = Vec::new();
    let mut start = 0;
    for number in 0..node_count {
        // The last nodes are leaves more often.
        let is_cut = draws.below(node_count) > number + node_count / 4;
        if is_cut {
            let right = draws.between(0, node_count as u32);
            let right = draws.pick(&[right, number as u32 + 2, number as u32 + 4, node_count as u32 - 1]);
            nodes.extend([draws.pick(&[0, 1, 2, 3, 4, 4, 4]), draws.between(0, 5), right]);
        } else {
            let count = draws.below(rule_count + 1) as u32;
            let count = draws.pick(&[count, rule_count as u32]);
            let wrong = draws.between(0, 3);
            nodes.extend([5, if draws.once_in(12) { wrong } else { start }, count]);
            start += count;
        }
        if draws.once_in(60) {
            let word = draws.below(nodes.len());
            nodes[word] = draws.pick(&[0, 1, 2, 3, 4, 5, 6, u32::MAX]);
        }
    }
    let length = if draws.once_in(12) { draws.below(9) } else { start as usize };
    let mut pool: Vec<u32> = (0..length).map(|_| draws.below(rule_count + 1) as u32).collect();
    if rule_count > 0 && !draws.once_in(3) {
        // Leaves of every rule, one after the other, rise where they are aligned.
        pool = (0..length).map(|index| (index % rule_count) as u32).collect();
    }
    Policy { rules: rules.concat(), nodes, pool }
}

/// A good rule that ends at small values, or everything.
fn small_rule(draws: &mut Draws) -> Rule {
    let mut rule = EVERYTHING;
    if draws.once_in(2) {
        return rule;
    }
    for field in 2..5 {
        let low = draws.between(0, 5);
        if draws.once_in(2) {
            rule[2 * field..2 * field + 2].copy_from_slice(&[low, low + draws.between(0, 3)]);
        }
    }
    if draws.once_in(3) {
        rule[..2].copy_from_slice(&[4 * draws.between(0, 1), 30]);
    }
    rule
}

fn small_header(draws: &mut Draws) -> Header {
    let header = headers::anywhere(draws);
    header.map(|value| if draws.once_in(8) { value } else { draws.between(0, 7) })
}

/// Words and lengths without any rule.
fn drawn_words(bench: &mut Bench) -> Run {
    for seed in 760_000..764_000 {
        let mut draws = Draws::seeded(seed);
        let rules = RULE_WORDS * draws.below(4) + if draws.once_in(8) { draws.below(RULE_WORDS) } else { 0 };
        let nodes = if draws.once_in(4) { draws.below(40) } else { 3 * draws.below(12) };
        let width = draws.pick(&[0, 24, 28, 29]);
        let policy = Policy {
            rules: any_words(&mut draws, rules, 0),
            nodes: any_words(&mut draws, nodes, width),
            pool: (0..draws.below(20)).map(|_| draws.word() >> draws.pick(&[0, 29, 30, 31])).collect(),
        };
        let header = small_header(&mut draws);
        let case = format!("seed {seed}, drawn words");
        bench.tree_check(&case, &policy)?;
        bench.write_tree(&case, &policy)?;
        bench.tree_searches(&case, &policy, &header)?;
        let good_rules = Policy { rules: lists::wide_rules(draws.below(5)).concat(), ..policy };
        let case = format!("seed {seed}, drawn words of a tree, good rules");
        bench.tree_check(&case, &good_rules)?;
        bench.write_tree(&case, &good_rules)?;
        bench.tree_searches(&case, &good_rules, &header)?;
    }
    Ok(())
}

/// So many words, of which the highest bits are 0.
fn any_words(draws: &mut Draws, count: usize, width: u32) -> Vec<u32> {
    (0..count).map(|_| draws.word() >> width).collect()
}
