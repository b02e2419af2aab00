//! Drawn policies, with trees that are good, wrong for their list or damaged, and head lines that are good or damaged.

use oracle::tree_file::tree_text;

use crate::bench::Run;
use crate::draws::Draws;
use crate::headers::{self, WORKED};
use crate::heads;
use crate::lists::{self, MANNERS};
use crate::process::Feed;
use crate::text_damages;
use crate::texts::{File, Text};
use crate::tree_damages;
use crate::trees::{self, Planted, Policy};
use crate::trials::{Stand, Trials};

/// The head lines of a run.
const LINES: usize = 50;

pub fn run(trials: &mut Trials) -> Run {
    trials.group("200 drawn policies with good and damaged trees", policies)?;
    trials.group("rules.txt with drawn damage", damaged_rules)?;
    trials.group("lists of 512 rules that all match", longest_replies)
}

fn policies(trials: &mut Trials) -> Run {
    for seed in 1_610_000..1_610_200 {
        let mut draws = Draws::seeded(seed);
        let planted = planted(&mut draws);
        let input = input(&planted, &mut draws);
        let rules = Text::of_rules(&planted.policy.rules).bytes;
        let tree = Text::of_tree(&planted.policy);
        let good = Stand::of(&*rules, &*tree.bytes);
        let answers = trials.compare(&format!("seed {seed}, good tree"), &good, &input, Feed::File)?;
        let (kind, damaged) = damaged(&planted, &tree, &mut draws);
        let stand = Stand::of(&*rules, damaged);
        let feed = draws.pick(&[Feed::File, Feed::Pieces(4_096)]);
        let wrote = trials.compare(&format!("seed {seed}, {kind}"), &stand, &input, feed)?;
        assert!(wrote.ends_with(&answers), "the answers are those of the written list, seed {seed}");
    }
    Ok(())
}

/// The tree's text with damage: to its words, which mostly leaves it well formed, or any; or to its bytes.
fn damaged(planted: &Planted, tree: &Text, draws: &mut Draws) -> (String, Vec<u8>) {
    let words = match draws.below(3) {
        0 => tree_damages::quiet_damage(planted, draws),
        1 => Some(tree_damages::any_damage(planted, draws)),
        _ => None,
    };
    // A tree that is not spelt has no text.
    let text = words.and_then(|damaged| {
        let Policy { nodes, pool, .. } = &damaged.policy;
        Some((damaged.kind, tree_text(planted.policy.rule_count(), nodes, pool).ok()?.into_bytes()))
    });
    text.unwrap_or_else(|| {
        let damaged = text_damages::any_damage(tree, draws);
        (damaged.kind, damaged.text.bytes)
    })
}

/// A list of up to 24 rules, now and then of up to 512, and a tree that is right for it.
fn planted(draws: &mut Draws) -> Planted {
    let most = if draws.once_in(12) { 512 } else { 24 };
    let size = draws.below(most + 1);
    let manner = draws.pick(&MANNERS);
    let list = lists::good_list(draws, size, manner);
    if draws.once_in(2) {
        trees::built(&list, 4, 20)
    } else {
        let cuts = draws.below(30) as u64;
        trees::grown(&list, cuts, draws)
    }
}

/// Head lines for this tree; one in eight is damaged, and one in eight inputs ends in a last part.
fn input(planted: &Planted, draws: &mut Draws) -> Vec<u8> {
    let mut input = Vec::new();
    for _ in 0..LINES {
        let line = heads::head(&trees::header_for(planted, draws)) + "\n";
        let mut text = Text { file: File::Rules, bytes: line.into_bytes(), needed: [0, 0] };
        if draws.once_in(8) {
            text = text_damages::any_damage(&text, draws).text;
        }
        input.extend(text.bytes);
    }
    if draws.once_in(8) {
        input.pop();
    }
    input
}

fn damaged_rules(trials: &mut Trials) -> Run {
    for seed in 1_620_000..1_620_060 {
        let mut draws = Draws::seeded(seed);
        let planted = planted(&mut draws);
        let input = input(&planted, &mut draws);
        let rules = text_damages::any_damage(&Text::of_rules(&planted.policy.rules), &mut draws).text.bytes;
        let stand = Stand::of(rules, Text::of_tree(&planted.policy).bytes);
        trials.compare(&format!("seed {seed}, damaged rules"), &stand, &input, Feed::File)?;
    }
    Ok(())
}

/// Replies as long as they can be, from the tree and from the list, more of them than any buffer holds.
fn longest_replies(trials: &mut Trials) -> Run {
    let planted = trees::grown_full(&lists::wide_rules(512), 7, &mut Draws::seeded(1_630_000));
    let mut draws = Draws::seeded(1_630_001);
    let mut head = || heads::head(&headers::with(trees::header_for(&planted, &mut draws), 2, WORKED[2])) + "\n";
    let input = (0..LINES).map(|_| head()).collect::<String>().repeat(4).into_bytes();
    let rules = Text::of_rules(&planted.policy.rules).bytes;
    for tree in [Text::of_tree(&planted.policy).bytes, Vec::new()] {
        for feed in [Feed::File, Feed::Pieces(1 << 16)] {
            let wrote = trials.compare("512 rules", &Stand::of(&*rules, &*tree), &input, feed)?;
            let hits = wrote.split(|&byte| byte == b'\n').filter(|line| line.starts_with(b"hit\t512\t")).count();
            assert_eq!(hits, 4 * LINES, "the oracle: every rule matches every header");
        }
    }
    Ok(())
}
