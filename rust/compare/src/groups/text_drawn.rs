//! Damage to texts drawn at random: several damages at once, small numbers in the shape of files, and no shape at all.

use oracle::rule_file::{rule_line, Kind};
use oracle::rules::RULE_WORDS;

use crate::bench::{Bench, Run};
use crate::draws::Draws;
use crate::groups::drawn_damage::turn_words;
use crate::lists::{self, MANNERS};
use crate::text_damages::any_damage;
use crate::texts::{self, File, Text};

const PURPOSE: &str = "damage";

/// What a drawn text is put together from.
const TOKENS: [&str; 27] = [
    "rules", "acl", "rule", "tree", "cut", "leaf", "end", "\t", "\t", "\t", "\t", "\n", "\n", "0", "1", "2", "3", "10",
    "65535", "4294967296", "0.0.0.0/0", "10.0.0.0/8", ".", "/", " ", "\r", "\0",
];

pub fn run(bench: &mut Bench) -> Run {
    bench.group(PURPOSE, "texts with two to four damages", several_damages)?;
    bench.group(PURPOSE, "drawn small numbers in the shape of rules files", small_rules)?;
    bench.group(PURPOSE, "drawn small numbers in the shape of tree files", small_trees)?;
    bench.group(PURPOSE, "drawn words, numbers and bytes, alone and after good lines", drawn_tokens)?;
    bench.group(PURPOSE, "wholly drawn bytes", drawn_bytes)
}

fn several_damages(bench: &mut Bench) -> Run {
    for seed in 1_410_000..1_420_000 {
        let mut draws = Draws::seeded(seed);
        let mut damaged = any_damage(&texts::short(&mut draws), &mut draws);
        for _ in 0..=draws.below(3) {
            let next = any_damage(&damaged.text, &mut draws);
            damaged.kind = format!("{}; {}", damaged.kind, next.kind);
            damaged.text = next.text;
        }
        bench.read_in_rooms(&format!("seed {seed}, {}", damaged.kind), &damaged.text)?;
    }
    Ok(())
}

/// Few rules, now and then with words from the limits, and with counts and numbers that are mostly right.
fn small_rules(bench: &mut Bench) -> Run {
    for seed in 1_430_000..1_440_000 {
        let mut draws = Draws::seeded(seed);
        let size = draws.below(4);
        let manner = draws.pick(&MANNERS);
        let mut words = lists::good_list(&mut draws, size, manner).words();
        let rarity = draws.pick(&[10, 100, 1_000]);
        turn_words(&mut words, rarity, &mut draws);
        let kind = if draws.once_in(8) { Kind::Rules } else { texts::kind_of(&words) };
        let mut text = format!("{}\t{}\n", kind.word(), mostly(size, &mut draws));
        for (rule, words) in words.chunks_exact(RULE_WORDS).enumerate() {
            text += &(rule_line(kind, mostly(rule, &mut draws) as u32, words) + "\n");
        }
        text += &format!("end\t{}\n", mostly(size + 1, &mut draws));
        let text = Text { file: File::Rules, bytes: text.into_bytes(), needed: [RULE_WORDS * size, 0] };
        bench.read_in_rooms(&format!("seed {seed}, small rules file"), &text)?;
    }
    Ok(())
}

/// Few nodes whose numbers are all small, so that every test is passed now and then.
fn small_trees(bench: &mut Bench) -> Run {
    for seed in 1_450_000..1_462_000 {
        let mut draws = Draws::seeded(seed);
        let (rules, nodes) = (draws.below(4), 1 + draws.below(4));
        let mut lines = String::new();
        let mut pool = 0;
        for node in 0..nodes {
            let own = mostly(node, &mut draws);
            if draws.once_in(2) {
                let [field, right] = [4, draws.below(nodes)].map(|number| mostly(number, &mut draws));
                lines += &format!("cut\t{own}\t{field}\t{}\t{right}\n", draws.below(9));
            } else {
                let (count, entries) = small_leaf(rules, &mut draws);
                lines += &format!("leaf\t{own}\t{count}{}\n", entries.concat());
                pool += entries.len();
            }
        }
        let [a, b, c, end] = [rules, nodes, pool, nodes + 1].map(|number| mostly(number, &mut draws));
        let bytes = format!("tree\t{a}\t{b}\t{c}\n{lines}end\t{end}\n").into_bytes();
        let text = Text { file: File::Tree, bytes, needed: [3 * nodes, pool] };
        bench.read_in_rooms(&format!("seed {seed}, small tree file"), &text)?;
    }
    Ok(())
}

/// The count of a leaf and its entries as they stand in its line; both are mostly right.
fn small_leaf(rules: usize, draws: &mut Draws) -> (usize, Vec<String>) {
    let count = mostly(draws.below(rules + 1), draws);
    let entries = mostly(count, draws);
    let listed = (0..entries).map(|_| format!("\t{}", mostly(draws.below(rules.max(1)), draws))).collect();
    (count, listed)
}

/// The number, or now and then one beside it.
fn mostly(number: usize, draws: &mut Draws) -> usize {
    match draws.below(40) {
        0 => number + 1,
        1 => number.saturating_sub(1),
        _ => number,
    }
}

/// Drawn tokens, after none, some or all lines of a good text.
fn drawn_tokens(bench: &mut Bench) -> Run {
    for seed in 1_480_000..1_488_000 {
        let mut draws = Draws::seeded(seed);
        let text = texts::short(&mut draws);
        let lines = text.lines();
        let mut bytes = lines[..draws.below(lines.len() + 1)].concat();
        for _ in 0..draws.below(30) {
            bytes.extend(draws.pick(&TOKENS).as_bytes());
        }
        bench.read_in_rooms(&format!("seed {seed}, drawn tokens"), &text.with(bytes))?;
    }
    Ok(())
}

fn drawn_bytes(bench: &mut Bench) -> Run {
    for seed in 1_490_000..1_492_000 {
        let mut draws = Draws::seeded(seed);
        let most = draws.pick(&[4, 16, 64, 256]);
        let text = texts::short(&mut draws);
        let bytes = (0..draws.below(200)).map(|_| draws.below(most) as u8).collect();
        bench.read_in_rooms(&format!("seed {seed}, drawn bytes"), &text.with(bytes))?;
    }
    Ok(())
}
