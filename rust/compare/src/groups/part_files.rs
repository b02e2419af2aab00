//! Part files: written and read back, with every damage, and that each reader takes its own file only.

use oracle::Answer;

use crate::bench::{Bench, Run};
use crate::draws::Draws;
use crate::groups::text_cases::{each_case, TREE_CASES};
use crate::stops::small_trees;
use crate::text_damages::{self, DamagedText};
use crate::texts::{File, Text};
use crate::trees::{self, Policy};

pub fn run(bench: &mut Bench) -> Run {
    bench.group(
        "correctness",
        "part files: every stop of small trees, written, read back and gone on with",
        round_trips,
    )?;
    bench.group("correctness", "part files: words that are spelt and no more, written and read back", spelt_words)?;
    bench.group("limits", "part files: every room of the writer and of the reader", rooms)?;
    bench.group("limits", "part files: first lines about every limit, and the largest files", largest_files)?;
    bench.group("limits", "part writer: rule counts about 512, 2^32 and 2^64", told_counts)?;
    bench.group("damage", "part files: cut at each byte", cut_texts)?;
    bench.group("damage", "part files: `tree` for `part`, and `part` for `tree`", first_words)?;
    bench.group(
        "damage",
        "part files: each byte, number, word and line damaged, and anything after the end",
        damages,
    )?;
    bench.group("damage", "part files: chosen lines", |bench| each_case(bench, File::Part, &TREE_CASES))?;
    bench.group("damage", "part files: two to four damages", several_damages)
}

/// So many stops of small trees, each with its name.
fn stops(first_seed: u64, count: usize) -> Vec<(String, Policy)> {
    let mut draws = Draws::seeded(first_seed);
    let small = small_trees(first_seed, count, 13).into_iter();
    small
        .map(|(case, tree)| {
            let stands = 1 + draws.below(tree.node_count());
            (format!("{case}, {stands} nodes"), tree.stop_after(stands))
        })
        .collect()
}

/// What is written reads back as the same words.
fn round_trip(bench: &mut Bench, case: &str, part: &Policy) -> Run {
    let text = Text::of_part(part);
    let written = bench.write_part(case, part)?;
    assert_eq!(written, Answer::completed(text.bytes.len() as u64, 0, 0), "the oracle: {case}");
    let counts = Answer::completed(part.rule_count(), part.node_count() as u64, part.pool.len() as u64);
    assert_eq!(bench.read(case, &text, text.needed)?, counts, "the oracle: {case}");
    bench.read_in_rooms(case, &text)?;
    let [mut nodes, mut pool] = text.needed.map(|words| vec![0; words]);
    oracle::part_read(&text.bytes, &mut nodes, &mut pool);
    assert_eq!((&nodes, &pool), (&part.nodes, &part.pool), "the oracle: {case}");
    Ok(())
}

fn round_trips(bench: &mut Bench) -> Run {
    for (case, tree) in small_trees(2_510_000, 60, 41) {
        for stands in 1..=tree.node_count() {
            let case = format!("{case}, {stands} nodes");
            let part = tree.stop_after(stands);
            round_trip(bench, &case, &part)?;
            let (answer, whole) = bench.build_on(&case, &part, u64::MAX, [tree.nodes.len(), tree.pool.len()])?;
            assert_eq!((answer.number, answer.c, &whole), (0, 1, &tree), "the oracle: {case}");
        }
    }
    Ok(())
}

fn spelt_words(bench: &mut Bench) -> Run {
    let mut seed = 2_520_000;
    for rules in [0, 1, 2, 3, 10, 11, 100, 101, 512] {
        for nodes in [1, 2, 3, 5, 9, 10, 11, 99, 100, 101, 999, 1_000, 2_047] {
            let part = trees::spelt(rules, nodes, &mut Draws::seeded(seed));
            round_trip(bench, &format!("seed {seed}, {nodes} nodes for {rules} rules"), &part)?;
            seed += 1;
        }
    }
    Ok(())
}

fn rooms(bench: &mut Bench) -> Run {
    for (case, part) in stops(2_530_000, 14) {
        let text = Text::of_part(&part);
        let bytes = text.bytes.len();
        for room in (0..=bytes + 3).chain([bytes + 300]) {
            let answer = bench.part_write(&case, part.rule_count(), &part, room)?;
            let wanted = if room < bytes { (4, bytes, 0) } else { (0, 0, bytes) };
            assert_eq!((answer.number, answer.place as usize, answer.a as usize), wanted, "the oracle: {case}");
        }
        let [nodes, pool] = text.needed;
        for room in (0..=nodes + 3).chain([nodes + 100]) {
            for pool_room in [0, pool / 2, pool.saturating_sub(1), pool, pool + 1, pool + 50] {
                let answer = bench.read(&case, &text, [room, pool_room])?;
                let wanted = match () {
                    _ if room < nodes => (4, nodes, 0),
                    _ if pool_room < pool => (4, pool, 1),
                    _ => (0, 0, 0),
                };
                assert_eq!((answer.number, answer.place as usize, answer.extra), wanted, "the oracle: {case}");
            }
        }
    }
    Ok(())
}

fn largest_files(bench: &mut Bench) -> Run {
    let good = Text::of_part(&trees::worked().policy);
    let counts = [0_u64, 1, 511, 512, 513, 2_046, 2_047, 2_048, 4_095, 4_096, 4_097, 0xFFFF_FFFF, 1 << 32];
    for a in counts {
        for b in counts {
            for c in counts {
                let line = format!("part\t{a}\t{b}\t{c}\n");
                let answer = bench.read_in_rooms("a first line alone", &good.with(line.clone().into_bytes()))?;
                let is_right = a <= 512 && (1..=2_047).contains(&b) && c <= 4_096;
                let wanted = if is_right { (10, 1) } else { (9, 1) };
                assert_eq!((answer.number, answer.place), wanted, "the oracle: {line}");
            }
        }
    }
    let longest = trees::longest();
    round_trip(bench, "the longest part file", &longest)?;
    let text = Text::of_part(&longest);
    let mut draws = Draws::seeded(2_540_000);
    for _ in 0..40 {
        let damaged = text_damages::any_damage(&text, &mut draws);
        bench.read_in_rooms(&format!("seed 2540000, the longest part file, {}", damaged.kind), &damaged.text)?;
    }
    Ok(())
}

fn told_counts(bench: &mut Bench) -> Run {
    let part = trees::worked().policy.stop_after(3);
    let broken = Policy { nodes: part.nodes[1..].to_vec(), ..part.clone() };
    for count in [1 << 9, 1 << 16, 1 << 31, 1 << 32, 1 << 33, 1 << 63, 0_u64] {
        for told in (0..9).map(|over| count.wrapping_sub(4).wrapping_add(over)) {
            for (name, part) in [("worked policy", &part), ("words not of nodes", &broken)] {
                for room in [0, 30, 130] {
                    let answer = bench.part_write(&format!("{name}, {told} rules"), told, part, room)?;
                    assert_eq!(answer.number == 1, told > 512, "the oracle: {name}, {told} rules");
                }
            }
        }
    }
    Ok(())
}

/// A text that is cut is 10 with its whole lines.
fn cut_texts(bench: &mut Bench) -> Run {
    for (case, part) in stops(2_550_000, 30) {
        let text = Text::of_part(&part);
        for length in 0..text.bytes.len() {
            let cut = text.with(text.bytes[..length].to_vec());
            let lines = cut.bytes.iter().filter(|&&byte| byte == b'\n').count() as u64;
            let answer = bench.read_in_rooms(&format!("{case}, cut to {length} bytes"), &cut)?;
            assert_eq!((answer.number, answer.place), (10, lines), "the oracle: {case}");
        }
    }
    Ok(())
}

/// A part file is no tree file, and a tree file is no part file: 9 at line 1, with room and without.
fn first_words(bench: &mut Bench) -> Run {
    for (case, part) in stops(2_560_000, 60) {
        let (part_text, tree_text) = (Text::of_part(&part), Text::of_tree(&part));
        for (text, file) in [(&part_text, File::Tree), (&tree_text, File::Part)] {
            let taken_for = Text { file, ..text.clone() };
            let answer = bench.read_in_rooms(&format!("{case}, taken for a {file:?} file"), &taken_for)?;
            assert_eq!((answer.number, answer.place), (9, 1), "the oracle: {case}");
        }
        for text in [&part_text, &tree_text] {
            let answer = bench.read_in_rooms(&case, text)?;
            assert_eq!(answer.number, 0, "the oracle: {case}");
        }
    }
    Ok(())
}

fn damages(bench: &mut Bench) -> Run {
    for (case, part) in stops(2_570_000, 2) {
        let text = Text::of_part(&part);
        for damaged in every_damage(&text) {
            bench.read_in_rooms(&format!("{case}, {}", damaged.kind), &damaged.text)?;
        }
    }
    Ok(())
}

/// The text with each kind of damage, everywhere.
fn every_damage(text: &Text) -> Vec<DamagedText> {
    let bytes = (0..text.bytes.len()).flat_map(|at| text_damages::byte_damages(text, at));
    let numbers = text_damages::numbers(text).into_iter();
    let words = text_damages::words(text).into_iter();
    let lines = 0..text.lines().len();
    bytes
        .chain(numbers.flat_map(|digits| text_damages::number_damages(text, digits)))
        .chain(words.flat_map(|word| text_damages::word_damages(text, word)))
        .chain(lines.clone().flat_map(|line| text_damages::line_damages(text, line)))
        .chain(lines.flat_map(|line| text_damages::last_parts(text, line)))
        .chain(text_damages::afters(text))
        .collect()
}

fn several_damages(bench: &mut Bench) -> Run {
    let texts: Vec<Text> = stops(2_580_000, 60).iter().map(|(_, part)| Text::of_part(part)).collect();
    for seed in 2_590_000..2_594_000 {
        let mut draws = Draws::seeded(seed);
        let mut damaged = text_damages::any_damage(&texts[draws.below(texts.len())], &mut draws);
        for _ in 0..=draws.below(3) {
            let next = text_damages::any_damage(&damaged.text, &mut draws);
            damaged = DamagedText { kind: format!("{}; {}", damaged.kind, next.kind), ..next };
        }
        bench.read_in_rooms(&format!("seed {seed}, {}", damaged.kind), &damaged.text)?;
    }
    Ok(())
}
