//! Limits of files: counts on both sides of what is allowed, the largest files, and texts of any length.

use oracle::rule_file::Kind;

use crate::bench::{Bench, Run};
use crate::draws::Draws;
use crate::groups::tree_limits::{largest_tree, strips};
use crate::lists::{self, acting, Manner, Rule};
use crate::text_damages::{afters, any_damage};
use crate::texts::{self, File, Text};
use crate::trees::{self, Policy};

const PURPOSE: &str = "limits";

/// Numbers for each count of a first line, on both sides of every limit.
const COUNTS: [u64; 16] =
    [0, 1, 2, 511, 512, 513, 2_046, 2_047, 2_048, 4_095, 4_096, 4_097, 65_536, 0xFFFF_FFFF, 1 << 32, 1 << 33];

pub fn run(bench: &mut Bench) -> Run {
    bench.group(PURPOSE, "first lines with counts about every limit", first_lines)?;
    bench.group(PURPOSE, "rules files of 510 to 514 rules", rule_counts)?;
    bench.group(PURPOSE, "tree files of 2,045 to 2,049 nodes, and of 4,095 to 4,097 pool words", tree_counts)?;
    bench.group(PURPOSE, "the largest files, whole and damaged", largest_files)?;
    bench.group(PURPOSE, "texts over 65,536 bytes", long_texts)?;
    bench.group(PURPOSE, "tree writer: rule counts about 512, 2^32 and 2^64", told_counts)
}

/// A first line within the limits is right, whatever does not follow it.
fn first_lines(bench: &mut Bench) -> Run {
    let [rules, tree] = texts::worked();
    for a in COUNTS {
        first_line(bench, &rules, format!("rules\t{a}\n"), a <= 512)?;
        first_line(bench, &rules, format!("acl\t{a}\n"), a <= 512)?;
        for b in COUNTS {
            for c in COUNTS {
                let is_right = a <= 512 && (1..=2_047).contains(&b) && c <= 4_096;
                first_line(bench, &tree, format!("tree\t{a}\t{b}\t{c}\n"), is_right)?;
            }
        }
    }
    Ok(())
}

fn first_line(bench: &mut Bench, text: &Text, line: String, is_right: bool) -> Run {
    let answer = bench.read_in_rooms("a first line alone", &text.with(line.clone().into_bytes()))?;
    assert_eq!((answer.number, answer.place), if is_right { (10, 1) } else { (9, 1) }, "the oracle: {line}");
    Ok(())
}

fn rule_counts(bench: &mut Bench) -> Run {
    let rules = lists::good_list(&mut Draws::seeded(1_200_001), 514, Manner::Mixed).rules;
    for (kind, action) in [(Kind::Rules, 0), (Kind::Acl, 255)] {
        let rules: Vec<Rule> = rules.iter().map(|&rule| acting(rule, action)).collect();
        for count in [0_usize, 1, 2, 510, 511, 512, 513, 514] {
            for first in [count, count + 1, count.saturating_sub(1)] {
                let text = texts::list_file(kind, first, &rules[..count]);
                let case = format!("seed 1200001, {count} rules in a {kind:?} file, {first} in the first line");
                rule_count(bench, &case, &text, count, first)?;
            }
        }
    }
    Ok(())
}

/// Reads a file of so many rules, whose first line has this number.
fn rule_count(bench: &mut Bench, case: &str, text: &Text, count: usize, first: usize) -> Run {
    let answer = bench.read_in_rooms(case, text)?;
    let wanted = if first > 512 {
        (9, 1)
    } else if first == count {
        (0, 0)
    } else {
        // An end line where a rule is meant, or the other way round.
        (9, first.min(count) + 2)
    };
    assert_eq!((answer.number, answer.place as usize), wanted, "the oracle: {case}");
    for room in [text.needed[0], text.needed[0].saturating_sub(1)] {
        bench.read(case, text, [room, 0])?;
    }
    Ok(())
}

/// A tree file of leaves that have so many entries each, for 512 rules, whose first line has this pool.
fn leaves_file(leaves: &[usize], pool: usize) -> Text {
    let mut bytes = format!("tree\t512\t{}\t{pool}\n", leaves.len());
    for (number, count) in leaves.iter().enumerate() {
        let entries: String = (0..*count).map(|entry| format!("\t{}", 511 - entry % 512)).collect();
        bytes += &format!("leaf\t{number}\t{count}{entries}\n");
    }
    bytes += &format!("end\t{}\n", leaves.len() + 1);
    Text { file: File::Tree, bytes: bytes.into_bytes(), needed: [3 * leaves.len(), leaves.iter().sum()] }
}

fn tree_counts(bench: &mut Bench) -> Run {
    for nodes in [1, 2, 2_045, 2_046, 2_047, 2_048, 2_049] {
        let text = leaves_file(&vec![0; nodes], 0);
        let answer = bench.read_in_rooms(&format!("{nodes} empty leaves"), &text)?;
        let wanted = if nodes > 2_047 { (9, 1, 0) } else { (0, 0, nodes as u64) };
        assert_eq!((answer.number, answer.place, answer.b), wanted, "the oracle: {nodes} empty leaves");
    }
    for last in [510, 511, 512, 513] {
        for more in [&[][..], &[0], &[1], &[2]] {
            let leaves = [&[512; 7], &[last][..], more].concat();
            let entries: usize = leaves.iter().sum();
            for pool in entries.saturating_sub(2)..=entries + 2 {
                let text = leaves_file(&leaves, pool);
                let case = format!("{entries} entries, {pool} in the first line");
                let answer = bench.read_in_rooms(&case, &text)?;
                let is_right = pool == entries && pool <= 4_096 && last <= 512;
                assert_eq!(answer.number, if is_right { 0 } else { 9 }, "the oracle: {case}");
                bench.read(&case, &text, text.needed)?;
                bench.read(&case, &text, [text.needed[0], text.needed[1] - 1])?;
            }
        }
    }
    Ok(())
}

/// 512 rules, without actions and with the longest ones; 2,047 nodes and 4,096 pool words. All are written and read,
/// and read with damage.
fn largest_files(bench: &mut Bench) -> Run {
    let largest = largest_tree().policy;
    let longest_actions: Vec<u32> = strips().into_iter().flat_map(|rule| acting(rule, 255)).collect();
    let texts = [Text::of_rules(&largest.rules), Text::of_tree(&largest), Text::of_list(Kind::Acl, &longest_actions)];
    bench.write_rules("the largest list", &largest.rules)?;
    bench.write_rules("the largest list with actions", &longest_actions)?;
    bench.write_tree("the largest tree", &largest)?;
    for text in &texts {
        let answer = bench.read_in_rooms("the largest file", text)?;
        assert_eq!(answer.number, 0, "the oracle: the largest file");
        let [first, second] = text.needed;
        for rooms in [[first, second], [first - 1, second], [first, second.saturating_sub(1)], [0, second]] {
            bench.read("the largest file", text, rooms)?;
        }
        let bytes = text.bytes.len();
        bench.list_write("the largest list", Kind::Rules, &largest.rules, bytes - 1)?;
        bench.list_write("the largest list with actions", Kind::Acl, &longest_actions, bytes - 1)?;
        bench.tree_write("the largest tree", 512, &largest, bytes - 1)?;
    }
    damaged_largest(bench, &texts)
}

fn damaged_largest(bench: &mut Bench, texts: &[Text; 3]) -> Run {
    for seed in 1_210_000..1_210_120 {
        let mut draws = Draws::seeded(seed);
        let text = &texts[seed as usize % 3];
        let damaged = any_damage(text, &mut draws);
        bench.read_in_rooms(&format!("seed {seed}, the largest file, {}", damaged.kind), &damaged.text)?;
        let cut = text.with(text.bytes[..draws.below(text.bytes.len())].to_vec());
        let answer = bench.read_in_rooms(&format!("seed {seed}, the largest file, cut"), &cut)?;
        assert_eq!(answer.number, 10, "the oracle: a text that is cut");
    }
    // The whole text twice is more than the arena holds.
    for damaged in afters(&texts[1]).iter().filter(|damaged| damaged.text.bytes.len() < 70_000) {
        let answer = bench.read_in_rooms(&format!("the largest tree, {}", damaged.kind), &damaged.text)?;
        assert_eq!((answer.number, answer.place), (9, 2_050), "the oracle: {}", damaged.kind);
    }
    Ok(())
}

/// The longest tree file of all, and long texts that are wrong.
fn long_texts(bench: &mut Bench) -> Run {
    let longest = trees::longest();
    let text = Text::of_tree(&longest);
    assert!(text.bytes.len() > 65_536, "the longest file is long");
    let answer = bench.write_tree("the longest tree file", &longest)?;
    assert_eq!(answer.a, text.bytes.len() as u64, "the oracle: the longest tree file");
    let answer = bench.read_in_rooms("the longest tree file", &text)?;
    assert_eq!((answer.number, answer.b, answer.c), (0, 2_047, 4_096), "the oracle: the longest tree file");
    let mut unended = text.clone();
    unended.bytes.pop();
    let answer = bench.read_in_rooms("the longest tree file without its last newline", &unended)?;
    assert_eq!((answer.number, answer.place), (10, 2_048), "the oracle: the longest tree file");
    for good in texts::worked() {
        for (byte, length) in [(b'x', 65_536), (b'0', 65_537), (b'\t', 70_000), (b'\n', 70_000), (0, 100_000)] {
            let filled = vec![byte; length];
            for bytes in
                [filled.clone(), [filled.as_slice(), b"\n"].concat(), [&good.bytes, filled.as_slice()].concat()]
            {
                bench.read_in_rooms(&format!("{length} bytes of {byte}"), &good.with(bytes))?;
            }
        }
    }
    Ok(())
}

/// The writer is told of more rules than there can be, or of too few for the tree.
fn told_counts(bench: &mut Bench) -> Run {
    let worked = trees::worked().policy;
    let broken = Policy { nodes: worked.nodes[1..].to_vec(), ..worked.clone() };
    let nothing = Policy { rules: vec![], nodes: vec![5, 0, 0], pool: vec![] };
    let turning = [1 << 9, 1 << 16, 1 << 31, 1 << 32, 1 << 33, 1 << 63, 0_u64];
    let counts = turning.iter().flat_map(|&count| (0..9).map(move |over| count.wrapping_sub(4).wrapping_add(over)));
    for count in counts {
        for (name, policy) in
            [("worked policy", &worked), ("words not of nodes", &broken), ("one empty leaf", &nothing)]
        {
            for room in [0, 30, 130] {
                let case = format!("{name}, {count} rules");
                let answer = bench.tree_write(&case, count, policy, room)?;
                assert_eq!(answer.number == 1, count > 512, "the oracle: {case}");
            }
        }
    }
    Ok(())
}
