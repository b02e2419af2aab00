//! Chosen texts of few lines, with the refusal that each of them gets.

use crate::bench::{Bench, Run};
use crate::texts::{File, Text};

const PURPOSE: &str = "damage";

/// The rooms that all good texts need.
const NEEDED: [usize; 2] = [22, 3];

pub fn run(bench: &mut Bench) -> Run {
    bench.group(PURPOSE, "rules files: chosen faults, alone and together", rules_files)?;
    bench.group(PURPOSE, "tree files: chosen faults, alone and together", tree_files)
}

/// What is wrong, the text, and the refusal's number and place. Lines are parted by `|`, fields by a blank; A and B are
/// the fields of two rules, which differ in the last.
pub type Case = (&'static str, &'static str, u64, u64);

const RULES_CASES: [Case; 56] = [
    ("good", "rules 1|rule 0 1.2.3.4/32 0.0.0.0/0 0 9 1 1 6 6|end 2|", 0, 0),
    ("no rules", "rules 0|end 1|", 0, 0),
    ("empty", "", 10, 0),
    ("one newline", "|", 9, 1),
    ("two newlines", "||", 9, 1),
    ("no newline", "rules 0", 10, 0),
    ("the first line alone", "rules 0|", 10, 1),
    ("no newline at the end", "rules 0|end 1", 10, 1),
    ("a tree's first line", "tree 0|end 1|", 9, 1),
    ("a rule less", "rules 2|rule 0 0.0.0.0/0 0.0.0.0/0 0 9 1 1 6 6|end 2|", 9, 3),
    ("a rule more", "rules 0|rule 0 0.0.0.0/0 0.0.0.0/0 0 9 1 1 6 6|end 2|", 9, 2),
    ("a rule missing", "rules 1|rule 0 0.0.0.0/0 0.0.0.0/0 0 9 1 1 6 6|", 10, 2),
    ("a rule and the end missing", "rules 2|rule 0 0.0.0.0/0 0.0.0.0/0 0 9 1 1 6 6|", 10, 2),
    ("record number 1", "rules 1|rule 1 0.0.0.0/0 0.0.0.0/0 0 9 1 1 6 6|end 2|", 9, 2),
    ("the same number twice", "rules 2|rule 0 0.0.0.0/0 0.0.0.0/0 0 9 1 1 6 6|rule 0 |end 3|", 9, 3),
    ("the end's count is the rules'", "rules 1|rule 0 0.0.0.0/0 0.0.0.0/0 0 9 1 1 6 6|end 1|", 9, 3),
    ("the end's count is with itself", "rules 1|rule 0 0.0.0.0/0 0.0.0.0/0 0 9 1 1 6 6|end 3|", 9, 3),
    ("a leading zero in the end", "rules 0|end 01|", 9, 2),
    ("a field after the end's count", "rules 0|end 1 |", 9, 2),
    ("no count in the end", "rules 0|end|", 9, 2),
    ("a newline after the end", "rules 0|end 1||", 9, 3),
    ("a byte after the end", "rules 0|end 1|x", 9, 3),
    ("two wrong lines", "rules 1|rule|end|", 9, 2),
    ("a wrong line, and the text stops", "rules 1|rule|", 9, 2),
    ("a wrong line, and a last part", "rules 1|rule|end 2", 9, 2),
    ("a wrong last part", "rules 1|rule", 10, 1),
    ("a wrong first line, and the text stops", "rules 513|", 9, 1),
    ("a wrong first line without newline", "rules 513", 10, 0),
    ("a wrong end, and something after it", "rules 0|end 2|x", 9, 2),
    ("length 33", "rules 1|rule 0 0.0.0.0/33 0.0.0.0/0 0 9 1 1 6 6|end 2|", 9, 2),
    ("a stray bit", "rules 1|rule 0 1.2.3.5/31 0.0.0.0/0 0 9 1 1 6 6|end 2|", 9, 2),
    ("a stray bit of length 0", "rules 1|rule 0 0.0.0.0/0 128.0.0.0/0 0 9 1 1 6 6|end 2|", 9, 2),
    ("octet 256", "rules 1|rule 0 1.2.256.4/32 0.0.0.0/0 0 9 1 1 6 6|end 2|", 9, 2),
    ("octet 256, carried", "rules 1|rule 0 0.0.0.256/32 0.0.0.0/0 0 9 1 1 6 6|end 2|", 9, 2),
    ("an octet that wraps at 32 bits", "rules 1|rule 0 1.2.3.4294967300/32 0.0.0.0/0 0 9 1 1 6 6|end 2|", 9, 2),
    ("three octets", "rules 1|rule 0 1.2.3/32 0.0.0.0/0 0 9 1 1 6 6|end 2|", 9, 2),
    ("five octets", "rules 1|rule 0 1.2.3.4.5/32 0.0.0.0/0 0 9 1 1 6 6|end 2|", 9, 2),
    ("no length", "rules 1|rule 0 1.2.3.4 0.0.0.0/0 0 9 1 1 6 6|end 2|", 9, 2),
    ("port 65536", "rules 1|rule 0 1.2.3.4/32 0.0.0.0/0 0 65536 1 1 6 6|end 2|", 9, 2),
    ("protocol 256", "rules 1|rule 0 1.2.3.4/32 0.0.0.0/0 0 9 1 1 6 256|end 2|", 9, 2),
    ("a range turned round", "rules 1|rule 0 1.2.3.4/32 0.0.0.0/0 0 9 2 1 6 6|end 2|", 9, 2),
    ("a field too many", "rules 1|rule 0 1.2.3.4/32 0.0.0.0/0 0 9 1 1 6 6 6|end 2|", 9, 2),
    ("twins", "rules 2|rule 0 A|rule 1 A|end 3|", 11, 1),
    ("no twins", "rules 2|rule 0 A|rule 1 B|end 3|", 0, 0),
    ("twins apart", "rules 3|rule 0 A|rule 1 B|rule 2 A|end 4|", 11, 2),
    ("twins of the second", "rules 3|rule 0 A|rule 1 B|rule 2 B|end 4|", 11, 2),
    ("two pairs of twins", "rules 4|rule 0 A|rule 1 B|rule 2 B|rule 3 A|end 5|", 11, 2),
    ("twins, and the text stops", "rules 2|rule 0 A|rule 1 A|", 10, 3),
    ("twins, and an end without newline", "rules 2|rule 0 A|rule 1 A|end 3", 10, 3),
    ("twins, and a rule less", "rules 3|rule 0 A|rule 1 A|end 3|", 9, 4),
    ("twins, and a wrong end", "rules 2|rule 0 A|rule 1 A|end 2|", 9, 4),
    ("twins, and a byte after the end", "rules 2|rule 0 A|rule 1 A|end 3|x", 9, 5),
    ("twins, and a newline after the end", "rules 2|rule 0 A|rule 1 A|end 3||", 9, 5),
    ("twins, and a wrong rule after them", "rules 3|rule 0 A|rule 1 A|rule 2 A 6|end 4|", 9, 4),
    ("twins, and a wrong rule before them", "rules 3|rule 0 A 6|rule 1 A|rule 2 A|end 4|", 9, 2),
    ("the same rule and number twice", "rules 2|rule 0 A|rule 0 A|end 3|", 9, 3),
];

fn rules_files(bench: &mut Bench) -> Run {
    each_case(bench, File::Rules, &RULES_CASES)
}

pub const TREE_CASES: [Case; 55] = [
    ("good", "tree 2 3 3|cut 0 4 9 2|leaf 1 2 0 1|leaf 2 1 1|end 4|", 0, 0),
    ("one empty leaf", "tree 0 1 0|leaf 0 0|end 2|", 0, 0),
    ("not well formed", "tree 2 3 3|cut 0 0 4294967295 0|leaf 1 2 1 1|leaf 2 1 0|end 4|", 0, 0),
    ("cuts alone", "tree 9 2 0|cut 0 3 0 1|cut 1 3 0 0|end 3|", 0, 0),
    ("empty", "", 10, 0),
    ("one newline", "|", 9, 1),
    ("no newline at the end", "tree 0 1 0|leaf 0 0|end 2", 10, 2),
    ("the end missing", "tree 0 1 0|leaf 0 0|", 10, 2),
    ("no nodes", "tree 0 0 0|end 1|", 9, 1),
    ("no nodes, and the text stops", "tree 0 0 0|", 9, 1),
    ("a rules file's first line", "rules 0 1 0|leaf 0 0|end 2|", 9, 1),
    ("a count less in the first line", "tree 0 1|leaf 0 0|end 2|", 9, 1),
    ("a count more in the first line", "tree 0 1 0 0|leaf 0 0|end 2|", 9, 1),
    ("a node less", "tree 0 2 0|leaf 0 0|end 2|", 9, 3),
    ("a node more", "tree 0 1 0|leaf 0 0|leaf 1 0|end 3|", 9, 3),
    ("record number 1", "tree 0 1 0|leaf 1 0|end 2|", 9, 2),
    ("the same number twice", "tree 0 2 0|leaf 0 0|leaf 0 0|end 3|", 9, 3),
    ("numbers of cuts and leaves apart", "tree 0 2 0|cut 0 0 0 0|leaf 0 0|end 3|", 9, 3),
    ("the end's count is the nodes'", "tree 0 1 0|leaf 0 0|end 1|", 9, 3),
    ("the end's count is with itself", "tree 0 1 0|leaf 0 0|end 3|", 9, 3),
    ("a newline after the end", "tree 0 1 0|leaf 0 0|end 2||", 9, 4),
    ("a byte after the end", "tree 0 1 0|leaf 0 0|end 2|0", 9, 4),
    ("field 4", "tree 0 1 0|cut 0 4 0 0|end 2|", 0, 0),
    ("field 5", "tree 0 1 0|cut 0 5 0 0|end 2|", 9, 2),
    ("field 5 as a leaf's words", "tree 1 1 1|cut 0 5 0 1|end 2|", 9, 2),
    ("the largest value", "tree 0 1 0|cut 0 0 4294967295 0|end 2|", 0, 0),
    ("a value past 32 bits", "tree 0 1 0|cut 0 0 4294967296 0|end 2|", 9, 2),
    ("a right child that is the node count", "tree 0 2 0|cut 0 0 0 2|leaf 1 0|end 3|", 9, 2),
    ("a right child that is the last node", "tree 0 2 0|cut 0 0 0 1|leaf 1 0|end 3|", 0, 0),
    ("a right child past 32 bits", "tree 0 2 0|cut 0 0 0 4294967297|leaf 1 0|end 3|", 9, 2),
    ("a cut with a number less", "tree 0 1 0|cut 0 0 0|end 2|", 9, 2),
    ("a cut with a number more", "tree 0 1 0|cut 0 0 0 0 0|end 2|", 9, 2),
    ("a count over the rules", "tree 1 1 2|leaf 0 2 0 0|end 2|", 9, 2),
    ("a count that is the rules", "tree 2 1 2|leaf 0 2 0 0|end 2|", 0, 0),
    ("an entry that is the number of rules", "tree 1 1 1|leaf 0 1 1|end 2|", 9, 2),
    ("an entry past 32 bits", "tree 1 1 1|leaf 0 1 4294967296|end 2|", 9, 2),
    ("an entry less than the count", "tree 2 1 2|leaf 0 2 0|end 2|", 9, 2),
    ("an entry more than the count", "tree 2 1 2|leaf 0 1 0 0|end 2|", 9, 2),
    ("a tab after the last entry", "tree 2 1 2|leaf 0 2 0 1 |end 2|", 9, 2),
    ("a tab after count 0", "tree 2 1 0|leaf 0 0 |end 2|", 9, 2),
    ("no count", "tree 2 1 0|leaf 0|end 2|", 9, 2),
    ("entries that fall and repeat", "tree 3 2 5|leaf 0 3 2 1 0|leaf 1 2 1 1|end 3|", 0, 0),
    ("a leaf past the pool's total", "tree 2 2 3|leaf 0 2 0 1|leaf 1 2 0 1|end 3|", 9, 3),
    ("a leaf past the pool's total, and the text stops", "tree 2 3 3|leaf 0 2 0 1|leaf 1 2 0 1|", 9, 3),
    ("the first leaf past a pool of none", "tree 2 2 0|leaf 0 1 0|leaf 1 0|end 3|", 9, 2),
    ("a leaf past the pool's total, then an empty one", "tree 2 3 1|leaf 0 1 0|leaf 1 1 0|leaf 2 0|end 4|", 9, 3),
    ("an empty leaf where the pool is full", "tree 2 2 1|leaf 0 1 0|leaf 1 0|end 3|", 0, 0),
    ("a pool that falls short", "tree 2 2 4|leaf 0 2 0 1|leaf 1 1 0|end 3|", 9, 4),
    ("a pool that falls short, and the text stops", "tree 2 2 4|leaf 0 2 0 1|leaf 1 1 0|", 10, 3),
    ("a pool that falls short, an end without newline", "tree 2 2 4|leaf 0 2 0 1|leaf 1 1 0|end 3", 10, 3),
    ("a pool that falls short, and a byte after", "tree 2 2 4|leaf 0 2 0 1|leaf 1 1 0|end 3|x", 9, 4),
    ("a pool that no leaf uses", "tree 2 1 1|cut 0 0 0 0|end 2|", 9, 3),
    ("two wrong lines", "tree 0 2 0|leaf 1 0|leaf 0 0|end 9|", 9, 2),
    ("a wrong line, and a last part", "tree 0 2 0|leaf 0 0|leaf|end 3", 9, 3),
    ("a wrong last part", "tree 0 2 0|leaf 0 0|leaf", 10, 2),
];

fn tree_files(bench: &mut Bench) -> Run {
    each_case(bench, File::Tree, &TREE_CASES)
}

/// A part's texts are a tree's with another first word.
pub fn each_case(bench: &mut Bench, file: File, cases: &[Case]) -> Run {
    for &(case, written, number, place) in cases {
        let written = match written.strip_prefix("tree") {
            Some(rest) if file == File::Part => format!("part{rest}"),
            _ => written.to_string(),
        };
        let written =
            written.replace('A', "1.2.3.0/24 0.0.0.0/0 0 9 1 1 6 6").replace('B', "1.2.3.0/24 0.0.0.0/0 0 9 1 1 6 7");
        let bytes = written.replace('|', "\n").replace(' ', "\t").into_bytes();
        let answer = bench.read_in_rooms(case, &Text { file, bytes, needed: NEEDED })?;
        assert_eq!((answer.number, answer.place), (number, place), "the oracle: {case}");
    }
    Ok(())
}
