//! Chosen files with actions, and first lines that are nearly of either kind, with the refusal that each of them gets.

use crate::bench::{Bench, Run};
use crate::groups::text_cases::{each_case, Case};
use crate::texts::{File, Text};

const PURPOSE: &str = "damage";

/// The first words that are right, and others that have some of their bytes or more.
const FIRST_WORDS: [&str; 30] = [
    "rules", "acl", "", "a", "ac", "aclx", "acll", "acls", "acl6", "Acl", "ACL", "acL", "xcl", "axl", "acx", "cl",
    "aacl", "r", "ru", "rul", "rule", "rulesx", "Rules", "xules", "rulex", "aclrules", "rulesacl", "aules", "rcl",
    "racl",
];

pub fn run(bench: &mut Bench) -> Run {
    bench.group(PURPOSE, "acl files: chosen faults, alone and together", chosen)?;
    bench.group(PURPOSE, "first words that are nearly right, with each end of the line", first_words)
}

/// As in `text_cases`: A and B are the fields of two rules, without an action.
const CASES: [Case; 36] = [
    ("good", "acl 1|rule 0 A 255|end 2|", 0, 0),
    ("no rules", "acl 0|end 1|", 0, 0),
    ("action 0", "acl 1|rule 0 A 0|end 2|", 0, 0),
    ("two rules", "acl 2|rule 0 A 1|rule 1 B 1|end 3|", 0, 0),
    ("the first line alone", "acl 0|", 10, 1),
    ("no newline", "acl 0", 10, 0),
    ("no newline at the end", "acl 0|end 1", 10, 1),
    ("a wrong first line without newline", "acl 513", 10, 0),
    ("513 rules", "acl 513|", 9, 1),
    ("512 rules, and the text stops", "acl 512|", 10, 1),
    ("no count", "acl|end 1|", 9, 1),
    ("a tab and no count", "acl |end 1|", 9, 1),
    ("a field after the count", "acl 0 |end 1|", 9, 1),
    ("two counts", "acl 0 0|end 1|", 9, 1),
    ("a leading zero in the count", "acl 00|end 1|", 9, 1),
    ("both words", "acl rules 0|end 1|", 9, 1),
    ("two first lines", "acl 0|acl 0|end 2|", 9, 2),
    ("a first line of each kind", "rules 0|acl 0|end 2|", 9, 2),
    ("no action", "acl 1|rule 0 A|end 2|", 9, 2),
    ("a tab and no action", "acl 1|rule 0 A |end 2|", 9, 2),
    ("an action without its tab", "acl 1|rule 0 A7|end 2|", 9, 2),
    ("two actions", "acl 1|rule 0 A 1 1|end 2|", 9, 2),
    ("a tab after the action", "acl 1|rule 0 A 1 |end 2|", 9, 2),
    ("action 256", "acl 1|rule 0 A 256|end 2|", 9, 2),
    ("an action that wraps at 32 bits", "acl 1|rule 0 A 4294967296|end 2|", 9, 2),
    ("an action with a leading zero", "acl 1|rule 0 A 01|end 2|", 9, 2),
    ("an action in a rules file", "rules 1|rule 0 A 0|end 2|", 9, 2),
    ("an action on the second line alone", "acl 2|rule 0 A|rule 1 B 1|end 3|", 9, 2),
    ("an action on the first line alone", "acl 2|rule 0 A 1|rule 1 B|end 3|", 9, 3),
    ("a bad action, and a wrong end", "acl 1|rule 0 A 256|end 3|", 9, 2),
    ("a bad action, and the text stops", "acl 1|rule 0 A 256|", 9, 2),
    ("a bad action without newline", "acl 1|rule 0 A 256", 10, 1),
    ("twins with one action", "acl 2|rule 0 A 1|rule 1 A 1|end 3|", 11, 1),
    ("twins with two actions", "acl 2|rule 0 A 1|rule 1 A 2|end 3|", 11, 1),
    ("twins, and a bad action", "acl 2|rule 0 A 1|rule 1 A 256|end 3|", 9, 3),
    ("a byte after the end", "acl 1|rule 0 A 1|end 2|x", 9, 4),
];

fn chosen(bench: &mut Bench) -> Run {
    each_case(bench, File::Rules, &CASES)
}

/// Each first word with a count and without, with a newline, without one, and with the file's end. Only the two right
/// ones are read, and the kind that is said is theirs.
fn first_words(bench: &mut Bench) -> Run {
    for word in FIRST_WORDS {
        for rest in
            ["", "\n", "\t", "\t\n", "\t0", "\t0\n", "\t0\nend\t1\n", "\t0\nend\t1", " 0\nend\t1\n", "0\nend\t1\n"]
        {
            let bytes = format!("{word}{rest}").into_bytes();
            let case = format!("{:?}", String::from_utf8_lossy(&bytes));
            let answer = bench.read_in_rooms(&case, &Text { file: File::Rules, bytes, needed: [0, 0] })?;
            let is_right = ["rules", "acl"].contains(&word);
            let lines = rest.matches('\n').count() as u64;
            let wanted = match (is_right, rest) {
                (_, "" | "\t" | "\t0") => (10, 0),
                (true, "\t0\nend\t1\n") => (0, 0),
                (true, "\t0\n" | "\t0\nend\t1") => (10, lines),
                _ => (9, 1),
            };
            assert_eq!((answer.number, answer.place), wanted, "the oracle: {case}");
            assert_eq!(answer.b, u64::from(answer.number == 0 && word == "acl"), "the oracle: {case}");
        }
    }
    Ok(())
}
