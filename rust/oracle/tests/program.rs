//! The program: the worked policy's answers, its files as they may be found, and its input line by line.

mod texts;
mod worked;

use oracle::program;
use oracle::program::Found;
use oracle::rule_file::{list_text, Kind};
use oracle::tree_file::tree_text;
use texts::{changed, cut_everywhere};
use worked::{policy, NODES, POOL};

const RULES: &str = include_str!("../../../examples/worked/rules.txt");
const TREE: &str = include_str!("../../../examples/worked/tree.txt");
const HEADS: &str = include_str!("../../../examples/worked/heads.txt");
const ANSWERS: &str = include_str!("../../../examples/worked/answers.txt");

/// The first header of the worked policy, and its answer.
const HEAD: &str = "head\t10.1.2.3\t192.168.0.1\t40000\t80\t6\n";
const HIT: &str = "hit\t3\t0\t1\t2\n";

fn text(text: &str) -> Found<'_> {
    Found::Bytes(text.as_bytes())
}

fn written(rules: Found, tree: Found, input: impl AsRef<[u8]>) -> String {
    String::from_utf8(program(rules, tree, input.as_ref())).expect("the answers are text")
}

/// What the worked policy answers to this input.
fn answers(input: impl AsRef<[u8]>) -> String {
    written(text(RULES), text(TREE), input)
}

fn refused(number: u64, place: u64, extra: u64) -> String {
    format!("refused\t{number}\t{place}\t{extra}\n")
}

/// The first header's line with this in place of that.
fn head_with(old: &str, new: &str) -> String {
    changed(HEAD, old, new)
}

#[test]
fn the_example_is_the_worked_policy() {
    assert_eq!(RULES, list_text(Kind::Rules, &policy()).unwrap());
    assert_eq!(TREE, tree_text(3, &NODES.concat(), &POOL).unwrap());
    assert_eq!(ANSWERS, answers(HEADS));
}

#[test]
fn each_header_has_its_hit() {
    for (source, port, protocol, hit) in [
        ("10.1.2.3", 80, 6, HIT),
        ("10.2.0.1", 80, 6, "hit\t2\t0\t2\n"),
        ("10.1.2.3", 443, 6, "hit\t2\t1\t2\n"),
        ("10.1.2.3", 80, 17, "hit\t1\t2\n"),
        ("9.255.255.255", 80, 6, "hit\t1\t2\n"),
        ("10.255.255.255", 80, 6, "hit\t2\t0\t2\n"),
        ("11.0.0.0", 80, 6, "hit\t1\t2\n"),
    ] {
        assert_eq!(answers(format!("head\t{source}\t192.168.0.1\t40000\t{port}\t{protocol}\n")), hit);
    }
}

#[test]
fn no_match_is_a_hit_of_none() {
    let none = written(text("rules\t0\nend\t1\n"), text("tree\t0\t1\t0\nleaf\t0\t0\nend\t2\n"), HEAD);
    assert_eq!(none, "hit\t0\n");
}

#[test]
fn a_refused_rules_file_ends_the_program() {
    for (rules, line) in [
        (Found::Missing, refused(12, 0, 0)),
        (Found::Unreadable, refused(12, 0, 0)),
        (text(""), refused(10, 0, 0)),
        (text(&changed(RULES, "0.0.0.0/0\t0.0.0.0/0", "0.0.0.0/0\t1.0.0.0/0")), refused(9, 4, 0)),
    ] {
        assert_eq!(written(rules, text(TREE), HEADS), line);
        assert_eq!(written(rules, Found::Missing, ""), line);
    }
    for (cut, lines) in cut_everywhere(RULES) {
        assert_eq!(written(text(cut), text(TREE), HEADS), refused(10, lines, 0));
    }
}

#[test]
fn a_list_with_actions_is_answered_as_one_without() {
    let mut words = policy();
    (words[10], words[21], words[32]) = (1, 255, 0);
    let acl = list_text(Kind::Acl, &words).unwrap();
    assert_eq!(written(text(&acl), text(TREE), HEADS), ANSWERS);
    for (cut, lines) in cut_everywhere(&acl) {
        assert_eq!(written(text(cut), text(TREE), HEADS), refused(10, lines, 0));
    }
    assert_eq!(written(text(&changed(&acl, "\t6\t6\t255", "\t6\t6\t256")), text(TREE), HEADS), refused(9, 3, 0));
    assert_eq!(written(text(&changed(&acl, "acl\t3", "rules\t3")), text(TREE), HEADS), refused(9, 2, 0));
    assert_eq!(written(text("acl\t0\nend\t1\n"), text("tree\t0\t1\t0\nleaf\t0\t0\nend\t2\n"), HEAD), "hit\t0\n");
}

#[test]
fn a_refused_tree_is_written_out_and_the_list_answers() {
    let lacks_a_rule = TREE.replace("tree\t3\t5\t5", "tree\t3\t5\t4").replace("3\t3\t0\t1\t2", "3\t2\t0\t2");
    for (tree, line) in [
        (Found::Missing, refused(12, 0, 0)),
        (Found::Unreadable, refused(12, 0, 0)),
        (text(""), refused(10, 0, 0)),
        (text(&changed(TREE, "184549375", "167772159")), refused(6, 2, 0)),
        (text(&lacks_a_rule), refused(8, 3, 1)),
        (text(&format!("{TREE}x")), refused(9, 8, 0)),
    ] {
        assert_eq!(written(text(RULES), tree, HEADS), line + ANSWERS);
    }
    for (cut, lines) in cut_everywhere(TREE) {
        assert_eq!(written(text(RULES), text(cut), HEADS), refused(10, lines, 0) + ANSWERS);
    }
}

#[test]
fn the_tree_files_rule_count_is_not_compared_with_the_list() {
    let for_more = changed(TREE, "tree\t3", "tree\t512");
    assert_eq!(written(text(RULES), text(&for_more), HEADS), ANSWERS);
    // An entry past the list is a rule of the file, and the check finds it.
    let past = changed(&for_more, "leaf\t4\t1\t2", "leaf\t4\t1\t3");
    assert_eq!(written(text(RULES), text(&past), HEAD), refused(7, 4, 0) + HIT);
}

#[test]
fn a_file_has_at_most_65_536_bytes() {
    // One line that is wrong, and a last part that is not read.
    for (length, wrong, stops) in [
        (65_535, refused(9, 1, 0), refused(10, 0, 0)),
        (65_536, refused(9, 1, 0), refused(10, 0, 0)),
        (65_537, refused(12, 0, 0), refused(12, 0, 0)),
    ] {
        let part = "x".repeat(length);
        let line = part[1..].to_string() + "\n";
        assert_eq!(written(text(&line), text(TREE), HEAD), wrong);
        assert_eq!(written(text(&part), text(TREE), HEAD), stops);
        assert_eq!(written(text(RULES), text(&line), HEAD), wrong + HIT);
        assert_eq!(written(text(RULES), text(&part), HEAD), stops + HIT);
    }
    // Good lines before do not help a file that is too long.
    let long = format!("{TREE}{}", "\n".repeat(65_537 - TREE.len()));
    assert_eq!(written(text(RULES), text(&long), HEAD), refused(12, 0, 0) + HIT);
    assert_eq!(written(text(RULES), text(&long[1..]), HEAD), refused(9, 1, 0) + HIT);
}

#[test]
fn a_misshapen_line_is_9_with_its_number_and_the_next_is_read() {
    for wrong in [
        "\n".to_string(),
        "\0\n".to_string(),
        "head\n".to_string(),
        head_with("head", "heads"),
        head_with("head", "hit"),
        head_with("\t40000", " 40000"),
        head_with("\n", "\t\n"),
        head_with("\n", "\r\n"),
        head_with("\n", "\0\n"),
        head_with("\n", " \n"),
        head_with("\t6\n", "\n"),
        head_with("\t6\n", "\t6\t6\n"),
        head_with("\t6\n", "\t06\n"),
        head_with("\t6\n", "\t+6\n"),
        head_with("\t6\n", "\t-6\n"),
        head_with("\t6\n", "\t\n"),
        head_with("\t6\n", "\t4294967296\n"),
        head_with("40000", "4294967336"),
        head_with("10.1.2.3", "10.1.2"),
        head_with("10.1.2.3", "10.1.2.3.4"),
        head_with("10.1.2.3", "10.1.2.256"),
        head_with("10.1.2.3", "10.1.2.3/32"),
        head_with("192.168.0.1", "192.168.00.1"),
        head_with("192.168.0.1", "192.168..1"),
    ] {
        assert_eq!(answers(format!("{HEAD}{wrong}{HEAD}")), format!("{HIT}{}{HIT}", refused(9, 2, 0)), "{wrong:?}");
    }
}

#[test]
fn a_port_or_protocol_too_large_is_3_with_its_field() {
    for (old, new, field) in [
        ("\t40000\t", "\t65537\t", 2),
        ("\t40000\t", "\t4294967295\t", 2),
        ("\t80\t", "\t65537\t", 3),
        ("\t6\n", "\t256\n", 4),
        ("\t6\n", "\t4294967295\n", 4),
        ("\t80\t6\n", "\t65537\t256\n", 3),
        ("\t80\t6\n", "\t65536\t256\n", 4),
    ] {
        assert_eq!(answers(head_with(old, new) + HEAD), refused(3, field, 0) + HIT);
    }
}

#[test]
fn a_line_has_at_most_64_bytes() {
    let line = |tail: &str| format!("head\t101.102.103.104\t201.202.203.204\t4000000000\t{tail}");
    for (long, length, answer) in [
        (line("65536\t65536"), 59, refused(3, 2, 0)),
        (line("100000000\t65536"), 63, refused(3, 2, 0)),
        (line("4294967295\t65536"), 64, refused(3, 2, 0)),
        (line("4294967295\t655360"), 65, refused(9, 1, 0)),
        (line("4294967295\t6553600"), 66, refused(9, 1, 0)),
        ("x".repeat(100_000), 100_000, refused(9, 1, 0)),
    ] {
        assert_eq!(long.len(), length);
        assert_eq!(answers(format!("{long}\n{HEAD}\n")), format!("{answer}{HIT}{}", refused(9, 3, 0)));
    }
}

#[test]
fn a_last_part_is_10_after_the_whole_lines() {
    let whole = format!("{HEAD}wrong\n{HEAD}");
    let replies = format!("{HIT}{}{HIT}", refused(9, 2, 0));
    for part in ["h", "\0", "\r", HEAD.trim_end(), &"x".repeat(64), &"x".repeat(65), &"x".repeat(100_000)] {
        assert_eq!(answers(part), refused(10, 0, 0));
        assert_eq!(answers(format!("{whole}{part}")), replies.clone() + &refused(10, 3, 0));
    }
}

#[test]
fn no_input_and_a_last_newline_write_nothing_more() {
    assert_eq!(answers(""), "");
    assert_eq!(answers(HEAD), HIT);
    assert_eq!(answers([0xFF, b'\n']), refused(9, 1, 0));
}
