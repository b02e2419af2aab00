//! Rules with the words of an earlier one, in lists and in files.

use crate::say::{self, Tree};

/// A rule of zeros, with this highest protocol.
fn rule(protocol: u32) -> [u32; 11] {
    [0, 0, 0, 0, 0, 0, 0, 0, 0, protocol, 0]
}

pub fn lists() {
    let twins = [rule(0), rule(0)].concat();
    let tree = Tree { nodes: vec![[5, 0, 2]], pool: vec![0, 1] };
    say::rule_check("two rules that differ in one word", &[rule(0), rule(1)].concat());
    say::rule_check("the first rule once more", &[rule(0), rule(1), rule(0)].concat());
    let two_pairs = [rule(0), rule(1), rule(1), rule(0)].concat();
    say::rule_check("the second rule once more, then the first", &two_pairs);
    say::rule_check("three rules alike", &[rule(0); 3].concat());
    say::search_list("twins", &twins, &[0; 5]);
    say::tree_check("twins", &twins, &tree);
    say::scan_list("twins", &twins, &[0; 5]);
    say::search_tree("twins", &twins, &tree, &[0; 5]);
}

pub fn rule_file() {
    let mut text = say::rules_write("two rules that differ in one word", &[rule(0), rule(1)].concat(), TEXT.len());
    assert_eq!(text, TEXT.as_bytes());
    say::rules_read("two rules that differ in one word", &text, 22);
    // The highest protocol of rule 1.
    let last = TEXT.find("1\nend").expect("the number is there");
    text[last] = b'0';
    say::rules_read("twins", &text, 22);
    say::rules_read("twins, room for no word", &text, 0);
    say::rules_read("twins without the last newline", &text[..text.len() - 1], 22);
    say::rules_write("twins", &[rule(0), rule(0)].concat(), TEXT.len());
}

const TEXT: &str = "\
rules\t2
rule\t0\t0.0.0.0/0\t0.0.0.0/0\t0\t0\t0\t0\t0\t0
rule\t1\t0.0.0.0/0\t0.0.0.0/0\t0\t0\t0\t0\t0\t1
end\t3
";
