//! One line for each call: the example, the call, and its answer; behind a colon the output that was lent to it.

use oracle::Answer;
use std::net::Ipv4Addr;

/// What a lent number is before a call.
const AS_FOUND: u32 = 7;

/// A tree: its nodes and its pool.
pub struct Tree {
    pub nodes: Vec<[u32; 3]>,
    pub pool: Vec<u32>,
}

pub fn address(text: &str) -> u32 {
    text.parse::<Ipv4Addr>().expect("an address").into()
}

/// A prefix with every port and protocol, from it to any, and action 0.
pub fn from_prefix(source: u32, length: u32) -> [u32; 11] {
    [source, length, 0, 0, 0, 65_535, 0, 65_535, 0, 255, 0]
}

/// The call with its answer. A completed call has these values.
pub fn line(example: &str, call: &str, answer: Answer, values: &[String], lent: &[u32]) {
    let said = match answer.number {
        0 => values.iter().fold("0".to_string(), |line, value| format!("{line}\t{value}")),
        number => format!("{number}\t{}\t{}", answer.place, answer.extra),
    };
    let lent: String = lent.iter().map(|word| format!("\t{word}")).collect();
    let behind = if lent.is_empty() { String::new() } else { format!("\t:{lent}") };
    println!("{example}\t{call}\t{said}{behind}");
}

fn numbers(values: &[u64]) -> Vec<String> {
    values.iter().map(u64::to_string).collect()
}

/// What a first-match found: the rule, and its action where that is not 0.
fn rule_or_none(answer: Answer) -> Vec<String> {
    let Some(rule) = answer.a.checked_sub(1) else { return vec!["none".to_string()] };
    let mut words = vec!["rule".to_string(), rule.to_string()];
    if answer.d != 0 {
        words.extend(["action".to_string(), answer.d.to_string()]);
    }
    words
}

pub fn rule_check(example: &str, rules: &[u32]) {
    let answer = oracle::rule_check(rules);
    line(example, "rule_check", answer, &numbers(&[answer.a]), &[]);
}

pub fn tree_check(example: &str, rules: &[u32], tree: &Tree) {
    let answer = oracle::tree_check(rules, &tree.nodes.concat(), &tree.pool);
    line(example, "tree_check", answer, &numbers(&[answer.a, answer.b]), &[]);
}

/// All matches by the list, with so much room in three words.
pub fn line_all(example: &str, rules: &[u32], header: &[u32], room: usize) {
    let mut out = [AS_FOUND; 3];
    let answer = oracle::line_all(rules, header, &mut out[..room]);
    line(example, "line_all", answer, &numbers(&[answer.a]), &out);
}

/// All matches by the tree, likewise.
pub fn tree_all(example: &str, rules: &[u32], tree: &Tree, header: &[u32], room: usize) {
    let mut out = [AS_FOUND; 3];
    let answer = oracle::tree_all(rules, &tree.nodes.concat(), &tree.pool, header, &mut out[..room]);
    line(example, "tree_all", answer, &numbers(&[answer.a, answer.b, answer.c]), &out);
}

/// Both searches of the list, with room for three numbers.
pub fn search_list(example: &str, rules: &[u32], header: &[u32]) {
    line_all(example, rules, header, 3);
    let answer = oracle::line_first(rules, header);
    line(example, "line_first", answer, &rule_or_none(answer), &[]);
}

/// Both scans, likewise.
pub fn scan_list(example: &str, rules: &[u32], header: &[u32]) {
    let mut out = [AS_FOUND; 3];
    let answer = oracle::scan_all(rules, header, &mut out);
    line(example, "scan_all", answer, &numbers(&[answer.a]), &out);
    let answer = oracle::scan_first(rules, header);
    line(example, "scan_first", answer, &rule_or_none(answer), &[]);
}

/// Both searches of the tree, likewise.
pub fn search_tree(example: &str, rules: &[u32], tree: &Tree, header: &[u32]) {
    tree_all(example, rules, tree, header, 3);
    let answer = oracle::tree_first(rules, &tree.nodes.concat(), &tree.pool, header);
    let mut values = rule_or_none(answer);
    values.extend(numbers(&[answer.b, answer.c]));
    line(example, "tree_first", answer, &values, &[]);
}

/// The lowest field of this rule that disagrees with the header, or 5 where it matches.
pub fn rule_misses(example: &str, rules: &[u32], header: &[u32], number: u64) {
    let answer = oracle::rule_misses(rules, header, number);
    line(example, "rule_misses", answer, &numbers(&[answer.a]), &[]);
}

/// Writes a list's file without actions into so many bytes, which it hands back.
pub fn rules_write(example: &str, rules: &[u32], room: usize) -> Vec<u8> {
    let mut text = vec![0; room];
    let answer = oracle::rules_write(rules, &mut text);
    line(example, "rules_write", answer, &numbers(&[answer.a]), &[]);
    text
}

/// Writes a list's file with actions, likewise.
pub fn acl_write(example: &str, rules: &[u32], room: usize) -> Vec<u8> {
    let mut text = vec![0; room];
    let answer = oracle::acl_write(rules, &mut text);
    line(example, "acl_write", answer, &numbers(&[answer.a]), &[]);
    text
}

/// Reads a list's file into so many words, which it hands back. Behind the number of rules it says `acl` where the file
/// has actions.
pub fn rules_read(example: &str, text: &[u8], room: usize) -> Vec<u32> {
    let mut rules = vec![0; room];
    let answer = oracle::rules_read(text, &mut rules);
    let mut values = numbers(&[answer.a]);
    if answer.b == 1 {
        values.push("acl".to_string());
    }
    line(example, "rules_read", answer, &values, &[]);
    rules
}

/// Writes a tree's file into so many bytes, which it hands back.
pub fn tree_write(example: &str, rules: u64, tree: &Tree, room: usize) -> Vec<u8> {
    let mut text = vec![0; room];
    let answer = oracle::tree_write(rules, &tree.nodes.concat(), &tree.pool, &mut text);
    line(example, "tree_write", answer, &numbers(&[answer.a]), &[]);
    text
}

/// Reads a tree's file into so many node words and so many pool words, which it hands back.
pub fn tree_read(example: &str, text: &[u8], node_room: usize, pool_room: usize) -> (Vec<u32>, Vec<u32>) {
    let (mut nodes, mut pool) = (vec![0; node_room], vec![0; pool_room]);
    let answer = oracle::tree_read(text, &mut nodes, &mut pool);
    line(example, "tree_read", answer, &numbers(&[answer.a, answer.b, answer.c]), &[]);
    (nodes, pool)
}
