//! The limits and the refusals' numbers are those of the C header, and the limits are those of the proved code.

use wickorchard::{limits, Refusal};

const C_HEADER: &str = include_str!("../../../include/wickorchard.h");
const FIELDS: &str = include_str!("../../../crates/fields/src/header.rt");
const PORTS: &str = include_str!("../../../crates/fields/src/port.rt");
const PREFIX: &str = include_str!("../../../crates/fields/src/prefix.rt");
const RULES: &str = include_str!("../../../crates/rules/src/words.rt");
const TREES: &str = include_str!("../../../crates/trees/src/words.rt");
const TREE_CHECK: &str = include_str!("../../../crates/tree_check/src/check.rt");

/// The number that stands behind these words, which stand there once. The bits of a word are named, and not spelt out.
fn number_behind(text: &str, words: &str) -> u64 {
    let parts: Vec<&str> = text.split(words).collect();
    assert_eq!(parts.len(), 2, "{words:?} stands there once");
    if parts[1].starts_with("u32::BITS;") {
        return u32::BITS.into();
    }
    let digits: String = parts[1].chars().take_while(|byte| byte.is_ascii_digit() || *byte == '_').collect();
    digits.replace('_', "").parse().expect("a number stands behind them")
}

fn in_c(name: &str) -> u64 {
    number_behind(C_HEADER, &format!(" WICK_{name} = "))
}

#[test]
fn the_limits_are_those_of_the_c_header() {
    for (name, ours) in [
        ("RULE_WORDS", limits::RULE_WORDS),
        ("ACTION", limits::ACTION),
        ("HEADER_WORDS", limits::HEADER_WORDS),
        ("NODE_WORDS", limits::NODE_WORDS),
        ("LEAF", limits::LEAF as usize),
        ("ADDRESS_BITS", limits::ADDRESS_BITS as usize),
        ("LARGEST_PORT", limits::LARGEST_PORT as usize),
        ("ABSENT_PORT", limits::ABSENT_PORT as usize),
        ("LARGEST_PROTOCOL", limits::LARGEST_PROTOCOL as usize),
        ("LARGEST_ACTION", limits::LARGEST_ACTION as usize),
        ("MOST_RULES", limits::MOST_RULES),
        ("MOST_RULE_WORDS", limits::MOST_RULE_WORDS),
        ("MOST_NODES", limits::MOST_NODES),
        ("MOST_NODE_WORDS", limits::MOST_NODE_WORDS),
        ("MOST_POOL_WORDS", limits::MOST_POOL_WORDS),
        ("MOST_CUTS", limits::MOST_CUTS),
        ("MOST_FILE_BYTES", limits::MOST_FILE_BYTES),
    ] {
        assert_eq!(in_c(name), ours as u64, "{name}");
    }
}

#[test]
fn the_limits_are_those_of_the_proved_code() {
    for (text, words, ours) in [
        (RULES, "RULE_WORDS: usize = ", limits::RULE_WORDS),
        (RULES, "MATCH_WORDS: usize = ", limits::ACTION),
        (RULES, "MOST_RULES: usize = ", limits::MOST_RULES),
        (RULES, "LARGEST_PROTOCOL: u32 = ", limits::LARGEST_PROTOCOL as usize),
        (RULES, "LARGEST_ACTION: u32 = ", limits::LARGEST_ACTION as usize),
        (FIELDS, "FIELDS: usize = ", limits::HEADER_WORDS),
        (FIELDS, "FIELDS: usize = ", limits::LEAF as usize),
        (PORTS, "LARGEST_PORT: u32 = ", limits::LARGEST_PORT as usize),
        (PORTS, "ABSENT_PORT: u32 = ", limits::ABSENT_PORT as usize),
        (PREFIX, "ADDRESS_BITS: u32 = ", limits::ADDRESS_BITS as usize),
        (TREES, "NODE_WORDS: usize = ", limits::NODE_WORDS),
        (TREES, "MOST_NODES: usize = ", limits::MOST_NODES),
        (TREES, "MOST_POOL: usize = ", limits::MOST_POOL_WORDS),
        (TREE_CHECK, "MOST_CUTS: usize = ", limits::MOST_CUTS),
    ] {
        assert_eq!(number_behind(text, words), ours as u64, "{words}");
    }
}

#[test]
fn the_refusals_have_the_numbers_of_the_c_header() {
    for (name, refusal) in [
        ("RULE_WORDS_WRONG", Refusal::RuleWordsWrong),
        ("RULE_NOT_GOOD", Refusal::RuleNotGood { rule: 7 }),
        ("HEADER_WRONG", Refusal::HeaderWrong { field: 4 }),
        ("OUTPUT_SHORT", Refusal::OutputShort { needed: 7 }),
        ("OUTPUT_SHORT", Refusal::PoolShort { needed: 7 }),
        ("TREE_WORDS_WRONG", Refusal::TreeWordsWrong),
        ("NODE_WRONG", Refusal::NodeWrong { node: 7 }),
        ("LEAF_WRONG", Refusal::LeafWrong { node: 7 }),
        ("LEAF_LACKS_RULE", Refusal::LeafLacksRule { node: 7, rule: 8 }),
        ("LINE_WRONG", Refusal::LineWrong { line: 7 }),
        ("TEXT_STOPS", Refusal::TextStops { lines: 7 }),
        ("RULE_HAS_TWIN", Refusal::RuleHasTwin { rule: 7, earlier: 6 }),
    ] {
        assert_eq!(in_c(name), refusal.number_place_extra().0, "{name}");
    }
}
