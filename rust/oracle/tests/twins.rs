//! Lists in which a later rule has the words of an earlier one, whatever their actions.

mod texts;
mod worked;

use oracle::program::Found;
use oracle::rule_file::{rule_line, Kind};
use oracle::{
    acl_write, build, line_all, line_first, program, rule_check, rules_read, rules_write, scan_all, scan_first,
    tree_all, tree_check, Answer,
};
use texts::{cut_everywhere, BYTE_AS_FOUND};
use worked::{header, policy, ADDRESS_10_1_2_3, AS_FOUND, NODES, POOL};

fn refused(number: u64, place: u64, extra: u64) -> Answer {
    Answer { number, place, extra, a: 0, b: 0, c: 0, d: 0 }
}

/// These rules of the worked policy, in this order.
fn list(numbers: &[usize]) -> Vec<u32> {
    numbers.iter().flat_map(|&number| policy()[11 * number..11 * number + 11].to_vec()).collect()
}

/// The file of this kind of a list, good or not.
fn file(kind: Kind, words: &[u32]) -> String {
    let count = words.len() / 11;
    let line = |(number, rule)| rule_line(kind, number, rule) + "\n";
    let lines: String = (0..).zip(words.chunks(11)).map(line).collect();
    format!("{}\t{count}\n{lines}end\t{}\n", kind.word(), count + 1)
}

/// Every call that judges the list refuses it so, with room and without, and nothing is written.
fn expect_refused(words: &[u32], refusal: Answer) {
    let head = header(ADDRESS_10_1_2_3, 80, 6);
    assert_eq!(rule_check(words), refusal);
    assert_eq!(tree_check(words, &NODES.concat(), &POOL), refusal);
    assert_eq!(tree_check(words, &[], &[]), refusal);
    for header in [&head[..], &head[..4]] {
        assert_eq!(line_first(words, header), refusal);
        for room in [0, 9] {
            let mut out = vec![AS_FOUND; room];
            assert_eq!(line_all(words, header, &mut out), refusal);
            assert!(out.iter().all(|&word| word == AS_FOUND));
        }
    }
    for room in [0, 2, 3, 600] {
        let [mut nodes, mut pool] = [vec![AS_FOUND; room], vec![AS_FOUND; room]];
        assert_eq!(build(words, &mut nodes, &mut pool), refusal);
        assert!(nodes.iter().chain(&pool).all(|&word| word == AS_FOUND));
        let mut text = vec![BYTE_AS_FOUND; room];
        assert_eq!(rules_write(words, &mut text), refusal);
        assert_eq!(acl_write(words, &mut text), refusal);
        assert!(text.iter().all(|&byte| byte == BYTE_AS_FOUND));
    }
}

/// The reader refuses the text so, with room and without, and nothing is written.
fn expect_unread(text: &str, refusal: Answer) {
    for room in [0, 11, 43, 44, 90] {
        let mut rules = vec![AS_FOUND; room];
        assert_eq!(rules_read(text.as_bytes(), &mut rules), refusal, "{text:?}");
        assert!(rules.iter().all(|&word| word == AS_FOUND));
    }
}

/// Twins, by the rules of the worked policy that a list is made of; the later one, and the earlier one.
const TWINS: [(&[usize], u64, u64); 9] = [
    (&[0, 0], 1, 0),
    (&[0, 1, 0], 2, 0),
    (&[1, 0, 0], 2, 1),
    (&[0, 0, 1, 1], 1, 0),
    (&[0, 1, 1, 0], 2, 1),
    (&[0, 1, 2, 1, 0], 3, 1),
    (&[2, 2, 2, 2], 1, 0),
    (&[0, 1, 2, 2, 2], 3, 2),
    (&[2, 1, 0, 0, 1, 2], 3, 2),
];

#[test]
fn the_lowest_later_rule_is_named_and_the_earlier_one() {
    for (numbers, later, earlier) in TWINS {
        expect_refused(&list(numbers), refused(11, later, earlier));
        for kind in [Kind::Rules, Kind::Acl] {
            expect_unread(&file(kind, &list(numbers)), refused(11, later, earlier));
        }
    }
}

#[test]
fn rules_that_differ_in_one_word_of_their_fields_are_none() {
    let rule = [0x0A00_0000, 8, 0xC0A8_0000, 16, 100, 200, 300, 400, 50, 60, 0];
    for (word, other) in [0x0B00_0000, 9, 0xC0A9_0000, 17, 101, 201, 301, 401, 51, 61].into_iter().enumerate() {
        let mut second = rule;
        second[word] = other;
        assert_eq!(rule_check(&[rule, second].concat()), Answer::completed(2, 0, 0), "word {word}");
        assert_eq!(rule_check(&[rule, second, rule].concat()), refused(11, 2, 0), "word {word}");
        assert_eq!(rule_check(&[rule, second, second].concat()), refused(11, 2, 1), "word {word}");
    }
    let mut turned = rule;
    turned[..4].rotate_left(2);
    turned[4..8].rotate_left(2);
    assert_eq!(rule_check(&[rule, turned].concat()), Answer::completed(2, 0, 0));
}

#[test]
fn the_last_of_512_may_be_a_twin_of_any() {
    let mut words: Vec<u32> = (0..512).flat_map(|port| [0, 0, 0, 0, port, port, 0, 0, 0, 0, 0]).collect();
    assert_eq!(rule_check(&words), Answer::completed(512, 0, 0));
    for earlier in [0, 1, 255, 256, 510] {
        let rule = words[11 * earlier..11 * earlier + 11].to_vec();
        words[5_621..].copy_from_slice(&rule);
        assert_eq!(rule_check(&words), refused(11, 511, earlier as u64));
    }
}

#[test]
fn a_list_of_a_wrong_length_and_a_rule_that_is_not_good_come_first() {
    let twins = list(&[0, 1, 0, 2]);
    expect_refused(&twins[..43], refused(1, 0, 0));
    expect_refused(&[&twins[..], &[0]].concat(), refused(1, 0, 0));
    expect_refused(&twins.repeat(129), refused(1, 0, 0));
    for rule in 0..4 {
        let mut bad = twins.clone();
        bad[11 * rule + 9] = 256;
        expect_refused(&bad, refused(2, rule as u64, 0));
    }
    // Twins that are not good themselves.
    let mut bad = twins;
    (bad[1], bad[23]) = (33, 33);
    expect_refused(&bad, refused(2, 0, 0));
}

#[test]
fn a_text_is_judged_whole_before_its_twins() {
    let text = file(Kind::Rules, &list(&[0, 1, 0, 2]));
    for (cut, lines) in cut_everywhere(&text) {
        expect_unread(cut, refused(10, lines, 0));
    }
    for more in ["x", "\n", "end\t5\n"] {
        expect_unread(&format!("{text}{more}"), refused(9, 7, 0));
    }
    for (old, new, line) in [("rule\t0\t", "rule\t1\t", 2), ("\t0\t255", "\t0\t256", 5), ("end\t5", "end\t4", 6)] {
        expect_unread(&texts::changed(&text, old, new), refused(9, line, 0));
    }
}

#[test]
fn calls_that_judge_no_list_take_twins() {
    let (words, head) = (list(&[0, 1, 0, 2]), header(ADDRESS_10_1_2_3, 80, 6));
    let mut out = [AS_FOUND; 5];
    assert_eq!(scan_all(&words, &head, &mut out), Answer::completed(4, 0, 0));
    assert_eq!(out, [0, 1, 2, 3, AS_FOUND]);
    assert_eq!(scan_first(&words, &head), Answer::completed(1, 0, 0));
    let mut out = [AS_FOUND; 5];
    assert_eq!(tree_all(&words, &[5, 0, 3], &[2, 0, 1], &head, &mut out), Answer::completed(3, 1, 3));
    assert_eq!(out, [2, 0, 1, AS_FOUND, AS_FOUND]);
}

#[test]
fn the_program_ends_with_11() {
    let text = file(Kind::Rules, &list(&[0, 1, 2, 1]));
    let head = b"head\t10.1.2.3\t192.168.0.1\t40000\t80\t6\n";
    for tree in [Found::Missing, Found::Bytes(b"tree\t4\t1\t4\nleaf\t0\t4\t0\t1\t2\t3\nend\t2\n")] {
        assert_eq!(program(Found::Bytes(text.as_bytes()), tree, head), b"refused\t11\t3\t1\n");
    }
}
