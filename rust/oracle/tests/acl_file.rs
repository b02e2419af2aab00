//! The rules file of kind `acl`, which has the actions, and how the two kinds are told apart.

mod texts;
mod worked;

use oracle::{acl_write, rules_read, rules_write, Answer};
use texts::{changed, cut_everywhere, BYTE_AS_FOUND};
use worked::{policy, AS_FOUND};

/// The worked policy with the actions 1, 255 and 0.
const TEXT: &str = "acl\t3
rule\t0\t10.0.0.0/8\t0.0.0.0/0\t0\t65535\t80\t80\t6\t6\t1
rule\t1\t10.1.0.0/16\t0.0.0.0/0\t0\t65535\t0\t1023\t6\t6\t255
rule\t2\t0.0.0.0/0\t0.0.0.0/0\t0\t65535\t0\t65535\t0\t255\t0
end\t4
";

fn with_actions(actions: [u32; 3]) -> Vec<u32> {
    let mut words = policy();
    (words[10], words[21], words[32]) = actions.into();
    words
}

fn refused(number: u64, place: u64) -> Answer {
    Answer { number, place, extra: 0, a: 0, b: 0, c: 0, d: 0 }
}

/// The text is refused so, with room and without, and nothing is written.
fn expect_refused(text: &str, number: u64, place: u64) {
    for room in [0, 33, 50] {
        let mut rules = vec![AS_FOUND; room];
        assert_eq!(rules_read(text.as_bytes(), &mut rules), refused(number, place), "{text:?}");
        assert!(rules.iter().all(|&word| word == AS_FOUND));
    }
}

fn with(old: &str, new: &str) -> String {
    changed(TEXT, old, new)
}

/// The text without its actions, and of the other kind.
fn plain_text() -> String {
    let lines = TEXT.lines().map(|line| match line.strip_prefix("rule\t") {
        Some(_) => line.rsplit_once('\t').expect("an action is last").0,
        None => line,
    });
    lines.map(|line| line.replace("acl", "rules") + "\n").collect()
}

#[test]
fn the_list_is_written_and_read_back_with_its_kind() {
    let words = with_actions([1, 255, 0]);
    for spare in [0, 1, 9] {
        let mut text = vec![BYTE_AS_FOUND; TEXT.len() + spare];
        assert_eq!(acl_write(&words, &mut text), Answer::completed(TEXT.len() as u64, 0, 0));
        assert_eq!(&text[..TEXT.len()], TEXT.as_bytes());
        assert!(text[TEXT.len()..].iter().all(|&byte| byte == BYTE_AS_FOUND));

        let mut rules = vec![AS_FOUND; 33 + spare];
        assert_eq!(rules_read(TEXT.as_bytes(), &mut rules), Answer::completed(3, 1, 0));
        assert_eq!(&rules[..33], words);
        assert!(rules[33..].iter().all(|&word| word == AS_FOUND));
    }
}

#[test]
fn actions_of_0_are_written_by_both_and_read_with_the_kind_they_were_written_as() {
    let mut text = [0; 300];
    for (writer, kind) in [(rules_write as fn(&[u32], &mut [u8]) -> Answer, 0), (acl_write, 1)] {
        let bytes = writer(&policy(), &mut text).a as usize;
        let mut rules = [AS_FOUND; 33];
        assert_eq!(rules_read(&text[..bytes], &mut rules), Answer::completed(3, kind, 0));
        assert_eq!(rules, policy()[..]);
    }
}

#[test]
fn a_file_of_no_rules_has_its_kind() {
    assert_eq!(rules_read(b"acl\t0\nend\t1\n", &mut []), Answer::completed(0, 1, 0));
    assert_eq!(rules_read(b"rules\t0\nend\t1\n", &mut []), Answer::completed(0, 0, 0));
    let mut text = [0; 12];
    assert_eq!(acl_write(&[], &mut text), Answer::completed(12, 0, 0));
    assert_eq!(&text, b"acl\t0\nend\t1\n");
}

#[test]
fn the_room_is_eleven_words_a_rule_for_both_kinds() {
    for text in [TEXT, &plain_text()] {
        for room in [0, 30, 32] {
            let mut rules = vec![AS_FOUND; room];
            assert_eq!(rules_read(text.as_bytes(), &mut rules), refused(4, 33));
            assert!(rules.iter().all(|&word| word == AS_FOUND));
        }
    }
}

#[test]
fn the_kinds_lines_are_told_apart() {
    assert_eq!(rules_read(plain_text().as_bytes(), &mut [0; 33]), Answer::completed(3, 0, 0));
    expect_refused(&with("acl\t3", "rules\t3"), 9, 2);
    expect_refused(&plain_text().replace("rules\t3", "acl\t3"), 9, 2);
    expect_refused(&with("\t6\t6\t255", "\t6\t6"), 9, 3);
    expect_refused(&with("\t6\t6\t255", "\t6\t6\t"), 9, 3);
    expect_refused(&with("\t6\t6\t255", "\t6\t6\t255\t"), 9, 3);
    expect_refused(&with("\t6\t6\t255", "\t6\t6\t255\t0"), 9, 3);
    for word in ["", "a", "ac", "aclx", "Acl", "acl ", "acl6", "rul", "rule", "aclrules", "part", "tree"] {
        expect_refused(&with("acl\t3", &format!("{word}\t3")), 9, 1);
    }
    for cut in ["", "a", "ac", "acl", "acl\t", "acl\t3", "rul", "aclx"] {
        expect_refused(cut, 10, 0);
        expect_refused(&format!("{cut}\n"), if cut == "acl\t3" { 10 } else { 9 }, 1);
    }
}

#[test]
fn an_action_on_a_line_is_from_0_to_255_in_decimal() {
    for wrong in
        ["256", "257", "1000", "4294967295", "4294967296", "4294967551", "00", "01", "+1", "-1", " 1", "1 ", "x"]
    {
        expect_refused(&with("\t6\t6\t255", &format!("\t6\t6\t{wrong}")), 9, 3);
    }
    for action in [0, 1, 9, 10, 99, 100, 254, 255] {
        let mut rules = [AS_FOUND; 33];
        let text = with("\t6\t6\t255", &format!("\t6\t6\t{action}"));
        assert_eq!(rules_read(text.as_bytes(), &mut rules), Answer::completed(3, 1, 0));
        assert_eq!(rules, with_actions([1, action, 0])[..]);
    }
}

#[test]
fn a_text_that_is_cut_is_10_after_its_whole_lines() {
    for (cut, lines) in cut_everywhere(TEXT) {
        expect_refused(cut, 10, lines);
    }
}

#[test]
fn a_writer_refuses_with_1_2_11_then_4() {
    let mut text = [BYTE_AS_FOUND; 200];
    let words = with_actions([1, 255, 0]);
    assert_eq!(acl_write(&words, &mut text[..TEXT.len() - 1]), refused(4, TEXT.len() as u64));
    let twins = [&words[..], &words[..10], &[9]].concat();
    assert_eq!(acl_write(&twins, &mut []), refused(11, 3));
    let mut bad = twins.clone();
    bad[32] = 256;
    assert_eq!(acl_write(&bad, &mut []), refused(2, 2));
    assert_eq!(acl_write(&bad[..40], &mut []), refused(1, 0));
    assert_eq!(text, [BYTE_AS_FOUND; 200]);
}

#[test]
fn the_writer_without_actions_refuses_them_with_2() {
    let mut text = [BYTE_AS_FOUND; 300];
    for (actions, place) in [([1, 0, 0], 0), ([0, 1, 0], 1), ([0, 0, 255], 2), ([0, 256, 1], 1), ([0, 3, 300], 1)] {
        let words = with_actions(actions);
        // With room and without, and with twins: 2 is first.
        let twins = [&words[..], &words[..10], &[0]].concat();
        for words in [words, twins] {
            assert_eq!(rules_write(&words, &mut text), refused(2, place));
            assert_eq!(rules_write(&words, &mut []), refused(2, place));
        }
    }
    // A rule that is not good in another word counts as well, whichever is lower.
    for (bad, action, place) in [(0, 2, 0), (2, 0, 0), (1, 2, 1), (2, 1, 1)] {
        let mut words = policy();
        (words[11 * bad + 1], words[11 * action + 10]) = (33, 5);
        assert_eq!(rules_write(&words, &mut text), refused(2, place));
    }
    assert_eq!(rules_write(&with_actions([0, 5, 0])[..32], &mut text), refused(1, 0));
    let twins = [&policy()[..], &policy()[..11]].concat();
    assert_eq!(rules_write(&twins, &mut []), refused(11, 3));
    assert_eq!(text, [BYTE_AS_FOUND; 300]);
}
