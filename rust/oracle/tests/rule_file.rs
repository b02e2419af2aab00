//! The rules file: the worked policy's, and texts and lists that are refused.

mod texts;
mod worked;

use oracle::{rules_read, rules_write, Answer};
use texts::{changed, cut_everywhere, BYTE_AS_FOUND};
use worked::{policy, AS_FOUND};

const TEXT: &str = "rules\t3
rule\t0\t10.0.0.0/8\t0.0.0.0/0\t0\t65535\t80\t80\t6\t6
rule\t1\t10.1.0.0/16\t0.0.0.0/0\t0\t65535\t0\t1023\t6\t6
rule\t2\t0.0.0.0/0\t0.0.0.0/0\t0\t65535\t0\t65535\t0\t255
end\t4
";

fn refused(number: u64, place: u64) -> Answer {
    Answer { number, place, extra: 0, a: 0, b: 0, c: 0, d: 0 }
}

/// The text is refused so, with room and without, and nothing is written.
fn expect_refused(text: &str, number: u64, place: u64) {
    for room in [0, 33, 50] {
        let mut rules = vec![AS_FOUND; room];
        assert_eq!(rules_read(text.as_bytes(), &mut rules), refused(number, place), "{text:?}");
        assert!(rules.iter().all(|&word| word == AS_FOUND));
    }
}

/// The worked policy's text with this in place of that.
fn with(old: &str, new: &str) -> String {
    changed(TEXT, old, new)
}

/// A text of so many rules that match everything from a source port on, each from another.
fn text_of(count: usize) -> String {
    let rule = |number| format!("rule\t{number}\t0.0.0.0/0\t0.0.0.0/0\t{number}\t65535\t0\t65535\t0\t255\n");
    let rules: String = (0..count).map(rule).collect();
    format!("rules\t{count}\n{rules}end\t{}\n", count + 1)
}

#[test]
fn the_policy_is_written_and_read_back() {
    for spare in [0, 1, 9] {
        let mut text = vec![BYTE_AS_FOUND; TEXT.len() + spare];
        assert_eq!(rules_write(&policy(), &mut text), Answer::completed(TEXT.len() as u64, 0, 0));
        assert_eq!(&text[..TEXT.len()], TEXT.as_bytes());
        assert!(text[TEXT.len()..].iter().all(|&byte| byte == BYTE_AS_FOUND));

        let mut rules = vec![AS_FOUND; 33 + spare];
        assert_eq!(rules_read(TEXT.as_bytes(), &mut rules), Answer::completed(3, 0, 0));
        assert_eq!(&rules[..33], policy());
        assert!(rules[33..].iter().all(|&word| word == AS_FOUND));
    }
}

#[test]
fn a_writer_refuses_with_1_2_then_4() {
    let mut text = [BYTE_AS_FOUND; 200];
    let length = TEXT.len();
    assert_eq!(rules_write(&policy(), &mut text[..length - 1]), refused(4, length as u64));
    assert_eq!(rules_write(&policy(), &mut []), refused(4, length as u64));
    let mut bad = policy();
    bad[20] = 256;
    assert_eq!(rules_write(&bad, &mut []), refused(2, 1));
    assert_eq!(rules_write(&bad[..32], &mut text), refused(1, 0));
    assert_eq!(rules_write(&policy().repeat(171), &mut text), refused(1, 0));
    assert_eq!(text, [BYTE_AS_FOUND; 200]);
}

#[test]
fn room_that_is_short_is_4_with_the_words_needed() {
    for room in [0, 1, 30, 32] {
        let mut rules = vec![AS_FOUND; room];
        assert_eq!(rules_read(TEXT.as_bytes(), &mut rules), refused(4, 33));
        assert!(rules.iter().all(|&word| word == AS_FOUND));
    }
    assert_eq!(rules_read(b"rules\t0\nend\t1\n", &mut []), Answer::completed(0, 0, 0));
}

#[test]
fn a_text_that_is_cut_is_10_after_its_whole_lines() {
    for (cut, lines) in cut_everywhere(TEXT) {
        expect_refused(cut, 10, lines);
    }
}

#[test]
fn a_last_part_without_newline_is_not_read() {
    expect_refused("no text\r\0", 10, 0);
    expect_refused("rules\t513", 10, 0);
    expect_refused("rules\t1\nend\t9\t9", 10, 1);
    expect_refused(&TEXT.replace("end\t4\n", "rule"), 10, 4);
    // A whole line that is wrong comes before the text's end.
    expect_refused("rules\t1\nend\t1\nrule", 9, 2);
    expect_refused("\n", 9, 1);
    expect_refused("", 10, 0);
}

#[test]
fn nothing_follows_the_end_line() {
    for more in ["x", "\n", "\0", "end\t4\n", "end\t5\n", TEXT] {
        expect_refused(&format!("{TEXT}{more}"), 9, 6);
    }
}

#[test]
fn numbers_are_decimal_without_leading_zeros_within_32_bits() {
    for wrong in
        ["", "03", "+3", "-3", " 3", "3 ", "3\r", "3\0", "0x3", "3.0", "4294967299", "18446744073709551619", "٣"]
    {
        expect_refused(&with("rules\t3", &format!("rules\t{wrong}")), 9, 1);
        expect_refused(&with("end\t4", &format!("end\t{wrong}")), 9, 5);
    }
    expect_refused(&with("rule\t1", "rule\t01"), 9, 3);
    expect_refused(&with("rule\t1", "rule\t2"), 9, 3);
    expect_refused(&with("rule\t1", "rule\t4294967297"), 9, 3);
    expect_refused(&with("end\t4", "end\t3"), 9, 5);
    expect_refused(&with("end\t4", "end\t5"), 9, 5);
}

#[test]
fn addresses_are_four_octets_and_a_length() {
    let wrong = [
        "10.1.0/16",
        "10.1.0.0.0/16",
        "10.1.0.0",
        "10.1.0.0/",
        "10.1.0.0/16/16",
        "10.256.0.0/16",
        "10.01.0.0/16",
        "10.257.0.0/16",
        "266.1.0.0/16",
        "10..0.0/16",
        ".1.0.0/16",
        "10.1.0.0/016",
        "10.1.0.0 /16",
    ];
    for prefix in wrong {
        expect_refused(&with("10.1.0.0/16", prefix), 9, 3);
    }
}

#[test]
fn a_rule_must_be_good() {
    expect_refused(&with("10.1.0.0/16", "10.1.0.0/15"), 9, 3);
    expect_refused(&with("10.1.0.0/16", "10.1.0.0/33"), 9, 3);
    expect_refused(&with("\t1023", "\t65536"), 9, 3);
    expect_refused(&with("\t80\t80", "\t80\t79"), 9, 2);
    expect_refused(&with("\t255", "\t256"), 9, 4);
    expect_refused(&with("\t0\t255", "\t4294967296\t255"), 9, 4);
    // A bad rule shows at its line, before the text's end, and 4 comes after both.
    expect_refused(&TEXT[..TEXT.len() - 1].replace("/16", "/15"), 9, 3);
}

#[test]
fn tabs_and_lines_are_as_many_as_they_must_be() {
    expect_refused(&with("rules\t3", "rules\t3\t"), 9, 1);
    expect_refused(&with("rules\t3", "rules\t\t3"), 9, 1);
    expect_refused(&with("rules\t3", "rules"), 9, 1);
    expect_refused(&with("\t80\t80\t6\t6", "\t80\t80\t6"), 9, 2);
    expect_refused(&with("\t80\t80\t6\t6", "\t80\t80\t6\t6\t6"), 9, 2);
    expect_refused(&with("\t80\t80\t6\t6", "\t80\t80\t6\t6\t"), 9, 2);
    expect_refused(&with("end\t4", "end\t4\t"), 9, 5);
    expect_refused(&with("end\t4", "\nend\t5"), 9, 5);
    expect_refused(&TEXT.replace('\n', "\r\n"), 9, 1);
    expect_refused(&with("rules\t3", "rules\t4"), 9, 5);
    expect_refused(&with("rules\t3", "rules\t2"), 9, 4);
    expect_refused(&with("rules", "rule"), 9, 1);
    expect_refused(&with("end", "End"), 9, 5);
}

#[test]
fn a_file_holds_512_rules_and_not_513() {
    let mut rules = vec![AS_FOUND; 5_633];
    assert_eq!(rules_read(text_of(512).as_bytes(), &mut rules), Answer::completed(512, 0, 0));
    assert_eq!(rules[5_632], AS_FOUND);
    assert_eq!(rules_read(text_of(512).as_bytes(), &mut rules[..5_631]), refused(4, 5_632));
    expect_refused(&text_of(513), 9, 1);
    let mut text = vec![0; text_of(512).len()];
    assert_eq!(rules_write(&rules[..5_632], &mut text), Answer::completed(text.len() as u64, 0, 0));
    assert_eq!(text, text_of(512).as_bytes());
}

#[test]
fn two_good_files_can_be_stitched_to_one() {
    let other = with("\t80\t80", "\t81\t81");
    let seam = TEXT.find("rule\t1").expect("the line is there");
    let stitched = [&other[..seam], &TEXT[seam..]].concat();
    assert_eq!(rules_read(stitched.as_bytes(), &mut [0; 33]), Answer::completed(3, 0, 0));
}
