//! The program `why`: the words it is started with, its file, and what it writes for each line.

mod texts;
mod worked;

use oracle::program::Found;
use oracle::rule_file::{list_text, Kind};
use oracle::why;
use texts::{changed, cut_everywhere};
use worked::policy;

const RULES: &str = include_str!("../../../examples/worked/rules.txt");

/// Two rules that are narrow in every field, with actions.
const NARROW: &str = "\
acl\t2
rule\t0\t10.0.0.0/8\t192.168.0.0/16\t40000\t50000\t80\t80\t6\t17\t255
rule\t1\t10.1.2.3/32\t192.168.0.1/32\t40000\t40000\t80\t81\t6\t6\t9
end\t3
";

const HEAD: &str = "head\t10.1.2.3\t192.168.0.1\t40000\t80\t6\n";

fn text(text: &str) -> Found<'_> {
    Found::Bytes(text.as_bytes())
}

fn written(word: &str, rules: Found, input: impl AsRef<[u8]>) -> String {
    String::from_utf8(why(&[word.as_bytes()], rules, input.as_ref())).expect("the answers are text")
}

#[test]
fn each_field_has_its_name_and_the_words_of_the_rule() {
    for (old, new, miss) in [
        ("", "", "match\n"),
        ("10.1", "11.1", "misses\t0\tsource\t10.0.0.0/8\n"),
        ("192.168", "192.169", "misses\t1\tdestination\t192.168.0.0/16\n"),
        ("40000", "39999", "misses\t2\tsource port\t40000\t50000\n"),
        ("40000", "65536", "misses\t2\tsource port\t40000\t50000\n"),
        ("\t80", "\t81", "misses\t3\tdestination port\t80\t80\n"),
        ("\t6\n", "\t18\n", "misses\t4\tprotocol\t6\t17\n"),
        ("\t80\t6\n", "\t443\t18\n", "misses\t3\tdestination port\t80\t80\n"),
    ] {
        let line = HEAD.replacen(old, new, 1);
        assert_eq!(written("0", text(NARROW), &line), miss, "{line:?}");
    }
    let line = changed(HEAD, "\t80\t6\n", "\t82\t6\n");
    assert_eq!(written("1", text(NARROW), line), "misses\t3\tdestination port\t80\t81\n");
}

#[test]
fn the_worked_policy_is_answered_alike_with_actions_and_without() {
    let mut words = policy();
    (words[10], words[21], words[32]) = (1, 255, 0);
    let acl = list_text(Kind::Acl, &words).unwrap();
    let lines = format!("{HEAD}{}{}", HEAD.replace("10.1", "11.1"), HEAD.replace("\t80\t", "\t1024\t"));
    for (rule, wanted) in [
        ("0", "match\nmisses\t0\tsource\t10.0.0.0/8\nmisses\t3\tdestination port\t80\t80\n"),
        ("1", "match\nmisses\t0\tsource\t10.1.0.0/16\nmisses\t3\tdestination port\t0\t1023\n"),
        ("2", "match\nmatch\nmatch\n"),
        ("3", "refused\t2\t3\t0\nrefused\t2\t3\t0\nrefused\t2\t3\t0\n"),
        ("4294967295", &"refused\t2\t4294967295\t0\n".repeat(3)),
    ] {
        assert_eq!(written(rule, text(RULES), &lines), wanted);
        assert_eq!(written(rule, text(&acl), &lines), wanted);
    }
}

#[test]
fn any_other_words_write_nothing() {
    for word in ["", "-1", "+0", "00", "01", " 0", "0 ", "0x0", "a", "0.0", "1,0", "4294967296", "18446744073709551616"]
    {
        assert_eq!(written(word, text(RULES), HEAD), "", "{word:?}");
        assert_eq!(written(word, Found::Missing, HEAD), "", "{word:?}");
    }
    for words in [&[][..], &[&b"0"[..], b"0"], &[b"0", b""], &[b"\xFF"]] {
        assert_eq!(why(words, text(RULES), HEAD.as_bytes()), b"");
    }
}

#[test]
fn a_refused_rules_file_ends_the_program() {
    let twins = RULES.replace("10.0.0.0/8", "10.1.0.0/16").replace("80\t80", "0\t1023");
    for (rules, line) in [
        (Found::Missing, "refused\t12\t0\t0\n"),
        (Found::Unreadable, "refused\t12\t0\t0\n"),
        (text(&"\n".repeat(65_537)), "refused\t12\t0\t0\n"),
        (text(&changed(RULES, "rules\t3", "rules\t2")), "refused\t9\t4\t0\n"),
        (text(&twins), "refused\t11\t1\t0\n"),
    ] {
        assert_eq!(written("0", rules, HEAD), line);
        assert_eq!(written("7", rules, ""), line);
    }
    for (cut, lines) in cut_everywhere(RULES) {
        assert_eq!(written("0", text(cut), HEAD), format!("refused\t10\t{lines}\t0\n"));
    }
}

#[test]
fn the_header_is_refused_before_the_number_and_a_line_before_both() {
    let lines = format!("{HEAD}{}wrong\n{}\n{HEAD}x", HEAD.replace("\t6\n", "\t256\n"), "x".repeat(65));
    let wanted = |first: &str| {
        format!("{first}refused\t3\t4\t0\nrefused\t9\t3\t0\nrefused\t9\t4\t0\n{first}refused\t10\t5\t0\n")
    };
    assert_eq!(written("0", text(RULES), &lines), wanted("match\n"));
    assert_eq!(written("3", text(RULES), &lines), wanted("refused\t2\t3\t0\n"));
}
