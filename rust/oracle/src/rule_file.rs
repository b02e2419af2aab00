//! The rules file, of two kinds: a line `rules` or `acl`, a line for each rule, and the end line. The lines of an `acl`
//! file have the actions.

use crate::answer::{Answer, Refusal};
use crate::rules::{is_good, judge_rules_by, judge_twins, rule_of, FIELD_WORDS, MOST_RULES, RULE_WORDS};
use crate::text::{address, number, numbers, parts, put_text, text_of, Lines};

/// Which of the two a file is.
#[derive(Clone, Copy, Debug, PartialEq, Eq)]
pub enum Kind {
    /// Its lines have no actions: the action of each rule is 0.
    Rules,
    /// Each rule's action is last on its line.
    Acl,
}

impl Kind {
    /// The word that its first line begins with.
    pub fn word(self) -> &'static str {
        match self {
            Kind::Rules => "rules",
            Kind::Acl => "acl",
        }
    }

    /// How many of a rule's words stand on its line.
    fn words_on_line(self) -> usize {
        match self {
            Kind::Rules => FIELD_WORDS,
            Kind::Acl => RULE_WORDS,
        }
    }
}

/// Writes the list as a `rules` file: 1; 2 at the lowest rule that is not good or has another action than 0; 11; then
/// 4. `put_text` says what a completed writer gives.
pub fn rules_write(rules: &[u32], text: &mut [u8]) -> Answer {
    put_text(list_text(Kind::Rules, rules), text)
}

/// Writes the list as an `acl` file: 1, 2, 11, then 4. `put_text` says what a completed writer gives.
pub fn acl_write(rules: &[u32], text: &mut [u8]) -> Answer {
    put_text(list_text(Kind::Acl, rules), text)
}

/// The text of this kind for a good list; otherwise refusal 1, 2 or 11. An action that would not be on the line is 2.
pub fn list_text(kind: Kind, words: &[u32]) -> Result<String, Refusal> {
    let list = judge_rules_by(words, |rule| is_good(rule) && (kind == Kind::Acl || rule.action == 0))?;
    let mut lines = vec![format!("{}\t{}", kind.word(), list.len())];
    lines.extend((0..).zip(words.chunks_exact(RULE_WORDS)).map(|(rule, words)| rule_line(kind, rule, words)));
    Ok(text_of(lines))
}

/// The line, in a file of this kind, of the rule that these eleven words are, good or not.
pub fn rule_line(kind: Kind, rule: u32, words: &[u32]) -> String {
    let mut fields = vec!["rule".to_string(), rule.to_string(), prefix_text(&words[..2]), prefix_text(&words[2..4])];
    fields.extend(words[4..kind.words_on_line()].iter().map(u32::to_string));
    fields.join("\t")
}

fn prefix_text(pair: &[u32]) -> String {
    let [a, b, c, d] = pair[0].to_be_bytes();
    format!("{a}.{b}.{c}.{d}/{}", pair[1])
}

/// Reads a list from a text of either kind, and writes its words to the start of `rules`: 9 or 10, then 11, then 4. A
/// completed reader gives `a`, the number of rules, and `b`, 1 for an `acl` file and 0 for a `rules` file; the rest of
/// `rules` is as found. So is all of it on a refusal.
pub fn rules_read(text: &[u8], rules: &mut [u32]) -> Answer {
    match read_words(text) {
        Err(refusal) => Answer::refused(refusal),
        Ok((_, words)) if words.len() > rules.len() => Answer::refused(Refusal::OutputShort { needed: words.len() }),
        Ok((kind, words)) => {
            rules[..words.len()].copy_from_slice(&words);
            Answer::completed((words.len() / RULE_WORDS) as u64, u64::from(kind == Kind::Acl), 0)
        }
    }
}

/// The kind of the text, and the words of its list; otherwise 9 or 10, and 11 where the text is right to its end.
fn read_words(text: &[u8]) -> Result<(Kind, Vec<u32>), Refusal> {
    let mut lines = Lines::of(text);
    let (kind, count) = lines.next(|fields| {
        let [word, count] = fields else { return None };
        let kind = [Kind::Rules, Kind::Acl].into_iter().find(|kind| kind.word().as_bytes() == *word)?;
        number(count).filter(|&count| count as usize <= MOST_RULES).map(|count| (kind, count))
    })?;
    let mut words = Vec::new();
    for rule in 0..count {
        words.extend(lines.next(|fields| read_rule(kind, fields, rule))?);
    }
    lines.end(true)?;
    judge_twins(&words)?;
    Ok((kind, words))
}

/// The eleven words of a line that is this rule's, and holds a good one. An action that is not on the line is 0.
fn read_rule(kind: Kind, fields: &[&[u8]], rule: u32) -> Option<Vec<u32>> {
    let [b"rule", own, source, destination, rest @ ..] = fields else { return None };
    let mut words = [read_prefix(source)?, read_prefix(destination)?, numbers(rest)?].concat();
    if number(own)? != rule || words.len() != kind.words_on_line() {
        return None;
    }
    words.resize(RULE_WORDS, 0);
    is_good(&rule_of(&words)).then_some(words)
}

/// The address and the length of `a.b.c.d/len`, whatever the length is.
fn read_prefix(field: &[u8]) -> Option<Vec<u32>> {
    let [dotted, length] = parts(field, b'/')[..] else { return None };
    Some(vec![address(dotted)?, number(length)?])
}
