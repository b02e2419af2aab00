//! Good texts of all files, and the words that they are read as.

use oracle::rule_file::{list_text, rule_line, Kind};
use oracle::rules::RULE_WORDS;
use oracle::tree_file::{part_text, tree_text};

use crate::draws::Draws;
use crate::lists::{self, Rule, ACTION, MANNERS};
use crate::trees::{self, Policy};

/// Which of the files a text is read as.
#[derive(Clone, Copy, Debug, PartialEq, Eq)]
pub enum File {
    /// Of either kind: one reader takes both.
    Rules,
    Tree,
    /// Of a build that was stopped.
    Part,
}

/// A text, good or damaged.
#[derive(Clone)]
pub struct Text {
    pub file: File,
    pub bytes: Vec<u8>,
    /// The words of its rules, or of its nodes and its pool. A damaged text has those of the text that it was made of.
    pub needed: [usize; 2],
}

impl Text {
    /// The text of this good list: without actions where all are 0.
    pub fn of_rules(words: &[u32]) -> Text {
        Text::of_list(kind_of(words), words)
    }

    /// The text of this kind of this good list, all of whose actions the kind can hold.
    pub fn of_list(kind: Kind, words: &[u32]) -> Text {
        let text = list_text(kind, words).expect("the list is good");
        Text { file: File::Rules, bytes: text.into(), needed: [words.len(), 0] }
    }

    /// The text of this tree, which is spelt.
    pub fn of_tree(policy: &Policy) -> Text {
        let text = tree_text(policy.rule_count(), &policy.nodes, &policy.pool).expect("the tree is spelt");
        Text { file: File::Tree, bytes: text.into(), needed: [policy.nodes.len(), policy.pool.len()] }
    }

    /// The text of this part, which is spelt.
    pub fn of_part(part: &Policy) -> Text {
        let text = part_text(part.rule_count(), &part.nodes, &part.pool).expect("the part is spelt");
        Text { file: File::Part, bytes: text.into(), needed: [part.nodes.len(), part.pool.len()] }
    }

    /// The text with other bytes.
    pub fn with(&self, bytes: Vec<u8>) -> Text {
        Text { bytes, ..self.clone() }
    }

    /// Its lines, each with its newline.
    pub fn lines(&self) -> Vec<&[u8]> {
        self.bytes.split_inclusive(|&byte| byte == b'\n').collect()
    }
}

/// The kind of file that holds this list, good or not, with no actions on its lines where all are 0.
pub fn kind_of(words: &[u32]) -> Kind {
    let has_actions = words.chunks_exact(RULE_WORDS).any(|rule| rule[ACTION] != 0);
    if has_actions {
        Kind::Acl
    } else {
        Kind::Rules
    }
}

/// A file of these rules, good or not and of any number, whose first line has this count. It is without actions where
/// all are 0.
pub fn rules_file(first: usize, rules: &[Rule]) -> Text {
    list_file(kind_of(&rules.concat()), first, rules)
}

/// The same, of this kind.
pub fn list_file(kind: Kind, first: usize, rules: &[Rule]) -> Text {
    let lines: String = (0..).zip(rules).map(|(number, rule)| rule_line(kind, number, rule) + "\n").collect();
    let bytes = format!("{}\t{first}\n{lines}end\t{}\n", kind.word(), rules.len() + 1).into_bytes();
    Text { file: File::Rules, bytes, needed: [RULE_WORDS * rules.len(), 0] }
}

/// The texts of the worked policy.
pub fn worked() -> [Text; 2] {
    let policy = trees::worked().policy;
    [Text::of_rules(&policy.rules), Text::of_tree(&policy)]
}

/// A short text of either file: few rules, or few nodes. Some trees are spelt and no more.
pub fn short(draws: &mut Draws) -> Text {
    let size = draws.below(4);
    let manner = draws.pick(&MANNERS);
    let list = lists::good_list(draws, size, manner);
    match draws.below(4) {
        0 | 1 => Text::of_rules(&list.words()),
        2 => Text::of_tree(&trees::grown(&list, 2, draws).policy),
        _ => {
            let nodes = 1 + draws.below(5);
            Text::of_tree(&trees::spelt(size, nodes, draws))
        }
    }
}

/// The worked policy's texts and so many drawn short ones, each with its name.
pub fn several(first_seed: u64, drawn: u64) -> Vec<(String, Text)> {
    let drawn = (first_seed..first_seed + drawn)
        .map(|seed| (format!("seed {seed}, short text"), short(&mut Draws::seeded(seed))));
    worked().map(|text| (format!("worked policy, {:?} file", text.file), text)).into_iter().chain(drawn).collect()
}
