//! The program's two files: missing, unreadable, cut at every byte, at the limit of their length, and with twins.

use crate::bench::Run;
use crate::draws::Draws;
use crate::heads;
use crate::lists;
use crate::placed::Placed;
use crate::process::Feed;
use crate::texts::{self, Text};
use crate::trees;
use crate::trials::{Stand, Trials};

/// The most bytes of a file that is read.
pub const MOST_BYTES: usize = 65_536;

pub fn run(trials: &mut Trials) -> Run {
    trials.group("files missing, folders, links to themselves, reading that fails", unreadable)?;
    trials.group("rules.txt empty, and cut at every byte", cut_rules)?;
    trials.group("tree.txt empty, and cut at every byte", cut_trees)?;
    trials.group("files of 65,535, 65,536 and 65,537 bytes, and longer", long_files)?;
    trials.group("files that come through a pipe, so that every read is short", piped_files)?;
    trials.group("rules.txt with twins, beside trees and none", twins)
}

fn worked() -> [Vec<u8>; 2] {
    texts::worked().map(|text| text.bytes)
}

/// The worked policy with this in place of its tree.
fn with_tree(tree: Placed) -> Stand {
    let [rules, _] = worked();
    Stand::placed(Placed::file(rules), tree)
}

/// The worked policy with this in place of its rules.
fn with_rules(rules: Placed) -> Stand {
    let [_, tree] = worked();
    Stand::placed(rules, Placed::file(tree))
}

/// The lines that the files' groups send.
fn input() -> Vec<u8> {
    heads::several().concat().into_bytes()
}

fn unreadable(trials: &mut Trials) -> Run {
    let [rules, tree] = worked();
    let mut kinds: Vec<[Placed; 2]> = Vec::new();
    kinds.extend([Placed::Missing, Placed::Folder, Placed::Loop, Placed::ReadError].map(|kind| [kind.clone(), kind]));
    if trials.locks_hold() {
        kinds.push([Placed::Locked(rules), Placed::Locked(tree)]);
    } else {
        trials.note("this user can read locked files, so none was tried");
    }
    for [rules, tree] in kinds {
        let case = format!("{rules:?}");
        trials.compare(&case, &with_rules(rules.clone()), &input(), Feed::File)?;
        trials.compare(&case, &with_tree(tree.clone()), &input(), Feed::File)?;
        trials.compare(&case, &Stand::placed(rules, tree), &input(), Feed::File)?;
    }
    Ok(())
}

fn cut_rules(trials: &mut Trials) -> Run {
    let [rules, _] = worked();
    for length in 0..rules.len() {
        let wrote = trials.compare("cut", &with_rules(Placed::file(&rules[..length])), &input(), Feed::File)?;
        assert_eq!(wrote, refused_10(&rules[..length]), "a cut list answers nothing");
    }
    Ok(())
}

/// Each cut of the tree is refused, and leaves the answers those of the written list.
fn cut_trees(trials: &mut Trials) -> Run {
    let [rules, tree] = worked();
    let answers = trials.compare("whole", &Stand::of(&*rules, &*tree), &input(), Feed::File)?;
    for length in 0..tree.len() {
        let wrote = trials.compare("cut", &with_tree(Placed::file(&tree[..length])), &input(), Feed::File)?;
        assert_eq!(
            wrote,
            [refused_10(&tree[..length]), answers.clone()].concat(),
            "a cut tree leaves the list's answers"
        );
    }
    Ok(())
}

/// The refusal of a text that is cut: 10, with its whole lines.
pub fn refused_10(text: &[u8]) -> Vec<u8> {
    let lines = text.iter().filter(|&&byte| byte == b'\n').count();
    format!("refused\t10\t{lines}\t0\n").into_bytes()
}

/// Texts of exactly these lengths. No list and no well formed tree is so long, but a tree that is spelt can be: the
/// check refuses it with 7, where one that is too long is 12, and one that is read in part 10.
fn long_files(trials: &mut Trials) -> Run {
    for length in [MOST_BYTES - 1, MOST_BYTES, MOST_BYTES + 1, MOST_BYTES + 2, 2 * MOST_BYTES, 3 * MOST_BYTES + 7] {
        for text in long_texts(length) {
            assert_eq!(text.len(), length, "a text of this length");
            let case = format!("{length} bytes");
            trials.compare(&case, &with_rules(Placed::file(&*text)), &input(), Feed::File)?;
            trials.compare(&case, &with_tree(Placed::file(&*text)), &input(), Feed::File)?;
        }
    }
    for length in [60_000, MOST_BYTES - 1, MOST_BYTES, MOST_BYTES + 1] {
        let tree = Placed::File(tree_of_length(length));
        let wrote = trials.compare(&format!("tree of {length} bytes"), &with_tree(tree), b"", Feed::File)?;
        let wanted: &[u8] = if length > MOST_BYTES { b"refused\t12\t0\t0\n" } else { b"refused\t7\t2039\t0\n" };
        assert_eq!(wrote, wanted, "a spelt tree of {length} bytes");
    }
    Ok(())
}

/// A wrong line, a last part, newlines, zeros, and both files with something after their end.
fn long_texts(length: usize) -> Vec<Vec<u8>> {
    let mut texts: Vec<Vec<u8>> = [b'x', b'\n', 0].map(|byte| vec![byte; length]).to_vec();
    let mut one_line = vec![b'x'; length];
    one_line[length - 1] = b'\n';
    texts.push(one_line);
    for mut text in worked() {
        text.resize(length, b'\n');
        texts.push(text);
    }
    texts
}

/// A tree file of this length, from 53,000 to 71,000 bytes. It is spelt: eight leaves, which list one rule again and
/// again, follow cuts whose values are as long as need be.
fn tree_of_length(length: usize) -> Vec<u8> {
    let mut policy = trees::longest();
    let mut over = Text::of_tree(&policy).bytes.len() - length;
    for cut in policy.nodes.chunks_exact_mut(3).filter(|node| node[0] < 5) {
        let shorter = over.min(9);
        cut[1] = 4_000_000_000 / 10_u32.pow(shorter as u32);
        over -= shorter;
    }
    let text = Text::of_tree(&policy);
    assert_eq!(text.bytes.len(), length, "a tree file of this length");
    text.bytes
}

fn piped_files(trials: &mut Trials) -> Run {
    let [rules, tree] = worked();
    for piece in [1, 7, 64, 1_000] {
        let stand = Stand::placed(Placed::Pipe(rules.clone(), piece), Placed::Pipe(tree.clone(), piece));
        trials.compare("both files whole", &stand, &input(), Feed::File)?;
        let cut = Placed::Pipe(tree[..tree.len() - 1].to_vec(), piece);
        trials.compare("the tree without its last newline", &with_tree(cut), &input(), Feed::File)?;
    }
    for length in [MOST_BYTES - 1, MOST_BYTES, MOST_BYTES + 1] {
        for piece in [999, 4_096] {
            let stand = with_tree(Placed::Pipe(tree_of_length(length), piece));
            trials.compare(&format!("tree of {length} bytes"), &stand, &input(), Feed::File)?;
        }
    }
    Ok(())
}

/// The list is refused, and so nothing is answered, whatever stands in the tree's place.
fn twins(trials: &mut Trials) -> Run {
    let [_, tree] = worked();
    let full = trees::grown_full(&lists::wide_rules(512), 7, &mut Draws::seeded(1_640_000)).policy;
    let files = [tree.clone(), tree[1..].to_vec(), Vec::new(), Text::of_tree(&full).bytes].map(Placed::File);
    for (size, later, earlier) in [(2, 1, 0), (3, 2, 0), (3, 2, 1), (4, 3, 1), (512, 511, 0), (512, 300, 299)] {
        let mut rules = lists::wide_rules(size);
        rules[later] = rules[earlier];
        let text = texts::rules_file(size, &rules).bytes;
        let case = format!("rule {later} of {size} is rule {earlier}");
        for tree in files.iter().chain([&Placed::Missing]) {
            let stand = Stand::placed(Placed::file(&*text), tree.clone());
            let wrote = trials.compare(&case, &stand, &input(), Feed::File)?;
            assert_eq!(wrote, format!("refused\t11\t{later}\t{earlier}\n").into_bytes(), "the oracle: {case}");
            trials.ends_alone(&case, &stand)?;
        }
        let cut = &text[..text.len() - 1];
        let wrote = trials.compare(&format!("{case}, cut"), &with_rules(Placed::file(cut)), &input(), Feed::File)?;
        assert_eq!(wrote, refused_10(cut), "a text that is cut is not judged for twins");
    }
    Ok(())
}
