//! The program with a `rules.txt` that has actions: whole, cut and damaged. Its replies are those of the list without.

use oracle::rule_file::Kind;

use crate::bench::Run;
use crate::draws::Draws;
use crate::groups::acl_files::worked_actions;
use crate::heads;
use crate::lists::{acting, wide_rules, EVERYTHING};
use crate::process::Feed;
use crate::text_damages;
use crate::texts::{self, list_file, Text};
use crate::trees;
use crate::trials::{Stand, Trials};

pub fn run(trials: &mut Trials) -> Run {
    trials.group("rules.txt with actions, answered as without them", same_replies)?;
    trials.group("rules.txt with actions, cut at each byte", cut)?;
    trials.group("rules.txt with actions, damaged and with the kinds mixed up", damaged)
}

fn input() -> Vec<u8> {
    heads::several().concat().into_bytes()
}

fn same_replies(trials: &mut Trials) -> Run {
    let [rules, tree] = texts::worked().map(|text| text.bytes);
    let plain = trials.compare("worked policy", &Stand::of(rules, &*tree), &input(), Feed::File)?;
    let acl = Text::of_list(Kind::Acl, &worked_actions().concat()).bytes;
    for (case, tree) in [("by the tree", tree), ("by the list", Vec::new())] {
        let wrote = trials.compare(case, &Stand::of(&*acl, tree), &input(), Feed::File)?;
        assert!(wrote.ends_with(&plain), "the replies say nothing of actions, {case}");
    }
    let nothing = b"tree\t0\t1\t0\nleaf\t0\t0\nend\t2\n";
    trials.compare("no rules", &Stand::of(b"acl\t0\nend\t1\n", nothing), &input(), Feed::File)?;
    let full = trees::grown_full(&wide_rules(512), 7, &mut Draws::seeded(2_800_000)).policy;
    let stand = Stand::of(Text::of_list(Kind::Acl, &full.rules).bytes, Text::of_tree(&full).bytes);
    trials.compare("512 wide rules", &stand, &input(), Feed::Pieces(4_096)).map(|_| ())
}

/// Each cut is 10 with its whole lines, and nothing is answered.
fn cut(trials: &mut Trials) -> Run {
    let rules = list_file(Kind::Acl, 1, &[acting(EVERYTHING, 255)]).bytes;
    for length in 0..rules.len() {
        let stand = Stand::of(&rules[..length], &b""[..]);
        let wrote = trials.compare(&format!("cut to {length} bytes"), &stand, &input(), Feed::File)?;
        let lines = rules[..length].iter().filter(|&&byte| byte == b'\n').count();
        assert_eq!(wrote, format!("refused\t10\t{lines}\t0\n").into_bytes(), "a cut list answers nothing");
    }
    Ok(())
}

fn damaged(trials: &mut Trials) -> Run {
    let [rules, tree] = texts::worked();
    let acl = Text::of_list(Kind::Acl, &worked_actions().concat());
    let mixed = |line: usize, ours: &Text, theirs: &Text| {
        let mut lines = ours.lines();
        lines[line] = theirs.lines()[line];
        lines.concat()
    };
    for line in 0..4 {
        for (ours, theirs) in [(&rules, &acl), (&acl, &rules)] {
            let stand = Stand::of(mixed(line, ours, theirs), &*tree.bytes);
            trials.compare(&format!("line {line} of the other kind"), &stand, &input(), Feed::File)?;
        }
    }
    for seed in 2_810_000..2_810_060 {
        let damaged = text_damages::any_damage(&acl, &mut Draws::seeded(seed));
        let stand = Stand::of(damaged.text.bytes, &*tree.bytes);
        trials.compare(&format!("seed {seed}, {}", damaged.kind), &stand, &input(), Feed::File)?;
    }
    Ok(())
}
