//! The program for packets without ports: by trees that are compiled now, by trees from before a port could be absent,
//! and by the list.

use crate::bench::Run;
use crate::groups::absent_builds::headers_for_old;
use crate::heads;
use crate::old_trees::{old_trees, OldTree};
use crate::process::Feed;
use crate::texts::{self, Text};
use crate::trees;
use crate::trials::{Stand, Trials};

pub fn run(trials: &mut Trials) -> Run {
    trials.group("head lines without ports, by trees of now and of before, and by the list", without_ports)?;
    trials.group("head lines with 65,535 to 65,537 in each port, well written and not", about_65_536)
}

/// The answers are those of the list, whatever tree there is.
fn without_ports(trials: &mut Trials) -> Run {
    let input: String = headers_for_old().map(|header| heads::head(&header) + "\n").collect();
    for OldTree { name, rules, policy } in old_trees() {
        let rules_text = Text::of_rules(&policy.rules).bytes;
        let by_list = trials.compare(name, &Stand::of(&*rules_text, ""), input.as_bytes(), Feed::File)?;
        let now = trees::compiled(&rules).expect("the tree fits");
        for tree in [&policy, &now] {
            let stand = Stand::of(&*rules_text, Text::of_tree(tree).bytes);
            let wrote = trials.compare(name, &stand, input.as_bytes(), Feed::Pieces(4_096))?;
            assert!(wrote.starts_with(b"hit"), "the tree is accepted: {name}");
            assert!(by_list.ends_with(&wrote), "the answers are those of the list: {name}");
        }
    }
    Ok(())
}

/// Each line as it is, and with 65536 written in ways that no number has.
fn about_65_536(trials: &mut Trials) -> Run {
    let mut lines = heads::about_absent_ports();
    for wrong in ["065536", "+65536", " 65536", "65536 ", "65,536", "0x10000", "-", "none", ""] {
        let of = heads::about_absent_ports().into_iter().filter(|line| line.contains("65536"));
        lines.extend(of.map(|line| line.replace("65536", wrong)));
    }
    let [rules, tree] = texts::worked().map(|text| text.bytes);
    for stand in [Stand::of(&*rules, &*tree), Stand::of(&*rules, "")] {
        trials.compare("the worked policy", &stand, lines.concat().as_bytes(), Feed::File)?;
    }
    Ok(())
}
