//! The program `why` and its file: missing, unreadable, cut, damaged, with twins and at the limit of its length; and
//! whatever stands where the other program has its tree.

use oracle::rule_file::Kind;

use crate::bench::Run;
use crate::draws::Draws;
use crate::groups::acl_files::worked_actions;
use crate::groups::program_files::{refused_10, MOST_BYTES};
use crate::groups::why_input::{asked, input, worked};
use crate::lists::{self, wide_rules};
use crate::placed::Placed;
use crate::process::Feed;
use crate::text_damages;
use crate::texts::{self, Text};
use crate::trials::{Stand, Trials};

pub fn run(trials: &mut Trials) -> Run {
    trials.group("rules.txt missing, a folder, a link to itself, reading that fails", unreadable)?;
    trials.group("rules.txt cut at every byte, with actions and without", cut)?;
    trials.group("rules.txt of 65,535, 65,536 and 65,537 bytes, and longer", long_files)?;
    trials.group("rules.txt with twins, and with drawn damage", twins_and_damage)?;
    trials.group("rules.txt through a pipe, so that every read is short", piped)?;
    trials.group("anything in place of tree.txt, which makes no difference", trees)
}

/// The first rule asked for, with this in place of the list.
fn with_rules(rules: Placed) -> Stand {
    Stand::placed(rules, Placed::Missing).asked(&[b"0"])
}

/// The file is refused, and the program ends, whatever input is to come.
fn expect_refused(trials: &mut Trials, case: &str, stand: &Stand, wanted: &[u8]) -> Run {
    let wrote = trials.compare(case, stand, &input(), Feed::File)?;
    assert_eq!(wrote, wanted, "the oracle: {case}");
    trials.ends_alone(case, stand)
}

fn unreadable(trials: &mut Trials) -> Run {
    let mut kinds = vec![Placed::Missing, Placed::Folder, Placed::Loop, Placed::ReadError];
    if trials.locks_hold() {
        kinds.push(Placed::Locked(worked()));
    } else {
        trials.note("this user can read locked files, so none was tried");
    }
    for rules in kinds {
        expect_refused(trials, &format!("{rules:?}"), &with_rules(rules), b"refused\t12\t0\t0\n")?;
    }
    Ok(())
}

fn cut(trials: &mut Trials) -> Run {
    for text in [worked(), Text::of_list(Kind::Acl, &worked_actions().concat()).bytes] {
        for length in 0..text.len() {
            let stand = with_rules(Placed::file(&text[..length]));
            let wrote = trials.compare(&format!("cut to {length} bytes"), &stand, &input(), Feed::File)?;
            assert_eq!(wrote, refused_10(&text[..length]), "a cut list answers nothing");
        }
    }
    Ok(())
}

fn long_files(trials: &mut Trials) -> Run {
    for length in [MOST_BYTES - 1, MOST_BYTES, MOST_BYTES + 1, 2 * MOST_BYTES] {
        let mut well_begun = worked();
        well_begun.resize(length, b'\n');
        for text in [vec![b'x'; length], vec![b'\n'; length], well_begun] {
            trials.compare(&format!("{length} bytes"), &with_rules(Placed::File(text)), &input(), Feed::File)?;
        }
    }
    Ok(())
}

fn twins_and_damage(trials: &mut Trials) -> Run {
    for (size, later, earlier) in [(2, 1, 0), (3, 2, 1), (4, 3, 1), (512, 511, 0)] {
        let mut rules = lists::wide_rules(size);
        rules[later] = rules[earlier];
        let text = texts::rules_file(size, &rules).bytes;
        let wanted = format!("refused\t11\t{later}\t{earlier}\n");
        for rule in [0, later, size] {
            let case = format!("rule {later} of {size} is rule {earlier}, rule {rule} asked for");
            expect_refused(trials, &case, &asked(&*text, rule), wanted.as_bytes())?;
        }
    }
    for seed in 4_110_000..4_110_060 {
        let mut draws = Draws::seeded(seed);
        let kind = draws.pick(&[Kind::Rules, Kind::Acl]);
        let rules = if kind == Kind::Acl { worked_actions() } else { lists::WORKED_POLICY };
        let damaged = text_damages::any_damage(&Text::of_list(kind, &rules.concat()), &mut draws);
        let stand = asked(damaged.text.bytes, draws.below(4));
        trials.compare(&format!("seed {seed}, {}", damaged.kind), &stand, &input(), Feed::File)?;
    }
    Ok(())
}

fn piped(trials: &mut Trials) -> Run {
    for piece in [1, 7, 64, 1_000] {
        trials.compare("worked policy", &with_rules(Placed::Pipe(worked(), piece)), &input(), Feed::File)?;
        let cut = worked()[..worked().len() - 1].to_vec();
        trials.compare("cut", &with_rules(Placed::Pipe(cut, piece)), &input(), Feed::File)?;
    }
    let full = Text::of_rules(&wide_rules(512).concat()).bytes;
    trials.compare("512 wide rules", &with_rules(Placed::Pipe(full, 999)), &input(), Feed::File).map(|_| ())
}

fn trees(trials: &mut Trials) -> Run {
    let [rules, tree] = texts::worked().map(|text| text.bytes);
    let wanted = asked(&*rules, 0).answers(&input());
    let files = [tree.clone(), tree[1..].to_vec(), vec![b'x'; MOST_BYTES + 1], rules.clone()].map(Placed::File);
    for tree in files.into_iter().chain([Placed::Missing, Placed::Folder, Placed::Loop, Placed::ReadError]) {
        let stand = Stand::placed(Placed::file(&*rules), tree).asked(&[b"0"]);
        let wrote = trials.compare("a tree or none", &stand, &input(), Feed::File)?;
        assert_eq!(wrote, wanted, "the tree makes no difference");
    }
    Ok(())
}
