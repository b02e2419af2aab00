//! The program `why`: each rule of some lists for head lines of every kind, however they come.

use oracle::rule_file::Kind;

use crate::bench::Run;
use crate::draws::Draws;
use crate::groups::acl_files::worked_actions;
use crate::groups::miss_fields::{broken, with_others, NARROW};
use crate::groups::program_input::{LONG_PIECES, SHORT_PIECES};
use crate::headers::{self, Header, WORKED};
use crate::heads::{self, worked_line};
use crate::lists::{self, wide_rules, Rule, MANNERS, WORKED_POLICY};
use crate::process::{Deaf, Feed};
use crate::text_damages;
use crate::texts::{self, list_file, File, Text};
use crate::trials::{Stand, Trials};

/// The policy of nine rules with actions, and its head lines.
const ACTIONS: &[u8] = include_bytes!("../../../../examples/actions/rules.txt");
const ACTIONS_HEADS: &[u8] = include_bytes!("../../../../examples/actions/heads.txt");

/// The head lines of a drawn run.
const LINES: usize = 40;

pub fn run(trials: &mut Trials) -> Run {
    trials.group("each rule of the worked policy, with actions and without", worked_policy)?;
    trials.group("each rule of the policy with actions", actions_policy)?;
    trials.group("every set of fields that disagree", every_set)?;
    trials.group("drawn lists, for headers that nearly match, with damaged lines between", drawn_lists)?;
    trials.group("input by file, by pipe, in single bytes and in odd pieces", pieces)?;
    trials.group("long lines, last parts, damaged lines, and input that cannot be read", odd_lines)?;
    trials.group("each line answered before the next is sent; output that nobody takes", conversations)
}

/// The list of this text asked for this rule. There is no tree, at which `why` does not look.
pub fn asked(rules: impl Into<Vec<u8>>, rule: impl ToString) -> Stand {
    Stand::of(rules, "").asked(&[rule.to_string()])
}

/// The worked policy's file, without actions.
pub fn worked() -> Vec<u8> {
    let [rules, _] = texts::worked();
    rules.bytes
}

pub fn input() -> Vec<u8> {
    heads::several().concat().into_bytes()
}

/// Numbers about the end of a list of this size, and the largest.
fn numbers_for(size: u32) -> impl Iterator<Item = u32> {
    (0..=size + 1).chain([511, 512, 513, 65_536, 1 << 31, u32::MAX])
}

fn worked_policy(trials: &mut Trials) -> Run {
    let acl = Text::of_list(Kind::Acl, &worked_actions().concat()).bytes;
    for rule in numbers_for(3) {
        let case = format!("worked policy, rule {rule}");
        let plain = trials.compare(&case, &asked(worked(), rule), &input(), Feed::File)?;
        let acted = trials.compare(&format!("{case}, with actions"), &asked(&*acl, rule), &input(), Feed::File)?;
        assert_eq!(plain, acted, "the words have no action: {case}");
    }
    Ok(())
}

fn actions_policy(trials: &mut Trials) -> Run {
    let input = [ACTIONS_HEADS, &input()].concat();
    for rule in numbers_for(9) {
        trials.compare(&format!("policy with actions, rule {rule}"), &asked(ACTIONS, rule), &input, Feed::File)?;
    }
    Ok(())
}

fn every_set(trials: &mut Trials) -> Run {
    let headers = (0..32).flat_map(|set| (0..6).map(move |choice| broken(&WORKED, &NARROW, set, choice)));
    let input: String = headers.map(|header| heads::head(&header) + "\n").collect();
    for (kind, place) in [Kind::Rules, Kind::Acl].into_iter().flat_map(|kind| [(kind, 0), (kind, 2)]) {
        let mut rules = WORKED_POLICY.to_vec();
        rules.insert(place, lists::acting(NARROW, if kind == Kind::Acl { 255 } else { 0 }));
        let stand = asked(list_file(kind, 4, &rules).bytes, place);
        let wrote = trials.compare(&format!("{kind:?} file, rule {place}"), &stand, input.as_bytes(), Feed::File)?;
        let misses = [0, 1, 2, 3, 4].map(|field| count(&wrote, &format!("misses\t{field}\t")));
        assert_eq!((misses, count(&wrote, "match\n")), ([96, 48, 24, 12, 6], 6), "the oracle: half of the sets each");
    }
    Ok(())
}

/// How many of the lines begin so.
fn count(wrote: &[u8], begin: &str) -> usize {
    wrote.split_inclusive(|&byte| byte == b'\n').filter(|line| line.starts_with(begin.as_bytes())).count()
}

fn drawn_lists(trials: &mut Trials) -> Run {
    for seed in 4_100_000..4_100_120 {
        let mut draws = Draws::seeded(seed);
        let most = draws.pick(&[1, 8, 24, 24, 24, 512]);
        let size = 1 + draws.below(most);
        let list = lists::good_list(&mut draws, size, MANNERS[seed as usize % 4]);
        let own = draws.below(size);
        let rule = draws.pick(&[own, own, own, size - 1, size]);
        let lines: Vec<u8> = (0..LINES).flat_map(|_| line_for(&list.rules[own], &list.points, &mut draws)).collect();
        let feed = draws.pick(&[Feed::File, Feed::Pieces(4_096), Feed::Pieces(99)]);
        let case = format!("seed {seed}, rule {rule} of {size}");
        trials.compare(&case, &asked(Text::of_rules(&list.words()).bytes, rule), &lines, feed)?;
    }
    let full = Text::of_rules(&wide_rules(512).concat()).bytes;
    for rule in [0, 255, 511, 512] {
        trials.compare(&format!("512 wide rules, rule {rule}"), &asked(&*full, rule), &input(), Feed::File)?;
    }
    Ok(())
}

/// The line of a header that nearly matches the rule. One in eight is damaged.
fn line_for(rule: &Rule, points: &[Header], draws: &mut Draws) -> Vec<u8> {
    let (inside, point) = (headers::inside(rule, draws), draws.pick(points));
    let near = draws.pick(&[inside, inside, point]);
    let line = heads::head(&with_others(near, rule, draws)) + "\n";
    let text = Text { file: File::Rules, bytes: line.into_bytes(), needed: [0, 0] };
    if draws.once_in(8) {
        text_damages::any_damage(&text, draws).text.bytes
    } else {
        text.bytes
    }
}

fn pieces(trials: &mut Trials) -> Run {
    let short = input();
    let long = [short.repeat(40), vec![b'y'; 100_000], b"\n".to_vec(), short.repeat(10)].concat();
    for (input, lengths) in [(&short, SHORT_PIECES.as_slice()), (&long, &LONG_PIECES)] {
        for last_newline in [true, false] {
            let input = &input[..input.len() - usize::from(!last_newline)];
            trials.compare("by file", &asked(worked(), 0), input, Feed::File)?;
            for &length in lengths {
                trials.compare("by pipe", &asked(worked(), 1), input, Feed::Pieces(length))?;
            }
        }
    }
    Ok(())
}

fn odd_lines(trials: &mut Trials) -> Run {
    let head = worked_line().trim_end().to_string();
    for length in [63, 64, 65, 66, 4_096, 65_536, 100_000] {
        let long = [head.clone() + &"0".repeat(length - head.len()), "x".repeat(length), "\0".repeat(length)];
        for line in long.into_iter().chain((length < 70).then(|| heads::long_head(length))) {
            let input = format!("{line}\n{head}\n{line}\n\n{head}\n{line}");
            let case = format!("lines of {length} bytes");
            trials.compare(&case, &asked(worked(), 0), input.as_bytes(), Feed::Pieces(4_096))?;
            trials.compare(&case, &asked(worked(), 3), input.as_bytes(), Feed::File)?;
        }
    }
    let lines = format!("wrong\n{head}\n");
    for length in 0..=lines.len() {
        trials.compare("cut", &asked(worked(), 0), &lines.as_bytes()[..length], Feed::File)?;
    }
    let every_byte: Vec<u8> = (0..=255).flat_map(|byte| [byte, b'\n']).collect();
    for rule in [1, 3] {
        trials.compare("damaged lines", &asked(worked(), rule), &heads::damaged(), Feed::File)?;
        trials.compare("every byte", &asked(worked(), rule), &every_byte, Feed::File)?;
        trials.compare("reading fails", &asked(worked(), rule), b"", Feed::Folder)?;
    }
    Ok(())
}

fn conversations(trials: &mut Trials) -> Run {
    let lines = heads::several();
    let line_by_line: Vec<&[u8]> = lines.iter().map(String::as_bytes).collect();
    trials.converse("line by line", &asked(worked(), 0), &line_by_line)?;
    trials.converse("line by line, no such rule", &asked(worked(), 3), &line_by_line[..20])?;
    let (line, long) = (worked_line(), "x".repeat(70_000));
    let (begin, end) = line.as_bytes().split_at(9);
    trials.converse("halves of lines", &asked(worked(), 2), &[begin, end, long.as_bytes(), b"\n", begin])?;
    for output in [Deaf::Closed, Deaf::Full] {
        trials.stops_deaf("whole lines", &asked(worked(), 0), line.repeat(3_000).as_bytes(), output)?;
        trials.stops_deaf("a refused line", &asked(worked(), 0), b"\n", output)?;
    }
    Ok(())
}
