//! Files with actions, whole and damaged, and files in which the two kinds are mixed up.

use oracle::rule_file::Kind;
use oracle::rules::RULE_WORDS;

use crate::bench::{Bench, Run};
use crate::draws::Draws;
use crate::lists::{self, acting, Rule, ACTION, EVERYTHING, MANNERS, WORKED_POLICY};
use crate::shared_ends::with;
use crate::text_damages::{self, DamagedText};
use crate::texts::{list_file, Text};

const PURPOSE: &str = "damage";

const KINDS: [Kind; 2] = [Kind::Rules, Kind::Acl];

pub fn run(bench: &mut Bench) -> Run {
    bench.group("limits", "files of both kinds: readers with every room", every_room)?;
    bench.group(PURPOSE, "acl files cut at each byte", cut_texts)?;
    bench.group(PURPOSE, "acl files with each byte changed, removed, and others put before it", bytes)?;
    bench.group(PURPOSE, "acl files with each number and word made another, and lines out of place", others)?;
    bench.group(PURPOSE, "acl files: each action from 0 to 600, and actions about each power of two", line_actions)?;
    bench.group(PURPOSE, "files with each line of the other kind", mixed_lines)?;
    bench.group(PURPOSE, "files of two kinds stitched at each line of both", stitched)?;
    bench.group(PURPOSE, "acl files with twins that differ in their action, cut and in every room", twins)
}

/// The worked policy with the actions 1, 255 and 0.
pub fn worked_actions() -> [Rule; 3] {
    [acting(WORKED_POLICY[0], 1), acting(WORKED_POLICY[1], 255), WORKED_POLICY[2]]
}

/// That policy's file, short ones, and the file of no rules, each with its name.
fn several(first_seed: u64, drawn: u64) -> Vec<(String, Text)> {
    let short = |seed| {
        let mut draws = Draws::seeded(seed);
        let size = 1 + draws.below(3);
        let mut list = lists::good_list(&mut draws, size, MANNERS[seed as usize % 4]);
        list.rules[0][ACTION] = draws.pick(&[0, 1, 25, 99, 100, 255]);
        (format!("seed {seed}, short acl file"), Text::of_list(Kind::Acl, &list.words()))
    };
    let chosen = [("worked policy with actions", worked_actions().to_vec()), ("acl file of no rules", vec![])];
    let chosen = chosen.map(|(case, rules)| (case.to_string(), Text::of_list(Kind::Acl, &rules.concat())));
    chosen.into_iter().chain((first_seed..first_seed + drawn).map(short)).collect()
}

/// Eleven words a rule for both kinds, and not one less.
fn every_room(bench: &mut Bench) -> Run {
    let mut draws = Draws::seeded(2_720_000);
    for size in [0, 1, 2, 3, 5, 20] {
        let mut rules = lists::good_list(&mut draws, size, MANNERS[size % 4]).rules;
        for kind in KINDS {
            rules.iter_mut().for_each(|rule| rule[ACTION] = if kind == Kind::Acl { 200 } else { 0 });
            let text = Text::of_list(kind, &rules.concat());
            let needed = RULE_WORDS * size;
            for room in (0..=needed + 3).chain([needed + 100]) {
                let case = format!("seed 2720000, {kind:?} file of {size}, room for {room}");
                let answer = bench.rules_read(&case, &text.bytes, room)?;
                let wanted = if room < needed { (4, needed) } else { (0, 0) };
                assert_eq!((answer.number, answer.place as usize), wanted, "the oracle: {case}");
            }
        }
    }
    Ok(())
}

fn cut_texts(bench: &mut Bench) -> Run {
    for (case, text) in several(2_730_000, 20) {
        for length in 0..text.bytes.len() {
            let cut = text.with(text.bytes[..length].to_vec());
            let answer = bench.read_in_rooms(&format!("{case}, cut to {length} bytes"), &cut)?;
            let lines = cut.bytes.iter().filter(|&&byte| byte == b'\n').count();
            assert_eq!((answer.number, answer.place as usize), (10, lines), "the oracle: {case}");
        }
    }
    Ok(())
}

fn bytes(bench: &mut Bench) -> Run {
    each_damage(bench, several(2_740_000, 1), |text| {
        (0..text.bytes.len()).flat_map(|at| text_damages::byte_damages(text, at)).collect()
    })
}

fn others(bench: &mut Bench) -> Run {
    each_damage(bench, several(2_750_000, 2), |text| {
        let numbers = text_damages::numbers(text).into_iter();
        let words = text_damages::words(text).into_iter();
        let lines = 0..text.lines().len();
        let mut all: Vec<DamagedText> = numbers.flat_map(|at| text_damages::number_damages(text, at)).collect();
        all.extend(words.flat_map(|at| text_damages::word_damages(text, at)));
        all.extend(lines.clone().flat_map(|line| text_damages::line_damages(text, line)));
        all.extend(lines.flat_map(|line| text_damages::last_parts(text, line)));
        all.extend(text_damages::afters(text));
        all
    })
}

fn each_damage(bench: &mut Bench, texts: Vec<(String, Text)>, damages: impl Fn(&Text) -> Vec<DamagedText>) -> Run {
    for (case, text) in texts {
        for damaged in damages(&text) {
            bench.read_in_rooms(&format!("{case}, {}", damaged.kind), &damaged.text)?;
        }
    }
    Ok(())
}

/// An action over 255 is wrong at its line, and so is one that is not written as a number is.
fn line_actions(bench: &mut Bench) -> Run {
    let powers = (8..70).flat_map(|power| [(1_u128 << power) - 1, 1 << power, (1 << power) + 1, (1 << power) + 255]);
    let numbers: Vec<String> = (0..=600).chain(powers).map(|number| number.to_string()).collect();
    let forms = ["", "00", "01", "+1", "-1", "1 ", " 1", "1.0", "0x1", "1\t", "1\t1", "\t1", "a", "1\r", "1\0"];
    let forms = forms.map(str::to_string);
    for action in numbers.iter().chain(&forms) {
        for place in 0..3 {
            let rules = list_file(Kind::Rules, 3, &WORKED_POLICY);
            let lines = rules.lines().into_iter().enumerate().map(|(number, line)| {
                let bare = String::from_utf8_lossy(&line[..line.len() - 1]).replace("rules", "acl");
                match number {
                    0 | 4 => format!("{bare}\n"),
                    _ if number == place + 1 => format!("{bare}\t{action}\n"),
                    _ => format!("{bare}\t7\n"),
                }
            });
            let text = rules.with(lines.collect::<String>().into_bytes());
            let case = format!("action {action:?} at rule {place}");
            let answer = bench.read_in_rooms(&case, &text)?;
            let is_right = action.parse::<u8>().is_ok_and(|value| value.to_string() == *action);
            let wanted = if is_right { (0, 0, 1) } else { (9, place as u64 + 2, 0) };
            assert_eq!((answer.number, answer.place, answer.b), wanted, "the oracle: {case}");
        }
    }
    Ok(())
}

/// A line of the other kind is wrong, whichever line it is and whatever its action.
fn mixed_lines(bench: &mut Bench) -> Run {
    for action in [0, 1, 255] {
        let rules: Vec<Rule> = (0..5).map(|port| acting(with(3, [port, port]), action)).collect();
        for kind in KINDS {
            let other = if kind == Kind::Acl { Kind::Rules } else { Kind::Acl };
            let [own, others] = [kind, other].map(|kind| list_file(kind, 5, &rules));
            for line in 0..6 {
                let mut lines = own.lines();
                lines[line] = others.lines()[line];
                let text = own.with(lines.concat());
                let case = format!("line {line} of a {kind:?} file is of the other kind, action {action}");
                let answer = bench.read_in_rooms(&case, &text)?;
                assert_eq!((answer.number, answer.place as usize), (9, line.max(1) + 1), "the oracle: {case}");
            }
        }
    }
    Ok(())
}

/// Where both are cut at the same line and are of one kind, they read well.
fn stitched(bench: &mut Bench) -> Run {
    let file = |kind, action| {
        let rules: Vec<Rule> = (0..3).map(|port| acting(with(3, [port, port]), action)).collect();
        list_file(kind, 3, &rules)
    };
    let files = [file(Kind::Rules, 0), file(Kind::Acl, 0), file(Kind::Acl, 9), file(Kind::Acl, 255)];
    for (ours, theirs) in files.iter().flat_map(|ours| files.iter().map(move |theirs| (ours, theirs))) {
        for end in 0..=ours.lines().len() {
            for start in 0..=theirs.lines().len() {
                let text = ours.with([ours.lines()[..end].concat(), theirs.lines()[start..].concat()].concat());
                bench.read_in_rooms(&format!("stitched after {end} lines, from line {start}"), &text)?;
            }
        }
    }
    Ok(())
}

/// 9 and 10 come before 11, and 4 after it.
fn twins(bench: &mut Bench) -> Run {
    let rules = [acting(EVERYTHING, 1), acting(with(3, [9, 9]), 2), acting(EVERYTHING, 3)];
    let text = list_file(Kind::Acl, 3, &rules);
    for room in 0..=text.needed[0] + 3 {
        let answer = bench.rules_read("twins that differ in their action", &text.bytes, room)?;
        assert_eq!((answer.number, answer.place, answer.extra), (11, 2, 0), "the oracle: twins, room for {room}");
    }
    for length in 0..text.bytes.len() {
        let cut = text.with(text.bytes[..length].to_vec());
        let answer = bench.read_in_rooms(&format!("twins that differ in their action, cut to {length}"), &cut)?;
        assert_eq!(answer.number, 10, "the oracle: a text that is cut");
    }
    for damaged in text_damages::afters(&text) {
        let answer =
            bench.read_in_rooms(&format!("twins that differ in their action, {}", damaged.kind), &damaged.text)?;
        assert_eq!((answer.number, answer.place), (9, 6), "the oracle: {}", damaged.kind);
    }
    Ok(())
}
