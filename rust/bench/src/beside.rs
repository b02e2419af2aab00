//! Times the rule check, the rules reader and the searches of two builds of the library, beside each other in one run.
//!
//!     ./archive
//!     cc -shared -Wl,-Bsymbolic -Wl,--whole-archive target/native/libwickorchard.a -Wl,--no-whole-archive -o NOW.so
//!     cargo run --release --manifest-path rust/Cargo.toml --package bench -- BEFORE.so NOW.so
//!
//! BEFORE.so is made by the first two lines in a clone of the tree as it was before. Both libraries are loaded into
//! this program. A build from before rules had actions takes ten words for a rule: each is lent the list in its own
//! width. One from before ports could be absent refuses a header without them: all headers here have both ports.
//!
//! Their answers and the words that they leave are compared first. Then they take turns, and each begins as often as
//! the other, so that what slows the machine down for a while slows down both. The middle turn counts; on a machine
//! that is busy with other programs the quicker turns tell more. A library beside a copy of itself shows how far two
//! times of the same code lie apart.

use std::hint::black_box;
use std::time::{Duration, Instant};

use wickorchard::limits::{MOST_RULES, RULE_WORDS};
use wickorchard::raw::Answer;

use crate::builds::{services, zones};
use crate::loaded::{Library, Tree};
use crate::scans::{all_matching, drawn_inside, drawn_rule, other_protocols, Kind};

const TURNS: usize = 181;
/// Short, so that most turns are over before the system gives the processor to another program.
const TURN: Duration = Duration::from_millis(2);
const HEADERS: usize = 512;

type Rule = [u32; RULE_WORDS];
/// A search by this library of this list for this header, with room for the numbers that match.
type Search<'a> = &'a mut dyn FnMut(&Library, &[u32], &[u32; 5], &mut [u32]) -> Answer;

/// Loads the two builds. Times the check and the reader on lists of 512 rules, and on the first three of one; then the
/// searches on lists of 512 and of 64 rules; then the searches of a list alone where every rule is compared to its last
/// field.
pub fn time(files: [&str; 2], draw: &mut impl FnMut() -> u32) {
    let libraries = files.map(Library::load);
    println!("words of a rule: {:?}", libraries.each_ref().map(|library| library.rule_words));
    let list = |rule: &mut dyn FnMut(u32) -> Rule| -> Vec<u32> { (0..MOST_RULES as u32).flat_map(rule).collect() };
    time_list("drawn prefixes and ranges", &list(&mut |_| drawn_rule(draw)), &libraries);
    let hosts = list(&mut |_| [draw(), 32, draw(), 32, 0, 65_535, 0, 65_535, 0, 255, 0]);
    time_list("single hosts", &hosts, &libraries);
    let zeros = list(&mut |number| [0, 0, 0, 0, 0, 65_535, 0, 65_535, number % 128, 255 - number / 128, 0]);
    time_list("address zero, length 0", &zeros, &libraries);
    // By these steps, all rules come into one or two slots of `crates/rules/src/twins.rt`.
    let crowded = list(&mut |number| [63_580 * number, 32, 0, 0, 0, 65_535, 0, 65_535, 0, 255, 0]);
    time_list("hosts that share a slot", &crowded, &libraries);
    time_list("three single hosts", &hosts[..3 * RULE_WORDS], &libraries);

    for size in [MOST_RULES, 64] {
        let drawn: Vec<u32> = (0..size).flat_map(|_| drawn_rule(draw)).collect();
        time_searches(&format!("{size} drawn rules"), &drawn, draw, &libraries);
        time_searches(&format!("{size} services"), &services(size as u32, draw).concat(), draw, &libraries);
        time_searches(&format!("{size} zones"), &zones(size as u32, draw).concat(), draw, &libraries);
    }
    for size in [MOST_RULES, 64] {
        time_list_searches(size, &other_protocols(size, HEADERS, draw), &libraries);
    }
    time_list_searches(MOST_RULES, &all_matching(MOST_RULES, HEADERS, draw), &libraries);
}

/// Compares what the two do with a good list, and then times them.
fn time_list(name: &str, rules: &[u32], libraries: &[Library; 2]) {
    let counted = [0, 0, 0, (rules.len() / RULE_WORDS) as u64, 0, 0, 0, 0];
    let own = libraries.each_ref().map(|library| library.own(rules));
    let text = libraries[0].write(&own[0]);
    for (library, rules) in libraries.iter().zip(&own) {
        let mut words = vec![0; rules.len()];
        assert_eq!((library.check(rules), library.read(&text, &mut words)), (counted, counted));
        assert_eq!((library.write(rules), &words), (text.clone(), rules));
    }
    let checks = in_turn(|which| {
        black_box(libraries[which].check(black_box(&own[which])));
    });
    say("rule check", name, checks, 1);
    let mut words = vec![0; rules.len()];
    let reads = in_turn(|which| {
        black_box(libraries[which].read(black_box(&text), &mut words));
    });
    say("reading", name, reads, 1);
}

/// Times the searches for headers that rules of the good list match: by the list, and by its tree where that is within
/// the limits.
fn time_searches(name: &str, rules: &[u32], draw: &mut impl FnMut() -> u32, libraries: &[Library; 2]) {
    let headers: Vec<[u32; 5]> = (0..HEADERS)
        .map(|_| {
            let at = RULE_WORDS * (draw() as usize % (rules.len() / RULE_WORDS));
            drawn_inside(&rules[at..at + RULE_WORDS], draw)
        })
        .collect();
    let [tree, other] = libraries.each_ref().map(|library| library.build(&library.own(rules)));
    assert_eq!(tree, other, "both build one tree");
    let first = |header| libraries[0].scan_first(&libraries[0].own(rules), header);
    assert!(headers.iter().all(|header| first(header)[3] > 0), "a rule is found");
    time_all(name, rules, &headers, tree.as_ref(), libraries);
    if tree.is_none() {
        println!("tree, {name}: over the limits");
    }
}

/// Times the searches of a list of so many rules, without a tree.
fn time_list_searches(size: usize, Kind { name, rules, headers }: &Kind, libraries: &[Library; 2]) {
    time_all(&format!("{size} rules, {name}"), rules, headers, None, libraries);
}

/// Compares what the two find by the good list, and by this tree of it, and then times them. The rules have action 0,
/// so whole answers are compared.
fn time_all(name: &str, rules: &[u32], headers: &[[u32; 5]], tree: Option<&Tree>, libraries: &[Library; 2]) {
    let own = libraries.each_ref().map(|library| library.own(rules));
    let found = |which: usize, header| find(&libraries[which], &own[which], tree, header);
    for header in headers {
        assert_eq!(found(0, header), found(1, header), "both find the same");
    }

    let mut out = [0; MOST_RULES];
    let mut search = |call: &str, search: Search| {
        let times = in_turn(|which| {
            for header in headers {
                black_box(search(&libraries[which], &own[which], black_box(header), black_box(&mut out)));
            }
        });
        say(call, name, times, HEADERS as u32);
    };
    search("line first", &mut |library, rules, header, _| library.line_first(rules, header));
    search("scan first", &mut |library, rules, header, _| library.scan_first(rules, header));
    search("scan all", &mut |library, rules, header, out| library.scan_all(rules, header, out));
    let Some(tree) = tree else { return };
    search("tree first", &mut |library, rules, header, _| library.tree_first(rules, tree, header));
    search("tree all", &mut |library, rules, header, out| library.tree_all(rules, tree, header, out));
}

/// The answers of every search, and the numbers that they wrote.
fn find(library: &Library, rules: &[u32], tree: Option<&Tree>, header: &[u32; 5]) -> (Vec<Answer>, [Vec<u32>; 2]) {
    let mut out = [vec![0; MOST_RULES], vec![0; MOST_RULES]];
    let [by_list, by_tree] = &mut out;
    let mut answers = vec![
        library.line_first(rules, header),
        library.scan_first(rules, header),
        library.scan_all(rules, header, by_list),
    ];
    if let Some(tree) = tree {
        answers.push(library.tree_first(rules, tree, header));
        answers.push(library.tree_all(rules, tree, header, by_tree));
    }
    let is_found = answers[0][3] > 0;
    assert!(answers.iter().all(|answer| answer[0] == 0 && (answer[3] > 0) == is_found), "all find a rule, or none");
    (answers, out)
}

/// What two builds took for one call: the middle turn of each, and the turn that a tenth of all were quicker than.
struct Times {
    middle: [Duration; 2],
    quick: [Duration; 2],
}

/// Has the builds take turns. A turn makes the call as often as takes about `TURN`, and once at least.
fn in_turn(mut call: impl FnMut(usize)) -> Times {
    let mut turn = |which: usize, calls: u32| {
        let begin = Instant::now();
        (0..calls).for_each(|_| call(which));
        begin.elapsed()
    };
    let once = (0..9).map(|_| turn(0, 1)).min().expect("it was called");
    let calls = (TURN.as_nanos() / once.as_nanos().max(1)).clamp(1, 1 << 20) as u32;
    let mut times = [const { Vec::new() }; 2];
    for number in 0..TURNS {
        for which in [number % 2, 1 - number % 2] {
            times[which].push(turn(which, calls));
        }
    }
    times.iter_mut().for_each(|times| times.sort());
    let at = |place: usize| times.each_ref().map(|times| times[place] / calls);
    Times { middle: at(TURNS / 2), quick: at(TURNS / 10) }
}

/// Says how long one of `parts` equal parts of the call took.
fn say(call: &str, list: &str, times: Times, parts: u32) {
    let ratio = |[before, now]: [Duration; 2]| now.as_secs_f64() / before.as_secs_f64();
    let [before, now] = times.middle.map(|time| time / parts);
    let (middle, quick) = (ratio(times.middle), ratio(times.quick));
    println!("{call}, {list}: before {before:?}, now {now:?}, ratio {middle:.3}; of the quicker turns {quick:.3}");
}
