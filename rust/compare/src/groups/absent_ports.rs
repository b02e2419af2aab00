//! Packets without ports, searched for: ranges of every kind against the values about 65,536, by every search.

use oracle::header::ABSENT_PORT;
use oracle::parts::Part;
use oracle::Answer;

use crate::bench::{Bench, Run};
use crate::draws::Draws;
use crate::headers::{self, Header, PORTS, WORKED};
use crate::lists::{self, acting, Rule, LARGEST_END, MANNERS};
use crate::shared_ends::{put, with};
use crate::trees::{self, cut, leaf, Policy};

const PURPOSE: &str = "correctness";

/// The range of all ports, which alone takes an absent one.
pub const WHOLE: [u32; 2] = [0, LARGEST_END[2]];

/// Ranges that a good rule may have.
pub const GOOD: [[u32; 2]; 10] = [
    WHOLE,
    [0, 65_534],
    [1, 65_535],
    [1, 65_534],
    [65_534, 65_535],
    [65_535, 65_535],
    [0, 0],
    [0, 1_023],
    [1_024, 65_535],
    [40_000, 40_000],
];

/// Ranges that it may not have. Some are the whole range modulo 65,536.
const NOT_GOOD: [[u32; 2]; 17] = [
    [0, 65_536],
    [0, 65_537],
    [0, 70_000],
    [0, 131_071],
    [0, u32::MAX],
    [1, 65_536],
    [65_535, 65_536],
    [65_536, 65_536],
    [65_536, 65_535],
    [65_536, 131_071],
    [65_537, 70_000],
    [65_536, u32::MAX],
    [u32::MAX, u32::MAX],
    [70_000, 0],
    [65_536, 0],
    [65_535, 0],
    [1, 0],
];

/// Values of a port field: ports, none, and numbers that are too large.
pub const VALUES: [u32; 13] =
    [0, 1, 1_023, 1_024, 40_000, 65_534, 65_535, 65_536, 65_537, 70_000, 131_071, 131_072, u32::MAX];

pub fn run(bench: &mut Bench) -> Run {
    bench.group(PURPOSE, "absent ports: ranges of every kind against values about 65,536, in each port", each_port)?;
    bench.group(PURPOSE, "absent ports: ranges of every kind in both ports, either or both absent", both_ports)?;
    bench.group(PURPOSE, "absent ports: drawn lists and trees, for headers without ports", drawn_lists)?;
    bench.group("damage", "absent ports: scans and tree searches of ranges that are not good", drawn_ranges)
}

/// Does the range take the port, which may be absent? This is said here once more, for the oracle to be held to.
pub fn takes([low, high]: [u32; 2], port: u32) -> bool {
    match port {
        ABSENT_PORT => [low, high] == WHOLE,
        _ => low <= port && port <= high,
    }
}

/// What every search must come to.
#[derive(Clone, Copy)]
enum Wanted {
    /// The header is refused at this field.
    Refused { field: usize },
    /// The second rule matches. Does the first one?
    Found { first: bool },
}

/// The list is a rule that matches or not, and one that matches every header here. It is searched in every way: by the
/// list, and by trees of one leaf and of a cut that parts the absent port from the others.
fn search(bench: &mut Bench, case: &str, rule: Rule, header: &Header, wanted: Wanted) -> Run {
    let rules = [acting(rule, 1), acting(with(4, [0, 99]), 2)];
    let words = rules.concat();
    let is_good = bench.rule_check(case, &words)?.number == 0;
    let by_line = [bench.line_first(case, &words, header)?, bench.line_all(case, &words, header, 2)?];
    let mut all = vec![[bench.scan_first(case, &words, header)?, bench.scan_all(case, &words, header, 2)?]];
    for root in [leaf(&[0, 1]), halves(2), halves(3)] {
        let policy = Policy::of(&rules, &root);
        all.push([bench.tree_first(case, &policy, header)?, bench.tree_all(case, &policy, header, 2)?]);
    }
    if is_good {
        all.push(by_line);
    } else {
        assert!(by_line.iter().all(|line| (line.number, line.place) == (2, 0)), "the oracle: {case}");
    }
    for [one, several] in all {
        expect(case, one, several, wanted);
    }
    Ok(())
}

/// A cut of this port that leaves the absent one on the right, and both rules on both sides.
fn halves(field: usize) -> Part {
    cut(field, LARGEST_END[field], leaf(&[0, 1]), leaf(&[0, 1]))
}

/// The answers of a search for the first and of one for all.
fn expect(case: &str, one: Answer, several: Answer, wanted: Wanted) {
    let given = [one, several].map(|answer| (answer.number, answer.place, answer.a));
    let (answers, action) = match wanted {
        Wanted::Refused { field } => ([(3, field as u64, 0); 2], 0),
        Wanted::Found { first: true } => ([(0, 0, 1), (0, 0, 2)], 1),
        Wanted::Found { first: false } => ([(0, 0, 2), (0, 0, 1)], 2),
    };
    assert_eq!((given, one.d), (answers, action), "the oracle: {case}");
}

fn each_port(bench: &mut Bench) -> Run {
    for field in PORTS {
        for range in GOOD.into_iter().chain(NOT_GOOD) {
            for value in VALUES {
                let case = format!("{range:?} in field {field}, value {value}");
                let wanted = match value > ABSENT_PORT {
                    true => Wanted::Refused { field },
                    false => Wanted::Found { first: takes(range, value) },
                };
                search(bench, &case, with(field, range), &headers::with(WORKED, field, value), wanted)?;
            }
        }
    }
    Ok(())
}

fn both_ports(bench: &mut Bench) -> Run {
    let ranges: Vec<[u32; 2]> = GOOD.into_iter().chain(NOT_GOOD).collect();
    for &source in &ranges {
        for &destination in &ranges {
            for ports in [[ABSENT_PORT; 2], [ABSENT_PORT, 65_535], [65_535, ABSENT_PORT]] {
                let case = format!("{source:?} and {destination:?}, ports {ports:?}");
                let header = headers::with(headers::with(WORKED, 2, ports[0]), 3, ports[1]);
                let first = takes(source, ports[0]) && takes(destination, ports[1]);
                let rule = put(with(2, source), 3, destination);
                search(bench, &case, rule, &header, Wanted::Found { first })?;
            }
        }
    }
    Ok(())
}

/// The header without its source port, without its destination port, and without both.
pub fn without_ports(header: Header) -> [Header; 3] {
    let [source, destination] = PORTS.map(|field| headers::with(header, field, ABSENT_PORT));
    [source, destination, headers::with(source, PORTS[1], ABSENT_PORT)]
}

/// A tree that is right for its list gives what the list gives, for a header without ports too.
fn drawn_lists(bench: &mut Bench) -> Run {
    let (mut seed, mut parted) = (3_000_000, 0);
    for size in [1, 2, 5, 12, 40, 200] {
        for manner in MANNERS {
            for grown in [true, false] {
                let mut draws = Draws::seeded(seed);
                let list = lists::good_list(&mut draws, size, manner);
                let planted = if grown { trees::grown(&list, 9, &mut draws) } else { trees::built(&list, 2, 63) };
                let case = format!("seed {seed}, {manner:?} list of {size}, grown: {grown}");
                for _ in 0..6 {
                    let header = trees::header_for(&planted, &mut draws);
                    for header in without_ports(header) {
                        parted += u64::from(search_policy(bench, &case, &planted.policy, &header)? < size as u64);
                    }
                }
                seed += 1;
            }
        }
    }
    assert!(parted > 400, "most headers are without some rules: {parted}");
    Ok(())
}

/// Searches the list and the tree, which must give the same. Says how many rules match.
pub fn search_policy(bench: &mut Bench, case: &str, policy: &Policy, header: &Header) -> Result<u64, String> {
    let room = policy.rule_count() as usize;
    let by_list = [bench.line_first(case, &policy.rules, header)?, bench.line_all(case, &policy.rules, header, room)?];
    let by_tree = [bench.tree_first(case, policy, header)?, bench.tree_all(case, policy, header, room)?];
    let [listed, found] = [by_list, by_tree].map(|both| both.map(|answer| (answer.number, answer.a, answer.d)));
    assert_eq!(listed, found, "the oracle: {case}, {header:?}");
    Ok(by_list[1].a)
}

/// Neither search judges the rules, or the tree: any ranges, cuts at any value about 65,535, entries in any order.
fn drawn_ranges(bench: &mut Bench) -> Run {
    let turning = |draws: &mut Draws| draws.pick(&[0, 0, 0, 1, 65_534, 65_535, 65_535, 65_536, 65_537, 70_000]);
    for seed in 3_010_000..3_012_000 {
        let mut draws = Draws::seeded(seed);
        let size = 1 + draws.below(4);
        let ends = |draws: &mut Draws| {
            let high = turning(draws);
            [turning(draws), draws.pick(&[65_535, high, u32::MAX])]
        };
        let rules: Vec<Rule> = (0..size).map(|_| put(with(2, ends(&mut draws)), 3, ends(&mut draws))).collect();
        let mut entries = || (0..draws.below(4)).map(|_| draws.below(size) as u32).collect::<Vec<u32>>();
        let (left, right) = (entries(), entries());
        let root = cut(draws.pick(&PORTS), turning(&mut draws), leaf(&left), leaf(&right));
        let [source, destination] = PORTS.map(|_| draws.pick(&[0, 65_534, 65_535, 65_536, 65_536, 65_537]));
        let header = headers::with(headers::with(WORKED, 2, source), 3, destination);
        let case = format!("seed {seed}, ranges of any words");
        let policy = Policy::of(&rules, &root);
        bench.tree_searches(&case, &policy, &header)?;
        bench.scan_first(&case, &policy.rules, &header)?;
        let found = bench.scan_all(&case, &policy.rules, &header, size)?;
        let matching =
            rules.iter().filter(|rule| takes([rule[4], rule[5]], source) && takes([rule[6], rule[7]], destination));
        let wanted = if source.max(destination) > ABSENT_PORT { (3, 0) } else { (0, matching.count() as u64) };
        assert_eq!((found.number, found.a), wanted, "the oracle: {case}");
    }
    Ok(())
}
