//! Times the scans of a list, beside a plain Rust scan of the same words, and the line search, which judges the list
//! first. Each list has 512 rules.
//!
//! The plain scan is what a user would write: a rule at a time, compared field by field. It trusts the list and the
//! header.

use std::hint::black_box;
use std::time::Duration;

use wickorchard::calls::{line_all, line_first, scan_all, scan_first, Match};
use wickorchard::limits::{MOST_RULES, RULE_WORDS};

use crate::{and_without_ports, matches, timed};

const HEADERS: usize = 4_096;
const ROUNDS: usize = 4;

type Header = [u32; 5];

/// A list, and headers to search for.
pub struct Kind {
    pub name: &'static str,
    pub rules: Vec<u32>,
    pub headers: Vec<Header>,
}

#[inline(never)]
fn plain_first(rules: &[u32], header: &Header) -> Option<u32> {
    rules.chunks_exact(RULE_WORDS).position(|rule| matches(rule, header)).map(|rule| rule as u32)
}

#[inline(never)]
fn plain_all<'a>(rules: &[u32], header: &Header, out: &'a mut [u32]) -> &'a [u32] {
    let mut count = 0;
    for (number, rule) in rules.chunks_exact(RULE_WORDS).enumerate() {
        if matches(rule, header) {
            out[count] = number as u32;
            count += 1;
        }
    }
    &out[..count]
}

fn kinds(draw: &mut impl FnMut() -> u32) -> Vec<Kind> {
    let anywhere = |draw: &mut dyn FnMut() -> u32| [draw(), draw(), draw() & 65_535, draw() & 65_535, draw() & 255];
    let rules = |rule: &mut dyn FnMut(u32) -> [u32; RULE_WORDS]| (0..MOST_RULES as u32).flat_map(rule).collect();
    let headers = |header: &mut dyn FnMut() -> Header| (0..HEADERS).map(|_| header()).collect();

    let strips: Vec<u32> = rules(&mut |strip| [strip << 23, 9, 0, 0, 0, 65_535, 0, 65_535, 0, 255, 0]);
    let drawn: Vec<u32> = rules(&mut |_| drawn_rule(draw));
    let inside = headers(&mut || {
        let at = RULE_WORDS * (draw() as usize % MOST_RULES);
        drawn_inside(&drawn[at..at + RULE_WORDS], draw)
    });
    vec![
        Kind { name: "a rule for each 512th of the sources", rules: strips, headers: headers(&mut || anywhere(draw)) },
        Kind { name: "drawn prefixes and ranges", rules: drawn, headers: inside },
        other_protocols(MOST_RULES, HEADERS, draw),
        all_matching(MOST_RULES, HEADERS, draw),
    ]
}

/// So many rules, up to 512, and so many headers. They agree in all fields but the last, the protocol.
pub fn other_protocols(size: usize, headers: usize, draw: &mut impl FnMut() -> u32) -> Kind {
    let rule = |rule| [0, 0, 0, 0, 0, 65_535, 0, 65_535, 1 + rule % 128, 255 - rule / 128, 0];
    Kind {
        name: "other protocols, so no rule matches and all five fields are compared",
        rules: (0..size as u32).flat_map(rule).collect(),
        headers: (0..headers).map(|_| [draw(), draw(), draw() & 65_535, draw() & 65_535, 0]).collect(),
    }
}

/// So many rules, up to 512, and so many headers, each of which all of them match.
pub fn all_matching(size: usize, headers: usize, draw: &mut impl FnMut() -> u32) -> Kind {
    let mut header = || [draw(), draw(), MOST_RULES as u32 + draw() % 65_000, draw() & 65_535, draw() & 255];
    Kind {
        name: "every rule matches",
        rules: (0..size as u32).flat_map(|rule| [0, 0, 0, 0, rule, 65_535, 0, 65_535, 0, 255, 0]).collect(),
        headers: (0..headers).map(|_| header()).collect(),
    }
}

/// A good rule: two prefixes of any length, three ranges, and action 0. No range of ports ends at 65,535, where a
/// compiler from before ports could be absent has no cut value.
pub fn drawn_rule(draw: &mut impl FnMut() -> u32) -> [u32; RULE_WORDS] {
    let mut rule = [0; RULE_WORDS];
    for prefix in rule[..4].chunks_exact_mut(2) {
        let length = draw() % 33;
        prefix.copy_from_slice(&[((u64::from(draw()) >> (32 - length)) << (32 - length)) as u32, length]);
    }
    for (range, largest) in rule[4..10].chunks_exact_mut(2).zip([65_534, 65_534, 255]) {
        range.copy_from_slice(&[draw() % (largest + 1), draw() % (largest + 1)]);
        range.sort_unstable();
    }
    rule
}

/// A header that the good rule matches.
pub fn drawn_inside(rule: &[u32], draw: &mut impl FnMut() -> u32) -> Header {
    std::array::from_fn(|field| {
        let (low, second) = (rule[2 * field], rule[2 * field + 1]);
        let more = if field < 2 { (1_u64 << (32 - second)) - 1 } else { u64::from(second - low) };
        low + (u64::from(draw()) % (more + 1)) as u32
    })
}

/// Compares every answer with the plain scan's, and then times both.
pub fn time(draw: &mut impl FnMut() -> u32) {
    for Kind { name, rules, headers } in kinds(draw) {
        let [mut out, mut plain] = [[0; MOST_RULES]; 2];
        for header in and_without_ports(&headers) {
            let first = plain_first(&rules, &header).map(|rule| Match { rule, action: 0 });
            assert_eq!((scan_first(&rules, &header), line_first(&rules, &header)), (Ok(first), Ok(first)));
            let all = plain_all(&rules, &header, &mut plain);
            assert_eq!(scan_all(&rules, &header, &mut out), Ok(all));
            assert_eq!(line_all(&rules, &header, &mut out), Ok(all));
        }
        println!("512 rules: {name}");
        say(
            "first match",
            rounds(&headers, |header| plain_first(&rules, header)),
            rounds(&headers, |header| scan_first(&rules, header)),
            rounds(&headers, |header| line_first(&rules, header)),
        );
        say(
            "all matches",
            rounds(&headers, |header| plain_all(&rules, header, &mut plain).len()),
            rounds(&headers, |header| scan_all(&rules, header, &mut out).map(<[u32]>::len)),
            rounds(&headers, |header| line_all(&rules, header, &mut out).map(<[u32]>::len)),
        );
    }
}

/// The time of one search, the headers being searched for again and again.
fn rounds<T>(headers: &[Header], mut call: impl FnMut(&Header) -> T) -> Duration {
    timed(HEADERS * ROUNDS, || {
        for _ in 0..ROUNDS {
            for header in headers {
                black_box(call(black_box(header)));
            }
        }
    })
}

fn say(what: &str, plain: Duration, scan: Duration, line: Duration) {
    let ratio = scan.as_secs_f64() / plain.as_secs_f64();
    println!("  {what}: plain scan {plain:?}, the library's {scan:?}, ratio {ratio:.2}; line search {line:?}");
}
