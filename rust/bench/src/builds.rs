//! Times the compiler beside a plain Rust compiler of the same tree, on lists of 64 and of 512 rules whose trees are
//! within the limits; says what share of drawn lists are; and times going on from the middle of a tree to its end.

use std::hint::black_box;
use std::time::Duration;

use wickorchard::calls::{build, build_on, build_some, Built, Part};
use wickorchard::limits::{MOST_NODE_WORDS, MOST_POOL_WORDS, NODE_WORDS, RULE_WORDS};

use crate::plain_build::plain_build;
use crate::timed;

const SIZES: [u32; 2] = [64, 512];
const CALLS: usize = 20;
/// The lists that are drawn of a kind and a size for its share.
const DRAWN: usize = 200;

type Rule = [u32; RULE_WORDS];

/// How the rules of a list are drawn.
struct Kind {
    name: &'static str,
    rules: fn(u32, &mut dyn FnMut() -> u32) -> Vec<Rule>,
}

const KINDS: [Kind; 4] = [
    Kind { name: "a strip of the sources for each rule", rules: strips },
    Kind { name: "services: single destinations and ports, from anywhere", rules: services },
    Kind { name: "a zone for each rule: two prefixes, ports and protocol", rules: zones },
    Kind { name: "a firewall: some sources, ports and destinations left open", rules: firewall },
];

const EVERYTHING: Rule = [0, 0, 0, 0, 0, 65_535, 0, 65_535, 0, 255, 0];

fn strips(size: u32, _: &mut dyn FnMut() -> u32) -> Vec<Rule> {
    let bits = size.ilog2();
    (0..size).map(|strip| [strip << (32 - bits), bits, 0, 0, 0, 65_535, 0, 65_535, 0, 255, 0]).collect()
}

/// One of some ports that are often named.
fn port(draw: &mut dyn FnMut() -> u32) -> u32 {
    [22, 25, 53, 80, 110, 123, 143, 389, 443, 636, 993, 3_306, 5_432, 8_080, 8_443][draw() as usize % 15]
}

/// So many rules: the last takes the rest, and one that is there already is drawn again.
fn drawn(size: u32, draw: &mut dyn FnMut() -> u32, rule: fn(&mut dyn FnMut() -> u32) -> Rule) -> Vec<Rule> {
    let mut rules = vec![EVERYTHING];
    while rules.len() < size as usize {
        let next = rule(draw);
        if !rules.contains(&next) {
            rules.push(next);
        }
    }
    rules.rotate_left(1);
    rules
}

/// Hosts of 10.0.0.0/16, each with one port.
pub fn services(size: u32, draw: &mut dyn FnMut() -> u32) -> Vec<Rule> {
    drawn(size, draw, |draw| {
        let (host, port, protocol) = (0x0A00_0000 + draw() % 65_536, port(draw), [6, 17][draw() as usize % 2]);
        [0, 0, host, 32, 0, 65_535, port, port, protocol, protocol, 0]
    })
}

/// Networks that talk to networks.
pub fn zones(size: u32, draw: &mut dyn FnMut() -> u32) -> Vec<Rule> {
    drawn(size, draw, zone)
}

fn zone(draw: &mut dyn FnMut() -> u32) -> Rule {
    let network = |draw: &mut dyn FnMut() -> u32| {
        let length = 16 + draw() % 17;
        [draw() & !((u64::from(u32::MAX) >> length) as u32), length]
    };
    let ([source, source_length], [to, to_length]) = (network(draw), network(draw));
    let (port, protocol) = (port(draw), [6, 17][draw() as usize % 2]);
    [source, source_length, to, to_length, 0, 65_535, port, port, protocol, protocol, 0]
}

/// As zones, but a source is left open in one of four rules, a destination in one of eight, and the ports in one of
/// eight.
fn firewall(size: u32, draw: &mut dyn FnMut() -> u32) -> Vec<Rule> {
    drawn(size, draw, |draw| {
        let mut rule = zone(draw);
        if draw().is_multiple_of(4) {
            rule[..2].copy_from_slice(&EVERYTHING[..2]);
        }
        if draw().is_multiple_of(8) {
            rule[2..4].copy_from_slice(&EVERYTHING[2..4]);
        }
        if draw().is_multiple_of(8) {
            rule[6..8].copy_from_slice(&[1_024, 65_535]);
        }
        rule
    })
}

/// Compares the words of both compilers, and then times them on the first list of each kind that fits.
pub fn time(draw: &mut impl FnMut() -> u32) {
    let [mut nodes, mut pool] = [vec![0; MOST_NODE_WORDS], vec![0; MOST_POOL_WORDS]];
    for size in SIZES {
        for Kind { name, rules } in KINDS {
            let drawn: Vec<Vec<u32>> = (0..DRAWN).map(|_| rules(size, draw).concat()).collect();
            let mut fits = Vec::new();
            for list in drawn {
                let plain = plain_build(&list);
                let ours = build(&list, &mut nodes, &mut pool).ok();
                assert_eq!(ours.map(|tree| (tree.nodes.to_vec(), tree.pool.to_vec())), plain);
                fits.extend(plain.map(|words| (list, words)));
            }
            println!("{size} rules: {name}: {} of {DRAWN} lists fit", fits.len());
            let Some((list, (node_words, pool_words))) = fits.first() else { continue };
            let plain = timed(CALLS, || (0..CALLS).for_each(|_| drop(black_box(plain_build(black_box(list))))));
            let ours = timed(CALLS, || {
                (0..CALLS).for_each(|_| {
                    let _ = black_box(build(black_box(list), &mut nodes, &mut pool));
                })
            });
            let ratio = ours.as_secs_f64() / plain.as_secs_f64();
            let (node_count, entries) = (node_words.len() / NODE_WORDS, pool_words.len());
            println!(
                "  {node_count} nodes, {entries} entries: plain {plain:?}, the library's {ours:?}, ratio {ratio:.2}"
            );
            if node_count > 1 {
                let (half, on) = from_the_middle(list, node_words, pool_words);
                println!("  going on from a part of {half} nodes to the end: {on:?}");
            }
        }
    }
}

/// Stops the build halfway, compares the words that going on gives with the whole tree's, and times that. Gives the
/// number of nodes that stand.
fn from_the_middle(list: &[u32], node_words: &[u32], pool_words: &[u32]) -> (u64, Duration) {
    let rule_count = (list.len() / RULE_WORDS) as u64;
    let half = (node_words.len() / NODE_WORDS) as u64 / 2;
    let [mut part_nodes, mut part_pool] = [vec![0; MOST_NODE_WORDS], vec![0; MOST_POOL_WORDS]];
    let Ok(Built::Stopped(part)) = build_some(list, half, &mut part_nodes, &mut part_pool) else {
        panic!("half of a tree is no whole tree")
    };
    let [mut nodes, mut pool] = [vec![0; MOST_NODE_WORDS], vec![0; MOST_POOL_WORDS]];
    let mut go_on = |part: Part| match build_on(list, rule_count, part, u64::MAX, &mut nodes, &mut pool) {
        Ok(Built::Whole(tree)) => assert_eq!((tree.nodes.len(), tree.pool.len()), (node_words.len(), pool_words.len())),
        _ => panic!("the tree fits"),
    };
    let on = timed(CALLS, || (0..CALLS).for_each(|_| go_on(black_box(part))));
    assert_eq!((&nodes[..node_words.len()], &pool[..pool_words.len()]), (node_words, pool_words));
    (half, on)
}
