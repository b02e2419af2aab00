//! Times the library's tree check and tree searches beside a plain Rust walk of the same tree, at the largest sizes;
//! the compiler beside a plain Rust compiler of the same tree, and going on with a part; the scans of a list beside a
//! plain Rust scan of it; and the writers and readers of both files. Given two builds of the library, it times these
//! beside each other instead (`beside.rs`).
//!
//! The plain walk trusts the tree: it looks at no node that its header does not need, refuses nothing and counts
//! nothing.

mod beside;
mod builds;
mod files;
mod loaded;
mod plain_build;
mod scans;

use std::hint::black_box;
use std::time::{Duration, Instant};

use wickorchard::limits::{ABSENT_PORT, LARGEST_PORT, RULE_WORDS};
use wickorchard::raw::{wick_tree_all, wick_tree_check, wick_tree_first};

const TURNS: usize = 9;
const HEADERS: usize = 4_096;
const ROUNDS: usize = 100;

/// 512 rules, 2,047 nodes and 4,096 pool words.
struct Tree {
    rules: Vec<u32>,
    nodes: Vec<u32>,
    pool: Vec<u32>,
}

impl Tree {
    /// A rule for each 512th of the source addresses, and a balanced tree whose 1,024 leaves list four rules each.
    fn largest() -> Tree {
        let mut tree = Tree { rules: Vec::new(), nodes: Vec::new(), pool: Vec::new() };
        for strip in 0..512 {
            tree.rules.extend([strip << 23, 9, 0, 0, 0, 65_535, 0, 65_535, 0, 255, 0]);
        }
        tree.plant(0, 1_024);
        assert_eq!((tree.rules.len(), tree.nodes.len(), tree.pool.len()), (5_632, 6_141, 4_096));
        tree
    }

    fn plant(&mut self, low: u32, leaves: u32) {
        let at = self.nodes.len();
        if leaves > 1 {
            let half = leaves / 2;
            self.nodes.extend([0, (low + half) * (1 << 22) - 1, 0]);
            self.plant(low, half);
            self.nodes[at + 2] = (self.nodes.len() / 3) as u32;
            self.plant(low + half, half);
            return;
        }
        let rule = low / 2;
        let mut entries = [rule, (rule + 1) % 512, (rule + 7) % 512, (rule + 300) % 512];
        entries.sort_unstable();
        self.nodes.extend([5, self.pool.len() as u32, 4]);
        self.pool.extend(entries);
    }
}

fn matches(rule: &[u32], header: &[u32; 5]) -> bool {
    let agree = |address: u32, from: u32, length: u32| {
        (u64::from(address) >> (32 - length)) == (u64::from(from) >> (32 - length))
    };
    // The rule is good, so an absent port lies in no range; the range of all ports takes it.
    let takes = |port: u32, low: u32, high: u32| {
        (low..=high).contains(&port) || (port == ABSENT_PORT && low == 0 && high == LARGEST_PORT)
    };
    agree(header[0], rule[0], rule[1])
        && agree(header[1], rule[2], rule[3])
        && takes(header[2], rule[4], rule[5])
        && takes(header[3], rule[6], rule[7])
        && (rule[8]..=rule[9]).contains(&header[4])
}

/// The headers, and each of them without its source port, without its destination port and without both.
fn and_without_ports(headers: &[[u32; 5]]) -> impl Iterator<Item = [u32; 5]> + '_ {
    headers.iter().flat_map(|&[source, destination, from, to, protocol]| {
        [[from, to], [ABSENT_PORT, to], [from, ABSENT_PORT], [ABSENT_PORT; 2]]
            .map(|[from, to]| [source, destination, from, to, protocol])
    })
}

fn walk<'a>(tree: &'a Tree, header: &[u32; 5]) -> &'a [u32] {
    let mut at = 0;
    loop {
        let node = &tree.nodes[3 * at..3 * at + 3];
        if node[0] == 5 {
            let start = node[1] as usize;
            return &tree.pool[start..start + node[2] as usize];
        }
        at = if header[node[0] as usize] <= node[1] { at + 1 } else { node[2] as usize };
    }
}

#[inline(never)]
fn plain_first(tree: &Tree, header: &[u32; 5]) -> Option<u32> {
    walk(tree, header)
        .iter()
        .copied()
        .find(|&entry| matches(&tree.rules[RULE_WORDS * entry as usize..][..RULE_WORDS], header))
}

#[inline(never)]
fn plain_all(tree: &Tree, header: &[u32; 5], out: &mut [u32]) -> usize {
    let mut count = 0;
    for &entry in walk(tree, header) {
        if matches(&tree.rules[RULE_WORDS * entry as usize..][..RULE_WORDS], header) {
            out[count] = entry;
            count += 1;
        }
    }
    count
}

/// A call of the library with the tree's three slices, and what else it takes.
macro_rules! lend {
    ($call:ident, $tree:expr, $($rest:expr),+) => {{
        let (r, n, p) = (&$tree.rules, &$tree.nodes, &$tree.pool);
        let (rules, nodes, pool) = (r.as_ptr(), n.as_ptr(), p.as_ptr());
        // The slices live as long as the call, and none that it writes to overlaps another.
        unsafe { $call(rules, r.len() as u64, nodes, n.len() as u64, pool, p.len() as u64, $($rest),+) }
    }};
}

fn our_first(tree: &Tree, header: &[u32; 5], answer: &mut [u64; 8]) {
    lend!(wick_tree_first, tree, header.as_ptr(), 5, answer)
}

fn our_all(tree: &Tree, header: &[u32; 5], out: &mut [u32], answer: &mut [u64; 8]) {
    lend!(wick_tree_all, tree, header.as_ptr(), 5, out.as_mut_ptr(), out.len() as u64, answer)
}

fn our_check(tree: &Tree, answer: &mut [u64; 8]) {
    lend!(wick_tree_check, tree, answer)
}

/// The middle of several turns, for one call.
fn timed(calls: usize, mut turn: impl FnMut()) -> Duration {
    let mut times: Vec<Duration> = (0..TURNS)
        .map(|_| {
            let begin = Instant::now();
            turn();
            begin.elapsed()
        })
        .collect();
    times.sort();
    times[TURNS / 2] / calls as u32
}

fn main() {
    let mut state = 540_000_u64;
    let mut draw = || {
        state = state.wrapping_mul(6_364_136_223_846_793_005).wrapping_add(1_442_695_040_888_963_407);
        (state >> 32) as u32
    };
    let builds: Vec<String> = std::env::args().skip(1).collect();
    match builds.as_slice() {
        [] => (),
        [before, now] => return beside::time([before, now], &mut draw),
        _ => panic!("give nothing, or two builds of the library as shared libraries: BEFORE.so NOW.so"),
    }
    let tree = Tree::largest();
    let headers: Vec<[u32; 5]> =
        (0..HEADERS).map(|_| [draw(), draw(), draw() & 65_535, draw() & 65_535, draw() & 255]).collect();
    let mut out = [0_u32; 8];
    let mut answer = [0_u64; 8];
    for header in and_without_ports(&headers) {
        our_first(&tree, &header, &mut answer);
        let first = plain_first(&tree, &header).map_or(0, |rule| u64::from(rule) + 1);
        assert_eq!(answer, [0, 0, 0, first, 11, answer[5], 0, 0]);
        our_all(&tree, &header, &mut out, &mut answer);
        let mut plain = [0_u32; 8];
        let count = plain_all(&tree, &header, &mut plain);
        assert_eq!(answer, [0, 0, 0, count as u64, 11, 4, 0, 0]);
        assert_eq!(out[..count], plain[..count]);
    }
    let calls = HEADERS * ROUNDS;
    let rounds = |call: &mut dyn FnMut(&[u32; 5])| {
        timed(calls, || {
            for _ in 0..ROUNDS {
                for header in &headers {
                    call(black_box(header));
                }
            }
        })
    };
    println!(
        "first match, plain walk  {:?}",
        rounds(&mut |header| {
            black_box(plain_first(&tree, header));
        })
    );
    println!("first match, the library {:?}", rounds(&mut |header| our_first(&tree, header, black_box(&mut answer))));
    println!(
        "all matches, plain walk  {:?}",
        rounds(&mut |header| {
            black_box(plain_all(&tree, header, &mut out));
        })
    );
    println!(
        "all matches, the library {:?}",
        rounds(&mut |header| our_all(&tree, header, black_box(&mut out), black_box(&mut answer)))
    );
    let check = timed(10, || {
        for _ in 0..10 {
            our_check(&tree, black_box(&mut answer));
        }
    });
    assert_eq!(answer, [0, 0, 0, 10, 4, 0, 0, 0]);
    println!("the tree check           {check:?}");
    builds::time(&mut draw);
    scans::time(&mut draw);
    files::time(&tree);
}
