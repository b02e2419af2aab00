//! Builds that stop and go on: every stop of a small tree, worked out by hand, and parts that others have made.

mod worked;

use oracle::build::{compile, Room, LARGEST_ROOM};
use oracle::parts::TreeWords;
use oracle::stops::{begin, go_on, Come};
use oracle::{build_on, build_some, tree_check, Answer, Refusal};
use worked::{policy, AS_FOUND};

type Rule = [u32; 11];

const EVERYTHING: Rule = [0, 0, 0, 0, 0, 65_535, 0, 65_535, 0, 255, 0];

/// The tree of `seventeen`: two cuts, and leaves of 4, 6 and 7 entries.
const NODES: [[u32; 3]; 5] = [[3, 50, 4], [3, 29, 3], [5, 0, 4], [5, 4, 6], [5, 10, 7]];
const POOL: [u32; 17] = [0, 1, 9, 10, 2, 3, 4, 11, 12, 13, 5, 6, 7, 8, 14, 15, 16];

/// Destination ports 10, 20, .. 90 with protocol 1, and 10, 20, .. 80 with protocol 2.
fn seventeen() -> Vec<u32> {
    let rule = |number: u32| {
        let (port, protocol) = (10 * (number % 9 + 1), 1 + number / 9);
        [0, 0, 0, 0, 0, 65_535, port, port, protocol, protocol, 0]
    };
    (0..17).map(rule).collect::<Vec<Rule>>().concat()
}

/// What a stop of that tree after so many nodes is: the right children of nodes that are not there are 0.
fn stop(nodes: usize) -> TreeWords {
    let (written, entries): (&[[u32; 3]], usize) = match nodes {
        1 => (&[[3, 50, 0]], 0),
        2 => (&[[3, 50, 0], [3, 29, 0]], 0),
        3 => (&[[3, 50, 0], [3, 29, 0], [5, 0, 4]], 4),
        4 => (&[[3, 50, 0], [3, 29, 3], [5, 0, 4], [5, 4, 6]], 10),
        _ => (&NODES, 17),
    };
    words(written, &POOL[..entries])
}

fn words(nodes: &[[u32; 3]], pool: &[u32]) -> TreeWords {
    TreeWords { nodes: nodes.concat(), pool: pool.to_vec() }
}

fn refused(number: u64, place: u64, extra: u64) -> Answer {
    Answer { number, place, extra, a: 0, b: 0, c: 0, d: 0 }
}

/// Expects the call to give these words, with exact room and with more, and to say whether they are whole.
fn expect_words(call: impl Fn(&mut [u32], &mut [u32]) -> Answer, wanted: &TreeWords, whole: bool) {
    for spare in [0, 1, 2, 9_000] {
        let mut nodes = vec![AS_FOUND; wanted.nodes.len() + spare];
        let mut pool = vec![AS_FOUND; wanted.pool.len() + spare];
        let answer = Answer::completed(wanted.node_count(), wanted.pool.len() as u64, u64::from(whole));
        assert_eq!(call(&mut nodes, &mut pool), answer);
        assert_eq!(nodes, [&wanted.nodes[..], &vec![AS_FOUND; spare]].concat());
        assert_eq!(pool, [&wanted.pool[..], &vec![AS_FOUND; spare]].concat());
    }
}

/// Goes on from a part of so many rules with so much room, and expects both slices as found where it is refused.
fn on_in(rules: &[u32], rule_count: u64, part: &TreeWords, most: u64, rooms: [usize; 2]) -> Answer {
    let [mut nodes, mut pool] = rooms.map(|room| vec![AS_FOUND; room]);
    let answer = build_on(rules, rule_count, &part.nodes, &part.pool, most, &mut nodes, &mut pool);
    assert!(answer.number == 0 || nodes.iter().chain(&pool).all(|&word| word == AS_FOUND));
    answer
}

/// Goes on with ample room from a part whose number of rules is told rightly.
fn on(rules: &[u32], part: &TreeWords, most: u64) -> Answer {
    on_in(rules, rules.len() as u64 / 11, part, most, [7_000, 5_000])
}

/// The same, and what it comes to.
fn come(rules: &[u32], part: &TreeWords, most: u64) -> Result<Come, Refusal> {
    go_on(rules, rules.len() as u64 / 11, part.clone(), most, LARGEST_ROOM)
}

/// Goes on to the end. The tree check must accept what comes out.
fn finished(rules: &[u32], part: &TreeWords) -> TreeWords {
    let Come { words, whole } = come(rules, part, u64::MAX).expect("the part is taken, and its tree fits");
    assert!(whole);
    assert_eq!(tree_check(rules, &words.nodes, &words.pool).number, 0);
    words
}

/// Expects this refusal of the part, with room and without.
fn expect_refusal(rules: &[u32], part: &TreeWords, refusal: Answer) {
    for rooms in [[0, 0], [3, 0], [7_000, 5_000]] {
        for most in [0, 1, 100, u64::MAX] {
            assert_eq!(on_in(rules, rules.len() as u64 / 11, part, most, rooms), refusal, "{part:?}");
        }
    }
}

#[test]
fn every_stop_of_a_small_tree() {
    let rules = seventeen();
    let whole = compile(&rules, LARGEST_ROOM).expect("the tree fits");
    assert_eq!(whole, stop(5));
    for nodes in 1..=5 {
        assert_eq!(whole.stop_after(nodes as u64), stop(nodes));
        let some = |n: &mut [u32], p: &mut [u32]| build_some(&rules, nodes as u64, n, p);
        expect_words(some, &stop(nodes), nodes == 5);
    }
    for more in [6, 7, 1 << 32, u64::MAX] {
        expect_words(|n, p| build_some(&rules, more, n, p), &stop(5), true);
    }
    expect_words(|n, p| build_some(&rules, 0, n, p), &stop(1), false);
}

#[test]
fn from_every_stop_by_every_number_of_nodes() {
    let rules = seventeen();
    for stands in 1..=5 {
        let TreeWords { nodes, pool } = stop(stands);
        for most in (0..=6).chain([1 << 32, (1 << 32) - 1, u64::MAX - 5, u64::MAX - 1, u64::MAX]) {
            let until = stands.saturating_add(most.max(1) as usize).min(5);
            let on = |n: &mut [u32], p: &mut [u32]| build_on(&rules, 17, &nodes, &pool, most, n, p);
            expect_words(on, &stop(until), until == 5);
        }
    }
}

#[test]
fn any_number_of_stops_ends_in_the_tree_of_a_build_never_stopped() {
    let rules: Vec<u32> = (0..60).flat_map(|port| [0, 0, 0, 0, port, 3 * port + 9, port, port, 6, 6, 0]).collect();
    let whole = compile(&rules, LARGEST_ROOM).expect("the tree fits");
    for step in [0, 1, 2, 3, 7, 50] {
        let mut at = begin(&rules, step, LARGEST_ROOM).expect("it fits");
        while !at.whole {
            assert_eq!(at.words, whole.stop_after(at.words.node_count()));
            let next = come(&rules, &at.words, step).expect("it fits");
            assert_eq!(next.words.node_count(), (at.words.node_count() + step.max(1)).min(whole.node_count()));
            at = next;
        }
        assert_eq!(at.words, whole);
    }
}

#[test]
fn a_tree_of_one_leaf_has_no_stop() {
    for most in [0, 1, 2, u64::MAX] {
        expect_words(|n, p| build_some(&[], most, n, p), &words(&[[5, 0, 0]], &[]), true);
        expect_words(|n, p| build_some(&policy(), most, n, p), &words(&[[5, 0, 3]], &[0, 1, 2]), true);
    }
}

#[test]
fn only_the_nodes_that_are_asked_for_must_fit() {
    let rules = seventeen();
    let (pools, leaf_ends) = ([0, 0, 4, 10, 17], [0, 0, 4, 10, 17]);
    for stands in 0..=4 {
        for most in 1..=6 {
            let until = (stands + most).min(5);
            for nodes in 0..18 {
                for pool in 0..20 {
                    let unfit = (0..until).find(|&node| 3 * (node + 1) > nodes || leaf_ends[node] > pool);
                    let wanted = match unfit {
                        Some(node) if 3 * (node + 1) > nodes => refused(4, 3 * (node as u64 + 1), 0),
                        Some(node) => refused(4, leaf_ends[node], 1),
                        None => Answer::completed(until as u64, pools[until - 1], u64::from(until == 5)),
                    };
                    let answer = match stands {
                        0 => build_some(&rules, most as u64, &mut vec![0; nodes], &mut vec![0; pool as usize]),
                        _ => on_in(&rules, 17, &stop(stands), most as u64, [nodes, pool as usize]),
                    };
                    assert_eq!(answer, wanted, "{stands} and {most} nodes, rooms {nodes} and {pool}");
                }
            }
        }
    }
}

#[test]
fn the_list_is_judged_first_and_the_told_number_of_rules_after_the_lengths() {
    let part = stop(3);
    for rooms in [[0, 0], [7_000, 5_000]] {
        let mut bad = seventeen();
        bad[11 * 7 + 9] = 256;
        let twins = [seventeen(), seventeen()[33..44].to_vec()].concat();
        for (rules, refusal) in [
            (vec![0; 10], refused(1, 0, 0)),
            (EVERYTHING.repeat(513), refused(1, 0, 0)),
            (bad, refused(2, 7, 0)),
            (twins, refused(11, 17, 3)),
        ] {
            let [mut nodes, mut pool] = rooms.map(|room| vec![AS_FOUND; room]);
            assert_eq!(build_some(&rules, 1, &mut nodes, &mut pool), refusal);
            // The part's words are of a wrong length too, and another number of rules is told.
            assert_eq!(on_in(&rules, 9, &words(&[], &[]), 1, rooms), refusal);
        }
        for broken in [vec![], vec![3], vec![3; 4], vec![5; 6_142], vec![5; 6_144]] {
            let part = TreeWords { nodes: broken, pool: vec![] };
            assert_eq!(on_in(&seventeen(), 9, &part, 1, rooms), refused(5, 0, 0));
        }
        assert_eq!(on_in(&seventeen(), 9, &words(&[[5, 0, 0]], &[0; 4_097]), 1, rooms), refused(5, 0, 0));
        // The first word of node 0 is wrong, and so is the start of node 2.
        let broken = words(&[[9, 50, 0], [3, 29, 0], [5, 1, 4]], &POOL[..4]);
        for told in [0, 16, 18, 512, 513, 1 << 32, (1 << 32) + 17, u64::MAX] {
            assert_eq!(on_in(&seventeen(), told, &part, 1, rooms), refused(6, 0, 0));
            assert_eq!(on_in(&seventeen(), told, &broken, 1, rooms), refused(6, 0, 0));
        }
    }
    assert_eq!(on(&seventeen(), &part, 1).number, 0);
}

#[test]
fn a_part_is_spelt() {
    let rules = seventeen();
    let with = |node: usize, word: usize, value: u32| {
        let mut part = stop(4);
        part.nodes[3 * node + word] = value;
        part
    };
    expect_refusal(&rules, &with(1, 0, 6), refused(6, 1, 0));
    // A right child is a node that is there. Child 4 is the whole tree's.
    expect_refusal(&rules, &with(0, 2, 4), refused(6, 0, 0));
    expect_refusal(&rules, &with(1, 2, u32::MAX), refused(6, 1, 0));
    expect_refusal(&rules, &with(2, 1, 1), refused(7, 2, 0));
    expect_refusal(&rules, &with(3, 2, 7), refused(7, 3, 0));
    expect_refusal(&rules, &with(3, 2, 5), refused(7, 4, 0));
    expect_refusal(&rules, &TreeWords { pool: [&POOL[..9], &[17]].concat(), ..stop(4) }, refused(7, 3, 0));
    expect_refusal(&rules, &TreeWords { pool: POOL[..11].to_vec(), ..stop(4) }, refused(7, 4, 0));
    // Spelt comes before the walk: the value of node 0 is outside of its box, too.
    expect_refusal(&rules, &words(&[[3, 65_536, 0], [5, 0, 18]], &[0; 18]), refused(7, 1, 0));
}

#[test]
fn a_right_child_that_is_begun_is_told_and_one_that_is_not_is_0() {
    let rules = seventeen();
    // Node 1's left part ends at 3, which is there; node 0's right child is not.
    for child in [0, 1, 2] {
        let part = words(&[[3, 50, 0], [3, 29, child], [5, 0, 4], [5, 4, 6]], &POOL[..10]);
        expect_refusal(&rules, &part, refused(6, 1, 0));
    }
    for child in [1, 2, 3] {
        let part = words(&[[3, 50, child], [3, 29, 3], [5, 0, 4], [5, 4, 6]], &POOL[..10]);
        expect_refusal(&rules, &part, refused(6, 0, 0));
    }
    // The left part ends with the last node, or is not finished: the child is 0.
    expect_refusal(&rules, &words(&[[3, 50, 0], [3, 29, 2], [5, 0, 4]], &POOL[..4]), refused(6, 1, 0));
    expect_refusal(&rules, &words(&[[3, 50, 1], [3, 29, 0]], &[]), refused(6, 0, 0));
    // Both are wrong: the inner one is told, since the left part comes first.
    expect_refusal(&rules, &words(&[[3, 50, 1], [3, 29, 1]], &[]), refused(6, 1, 0));
    // A cut of node 0 alone can have no child but 0.
    assert_eq!(on(&rules, &words(&[[3, 50, 0]], &[]), 1), Answer::completed(2, 0, 0));
    expect_refusal(&rules, &words(&[[3, 50, 1]], &[]), refused(6, 0, 0));
}

#[test]
fn the_walk_tells_its_first_fault() {
    let rules = seventeen();
    // Node 1's value is over its box's high, which is 50, or is that; below it is right.
    for value in [50, 51, 65_535, 65_536, u32::MAX] {
        expect_refusal(&rules, &words(&[[3, 50, 0], [3, value, 0]], &[]), refused(6, 1, 0));
    }
    assert_eq!(on(&rules, &words(&[[3, 50, 0], [3, 49, 0]], &[]), 1), Answer::completed(3, 8, 0));
    // The value comes before the left part, in which a leaf does not rise; the leaf comes before the child.
    let fallen = [1, 0, 9, 10];
    expect_refusal(&rules, &words(&[[3, 50, 0], [3, 50, 1], [5, 0, 4]], &fallen), refused(6, 1, 0));
    expect_refusal(&rules, &words(&[[3, 50, 0], [3, 29, 1], [5, 0, 4]], &fallen), refused(7, 2, 0));
    expect_refusal(&rules, &words(&[[3, 50, 0], [3, 29, 0], [5, 0, 2]], &[0, 0]), refused(7, 2, 0));
    // The outer child is wrong, and so is the leaf of the inner right part, which comes first.
    let part = words(&[[3, 50, 1], [3, 29, 3], [5, 0, 4], [5, 4, 2]], &[0, 1, 9, 10, 3, 2]);
    expect_refusal(&rules, &part, refused(7, 3, 0));
}

#[test]
fn a_node_is_left_over_where_nothing_is_open() {
    let rules = seventeen();
    let all: Vec<u32> = (0..17).collect();
    let one_leaf = words(&[[5, 0, 17]], &all);
    let leaves = |more: &[[u32; 3]]| words(&[&[[5, 0, 17]], more].concat(), &all);
    expect_refusal(&rules, &leaves(&[[5, 17, 0]]), refused(6, 1, 0));
    expect_refusal(&rules, &leaves(&[[3, 50, 0]]), refused(6, 1, 0));
    expect_refusal(&rules, &leaves(&[[3, 50, 0], [5, 17, 0]]), refused(6, 1, 0));
    let over = words(&[&NODES[..], &[[5, 17, 0]]].concat(), &POOL);
    expect_refusal(&rules, &over, refused(6, 5, 0));
    // Nothing is open, and nothing is left over: it is whole.
    for most in [0, 1, u64::MAX] {
        let on = |n: &mut [u32], p: &mut [u32]| build_on(&rules, 17, &one_leaf.nodes, &one_leaf.pool, most, n, p);
        expect_words(on, &one_leaf, true);
    }
    assert_eq!(on_in(&rules, 17, &one_leaf, 1, [2, 16]), refused(4, 3, 0));
    assert_eq!(on_in(&rules, 17, &one_leaf, 1, [3, 16]), refused(4, 17, 1));
}

#[test]
fn a_finished_leaf_lists_every_rule_that_meets_its_box() {
    let rules = seventeen();
    // Leaf 2 lacks rule 9, and leaf 3 lacks rules 2 and 13.
    let lacking = |left: &[u32], right: &[u32]| {
        let (left_count, right_count) = (left.len() as u32, right.len() as u32);
        let nodes = [[3, 50, 0], [3, 29, 3], [5, 0, left_count], [5, left_count, right_count]];
        words(&nodes, &[left, right].concat())
    };
    expect_refusal(&rules, &lacking(&[0, 1, 10], &[3, 4, 11, 12]), refused(8, 2, 9));
    expect_refusal(&rules, &lacking(&[], &[3, 4, 11, 12]), refused(8, 2, 0));
    expect_refusal(&rules, &lacking(&[0, 1, 9, 10], &[3, 4, 11, 12]), refused(8, 3, 2));
    expect_refusal(&rules, &lacking(&[0, 1, 9, 10], &[2, 3, 4, 11, 12]), refused(8, 3, 13));
    // The walk's faults come first: the child of node 0 is not 0.
    let mut both = lacking(&[0, 1, 10], &[3, 4, 11, 12]);
    both.nodes[2] = 3;
    expect_refusal(&rules, &both, refused(6, 0, 0));
    // A leaf may list more, and keeps it.
    let more = lacking(&[0, 1, 2, 8, 9, 10, 16], &[2, 3, 4, 11, 12, 13]);
    let whole = finished(&rules, &more);
    assert_eq!(whole.nodes, [[3, 50, 4], [3, 29, 3], [5, 0, 7], [5, 7, 6], [5, 13, 7]].concat());
    assert_eq!(whole.pool, [&more.pool[..], &[5, 6, 7, 8, 14, 15, 16]].concat());
}

#[test]
fn what_others_have_not_begun_is_built_in_its_box() {
    let rules = seventeen();
    // Cut by the protocol: nine rules of protocol 1 are cut again, at 50 as ever; eight of protocol 2 are a leaf, and
    // so is protocol 0 with none, which no build would part.
    let whole = finished(&rules, &words(&[[4, 1, 0], [4, 0, 0]], &[]));
    assert_eq!(whole.nodes, [[4, 1, 6], [4, 0, 3], [5, 0, 0], [3, 50, 5], [5, 0, 5], [5, 5, 4], [5, 9, 8]].concat());
    assert_eq!(whole.pool, (0..17).collect::<Vec<u32>>());
    // The right part alone is open, and is begun by the next node.
    let part = words(&[[0, 7, 0], [5, 0, 17]], &(0..17).collect::<Vec<u32>>());
    let next = come(&rules, &part, 1).expect("it is taken");
    assert_eq!((next.words.nodes, next.whole), ([[0, 7, 2], [5, 0, 17], [3, 50, 0]].concat(), false));
}

/// So many cuts one below the other by the source, each the left child of the one above, and nothing else.
fn cuts_alone(cuts: u32) -> TreeWords {
    TreeWords { nodes: (0..cuts).flat_map(|cut| [0, 10_000 - cut, 0]).collect(), pool: vec![] }
}

#[test]
fn cuts_count_from_the_root() {
    let rules = seventeen();
    for cuts in [1, 2, 30, 60, 61, 62, 63] {
        let whole = finished(&rules, &cuts_alone(cuts));
        let deepest = tree_check(&rules, &whole.nodes, &whole.pool).a;
        // By itself the list's tree is two cuts deep.
        assert_eq!(deepest, u64::from(cuts + 2).min(63), "{cuts} cuts");
        let first_leaf = whole.nodes.chunks(3).position(|node| node[0] == 5).expect("a tree has a leaf");
        let count = match cuts {
            63 => 17,
            62 => 10,
            _ => 4,
        };
        assert_eq!(whole.nodes[3 * first_leaf + 2], count, "{cuts} cuts");
    }
    for cuts in [64, 65, 2_047] {
        expect_refusal(&rules, &cuts_alone(cuts), refused(6, 63, 0));
    }
}

#[test]
fn a_cut_below_63_is_wrong_in_a_right_part_too() {
    // Each cut is the right child of the one above, whose left child is a leaf.
    let chain = |cuts: u32| {
        let cut = |cut: u32| [[0, cut, if cut + 1 < cuts { 2 * cut + 2 } else { 0 }], [5, 0, 0]];
        words((0..cuts).flat_map(cut).collect::<Vec<[u32; 3]>>().as_slice(), &[])
    };
    for cuts in [1, 62, 63] {
        let whole = finished(&[], &chain(cuts));
        assert_eq!(whole.node_count(), u64::from(2 * cuts + 1));
    }
    for cuts in [64, 65] {
        expect_refusal(&[], &chain(cuts), refused(6, 126, 0));
    }
}

#[test]
fn parts_at_the_limits_that_are_still_open_are_taken_and_then_4() {
    // A balanced tree of 1,023 cuts and 1,024 empty leaves, its last leaf replaced by a cut: 2,047 nodes, and two open.
    fn plant(low: u32, leaves: u32, nodes: &mut Vec<u32>) {
        let at = nodes.len();
        if leaves == 1 {
            nodes.extend([5, 0, 0]);
            return;
        }
        nodes.extend([0, (low + leaves / 2) * (1 << 22) - 1, 0]);
        plant(low, leaves / 2, nodes);
        nodes[at + 2] = (nodes.len() / 3) as u32;
        plant(low + leaves / 2, leaves / 2, nodes);
    }
    let mut nodes = Vec::new();
    plant(0, 1_024, &mut nodes);
    let closed = TreeWords { nodes: nodes.clone(), pool: vec![] };
    assert_eq!(on(&[], &closed, 1), Answer::completed(2_047, 0, 1));
    nodes[3 * 2_046..].copy_from_slice(&[0, u32::MAX - 1, 0]);
    let open = TreeWords { nodes, pool: vec![] };
    for most in [0, 1, u64::MAX] {
        assert_eq!(on(&[], &open, most), refused(4, 6_144, 0));
        assert_eq!(on_in(&[], 0, &open, most, [6_140, 0]), refused(4, 6_141, 0));
    }
    // Eight leaves of 512 entries under eight cuts: the last part is open, and has 512 more.
    let rules: Vec<u32> = (0..512).flat_map(|rule| [0, 0, 0, 0, rule, 65_535, 0, 65_535, 0, 255, 0]).collect();
    let all: Vec<u32> = (0..512).collect();
    let mut nodes: Vec<[u32; 3]> = (0..8).flat_map(|cut| [[0, cut, 2 * cut + 2], [5, 512 * cut, 512]]).collect();
    nodes[14][2] = 0;
    let open = words(&nodes, &all.repeat(8));
    // The part is whole lists, but of what is open the first node is a cut, and then a leaf, with any entries.
    assert_eq!(on(&rules, &open, 1), Answer::completed(17, 4_096, 0));
    let answer = on(&rules, &open, u64::MAX);
    assert_eq!((answer.number, answer.extra), (4, 1));
    assert!(answer.place > 4_096);
    assert_eq!(on_in(&rules, 512, &open, 1, [7_000, 4_095]), refused(4, 4_096, 1));
    assert_eq!(on_in(&rules, 512, &open, 1, [7_000, 511]), refused(4, 512, 1));
}

#[test]
fn a_tree_past_the_limits_stops_before_its_first_node_that_does_not_fit() {
    // Each leaf is met by four sources and four destinations, and there would be 4,096 leaves.
    let rule = |number: u32| match number / 256 {
        0 => [(number % 256) << 24, 8, 0, 0, 0, 65_535, 0, 65_535, 0, 255, 0],
        _ => [0, 0, (number % 256) << 24, 8, 0, 65_535, 0, 65_535, 0, 255, 0],
    };
    let rules: Vec<u32> = (0..512).flat_map(rule).collect();
    let never_stopped = compile(&rules, LARGEST_ROOM).expect_err("the tree is over the limits");
    assert_eq!(never_stopped, Refusal::PoolShort { needed: 4_104 });
    for step in [150, 1_000, 5_000] {
        let mut at = begin(&rules, step, LARGEST_ROOM);
        let mut stops = 0;
        while let Ok(Come { words, whole }) = at {
            assert!(!whole);
            at = come(&rules, &words, step);
            stops += 1;
        }
        assert_eq!((at, stops > 0), (Err(never_stopped), step < 5_000));
    }
    let room = Room { nodes: 300, pool: 4_096 };
    assert_eq!(begin(&rules, 101, room), Err(Refusal::OutputShort { needed: 303 }));
    assert!(begin(&rules, 100, room).is_ok());
}
