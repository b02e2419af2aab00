//! Packets without ports in trees: cuts at and beside 65,535, what the compiler makes of ranges that end there, and
//! trees and parts from before a port could be absent. Every answer was worked out by hand.

mod ports;
mod worked;

use oracle::build::{compile, LARGEST_ROOM};
use oracle::{build_on, build_some, line_all, tree_all, tree_check, tree_first, Answer};
use ports::{head, refused, with, Rule, EVERYTHING, PORTS};
use worked::AS_FOUND;

/// A cut at this value of this field, with these entries in its two leaves.
fn two_leaves(field: usize, value: u32, left: &[u32], right: &[u32]) -> (Vec<u32>, Vec<u32>) {
    let (first, second) = (left.len() as u32, right.len() as u32);
    ([[field as u32, value, 2], [5, 0, first], [5, first, second]].concat(), [left, right].concat())
}

#[test]
fn a_cut_at_65_535_parts_the_absent_port_from_the_others() {
    for field in PORTS {
        // Rule 0 has all ports, rule 1 those from 1,024 on, and rule 2 the last one.
        let rules = [EVERYTHING, with(field, [1_024, 65_535]), with(field, [65_535, 65_535])].concat();
        let check = |value: u32, left: &[u32], right: &[u32]| {
            let (nodes, pool) = two_leaves(field, value, left, right);
            tree_check(&rules, &nodes, &pool)
        };
        assert_eq!(check(65_535, &[0, 1, 2], &[0]), Answer::completed(1, 3, 0));
        // More than need be is no fault.
        assert_eq!(check(65_535, &[0, 1, 2], &[0, 1, 2]), Answer::completed(1, 3, 0));
        assert_eq!(check(65_535, &[0, 1, 2], &[]), refused(8, 2, 0));
        assert_eq!(check(65_535, &[0, 1, 2], &[1, 2]), refused(8, 2, 0));
        assert_eq!(check(65_535, &[0, 1], &[0]), refused(8, 1, 2));
        assert_eq!(check(65_535, &[1, 2], &[]), refused(8, 1, 0));
        // Just before it, both of the last two values are right of the cut.
        assert_eq!(check(65_534, &[0, 1], &[0, 1, 2]), Answer::completed(1, 3, 0));
        assert_eq!(check(65_534, &[0, 1], &[0, 1]), refused(8, 2, 2));
        // The value must be below the box's high.
        for value in [65_536, 65_537, u32::MAX] {
            assert_eq!(check(value, &[0, 1, 2], &[0]), refused(6, 0, 0));
        }
        let (nodes, pool) = two_leaves(field, 65_535, &[0, 1, 2], &[0]);
        assert_eq!(tree_first(&rules, &nodes, &pool, &head(field, 65_536)), Answer::completed(1, 2, 1));
        assert_eq!(tree_all(&rules, &nodes, &pool, &head(field, 65_536), &mut [0; 3]), Answer::completed(1, 2, 1));
        assert_eq!(tree_all(&rules, &nodes, &pool, &head(field, 65_535), &mut [0; 3]), Answer::completed(3, 2, 3));
        // A search looks at no value: by a cut at 65,536 the absent port goes left.
        let (nodes, pool) = two_leaves(field, 65_536, &[1, 2], &[0]);
        assert_eq!(tree_all(&rules, &nodes, &pool, &head(field, 65_536), &mut []), Answer::completed(0, 2, 2));
    }
}

#[test]
fn the_absent_port_alone_cannot_be_cut() {
    for field in [2, 3] {
        let nodes = [[field, 65_535, 2], [5, 0, 0], [field, 65_535, 4], [5, 0, 0], [5, 0, 0]].concat();
        assert_eq!(tree_check(&[], &nodes, &[]), refused(6, 2, 0));
        let nodes = [[field, 65_535, 2], [5, 0, 0], [field, 65_536, 4], [5, 0, 0], [5, 0, 0]].concat();
        assert_eq!(tree_check(&[], &nodes, &[]), refused(6, 2, 0));
        let nodes = [[field, 65_534, 2], [5, 0, 0], [field, 65_535, 4], [5, 0, 0], [5, 0, 0]].concat();
        assert_eq!(tree_check(&[], &nodes, &[]), Answer::completed(2, 0, 0));
    }
}

/// The tree that is compiled from the rules.
fn compiled(rules: &[Rule]) -> (Vec<u32>, Vec<u32>) {
    let words = compile(&rules.concat(), LARGEST_ROOM).expect("a small tree fits");
    assert_eq!(tree_check(&rules.concat(), &words.nodes, &words.pool).number, 0);
    (words.nodes, words.pool)
}

/// Nine ranges of the field: from 1, from 2, .. from 9, all of them up to 65,535.
fn from_1_to_9(field: usize) -> Vec<Rule> {
    (1..10).map(|low| with(field, [low, 65_535])).collect()
}

#[test]
fn a_range_that_ends_at_65_535_gives_that_value() {
    for field in PORTS {
        let cut = |value: u32, right: u32| [field as u32, value, right];
        // The values are 0 to 8 and 65,535, which are ten, and place 5 has 5. From 6 on they are 6, 7, 8 and 65,535,
        // and place 2 has 8. From 9 on 65,535 alone is left, and no rule meets the absent port.
        let nodes = [cut(5, 2), [5, 0, 5], cut(8, 4), [5, 5, 8], cut(65_535, 6), [5, 13, 9], [5, 22, 0]].concat();
        let numbers: Vec<u32> = (0..9).collect();
        let pool = [&numbers[..5], &numbers[..8], &numbers].concat();
        assert_eq!(compiled(&from_1_to_9(field)), (nodes, pool));
        // Ports 10, 20, .. 80 and from 90 on: 18 values, since 65,535 counts too, and place 9 has 50.
        let mut rules: Vec<Rule> = (1..9).map(|ten| with(field, [10 * ten, 10 * ten])).collect();
        rules.push(with(field, [90, 65_535]));
        assert_eq!(compiled(&rules), ([cut(50, 2), [5, 0, 5], [5, 5, 4]].concat(), numbers));
    }
}

#[test]
fn the_range_of_all_ports_gives_no_value() {
    for field in PORTS {
        let cut = |value: u32, right: u32| [field as u32, value, right];
        let numbers: Vec<u32> = (0..9).collect();
        // Ranges from 0 to 0, .. 0 to 7, and all ports: the values are 0 to 7, and place 4 has 4. In the box 0 to 4
        // all rules meet, with the values 0 to 3; then 0 and 1; then 0.
        let mut rules: Vec<Rule> = (0..8).map(|high| with(field, [0, high])).collect();
        rules.push(EVERYTHING);
        let nodes = [cut(4, 8), cut(2, 7), cut(1, 6), cut(0, 5), [5, 0, 9], [5, 9, 8], [5, 17, 7], [5, 24, 6]];
        let nodes = [&nodes.concat()[..], &[5, 30, 4]].concat();
        let pool = [&numbers[..], &numbers[1..], &numbers[2..], &numbers[3..], &numbers[5..]].concat();
        assert_eq!(compiled(&rules), (nodes, pool));
        // The last rule from 1 on gives 0, which is there already, and 65,535. So there are nine values, and place 4
        // has 4 as before; but this rule does not meet the box of port 0.
        rules[8] = with(field, [1, 65_535]);
        let nodes = [cut(4, 8), cut(2, 7), cut(1, 6), cut(0, 5), [5, 0, 8], [5, 8, 8], [5, 16, 7], [5, 23, 6]];
        let nodes = [&nodes.concat()[..], &[5, 29, 4]].concat();
        let pool = [&numbers[..8], &numbers[1..], &numbers[2..], &numbers[3..], &numbers[5..]].concat();
        assert_eq!(compiled(&rules), (nodes, pool));
    }
}

#[test]
fn trees_from_before_are_accepted() {
    for field in PORTS {
        // Without 65,535 there were nine values, and place 4 had 4. From 5 on 5, 6, 7 and 8, and place 2 had 7.
        let nodes = [[field as u32, 4, 2], [5, 0, 4], [field as u32, 7, 4], [5, 4, 7], [field as u32, 8, 6]];
        let nodes = [&nodes.concat()[..], &[5, 11, 8, 5, 19, 9]].concat();
        let numbers: Vec<u32> = (0..9).collect();
        let pool = [&numbers[..4], &numbers[..7], &numbers[..8], &numbers].concat();
        let rules = from_1_to_9(field).concat();
        assert_eq!(tree_check(&rules, &nodes, &pool), Answer::completed(3, 9, 0));
        for (port, count) in [(0, 0), (1, 1), (4, 4), (9, 9), (65_535, 9), (65_536, 0)] {
            assert_eq!(tree_all(&rules, &nodes, &pool, &head(field, port), &mut [0; 9]).a, count, "port {port}");
            assert_eq!(line_all(&rules, &head(field, port), &mut [0; 9]).a, count, "port {port}");
        }
        // A stop of it is taken, too. What is not begun is built as now: from 8 on there are the values 8 and 65,535,
        // and place 1 has 65,535.
        let part = [[field as u32, 4, 2], [5, 0, 4], [field as u32, 7, 0], [5, 4, 7]].concat();
        let [mut on_nodes, mut on_pool] = [[AS_FOUND; 100]; 2];
        let answer = build_on(&rules, 9, &part, &pool[..11], u64::MAX, &mut on_nodes, &mut on_pool);
        assert_eq!(answer, Answer::completed(9, 28, 1));
        let rest = [[field as u32, 65_535, 8], [field as u32, 8, 7], [5, 11, 8], [5, 19, 9], [5, 28, 0]].concat();
        assert_eq!(on_nodes[12..27], rest);
        assert_eq!((on_nodes[8], &on_pool[..28]), (4, &pool[..]));
        assert_eq!(tree_check(&rules, &on_nodes[..27], &on_pool[..28]), Answer::completed(4, 9, 0));
    }
}

#[test]
fn parts_are_cut_up_to_65_535() {
    for field in PORTS {
        let rules = from_1_to_9(field).concat();
        let on = |nodes: &[u32], pool: &[u32]| build_on(&rules, 9, nodes, pool, 1, &mut [0; 100], &mut [0; 100]);
        let own = field as u32;
        assert_eq!(on(&[own, 65_535, 0], &[]), Answer::completed(2, 0, 0));
        assert_eq!(on(&[own, 65_536, 0], &[]), refused(6, 0, 0));
        // The absent port alone is met by no rule, and all ports by all nine.
        let all: Vec<u32> = (0..9).collect();
        assert_eq!(on(&[own, 65_535, 0, 5, 0, 9], &all), Answer::completed(3, 9, 1));
        assert_eq!(on(&[own, 65_535, 2, 5, 0, 9, 5, 9, 0], &all), Answer::completed(3, 9, 1));
        assert_eq!(on(&[own, 65_535, 0, 5, 0, 8], &all[..8]), refused(8, 1, 8));
        // With a rule for all ports, the absent one is met.
        let more = [&rules[..], &EVERYTHING].concat();
        let ten: Vec<u32> = (0..10).collect();
        let part = [own, 65_535, 2, 5, 0, 10, 5, 10, 0];
        assert_eq!(build_on(&more, 10, &part, &ten, 1, &mut [0; 100], &mut [0; 100]), refused(8, 2, 9));
        // The first node of a build is that of the whole tree.
        let mut nodes = [AS_FOUND; 3];
        assert_eq!(build_some(&rules, 1, &mut nodes, &mut []), Answer::completed(1, 0, 0));
        assert_eq!(nodes, [own, 5, 0]);
    }
}
