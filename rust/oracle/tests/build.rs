//! The compiler: trees of small lists that were worked out by hand from request a), and its refusals.

mod worked;

use oracle::build::{compile, LARGEST_ROOM};
use oracle::{build, tree_check, Answer};
use worked::{policy, AS_FOUND};

type Rule = [u32; 11];

const EVERYTHING: Rule = [0, 0, 0, 0, 0, 65_535, 0, 65_535, 0, 255, 0];

fn refused(number: u64, place: u64, extra: u64) -> Answer {
    Answer { number, place, extra, a: 0, b: 0, c: 0, d: 0 }
}

/// Everything, but for these two words of this field.
fn with(field: usize, pair: [u32; 2]) -> Rule {
    let mut rule = EVERYTHING;
    rule[2 * field..2 * field + 2].copy_from_slice(&pair);
    rule
}

/// The value that a field gets from `variant`: its two words, with the range from 0 to 1.
fn from_0_to_1(field: usize) -> [u32; 2] {
    if field < 2 {
        [0, 31]
    } else {
        [0, 1]
    }
}

/// The rule, in some of these fields from 0 to 1, as the number's bits say. The lowest bit is the first field's. So as
/// many rules as there are numbers differ, and no field has more than the one value, 1, from that.
fn variant(mut rule: Rule, fields: &[usize], number: usize) -> Rule {
    for (bit, &field) in fields.iter().enumerate() {
        if number >> bit & 1 == 1 {
            rule[2 * field..2 * field + 2].copy_from_slice(&from_0_to_1(field));
        }
    }
    rule
}

/// Nine rules that have these two words in this field, and differ in the other four.
fn nine(field: usize, pair: [u32; 2]) -> Vec<Rule> {
    let others: Vec<usize> = (0..5).filter(|&other| other != field).collect();
    (0..9).map(|number| variant(with(field, pair), &others, number)).collect()
}

/// The values at which the list's tree cuts this field, by rising node.
fn cuts_in(field: u32, rules: &[Rule]) -> Vec<u32> {
    let words = compile(&rules.concat(), LARGEST_ROOM).expect("a small tree fits");
    words.nodes.chunks(3).filter(|node| node[0] == field).map(|node| node[1]).collect()
}

/// Expects this tree, with exact room and with more, and that the tree check accepts it.
fn expect_tree(rules: &[Rule], nodes: &[[u32; 3]], pool: &[u32]) {
    let rules = rules.concat();
    for spare in [0, 1, 2, 3, 9_000] {
        let mut node_words = vec![AS_FOUND; 3 * nodes.len() + spare];
        let mut pool_words = vec![AS_FOUND; pool.len() + spare];
        let answer = build(&rules, &mut node_words, &mut pool_words);
        assert_eq!(answer, Answer::completed(nodes.len() as u64, pool.len() as u64, 0));
        assert_eq!(node_words, [&nodes.concat()[..], &vec![AS_FOUND; spare]].concat());
        assert_eq!(pool_words, [pool, &vec![AS_FOUND; spare]].concat());
    }
    assert_eq!(tree_check(&rules, &nodes.concat(), pool).number, 0);
}

/// Expects this refusal, with so much room, and both slices as found.
fn expect_refusal(rules: &[u32], rooms: [usize; 2], refusal: Answer) {
    let [mut nodes, mut pool] = rooms.map(|room| vec![AS_FOUND; room]);
    assert_eq!(build(rules, &mut nodes, &mut pool), refusal, "rooms {rooms:?}");
    assert!(nodes.iter().chain(&pool).all(|&word| word == AS_FOUND));
}

#[test]
fn up_to_eight_rules_are_one_leaf() {
    expect_tree(&[], &[[5, 0, 0]], &[]);
    expect_tree(&[with(4, [6, 6])], &[[5, 0, 1]], &[0]);
    let eight: Vec<Rule> = (0..8).map(|rule| with(3, [rule, rule])).collect();
    expect_tree(&eight, &[[5, 0, 8]], &[0, 1, 2, 3, 4, 5, 6, 7]);
    let mut words = [AS_FOUND; 8];
    let (nodes, pool) = words.split_at_mut(5);
    assert_eq!(build(&policy(), nodes, pool), Answer::completed(1, 3, 0));
    assert_eq!(words, [5, 0, 3, AS_FOUND, AS_FOUND, 0, 1, 2]);
}

#[test]
fn nine_rules_in_one_field_are_cut_at_the_middle_value() {
    // Protocols 10, 20, .. 90: the values 9, 10, 19, 20, .. 89, 90, which are 18, and of them the one at place 9.
    let mut rules: Vec<Rule> = (1..10).map(|ten| with(4, [10 * ten, 10 * ten])).collect();
    expect_tree(&rules, &[[4, 50, 2], [5, 0, 5], [5, 5, 4]], &[0, 1, 2, 3, 4, 5, 6, 7, 8]);
    // The last one goes up to the box's high, which is no cut value: 17 are left, and place 8 has 49.
    rules[8] = with(4, [90, 255]);
    expect_tree(&rules, &[[4, 49, 2], [5, 0, 4], [5, 4, 5]], &[0, 1, 2, 3, 4, 5, 6, 7, 8]);
    // And the first one begins at 0, which gives no value: 16, and place 8 has 50.
    rules[0] = with(4, [0, 10]);
    expect_tree(&rules, &[[4, 50, 2], [5, 0, 5], [5, 5, 4]], &[0, 1, 2, 3, 4, 5, 6, 7, 8]);
}

#[test]
fn a_low_of_0_gives_no_value() {
    // Protocols 0 to 0, 0 to 1, .. 0 to 8: the values 0 to 8, of which place 4 has 4. Left of it there are nine rules
    // and the values 0 to 3; so it goes on, to the box of protocol 0, which all nine rules meet.
    let rules: Vec<Rule> = (0..9).map(|high| with(4, [0, high])).collect();
    let nodes = [[4, 4, 8], [4, 2, 7], [4, 1, 6], [4, 0, 5], [5, 0, 9], [5, 9, 8], [5, 17, 7], [5, 24, 6], [5, 30, 4]];
    let numbers: Vec<u32> = (0..9).collect();
    let pool = [&numbers[..], &numbers[1..], &numbers[2..], &numbers[3..], &numbers[5..]].concat();
    expect_tree(&rules, &nodes, &pool);
}

#[test]
fn of_fields_with_as_many_values_the_lowest_is_cut() {
    for first in 0..5 {
        for second in first + 1..5 {
            // Each field has one rule with two values of its own inside. The other rules give the other fields one.
            let pair = |field: usize| if field < 2 { [0x0A00_0000, 8] } else { [20, 30] };
            let others: Vec<usize> = (0..5).filter(|&other| other != first && other != second).collect();
            let mut rules: Vec<Rule> = (0..8).map(|number| variant(EVERYTHING, &others, number)).collect();
            rules[3] = with(first, pair(first));
            rules.push(with(second, pair(second)));
            let words = compile(&rules.concat(), LARGEST_ROOM).expect("a small tree fits");
            let high = if first < 2 { 0x0AFF_FFFF } else { 30 };
            assert_eq!(words.nodes[..2], [first as u32, high], "fields {first} and {second}");
            // With more values, the higher field is cut.
            let more = if second < 2 { [0x0800_0000, 8] } else { [40, EVERYTHING[2 * second + 1]] };
            rules[7] = with(second, more);
            let words = compile(&rules.concat(), LARGEST_ROOM).expect("a small tree fits");
            assert_eq!(words.nodes[0], second as u32, "fields {first} and {second}");
        }
    }
}

#[test]
fn repeats_are_dropped_before_values_are_counted() {
    // Field 2 has 18 ends, but 99 and 200 only; field 4 has 4, 6, 6 and 8; the other fields have one value each.
    let mut rules: Vec<Rule> = (0..9).map(|number| variant(with(2, [100, 200]), &[0, 1, 3], number % 8)).collect();
    for (rule, range) in rules.iter_mut().zip([[5, 6], [7, 255], [9, 255]]) {
        rule[8..10].copy_from_slice(&range);
    }
    let words = compile(&rules.concat(), LARGEST_ROOM).expect("a small tree fits");
    assert_eq!(words.nodes, [[4, 6, 2], [5, 0, 7], [5, 7, 8]].concat());
    assert_eq!(words.pool, [0, 3, 4, 5, 6, 7, 8, 1, 2, 3, 4, 5, 6, 7, 8]);
    // Without the 8, both have two values, and the lower field is cut at its second one.
    rules[2][8] = 0;
    let words = compile(&rules.concat(), LARGEST_ROOM).expect("a small tree fits");
    assert_eq!(words.nodes[..2], [2, 200]);
}

#[test]
fn a_box_without_cut_values_is_a_leaf_however_many_rules_meet_it() {
    // Ports 0 to 0, 0 to 1, and so on: all of them meet the box of port 0.
    for count in [9, 10, 40, 90] {
        let rules: Vec<Rule> = (0..count).map(|high| with(3, [0, high])).collect();
        let words = compile(&rules.concat(), LARGEST_ROOM).expect("the tree fits");
        let first_leaf = words.nodes.chunks(3).find(|node| node[0] == 5).expect("a tree has a leaf");
        assert_eq!(first_leaf, [5, 0, count]);
    }
    // 200 is cut first, as the second of two. Then each field has one value, 99 or 1, and the lowest is cut.
    let nodes = [
        [2, 200, 12],
        [0, 1, 11],
        [1, 1, 10],
        [2, 99, 5],
        [5, 0, 0],
        [3, 1, 9],
        [4, 1, 8],
        [5, 0, 9],
        [5, 9, 8],
        [5, 17, 5],
        [5, 22, 5],
        [5, 27, 5],
        [5, 32, 0],
    ];
    // All; then those without bits 3, 2, 1 and 0.
    let all: [&[u32]; 5] =
        [&[0, 1, 2, 3, 4, 5, 6, 7, 8], &[0, 1, 2, 3, 4, 5, 6, 7], &[0, 1, 2, 3, 8], &[0, 1, 4, 5, 8], &[0, 2, 4, 6, 8]];
    expect_tree(&nine(2, [100, 200]), &nodes, &all.concat());
}

#[test]
fn a_prefix_counts_as_its_range() {
    for field in [0, 1] {
        let cuts = |address: u32, length: u32| cuts_in(field, &nine(field as usize, [address, length]));
        assert_eq!(cuts(0x0A00_0000, 8), [0x0AFF_FFFF, 0x09FF_FFFF]);
        assert_eq!(cuts(0x0A01_0203, 32), [0x0A01_0203, 0x0A01_0202]);
        assert_eq!(cuts(0, 0), []);
        // At an end of the field there is one value.
        assert_eq!(cuts(0x8000_0000, 1), [0x7FFF_FFFF]);
        assert_eq!(cuts(u32::MAX, 32), [u32::MAX - 1]);
        assert_eq!(cuts(0, 1), [0x7FFF_FFFF]);
        assert_eq!(cuts(0, 32), [0]);
    }
}

/// Ports 10, 20, .. 90 with protocol 1, and ports 10, 20, .. 80 with protocol 2.
fn two_protocols() -> Vec<Rule> {
    let rule = |number: u32| {
        let (port, protocol) = (10 * (number % 9 + 1), 1 + number / 9);
        [0, 0, 0, 0, 0, 65_535, port, port, protocol, protocol, 0]
    };
    (0..17).map(rule).collect()
}

#[test]
fn only_rules_that_meet_the_box_count() {
    // There are 18 values of the port, and 3 of the protocol. Left of 50 there are five rules of each protocol, and 9,
    // 10, .. 40, 49 against 0, 1 and 2. From 51 on there are four and three, so seven.
    // Of 9, 10, 19, 20, 29, 30, 39, 40 and 49, which are nine, place 4 has 29: rules 0, 1, 9 and 10 are left of it.
    let nodes = [[3, 50, 4], [3, 29, 3], [5, 0, 4], [5, 4, 6], [5, 10, 7]];
    expect_tree(&two_protocols(), &nodes, &[0, 1, 9, 10, 2, 3, 4, 11, 12, 13, 5, 6, 7, 8, 14, 15, 16]);
}

#[test]
fn the_first_node_that_does_not_fit_is_told() {
    // Nodes 0 and 1 are cuts; the leaves at 2, 3 and 4 have 4, 6 and 7 entries.
    let rules = two_protocols().concat();
    for nodes in 0..18 {
        for pool in 0..20 {
            let refusal = match (nodes / 3, pool) {
                (0..=2, _) => refused(4, nodes as u64 / 3 * 3 + 3, 0),
                (_, 0..=3) => refused(4, 4, 1),
                (3, _) => refused(4, 12, 0),
                (_, 4..=9) => refused(4, 10, 1),
                (4, _) => refused(4, 15, 0),
                (_, 10..=16) => refused(4, 17, 1),
                _ => Answer::completed(5, 17, 0),
            };
            if refusal.number == 0 {
                assert_eq!(build(&rules, &mut vec![0; nodes], &mut vec![0; pool]), refusal);
            } else {
                expect_refusal(&rules, [nodes, pool], refusal);
            }
        }
    }
}

#[test]
fn the_list_is_judged_before_the_room() {
    for rooms in [[0, 0], [2, 0], [3, 0], [9_000, 9_000]] {
        expect_refusal(&[0; 9], rooms, refused(1, 0, 0));
        expect_refusal(&EVERYTHING.repeat(513), rooms, refused(1, 0, 0));
        let mut bad = [EVERYTHING; 20];
        bad[11][9] = 256;
        bad[17][1] = 33;
        expect_refusal(&bad.concat(), rooms, refused(2, 11, 0));
        expect_refusal(&[EVERYTHING; 20].concat(), rooms, refused(11, 1, 0));
    }
}

/// Rules for every second of so many strips of sources, and nine that hold one destination, one pair of ports and one
/// protocol. In each of these, as the bits of its number say, a rule has the next value too.
fn strips_and_a_point(strips: u32) -> Vec<u32> {
    let mut rules: Vec<Rule> = (0..strips).map(|strip| with(0, [(2 * strip + 1) << 20, 12])).collect();
    rules.extend((0..9).map(|number| {
        let high = |bit: u32| 7 + (number >> bit & 1);
        [0, 0, 76, 32 - (number >> 3 & 1), 7, high(0), 7, high(1), 7, high(2), 0]
    }));
    rules.concat()
}

#[test]
fn a_tree_past_the_limits_is_4_with_any_room() {
    // Each strip is cut around the point, and most parts hold one rule or none: the nodes are used up first.
    for room in [6_141, 6_142, 6_143, 6_144, 9_000] {
        expect_refusal(&strips_and_a_point(300), [room, room], refused(4, 6_144, 0));
    }
    expect_refusal(&strips_and_a_point(300), [6_140, 9_000], refused(4, 6_141, 0));
    // Each leaf is met by four sources and four destinations, and there would be 4,096 leaves.
    let grid: Vec<Rule> = (0..512).map(|rule| with(rule as usize / 256, [(rule % 256) << 24, 8])).collect();
    for room in [4_096, 4_097, 4_104, 9_000] {
        expect_refusal(&grid.concat(), [9_000, room], refused(4, 4_104, 1));
    }
    expect_refusal(&grid.concat(), [9_000, 4_095], refused(4, 4_096, 1));
}
