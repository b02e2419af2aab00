//! Each call on the worked policy and on what it refuses, beside the same call of the oracle.

use oracle::Answer;
use wickorchard::calls::{self, Built, Counted, Figures, ListRead, Part, Tree, TreeCounts};
use wickorchard::limits::MOST_RULES;
use wickorchard::{Field, Header, Kind, Match, Policy, Refusal};

const RULES_FILE: &[u8] = include_bytes!("../../../examples/worked/rules.txt");
const TREE_FILE: &[u8] = include_bytes!("../../../examples/worked/tree.txt");

const EVERYTHING: [u32; 11] = [0, 0, 0, 0, 0, 65_535, 0, 65_535, 0, 255, 0];
const NODES: [u32; 15] = [0, 167_772_159, 2, 5, 0, 1, 0, 184_549_375, 4, 5, 1, 3, 5, 4, 1];
const POOL: [u32; 5] = [2, 0, 1, 2, 2];
const HEADERS: [[u32; 5]; 8] = [
    [0x0A01_0203, 0xC0A8_0001, 40_000, 80, 6],
    [0x0A01_0203, 0xC0A8_0001, 40_000, 443, 6],
    [0x09FF_FFFF, 0xC0A8_0001, 40_000, 80, 6],
    [0x0A01_0203, 0xC0A8_0001, 65_536, 80, 6],
    [0x0A01_0203, 0xC0A8_0001, 65_536, 65_536, 1],
    [0x0A01_0203, 0xC0A8_0001, 65_537, 80, 6],
    [0x0A01_0203, 0xC0A8_0001, 65_536, 65_537, 6],
    [0x0A01_0203, 0xC0A8_0001, 40_000, 80, 256],
];
/// How many of them are legal. They come first.
const LEGAL: usize = 5;

fn rules() -> Vec<u32> {
    with_actions([0, 0, 0])
}

/// The worked policy with these actions.
fn with_actions([a, b, c]: [u32; 3]) -> Vec<u32> {
    let first = [0x0A00_0000, 8, 0, 0, 0, 65_535, 80, 80, 6, 6, a];
    let second = [0x0A01_0000, 16, 0, 0, 0, 65_535, 0, 1_023, 6, 6, b];
    [&first[..], &second, &EVERYTHING[..10], &[c]].concat()
}

/// So many rules. They differ in the ends of the source port, and all match every legal header of `HEADERS` that has
/// one.
fn wide_rules(count: u32) -> Vec<u32> {
    (0..count).flat_map(|number| [0, 0, 0, 0, number, 65_535 - number, 0, 65_535, 0, 255, 0]).collect()
}

/// Lists that are good, not whole, too long, not good, and with twins; without actions and with them, good and not.
fn lists() -> Vec<Vec<u32>> {
    let mut bad = rules();
    bad[15] = 65_536;
    let twins = |action| [&rules()[..], &rules()[11..21], &[action]].concat();
    let mut lists = vec![rules(), Vec::new(), rules()[1..].to_vec(), EVERYTHING.repeat(513), bad, twins(0), twins(9)];
    lists.extend([[1, 2, 3], [255, 0, 0], [0, 0, 7], [0, 256, 0], [0, 3, u32::MAX]].map(with_actions));
    lists
}

/// Trees that are right for the worked policy, and that are refused with 5, 6, 7 and 8.
fn trees() -> Vec<(Vec<u32>, Vec<u32>)> {
    let with = |at: usize, word: u32| {
        let mut nodes = NODES.to_vec();
        nodes[at] = word;
        (nodes, POOL.to_vec())
    };
    let lacking = vec![0, 167_772_159, 2, 5, 0, 1, 0, 184_549_375, 4, 5, 1, 2, 5, 3, 1];
    vec![
        (NODES.to_vec(), POOL.to_vec()),
        (Vec::new(), Vec::new()),
        with(0, 6),
        with(7, 167_772_159),
        with(10, 9),
        (lacking, vec![2, 0, 2, 2]),
    ]
}

/// The call's answer is the oracle's: refused with the same words, or completed with the same values.
fn expect<T>(ours: Result<T, Refusal>, oracle: Answer, values: impl FnOnce(T) -> [u64; 3]) {
    let with_0 = |[a, b, c]: [u64; 3]| [a, b, c, 0];
    expect_four(ours, oracle, |done| with_0(values(done)));
}

/// The same for a call that gives four values.
fn expect_four<T>(ours: Result<T, Refusal>, oracle: Answer, values: impl FnOnce(T) -> [u64; 4]) {
    let ours = match ours {
        Ok(done) => ((0, 0, 0), values(done)),
        Err(refusal) => (refusal.number_place_extra(), [0; 4]),
    };
    assert_eq!(ours, ((oracle.number, oracle.place, oracle.extra), [oracle.a, oracle.b, oracle.c, oracle.d]));
}

/// A first-match's first value and its last.
fn first_values(first: Option<Match>) -> (u64, u64) {
    first.map_or((0, 0), |Match { rule, action }| (u64::from(rule) + 1, u64::from(action)))
}

#[test]
fn the_list_calls() {
    for rules in lists() {
        expect(calls::rule_check(&rules), oracle::rule_check(&rules), |count| [count as u64, 0, 0]);
        for header in HEADERS {
            for header in [&header[..], &header[..4]] {
                let values = |first: Option<Match>| {
                    let (rule, action) = first_values(first);
                    [rule, 0, 0, action]
                };
                expect_four(calls::line_first(&rules, header), oracle::line_first(&rules, header), values);
                expect_four(calls::scan_first(&rules, header), oracle::scan_first(&rules, header), values);
                for room in [0, 2, 3, 9, 513] {
                    let [mut out, mut wanted] = [vec![7; room], vec![7; room]];
                    let answer = oracle::line_all(&rules, header, &mut wanted);
                    expect(calls::line_all(&rules, header, &mut out), answer, |found| {
                        assert_eq!(found, &wanted[..answer.a as usize]);
                        [found.len() as u64, 0, 0]
                    });
                    assert_eq!(out, wanted);
                    let answer = oracle::scan_all(&rules, header, &mut wanted);
                    expect(calls::scan_all(&rules, header, &mut out), answer, |found| {
                        assert_eq!(found, &wanted[..answer.a as usize]);
                        [found.len() as u64, 0, 0]
                    });
                    assert_eq!(out, wanted);
                }
            }
        }
    }
}

#[test]
fn why_a_rule_missed() {
    for rules in lists() {
        for header in HEADERS {
            for header in [&header[..], &header[..4]] {
                for number in [0, 1, 2, 3, 512, 1 << 32, u64::MAX] {
                    let answer = oracle::rule_misses(&rules, header, number);
                    expect(calls::rule_misses(&rules, header, number), answer, |miss| {
                        [miss.map_or(5, |field| field as u64), 0, 0]
                    });
                }
            }
        }
    }
    let policy = Policy::read(RULES_FILE).expect("the list is good");
    for (number, misses) in (0..).zip([
        [None, Some(Field::DestinationPort), Some(Field::Source)],
        [None, None, Some(Field::Source)],
        [None, None, None],
    ]) {
        for (words, miss) in HEADERS.into_iter().zip(misses) {
            let header = Header::try_from(words).expect("the header is legal");
            assert_eq!(policy.misses(&header, number), Ok(miss), "rule {number}, {header:?}");
        }
    }
    let header = Header::try_from(HEADERS[0]).expect("the header is legal");
    assert_eq!(policy.misses(&header, 3), Err(Refusal::RuleNotGood { rule: 3 }));
}

#[test]
fn the_fields_have_their_numbers_and_names() {
    let names = ["source", "destination", "source port", "destination port", "protocol"];
    for (number, (field, name)) in Field::ALL.into_iter().zip(names).enumerate() {
        assert_eq!((field as usize, field.to_string().as_str()), (number, name));
    }
}

#[test]
fn the_tree_calls() {
    for rules in lists() {
        for (nodes, pool) in &trees() {
            let tree = Tree { nodes, pool };
            expect(calls::tree_check(&rules, tree), oracle::tree_check(&rules, nodes, pool), |figures| {
                let Figures { cuts, longest_leaf } = figures;
                [cuts, longest_leaf, 0]
            });
            for header in &HEADERS {
                let answer = oracle::tree_first(&rules, nodes, pool, header);
                expect_four(calls::tree_first(&rules, tree, header), answer, |Counted { found, visited, compared }| {
                    let (rule, action) = first_values(found);
                    [rule, visited, compared, action]
                });
                for room in [0, 2, 3, 9] {
                    let [mut out, mut wanted] = [vec![7; room], vec![7; room]];
                    let answer = oracle::tree_all(&rules, nodes, pool, header, &mut wanted);
                    expect(calls::tree_all(&rules, tree, header, &mut out), answer, |counted| {
                        assert_eq!(counted.found, &wanted[..answer.a as usize]);
                        [counted.found.len() as u64, counted.visited, counted.compared]
                    });
                    assert_eq!(out, wanted);
                }
            }
        }
    }
}

/// Rules for so many single ports, from 0 on, and one for everything.
fn ports(count: u32) -> Vec<u32> {
    let mut rules: Vec<u32> = (0..count).flat_map(|port| [0, 0, 0, 0, 0, 65_535, port, port, 6, 6, port % 7]).collect();
    rules.extend(EVERYTHING);
    rules
}

#[test]
fn the_compiler() {
    // 60 of the wide rules have a tree within the limits, and 512 have one past them.
    for rules in lists().into_iter().chain([ports(8), ports(9), ports(40), wide_rules(60), wide_rules(512)]) {
        for [node_room, pool_room] in [[0, 0], [3, 2], [3, 600], [8, 20], [9, 10], [9, 20], [100, 20], [7_000, 5_000]] {
            let [mut nodes, mut wanted_nodes] = [vec![7; node_room], vec![7; node_room]];
            let [mut pool, mut wanted_pool] = [vec![7; pool_room], vec![7; pool_room]];
            let answer = oracle::build(&rules, &mut wanted_nodes, &mut wanted_pool);
            expect(calls::build(&rules, &mut nodes, &mut pool), answer, |tree| {
                assert_eq!(calls::tree_check(&rules, tree).err(), None);
                [tree.nodes.len() as u64 / 3, tree.pool.len() as u64, 0]
            });
            assert_eq!((nodes, pool), (wanted_nodes, wanted_pool));
        }
    }
}

/// The words that a build has come to, and whether they are whole.
fn come(built: Built) -> (Vec<u32>, Vec<u32>, bool) {
    match built {
        Built::Whole(Tree { nodes, pool }) => (nodes.to_vec(), pool.to_vec(), true),
        Built::Stopped(Part { nodes, pool }) => (nodes.to_vec(), pool.to_vec(), false),
    }
}

#[test]
fn the_compiler_that_stops() {
    let rooms = [[0, 0], [3, 2], [9, 20], [100, 20], [7_000, 5_000]];
    let counts = |built: Built| {
        let (nodes, pool, whole) = come(built);
        [nodes.len() as u64 / 3, pool.len() as u64, u64::from(whole)]
    };
    for rules in lists().into_iter().chain([ports(9), ports(40), wide_rules(60)]) {
        for most in [0, 1, 2, 7, u64::MAX] {
            for [node_room, pool_room] in rooms {
                let [mut nodes, mut wanted_nodes] = [vec![7; node_room], vec![7; node_room]];
                let [mut pool, mut wanted_pool] = [vec![7; pool_room], vec![7; pool_room]];
                let answer = oracle::build_some(&rules, most, &mut wanted_nodes, &mut wanted_pool);
                expect(calls::build_some(&rules, most, &mut nodes, &mut pool), answer, counts);
                assert_eq!((nodes, pool), (wanted_nodes, wanted_pool));
            }
        }
    }
    // Parts of the worked policy's tree, and trees that are refused; with the right number of rules, and others.
    let parts = (1..=5).map(|count| {
        let words = oracle::parts::TreeWords { nodes: NODES.to_vec(), pool: POOL.to_vec() }.stop_after(count);
        (words.nodes, words.pool)
    });
    for (part_nodes, part_pool) in parts.chain(trees()) {
        let part = Part { nodes: &part_nodes, pool: &part_pool };
        for (rules, told) in lists().into_iter().flat_map(|list| [(list.clone(), 3), (list.clone(), 513), (list, 0)]) {
            for [node_room, pool_room] in rooms {
                let [mut nodes, mut wanted_nodes] = [vec![7; node_room], vec![7; node_room]];
                let [mut pool, mut wanted_pool] = [vec![7; pool_room], vec![7; pool_room]];
                let (n, p) = (&mut wanted_nodes, &mut wanted_pool);
                let answer = oracle::build_on(&rules, told, &part_nodes, &part_pool, 1, n, p);
                expect(calls::build_on(&rules, told, part, 1, &mut nodes, &mut pool), answer, counts);
                assert_eq!((nodes, pool), (wanted_nodes, wanted_pool));
            }
        }
    }
}

#[test]
fn a_build_that_is_kept_as_a_file_ends_in_the_tree_of_one_never_stopped() {
    let rules = ports(40);
    let [mut nodes, mut pool] = [vec![0; 600], vec![0; 600]];
    let [mut part_nodes, mut part_pool] = [vec![0; 600], vec![0; 600]];
    let mut text = vec![0; 65_536];
    let mut at = come(calls::build_some(&rules, 3, &mut nodes, &mut pool).expect("it fits"));
    let mut stops = 0;
    while !at.2 {
        let part = Part { nodes: &at.0, pool: &at.1 };
        let file = calls::part_write(41, part, &mut text).expect("the part is spelt");
        assert!(calls::tree_read(file, &mut nodes, &mut pool) == Err(Refusal::LineWrong { line: 1 }));
        let counts = calls::part_read(file, &mut part_nodes, &mut part_pool).expect("the file is whole");
        assert_eq!(counts, TreeCounts { rules: 41, nodes: at.0.len() / 3, pool: at.1.len() });
        let part = Part { nodes: &part_nodes[..3 * counts.nodes], pool: &part_pool[..counts.pool] };
        at = come(calls::build_on(&rules, counts.rules as u64, part, 3, &mut nodes, &mut pool).expect("it fits"));
        stops += 1;
    }
    let tree = calls::build(&rules, &mut nodes, &mut pool).expect("it fits");
    assert_eq!((&at.0[..], &at.1[..], stops > 2), (tree.nodes, tree.pool, true));
}

#[test]
fn a_policy_that_is_compiled_answers_as_its_list() {
    let mut text = vec![0; 65_536];
    // A leaf is met by four sources and four destinations at most, so the pool would be over its limit.
    let source = |strip: u32| [strip << 24, 8, 0, 0, 0, 65_535, 0, 65_535, 0, 255, strip];
    let destination = |strip: u32| [0, 0, strip << 24, 8, 0, 65_535, 0, 65_535, 0, 255, 255 - strip];
    let grid = (0..256).flat_map(|strip| [source(strip), destination(strip)]).flatten().collect();
    let over = Err(Refusal::PoolShort { needed: 4_104 });
    for (rules, compiled) in [(rules(), Ok(())), (ports(40), Ok(())), (wide_rules(60), Ok(())), (grid, over)] {
        let file = calls::acl_write(&rules, &mut text).expect("the list is good");
        let list = Policy::read(file).expect("the list is good");
        let mut policy = list.clone();
        assert_eq!(policy.compile(), compiled);
        for words in &HEADERS[..LEGAL] {
            let header = Header::try_from(*words).expect("the header is legal");
            let [mut found, mut listed] = [[7; MOST_RULES]; 2];
            assert_eq!(policy.all(&header, &mut found), list.all(&header, &mut listed));
            assert_eq!(policy.first(&header), list.first(&header));
        }
    }
}

#[test]
fn the_writers() {
    for room in [0, 100, 200] {
        let [mut text, mut wanted] = [vec![7; room], vec![7; room]];
        for rules in lists() {
            let answer = oracle::rules_write(&rules, &mut wanted);
            expect(calls::rules_write(&rules, &mut text), answer, |bytes| [bytes.len() as u64, 0, 0]);
            assert_eq!(text, wanted);
            let answer = oracle::acl_write(&rules, &mut wanted);
            expect(calls::acl_write(&rules, &mut text), answer, |bytes| [bytes.len() as u64, 0, 0]);
            assert_eq!(text, wanted);
        }
        for (nodes, pool) in &trees() {
            for rule_count in [3, 2, 513, u64::MAX] {
                let answer = oracle::tree_write(rule_count, nodes, pool, &mut wanted);
                let ours = calls::tree_write(rule_count, Tree { nodes, pool }, &mut text);
                expect(ours, answer, |bytes| [bytes.len() as u64, 0, 0]);
                assert_eq!(text, wanted);
                let answer = oracle::part_write(rule_count, nodes, pool, &mut wanted);
                let ours = calls::part_write(rule_count, Part { nodes, pool }, &mut text);
                expect(ours, answer, |bytes| [bytes.len() as u64, 0, 0]);
                assert_eq!(text, wanted);
            }
        }
    }
}

#[test]
fn the_readers() {
    let twins = String::from_utf8_lossy(RULES_FILE).replace("10.0.0.0/8", "10.1.0.0/16").replace("80\t80", "0\t1023");
    let [mut acl, mut no_rules] = [vec![0; 300], vec![0; 300]];
    let acl = calls::acl_write(&with_actions([1, 255, 0]), &mut acl).expect("the list is good");
    let no_rules = calls::acl_write(&[], &mut no_rules).expect("the list is good");
    let cut = |text: &'static [u8]| [text, &text[1..], &text[..text.len() - 1]];
    let mut texts = [&cut(RULES_FILE)[..], &[TREE_FILE, b"", twins.as_bytes()]].concat();
    texts.extend([acl, no_rules, &acl[..acl.len() - 1], &acl[1..]]);
    for text in texts {
        for room in [0, 30, 32, 33, 40] {
            let [mut words, mut wanted] = [vec![7; room], vec![7; room]];
            let answer = oracle::rules_read(text, &mut wanted);
            expect(calls::rules_read(text, &mut words), answer, |ListRead { rules, kind }| {
                [rules as u64, u64::from(kind == Kind::Acl), 0]
            });
            assert_eq!(words, wanted);
        }
    }
    let part = [b"part", &TREE_FILE[4..]].concat();
    for text in [TREE_FILE, &TREE_FILE[1..], &TREE_FILE[..TREE_FILE.len() - 1], RULES_FILE, b"", &part, &part[..30]] {
        for [node_room, pool_room] in [[0, 0], [14, 5], [15, 4], [15, 5], [20, 9]] {
            let [mut nodes, mut wanted_nodes] = [vec![7; node_room], vec![7; node_room]];
            let [mut pool, mut wanted_pool] = [vec![7; pool_room], vec![7; pool_room]];
            let answer = oracle::tree_read(text, &mut wanted_nodes, &mut wanted_pool);
            let counts = |TreeCounts { rules, nodes, pool }| [rules, nodes, pool].map(|count| count as u64);
            expect(calls::tree_read(text, &mut nodes, &mut pool), answer, counts);
            assert_eq!((&nodes, &pool), (&wanted_nodes, &wanted_pool));
            let answer = oracle::part_read(text, &mut wanted_nodes, &mut wanted_pool);
            expect(calls::part_read(text, &mut nodes, &mut pool), answer, counts);
            assert_eq!((nodes, pool), (wanted_nodes, wanted_pool));
        }
    }
}

#[test]
fn a_policy_answers_by_its_list_until_a_tree_is_accepted() {
    assert_eq!(Policy::read(&RULES_FILE[..60]).err(), Some(Refusal::TextStops { lines: 2 }));
    let mut policy = Policy::read(RULES_FILE).expect("the list is good");
    assert_eq!(policy.rule_count(), 3);
    for (tree_file, served) in [
        (&TREE_FILE[..90], Err(Refusal::TextStops { lines: 6 })),
        (TREE_FILE, Ok(Figures { cuts: 2, longest_leaf: 3 })),
        (b"tree\t3\t1\t2\nleaf\t0\t2\t0\t2\nend\t2\n", Err(Refusal::LeafLacksRule { node: 0, rule: 1 })),
    ] {
        assert_eq!(policy.read_tree(tree_file), served);
        for (words, list) in [(HEADERS[0], &[0, 1, 2][..]), (HEADERS[1], &[1, 2]), (HEADERS[2], &[2])] {
            let header = Header::try_from(words).expect("the header is legal");
            assert_eq!(policy.all(&header, &mut [7; MOST_RULES]), list);
            assert_eq!(policy.first(&header), Some(Match { rule: list[0], action: 0 }));
        }
    }
    let none = Policy::read(b"rules\t0\nend\t1\n").expect("an empty list is good");
    let header = Header::try_from(HEADERS[0]).expect("the header is legal");
    assert_eq!((none.all(&header, &mut [7; MOST_RULES]), none.first(&header)), (&[][..], None));
}

#[test]
fn a_policy_with_actions_gives_them() {
    let mut text = [0; 300];
    let acl = calls::acl_write(&with_actions([1, 255, 0]), &mut text).expect("the list is good");
    let mut policy = Policy::read(acl).expect("the list is good");
    let kinds = [Policy::read(RULES_FILE), Policy::read(b"acl\t0\nend\t1\n")].map(|policy| policy.unwrap().kind());
    assert_eq!((policy.kind(), kinds), (Kind::Acl, [Kind::Rules, Kind::Acl]));
    for by_tree in [false, true] {
        for (words, rule, action) in [(HEADERS[0], 0, 1), (HEADERS[1], 1, 255), (HEADERS[2], 2, 0)] {
            let header = Header::try_from(words).expect("the header is legal");
            assert_eq!(policy.first(&header), Some(Match { rule, action }), "by the tree: {by_tree}");
        }
        assert_eq!(policy.read_tree(TREE_FILE), Ok(Figures { cuts: 2, longest_leaf: 3 }));
    }
    let refusal = calls::rules_write(&with_actions([0, 255, 1]), &mut text).expect_err("rule 1 has an action");
    assert_eq!(refusal, Refusal::RuleNotGood { rule: 1 });
}

#[test]
fn a_list_of_512_rules_that_all_match() {
    let rules = wide_rules(512);
    let [mut rules_text, mut tree_text] = [vec![0; 65_536], vec![0; 65_536]];
    let rules_file = calls::rules_write(&rules, &mut rules_text).expect("the list is good");
    let numbers: Vec<u32> = (0..512).collect();
    let one_leaf = Tree { nodes: &[5, 0, 512], pool: &numbers };
    let tree_file = calls::tree_write(512, one_leaf, &mut tree_text).expect("the tree is spelt");
    let mut policy = Policy::read(rules_file).expect("the list is good");
    let header = Header::try_from([u32::MAX, u32::MAX, 40_000, 65_535, 255]).expect("the header is legal");
    assert_eq!(policy.all(&header, &mut [7; MOST_RULES]), numbers);
    assert_eq!(policy.read_tree(tree_file), Ok(Figures { cuts: 0, longest_leaf: 512 }));
    assert_eq!(policy.all(&header, &mut [7; MOST_RULES]), numbers);
    assert_eq!(policy.first(&header), Some(Match { rule: 0, action: 0 }));
}

#[test]
fn what_the_programmers_page_says() {
    let policy = Policy::read(RULES_FILE).expect("the list is good");
    let first = |source: [u8; 4]| {
        let header = Header { source: source.into(), ..Header::try_from(HEADERS[0]).unwrap() };
        policy.first(&header).map(|found| found.rule)
    };
    assert_eq!((first([10, 1, 2, 3]), first([3, 2, 1, 10])), (Some(0), Some(2)));
    assert_eq!(HEADERS[0][0].swap_bytes(), u32::from_be_bytes([3, 2, 1, 10]));

    let mut rules = rules();
    rules[18] = 70_000;
    let refusal = calls::rule_check(&rules).expect_err("rule 1 is not good");
    assert_eq!(refusal, Refusal::RuleNotGood { rule: 1 });
    assert_eq!(refusal.to_string(), "refused with 2, place 1, extra 0");

    fn shared_by_threads<T: Send + Sync>(_: &T) {}
    shared_by_threads(&policy);
}

#[test]
fn a_header_is_its_five_words() {
    let header = Header {
        source: [10, 1, 2, 3].into(),
        destination: [192, 168, 0, 1].into(),
        source_port: Some(40_000),
        destination_port: Some(80),
        protocol: 6,
    };
    assert_eq!(header.words(), HEADERS[0]);
    let without_source = Header { source_port: None, ..header };
    assert_eq!(without_source.words(), HEADERS[3]);
    let without_ports = Header { destination_port: None, protocol: 1, ..without_source };
    assert_eq!((without_ports.words(), Header::try_from(HEADERS[4])), (HEADERS[4], Ok(without_ports)));
    // Words make a header exactly where the calls take them; otherwise they are refused in the same way.
    let limits = [0, 1, 255, 256, 65_535, 65_536, 65_537, u32::MAX];
    for source_port in limits {
        for destination_port in limits {
            for protocol in limits {
                let words = [0, u32::MAX, source_port, destination_port, protocol];
                let taken = calls::scan_first(&[], &words).map(|_| words);
                assert_eq!(Header::try_from(words).map(|header| header.words()), taken);
            }
        }
    }
}
