//! The action of a rule: how large it may be, that a first-match gives it, and that nothing else looks at it.

mod worked;

use oracle::{
    acl_write, build, build_some, line_all, line_first, rule_check, rules_write, scan_all, scan_first, tree_all,
    tree_check, tree_first, Answer,
};
use worked::{header, policy, ADDRESS_10_1_2_3, AS_FOUND, NODES, POOL};

fn refused(number: u64, place: u64, extra: u64) -> Answer {
    Answer { number, place, extra, a: 0, b: 0, c: 0, d: 0 }
}

/// The worked policy with these actions.
fn with_actions(actions: [u32; 3]) -> Vec<u32> {
    let mut words = policy();
    for (rule, action) in words.chunks_exact_mut(11).zip(actions) {
        rule[10] = action;
    }
    words
}

/// The headers of the worked policy whose first rule is 0, 1 and 2, with the entries that its tree compares for it.
fn headers_by_first() -> [([u32; 5], u64); 3] {
    let head = |port, protocol| header(ADDRESS_10_1_2_3, port, protocol);
    [(head(80, 6), 1), (head(443, 6), 2), (head(80, 17), 3)]
}

#[test]
fn an_action_over_255_is_2() {
    for action in [256, 257, 511, 65_536, 1 << 31, u32::MAX] {
        for rule in 0..3 {
            let mut actions = [0, 255, 7];
            actions[rule] = action;
            let words = with_actions(actions);
            let refusal = refused(2, rule as u64, 0);
            let head = headers_by_first()[0].0;
            assert_eq!(rule_check(&words), refusal);
            assert_eq!(line_first(&words, &head), refusal);
            assert_eq!(line_all(&words, &head, &mut [0; 3]), refusal);
            assert_eq!(tree_check(&words, &NODES.concat(), &POOL), refusal);
            assert_eq!(build(&words, &mut [0; 9], &mut [0; 9]), refusal);
            assert_eq!(build_some(&words, 1, &mut [0; 9], &mut [0; 9]), refusal);
            assert_eq!(acl_write(&words, &mut [0; 200]), refusal);
        }
    }
    assert_eq!(rule_check(&with_actions([0, 255, 7])), Answer::completed(3, 0, 0));
}

#[test]
fn a_first_match_gives_the_action_of_the_rule_it_found() {
    for actions in [[1, 2, 3], [255, 0, 254], [0, 0, 0], [9, 9, 9]] {
        let words = with_actions(actions);
        for (rule, (head, compared)) in headers_by_first().into_iter().enumerate() {
            let found = |b, c| Answer::completed(rule as u64 + 1, b, c).with_action(actions[rule]);
            assert_eq!(line_first(&words, &head), found(0, 0));
            assert_eq!(scan_first(&words, &head), found(0, 0));
            assert_eq!(tree_first(&words, &NODES.concat(), &POOL, &head), found(3, compared));
        }
    }
}

#[test]
fn a_list_that_is_not_judged_has_any_action() {
    for action in [256, 1 << 16, u32::MAX] {
        let words = with_actions([3, action, 4]);
        let (head, compared) = headers_by_first()[1];
        assert_eq!(scan_first(&words, &head), Answer::completed(2, 0, 0).with_action(action));
        let found = Answer::completed(2, 3, compared).with_action(action);
        assert_eq!(tree_first(&words, &NODES.concat(), &POOL, &head), found);
    }
}

#[test]
fn where_no_rule_matches_the_action_is_0() {
    let words = with_actions([7, 8, 9]);
    let two = &words[..22];
    let head = header(0x0B00_0000, 80, 6);
    assert_eq!(line_first(two, &head), Answer::completed(0, 0, 0));
    assert_eq!(scan_first(two, &head), Answer::completed(0, 0, 0));
    assert_eq!(tree_first(two, &[5, 0, 2], &[0, 1], &head), Answer::completed(0, 1, 2));
    assert_eq!(tree_first(&words, &[5, 0, 0], &[], &head), Answer::completed(0, 1, 0));
}

#[test]
fn nothing_else_looks_at_the_action() {
    let (plain, acted) = (policy(), with_actions([200, 0, 31]));
    for (head, _) in headers_by_first() {
        let lists = |words: &[u32]| {
            let mut out = [[AS_FOUND; 4]; 3];
            let [by_line, by_scan, by_tree] = &mut out;
            let answers = [
                line_all(words, &head, by_line),
                scan_all(words, &head, by_scan),
                tree_all(words, &NODES.concat(), &POOL, &head, by_tree),
            ];
            (answers, out)
        };
        assert_eq!(lists(&plain), lists(&acted));
    }
    assert_eq!(tree_check(&acted, &NODES.concat(), &POOL), Answer::completed(2, 3, 0));
    let built = |words: &[u32]| {
        let [mut nodes, mut pool] = [[AS_FOUND; 30]; 2];
        (build(words, &mut nodes, &mut pool), nodes, pool)
    };
    assert_eq!(built(&plain), built(&acted));
}

#[test]
fn rules_that_differ_in_their_action_alone_are_twins() {
    let rule = policy()[..10].to_vec();
    for [first, second] in [[0, 1], [1, 0], [0, 255], [255, 254], [7, 7]] {
        let words = [&rule[..], &[first], &rule[..], &[second]].concat();
        assert_eq!(rule_check(&words), refused(11, 1, 0));
        assert_eq!(line_first(&words, &[0; 5]), refused(11, 1, 0));
        assert_eq!(tree_check(&words, &[5, 0, 2], &[0, 1]), refused(11, 1, 0));
        assert_eq!(build(&words, &mut [0; 3], &mut [0; 9]), refused(11, 1, 0));
        assert_eq!(acl_write(&words, &mut [0; 200]), refused(11, 1, 0));
        // The other writer has 2 first, for an action that it cannot write.
        let place = if first == 0 { 1 } else { 0 };
        assert_eq!(rules_write(&words, &mut [0; 200]), refused(2, place, 0));
    }
}

#[test]
fn rules_that_are_alike_in_their_action_alone_are_none() {
    assert_eq!(rule_check(&with_actions([7, 7, 7])), Answer::completed(3, 0, 0));
}

#[test]
fn the_words_of_a_list_are_a_multiple_of_eleven() {
    let words = with_actions([1, 2, 3]);
    for length in 0..=33 {
        let wanted = if length % 11 == 0 { Answer::completed(length as u64 / 11, 0, 0) } else { refused(1, 0, 0) };
        assert_eq!(rule_check(&words[..length]), wanted);
    }
}
