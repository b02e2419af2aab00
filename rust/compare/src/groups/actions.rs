//! Actions: which are good, that a first-match gives that of the rule it finds, and that nothing else looks at them.

use oracle::rules::{LARGEST_ACTION, RULE_WORDS};
use oracle::Answer;

use crate::bench::{Bench, Run};
use crate::damages::damaged_rules;
use crate::draws::Draws;
use crate::groups::build_cases::AMPLE;
use crate::groups::twins::{judge, CHANGEABLE};
use crate::headers::{self, Header, WORKED};
use crate::lists::{self, acting, Rule, ACTION, EVERYTHING, MANNERS};
use crate::shared_ends::{around_a_header, with};
use crate::trees::{self, Policy};

const PURPOSE: &str = "correctness";

/// Words about every limit of an action; some are right again modulo 256 or 65,536.
const ACTIONS: [u32; 15] = [0, 1, 9, 127, 128, 254, 255, 256, 257, 511, 512, 65_535, 65_536, 1 << 31, u32::MAX];

pub fn run(bench: &mut Bench) -> Run {
    bench.group(PURPOSE, "actions: words about every limit, at each rule, in every call", every_limit)?;
    bench.group(
        PURPOSE,
        "actions: a bad one beside every other kind of damage, the lower rule named",
        beside_damage,
    )?;
    bench.group(PURPOSE, "actions: each of 1 to 512 rules found, by list, by scan and by tree", each_found)?;
    bench.group(PURPOSE, "actions: no rule found", none_found)?;
    bench.group(PURPOSE, "actions: any words of rules that no call judges", any_words)?;
    bench.group(PURPOSE, "actions: lists and trees are the same whatever the actions", same_trees)?;
    bench.group(PURPOSE, "actions: rules that differ in them alone, and rules that are alike in them alone", twins)
}

/// A tree of one leaf that lists every rule.
fn one_leaf(rules: &[Rule]) -> Policy {
    let every_rule: Vec<u32> = (0..rules.len() as u32).collect();
    Policy::of(rules, &trees::leaf(&every_rule))
}

/// All three first-matches, the last by this policy's tree.
fn firsts(bench: &mut Bench, case: &str, policy: &Policy, header: &Header) -> Result<[Answer; 3], String> {
    Ok([
        bench.line_first(case, &policy.rules, header)?,
        bench.scan_first(case, &policy.rules, header)?,
        bench.tree_first(case, policy, header)?,
    ])
}

/// A bad action is 2 wherever the list is judged. The searches that judge no list give the word as it is.
fn every_limit(bench: &mut Bench) -> Run {
    for size in [1, 2, 3, 12] {
        for place in 0..size {
            for (number, action) in (0..).zip(ACTIONS) {
                let mut draws = Draws::seeded(2_600_000 + number);
                let mut rules = lists::good_list(&mut draws, size, MANNERS[number as usize % 4]).rules;
                rules[place][ACTION] = action;
                let header = headers::inside(&rules[place], &mut draws);
                let case = format!("seed {}, rule {place} of {size} has action {action}", 2_600_000 + number);
                let refused = if action > LARGEST_ACTION { (2, place as u64) } else { (0, 0) };
                let policy = one_leaf(&rules);
                let [line, scan, tree] = firsts(bench, &case, &policy, &header)?;
                let all = bench.all_calls(&case, &policy.rules, &header)?;
                let check = bench.tree_check(&case, &policy)?;
                let built = bench.build(&case, &policy.rules, AMPLE)?;
                let (begun, _) = bench.build_some(&case, &policy.rules, 1, AMPLE)?;
                let (on, _) = bench.build_on(&case, &policy, 1, AMPLE)?;
                for answer in [line, all, check, built, begun, on] {
                    assert_eq!((answer.number, answer.place), refused, "the oracle: {case}");
                }
                assert_eq!((scan.number, scan.a, scan.d), (0, tree.a, tree.d), "the oracle: {case}");
                bench.tree_searches(&case, &policy, &header)?;
            }
        }
    }
    Ok(())
}

fn beside_damage(bench: &mut Bench) -> Run {
    for seed in 2_610_000..2_610_012 {
        let mut draws = Draws::seeded(seed);
        let size = 2 + draws.below(9);
        let good = lists::good_list(&mut draws, size, MANNERS[seed as usize % 4]).rules;
        let (place, other) = (draws.below(size), draws.below(size));
        for damaged in damaged_rules(&good[other]) {
            let mut rules = good.clone();
            rules[other] = damaged.rule;
            rules[place][ACTION] = draws.pick(&ACTIONS[7..]);
            let case = format!("seed {seed}, a bad action at {place} of {size}, at {other} {}", damaged.kind);
            let answer = bench.all_calls(&case, &rules.concat(), &WORKED)?;
            assert_eq!((answer.number, answer.place as usize), (2, place.min(other)), "the oracle: {case}");
        }
    }
    Ok(())
}

/// So many rules for a destination port each, with drawn actions: a good one each, or any words.
fn ports(count: usize, are_good: bool, draws: &mut Draws) -> Vec<Rule> {
    let action = |draws: &mut Draws| if are_good { draws.between(0, LARGEST_ACTION) } else { draws.word() };
    (0..count as u32).map(|port| acting(with(3, [port, port]), action(draws))).collect()
}

fn each_found(bench: &mut Bench) -> Run {
    for (seed, size) in (2_620_000..).zip([1, 2, 3, 9, 30, 200, 512]) {
        for are_good in [true, false] {
            let mut draws = Draws::seeded(seed);
            let rules = ports(size, are_good, &mut draws);
            let words = oracle::build::compile(&ports(size, true, &mut draws).concat(), oracle::build::LARGEST_ROOM);
            let tree = words.expect("the tree fits");
            let policy = Policy { rules: rules.concat(), nodes: tree.nodes, pool: tree.pool };
            let places =
                if size > 30 { (0..size).step_by(7).chain([size - 1]).collect() } else { Vec::from_iter(0..size) };
            for place in places {
                let header = headers::with(WORKED, 3, place as u32);
                let case = format!("seed {seed}, rule {place} of {size} found, good: {are_good}");
                let [line, scan, tree] = firsts(bench, &case, &policy, &header)?;
                let wanted = (place as u64 + 1, u64::from(rules[place][ACTION]));
                for answer in [scan, tree].into_iter().chain(are_good.then_some(line)) {
                    assert_eq!((answer.a, answer.d), wanted, "the oracle: {case}");
                }
            }
        }
    }
    Ok(())
}

/// The answer has 0 for the action, whatever actions the rules have.
fn none_found(bench: &mut Bench) -> Run {
    for seed in 2_630_000..2_630_040 {
        let mut draws = Draws::seeded(seed);
        let (size, are_good) = (draws.below(12), draws.once_in(2));
        let mut rules = ports(size, are_good, &mut draws);
        rules.iter_mut().for_each(|rule| rule[ACTION] |= 1);
        let header = headers::with(WORKED, 3, 40_000);
        let case = format!("seed {seed}, none of {size} rules is found, good: {are_good}");
        for policy in [one_leaf(&rules), Policy::of(&rules, &trees::leaf(&[]))] {
            let [line, scan, tree] = firsts(bench, &case, &policy, &header)?;
            for answer in [scan, tree].into_iter().chain(are_good.then_some(line)) {
                assert_eq!((answer.number, answer.a, answer.d), (0, 0, 0), "the oracle: {case}");
            }
        }
    }
    Ok(())
}

/// Entries in any order and more than once, rules with any action, and words that end within a rule. An entry names a
/// rule only where its action is lent too.
fn any_words(bench: &mut Bench) -> Run {
    for seed in 2_640_000..2_641_500 {
        let mut draws = Draws::seeded(seed);
        let size = 1 + draws.below(6);
        let list = lists::good_list(&mut draws, size, MANNERS[seed as usize % 4]);
        let mut rules: Vec<Rule> = list.rules.clone();
        for rule in &mut rules {
            let drawn = draws.word();
            rule[ACTION] = draws.pick(&[drawn, 256, u32::MAX, 1 << 16, 0]);
        }
        let pool: Vec<u32> = (0..draws.below(size + 3)).map(|_| draws.below(size) as u32).collect();
        let mut policy = Policy { nodes: vec![5, 0, pool.len() as u32], rules: rules.concat(), pool };
        let rule = draws.pick(&list.rules);
        let inside = headers::inside(&rule, &mut draws);
        let header = draws.pick(&[inside, list.points[0]]);
        let case = format!("seed {seed}, rules of any action");
        firsts(bench, &case, &policy, &header)?;
        bench.tree_searches(&case, &policy, &header)?;
        policy.rules.truncate(RULE_WORDS * size - 1 - draws.below(RULE_WORDS));
        let case = format!("{case}, of {} words", policy.rules.len());
        bench.tree_searches(&case, &policy, &header)?;
        bench.scan_first(&case, &policy.rules, &header)?;
        bench.scan_all(&case, &policy.rules, &header, size)?;
    }
    Ok(())
}

/// The same list with other actions gets the same tree, and the same tree is accepted for it.
fn same_trees(bench: &mut Bench) -> Run {
    for seed in 2_650_000..2_650_040 {
        let mut draws = Draws::seeded(seed);
        let size = draws.pick(&[1, 9, 20, 60]);
        let mut rules = lists::good_list(&mut draws, size, MANNERS[seed as usize % 4]).rules;
        let Some(tree) = trees::compiled(&rules) else { continue };
        for _ in 0..3 {
            rules.iter_mut().for_each(|rule| rule[ACTION] = draws.between(0, LARGEST_ACTION));
            let case = format!("seed {seed}, list of {size} with other actions");
            let other = trees::compiled(&rules).expect("the tree fits");
            assert_eq!((&other.nodes, &other.pool), (&tree.nodes, &tree.pool), "the oracle: {case}");
            bench.build(&case, &other.rules, AMPLE)?;
            bench.tree_check(&case, &other)?;
        }
    }
    Ok(())
}

fn twins(bench: &mut Bench) -> Run {
    for [first, second] in [[0, 1], [1, 0], [0, 255], [255, 0], [254, 255], [7, 7], [128, 0]] {
        for rule in [EVERYTHING, CHANGEABLE] {
            let case = format!("twins with the actions {first} and {second}");
            judge(bench, &case, &[acting(rule, first), acting(rule, second)], Some([1, 0]))?;
            let apart = [acting(rule, first), acting(with(4, [9, 9]), first), acting(rule, second)];
            judge(bench, &case, &apart, Some([2, 0]))?;
            judge(bench, &case, &[apart[1], apart[0], apart[2]], Some([2, 1]))?;
            judge(bench, &format!("{case}, which are none"), &apart[..2], None)?;
        }
    }
    // Every list of 0 to 40 rules has one action, and then one twin that has another.
    for size in [0, 1, 2, 9, 40] {
        let same: Vec<Rule> = around_a_header(size).into_iter().map(|rule| acting(rule, 200)).collect();
        judge(bench, &format!("{size} rules with one action"), &same, None)?;
        for earlier in (0..size).step_by(7) {
            let rules = [&same[..], &[acting(same[earlier], 201)]].concat();
            judge(
                bench,
                &format!("{size} rules, and rule {earlier} with another action"),
                &rules,
                Some([size, earlier]),
            )?;
        }
    }
    Ok(())
}
