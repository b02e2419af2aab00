//! Correctness of the compiler: chosen lists, with the root's cut or the leaves that each of them gets.

use oracle::nodes::{MOST_ENTRIES, MOST_NODES};

use crate::bench::{Bench, Run};
use crate::draws::Draws;
use crate::headers::{range_of, LARGEST};
use crate::lists::{self, Rule, EVERYTHING, LARGEST_END};
use crate::shared_ends::{around_a_header, put, variant, with};
use crate::trees::{self, Policy};

const PURPOSE: &str = "correctness";

/// A room for every tree within the limits, and some more.
pub const AMPLE: [usize; 2] = [3 * MOST_NODES + 5, MOST_ENTRIES + 4];

/// The fewest rules that are parted.
const PARTED: usize = 9;

pub fn run(bench: &mut Bench) -> Run {
    bench.group(PURPOSE, "build: every set of fields that tie, with 1 to 9 values each", ties)?;
    bench.group(PURPOSE, "build: 2 to 30 values of a field, of which the middle one is taken", middles)?;
    bench.group(PURPOSE, "build: 0 to 40 rules apart, so that 8 and 9 rules meet a box", apart)?;
    bench.group(PURPOSE, "build: boxes that more than 8 rules cover, without cut values", covered)?;
    bench.group(PURPOSE, "build: ranges and prefixes at the ends of their fields", outer_ends)
}

/// Builds with ample room. The tree must fit, and the library's check must accept it.
pub fn build_well(bench: &mut Bench, case: &str, rules: &[Rule]) -> Result<Policy, String> {
    let answer = bench.build(case, &rules.concat(), AMPLE)?;
    let policy = trees::compiled(rules).unwrap_or_else(|| panic!("the tree fits: {case}"));
    let sizes = (0, policy.node_count() as u64, policy.pool.len() as u64);
    assert_eq!((answer.number, answer.a, answer.b), sizes, "the oracle: {case}");
    let answer = bench.tree_check(case, &policy)?;
    assert_eq!(answer.number, 0, "the oracle: {case}");
    Ok(policy)
}

/// Words of this field whose range begins at 0, so that it gives one cut value. They rise with the number.
fn from_zero(field: usize, number: u32) -> [u32; 2] {
    match field {
        0 | 1 => [0, 31 - number],
        _ => [0, end_from_zero(field, number)],
    }
}

/// The high end of that range.
fn end_from_zero(field: usize, number: u32) -> u32 {
    match field {
        0 | 1 => 2_u32.pow(number + 1) - 1,
        _ => 3 * number + 1,
    }
}

/// The fields of the set have so many cut values, and the others have one less. The lowest of the set is cut. Where
/// there are too few values for nine rules that differ, nothing is tried.
fn ties(bench: &mut Bench) -> Run {
    let mut tried = 0;
    for set in 1..32_u32 {
        for count in 1..=PARTED {
            let counts = std::array::from_fn(|field| count - usize::from(set >> field & 1 == 0));
            let Some(rules) = nine_rules(counts) else { continue };
            let case = format!("fields of the set {set} have {count} values");
            let Policy { nodes, .. } = build_well(bench, &case, &rules)?;
            let field = set.trailing_zeros();
            let value = end_from_zero(field as usize, count as u32 / 2);
            assert_eq!(nodes[..2], [field, value], "the oracle: {case}");
            tried += 1;
        }
    }
    assert!(tried > 31 * 8, "nearly all of them are tried: {tried}");
    Ok(())
}

/// Nine rules that differ, whose fields have so many cut values; None where there are not so many.
fn nine_rules(counts: [usize; 5]) -> Option<[Rule; PARTED]> {
    let mut rules = [EVERYTHING; PARTED];
    for field in 0..5 {
        for number in 0..counts[field] {
            // The rules that give a field's values stand in another order for each field.
            let rule = &mut rules[(2 * number + field) % PARTED];
            *rule = put(*rule, field, from_zero(field, number as u32));
        }
    }
    let mut others = combinations(counts).into_iter();
    for later in 1..PARTED {
        while rules[..later].contains(&rules[later]) {
            rules[later] = others.next()?;
        }
    }
    Some(rules)
}

/// Rules of such fields. Each field is whole or ends at its first or its last cut value; the protocol may begin after
/// the first, too.
fn combinations(counts: [usize; 5]) -> Vec<Rule> {
    (0..5).fold(vec![EVERYTHING], |rules, field| {
        let mut pairs = vec![[EVERYTHING[2 * field], EVERYTHING[2 * field + 1]]];
        if counts[field] > 0 {
            pairs.extend([0, counts[field] - 1].map(|number| from_zero(field, number as u32)));
        }
        if counts[field] > 0 && field == 4 {
            pairs.push([end_from_zero(field, 0) + 1, LARGEST_END[field]]);
        }
        rules.iter().flat_map(|&rule| pairs.iter().map(move |&pair| put(rule, field, pair))).collect()
    })
}

/// M values, odd and even: the root is cut at the one of place M / 2. Values that several rules give change nothing.
/// The other fields have one value each.
fn middles(bench: &mut Bench) -> Run {
    for field in 0..5 {
        for count in 2..=30 {
            for copies in [1, 2] {
                let copy = |number: u32, copy: usize| variant(with(field, from_zero(field, number)), field, copy);
                let mut rules: Vec<Rule> =
                    (0..copies).flat_map(|which| (0..count).map(move |number| copy(number, which))).collect();
                let whole = PARTED.saturating_sub(rules.len());
                rules.extend((0..whole).map(|number| variant(EVERYTHING, field, number)));
                let first = count as usize % rules.len();
                rules.rotate_left(first);
                let case = format!("{count} values of field {field}, each {copies} times");
                let Policy { nodes, .. } = build_well(bench, &case, &rules)?;
                let value = end_from_zero(field, count / 2);
                assert_eq!(nodes[..2], [field as u32, value], "the oracle: {case}");
            }
        }
    }
    Ok(())
}

/// Single values of one field, two apart. Eight of them are a leaf, nine are parted; of 17, nine are left of the cut.
fn apart(bench: &mut Bench) -> Run {
    for field in 0..5 {
        for count in 0..=40 {
            let single = |number: u32| match field {
                0 | 1 => [2 * number + 1, 32],
                _ => [2 * number + 1; 2],
            };
            let rules: Vec<Rule> = (0..count).map(|number| with(field, single(number))).collect();
            let case = format!("{count} single values of field {field}");
            let Policy { nodes, pool, .. } = build_well(bench, &case, &rules)?;
            assert_eq!(nodes[0] == 5, count < PARTED as u32, "the oracle: {case}");
            if count == 17 {
                let leaves: Vec<u32> = nodes.chunks(3).filter(|node| node[0] == 5).map(|node| node[2]).collect();
                assert_eq!((leaves, pool.len()), (vec![4, 5, 8], 17), "the oracle: {case}");
            }
            // With rules over all of them, each box is met by as many more.
            for more in [1, 7, 8, 9] {
                let over: Vec<Rule> = (0..more).map(|number| variant(EVERYTHING, field, number)).collect();
                let all = [&rules[..], &over].concat();
                build_well(bench, &format!("{case}, and {more} over all of them"), &all)?;
            }
        }
    }
    Ok(())
}

/// A box that all rules cover, with ends in one field or in all of them: a leaf lists them all, however many they are.
/// 450 is about the most for which the tree is within the limits.
fn covered(bench: &mut Bench) -> Run {
    for count in [1, 8, 9, 10, 20, 100, 300, 450] {
        let case = format!("{count} rules around a header");
        let policy = build_well(bench, &case, &around_a_header(count))?;
        assert_eq!(longest_leaf(&policy), count as u32, "the oracle: {case}");
    }
    for (field, most) in [32, 32, 88, 88, 85].into_iter().enumerate() {
        for count in [1, 8, 9, 10, 20, most] {
            let case = format!("{count} ranges of field {field} from 0 on");
            let rules: Vec<Rule> = (0..count).map(|number| with(field, from_zero(field, number))).collect();
            let policy = build_well(bench, &case, &rules)?;
            assert_eq!(longest_leaf(&policy), count, "the oracle: {case}");
        }
    }
    // Rules inside each other in all fields: the innermost box is covered by all of them.
    for count in [9, 10, 11] {
        let rules: Vec<Rule> = (0..count).map(nested).collect();
        build_well(bench, &format!("{count} rules, each inside the one before"), &rules)?;
    }
    Ok(())
}

/// The entries of the longest leaf.
fn longest_leaf(policy: &Policy) -> u32 {
    let leaves = policy.nodes.chunks(3).filter(|node| node[0] == 5);
    leaves.map(|node| node[2]).max().expect("a tree has a leaf")
}

/// A rule inside the one before it, with other ends in every field.
fn nested(number: u32) -> Rule {
    let inner = number + 1;
    let address = lists::prefix(0xAAAA_AAAA, 2 * inner);
    (2..5).fold(put(with(0, address), 1, address), |rule, field| put(rule, field, [inner, LARGEST_END[field] - inner]))
}

/// Nine rules that are the same in a field have two cut values of it, or one at an end of the field, or none. Each of
/// the other fields has one, and each cut leaves nine rules on one side only. A port's range ends at its field's end
/// only where it is whole: the absent port comes after the largest one.
fn outer_ends(bench: &mut Bench) -> Run {
    let mut draws = Draws::seeded(1_300_000);
    let expect = |bench: &mut Bench, field: usize, pair: [u32; 2]| -> Run {
        let case = format!("nine times {pair:?} in field {field}");
        let rules: Vec<Rule> = (0..PARTED).map(|number| variant(with(field, pair), field, number)).collect();
        let policy = build_well(bench, &case, &rules)?;
        let mut cuts: Vec<u32> =
            policy.nodes.chunks(3).filter(|node| node[0] == field as u32).map(|node| node[1]).collect();
        cuts.sort_unstable();
        let (low, high) = range_of(&rules[0], field);
        let below = low.checked_sub(1);
        let values: Vec<u32> = below.into_iter().chain(Some(high).filter(|&high| high < LARGEST[field])).collect();
        assert_eq!((cuts, policy.node_count()), (values.clone(), 2 * (values.len() + 4) + 1), "the oracle: {case}");
        Ok(())
    };
    for (field, top) in LARGEST_END.into_iter().enumerate().skip(2) {
        for pair in [[0, 0], [0, top], [0, top - 1], [1, top], [1, 1], [1, top - 1], [top, top], [top - 1, top]] {
            expect(bench, field, pair)?;
        }
    }
    for field in 0..2 {
        for length in 0..=32 {
            for address in [0, u32::MAX, 0xAAAA_AAAA, draws.word()] {
                expect(bench, field, lists::prefix(address, length))?;
            }
        }
    }
    Ok(())
}
