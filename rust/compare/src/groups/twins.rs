//! Lists in which a later rule has the words of an earlier one: 11 from every call that judges a list.

use oracle::rules::{is_good, rule_of, FIELD_WORDS, RULE_WORDS};

use crate::bench::{Agreed, Bench, Run};
use crate::draws::Draws;
use crate::groups::build_cases::AMPLE;
use crate::headers::{Header, WORKED};
use crate::lists::{self, Rule, EVERYTHING, MANNERS};
use crate::shared_ends::{around_a_header, put};
use crate::texts;
use crate::trees::{self, Policy};

const PURPOSE: &str = "correctness";

/// A rule of which each word can be made another one, and the rule is still good.
pub const CHANGEABLE: Rule = [0x0A01_0000, 16, 0xC0A8_0100, 24, 1_000, 2_000, 80, 90, 6, 17, 0];

pub fn run(bench: &mut Bench) -> Run {
    bench.group(PURPOSE, "twins: every way in which 0 to 6 rules can be alike", every_pattern)?;
    bench.group(PURPOSE, "twins: every pair of places in lists of 7 to 9 rules", every_pair)?;
    bench.group(PURPOSE, "twins: lists of 512 rules, with a pair anywhere and with all alike", long_lists)?;
    bench.group(
        PURPOSE,
        "twins: rules that differ in one bit, or in the order of their words, are none",
        near_twins,
    )?;
    bench.group(PURPOSE, "twins: many rules that differ in one or two words only", crowded)
}

/// The later and the earlier rule.
pub type Pair = [usize; 2];

/// Every call that judges a list takes these rules, or refuses them with 11 and these twins. The searches that judge no
/// list complete, and list both twins.
pub fn judge(bench: &mut Bench, case: &str, rules: &[Rule], twins: Option<Pair>) -> Run {
    let words = rules.concat();
    let header = rules.get(twins.map_or(0, |[later, _]| later)).map_or(WORKED, low_corner);
    let every_rule: Vec<u32> = (0..rules.len() as u32).collect();
    let policy = Policy::of(rules, &trees::leaf(&every_rule));
    expect(case, twins, bench.rule_check(case, &words))?;
    expect(case, twins, bench.write_rules(case, &words))?;
    expect(case, twins, bench.line_first(case, &words, &header))?;
    expect(case, twins, bench.line_all(case, &words, &header, rules.len()))?;
    expect(case, twins, bench.tree_check(case, &policy))?;
    expect(case, twins, bench.read_in_rooms(case, &texts::rules_file(rules.len(), rules)))?;
    let built = bench.build(case, &words, AMPLE)?;
    // A list without twins may have too large a tree.
    if twins.is_some() || built.number != 4 {
        expect(case, twins, Ok(built))?;
    }
    let scanned = bench.scan_all(case, &words, &header, rules.len())?;
    let first = bench.scan_first(case, &words, &header)?;
    let searched = bench.tree_searches(case, &policy, &header)?;
    assert_eq!((scanned.number, first.number, searched.number, searched.a), (0, 0, 0, scanned.a), "the oracle: {case}");
    assert!(twins.is_none() || scanned.a >= 2, "the oracle lists both: {case}");
    Ok(())
}

/// The lowest header that the good rule matches.
fn low_corner(rule: &Rule) -> Header {
    std::array::from_fn(|field| rule[2 * field])
}

/// The call is completed, or refused with 11 and these twins.
fn expect(case: &str, twins: Option<Pair>, answer: Agreed) -> Run {
    let answer = answer?;
    let wanted = twins.map_or((0, 0, 0), |[later, earlier]| (11, later as u64, earlier as u64));
    assert_eq!((answer.number, answer.place, answer.extra), wanted, "the oracle: {case}");
    Ok(())
}

/// So many rules that are each of one kind: every such list of kinds, in which a new kind is the next number.
fn patterns(size: usize) -> Vec<Vec<usize>> {
    (0..size).fold(vec![Vec::new()], |shorter: Vec<Vec<usize>>, _| {
        let longer = |kinds: &Vec<usize>| {
            let next = kinds.iter().max().map_or(0, |most| most + 1);
            let kinds = kinds.clone();
            (0..=next).map(move |kind| [&kinds[..], &[kind]].concat())
        };
        shorter.iter().flat_map(longer).collect()
    })
}

/// The lowest rule of a kind that was there before, and the one that had it.
fn lowest_twins(kinds: &[usize]) -> Option<Pair> {
    (0..kinds.len()).find_map(|later| {
        let earlier = kinds[..later].iter().position(|kind| *kind == kinds[later]);
        earlier.map(|earlier| [later, earlier])
    })
}

/// No twins, one pair, several pairs, and three and more alike, in every order.
fn every_pattern(bench: &mut Bench) -> Run {
    for size in 0..=6 {
        for (number, kinds) in patterns(size).into_iter().enumerate() {
            let manner = MANNERS[number % MANNERS.len()];
            let seed = 1_700_000 + number as u64;
            let drawn = lists::good_list(&mut Draws::seeded(seed), size, manner).rules;
            let rules: Vec<Rule> = kinds.iter().map(|&kind| drawn[kind]).collect();
            let case = format!("seed {seed}, {manner:?} list of the kinds {kinds:?}");
            judge(bench, &case, &rules, lowest_twins(&kinds))?;
        }
    }
    Ok(())
}

fn every_pair(bench: &mut Bench) -> Run {
    for size in 7..=9 {
        for later in 1..size {
            for earlier in 0..later {
                let mut rules = around_a_header(size);
                rules[later] = rules[earlier];
                judge(bench, &format!("rule {later} of {size} made rule {earlier}"), &rules, Some([later, earlier]))?;
            }
        }
    }
    Ok(())
}

/// First and last, side by side, and anywhere; then several pairs, and lists of one rule again and again.
fn long_lists(bench: &mut Bench) -> Run {
    let ends = [[511, 0], [1, 0], [511, 510], [256, 255], [510, 1], [511, 255], [256, 0]];
    for seed in 1_710_000..1_710_060 {
        let mut draws = Draws::seeded(seed);
        let manner = draws.pick(&MANNERS);
        let mut rules = lists::good_list(&mut draws, 512, manner).rules;
        let drawn = 1 + draws.below(511);
        let mut pairs = vec![ends.get(seed as usize % 20).copied().unwrap_or([drawn, draws.below(drawn)])];
        if draws.once_in(4) {
            // Rules above the first pair's later one are made twins too.
            pairs.extend((pairs[0][0] + 1..512).filter(|_| draws.once_in(9)).map(|later| [later, later / 2]));
        }
        for &[later, earlier] in &pairs {
            rules[later] = rules[earlier];
        }
        let case = format!("seed {seed}, {manner:?} list with the twins {pairs:?}");
        judge(bench, &case, &rules, Some(pairs[0]))?;
    }
    for size in [2, 3, 9, 511, 512] {
        for rule in [EVERYTHING, CHANGEABLE, [0; RULE_WORDS]] {
            judge(bench, &format!("{rule:?}, {size} times"), &vec![rule; size], Some([1, 0]))?;
        }
    }
    judge(bench, "512 wide rules", &lists::wide_rules(512), None)
}

/// Each bit of each word that leaves the rule good; and words that change places.
fn near_twins(bench: &mut Bench) -> Run {
    for word in 0..FIELD_WORDS {
        let mut tried = 0;
        for bit in 0..32 {
            let mut other = CHANGEABLE;
            other[word] ^= 1 << bit;
            if is_good(&rule_of(&other)) {
                let case = format!("bit {bit} of word {word}");
                judge(bench, &case, &[CHANGEABLE, other], None)?;
                judge(bench, &case, &[CHANGEABLE, other, CHANGEABLE], Some([2, 0]))?;
                tried += 1;
            }
        }
        assert!(tried >= 3, "bits of each word are tried: {tried} of word {word}");
    }
    let [a, b, c, d, e, f, g, h, ..] = CHANGEABLE;
    let addresses_swapped = [c, d, a, b, e, f, g, h, 6, 17, 0];
    let ports_swapped = [a, b, c, d, g, h, e, f, 6, 17, 0];
    let both_swapped = [c, d, a, b, g, h, e, f, 6, 17, 0];
    let ports = [[g, e, h, f], [h, f, g, e], [g, f, h, e]];
    let others = ports.map(|[e, f, g, h]| [a, b, c, d, e, f, g, h, 6, 17, 0]);
    let swapped = [&[CHANGEABLE, addresses_swapped, ports_swapped, both_swapped][..], &others].concat();
    judge(bench, "words that change places", &swapped, None)?;
    for earlier in 0..swapped.len() {
        let rules = [&swapped[..], &[swapped[earlier]]].concat();
        let case = format!("words that change places, and rule {earlier} once more");
        judge(bench, &case, &rules, Some([swapped.len(), earlier]))?;
    }
    Ok(())
}

/// Lists whose rules are the same but for one word, or for both ends of a range: whatever a rule is looked up by, many
/// of them may be found in one place. The last rule is made a twin of the first, of a middle one, and of the last but
/// one.
fn crowded(bench: &mut Bench) -> Run {
    for (kind, rules) in crowded_lists() {
        let last = rules.len() - 1;
        let case = format!("{} rules that differ in {kind}", rules.len());
        judge(bench, &case, &rules, None)?;
        for earlier in [0, last / 2, last - 1] {
            let mut twins = rules.clone();
            twins[last] = twins[earlier];
            judge(bench, &format!("{case}, the last made rule {earlier}"), &twins, Some([last, earlier]))?;
        }
    }
    Ok(())
}

fn crowded_lists() -> Vec<(&'static str, Vec<Rule>)> {
    let list = |count: u32, field: usize, pair: &dyn Fn(u32) -> [u32; 2]| -> Vec<Rule> {
        (0..count).map(|number| put(EVERYTHING, field, pair(number))).collect()
    };
    vec![
        ("the source's high bits", list(512, 0, &|number| [number << 23, 9])),
        ("the source's low bits", list(512, 0, &|number| [number, 32])),
        ("the source's length", list(33, 0, &|number| [0, number])),
        ("the destination's high bits", list(512, 1, &|number| [number << 23, 9])),
        ("the destination's low bits", list(512, 1, &|number| [number, 32])),
        ("the destination's length", list(33, 1, &|number| [0, number])),
        // By these steps, all rules come into one or two slots of `crates/rules/src/twins.rt`.
        ("the source, by steps of 63,580", list(512, 0, &|number| [63_580 * number, 32])),
        ("the destination, by steps of 160,910", list(512, 1, &|number| [160_910 * number, 32])),
        ("the lowest source port", list(512, 2, &|number| [number, 65_535])),
        ("the highest source port", list(512, 2, &|number| [0, 128 * number])),
        ("the lowest destination port", list(512, 3, &|number| [number, 65_535])),
        ("the highest destination port", list(512, 3, &|number| [0, 128 * number])),
        ("the lowest protocol", list(256, 4, &|number| [number, 255])),
        ("the highest protocol", list(256, 4, &|number| [0, number])),
        ("the two ends of the source port, one up and one down", list(512, 2, &|number| [number, 1_022 - number])),
        ("the two ends of the destination port, both up", list(512, 3, &|number| [number, number])),
        ("the two ends of the protocol, one up and one down", list(128, 4, &|number| [number, 255 - number])),
    ]
}
