//! Good lists for the compiler: their rules share few ends, so that fields tie, values repeat, and many rules meet a
//! box. None has twins, and half of the drawn ones have actions.

use crate::draws::Draws;
use crate::lists::{self, Rule, EVERYTHING, LARGEST_END};

/// Everything, but for these two words of this field.
pub fn with(field: usize, pair: [u32; 2]) -> Rule {
    put(EVERYTHING, field, pair)
}

/// The rule with these two words in this field.
pub fn put(mut rule: Rule, field: usize, pair: [u32; 2]) -> Rule {
    rule[2 * field..2 * field + 2].copy_from_slice(&pair);
    rule
}

/// The rule, in some of the fields but this one from 0 to 1, as the number's bits say. So sixteen of them differ, and
/// they give every other field one cut value.
pub fn variant(rule: Rule, field: usize, number: usize) -> Rule {
    let others = (0..5).filter(|&other| other != field).enumerate();
    others.filter(|(bit, _)| number >> bit & 1 == 1).fold(rule, |rule, (_, other)| {
        let from_0_to_1 = if other < 2 { [0, 31] } else { [0, 1] };
        put(rule, other, from_0_to_1)
    })
}

/// So many rules that hold one header, up to 512. Each but the first is an earlier one that reaches one step further on
/// one side, or has an address that is one bit shorter.
pub fn around_a_header(count: usize) -> Vec<Rule> {
    let mut rules = vec![[0xAAAA_AAAA, 32, 0x5555_5555, 32, 1_000, 1_000, 1_000, 1_000, 100, 100, 0]];
    let mut inner = 0;
    while rules.len() < count {
        for word in [1, 3, 4, 5, 6, 7, 8, 9] {
            let mut wider = rules[inner];
            match word {
                1 | 3 => [wider[word - 1], wider[word]] = lists::prefix(wider[word - 1], wider[word] - 1),
                4 | 6 | 8 => wider[word] -= 1,
                _ => wider[word] += 1,
            }
            if !lists::has(&rules, &wider) {
                rules.push(wider);
            }
        }
        inner += 1;
    }
    rules.truncate(count);
    rules
}

/// How the rules of a list give a field.
struct Field {
    /// The values that ends and addresses are taken from.
    values: Vec<u32>,
    /// How many of four rules take the whole field.
    whole: usize,
}

/// Draws a list of this many rules. Once in six a rule is an earlier one with another field. Where the values give a
/// rule that is there already, a field gets one more.
pub fn list(draws: &mut Draws, size: usize) -> Vec<Rule> {
    let mut fields: [Field; 5] = std::array::from_fn(|field| {
        let values = values_of(draws, field);
        Field { values, whole: draws.pick(&[0, 2, 3, 4, 4]) }
    });
    let mut rules: Vec<Rule> = Vec::new();
    for _ in 0..size {
        let mut rule = if !rules.is_empty() && draws.once_in(6) {
            let field = draws.below(5);
            let earlier = draws.pick(&rules);
            put(earlier, field, pair_of(draws, field, &fields[field].values))
        } else {
            fields.iter().enumerate().fold(EVERYTHING, |rule, (number, field)| match draws.below(4) {
                chosen if chosen < field.whole => rule,
                _ => put(rule, number, pair_of(draws, number, &field.values)),
            })
        };
        while lists::has(&rules, &rule) {
            let field = draws.below(5);
            fields[field].values.push(draws.between(0, LARGEST_END[field]));
            rule = put(rule, field, pair_of(draws, field, &fields[field].values));
        }
        rules.push(rule);
    }
    lists::draw_actions(&mut rules, draws);
    rules
}

/// From one value to 40, anywhere or near an end of the field, with neighbours for some.
fn values_of(draws: &mut Draws, field: usize) -> Vec<u32> {
    let largest = LARGEST_END[field];
    let count = draws.pick(&[1, 2, 4, 10, 40]);
    let mut values = Vec::new();
    for _ in 0..count {
        let value = match draws.below(4) {
            0 => draws.between(0, 20),
            1 => largest - draws.between(0, 20),
            _ => draws.between(0, largest),
        };
        values.push(value);
        if draws.once_in(4) {
            values.push(value.saturating_add(1).min(largest));
        }
    }
    values
}

/// A prefix of one of the values, or a range that begins or ends at one or two of them.
fn pair_of(draws: &mut Draws, field: usize, values: &[u32]) -> [u32; 2] {
    let (one, other) = (draws.pick(values), draws.pick(values));
    match (field, draws.below(6)) {
        (0 | 1, 0) => lists::prefix(one, 32),
        (0 | 1, 1) => lists::prefix(one, 8),
        (0 | 1, _) => lists::prefix(one, draws.between(0, 32)),
        (_, 0) => [one, one],
        (_, 1) => [0, one],
        (_, 2) => [one, LARGEST_END[field]],
        _ => [one.min(other), one.max(other)],
    }
}
