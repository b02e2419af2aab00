//! Good lists of rules: the worked policy, and lists drawn so that few, many or neighbouring rules match. None has
//! twins. Half of the drawn lists have actions.

use oracle::rules::{FIELD_WORDS, LARGEST_PORT, RULE_WORDS};

use crate::draws::Draws;
use crate::headers::{self, Header};

/// The words of a rule, of which the last is its action.
pub type Rule = [u32; RULE_WORDS];

/// The word of a rule that is its action.
pub const ACTION: usize = 10;

/// The largest end of a good rule's range in each field. A header's port may be one more.
pub const LARGEST_END: [u32; 5] = [u32::MAX, u32::MAX, LARGEST_PORT, LARGEST_PORT, 255];

/// The rule that matches every header, with action 0.
pub const EVERYTHING: Rule = [0, 0, 0, 0, 0, 65_535, 0, 65_535, 0, 255, 0];

/// The worked policy's rules 0, 1 and 2.
pub const WORKED_POLICY: [Rule; 3] = [
    [0x0A00_0000, 8, 0, 0, 0, 65_535, 80, 80, 6, 6, 0],
    [0x0A01_0000, 16, 0, 0, 0, 65_535, 0, 1_023, 6, 6, 0],
    EVERYTHING,
];

/// How the rules of a drawn list stand to each other.
#[derive(Clone, Copy, Debug)]
pub enum Manner {
    /// Every rule holds the same point, so that its header matches all of them.
    Nested,
    /// Every rule would hold one of a few points, but ends just beside it in one field.
    Beside,
    /// Rules lie anywhere.
    Scattered,
    /// Some of each.
    Mixed,
}

pub const MANNERS: [Manner; 4] = [Manner::Nested, Manner::Beside, Manner::Scattered, Manner::Mixed];

/// A good list, and the points that its rules were drawn around.
pub struct List {
    pub rules: Vec<Rule>,
    pub points: Vec<Header>,
}

impl List {
    pub fn words(&self) -> Vec<u32> {
        self.rules.concat()
    }
}

/// So many rules, up to 1,024, that differ in the ends of the source port: rule 0 is everything, and all of them match
/// every header with a source port from 31 to 65,504. Every action is there.
pub fn wide_rules(count: usize) -> Vec<Rule> {
    let rule = |number: u32| [0, 0, 0, 0, number % 32, 65_535 - number / 32, 0, 65_535, 0, 255, number % 256];
    (0..count as u32).map(rule).collect()
}

/// Is a rule like this one among them, whatever their actions?
pub fn has(rules: &[Rule], rule: &Rule) -> bool {
    rules.iter().any(|other| other[..FIELD_WORDS] == rule[..FIELD_WORDS])
}

/// The rule with this action.
pub fn acting(mut rule: Rule, action: u32) -> Rule {
    rule[ACTION] = action;
    rule
}

/// Makes the rule of this place everything. Where another rule is that already, the two change places.
pub fn put_everything(rules: &mut [Rule], place: usize) {
    match rules.iter().position(|rule| rule[..FIELD_WORDS] == EVERYTHING[..FIELD_WORDS]) {
        Some(other) => rules.swap(place, other),
        None => rules[place] = EVERYTHING,
    }
}

/// Draws a good list of this many rules.
pub fn good_list(draws: &mut Draws, count: usize, manner: Manner) -> List {
    let several = match manner {
        Manner::Nested => 1,
        _ => 1 + draws.below(4),
    };
    let points: Vec<Header> = (0..several).map(|_| headers::anywhere(draws)).collect();
    let mut rules = different(count, || drawn_rule(draws, &points, manner));
    draw_actions(&mut rules, draws);
    List { rules, points }
}

/// Gives the rules actions, or all of them 0, once in two.
pub fn draw_actions(rules: &mut [Rule], draws: &mut Draws) {
    let has_actions = draws.once_in(2);
    for rule in rules {
        let drawn = draws.between(0, 255);
        rule[ACTION] = if has_actions { draws.pick(&[0, 1, 254, 255, drawn, drawn]) } else { 0 };
    }
}

/// So many rules; one that is there already is drawn again.
pub fn different(count: usize, mut draw: impl FnMut() -> Rule) -> Vec<Rule> {
    let mut rules = Vec::new();
    while rules.len() < count {
        let rule = draw();
        if !has(&rules, &rule) {
            rules.push(rule);
        }
    }
    rules
}

fn drawn_rule(draws: &mut Draws, points: &[Header], manner: Manner) -> Rule {
    let point = draws.pick(points);
    match manner {
        Manner::Nested => around(draws, &point),
        Manner::Beside => beside(draws, &point),
        Manner::Scattered => scattered(draws),
        Manner::Mixed => match draws.below(8) {
            0 => EVERYTHING,
            1 => scattered(draws),
            2 | 3 => beside(draws, &point),
            _ => around(draws, &point),
        },
    }
}

/// The prefix of this length that the address has: its bits past the length are zero.
pub fn prefix(address: u32, length: u32) -> [u32; 2] {
    let count = 2_u64.pow(32 - length);
    let stray = u64::from(address) % count;
    [address - stray as u32, length]
}

/// A good rule that matches the point.
fn around(draws: &mut Draws, point: &Header) -> Rule {
    let mut rule = EVERYTHING;
    for field in 0..5 {
        let pair = match field {
            0 | 1 => prefix(point[field], length(draws)),
            _ => range_around(draws, point[field], LARGEST_END[field]),
        };
        rule[2 * field..2 * field + 2].copy_from_slice(&pair);
    }
    rule
}

/// A range that holds the value; once in four it begins or ends there, or is the whole field. An absent port, which is
/// over the largest end, is held by the whole field only.
fn range_around(draws: &mut Draws, value: u32, largest: u32) -> [u32; 2] {
    if value > largest {
        return [0, largest];
    }
    let low = draws.between(0, value);
    let high = draws.between(value, largest);
    match draws.below(16) {
        0 => [value, value],
        1 => [value, high],
        2 => [low, value],
        3 => [0, largest],
        _ => [low, high],
    }
}

/// A good rule that would match the point, but for one field that ends just beside it.
fn beside(draws: &mut Draws, point: &Header) -> Rule {
    let mut rule = around(draws, point);
    let field = draws.below(5);
    let pair = match field {
        0 | 1 => sibling(draws, point[field]),
        _ => range_beside(draws, point[field], LARGEST_END[field]),
    };
    rule[2 * field..2 * field + 2].copy_from_slice(&pair);
    rule
}

/// A range that ends just below the value or begins just above it. Below an absent port it is not the whole field.
fn range_beside(draws: &mut Draws, value: u32, largest: u32) -> [u32; 2] {
    if value > largest {
        return [draws.between(1, largest), largest];
    }
    let below = value == largest || (value > 0 && draws.once_in(2));
    if below {
        [draws.between(0, value - 1), value - 1]
    } else {
        [value + 1, draws.between(value + 1, largest)]
    }
}

/// A prefix that differs from the address in its last bit only.
fn sibling(draws: &mut Draws, address: u32) -> [u32; 2] {
    let length = draws.between(1, 32);
    let last = 2_u32.pow(32 - length);
    let [address, length] = prefix(address, length);
    [address ^ last, length]
}

/// A good rule anywhere.
fn scattered(draws: &mut Draws) -> Rule {
    let point = headers::anywhere(draws);
    around(draws, &point)
}

/// The length of a prefix: 0 and 32 more often than the others.
fn length(draws: &mut Draws) -> u32 {
    match draws.below(8) {
        0 => 0,
        1 => 32,
        _ => draws.between(0, 32),
    }
}
