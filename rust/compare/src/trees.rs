//! Good trees: the worked policy's; for drawn lists some that are built and some that are grown at random; and the one
//! that is compiled from a list.

use oracle::boxes::{Side, Sides};
use oracle::build::{compile, LARGEST_ROOM};
use oracle::builder::{self, Limits};
use oracle::corners::{self, Verdict};
use oracle::nodes::{MOST_ENTRIES, MOST_NODES};
use oracle::parts::{Part, Places, TreeWords};
use oracle::rules::{self, judge_rules, rule_of, RULE_WORDS};

use crate::draws::Draws;
use crate::headers::{self, Header, LARGEST};
use crate::lists::{wide_rules, List, Rule, EVERYTHING, WORKED_POLICY};

/// The words of a list and of a tree, as the calls take them.
#[derive(Clone, Debug, PartialEq, Eq)]
pub struct Policy {
    pub rules: Vec<u32>,
    pub nodes: Vec<u32>,
    pub pool: Vec<u32>,
}

impl Policy {
    pub fn of(rules: &[Rule], root: &Part) -> Policy {
        let words = root.words();
        Policy { rules: rules.concat(), nodes: words.nodes, pool: words.pool }
    }

    /// How many rules there are.
    pub fn rule_count(&self) -> u64 {
        (self.rules.len() / RULE_WORDS) as u64
    }

    /// How many nodes there are.
    pub fn node_count(&self) -> usize {
        self.nodes.len() / 3
    }

    /// The list, and a stop of the tree after so many nodes. The leaves' entries are in the pool.
    pub fn stop_after(&self, node_count: usize) -> Policy {
        let words = TreeWords { nodes: self.nodes.clone(), pool: self.pool.clone() };
        let TreeWords { nodes, pool } = words.stop_after(node_count as u64);
        Policy { rules: self.rules.clone(), nodes, pool }
    }

    /// Judges the tree by the headers at every corner, if they are at most so many: it must be right for its list. Says
    /// how many they were.
    pub fn judge_small(&self, case: &str, most: u64) -> Option<u64> {
        let Policy { rules, nodes, pool } = self;
        let count = corners::header_count(&corners::corners_of(rules, nodes));
        if count > most {
            return None;
        }
        assert_eq!(corners::judge_by_corners(rules, nodes, pool), Verdict::Right, "the oracle: {case}");
        Some(count)
    }
}

/// A good list and a tree that is right for it.
pub struct Planted {
    pub rules: Vec<Rule>,
    pub root: Part,
    pub policy: Policy,
    pub places: Places,
}

impl Planted {
    pub fn of(rules: &[Rule], root: Part) -> Planted {
        let policy = Policy::of(rules, &root);
        let places = root.places();
        Planted { rules: rules.to_vec(), root, policy, places }
    }
}

pub fn leaf(entries: &[u32]) -> Part {
    Part::Leaf { entries: entries.to_vec() }
}

pub fn cut(field: usize, value: u32, left: Part, right: Part) -> Part {
    Part::Cut { field, value, left: Box::new(left), right: Box::new(right) }
}

/// The worked policy's tree of five nodes.
pub fn worked() -> Planted {
    let inner = cut(0, 184_549_375, leaf(&[0, 1, 2]), leaf(&[2]));
    Planted::of(&WORKED_POLICY, cut(0, 167_772_159, leaf(&[2]), inner))
}

/// Builds a tree whose leaves would have at most this many entries; more where it is over the scope's limits otherwise.
pub fn built(list: &List, leaf: usize, cuts: u64) -> Planted {
    let rules = judge_rules(&list.words()).expect("the list is good");
    let within = |leaf| builder::build(&rules, Limits { leaf, cuts, nodes: MOST_NODES, entries: MOST_ENTRIES });
    let root = (0..10).find_map(|doubled| within(leaf << doubled)).expect("one leaf of 512 rules is within the limits");
    Planted::of(&list.rules, root)
}

/// The tree that is compiled from the good list; None where it is over the scope's limits.
pub fn compiled(rules: &[Rule]) -> Option<Policy> {
    let rules = rules.concat();
    let words = compile(&rules, LARGEST_ROOM).ok()?;
    Some(Policy { rules, nodes: words.nodes, pool: words.pool })
}

/// Grows a tree of at most this many cuts; of fewer where the pool would be over its limit.
pub fn grown(list: &List, cuts: u64, draws: &mut Draws) -> Planted {
    let rules = judge_rules(&list.words()).expect("the list is good");
    Planted::of(&list.rules, grown_for(&rules, cuts, draws))
}

/// Grows a tree as for rules that meet every box: each leaf lists every rule. So it is right for any list.
pub fn grown_full(list: &[Rule], cuts: u64, draws: &mut Draws) -> Planted {
    let everywhere = vec![rule_of(&EVERYTHING); list.len()];
    Planted::of(list, grown_for(&everywhere, cuts, draws))
}

fn grown_for(rules: &[rules::Rule], cuts: u64, draws: &mut Draws) -> Part {
    let most_leaves = MOST_ENTRIES as u64 / (rules.len() as u64).max(1);
    let cuts = cuts.min(most_leaves - 1).min(MOST_NODES as u64 / 2);
    builder::grow(rules, cuts, &mut |bound| draws.below(bound as usize) as u64)
}

/// A tree of so many nodes that is spelt, and hardly ever well formed, for so many rules that nearly all headers match.
pub fn spelt(rule_count: usize, node_count: usize, draws: &mut Draws) -> Policy {
    let mut policy = Policy { rules: wide_rules(rule_count).concat(), nodes: Vec::new(), pool: Vec::new() };
    for _ in 0..node_count {
        if draws.once_in(2) {
            let value = draws.word() >> draws.below(32);
            policy.nodes.extend([draws.below(5) as u32, value, draws.below(node_count) as u32]);
        } else {
            let start = policy.pool.len();
            let count = draws.below(rule_count + 1).min(MOST_ENTRIES - start);
            policy.nodes.extend([5, start as u32, count as u32]);
            policy.pool.extend((0..count).map(|_| draws.below(rule_count) as u32));
        }
    }
    policy
}

/// 2,039 cuts of the longest lines, and eight leaves that list 512 of the longest rule numbers.
pub fn longest() -> Policy {
    let mut nodes = [4, u32::MAX, 2_046].repeat(2_039);
    for leaf in 0..8 {
        nodes.extend([5, 512 * leaf, 512]);
    }
    Policy { rules: wide_rules(512).concat(), nodes, pool: vec![511; 4_096] }
}

/// A part of the tree, by the number of its node.
pub fn part_at(root: &mut Part, node: u64) -> &mut Part {
    let mut here = root;
    let mut rest = node;
    while rest > 0 {
        let Part::Cut { left, right, .. } = here else { panic!("the node is in the tree") };
        let in_left = left.node_count();
        (here, rest) = if rest <= in_left { (left, rest - 1) } else { (right, rest - 1 - in_left) };
    }
    here
}

/// A header of the box, in each field at an end of it or anywhere.
pub fn inside(sides: &Sides, draws: &mut Draws) -> Header {
    std::array::from_fn(|field| {
        let Side { low, high } = sides[field];
        let (low, high) = (low as u32, high as u32);
        match draws.below(4) {
            0 => low,
            1 => high,
            _ => draws.between(low, high),
        }
    })
}

/// A header at a corner of a leaf's box, just beside one, at a corner of a rule, or anywhere.
pub fn header_for(planted: &Planted, draws: &mut Draws) -> Header {
    let leaves = &planted.places.leaves;
    let header = inside(&leaves[draws.below(leaves.len())].sides, draws);
    match draws.below(6) {
        0 | 1 => header,
        2 if !planted.places.cuts.is_empty() => {
            let cuts = &planted.places.cuts;
            let cut = &cuts[draws.below(cuts.len())];
            let value = cut.value.saturating_add(draws.below(2) as u32).min(LARGEST[cut.field]);
            headers::with(header, cut.field, value)
        }
        3 | 4 if !planted.rules.is_empty() => {
            let rule = draws.pick(&planted.rules);
            let at_corners = std::array::from_fn(|field| draws.pick(&headers::corners(&rule, field)));
            let field = draws.below(5);
            let one_corner = headers::with(headers::inside(&rule, draws), field, at_corners[field]);
            draws.pick(&[at_corners, one_corner])
        }
        _ => headers::anywhere(draws),
    }
}
