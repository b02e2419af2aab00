//! A plain Rust compiler of the tree that `wick_build` builds, as a user would write it for speed: the boxes are made
//! once, a box's rules are parted by the cut's field alone, and the words grow in vectors. It trusts the list.

use wickorchard::limits::{ABSENT_PORT, LARGEST_PORT, LARGEST_PROTOCOL, RULE_WORDS};

/// The most words of the nodes, and of the pool.
const LIMITS: [usize; 2] = [6_141, 4_096];
/// A box that no more rules meet than these is a leaf.
const MOST_IN_LEAF: usize = 8;
const MOST_CUTS: u32 = 63;

/// For each field the low and the high end.
type Sides = [[u32; 2]; 5];

const ROOT: Sides = [[0, u32::MAX], [0, u32::MAX], [0, ABSENT_PORT], [0, ABSENT_PORT], [0, LARGEST_PROTOCOL]];

/// The nodes and the pool.
pub type Words = (Vec<u32>, Vec<u32>);

/// The words of the list's tree; None where it is over the limits.
pub fn plain_build(rules: &[u32]) -> Option<Words> {
    let boxes: Vec<Sides> = rules.chunks_exact(RULE_WORDS).map(sides_of).collect();
    let all: Vec<u32> = (0..boxes.len() as u32).collect();
    let mut tree = Growing { boxes: &boxes, nodes: Vec::new(), pool: Vec::new(), values: Default::default() };
    tree.part(&all, ROOT, MOST_CUTS)?;
    Some((tree.nodes, tree.pool))
}

fn sides_of(rule: &[u32]) -> Sides {
    let prefix = |address: u32, length: u32| [address, address | (u64::from(u32::MAX) >> length) as u32];
    // The range of all ports reaches the absent one.
    let ports = |low: u32, high: u32| [low, if [low, high] == [0, LARGEST_PORT] { ABSENT_PORT } else { high }];
    let [source, destination] = [prefix(rule[0], rule[1]), prefix(rule[2], rule[3])];
    [source, destination, ports(rule[4], rule[5]), ports(rule[6], rule[7]), [rule[8], rule[9]]]
}

struct Growing<'a> {
    boxes: &'a [Sides],
    nodes: Vec<u32>,
    pool: Vec<u32>,
    /// The cut values of the field that is looked at, and of the one with the most so far.
    values: [Vec<u32>; 2],
}

impl Growing<'_> {
    /// Grows the part of a box that these rules meet, with so many more cuts allowed.
    fn part(&mut self, here: &[u32], sides: Sides, cuts: u32) -> Option<()> {
        let own = self.nodes.len();
        if own == LIMITS[0] {
            return None;
        }
        let Some((field, value)) = self.cut(here, &sides, cuts) else {
            self.nodes.extend([5, self.pool.len() as u32, here.len() as u32]);
            self.pool.extend(here);
            return (self.pool.len() <= LIMITS[1]).then_some(());
        };
        self.nodes.extend([field as u32, value, 0]);
        let boxes = self.boxes;
        let (mut left, mut right) = (sides, sides);
        left[field][1] = value;
        right[field][0] = value + 1;
        let mut inside = Vec::with_capacity(here.len());
        inside.extend(here.iter().filter(|&&rule| boxes[rule as usize][field][0] <= value));
        self.part(&inside, left, cuts - 1)?;
        self.nodes[own + 2] = (self.nodes.len() / 3) as u32;
        inside.clear();
        inside.extend(here.iter().filter(|&&rule| boxes[rule as usize][field][1] > value));
        self.part(&inside, right, cuts - 1)
    }

    /// Where the box is cut; None makes it a leaf.
    fn cut(&mut self, here: &[u32], sides: &Sides, cuts: u32) -> Option<(usize, u32)> {
        if here.len() <= MOST_IN_LEAF || cuts == 0 {
            return None;
        }
        let (boxes, [next, most]) = (self.boxes, &mut self.values);
        let mut of = 0;
        most.clear();
        for (field, &[from, to]) in sides.iter().enumerate() {
            next.clear();
            for &rule in here {
                let [low, high] = boxes[rule as usize][field];
                if high < to {
                    next.push(high);
                }
                if from < low {
                    next.push(low - 1);
                }
            }
            // Without repeats it would have no more, so it need not be sorted.
            if next.len() > most.len() {
                next.sort_unstable();
                next.dedup();
                if next.len() > most.len() {
                    std::mem::swap(next, most);
                    of = field;
                }
            }
        }
        most.get(most.len() / 2).map(|&middle| (of, middle))
    }
}
