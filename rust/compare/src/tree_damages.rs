//! Every kind of damage to a good tree. Some damage leaves it right; the oracle tells.

mod cuts;
mod ends;
mod leaves;

use oracle::boxes::{root_box, Sides};
use oracle::parts::Part;

use crate::draws::Draws;
use crate::trees::{part_at, Planted, Policy};

pub use cuts::{cut_damages, shape_damages};
pub use ends::end_damages;
pub use leaves::{entry_damages, leaf_damages};

/// A tree with one kind of damage, and the box of the node that it was done to.
pub struct DamagedTree {
    pub kind: String,
    pub policy: Policy,
    pub sides: Sides,
}

/// First words that no node has. Some are right again modulo 8 or 256.
const WRONG_FIRST_WORDS: [u32; 8] = [6, 7, 8, 13, 255, 256, 261, u32::MAX];

/// A damage that mostly leaves the tree well formed: an entry dropped, with counts and starts mended, or a cut's value
/// moved within its box. None where the drawn node is a leaf without entries.
pub fn quiet_damage(planted: &Planted, draws: &mut Draws) -> Option<DamagedTree> {
    let mut root = planted.root.clone();
    let node = draws.below(planted.policy.node_count()) as u64;
    let (kind, sides) = match part_at(&mut root, node) {
        Part::Leaf { entries } if !entries.is_empty() => {
            entries.remove(draws.below(entries.len()));
            (format!("leaf {node}, an entry dropped"), root_box())
        }
        Part::Cut { field, value, .. } => {
            let cut = planted.places.cuts.iter().find(|cut| cut.node == node)?;
            let (low, high) = (cut.sides[*field].low as u32, cut.sides[*field].high as u32);
            *value = draws.between(low, high - 1);
            (format!("cut {node}, value moved to {value}"), cut.sides)
        }
        Part::Leaf { .. } => return None,
    };
    Some(DamagedTree { kind, policy: Policy::of(&planted.rules, &root), sides })
}

/// Any one kind of damage, anywhere.
pub fn any_damage(planted: &Planted, draws: &mut Draws) -> DamagedTree {
    let places = &planted.places;
    let leaf = &places.leaves[draws.below(places.leaves.len())];
    let mut kinds = match (draws.below(6), places.cuts.as_slice()) {
        (0, _) => end_damages(planted),
        (1, _) | (_, []) => leaf_damages(planted, leaf),
        (2 | 3, _) => entry_damages(planted, leaf, draws),
        (4, cuts) => shape_damages(planted, &cuts[draws.below(cuts.len())]),
        (_, cuts) => cut_damages(planted, &cuts[draws.below(cuts.len())]),
    };
    kinds.swap_remove(draws.below(kinds.len()))
}
