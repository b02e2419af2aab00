//! Damage to the ends of the node words and of the pool.

use oracle::boxes::root_box;

use super::DamagedTree;
use crate::trees::{Planted, Policy};

/// The tree with each kind of damage to its ends: the pool too short or long, nodes missing or left over.
pub fn end_damages(planted: &Planted) -> Vec<DamagedTree> {
    let mut all = Vec::new();
    let mut put = |kind: String, change: &dyn Fn(&mut Policy)| {
        let mut policy = planted.policy.clone();
        change(&mut policy);
        all.push(DamagedTree { kind, policy, sides: root_box() });
    };
    let pool = planted.policy.pool.len() as u32;
    let count = planted.policy.node_count() as u32;
    put("a pool word missing".into(), &|policy| policy.pool.truncate(policy.pool.len().saturating_sub(1)));
    put("no pool".into(), &|policy| policy.pool.clear());
    for word in [0, planted.rules.len() as u32, u32::MAX] {
        put(format!("a pool word {word} left over"), &|policy| policy.pool.push(word));
    }
    for words in 1..=9 {
        put(format!("the last {words} node words missing"), &|policy| {
            policy.nodes.truncate(policy.nodes.len().saturating_sub(words));
        });
    }
    let ends = [
        [5, pool, 0],
        [5, pool, 1],
        [5, 0, 0],
        [5, pool + 1, 0],
        [0, 0, 0],
        [0, 7, count],
        [0, 7, count + 1],
        [4, 255, 0],
        [6, 0, 0],
        [5, 0, u32::MAX],
    ];
    for end in ends {
        put(format!("{end:?} left over"), &|policy| policy.nodes.extend(end));
        put(format!("{end:?} left over, and an empty leaf"), &|policy| {
            policy.nodes.extend(end);
            policy.nodes.extend([5, pool, 0]);
        });
        put(format!("two words of {end:?} left over"), &|policy| policy.nodes.extend(&end[..2]));
    }
    put("the whole tree once more".into(), &|policy| {
        let (nodes, entries) = (policy.nodes.clone(), policy.pool.clone());
        for node in nodes.chunks_exact(3) {
            match node[0] {
                5 => policy.nodes.extend([5, node[1] + pool, node[2]]),
                _ => policy.nodes.extend([node[0], node[1], node[2] + count]),
            }
        }
        policy.pool.extend(entries);
    });
    all
}
