//! Parts that others have made: well formed as far as they go. What comes out is accepted by the check.

use oracle::nodes::MOST_NODES;
use oracle::parts::Part;
use oracle::Answer;

use crate::bench::{Bench, Run};
use crate::draws::Draws;
use crate::groups::build_cases::AMPLE;
use crate::groups::tree_chains::{chain, Way};
use crate::lists::{self, List, Rule, EVERYTHING, MANNERS};
use crate::shared_ends::{self, with};
use crate::stops::to_the_end;
use crate::trees::{self, cut, leaf, Policy};

/// The most corner headers of a tree that is judged by them.
const MOST_HEADERS: u64 = 1_500;

pub fn run(bench: &mut Bench) -> Run {
    bench.group(
        "correctness",
        "parts of others: drawn trees, stopped anywhere, in drawn steps to the end",
        drawn_parts,
    )?;
    bench.group(
        "limits",
        "parts of others: chains of 1 to 66 cuts, stopped anywhere, whose rules part each box",
        deep,
    )?;
    bench.group("limits", "parts of others: 2,047 nodes and 4,096 entries, open, whole, and one more", largest)
}

/// Goes on to the end at once. Where the tree fits it is accepted, and the part is the stop of it.
pub fn finish(bench: &mut Bench, case: &str, part: &Policy) -> Result<(Answer, Policy), String> {
    let (answer, tree) = bench.build_on(case, part, u64::MAX, AMPLE)?;
    if answer.number == 0 {
        assert_eq!(answer.c, 1, "the oracle: {case}");
        assert_eq!(&tree.stop_after(part.node_count()), part, "the oracle: {case}");
        let checked = bench.tree_check(case, &tree)?;
        assert_eq!(checked.number, 0, "the oracle: {case}");
    }
    Ok((answer, tree))
}

/// A tree that is right for a drawn list, and that the compiler would hardly make.
pub fn others_tree(draws: &mut Draws) -> trees::Planted {
    let size = draws.pick(&[1, 3, 8, 9, 10, 12, 16, 24]);
    let rules = match draws.below(3) {
        0 => {
            let manner = draws.pick(&MANNERS);
            lists::good_list(draws, size, manner).rules
        }
        _ => shared_ends::list(draws, size),
    };
    let list = List { rules, points: Vec::new() };
    let cuts = draws.pick(&[1, 2, 4, 9, 20]);
    match draws.below(5) {
        0 => trees::built(&list, 1 + size / 8, 63),
        1 => trees::grown_full(&list.rules, cuts, draws),
        _ => trees::grown(&list, cuts, draws),
    }
}

fn drawn_parts(bench: &mut Bench) -> Run {
    let (mut fitting, mut judged) = (0, 0);
    for seed in 2_210_000..2_210_200 {
        let mut draws = Draws::seeded(seed);
        let tree = others_tree(&mut draws).policy;
        for _ in 0..tree.node_count().min(8) {
            let stands = 1 + draws.below(tree.node_count());
            let part = tree.stop_after(stands);
            let case = format!("seed {seed}, {stands} of {} nodes", tree.node_count());
            let (at_once, whole) = finish(bench, &case, &part)?;
            let in_steps = to_the_end(bench, &case, &part, &[0, 1, 2, 5, 30, 200], AMPLE, &mut draws)?;
            assert_eq!(in_steps, (at_once, whole.clone()), "the oracle: {case}");
            if at_once.number != 0 {
                continue;
            }
            fitting += 1;
            if let Some(count) = whole.judge_small(&case, MOST_HEADERS) {
                bench.count_judged(count);
                judged += 1;
            }
        }
    }
    assert!(fitting > 1_000 && judged > 30, "most trees fit, and some are small: {fitting}, {judged}");
    Ok(())
}

/// So many rules of the chains below.
const STRIPS: u32 = 40;

/// Rules that differ in the next field alone, all of which meet every box of a chain. Three cuts part such a box, where
/// they are left for it.
fn strips(field: usize) -> Vec<Rule> {
    let other = (field + 1) % 5;
    let pair = |number: u32| match other {
        0 | 1 => [number << 20, 12],
        _ => [4 * number, 4 * number + 2],
    };
    (0..STRIPS).map(|number| with(other, pair(number))).collect()
}

/// Cuts count from the root: a chain's box that is not begun is parted as far as 63 cuts allow.
fn deep(bench: &mut Bench) -> Run {
    let all: Vec<u32> = (0..STRIPS).collect();
    let (mut taken, mut at_63) = (0, 0);
    for field in 0..5 {
        let rules = strips(field);
        for way in [Way::Left, Way::Right, Way::Turning] {
            for cuts in [1, 31, 60, 61, 62, 63, 64, 66] {
                let root = chain(field, way, cuts, &all);
                let tree = Policy::of(&rules, &root);
                let too_deep = root.places().cuts.get(63).map(|cut| cut.node as usize);
                for stands in stops_of_chain(tree.node_count()) {
                    let part = tree.stop_after(stands);
                    let case = format!("{way:?} chain of {cuts} cuts in field {field}, {stands} nodes");
                    let (answer, _) = bench.build_on(&case, &part, 12, AMPLE)?;
                    if let Some(node) = too_deep.filter(|&node| node < stands) {
                        assert_eq!((answer.number, answer.place), (6, node as u64), "the oracle: {case}");
                        continue;
                    }
                    assert_eq!(answer.number, 0, "the oracle: {case}");
                    taken += 1;
                    if stands.is_multiple_of(6) {
                        let (_, Policy { rules, nodes, pool }) = finish(bench, &case, &part)?;
                        at_63 += usize::from(oracle::tree_check(&rules, &nodes, &pool).a == 63);
                    }
                }
            }
        }
    }
    assert!(taken > 2_000 && at_63 > 100, "many chains are taken, and end at 63 cuts: {taken}, {at_63}");
    Ok(())
}

/// Every stop of a short chain; of a long one the first, the last, those about its middle, and some between.
fn stops_of_chain(nodes: usize) -> impl Iterator<Item = usize> {
    let chosen = move |stands: &usize| {
        let near = |place: usize| stands.abs_diff(place) < 5;
        nodes < 10 || near(0) || near(nodes) || near(nodes / 2) || stands.is_multiple_of(12)
    };
    (1..=nodes).filter(chosen)
}

/// A tree of so many leaves by the source, all with these entries.
fn balanced(low: u64, leaves: u64, entries: &[u32]) -> Part {
    if leaves == 1 {
        return leaf(entries);
    }
    let half = leaves / 2;
    let value = ((low + half) * (1 << 18) - 1) as u32;
    cut(0, value, balanced(low, half, entries), balanced(low + half, leaves - half, entries))
}

/// A part at a limit that is still open is taken, and then 4. Past a limit it is 5.
fn largest(bench: &mut Bench) -> Run {
    // 1,025 leaves, so 2,049 nodes; the entries are none, three times 1,025, or four times.
    for rule_count in [0, 3, 4] {
        let rules: Vec<Rule> = (0..rule_count).map(|number| with(4, [0, 200 + number])).collect();
        let entries: Vec<u32> = (0..rule_count).collect();
        let tree = Policy::of(&rules, &balanced(0, 1_025, &entries));
        for stands in [1, 2, 1_000, 2_044, 2_045, 2_046, 2_047, 2_048, 2_049] {
            let part = tree.stop_after(stands);
            let case = format!("{stands} of 2,049 nodes, {rule_count} entries in each leaf");
            for most in [0, 1, 2, 3, u64::MAX] {
                let (answer, _) = bench.build_on(&case, &part, most, AMPLE)?;
                let past = stands > MOST_NODES || part.pool.len() > 4_096;
                let full = stands == MOST_NODES;
                assert_eq!(past, answer.number == 5, "the oracle: {case}");
                if full && !past {
                    assert_eq!((answer.number, answer.place), (4, 6_144), "the oracle: {case}");
                }
            }
        }
        // 1,024 leaves, of which nothing is open: whole, with 2,047 nodes and up to 4,096 entries.
        let whole = Policy::of(&rules, &balanced(0, 1_024, &entries));
        for rooms in [AMPLE, [6_141, 4_096], [6_140, 4_096], [6_141, whole.pool.len().saturating_sub(1)]] {
            let (answer, _) = bench.build_on("1,024 leaves, nothing open", &whole, 1, rooms)?;
            let fits = rooms[0] >= 6_141 && rooms[1] >= whole.pool.len();
            assert_eq!(answer.number == 0 && answer.c == 1, fits, "the oracle: 1,024 leaves");
        }
    }
    full_pools(bench)
}

/// Eight leaves of 512 entries, beside a part that is not begun; and more entries than there may be.
fn full_pools(bench: &mut Bench) -> Run {
    let all: Vec<u32> = (0..512).collect();
    let other_rules: Vec<Rule> = lists::wide_rules(512);
    let mut same_boxes: Vec<Rule> = (0..511).map(|port| with(2, [port + 1, port + 1])).collect();
    same_boxes.insert(0, EVERYTHING);
    for (name, rules) in [("wide rules", other_rules), ("single ports", same_boxes)] {
        for last in [0, 1, 511, 512] {
            // The seventh leaf is followed by one of so many entries, which are all of them or those that must be.
            let mut root = leaf(&all);
            for value in (0..9).rev() {
                let entries = if value == 8 { &all[..last] } else { &all };
                root = cut(1, value, leaf(entries), root);
            }
            let tree = Policy::of(&rules, &root);
            for stands in 12..=tree.node_count() {
                let part = tree.stop_after(stands);
                let case = format!("{name}, {stands} nodes, {} entries", part.pool.len());
                for most in [1, 2, u64::MAX] {
                    let (answer, _) = bench.build_on(&case, &part, most, AMPLE)?;
                    assert_eq!(answer.number == 5, part.pool.len() > 4_096, "the oracle: {case}");
                }
                for pool_room in [511, 4_095, 4_096] {
                    bench.build_on(&case, &part, 1, [AMPLE[0], pool_room])?;
                }
            }
        }
    }
    Ok(())
}
