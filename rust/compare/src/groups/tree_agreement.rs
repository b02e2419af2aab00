//! Agreement: for small policies, the tree check is borne out by a search for every corner header.

use oracle::corners::{self, Verdict};

use crate::bench::{Bench, Run};
use crate::draws::Draws;
use crate::lists::{self, List, Rule, EVERYTHING, LARGEST_END};
use crate::tree_damages::{any_damage, quiet_damage, DamagedTree};
use crate::trees::{self, Policy};

/// The most corner headers of a policy that is judged by them.
const MOST_HEADERS: u64 = 3_000;

pub fn run(bench: &mut Bench) -> Run {
    bench.group("correctness", "tree check and searches for every corner header, small policies", small_policies)
}

/// A good tree, and some damaged ones of it.
fn small_policies(bench: &mut Bench) -> Run {
    let mut verdicts = [0; 3];
    for seed in 900_000..900_500 {
        let mut draws = Draws::seeded(seed);
        let list = small_list(&mut draws);
        let cuts = draws.between(0, 4).into();
        let planted = if draws.once_in(4) { trees::built(&list, 1, 63) } else { trees::grown(&list, cuts, &mut draws) };
        judge_twice(bench, &format!("seed {seed}, good tree"), &planted.policy, &mut verdicts)?;
        for _ in 0..4 {
            for damaged in [Some(any_damage(&planted, &mut draws)), quiet_damage(&planted, &mut draws)] {
                let Some(DamagedTree { kind, policy, .. }) = damaged else { continue };
                judge_twice(bench, &format!("seed {seed}, {kind}"), &policy, &mut verdicts)?;
            }
        }
    }
    assert!(verdicts.iter().all(|&count| count > 300), "each verdict is given many times: {verdicts:?}");
    Ok(())
}

/// The library's answer, which is the oracle's, must be the verdict by corners.
fn judge_twice(bench: &mut Bench, case: &str, policy: &Policy, verdicts: &mut [u64; 3]) -> Run {
    let answer = bench.tree_check(case, policy)?;
    let Policy { rules, nodes, pool } = policy;
    let headers = corners::header_count(&corners::corners_of(rules, nodes));
    if answer.number == 5 || headers > MOST_HEADERS {
        return Ok(());
    }
    let (verdict, agrees) = match corners::judge_by_corners(rules, nodes, pool) {
        Verdict::NotWellFormed => (0, answer.number == 6 || answer.number == 7),
        Verdict::WrongList(header) => {
            bench.count_judged(headers);
            bench.tree_searches(case, policy, &header)?;
            (1, answer.number == 8)
        }
        Verdict::Right => {
            bench.count_judged(headers);
            (2, answer.number == 0)
        }
    };
    assert!(agrees, "the oracle's two judges differ: {case}: {answer:?}");
    verdicts[verdict] += 1;
    Ok(())
}

/// Up to three rules that end somewhere in one or two fields, or go on to the largest end.
fn small_list(draws: &mut Draws) -> List {
    let fields = [draws.below(5), draws.below(5)];
    let count = draws.below(4);
    List { rules: lists::different(count, || small_rule(draws, fields)), points: Vec::new() }
}

fn small_rule(draws: &mut Draws, fields: [usize; 2]) -> Rule {
    let mut rule = EVERYTHING;
    for field in fields {
        let pair = match field {
            0 | 1 => lists::prefix(draws.word(), draws.between(0, 32)),
            _ => {
                let largest = LARGEST_END[field];
                let (one, other) = (draws.between(0, largest), draws.between(0, largest));
                [one.min(other), draws.pick(&[one.max(other), one.max(other), largest])]
            }
        };
        if !draws.once_in(4) {
            rule[2 * field..2 * field + 2].copy_from_slice(&pair);
        }
    }
    rule
}
