//! Correctness of the compiler: drawn lists. What is built is accepted by the check, and answers as the list does.

use crate::bench::{Bench, Run};
use crate::draws::Draws;
use crate::groups::build_cases::AMPLE;
use crate::headers::{self, Header, LARGEST};
use crate::lists::{self, Rule, MANNERS};
use crate::shared_ends;
use crate::trees::{self, Policy};

const PURPOSE: &str = "correctness";

/// The sizes of drawn lists.
const SIZES: [usize; 12] = [0, 1, 8, 9, 10, 12, 16, 25, 40, 64, 200, 512];

/// The most corner headers of a policy that is judged by them.
const MOST_HEADERS: u64 = 6_000;

pub fn run(bench: &mut Bench) -> Run {
    bench.group(PURPOSE, "build: drawn lists, checked and searched", drawn_lists)?;
    bench.group(PURPOSE, "build: lists whose rules share few ends, checked and searched", shared_lists)?;
    bench.group(PURPOSE, "build: small lists, searched for every corner header", small_lists)
}

fn drawn_lists(bench: &mut Bench) -> Run {
    let mut seed = 1_310_000;
    for size in SIZES {
        for manner in MANNERS {
            for _ in 0..if size > 100 { 1 } else { 6 } {
                let mut draws = Draws::seeded(seed);
                let list = lists::good_list(&mut draws, size, manner);
                build_and_search(bench, &format!("seed {seed}, {manner:?} list of {size}"), &list.rules, &mut draws)?;
                seed += 1;
            }
        }
    }
    Ok(())
}

fn shared_lists(bench: &mut Bench) -> Run {
    let (mut seed, mut fitting) = (1_320_000, 0);
    for size in SIZES {
        for _ in 0..if size > 100 { 12 } else { 60 } {
            let mut draws = Draws::seeded(seed);
            let rules = shared_ends::list(&mut draws, size);
            let case = format!("seed {seed}, list of {size} with few ends");
            fitting += usize::from(build_and_search(bench, &case, &rules, &mut draws)?);
            seed += 1;
        }
    }
    assert!(fitting > 400, "most trees fit: {fitting}");
    Ok(())
}

/// Builds the list's tree, and has it checked and searched where it fits. Says whether it does.
fn build_and_search(bench: &mut Bench, case: &str, rules: &[Rule], draws: &mut Draws) -> Result<bool, String> {
    let answer = bench.build(case, &rules.concat(), AMPLE)?;
    let Some(policy) = trees::compiled(rules) else {
        assert_eq!(answer.number, 4, "the oracle: {case}");
        return Ok(false);
    };
    let accepted = bench.tree_check(case, &policy)?;
    assert_eq!((answer.number, accepted.number), (0, 0), "the oracle: {case}");
    for _ in 0..8 {
        let header = header_for(rules, &policy, draws);
        let found = bench.tree_searches(case, &policy, &header)?;
        let listed = bench.line_all(case, &policy.rules, &header, rules.len())?;
        assert_eq!((found.number, found.a), (0, listed.a), "the oracle: {case}");
        assert!(found.b <= accepted.a + 1 && found.c <= accepted.b, "the oracle: {case}");
    }
    Ok(true)
}

/// A header inside a rule or anywhere, in some fields at a cut or just after it.
fn header_for(rules: &[Rule], policy: &Policy, draws: &mut Draws) -> Header {
    let mut header = headers::anywhere(draws);
    if !rules.is_empty() && !draws.once_in(4) {
        header = headers::inside(&draws.pick(rules), draws);
    }
    for _ in 0..3 {
        let node = draws.below(policy.node_count());
        let [field, value] = [policy.nodes[3 * node], policy.nodes[3 * node + 1]];
        if field < 5 {
            header[field as usize] = value.saturating_add(draws.below(2) as u32).min(LARGEST[field as usize]);
        }
    }
    header
}

/// A tree is right for its list where every corner header gets the list's answer.
fn small_lists(bench: &mut Bench) -> Run {
    let mut judged = 0;
    for seed in 1_330_000..1_330_600 {
        let mut draws = Draws::seeded(seed);
        let size = draws.between(9, 14) as usize;
        let rules = shared_ends::list(&mut draws, size);
        let case = format!("seed {seed}, list of {size} with few ends");
        let Some(tree) = trees::compiled(&rules) else { continue };
        let Some(count) = tree.judge_small(&case, MOST_HEADERS) else { continue };
        build_and_search(bench, &case, &rules, &mut draws)?;
        bench.count_judged(count);
        judged += 1;
    }
    assert!(judged > 60, "many lists are small: {judged}");
    Ok(())
}
