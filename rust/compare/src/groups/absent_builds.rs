//! Packets without ports in the compiler: lists whose ranges end at 65,535 or are whole, and trees and parts that were
//! compiled before a port could be absent.

use crate::bench::{Bench, Run};
use crate::draws::Draws;
use crate::groups::absent_ports::{search_policy, without_ports, WHOLE};
use crate::groups::build_cases::{build_well, AMPLE};
use crate::groups::part_others::finish;
use crate::headers::{self, Header, LARGEST, PORTS, WORKED};
use crate::lists::{self, Rule, LARGEST_END};
use crate::old_trees::{old_trees, OldTree};
use crate::shared_ends::{put, with};
use crate::stops::{room_for, to_the_end};
use crate::texts::Text;
use crate::trees::Policy;

const PURPOSE: &str = "correctness";

/// The most corner headers of a tree that is judged by them.
const MOST_HEADERS: u64 = 3_000;

pub fn run(bench: &mut Bench) -> Run {
    bench.group(PURPOSE, "absent ports: builds of nine rules, 0 to 9 of them for all ports", nine_rules)?;
    bench.group(PURPOSE, "absent ports: builds of drawn ranges up to 65,535, at once and in steps", drawn_builds)?;
    bench.group(PURPOSE, "absent ports: trees and parts from before a port could be absent", old_policies)
}

/// Does the tree cut a port at this value?
fn cuts_at(tree: &Policy, value: u32) -> bool {
    tree.nodes.chunks(3).any(|node| PORTS.contains(&(node[0] as usize)) && node[1] == value)
}

/// So many rules are for all ports, and for the protocols up to 100, 101, and so on. They give the port no value. The
/// others are for the ports from their number + 1 up to 65,535, and give their numbers and 65,535.
fn nine_rules(bench: &mut Bench) -> Run {
    for field in PORTS {
        for whole in 0..=9 {
            let rule = |number: u32| match number < whole {
                true => with(4, [0, 100 + number]),
                false => with(field, [number + 1, 65_535]),
            };
            let rules: Vec<Rule> = (0..9).map(rule).collect();
            let case = format!("{whole} of nine rules for all ports of field {field}");
            let tree = build_well(bench, &case, &rules)?;
            // The port has one value more than there are others, and is cut where the protocol does not have more.
            let root = match whole {
                0..=5 => [field as u32, whole + (10 - whole) / 2],
                _ => [4, 100 + whole / 2],
            };
            assert_eq!(tree.nodes[..2], root, "the oracle: {case}");
            for port in (0..11).chain([65_534, 65_535, 65_536]) {
                for protocol in [6, 104, 200] {
                    let header = headers::with(headers::with(WORKED, field, port), 4, protocol);
                    let count = search_policy(bench, &case, &tree, &header)?;
                    let by_port = (whole..9).filter(|low| low < &port && port < 65_536).count();
                    let by_protocol = (0..whole).filter(|number| protocol <= 100 + number).count();
                    assert_eq!(count as usize, by_port + by_protocol, "the oracle: {case}, port {port}");
                }
            }
        }
    }
    Ok(())
}

/// A range of ports that is whole, ends at 65,535, or begins and ends at these values.
fn drawn_range(draws: &mut Draws, values: &[u32]) -> [u32; 2] {
    let (one, other) = (draws.pick(values), draws.pick(values));
    let to_the_last = [one, LARGEST_END[PORTS[0]]];
    draws.pick(&[WHOLE, WHOLE, to_the_last, to_the_last, [0, one], [one.min(other), one.max(other)]])
}

fn drawn_builds(bench: &mut Bench) -> Run {
    let [mut cut_there, mut others, mut judged] = [0; 3];
    for seed in 3_020_000..3_020_200 {
        let mut draws = Draws::seeded(seed);
        let size = draws.pick(&[9, 10, 12, 16, 24]);
        let values = draws.pick(&[[1, 1_023, 1_024], [1, 40_000, 65_534], [1_024, 65_534, 65_535], [1, 2, 65_535]]);
        let rules = lists::different(size, || {
            let range = drawn_range(&mut draws, &values);
            let rule = put(with(2, range), 3, drawn_range(&mut draws, &values));
            if draws.once_in(3) {
                put(rule, 4, [6, 6])
            } else {
                rule
            }
        });
        let case = format!("seed {seed}, {size} rules with ranges up to 65,535");
        let tree = build_well(bench, &case, &rules)?;
        let has_cut = cuts_at(&tree, LARGEST_END[PORTS[0]]);
        assert!(!cuts_at(&tree, LARGEST[PORTS[0]]), "the oracle: {case}");
        cut_there += u64::from(has_cut);
        others += u64::from(!has_cut);
        let (answer, part) = bench.build_some(&case, &tree.rules, draws.pick(&[1, 2, 5]), room_for(&tree))?;
        if answer.c == 0 {
            let (_, whole) = to_the_end(bench, &case, &part, &[1, 3, 9, 30], room_for(&tree), &mut draws)?;
            assert_eq!(whole, tree, "the oracle: {case}");
        }
        for _ in 0..3 {
            let header = headers::inside(&draws.pick(&rules), &mut draws);
            for header in without_ports(header) {
                search_policy(bench, &case, &tree, &header)?;
            }
        }
        if let Some(count) = tree.judge_small(&case, MOST_HEADERS) {
            bench.count_judged(count);
            judged += 1;
        }
    }
    assert!(cut_there > 50 && others > 20 && judged > 20, "each comes often: {cut_there}, {others}, {judged}");
    Ok(())
}

/// Headers about the ends of the ranges in the old lists, in each port and in both, with and without it.
pub fn headers_for_old() -> impl Iterator<Item = Header> {
    const ENDS: [u32; 13] = [0, 1, 9, 22, 443, 1_023, 1_024, 49_151, 49_152, 65_530, 65_534, 65_535, 65_536];
    let addresses = [[0x0A00_0001, 0x0A04_0001], [0x0A04_0001, 0xC0A8_0001]];
    let ports = ENDS.into_iter().flat_map(|source| ENDS.map(|destination| [source, destination]));
    ports.flat_map(move |[from, to]| {
        addresses
            .into_iter()
            .flat_map(move |[source, destination]| [1, 6].map(|protocol| [source, destination, from, to, protocol]))
    })
}

/// An old tree is accepted, and answers as its list. So does what any stop of it ends in, which need not be the tree
/// that is built now.
fn old_policies(bench: &mut Bench) -> Run {
    let mut differ = 0;
    for OldTree { name: case, rules, policy: tree } in old_trees() {
        assert!(!cuts_at(&tree, LARGEST_END[PORTS[0]]), "{case} is from before");
        let checked = bench.tree_check(case, &tree)?;
        assert_eq!(checked.number, 0, "the oracle: {case}");
        for header in headers_for_old() {
            search_policy(bench, case, &tree, &header)?;
        }
        let now = build_well(bench, case, &rules)?;
        for stands in 1..=tree.node_count() {
            let part = tree.stop_after(stands);
            let case = format!("{case}, stopped after {stands} nodes");
            let text = Text::of_part(&part);
            bench.write_part(&case, &part)?;
            bench.read(&case, &text, text.needed)?;
            let (answer, whole) = finish(bench, &case, &part)?;
            assert_eq!(answer.number, 0, "the oracle: {case}");
            differ += u64::from(whole != now);
            for header in headers_for_old().step_by(17) {
                search_policy(bench, &case, &whole, &header)?;
            }
            let (answer, _) = bench.build_on(&case, &part, 1, AMPLE)?;
            assert_eq!(answer.number, 0, "the oracle: {case}");
        }
    }
    assert!(differ > 10, "most old parts end in other trees than are built now: {differ}");
    Ok(())
}
