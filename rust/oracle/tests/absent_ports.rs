//! Packets without ports: which ranges take a port of 65,536, and where it is refused. Every answer was worked out by
//! hand.

mod ports;
mod worked;

use oracle::boxes::{box_of, root_box, Side};
use oracle::program::Found;
use oracle::rule_file::{list_text, Kind};
use oracle::rules::rule_of;
use oracle::tree_file::tree_text;
use oracle::{line_all, line_first, program, rule_check, scan_all, scan_first, tree_all, tree_first, Answer};
use ports::{head, refused, with, Rule, EVERYTHING, PORTS};
use worked::{header, policy, ADDRESS_10_1_2_3, AS_FOUND, NODES, POOL};

/// Does the rule match, by the scans and by a tree of one leaf, which judge no rule?
fn is_found(rule: &Rule, header: &[u32; 5]) -> bool {
    let found = scan_first(rule, header).a;
    assert_eq!(scan_all(rule, header, &mut [AS_FOUND]), Answer::completed(found, 0, 0));
    assert_eq!(tree_first(rule, &[5, 0, 1], &[0], header), Answer::completed(found, 1, 1));
    assert_eq!(tree_all(rule, &[5, 0, 1], &[0], header, &mut [AS_FOUND]), Answer::completed(found, 1, 1));
    found == 1
}

/// Tries a range of either port: it takes these of the ports 0, 1, 65,534, 65,535 and the absent one. How the list is
/// judged is held to what the caller says.
fn try_range(range: [u32; 2], taken: [bool; 5], judge: impl Fn(&Rule, &[u32; 5], bool)) {
    for field in PORTS {
        let rule = with(field, range);
        for (port, is_taken) in [0, 1, 65_534, 65_535, 65_536].into_iter().zip(taken) {
            let header = head(field, port);
            assert_eq!(is_found(&rule, &header), is_taken, "{range:?} and {port}");
            judge(&rule, &header, is_taken);
        }
    }
}

#[test]
fn good_ranges() {
    for (range, taken) in [
        ([0, 65_535], [true, true, true, true, true]),
        ([0, 65_534], [true, true, true, false, false]),
        ([1, 65_535], [false, true, true, true, false]),
        ([65_535, 65_535], [false, false, false, true, false]),
        ([0, 0], [true, false, false, false, false]),
        ([0, 1_023], [true, true, false, false, false]),
        ([1_024, 65_535], [false, false, true, true, false]),
    ] {
        try_range(range, taken, |rule, header, is_taken| {
            assert_eq!(rule_check(rule), Answer::completed(1, 0, 0));
            assert_eq!(line_first(rule, header).a, u64::from(is_taken));
        });
    }
}

#[test]
fn ranges_that_are_not_good() {
    // As before, by the numbers; but none of them takes the absent port.
    for (range, taken) in [
        ([0, 65_536], [true, true, true, true, false]),
        ([0, 65_537], [true, true, true, true, false]),
        ([0, 70_000], [true, true, true, true, false]),
        ([0, u32::MAX], [true, true, true, true, false]),
        ([1, 65_536], [false, true, true, true, false]),
        ([65_535, 65_536], [false, false, false, true, false]),
        ([65_536, 65_536], [false, false, false, false, false]),
        ([65_537, 70_000], [false, false, false, false, false]),
        ([70_000, 0], [false, false, false, false, false]),
        ([65_535, 0], [false, false, false, false, false]),
        ([65_536, 65_535], [false, false, false, false, false]),
    ] {
        try_range(range, taken, |rule, header, _| {
            assert_eq!(rule_check(rule), refused(2, 0, 0));
            assert_eq!(line_first(rule, header), refused(2, 0, 0));
        });
    }
}

#[test]
fn only_ports_may_be_absent() {
    // Addresses and protocols are compared by their numbers.
    let mut rule = EVERYTHING;
    rule[..4].copy_from_slice(&[65_536, 32, 65_536, 32]);
    assert!(is_found(&rule, &[65_536, 65_536, 65_536, 65_536, 0]));
    assert!(!is_found(&rule, &[65_535, 65_536, 65_536, 65_536, 0]));
    assert!(is_found(&with(4, [0, 65_535]), &[0, 0, 65_536, 65_536, 255]));
}

#[test]
fn a_port_above_65_536_is_3() {
    for wrong in [65_537, 65_538, 70_000, 131_072, u32::MAX] {
        for (ports, place) in [([wrong, 7], 2), ([7, wrong], 3), ([wrong, wrong], 2), ([65_536, wrong], 3)] {
            let header = [7, 7, ports[0], ports[1], 256];
            assert_eq!(line_all(&EVERYTHING, &header, &mut []), refused(3, place, 0));
            assert_eq!(line_first(&EVERYTHING, &header), refused(3, place, 0));
            assert_eq!(scan_all(&EVERYTHING, &header, &mut []), refused(3, place, 0));
            assert_eq!(scan_first(&EVERYTHING, &header), refused(3, place, 0));
            assert_eq!(tree_all(&EVERYTHING, &[], &[], &header, &mut []), refused(3, place, 0));
            assert_eq!(tree_first(&EVERYTHING, &[], &[], &header), refused(3, place, 0));
        }
    }
}

#[test]
fn the_worked_policy() {
    // Rules 0 and 1 name destination ports, and all three leave the source port open.
    let by_destination = header(ADDRESS_10_1_2_3, 65_536, 6);
    let mut by_source = header(ADDRESS_10_1_2_3, 80, 6);
    by_source[2] = 65_536;
    for (header, list) in [(by_destination, &[2][..]), (by_source, &[0, 1, 2])] {
        let (mut by_line, mut by_tree) = ([AS_FOUND; 3], [AS_FOUND; 3]);
        let count = list.len() as u64;
        assert_eq!(line_all(&policy(), &header, &mut by_line), Answer::completed(count, 0, 0));
        let answer = tree_all(&policy(), &NODES.concat(), &POOL, &header, &mut by_tree);
        assert_eq!(answer, Answer::completed(count, 3, 3));
        assert_eq!((&by_line[..list.len()], &by_tree[..list.len()]), (list, list));
    }
}

#[test]
fn a_head_line_may_say_65536() {
    let rules = list_text(Kind::Rules, &policy()).unwrap();
    let tree = tree_text(3, &NODES.concat(), &POOL).unwrap();
    for (ports, reply) in [
        ("65535\t80", "hit\t3\t0\t1\t2\n"),
        ("65536\t80", "hit\t3\t0\t1\t2\n"),
        ("65537\t80", "refused\t3\t2\t0\n"),
        ("40000\t65535", "hit\t1\t2\n"),
        ("40000\t65536", "hit\t1\t2\n"),
        ("65536\t65536", "hit\t1\t2\n"),
        ("40000\t65537", "refused\t3\t3\t0\n"),
        ("40000\t0", "hit\t2\t1\t2\n"),
    ] {
        let line = format!("head\t10.1.2.3\t192.168.0.1\t{ports}\t6\n");
        let written = |tree| program(Found::Bytes(rules.as_bytes()), tree, line.as_bytes());
        assert_eq!(written(Found::Bytes(tree.as_bytes())), reply.as_bytes(), "{ports:?}");
        assert_eq!(written(Found::Missing), format!("refused\t12\t0\t0\n{reply}").as_bytes(), "{ports:?}");
    }
}

#[test]
fn boxes_run_to_the_absent_port() {
    let side = |low, high| Side { low, high };
    let everywhere = [side(0, 4_294_967_295), side(0, 4_294_967_295), side(0, 65_536), side(0, 65_536), side(0, 255)];
    assert_eq!(root_box(), everywhere);
    assert_eq!(box_of(&rule_of(&EVERYTHING)), everywhere);
    for field in PORTS {
        for (range, low, high) in [([1, 65_535], 1, 65_535), ([0, 65_534], 0, 65_534), ([65_535; 2], 65_535, 65_535)] {
            let mut sides = everywhere;
            sides[field] = side(low, high);
            assert_eq!(box_of(&rule_of(&with(field, range))), sides);
        }
    }
}
