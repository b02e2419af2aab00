//! Packets without ports, by a policy's list and by its compiled tree.

use wickorchard::calls;
use wickorchard::limits::{ABSENT_PORT, LARGEST_PORT, MOST_RULES};
use wickorchard::{Header, Match, Policy, Refusal};

/// Nine rules for the destination ports from 0, 1, .. 8 on. Only the first is for all ports, and so for packets without
/// one.
fn nine_rules() -> Vec<u32> {
    (0..9).flat_map(|low| [0, 0, 0, 0, 0, LARGEST_PORT, low, LARGEST_PORT, 0, 255, low]).collect()
}

fn header(source_port: Option<u16>, destination_port: Option<u16>) -> Header {
    let [source, destination] = [[10, 1, 2, 3].into(), [192, 168, 0, 1].into()];
    Header { source, destination, source_port, destination_port, protocol: 17 }
}

#[test]
fn a_packet_without_ports_is_matched_by_rules_for_all_ports() {
    let mut text = [0; 600];
    let file = calls::acl_write(&nine_rules(), &mut text).expect("the list is good");
    let list = Policy::read(file).expect("the list is good");
    let mut compiled = list.clone();
    assert_eq!(compiled.compile(), Ok(()));
    for (header, count) in [
        (header(Some(53), Some(0)), 1),
        (header(Some(53), Some(4)), 5),
        (header(None, Some(65_535)), 9),
        (header(Some(53), None), 1),
        (header(None, None), 1),
    ] {
        let numbers: Vec<u32> = (0..count).collect();
        for policy in [&list, &compiled] {
            assert_eq!(policy.all(&header, &mut [7; MOST_RULES]), numbers, "{header:?}");
            assert_eq!(policy.first(&header), Some(Match { rule: 0, action: 0 }), "{header:?}");
        }
    }
}

#[test]
fn rules_for_some_ports_match_no_packet_without_them() {
    let rules = &nine_rules()[11..];
    for ports in [[ABSENT_PORT, 80], [80, ABSENT_PORT], [ABSENT_PORT; 2]] {
        let found = calls::scan_first(rules, &[0, 0, ports[0], ports[1], 6]);
        let wanted = (ports[1] == 80).then_some(Match { rule: 0, action: 1 });
        assert_eq!(found, Ok(wanted), "{ports:?}");
    }
}

#[test]
fn the_ends_of_a_rule_are_ports() {
    for word in 4..8 {
        let mut rules = nine_rules();
        rules[word] = ABSENT_PORT;
        assert_eq!(calls::rule_check(&rules), Err(Refusal::RuleNotGood { rule: 0 }), "word {word}");
    }
}
