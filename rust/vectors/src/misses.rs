//! Why a rule missed: of the worked policy, of one rule that is narrow in every field, and where the call is refused.

use crate::say::{self, address, from_prefix};
use crate::worked::{header, rules};

pub fn worked_list() {
    for (example, head, number) in [
        ("rule 0, all fields agree", header("10.1.2.3", 80, 6), 0),
        ("rule 0, another source", header("11.0.0.0", 80, 6), 0),
        ("rule 1, another source", header("10.2.0.1", 80, 6), 1),
        ("rule 0, another port", header("10.1.2.3", 443, 6), 0),
        ("rule 0, another protocol", header("10.1.2.3", 80, 17), 0),
        ("rule 0, another port and protocol", header("10.1.2.3", 443, 17), 0),
        ("rule 0, no port", header("10.1.2.3", 65_536, 6), 0),
        ("rule 2, no port", header("10.1.2.3", 65_536, 6), 2),
    ] {
        say::rule_misses(example, &rules(), &head, number);
    }
}

/// Rule 0 of the worked policy, to 192.168.0.0/16 and from source port 40,000 alone.
fn narrow() -> [u32; 11] {
    let mut rule = from_prefix(address("10.0.0.0"), 8);
    (rule[2], rule[3]) = (address("192.168.0.0"), 16);
    rule[4..10].copy_from_slice(&[40_000, 40_000, 80, 80, 6, 6]);
    rule
}

pub fn narrow_rule() {
    let (source, destination) = (address("10.1.2.3"), address("192.168.0.1"));
    let (other_source, other_destination) = (address("11.0.0.0"), address("192.169.0.0"));
    for (example, head) in [
        ("a narrow rule, all fields agree", [source, destination, 40_000, 80, 6]),
        ("a narrow rule, another destination", [source, other_destination, 40_000, 80, 6]),
        ("a narrow rule, another source port", [source, destination, 40_001, 80, 6]),
        ("a narrow rule, all but the source disagree", [source, other_destination, 40_001, 81, 7]),
        ("a narrow rule, all fields disagree", [other_source, other_destination, 40_001, 81, 7]),
    ] {
        say::rule_misses(example, &narrow(), &head, 0);
    }
}

pub fn refused() {
    let head = header("10.1.2.3", 80, 6);
    let too_large = header("10.1.2.3", 80, 256);
    say::rule_misses("no rule 3", &rules(), &head, 3);
    say::rule_misses("no rule 18446744073709551615", &rules(), &head, u64::MAX);
    say::rule_misses("no rule 0 among no rules", &[], &head, 0);
    say::rule_misses("no rule 3, a header of four words", &rules(), &head[..4], 3);
    say::rule_misses("no rule 3, protocol 256", &rules(), &too_large, 3);
    say::rule_misses("no rule 3, 32 words of rules", &rules()[..32], &too_large, 3);
    say::rule_misses("no rule 3, twins", &[narrow(), narrow()].concat(), &too_large, 3);
}
