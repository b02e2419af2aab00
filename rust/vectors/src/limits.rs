//! The limits, on both sides: length 32 and 0, the largest and the absent port, 512 and 513 rules, 63 and 64 cuts.

use crate::say::{self, address, from_prefix, Tree};

fn from(source: u32) -> [u32; 5] {
    [source, address("192.168.0.1"), 40_000, 80, 6]
}

pub fn lengths() {
    let one = address("10.1.2.3");
    let list = from_prefix(one, 32);
    say::rule_check("length 32", &list);
    say::search_list("length 32, that address", &list, &from(one));
    say::search_list("length 32, the address below", &list, &from(one - 1));
    say::search_list("length 32, the address above", &list, &from(one + 1));
    let mut tree = Tree { nodes: vec![[0, one - 1, 2], [5, 0, 0], [0, one, 4], [5, 0, 1], [5, 1, 0]], pool: vec![0] };
    say::tree_check("length 32, a leaf of one address", &list, &tree);
    (tree.nodes[3][2], tree.nodes[4][1]) = (0, 0);
    tree.pool.clear();
    say::tree_check("length 32, lacking in that leaf", &list, &tree);

    let everything = from_prefix(0, 0);
    say::rule_check("length 0", &everything);
    say::search_list("length 0, the lowest address", &everything, &from(0));
    say::search_list("length 0, the highest address", &everything, &from(u32::MAX));
    say::rule_check("length 0, a stray bit", &from_prefix(1 << 31, 0));
    let mut to_one = everything;
    (to_one[2], to_one[3]) = (u32::MAX, 32);
    say::rule_check("length 0 to one address", &to_one);

    say::rule_check("length 33", &from_prefix(0, 33));
    say::scan_list("length 33", &from_prefix(0, 33), &from(0));
    say::rule_check("length 31, the last bit set", &from_prefix(1, 31));
    say::rule_check("length 32, the last bit set", &from_prefix(1, 32));
}

/// Two rules of destination ports, all but port 0 and then all; and one whose ports end past the largest.
pub fn ports() {
    let all = from_prefix(0, 0);
    let mut but_0 = all;
    but_0[6] = 1;
    let list = [but_0, all].concat();
    say::search_list("port 65535", &list, &[0, 0, 0, 65_535, 6]);
    say::search_list("no port", &list, &[0, 0, 0, 65_536, 6]);
    let mut tree = Tree { nodes: vec![[3, 65_535, 2], [5, 0, 2], [5, 2, 1]], pool: vec![0, 1, 1] };
    say::tree_check("a cut at 65535", &list, &tree);
    let lacking = Tree { nodes: vec![[3, 65_535, 2], [5, 0, 2], [5, 2, 0]], pool: vec![0, 1] };
    say::tree_check("a cut at 65535, lacking right of it", &list, &lacking);
    tree.nodes[0][1] = 65_536;
    say::tree_check("a cut at 65536", &list, &tree);
    let mut past = all;
    (past[5], past[7]) = (65_536, 65_536);
    say::rule_check("ports to 65536", &past);
    say::scan_list("ports to 65536, no port", &past, &[0, 0, 65_536, 65_536, 6]);
}

/// So many rules: each has the source ports from 0 to its own number, and only the last holds a protocol but 0.
fn many(rules: usize) -> Vec<u32> {
    let mut list: Vec<u32> = (0..rules as u32).flat_map(|rule| [0, 0, 0, 0, 0, rule, 0, 0, 0, 0, 0]).collect();
    list[11 * rules - 2] = 255;
    list
}

pub fn rules() {
    let list = many(512);
    let header = [0, 0, 0, 0, 6];
    say::rule_check("512 rules", &list);
    say::search_list("512 rules", &list, &header);
    say::rule_check("512 rules but one word", &list[..5_631]);
    let mut last_bad = list;
    last_bad[5_629] = 256;
    say::rule_check("512 rules, the last not good", &last_bad);
    say::scan_list("512 rules, the last not good", &last_bad, &[0; 5]);
    say::rules_read("a file of 512 rules, cut after its first line", b"rules\t512\n", 5_632);

    let more = many(513);
    say::rule_check("513 rules", &more);
    say::search_list("513 rules", &more, &header);
    say::scan_list("513 rules", &more, &header);
    say::scan_list("513 rules but one word", &more[..5_642], &header);
    say::tree_check("513 rules", &more, &Tree { nodes: vec![[5, 0, 0]], pool: vec![] });
    say::rules_read("a file of 513 rules, cut after its first line", b"rules\t513\n", 5_643);
}

/// So many cuts, each the right child of the one above, with an empty leaf on its left; then the last leaf.
fn chain(cuts: u32) -> Tree {
    let mut nodes: Vec<[u32; 3]> = (0..cuts).flat_map(|cut| [[0, cut, 2 * cut + 2], [5, 0, 0]]).collect();
    nodes.push([5, 0, 0]);
    Tree { nodes, pool: vec![] }
}

pub fn cuts() {
    for cuts in [63, 64] {
        let example = format!("{cuts} cuts");
        say::tree_check(&example, &[], &chain(cuts));
        say::search_tree(&example, &[], &chain(cuts), &[u32::MAX, 0, 0, 0, 0]);
    }
}
