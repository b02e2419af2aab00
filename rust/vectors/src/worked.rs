//! The scope's worked policy: its headers, its tree and its files.

use crate::say::{self, address, from_prefix, Tree};

/// The list's file and the tree's, as the scope gives them.
const RULES_FILE: &str = "\
rules\t3
rule\t0\t10.0.0.0/8\t0.0.0.0/0\t0\t65535\t80\t80\t6\t6
rule\t1\t10.1.0.0/16\t0.0.0.0/0\t0\t65535\t0\t1023\t6\t6
rule\t2\t0.0.0.0/0\t0.0.0.0/0\t0\t65535\t0\t65535\t0\t255
end\t4
";
const TREE_FILE: &str = "\
tree\t3\t5\t5
cut\t0\t0\t167772159\t2
leaf\t1\t1\t2
cut\t2\t0\t184549375\t4
leaf\t3\t3\t0\t1\t2
leaf\t4\t1\t2
end\t6
";

pub fn rules() -> Vec<u32> {
    let mut web = from_prefix(address("10.0.0.0"), 8);
    web[6..10].copy_from_slice(&[80, 80, 6, 6]);
    let mut low_ports = from_prefix(address("10.1.0.0"), 16);
    low_ports[6..10].copy_from_slice(&[0, 1_023, 6, 6]);
    [web, low_ports, from_prefix(0, 0)].concat()
}

pub fn tree() -> Tree {
    let below = address("10.0.0.0") - 1;
    let last = address("10.255.255.255");
    Tree { nodes: vec![[0, below, 2], [5, 0, 1], [0, last, 4], [5, 1, 3], [5, 4, 1]], pool: vec![2, 0, 1, 2, 2] }
}

pub fn header(source: &str, port: u32, protocol: u32) -> [u32; 5] {
    [address(source), address("192.168.0.1"), 40_000, port, protocol]
}

fn search(example: &str, header: &[u32]) {
    say::search_list(example, &rules(), header);
    say::search_tree(example, &rules(), &tree(), header);
}

pub fn searches() {
    for (source, port, protocol) in [
        ("10.1.2.3", 80, 6),
        ("10.2.0.1", 80, 6),
        ("10.1.2.3", 443, 6),
        ("10.1.2.3", 80, 17),
        ("9.255.255.255", 80, 6),
        ("10.255.255.255", 80, 6),
        ("11.0.0.0", 80, 6),
    ] {
        search(&format!("{source} port {port} protocol {protocol}"), &header(source, port, protocol));
    }
    let whole = header("10.1.2.3", 80, 6);
    let without_port = header("10.1.2.3", 65_536, 6);
    search("10.1.2.3 without a destination port", &without_port);
    let mut without_ports = without_port;
    without_ports[2] = 65_536;
    search("10.1.2.3 without ports", &without_ports);
    search("protocol 256", &header("10.1.2.3", 80, 256));
    search("port 65537", &header("10.1.2.3", 65_537, 6));
    search("a header of four words", &whole[..4]);
    search("a header of six words", &[&whole[..], &[0]].concat());
    say::line_all("room for 2 where 3 match", &rules(), &whole, 2);
    say::tree_all("room for 2 where 3 match", &rules(), &tree(), &whole, 2);
}

pub fn checks() {
    say::rule_check("the worked list", &rules());
    say::tree_check("the worked tree", &rules(), &tree());
    let mut lacking = tree();
    lacking.pool.remove(2);
    (lacking.nodes[3][2], lacking.nodes[4][1]) = (2, 3);
    say::tree_check("entry 1 taken from node 3", &rules(), &lacking);
    let mut empty = tree();
    empty.nodes[2][1] = 167_772_159;
    say::tree_check("node 2 cuts off nothing", &rules(), &empty);
    say::tree_check("no rules, one leaf of count 0", &[], &Tree { nodes: vec![[5, 0, 0]], pool: vec![] });
}

pub fn rule_file() {
    let room = RULES_FILE.len();
    let text = say::rules_write("the list's file", &rules(), room);
    print!("{RULES_FILE}");
    assert_eq!(text, RULES_FILE.as_bytes());
    let list = say::rules_read("the list's file", &text, 33);
    say::search_list("the list that was read", &list, &header("10.1.2.3", 80, 6));
    say::rules_write("the list's file, room for one byte less", &rules(), room - 1);
    say::rules_read("the list's file, room for one word less", &text, 32);
    say::rules_read("the list's file without the last newline", &text[..room - 1], 33);
    say::rules_read("no text", &[], 0);
}

pub fn tree_file() {
    let room = TREE_FILE.len();
    let text = say::tree_write("the tree's file", 3, &tree(), room);
    print!("{TREE_FILE}");
    assert_eq!(text, TREE_FILE.as_bytes());
    let (nodes, pool) = say::tree_read("the tree's file", &text, 15, 5);
    let nodes = nodes.chunks(3).map(|node| [node[0], node[1], node[2]]).collect();
    say::tree_check("the tree that was read", &rules(), &Tree { nodes, pool });
    say::tree_write("the tree's file, room for one byte less", 3, &tree(), room - 1);
    say::tree_read("the tree's file, room for one node word less", &text, 14, 5);
    say::tree_read("the tree's file, room for one pool word less", &text, 15, 4);
    say::tree_read("the tree's file without the last newline", &text[..room - 1], 15, 5);
}
