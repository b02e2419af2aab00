//! The worked policy with the actions 1, 255 and 2: what a first-match finds, and the file that has them.

use crate::say::{self, from_prefix, Tree};
use crate::worked::{header, rules, tree};

const ACL_FILE: &str = "\
acl\t3
rule\t0\t10.0.0.0/8\t0.0.0.0/0\t0\t65535\t80\t80\t6\t6\t1
rule\t1\t10.1.0.0/16\t0.0.0.0/0\t0\t65535\t0\t1023\t6\t6\t255
rule\t2\t0.0.0.0/0\t0.0.0.0/0\t0\t65535\t0\t65535\t0\t255\t2
end\t4
";

const MIXED: &str = "rules\t1\nrule\t0\t0.0.0.0/0\t0.0.0.0/0\t0\t65535\t0\t65535\t0\t255\t1\nend\t2\n";

fn with_actions() -> Vec<u32> {
    let mut list = rules();
    (list[10], list[21], list[32]) = (1, 255, 2);
    list
}

/// The rule that matches everything, with this action.
fn everything(action: u32) -> [u32; 11] {
    let mut rule = from_prefix(0, 0);
    rule[10] = action;
    rule
}

pub fn lists() {
    say::rule_check("actions", &with_actions());
    say::tree_check("actions", &with_actions(), &tree());
    for (example, head) in [
        ("actions, rule 0 first", header("10.1.2.3", 80, 6)),
        ("actions, rule 1 first", header("10.1.2.3", 443, 6)),
        ("actions, rule 2 first", header("11.0.0.0", 80, 6)),
    ] {
        say::search_list(example, &with_actions(), &head);
        say::scan_list(example, &with_actions(), &head);
        say::search_tree(example, &with_actions(), &tree(), &head);
    }
    let head = header("11.0.0.0", 80, 6);
    say::search_list("actions, no rule", &with_actions()[..22], &head);
    say::rule_check("action 255", &everything(255));
    say::rule_check("action 256", &everything(256));
    let one_leaf = Tree { nodes: vec![[5, 0, 1]], pool: vec![0] };
    say::scan_list("an action of 32 bits", &everything(u32::MAX), &head);
    say::search_tree("an action of 32 bits", &everything(u32::MAX), &one_leaf, &head);
    say::rule_check("twins but for the action", &[everything(1), everything(2)].concat());
}

pub fn rule_file() {
    let room = ACL_FILE.len();
    let text = say::acl_write("the file with actions", &with_actions(), room);
    print!("{ACL_FILE}");
    assert_eq!(text, ACL_FILE.as_bytes());
    let list = say::rules_read("the file with actions", &text, 33);
    say::search_list("the list with actions that was read", &list, &header("10.1.2.3", 80, 6));
    say::acl_write("the file with actions, room for one byte less", &with_actions(), room - 1);
    say::rules_read("the file with actions, room for one word less", &text, 32);
    say::rules_read("the file with actions, without the last newline", &text[..room - 1], 33);
    say::rules_write("actions in a file without them", &with_actions(), room);
    let over = ACL_FILE.replace("\t6\t6\t255", "\t6\t6\t256");
    say::rules_read("the file with actions, an action of 256", over.as_bytes(), 33);
    say::rules_read("an action in a file without them", MIXED.as_bytes(), 11);
    let text = say::acl_write("no rules, with actions", &[], 12);
    say::rules_read("no rules, with actions", &text, 0);
}
