//! Times the writers and the readers of the files, at the largest sizes.

use std::hint::black_box;

use wickorchard::calls::{self, acl_write, rules_read, rules_write, tree_read, tree_write, ListRead, TreeCounts};
use wickorchard::limits::{ACTION, RULE_WORDS};
use wickorchard::Kind;

use crate::{timed, Tree};

const CALLS: usize = 100;

fn say(what: &str, bytes: usize, mut call: impl FnMut()) {
    let time = timed(CALLS, || (0..CALLS).for_each(|_| call()));
    println!("{what} {bytes} bytes {time:?}");
}

/// Writes the largest list and the largest tree, reads them back, compares the words, and times the calls. The list is
/// written without actions, and with an action of each rule.
pub fn time(tree: &Tree) {
    let mut text = vec![0_u8; 1 << 20];
    let mut acting = tree.rules.clone();
    acting.chunks_exact_mut(RULE_WORDS).for_each(|rule| rule[ACTION] = 255);
    for (kind, list) in [(Kind::Rules, &tree.rules), (Kind::Acl, &acting)] {
        let write = if kind == Kind::Acl { acl_write } else { rules_write };
        let bytes = write(list, &mut text).expect("the list is good").len();
        let mut rules = vec![0; list.len()];
        assert_eq!(rules_read(&text[..bytes], &mut rules), Ok(ListRead { rules: 512, kind }));
        assert_eq!(&rules, list);
        let name = if kind == Kind::Acl { "rules and actions," } else { "rules," };
        say(&format!("writing the {name}"), bytes, || {
            let _ = black_box(write(black_box(list), &mut text));
        });
        say(&format!("reading the {name}"), bytes, || {
            let _ = black_box(rules_read(black_box(&text[..bytes]), &mut rules));
        });
    }

    let words = calls::Tree { nodes: &tree.nodes, pool: &tree.pool };
    let bytes = tree_write(512, words, &mut text).expect("the tree is spelt").len();
    let (mut nodes, mut pool) = (vec![0; tree.nodes.len()], vec![0; tree.pool.len()]);
    let counts = TreeCounts { rules: 512, nodes: 2_047, pool: 4_096 };
    assert_eq!(tree_read(&text[..bytes], &mut nodes, &mut pool), Ok(counts));
    assert_eq!((&nodes, &pool), (&tree.nodes, &tree.pool));
    say("writing the tree, ", bytes, || {
        let _ = black_box(tree_write(512, black_box(words), &mut text));
    });
    say("reading the tree, ", bytes, || {
        let _ = black_box(tree_read(black_box(&text[..bytes]), &mut nodes, &mut pool));
    });
}
