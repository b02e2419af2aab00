//! The tree file: the worked policy's, and texts and trees that are refused.

mod texts;
mod worked;

use oracle::{tree_read, tree_write, Answer};
use texts::{changed, cut_everywhere, BYTE_AS_FOUND};
use worked::{AS_FOUND, NODES, POOL};

const TEXT: &str = "tree\t3\t5\t5
cut\t0\t0\t167772159\t2
leaf\t1\t1\t2
cut\t2\t0\t184549375\t4
leaf\t3\t3\t0\t1\t2
leaf\t4\t1\t2
end\t6
";

fn refused(number: u64, place: u64, extra: u64) -> Answer {
    Answer { number, place, extra, a: 0, b: 0, c: 0, d: 0 }
}

/// Reads the text into so many words of nodes and pool, which stay as found where it is refused.
fn read(text: &str, node_room: usize, pool_room: usize) -> Answer {
    let mut nodes = vec![AS_FOUND; node_room];
    let mut pool = vec![AS_FOUND; pool_room];
    let answer = tree_read(text.as_bytes(), &mut nodes, &mut pool);
    if answer.number != 0 {
        assert!(nodes.iter().chain(&pool).all(|&word| word == AS_FOUND));
    }
    answer
}

/// The text is refused so, with room and without.
fn expect_refused(text: &str, number: u64, place: u64) {
    for (node_room, pool_room) in [(0, 0), (15, 5), (15, 0), (99, 99)] {
        assert_eq!(read(text, node_room, pool_room), refused(number, place, 0), "{text:?}");
    }
}

/// The worked policy's text with this in place of that.
fn with(old: &str, new: &str) -> String {
    changed(TEXT, old, new)
}

/// A text of so many leaves, each of these entries.
fn leaves(rules: usize, nodes: usize, entries: &[u32]) -> String {
    let listed: String = entries.iter().map(|entry| format!("\t{entry}")).collect();
    let lines: String = (0..nodes).map(|node| format!("leaf\t{node}\t{}{listed}\n", entries.len())).collect();
    format!("tree\t{rules}\t{nodes}\t{}\n{lines}end\t{}\n", nodes * entries.len(), nodes + 1)
}

#[test]
fn the_tree_is_written_and_read_back() {
    for spare in [0, 1, 9] {
        let mut text = vec![BYTE_AS_FOUND; TEXT.len() + spare];
        assert_eq!(tree_write(3, &NODES.concat(), &POOL, &mut text), Answer::completed(TEXT.len() as u64, 0, 0));
        assert_eq!(&text[..TEXT.len()], TEXT.as_bytes());
        assert!(text[TEXT.len()..].iter().all(|&byte| byte == BYTE_AS_FOUND));

        let mut nodes = vec![AS_FOUND; 15 + spare];
        let mut pool = vec![AS_FOUND; 5 + spare];
        assert_eq!(tree_read(TEXT.as_bytes(), &mut nodes, &mut pool), Answer::completed(3, 5, 5));
        assert_eq!(&nodes[..15], NODES.concat());
        assert_eq!(&pool[..5], POOL);
        assert!(nodes[15..].iter().chain(&pool[5..]).all(|&word| word == AS_FOUND));
    }
}

#[test]
fn a_writer_refuses_with_1_5_spelt_then_4() {
    let write = |rules, nodes: &[u32], pool: &[u32], room| {
        let mut text = vec![BYTE_AS_FOUND; room];
        let answer = tree_write(rules, nodes, pool, &mut text);
        assert!(answer.number == 0 || text.iter().all(|&byte| byte == BYTE_AS_FOUND));
        answer
    };
    let nodes = NODES.concat();
    for room in [0, 1, TEXT.len() - 1] {
        assert_eq!(write(3, &nodes, &POOL, room), refused(4, TEXT.len() as u64, 0));
    }
    assert_eq!(write(2, &nodes, &POOL, 0), refused(7, 1, 0));
    assert_eq!(write(3, &nodes, &POOL[..4], 0), refused(7, 4, 0));
    assert_eq!(write(3, &nodes[..12], &POOL, 0), refused(6, 2, 0));
    assert_eq!(write(3, &[], &POOL, 0), refused(5, 0, 0));
    assert_eq!(write(3, &nodes, &[0; 4_097], 0), refused(5, 0, 0));
    assert_eq!(write(512, &nodes, &POOL, 200).number, 0);
    for rules in [513, 1 << 32, (1 << 32) + 3, u64::MAX] {
        assert_eq!(write(rules, &nodes, &POOL, 200), refused(1, 0, 0));
        assert_eq!(write(rules, &[], &POOL, 200), refused(1, 0, 0));
    }
    // Not well formed, yet spelt: a cut that is its own right child, with any value, and entries that fall.
    let text = "tree\t9\t2\t2\ncut\t0\t4\t4294967295\t0\nleaf\t1\t2\t8\t0\nend\t3\n";
    assert_eq!(write(9, &[4, u32::MAX, 0, 5, 0, 2], &[8, 0], 99), Answer::completed(text.len() as u64, 0, 0));
    assert_eq!(read(text, 6, 2), Answer::completed(9, 2, 2));
}

#[test]
fn room_that_is_short_is_4_for_the_nodes_and_then_the_pool() {
    for short in [0, 1, 14] {
        assert_eq!(read(TEXT, short, 5), refused(4, 15, 0));
        assert_eq!(read(TEXT, short, 0), refused(4, 15, 0));
    }
    for short in [0, 4] {
        assert_eq!(read(TEXT, 15, short), refused(4, 5, 1));
    }
    assert_eq!(read("tree\t0\t1\t0\nleaf\t0\t0\nend\t2\n", 3, 0), Answer::completed(0, 1, 0));
}

#[test]
fn a_text_that_is_cut_is_10_after_its_whole_lines() {
    for (cut, lines) in cut_everywhere(TEXT) {
        expect_refused(cut, 10, lines);
    }
    assert_eq!(read(&TEXT[..TEXT.len() - 1], 15, 5), refused(10, 6, 0));
}

#[test]
fn a_last_part_without_newline_is_not_read() {
    expect_refused("tree\t3\t0\t5", 10, 0);
    expect_refused(&TEXT.replace("end\t6\n", "leaf\t9"), 10, 6);
    expect_refused(&TEXT[..TEXT.len() - 1].replace("end\t6", "end\t7"), 10, 6);
    expect_refused(&TEXT[..TEXT.len() - 1].replace("cut\t2", "cut\t3"), 9, 4);
    expect_refused("\n", 9, 1);
    expect_refused("", 10, 0);
}

#[test]
fn nothing_follows_the_end_line() {
    for more in ["x", "\n", "\0", "end\t6\n", "end\t7\n", TEXT] {
        expect_refused(&format!("{TEXT}{more}"), 9, 8);
    }
}

#[test]
fn the_first_line_has_its_limits() {
    for (first, is_right) in [
        ("tree\t512\t5\t5", true),
        ("tree\t513\t5\t5", false),
        ("tree\t3\t0\t5", false),
        ("tree\t3\t2048\t5", false),
        ("tree\t3\t5\t4097", false),
        ("tree\t3\t5\t4294967301", false),
        ("tree\t3\t5", false),
        ("tree\t3\t5\t5\t", false),
        ("tree\t3\t5\t5\t5", false),
        ("tree\t3\t05\t5", false),
        ("rules\t3\t5\t5", false),
    ] {
        let text = with("tree\t3\t5\t5", first);
        if is_right {
            assert_eq!(read(&text, 15, 5).number, 0);
        } else {
            expect_refused(&text, 9, 1);
        }
    }
    // Counts within the limits show what is wrong with them further down.
    expect_refused(&with("tree\t3\t5\t5", "tree\t2\t5\t5"), 9, 3);
    expect_refused(&with("tree\t3\t5\t5", "tree\t3\t4\t5"), 9, 4);
    expect_refused(&with("tree\t3\t5\t5", "tree\t3\t6\t5"), 9, 7);
    expect_refused(&with("tree\t3\t5\t5", "tree\t3\t5\t4"), 9, 6);
    expect_refused(&with("tree\t3\t5\t5", "tree\t3\t5\t6"), 9, 7);
    expect_refused(&with("tree\t3\t5\t5", "tree\t3\t5\t0"), 9, 3);
}

#[test]
fn a_pool_that_falls_short_shows_at_the_end_line_only() {
    let text = with("tree\t3\t5\t5", "tree\t3\t5\t6");
    expect_refused(&text[..text.len() - 1], 10, 6);
    expect_refused(&text.replace("end\t6\n", ""), 10, 6);
    expect_refused(&text.replace("end\t6", "end\t7"), 9, 7);
}

#[test]
fn a_cut_has_a_field_any_value_and_a_right_child() {
    let cut = "cut\t0\t0\t167772159\t2";
    for right in ["cut\t0\t4\t167772159\t2", "cut\t0\t0\t4294967295\t4", "cut\t0\t0\t0\t0"] {
        assert_eq!(read(&with(cut, right), 15, 5), Answer::completed(3, 5, 5));
    }
    for wrong in [
        "cut\t0\t5\t167772159\t2",
        "cut\t0\t6\t167772159\t2",
        "cut\t0\t0\t4294967296\t2",
        "cut\t0\t0\t167772159\t5",
        "cut\t0\t0\t167772159\t4294967298",
        "cut\t1\t0\t167772159\t2",
        "cut\t0\t0\t167772159",
        "cut\t0\t0\t167772159\t2\t0",
        "cut\t0\t0\t0167772159\t2",
        "cut",
        "",
        "end\t1",
    ] {
        expect_refused(&with(cut, wrong), 9, 2);
    }
}

#[test]
fn a_leaf_has_exactly_its_entries() {
    let leaf = "leaf\t3\t3\t0\t1\t2";
    for right in ["leaf\t3\t3\t2\t1\t0", "leaf\t3\t3\t1\t1\t1"] {
        assert_eq!(read(&with(leaf, right), 15, 5), Answer::completed(3, 5, 5));
    }
    for wrong in [
        "leaf\t3\t3\t0\t1",
        "leaf\t3\t3\t0\t1\t2\t2",
        "leaf\t3\t3\t0\t1\t2\t",
        "leaf\t3\t3\t0\t1\t3",
        "leaf\t3\t3\t0\t1\t4294967296",
        "leaf\t3\t4\t0\t1\t2\t0",
        "leaf\t3\t03\t0\t1\t2",
        "leaf\t4\t3\t0\t1\t2",
        "leaf\t3",
        "leaf\t3\t0\t",
        "leaf\t3\t4294967295",
    ] {
        expect_refused(&with(leaf, wrong), 9, 5);
    }
    // One entry fewer, and the pool falls short; one more than the pool has left, and the leaf is wrong.
    expect_refused(&with(leaf, "leaf\t3\t2\t0\t1"), 9, 7);
    expect_refused(&with("leaf\t1\t1\t2", "leaf\t1\t2\t2\t1"), 9, 6);
}

#[test]
fn the_largest_files_are_read_and_one_more_is_refused() {
    assert_eq!(read(&leaves(512, 2_047, &[]), 6_141, 0), Answer::completed(512, 2_047, 0));
    expect_refused(&leaves(512, 2_048, &[]), 9, 1);
    let all: Vec<u32> = (0..512).collect();
    assert_eq!(read(&leaves(512, 8, &all), 24, 4_096), Answer::completed(512, 8, 4_096));
    expect_refused(&leaves(512, 9, &all), 9, 1);
    assert_eq!(read(&leaves(511, 8, &all), 24, 4_096), refused(9, 2, 0));
}
