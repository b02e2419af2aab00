//! The part file: the tree file with another first word, which each of the two readers takes for its own only.

mod texts;
mod worked;

use oracle::{part_read, part_write, tree_read, tree_write, Answer};
use texts::{changed, cut_everywhere, BYTE_AS_FOUND};
use worked::AS_FOUND;

/// The worked policy's tree, stopped after its third node.
const NODES: [u32; 9] = [0, 167_772_159, 2, 5, 0, 1, 0, 184_549_375, 0];
const POOL: [u32; 1] = [2];
const TEXT: &str = "part\t3\t3\t1
cut\t0\t0\t167772159\t2
leaf\t1\t1\t2
cut\t2\t0\t184549375\t0
end\t4
";

fn refused(number: u64, place: u64, extra: u64) -> Answer {
    Answer { number, place, extra, a: 0, b: 0, c: 0, d: 0 }
}

/// Reads the part into so many words of nodes and pool, which stay as found where it is refused.
fn read(text: &str, node_room: usize, pool_room: usize) -> Answer {
    let mut nodes = vec![AS_FOUND; node_room];
    let mut pool = vec![AS_FOUND; pool_room];
    let answer = part_read(text.as_bytes(), &mut nodes, &mut pool);
    assert!(answer.number == 0 || nodes.iter().chain(&pool).all(|&word| word == AS_FOUND));
    answer
}

#[test]
fn a_part_is_written_and_read_back() {
    for spare in [0, 1, 9] {
        let mut text = vec![BYTE_AS_FOUND; TEXT.len() + spare];
        assert_eq!(part_write(3, &NODES, &POOL, &mut text), Answer::completed(TEXT.len() as u64, 0, 0));
        assert_eq!(&text[..TEXT.len()], TEXT.as_bytes());
        assert!(text[TEXT.len()..].iter().all(|&byte| byte == BYTE_AS_FOUND));
        let [mut nodes, mut pool] = [9, 1].map(|words| vec![AS_FOUND; words + spare]);
        assert_eq!(part_read(TEXT.as_bytes(), &mut nodes, &mut pool), Answer::completed(3, 3, 1));
        assert_eq!((&nodes[..9], &pool[..1]), (&NODES[..], &POOL[..]));
        assert!(nodes[9..].iter().chain(&pool[1..]).all(|&word| word == AS_FOUND));
    }
}

#[test]
fn each_reader_takes_its_own_file_only() {
    let tree = changed(TEXT, "part", "tree");
    for rooms in [[0, 0], [9, 1], [99, 99]] {
        let [mut nodes, mut pool] = rooms.map(|room| vec![AS_FOUND; room]);
        assert_eq!(tree_read(TEXT.as_bytes(), &mut nodes, &mut pool), refused(9, 1, 0));
        assert_eq!(read(&tree, rooms[0], rooms[1]), refused(9, 1, 0));
        for first in ["Part", "par", "parts", "part ", "", "rules", "tree\tpart"] {
            assert_eq!(read(&changed(TEXT, "part", first), rooms[0], rooms[1]), refused(9, 1, 0));
        }
    }
    // What is open in it is no fault of the text.
    assert_eq!(tree_read(tree.as_bytes(), &mut [0; 9], &mut [0; 1]), Answer::completed(3, 3, 1));
}

#[test]
fn a_part_that_is_cut_is_10_after_its_whole_lines() {
    for (cut, lines) in cut_everywhere(TEXT) {
        for (node_room, pool_room) in [(0, 0), (99, 99)] {
            assert_eq!(read(cut, node_room, pool_room), refused(10, lines, 0));
        }
    }
}

#[test]
fn lines_and_rooms_are_judged_as_a_tree_files() {
    assert_eq!(read(&changed(TEXT, "184549375\t0", "184549375\t3"), 9, 1), refused(9, 4, 0));
    assert_eq!(read(&changed(TEXT, "part\t3\t3\t1", "part\t2\t3\t1"), 9, 1), refused(9, 3, 0));
    assert_eq!(read(&changed(TEXT, "part\t3\t3\t1", "part\t3\t2048\t1"), 9, 1), refused(9, 1, 0));
    assert_eq!(read(&changed(TEXT, "part\t3\t3\t1", "part\t3\t3\t2"), 9, 1), refused(9, 5, 0));
    assert_eq!(read(&format!("{TEXT}\n"), 9, 1), refused(9, 6, 0));
    assert_eq!(read(TEXT, 8, 0), refused(4, 9, 0));
    assert_eq!(read(TEXT, 9, 0), refused(4, 1, 1));
}

#[test]
fn the_writer_refuses_as_the_tree_writer_does() {
    let over = [&[5, 0, 0].repeat(2_048)[..], &NODES].concat();
    for (rules, nodes, pool) in [
        (3, &NODES[..], &POOL[..]),
        (513, &NODES, &POOL),
        (u64::MAX, &[], &POOL),
        (3, &[], &POOL),
        (3, &over, &POOL),
        (3, &NODES, &[0; 4_097]),
        (2, &NODES, &POOL),
        (3, &NODES[..6], &POOL),
        (3, &NODES, &[]),
        (3, &NODES, &[2, 2]),
    ] {
        for room in [0, TEXT.len() - 1, TEXT.len(), 99] {
            let [mut part, mut tree] = [vec![BYTE_AS_FOUND; room], vec![BYTE_AS_FOUND; room]];
            let answer = part_write(rules, nodes, pool, &mut part);
            assert_eq!(answer, tree_write(rules, nodes, pool, &mut tree));
            if answer.number == 0 {
                tree[..4].copy_from_slice(b"part");
            }
            assert_eq!(part, tree);
        }
    }
}
