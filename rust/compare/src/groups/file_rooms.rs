//! Limits of the room that is lent to readers and writers: too short, exact and ample.

use crate::bench::{Agreed, Bench, Run};
use crate::draws::Draws;
use crate::lists::{self, Manner};
use crate::texts::{self, File, Text};
use crate::trees;

const PURPOSE: &str = "limits";

pub fn run(bench: &mut Bench) -> Run {
    bench.group(PURPOSE, "writers: every room from none to three bytes more than the text", writers)?;
    bench.group(PURPOSE, "readers: every room of rules, nodes and pool, too short and ample", readers)
}

/// Too short a room names the whole text's bytes, however short it is.
fn writers(bench: &mut Bench) -> Run {
    let mut policies = vec![("worked policy".to_string(), trees::worked().policy)];
    for seed in 1_110_000..1_110_016 {
        let mut draws = Draws::seeded(seed);
        let size = draws.below(4);
        let mut policy = trees::spelt(size, 1 + seed as usize % 6, &mut draws);
        policy.rules = lists::good_list(&mut draws, size, Manner::Mixed).words();
        policies.push((format!("seed {seed}, spelt tree for {size} rules"), policy));
    }
    for (case, policy) in &policies {
        let kind = texts::kind_of(&policy.rules);
        every_room(&Text::of_rules(&policy.rules), |room| bench.list_write(case, kind, &policy.rules, room))?;
        every_room(&Text::of_tree(policy), |room| bench.tree_write(case, policy.rule_count(), policy, room))?;
    }
    Ok(())
}

/// Writes the text with every room about its bytes.
fn every_room(text: &Text, mut write: impl FnMut(usize) -> Agreed) -> Run {
    let bytes = text.bytes.len();
    for room in (0..=bytes + 3).chain([bytes + 300]) {
        let answer = write(room)?;
        let wanted = if room < bytes { (4, bytes, 0) } else { (0, 0, bytes) };
        assert_eq!((answer.number, answer.place as usize, answer.a as usize), wanted, "the oracle: room for {room}");
    }
    Ok(())
}

/// Too short a room names the whole number of words: the nodes' where both are too short.
fn readers(bench: &mut Bench) -> Run {
    for (case, text) in texts::several(1_120_000, 60) {
        let [first, second] = text.needed;
        let seconds = if text.file == File::Tree { about(second) } else { vec![0] };
        for room in (0..=first + 3).chain([first + 100]) {
            for &pool_room in &seconds {
                let answer = bench.read(&case, &text, [room, pool_room])?;
                let wanted = match () {
                    _ if room < first => (4, first, 0),
                    _ if pool_room < second => (4, second, 1),
                    _ => (0, 0, 0),
                };
                let given = (answer.number, answer.place as usize, answer.extra);
                assert_eq!(given, wanted, "the oracle: {case}");
            }
        }
    }
    Ok(())
}

/// Rooms too short, exact and ample for this many words.
fn about(words: usize) -> Vec<usize> {
    let mut rooms = vec![0, words / 2, words.saturating_sub(1), words, words + 1, words + 50];
    rooms.dedup();
    rooms
}
