//! Limits of the room that is lent to all-match: too short, exact and ample.

use oracle::rules::RULE_WORDS;

use crate::bench::{Bench, Run};
use crate::draws::Draws;
use crate::headers::{self, WORKED};
use crate::lists::{self, Manner, MANNERS, WORKED_POLICY};

const PURPOSE: &str = "limits";

pub fn run(bench: &mut Bench) -> Run {
    bench.group(PURPOSE, "every room from none to two more than the matches", every_list)?;
    bench.group(PURPOSE, "no match, with no room and with some", no_match)
}

fn every_list(bench: &mut Bench) -> Run {
    every_room(bench, "worked policy", &WORKED_POLICY.concat(), &WORKED)?;
    for size in [1, 2, 17, 511, 512] {
        every_room(bench, &format!("{size} wide rules"), &lists::wide_rules(size).concat(), &WORKED)?;
    }
    let mut seed = 220_000;
    for size in [1, 2, 3, 5, 8, 13, 20, 34, 55, 80, 130, 200] {
        for manner in MANNERS {
            let mut draws = Draws::seeded(seed);
            let list = lists::good_list(&mut draws, size, manner);
            let case = format!("seed {seed}, {manner:?} list of {size}");
            for point in &list.points {
                every_room(bench, &case, &list.words(), point)?;
            }
            for rule in [0, size / 2, size - 1] {
                let header = headers::inside(&list.rules[rule], &mut draws);
                every_room(bench, &case, &list.words(), &header)?;
            }
            seed += 1;
        }
    }
    Ok(())
}

/// Too short a room names the whole number of matches, however short it is.
fn every_room(bench: &mut Bench, case: &str, words: &[u32], header: &[u32]) -> Run {
    let count = bench.line_all(case, words, header, words.len() / RULE_WORDS)?.a;
    for room in 0..=count + 2 {
        let answer = bench.line_all(case, words, header, room as usize)?;
        if room < count {
            assert_eq!((answer.number, answer.place), (4, count));
        } else {
            assert_eq!((answer.number, answer.a), (0, count));
        }
    }
    // Room far over what any list can need is left as found.
    for room in [513, 600, 1_024] {
        bench.line_all(case, words, header, room)?;
    }
    Ok(())
}

fn no_match(bench: &mut Bench) -> Run {
    let mut draws = Draws::seeded(200_004);
    for size in [0, 1, 2, 30, 512] {
        let mut list = lists::good_list(&mut draws, size, Manner::Mixed);
        // No rule holds protocol 0.
        for rule in &mut list.rules {
            rule[8] = rule[8].max(1);
            rule[9] = rule[9].max(1);
        }
        for room in 0..20 {
            let header = headers::with(headers::anywhere(&mut draws), 4, 0);
            let case = format!("seed 200004, list of {size} without protocol 0");
            let answer = bench.line_all(&case, &list.words(), &header, room)?;
            assert_eq!((answer.number, answer.a), (0, 0));
            let answer = bench.line_first(&case, &list.words(), &header)?;
            assert_eq!((answer.number, answer.a), (0, 0));
        }
    }
    Ok(())
}
