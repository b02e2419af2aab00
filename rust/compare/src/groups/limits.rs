//! Limits: list sizes, prefix lengths, word counts and header lengths on both sides of what is allowed.

use oracle::rules::RULE_WORDS;
use oracle::Answer;

use crate::bench::{Bench, Run};
use crate::draws::Draws;
use crate::headers::{self, LARGEST, WORKED};
use crate::lists::{self, Manner, EVERYTHING, MANNERS, WORKED_POLICY};
use crate::texts;

const PURPOSE: &str = "limits";

pub fn run(bench: &mut Bench) -> Run {
    bench.group(PURPOSE, "lists of 0, 1, 511, 512, 513 and more rules", list_sizes)?;
    bench.group(PURPOSE, "prefix lengths 0 and 32 in both addresses", outer_lengths)?;
    bench.group(PURPOSE, "address zero at lengths 0 to 70 and far over, in lists and in files", zero_addresses)?;
    bench.group(PURPOSE, "rule words not a multiple of eleven", broken_rules)?;
    bench.group(PURPOSE, "rule words over 5,632", too_many_words)?;
    bench.group(PURPOSE, "header lengths 0 to 12", header_lengths)
}

fn list_sizes(bench: &mut Bench) -> Run {
    let mut seed = 210_000;
    for size in [0, 1, 2, 510, 511, 512, 513, 514, 768, 1_000, 1_024, 1_100] {
        for manner in MANNERS {
            let mut draws = Draws::seeded(seed);
            let list = lists::good_list(&mut draws, size, manner);
            let words = list.words();
            for _ in 0..40 {
                let header = draws.pick(&list.points);
                let header = headers::with(header, draws.below(2), draws.word());
                let case = format!("seed {seed}, {manner:?} list of {size}");
                let answer = bench.all_calls(&case, &words, &header)?;
                expect_number(answer, if size <= 512 { 0 } else { 1 });
            }
            seed += 1;
        }
    }
    // Where every rule matches, every number is written, up to 511.
    for size in [0, 1, 511, 512, 513] {
        let words = lists::wide_rules(size).concat();
        let answer = bench.all_calls(&format!("{size} wide rules"), &words, &WORKED)?;
        assert_eq!(answer.a as usize, if size <= 512 { size } else { 0 }, "the oracle: {size} wide rules");
    }
    Ok(())
}

fn outer_lengths(bench: &mut Bench) -> Run {
    let mut draws = Draws::seeded(200_001);
    let addresses = [0, 1, 1 << 31, u32::MAX, u32::MAX - 1, WORKED[0]];
    for source in addresses {
        for destination in addresses {
            for (source_length, destination_length) in [(0, 0), (0, 32), (32, 0), (32, 32)] {
                let mut rule = EVERYTHING;
                rule[..2].copy_from_slice(&lists::prefix(source, source_length));
                rule[2..4].copy_from_slice(&lists::prefix(destination, destination_length));
                let case = format!("{source:#x}/{source_length} to {destination:#x}/{destination_length}");
                for other_source in addresses {
                    for other_destination in addresses {
                        let mut header = headers::anywhere(&mut draws);
                        header[..2].copy_from_slice(&[other_source, other_destination]);
                        let answer = bench.all_calls(&case, &rule, &header)?;
                        let matches = (source_length == 0 || source == other_source)
                            && (destination_length == 0 || destination == other_destination);
                        assert_eq!(answer.a == 1, matches);
                    }
                }
            }
        }
    }
    Ok(())
}

/// An address of zero has no bit set past any length, so it is good up to 32, in one address or in both.
fn zero_addresses(bench: &mut Bench) -> Run {
    let far_over = [255, 256, 1 << 16, 1 << 31, u32::MAX - 31, u32::MAX];
    for lengths in [[1, 0], [0, 1], [1, 1]] {
        for length in (0..=70).chain(far_over) {
            let mut rule = EVERYTHING;
            [rule[1], rule[3]] = lengths.map(|is_tried| is_tried * length);
            let rules = [WORKED_POLICY[0], rule];
            let case = format!("address zero, lengths {} and {}", rule[1], rule[3]);
            let [in_list, in_file] = if length <= 32 { [0, 0] } else { [2, 9] };
            expect_number(bench.all_calls(&case, &rules.concat(), &[0; 5])?, in_list);
            expect_number(bench.read_in_rooms(&case, &texts::rules_file(2, &rules))?, in_file);
        }
    }
    Ok(())
}

/// Every remainder, in lists of some sizes: words are taken from the end of a good list.
fn broken_rules(bench: &mut Bench) -> Run {
    let mut draws = Draws::seeded(200_002);
    for size in [1, 2, 3, 50, 256, 511, 512] {
        let words = lists::good_list(&mut draws, size, Manner::Nested).words();
        for missing in 1..RULE_WORDS {
            let case = format!("seed 200002, list of {size} without its last {missing} words");
            let answer = bench.all_calls(&case, &words[..words.len() - missing], &WORKED)?;
            expect_number(answer, 1);
        }
    }
    Ok(())
}

/// Over the limit by each count up to 22 words, multiples of eleven among them.
fn too_many_words(bench: &mut Bench) -> Run {
    let mut draws = Draws::seeded(200_003);
    for manner in MANNERS {
        let words = lists::good_list(&mut draws, 514, manner).words();
        let most = bench.all_calls("seed 200003, 5,632 words", &words[..5_632], &WORKED)?;
        expect_number(most, 0);
        for over in 1..=22 {
            let case = format!("seed 200003, {over} words over 5,632");
            let answer = bench.all_calls(&case, &words[..5_632 + over], &WORKED)?;
            expect_number(answer, 1);
        }
    }
    for words in [6_006, 8_184, 8_192, 8_195, 10_010, 11_264] {
        let list = EVERYTHING.repeat(words / RULE_WORDS + 1);
        let answer = bench.all_calls(&format!("{words} words of everything"), &list[..words], &WORKED)?;
        expect_number(answer, 1);
    }
    Ok(())
}

/// Any length but five is refused before a field is looked at, so the words may be good or not.
fn header_lengths(bench: &mut Bench) -> Run {
    let mut draws = Draws::seeded(200_005);
    let worked = WORKED_POLICY.concat();
    let drawn = lists::good_list(&mut draws, 40, Manner::Nested).words();
    for list in [&[], worked.as_slice(), drawn.as_slice()] {
        for length in 0..=12 {
            let zeros = vec![0; length];
            let repeated: Vec<u32> = WORKED.into_iter().cycle().take(length).collect();
            let largest: Vec<u32> = LARGEST.into_iter().cycle().take(length).collect();
            let random: Vec<u32> = (0..length).map(|_| draws.word()).collect();
            let full = vec![u32::MAX; length];
            for header in [&zeros, &repeated, &largest, &random, &full] {
                for room in [0, 1, 3, 60] {
                    let case = format!("seed 200005, header of {length} words");
                    let all = bench.line_all(&case, list, header, room)?;
                    let first = bench.line_first(&case, list, header)?;
                    if length != 5 {
                        assert_eq!((all.number, all.place), (3, 5));
                        assert_eq!((first.number, first.place), (3, 5));
                    }
                }
            }
        }
    }
    Ok(())
}

fn expect_number(answer: Answer, number: u64) {
    assert_eq!(answer.number, number, "the oracle refuses as the group means it to");
}
