//! Damage drawn at random: flipped bits of good inputs, words near the limits, and words of no meaning.

use oracle::rules::RULE_WORDS;

use crate::bench::{Bench, Run};
use crate::draws::Draws;
use crate::headers;
use crate::lists::{self, MANNERS};

const PURPOSE: &str = "damage";

/// Words at which a test turns over.
const TURNING_WORDS: [u32; 23] = [
    0, 1, 2, 7, 8, 31, 32, 33, 64, 127, 254, 255, 256, 257, 65_534, 65_535, 65_536, 65_537, 0x7FFF_FFFF, 0x8000_0000,
    0x8000_0001, 0xFFFF_0000, 0xFFFF_FFFF,
];

pub fn run(bench: &mut Bench) -> Run {
    bench.group(PURPOSE, "drawn bits flipped in good lists", flipped_rules)?;
    bench.group(PURPOSE, "drawn bits flipped in good headers", flipped_headers)?;
    bench.group(PURPOSE, "rules of words near the limits", turning_rules)?;
    bench.group(PURPOSE, "wholly drawn words", drawn_words)
}

/// One to three bits of the rule words are flipped. Some flips leave the list good.
fn flipped_rules(bench: &mut Bench) -> Run {
    for seed in 410_000..420_000 {
        let mut draws = Draws::seeded(seed);
        let size = 1 + draws.below(24);
        let manner = draws.pick(&MANNERS);
        let list = lists::good_list(&mut draws, size, manner);
        let mut words = list.words();
        for _ in 0..=draws.below(3) {
            let word = draws.below(words.len());
            words[word] ^= flip(&mut draws);
        }
        let header = draws.pick(&list.points);
        let case = format!("seed {seed}, flipped rules");
        bench.all_calls(&case, &words, &header)?;
        bench.line_all(&case, &words, &header, draws.below(size + 1))?;
    }
    Ok(())
}

fn flipped_headers(bench: &mut Bench) -> Run {
    for seed in 420_000..425_000 {
        let mut draws = Draws::seeded(seed);
        let size = draws.below(24);
        let manner = draws.pick(&MANNERS);
        let list = lists::good_list(&mut draws, size, manner);
        let mut header = draws.pick(&list.points);
        for _ in 0..=draws.below(3) {
            header[draws.below(5)] ^= flip(&mut draws);
        }
        let case = format!("seed {seed}, flipped header");
        bench.all_calls(&case, &list.words(), &header)?;
        bench.line_all(&case, &list.words(), &header, draws.below(size + 1))?;
    }
    Ok(())
}

/// A word with one bit; low bits are as likely as all others together, since small numbers have their limits there.
fn flip(draws: &mut Draws) -> u32 {
    let places = draws.pick(&[6, 32]);
    2_u32.pow(draws.below(places) as u32)
}

/// Good rules in which some words are put in from the limits, and headers of such words.
fn turning_rules(bench: &mut Bench) -> Run {
    for seed in 430_000..445_000 {
        let mut draws = Draws::seeded(seed);
        let size = draws.below(5);
        let manner = draws.pick(&MANNERS);
        let mut words = lists::good_list(&mut draws, size, manner).words();
        let rarity = draws.pick(&[1, 2, 10, 30]);
        turn_words(&mut words, rarity, &mut draws);
        let mut header = headers::anywhere(&mut draws);
        turn_words(&mut header, 3, &mut draws);
        let case = format!("seed {seed}, words near the limits");
        bench.all_calls(&case, &words, &header)?;
        bench.line_all(&case, &words, &header, draws.below(size + 1))?;
    }
    Ok(())
}

/// Puts a word from the limits in place of one in so many.
pub fn turn_words(words: &mut [u32], rarity: usize, draws: &mut Draws) {
    for word in words {
        if draws.once_in(rarity) {
            *word = draws.pick(&TURNING_WORDS);
        }
    }
}

/// Words and lengths without any rule; now and then the length is right.
fn drawn_words(bench: &mut Bench) -> Run {
    for seed in 450_000..460_000 {
        let mut draws = Draws::seeded(seed);
        let length = match draws.below(4) {
            0 => RULE_WORDS * draws.below(8),
            1 => draws.below(5_800),
            _ => draws.below(80),
        };
        let words: Vec<u32> = (0..length).map(|_| any_word(&mut draws)).collect();
        let header_length = if draws.once_in(4) { draws.below(13) } else { 5 };
        let header: Vec<u32> = (0..header_length).map(|_| any_word(&mut draws)).collect();
        let case = format!("seed {seed}, drawn words");
        bench.all_calls(&case, &words, &header)?;
        bench.line_all(&case, &words, &header, draws.below(5))?;
    }
    Ok(())
}

/// A word of any size: few, some or all of its bits are drawn.
fn any_word(draws: &mut Draws) -> u32 {
    let width = draws.pick(&[0, 4, 8, 16, 24]);
    draws.word() >> width
}
