//! Damage to texts: each kind, at every place of short files. Each damaged text is read with room and without.

use crate::bench::{Bench, Run};
use crate::damages::damaged_rules;
use crate::draws::Draws;
use crate::lists::{self, MANNERS};
use crate::text_damages::{self, DamagedText};
use crate::texts::{self, Text};
use crate::trees;

const PURPOSE: &str = "damage";

pub fn run(bench: &mut Bench) -> Run {
    bench.group(PURPOSE, "texts cut at each byte", cut_texts)?;
    bench.group(PURPOSE, "texts with each byte changed, removed, and others put before it", bytes)?;
    bench.group(PURPOSE, "texts with each number made another, or written otherwise", numbers)?;
    bench.group(PURPOSE, "texts with each word made another", words)?;
    bench.group(PURPOSE, "texts with lines dropped, doubled, swapped, joined, empty and ended early", lines)?;
    bench.group(PURPOSE, "texts with a last part that has no newline, right or wrong", last_parts)?;
    bench.group(PURPOSE, "texts with anything after the end line", afters)?;
    bench.group(PURPOSE, "texts stitched from two good files, at each line of both", stitched)?;
    bench.group(PURPOSE, "texts with every kind of rule that is not good", bad_rules)
}

/// A text that is cut is 10 with its whole lines.
fn cut_texts(bench: &mut Bench) -> Run {
    for (case, text) in texts::several(1_310_000, 60) {
        for length in 0..text.bytes.len() {
            let cut = text.with(text.bytes[..length].to_vec());
            let case = format!("{case}, cut to {length} bytes");
            expect(bench, &case, &cut, 10, cut.bytes.iter().filter(|&&byte| byte == b'\n').count())?;
        }
    }
    Ok(())
}

fn bytes(bench: &mut Bench) -> Run {
    each_text(bench, 1_320_000, 6, |text| {
        (0..text.bytes.len()).flat_map(|at| text_damages::byte_damages(text, at)).collect()
    })
}

fn numbers(bench: &mut Bench) -> Run {
    each_text(bench, 1_330_000, 14, |text| {
        let numbers = text_damages::numbers(text).into_iter();
        numbers.flat_map(|digits| text_damages::number_damages(text, digits)).collect()
    })
}

fn words(bench: &mut Bench) -> Run {
    each_text(bench, 1_340_000, 20, |text| {
        text_damages::words(text).into_iter().flat_map(|word| text_damages::word_damages(text, word)).collect()
    })
}

fn lines(bench: &mut Bench) -> Run {
    each_text(bench, 1_350_000, 60, |text| {
        (0..text.lines().len()).flat_map(|line| text_damages::line_damages(text, line)).collect()
    })
}

/// So many drawn short texts, and the worked policy's, each with every damage that is asked for.
fn each_text(bench: &mut Bench, first_seed: u64, drawn: u64, damages: impl Fn(&Text) -> Vec<DamagedText>) -> Run {
    for (case, text) in texts::several(first_seed, drawn) {
        for damaged in damages(&text) {
            bench.read_in_rooms(&format!("{case}, {}", damaged.kind), &damaged.text)?;
        }
    }
    Ok(())
}

/// The last part is not looked at, whatever it is.
fn last_parts(bench: &mut Bench) -> Run {
    for (case, text) in texts::several(1_360_000, 40) {
        for lines in 0..text.lines().len() {
            for damaged in text_damages::last_parts(&text, lines) {
                expect(bench, &format!("{case}, {}", damaged.kind), &damaged.text, 10, lines)?;
            }
        }
    }
    Ok(())
}

fn afters(bench: &mut Bench) -> Run {
    for (case, text) in texts::several(1_370_000, 60) {
        for damaged in text_damages::afters(&text) {
            let line = text.lines().len() + 1;
            expect(bench, &format!("{case}, {}", damaged.kind), &damaged.text, 9, line)?;
        }
    }
    Ok(())
}

/// Where both files have as many lines and are cut at the same one, they may read well.
fn stitched(bench: &mut Bench) -> Run {
    let mut read_well = 0;
    for seed in 1_380_000..1_380_080 {
        let mut draws = Draws::seeded(seed);
        let size = draws.below(4);
        let files = [(); 2].map(|()| match seed % 2 {
            0 => Text::of_rules(&lists::good_list(&mut draws, size, MANNERS[seed as usize % 4]).words()),
            _ => Text::of_tree(&trees::spelt(2, 1 + size, &mut draws)),
        });
        let [ours, theirs] = &files;
        for (end, start) in (0..=ours.lines().len()).flat_map(|end| (0..=end + 1).map(move |start| (end, start))) {
            let behind = theirs.lines().get(start..).map_or(Vec::new(), |lines| lines.concat());
            let text = ours.with([ours.lines()[..end].concat(), behind].concat());
            let case = format!("seed {seed}, stitched after {end} lines, from line {start}");
            read_well += u64::from(bench.read_in_rooms(&case, &text)?.number == 0);
        }
    }
    assert!(read_well > 300, "stitched files read well now and then: {read_well}");
    Ok(())
}

/// A rule that is not good is wrong at its line.
fn bad_rules(bench: &mut Bench) -> Run {
    for seed in 1_390_000..1_390_060 {
        let mut draws = Draws::seeded(seed);
        let size = 1 + draws.below(4);
        let manner = draws.pick(&MANNERS);
        let list = lists::good_list(&mut draws, size, manner);
        let place = draws.below(size);
        for damaged in damaged_rules(&list.rules[place]) {
            let mut rules = list.rules.clone();
            rules[place] = damaged.rule;
            let case = format!("seed {seed}, rule {place}: {}", damaged.kind);
            expect(bench, &case, &texts::rules_file(size, &rules), 9, place + 2)?;
        }
    }
    Ok(())
}

/// The text is refused so.
fn expect(bench: &mut Bench, case: &str, text: &Text, number: u64, place: usize) -> Run {
    let answer = bench.read_in_rooms(case, text)?;
    assert_eq!((answer.number, answer.place as usize), (number, place), "the oracle: {case}");
    Ok(())
}
