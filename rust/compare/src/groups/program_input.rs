//! The program's input: by file and by pipe, in pieces of every length, with long lines and with last parts.

use crate::bench::Run;
use crate::heads::{self, worked_line};
use crate::process::{Deaf, Feed};
use crate::texts;
use crate::trials::{Stand, Trials};

/// Lengths of the pieces in which a short input comes.
pub const SHORT_PIECES: [usize; 10] = [1, 2, 3, 7, 13, 62, 63, 64, 65, 1_000];
/// Lengths of the pieces in which a long input comes.
pub const LONG_PIECES: [usize; 8] = [4_095, 4_096, 4_097, 32_768, 65_535, 65_536, 65_537, 1 << 20];

pub fn run(trials: &mut Trials) -> Run {
    trials.group("input by file, by pipe, in single bytes and in odd pieces", pieces)?;
    trials.group("lines of 63 to 66 bytes that end beside the input's 4,096th and 65,536th byte", shifted_lines)?;
    trials.group("lines of up to 100,000 bytes", long_lines)?;
    trials.group("input cut at every byte, none, and one that cannot be read", last_parts)?;
    trials.group("a head line damaged in every way, and every byte alone", damaged_lines)?;
    trials.group("each line answered before the next is sent", conversations)?;
    trials.group("output that nobody takes: the program stops", deaf_outputs)?;
    trials.group("100,000 head lines through a pipe", many_lines)
}

fn worked() -> Stand {
    let [rules, tree] = texts::worked().map(|text| text.bytes);
    Stand::of(rules, tree)
}

/// The worked policy without its tree, so that the list answers.
fn without_tree() -> Stand {
    let [rules, _] = texts::worked().map(|text| text.bytes);
    Stand::of(rules, "")
}

fn pieces(trials: &mut Trials) -> Run {
    let short = heads::several().concat().into_bytes();
    let long = [short.repeat(40), vec![b'y'; 100_000], b"\n".to_vec(), short.repeat(10)].concat();
    for (input, lengths) in [(&short, SHORT_PIECES.as_slice()), (&long, &LONG_PIECES)] {
        for last_newline in [true, false] {
            let input = &input[..input.len() - usize::from(!last_newline)];
            trials.compare("by file", &worked(), input, Feed::File)?;
            for &length in lengths {
                trials.compare("by pipe", &worked(), input, Feed::Pieces(length))?;
            }
        }
    }
    trials.compare("by pipe", &without_tree(), &short, Feed::Pieces(5)).map(|_| ())
}

/// Each line of 63 to 66 bytes is put so that its newline stands at such a byte, or up to three bytes beside it.
fn shifted_lines(trials: &mut Trials) -> Run {
    let line = worked_line();
    for boundary in [4_096, 65_536] {
        for (length, beside) in (63..67).flat_map(|length| (0..7).map(move |beside| (length, beside))) {
            let before = boundary + beside - 4 - length;
            let mut input = line.repeat(before / line.len() - 1);
            input += &("x".repeat(before - input.len() - 1) + "\n");
            input += &(heads::long_head(length) + "\n" + &line);
            let case = format!("{length} bytes, newline at byte {}", before + length);
            trials.compare(&case, &worked(), input.as_bytes(), Feed::File)?;
        }
    }
    Ok(())
}

fn long_lines(trials: &mut Trials) -> Run {
    for length in [64, 65, 128, 256, 4_095, 4_096, 4_097, 8_192, 65_535, 65_536, 65_537, 100_000, 131_072] {
        let head = worked_line().trim_end().to_string();
        let well_begun = head.clone() + &"0".repeat(length - head.len());
        let well_ended = "x".repeat(length) + &head;
        for line in ["x".repeat(length), "\0".repeat(length), well_begun, well_ended] {
            let input = format!("{line}\n{}{line}\n\n{}{line}", worked_line(), worked_line());
            trials.compare(&format!("lines of {length} bytes"), &worked(), input.as_bytes(), Feed::Pieces(4_096))?;
        }
    }
    Ok(())
}

fn last_parts(trials: &mut Trials) -> Run {
    let lines = format!("wrong\n{}", worked_line());
    let long = format!("{}\n\n{}", heads::long_head(64), heads::long_head(66));
    let cuts = (0..=lines.len()).map(|length| &lines[..length]);
    for input in cuts.chain([63, 64, 65, 66, 67, 129, 130, 131, 132].map(|length| &long[..length])) {
        trials.compare("cut", &worked(), input.as_bytes(), Feed::File)?;
    }
    for stand in [worked(), without_tree()] {
        trials.compare("reading fails", &stand, b"", Feed::Folder)?;
        for input in ["", "\n", "\0", "\r\n", "\n\n\n"] {
            trials.compare("hardly any input", &stand, input.as_bytes(), Feed::Pieces(1))?;
        }
    }
    Ok(())
}

fn damaged_lines(trials: &mut Trials) -> Run {
    let every_byte: Vec<u8> = (0..=255).flat_map(|byte| [byte, b'\n']).collect();
    for stand in [worked(), without_tree()] {
        trials.compare("damaged lines", &stand, &heads::damaged(), Feed::File)?;
        trials.compare("every byte", &stand, &every_byte, Feed::File)?;
    }
    Ok(())
}

fn conversations(trials: &mut Trials) -> Run {
    let lines = heads::several();
    let line_by_line: Vec<&[u8]> = lines.iter().map(String::as_bytes).collect();
    trials.converse("line by line", &worked(), &line_by_line)?;
    trials.converse("line by line, by the list", &without_tree(), &line_by_line)?;
    let (line, long) = (worked_line(), "x".repeat(70_000));
    let (begin, end) = line.as_bytes().split_at(9);
    let half = [line.as_bytes(), line.as_bytes(), begin].concat();
    let parts: [&[u8]; 9] = [&half, end, begin, end, long.as_bytes(), long.as_bytes(), b"\n", line.as_bytes(), begin];
    trials.converse("two lines and a half", &worked(), &parts)?;
    trials.converse("nothing but the end of the input", &worked(), &[])?;
    // Where the list is refused the program ends, whatever input is still to come.
    let [rules, tree] = texts::worked().map(|text| text.bytes);
    trials.ends_alone("the list refused", &Stand::of(&rules[1..], &*tree))?;
    trials.ends_alone("no list", &Stand::of("", &*tree))
}

fn deaf_outputs(trials: &mut Trials) -> Run {
    let line = worked_line();
    for output in [Deaf::Closed, Deaf::Full] {
        for count in [1, 100, 3_000] {
            trials.stops_deaf("whole lines", &worked(), line.repeat(count).as_bytes(), output)?;
        }
        trials.stops_deaf("the tree's refusal", &without_tree(), b"", output)?;
        trials.stops_deaf("a refused line", &worked(), b"\n", output)?;
    }
    Ok(())
}

fn many_lines(trials: &mut Trials) -> Run {
    let lines: Vec<String> = heads::good().into_iter().cycle().take(100_000).collect();
    trials.compare("many lines", &worked(), lines.concat().as_bytes(), Feed::Pieces(1 << 16)).map(|_| ())
}
