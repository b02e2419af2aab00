//! Every kind of damage to a text. Some damage leaves it good; the oracle tells.

use std::ops::Range;

use crate::draws::Draws;
use crate::texts::Text;

/// A text with one kind of damage.
pub struct DamagedText {
    pub kind: String,
    pub text: Text,
}

/// Bytes that a text has, that stand beside its digits, or that look like a blank or an end.
const BYTES: [u8; 19] = *b"\t\n\r\0 019/.:+-_,ae\x80\xFF";

/// The fixed words of the files and of the program, and others that look like them.
const WORDS: [&str; 20] = [
    "rules", "acl", "rule", "tree", "part", "cut", "leaf", "end", "head", "hit", "", "Rule", "CUT", "leaves", "en",
    "ends", "rul", "parts", "ac", "aclx",
];

/// Numbers at which a test turns over: fields, octets, lengths, counts, ports, and words of 32 bits.
const TURNING_NUMBERS: [u128; 31] = [
    0, 1, 2, 4, 5, 6, 9, 10, 31, 32, 33, 99, 100, 255, 256, 257, 511, 512, 513, 2_046, 2_047, 2_048, 4_095, 4_096,
    4_097, 65_535, 65_536, 65_537, 0x7FFF_FFFF, 0x8000_0000, 0xFFFF_FFFF,
];

/// Numbers past 32 bits, and past 64.
const LONG_NUMBERS: [u128; 5] = [1 << 32, (1 << 64) - 1, 1 << 64, 99_999_999_999_999_999_999, 1 << 100];

/// Parts of a line, of which hardly one is right where a line is to follow.
const PARTS: [&str; 13] =
    ["x", "\t", "\r", "\0", " ", "0", "end", "end\t", "end\t999", "rule\t", "rule\t0\t0", "leaf\t0\t0", "cut"];

/// Numbers that leave the same words behind where a number wraps: at 8, 16, 32, 33 and 64 bits.
const WRAPS: [u128; 5] = [1 << 8, 1 << 16, 1 << 32, 1 << 33, 1 << 64];

/// The text with this byte changed, removed, and others put before it.
pub fn byte_damages(text: &Text, at: usize) -> Vec<DamagedText> {
    let own = text.bytes[at];
    let mut all = Vec::new();
    let mut put = |kind: &str, length: usize, bytes: &[u8]| {
        all.push(put_bytes(text, at..at + length, bytes, format!("{kind} {}", bytes.escape_ascii())));
    };
    put("removed", 1, &[]);
    for byte in BYTES.into_iter().chain([own ^ 1, own ^ 0x20, own ^ 0x80, own.wrapping_add(1), own.wrapping_sub(1)]) {
        if byte != own {
            put("made", 1, &[byte]);
        }
    }
    for byte in BYTES.into_iter().chain([own]) {
        put("put in front:", 0, &[byte]);
    }
    all
}

/// The text with this number made another, or written otherwise.
pub fn number_damages(text: &Text, digits: Range<usize>) -> Vec<DamagedText> {
    let written = String::from_utf8_lossy(&text.bytes[digits.clone()]).into_owned();
    // A text that is damaged already may have a number of any length.
    let value: u128 = written.parse().unwrap_or(0) % (1 << 100);
    let near = [value + 1, value.saturating_sub(1), value + 10, 10 * value];
    let wrapped = WRAPS.map(|wrap| value + wrap);
    let others = TURNING_NUMBERS.into_iter().chain(LONG_NUMBERS).chain(near).chain(wrapped);
    let zeros = "0".repeat(40);
    let forms = [
        format!("0{written}"),
        format!("00{written}"),
        format!("{zeros}{written}"),
        format!("+{written}"),
        format!("-{written}"),
        format!("0x{written}"),
        format!("{written}.0"),
        format!("{written}e0"),
        format!("\u{ff10}{written}"),
        format!(" {written}"),
        format!("{written} "),
        format!("\t{written}"),
        format!("{written}\t"),
        format!("{written}\t{written}"),
        format!("{written}\r"),
        format!("{written}\0"),
        String::new(),
    ];
    let put = |other: String| put_bytes(text, digits.clone(), other.as_bytes(), other.escape_debug());
    others.map(|number| number.to_string()).chain(forms).map(put).collect()
}

/// The text with this word made another.
pub fn word_damages(text: &Text, word: Range<usize>) -> Vec<DamagedText> {
    WORDS.iter().map(|other| put_bytes(text, word.clone(), other.as_bytes(), other)).collect()
}

/// The text with this line dropped, doubled, swapped, framed, or with another in its place.
pub fn line_damages(text: &Text, number: usize) -> Vec<DamagedText> {
    let lines = text.lines();
    let line = lines[number];
    let bare = line.strip_suffix(b"\n").unwrap_or(line);
    let end = format!("end\t{number}\n");
    let mut all = Vec::new();
    let mut put = |kind: &str, new: &[&[u8]]| {
        let parts = [&lines[..number], new, &lines[number + 1..]].concat();
        all.push(DamagedText { kind: format!("line {number} {kind}"), text: text.with(parts.concat()) });
    };
    put("dropped", &[]);
    put("doubled", &[line, line]);
    put("emptied", &[b"\n"]);
    put("after an empty one", &[b"\n", line]);
    put("before an empty one", &[line, b"\n"]);
    put("after the first line", &[lines[0], line]);
    put("after an end line", &[end.as_bytes(), line]);
    put("made an end line", &[end.as_bytes()]);
    for byte in *b"\r\t \0" {
        put("framed in front", &[&[byte], line]);
        put("framed behind", &[bare, &[byte], b"\n"]);
    }
    if let Some(next) = lines.get(number + 1) {
        let mut swapped = lines.clone();
        swapped.swap(number, number + 1);
        all.push(DamagedText { kind: format!("line {number} swapped"), text: text.with(swapped.concat()) });
        let joined = [&lines[..number], &[bare, next], &lines[number + 2..]].concat();
        all.push(DamagedText { kind: format!("line {number} joined"), text: text.with(joined.concat()) });
    }
    all
}

/// The text's first lines, so many as `lines`, and after them a last part without newline.
pub fn last_parts(text: &Text, lines: usize) -> Vec<DamagedText> {
    let whole = text.lines()[..lines].concat();
    let (end, next_end, long) = (format!("end\t{lines}"), format!("end\t{}", lines + 1), "9".repeat(300));
    let next = text.lines().get(lines).map_or(Vec::new(), |line| line[..line.len() - 1].to_vec());
    let wrong_next = [next.as_slice(), b"\t0"].concat();
    let others = [end.as_bytes(), next_end.as_bytes(), long.as_bytes(), &next, &wrong_next];
    let put = |part: &[u8]| {
        let kind = format!("{lines} lines and {}", part.escape_ascii());
        DamagedText { kind, text: text.with([&whole, part].concat()) }
    };
    PARTS.map(str::as_bytes).into_iter().chain(others).map(put).collect()
}

/// The text and something after its end line.
pub fn afters(text: &Text) -> Vec<DamagedText> {
    let lines = text.lines();
    let count = lines.len();
    let (own_end, next_end) = (lines[count - 1], format!("end\t{count}\n"));
    let mut all = last_parts(text, count);
    all.retain(|damaged| damaged.text.bytes.len() > text.bytes.len());
    for after in [b"\n".as_slice(), b"\r\n", b"\0\n", b"x\n", own_end, next_end.as_bytes(), lines[0], &text.bytes] {
        let kind = format!("followed by {}", after.escape_ascii());
        all.push(DamagedText { kind, text: text.with([&text.bytes, after].concat()) });
    }
    all
}

/// Any one kind of damage, anywhere.
pub fn any_damage(text: &Text, draws: &mut Draws) -> DamagedText {
    let (numbers, words) = (numbers(text), words(text));
    let mut kinds = match draws.below(6) {
        _ if text.bytes.is_empty() => vec![put_bytes(text, 0..0, &[draws.pick(&BYTES)], "no text and a byte")],
        0 | 1 => byte_damages(text, draws.below(text.bytes.len())),
        2 | 3 if !numbers.is_empty() => number_damages(text, numbers[draws.below(numbers.len())].clone()),
        4 if !words.is_empty() => word_damages(text, words[draws.below(words.len())].clone()),
        _ => line_damages(text, draws.below(text.lines().len())),
    };
    kinds.swap_remove(draws.below(kinds.len()))
}

/// Where the numbers of the text stand.
pub fn numbers(text: &Text) -> Vec<Range<usize>> {
    runs(&text.bytes, u8::is_ascii_digit)
}

/// Where the words of the text stand.
pub fn words(text: &Text) -> Vec<Range<usize>> {
    runs(&text.bytes, u8::is_ascii_alphabetic)
}

/// Where bytes of this kind stand together, with none of them on either side.
fn runs(bytes: &[u8], is_inside: impl Fn(&u8) -> bool) -> Vec<Range<usize>> {
    let mut all: Vec<Range<usize>> = Vec::new();
    for index in (0..bytes.len()).filter(|&index| is_inside(&bytes[index])) {
        match all.last_mut() {
            Some(run) if run.end == index => run.end += 1,
            _ => all.push(index..index + 1),
        }
    }
    all
}

/// The text with these bytes in place of those.
fn put_bytes(text: &Text, old: Range<usize>, new: &[u8], kind: impl ToString) -> DamagedText {
    let (before, after) = (&text.bytes[..old.start], &text.bytes[old.end..]);
    let kind = format!("bytes {old:?}: {}", kind.to_string());
    DamagedText { kind, text: text.with([before, new, after].concat()) }
}
