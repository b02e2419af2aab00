//! Input lines of the program: head lines, and lines of every kind that is refused.

use crate::headers::{Header, PORTS, WORKED};
use crate::text_damages::{byte_damages, number_damages, numbers, word_damages, words};
use crate::texts::{File, Text};

/// The line of this header, without its newline.
pub fn head(header: &Header) -> String {
    let dotted = |address: u32| address.to_be_bytes().map(|octet| octet.to_string()).join(".");
    let [source, destination, rest @ ..] = header;
    let mut fields = vec!["head".to_string(), dotted(*source), dotted(*destination)];
    fields.extend(rest.iter().map(u32::to_string));
    fields.join("\t")
}

/// The line of the worked policy's first header, with its newline.
pub fn worked_line() -> String {
    head(&WORKED) + "\n"
}

/// Lines of headers at the edges of the worked policy's rules, each with its newline.
pub fn good() -> Vec<String> {
    let mut lines = Vec::new();
    for source in ["10.1.2.3", "10.2.0.1", "9.255.255.255", "10.255.255.255", "11.0.0.0", "0.0.0.0", "255.255.255.255"]
    {
        for rest in ["80\t6", "443\t6", "1023\t6", "1024\t6", "80\t17", "0\t0", "65535\t255", "65536\t6"] {
            lines.push(format!("head\t{source}\t192.168.0.1\t40000\t{rest}\n"));
        }
    }
    lines
}

/// Lines with 65,535, 65,536 and 65,537 in each port and in both: the largest port, none, and a number too large.
pub fn about_absent_ports() -> Vec<String> {
    let mut lines = Vec::new();
    let [source, destination] = PORTS.map(|field| [WORKED[field], 65_535, 65_536, 65_537]);
    for source in source {
        for destination in destination {
            lines.push(head(&[WORKED[0], WORKED[1], source, destination, WORKED[4]]) + "\n");
        }
    }
    lines
}

/// Good lines, and lines with every kind of fault.
pub fn several() -> Vec<String> {
    let mut lines = good();
    lines.extend(about_absent_ports());
    let faults = ["", "\0", "\r", "head", "hit\t1\t0", "end\t3", " head", "head\t", "\t", "x", "refused\t9\t1\t0"];
    lines.extend(faults.map(|fault| format!("{fault}\n")));
    lines.extend(["\r\n", "\0\n", " \n", "\t\n", "\t6\n"].map(|end| worked_line().replace('\n', end)));
    let tails =
        ["65537\t6", "65536\t256", "4294967295\t6", "4294967296\t6", "65616\t6", "80\t262", "080\t6", "\t6", "80"];
    lines.extend(tails.map(|tail| format!("head\t10.1.2.3\t192.168.0.1\t40000\t{tail}\n")));
    lines.extend((60..70).flat_map(|length| [long_head(length), "x".repeat(length)]).map(|line| line + "\n"));
    lines
}

/// A well shaped line of this length, from 45 to 69 bytes: with 3 where it is short enough, and with 9 where it is not.
pub fn long_head(length: usize) -> String {
    let mut line = String::from("head\t101.102.103.104\t201.202.203.204");
    let mut left = length - line.len();
    for after in [2, 1, 0] {
        let digits = (left - 1 - 2 * after).min(10);
        line += &format!("\t{}", &"4000000000"[..digits]);
        left -= 1 + digits;
    }
    assert_eq!(line.len(), length, "a well shaped line");
    line
}

/// The worked policy's first line, damaged at each byte, number and word in every way.
pub fn damaged() -> Vec<u8> {
    let line = Text { file: File::Rules, bytes: worked_line().into_bytes(), needed: [0, 0] };
    let bytes = (0..line.bytes.len()).flat_map(|at| byte_damages(&line, at));
    let numbers = numbers(&line).into_iter().flat_map(|digits| number_damages(&line, digits));
    let words = words(&line).into_iter().flat_map(|word| word_damages(&line, word));
    bytes.chain(numbers).chain(words).flat_map(|damaged| damaged.text.bytes).collect()
}
