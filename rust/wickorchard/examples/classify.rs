//! Classifies headers by the policy in a folder. A packet without ports has 65536 for each.
//!
//!     classify DIR [SOURCE DESTINATION SOURCE_PORT DESTINATION_PORT PROTOCOL]..

#![forbid(unsafe_code)]

use std::env;
use std::error::Error;
use std::fs::File;
use std::io::Read;
use std::net::Ipv4Addr;
use std::path::Path;
use std::process::ExitCode;

use wickorchard::limits::{HEADER_WORDS, MOST_FILE_BYTES, MOST_RULES};
use wickorchard::{Header, Kind, Policy};

fn main() -> ExitCode {
    let words: Vec<String> = env::args().skip(1).collect();
    let done = match words.split_first() {
        Some((folder, fields)) if fields.len().is_multiple_of(HEADER_WORDS) => classify(Path::new(folder), fields),
        _ => Err("give a folder, and then five words for each header".into()),
    };
    match done {
        Ok(()) => ExitCode::SUCCESS,
        Err(error) => {
            eprintln!("classify: {error}");
            ExitCode::FAILURE
        }
    }
}

fn classify(folder: &Path, fields: &[String]) -> Result<(), Box<dyn Error>> {
    let mut policy = Policy::read(&read_file(folder, "rules.txt")?)?;
    println!("{} rules", policy.rule_count());
    // A tree that is refused, or whose file cannot be read, is no reason to stop: the list answers the same.
    match read_file(folder, "tree.txt").map(|text| policy.read_tree(&text)) {
        Ok(Ok(figures)) => println!("the tree serves: {} cuts, longest leaf {}", figures.cuts, figures.longest_leaf),
        Ok(Err(refusal)) => println!("the list serves, since the tree is {refusal}"),
        Err(error) => {
            eprintln!("classify: {error}");
            println!("the list serves, since the tree is refused with 12, place 0, extra 0");
        }
    }
    for five in fields.chunks(HEADER_WORDS) {
        // A port or protocol that is too large makes no header, and so there is nothing to search for.
        let answer = match Header::try_from(words(five)?) {
            Ok(header) => answer(&policy, &header),
            Err(refusal) => refusal.to_string(),
        };
        println!("{}: {answer}", five.join(" "));
    }
    Ok(())
}

/// The whole of a file of the folder. One that cannot be read to its end, or is too long, is an error, and never taken
/// for an empty or a shorter text.
fn read_file(folder: &Path, name: &str) -> Result<Vec<u8>, Box<dyn Error>> {
    let mut text = Vec::new();
    File::open(folder.join(name))
        .and_then(|file| file.take(MOST_FILE_BYTES as u64 + 1).read_to_end(&mut text))
        .map_err(|error| format!("{name} cannot be read: {error}"))?;
    if text.len() > MOST_FILE_BYTES {
        return Err(format!("{name} is over {MOST_FILE_BYTES} bytes").into());
    }
    Ok(text)
}

fn words(five: &[String]) -> Result<[u32; HEADER_WORDS], Box<dyn Error>> {
    let address = |word: &String| word.parse::<Ipv4Addr>().map(u32::from);
    Ok([address(&five[0])?, address(&five[1])?, five[2].parse()?, five[3].parse()?, five[4].parse()?])
}

fn answer(policy: &Policy, header: &Header) -> String {
    let mut found = [0; MOST_RULES];
    let listed: Vec<String> = policy.all(header, &mut found).iter().map(u32::to_string).collect();
    let Some(first) = policy.first(header) else { return "no rule".to_string() };
    let action = match policy.kind() {
        Kind::Acl => format!(" action {},", first.action),
        Kind::Rules => String::new(),
    };
    format!("rule {} first,{action} of {}", first.rule, listed.join(" "))
}
