//! Holds the counts that the pages state to the working tree in the folder where it is started. Each line of a page
//! that differs is written out, as it is stated and as it is counted, and the status is then 1.
//!
//! With `--write` the pages are made to state what is counted. With `--compared FILE` the figures of a comparison are
//! looked at alone, FILE being what `.ci/compare` wrote.

#![forbid(unsafe_code)]

mod code;
mod counts;
mod guards;
mod names;
mod pages;
mod specs;
#[cfg(test)]
mod tests;
mod tree;

use std::env;
use std::fs;
use std::path::Path;
use std::process::ExitCode;

use counts::Counts;

const README: &str = "README.md";
const AUDITOR: &str = "docs/AUDITOR.md";
const CLAIMS: &str = "docs/CLAIMS.md";
const EXCEPTIONS: &str = "docs/EXCEPTIONS.md";
const LIMITS: &str = "docs/LIMITS.md";

fn main() -> ExitCode {
    match run(&env::args().skip(1).collect::<Vec<_>>()) {
        Ok(true) => ExitCode::SUCCESS,
        Ok(false) => {
            println!("counts: the pages are not as the tree is; .ci/counts --write writes the counts");
            ExitCode::FAILURE
        }
        Err(reason) => {
            eprintln!("counts: {reason}");
            ExitCode::from(2)
        }
    }
}

/// Whether every page states what is counted, or was made to.
fn run(words: &[String]) -> Result<bool, String> {
    let write = words.first().is_some_and(|word| word == "--write");
    match &words[usize::from(write)..] {
        [] => {
            let crates = tree::read(Path::new(".")).map_err(|error| format!("the tree cannot be read: {error}"))?;
            let counts = Counts::new(crates)?;
            let figures = pages::with_part(&read(README)?, "figures", &pages::figures(&counts));
            let auditor = auditor(&read(AUDITOR)?, &counts);
            Ok(hold(README, figures, write)? & hold(AUDITOR, auditor, write)? & names(&counts)?)
        }
        [word, file] if word == "--compared" => {
            let text = pages::compared(&read(file)?)?;
            hold(README, pages::with_part(&read(README)?, "compared", &text), write)
        }
        _ => Err("usage: counts [--write] [--compared FILE]".to_string()),
    }
}

/// Whether the pages name every public function and every wrong answer, and no wrong answer that is not there.
fn names(counts: &Counts) -> Result<bool, String> {
    let public: Vec<&str> = counts.public().map(|one| one.name.as_str()).collect();
    let (claims, exceptions, limits) = (read(CLAIMS)?, read(EXCEPTIONS)?, read(LIMITS)?);
    let edits = counts.edits();
    let all_in = |names: &[&str], others: &[&str], says: String| {
        let missing = names.iter().filter(|name| !others.contains(name));
        missing.map(|name| println!("{says} {name}")).count() == 0
    };
    Ok(all_in(&public, &pages::named(&exceptions), format!("{EXCEPTIONS} does not name the public function"))
        & all_in(&edits, &pages::named(&claims), format!("{CLAIMS} does not name the wrong answer"))
        & all_in(&pages::edits(&claims), &edits, format!("{CLAIMS} names a wrong answer that is not there:"))
        & all_in(&pages::edits(&limits), &edits, format!("{LIMITS} names a wrong answer that is not there:")))
}

fn auditor(page: &str, counts: &Counts) -> Result<String, String> {
    let page = pages::with_files(page, &pages::files(counts))?;
    let page = pages::with_part(&page, "definitions", &pages::definitions(counts))?;
    let page = pages::with_part(&page, "calls", &pages::calls(counts))?;
    let page = pages::with_part(&page, "programs", &pages::programs(counts))?;
    let page = pages::with_part(&page, "unread", &pages::unread(counts))?;
    pages::with_part(&page, "gate", &pages::gate(counts))
}

fn read(file: &str) -> Result<String, String> {
    fs::read_to_string(file).map_err(|error| format!("{file} cannot be read: {error}"))
}

/// Whether a page is what is counted, or was written so; else the lines that differ are written out.
fn hold(page: &str, counted: Result<String, String>, write: bool) -> Result<bool, String> {
    let counted = counted.map_err(|reason| format!("{page}: {reason}"))?;
    let stated = read(page)?;
    if write && stated != counted {
        fs::write(page, &counted).map_err(|error| format!("{page} cannot be written: {error}"))?;
        println!("counts: wrote {page}");
        return Ok(true);
    }
    for line in stated.lines().filter(|line| !counted.lines().any(|other| other == *line)) {
        println!("{page} states  {line}");
    }
    for line in counted.lines().filter(|line| !stated.lines().any(|other| other == *line)) {
        println!("{page} counted {line}");
    }
    Ok(stated == counted)
}
