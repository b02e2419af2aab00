//! The counted parts of the pages.
//!
//! A part stands between the lines `<!-- counted: NAME -->` and `<!-- end of counted -->`, and is written whole. The
//! lines of a file of `specs/` stand behind its name, as in "`rules/specs`: `Words` 19, `Good` 9".

use std::collections::BTreeMap;

use crate::code::Function;
use crate::counts::{Counts, BELIEVED, COLUMNS};
use crate::guards::{self, LEDGER, VECTORS};

const END: &str = "<!-- end of counted -->";

/// The library of what the programs do with the system.
const SYSTEM: &str = "system";

/// A number with a comma before each three digits.
pub fn number(n: usize) -> String {
    match n {
        0..1000 => n.to_string(),
        _ => format!("{},{:03}", number(n / 1000), n % 1000),
    }
}

/// The page with this text as the part of that name.
pub fn with_part(page: &str, name: &str, text: &str) -> Result<String, String> {
    let begin = format!("<!-- counted: {name} -->");
    let split = page.split_once(&begin).and_then(|(before, rest)| Some((before, rest.split_once(END)?.1)));
    let (before, after) = split.ok_or(format!("there is no part from {begin} to {END}"))?;
    Ok(format!("{before}{begin}\n{text}{END}{after}"))
}

/// The page with the lines of each file of `specs/` behind its name. Each file that has any must be there.
pub fn with_files(page: &str, files: &BTreeMap<(String, String), usize>) -> Result<String, String> {
    let mut parts: Vec<String> = page.split('`').map(str::to_string).collect();
    let mut krate = String::new();
    let mut left = files.clone();
    for at in (1..parts.len() - 1).step_by(2) {
        if let Some(name) = parts[at].strip_suffix("/specs") {
            krate = name.to_string();
        }
        let file = (krate.clone(), parts[at].clone());
        let behind = parts[at + 1].trim_start();
        let digits = behind.len() - behind.trim_start_matches(|c: char| c.is_ascii_digit()).len();
        if let Some(lines) = files.get(&file).filter(|_| digits > 0) {
            let start = parts[at + 1].len() - behind.len();
            parts[at + 1].replace_range(start..start + digits, &lines.to_string());
            left.remove(&file);
        }
    }
    match left.iter().find(|(_, lines)| **lines > 0) {
        Some(((krate, file), lines)) => Err(format!("it does not have `{krate}/specs`: `{file}` {lines}")),
        None => Ok(parts.join("`")),
    }
}

/// The lines of each file of `specs/` that are to be believed.
pub fn files(counts: &Counts) -> BTreeMap<(String, String), usize> {
    let mut files = BTreeMap::new();
    for (one, column) in counts.definitions.iter().zip(&counts.columns).filter(|(one, _)| !one.of_code) {
        let lines = if *column < BELIEVED { one.lines } else { 0 };
        *files.entry((one.krate.clone(), one.file.clone())).or_insert(0) += lines;
    }
    files
}

/// What stands in backticks on a page.
pub fn named(page: &str) -> Vec<&str> {
    page.split('`').skip(1).step_by(2).collect()
}

/// The wrong answers among it, as `line_all.place_is_the_room`.
pub fn edits(page: &str) -> Vec<&str> {
    let word = |text: &str| text.chars().all(|c| c.is_ascii_lowercase() || c.is_ascii_digit() || c == '_');
    let edit =
        |name: &&str| name.split_once('.').is_some_and(|(call, what)| word(call) && word(what) && what.contains('_'));
    named(page).into_iter().filter(edit).collect()
}

fn table(head: &[&str], rows: impl Iterator<Item = Vec<String>>) -> String {
    let cell = |text: &String| format!("| {text} ").replace("|  ", "| ");
    let line = |cells: Vec<String>| cells.iter().map(cell).collect::<String>() + "|\n";
    let head = format!("{}|{}\n", line(head.iter().map(|cell| cell.to_string()).collect()), "---|".repeat(head.len()));
    rows.fold(head, |table, row| table + &line(row))
}

/// README: the figures.
pub fn figures(counts: &Counts) -> String {
    let believed = number(counts.lines(|one, column| !one.of_code && column < BELIEVED));
    let claims = counts.lines(|one, _| one.krate == "claims");
    let programs = |vectors: bool| counts.code_lines(|one| one.is_program() && (one.name == VECTORS) == vectors);
    let rows = [
        ("lines of definitions to be believed", format!("{believed}, of which {claims} are the claims")),
        ("lines of code with its contracts, in the libraries", number(counts.code_lines(|one| !one.is_program()))),
        ("lines of code with its contracts, in the programs", number(programs(false))),
        ("lines of code with its contracts, in the vectors", number(programs(true))),
        ("lines of proof, with comments, imports and empty lines", number(counts.proof_lines())),
        ("functions proved", format!("{}, of which {} are public", counts.functions.len(), counts.public().count())),
        ("wrong answers that the prover refuses", number(counts.edits().len())),
    ];
    table(&["", ""], rows.into_iter().map(|(what, count)| vec![what.to_string(), count]))
}

/// AUDITOR: the lines of definitions, by crate and by who cites them.
pub fn definitions(counts: &Counts) -> String {
    let by = ["the public calls", "the claims besides", "the runs besides", "other public functions", "proofs alone"];
    let head = [&["Crate"], &by[..]].concat();
    let row = |name: String, lines: [usize; COLUMNS]| [vec![name], lines.map(number).to_vec()].concat();
    let crates = counts.crates.iter().filter(|one| !one.specs.is_empty()).map(|krate| {
        let lines = |at| counts.lines(|one, column| !one.of_code && one.krate == krate.name && column == at);
        row(format!("`{}`", krate.name), std::array::from_fn(lines))
    });
    let all: [usize; COLUMNS] = std::array::from_fn(|at| counts.lines(|one, column| !one.of_code && column == at));
    let types = counts.lines(|one, column| one.of_code && column < BELIEVED);
    let table = table(&head, crates.chain([row("together".to_string(), all)]));
    let (believed, lines) = (number(all[..BELIEVED].iter().sum()), number(all.iter().sum()));
    let types = format!("The enums and structs that they name are {types} lines of `src/`.");
    format!("{table}\nSo {believed} of {lines} lines are to be believed. {types}\n")
}

/// AUDITOR: each public call, where its code is, and what its contract cites.
pub fn calls(counts: &Counts) -> String {
    let rows = counts.calls.iter().map(|at| &counts.functions[*at]).map(|call| {
        let cited: Vec<_> = counts.cited(&call.cites).collect();
        let cited = cited.chunk_by(|a, b| (&a.krate, &a.file) == (&b.krate, &b.file)).map(|same| {
            let names: Vec<String> = same.iter().map(|one| format!("`{}`", one.name)).collect();
            format!("{} (`{}/specs/{}`)", names.join(", "), same[0].krate, same[0].file)
        });
        let file = format!("`{}/src/{}.rt`", call.krate, call.file);
        vec![format!("`{}`", call.name), file, cited.collect::<Vec<_>>().join(", ")]
    });
    table(&["Call", "Its code", "Its contract cites"], rows)
}

/// AUDITOR: the functions that no contract fixes: those of the ledger that call the system, or have no contract, and
/// the `main` of each program.
pub fn programs(counts: &Counts) -> String {
    let asking = guards::asking(&counts.functions);
    let of_ledger = |one: &Function| asking.contains(&one.name.as_str()) || !one.ensures;
    let left = |one: &&Function| {
        (one.krate == LEDGER && of_ledger(one)) || (counts.is_served(&one.krate) && one.name == "main")
    };
    let left: Vec<_> = counts.functions.iter().filter(left).collect();
    let rows = left.chunk_by(|a, b| (&a.krate, &a.file) == (&b.krate, &b.file)).map(|same| {
        let names: Vec<String> = same.iter().map(|one| format!("`{}`", one.name)).collect();
        let lines = same.iter().map(|one| one.lines).sum();
        vec![format!("`{}/src/{}.rt`", same[0].krate, same[0].file), names.join(", "), number(lines)]
    });
    let lines = left.iter().map(|one| one.lines).sum();
    let all = counts.code_lines(|one| [LEDGER, SYSTEM].contains(&one.name.as_str()) || counts.is_served(&one.name));
    let together = vec!["together".to_string(), String::new(), format!("{} of {all}", number(lines))];
    table(&["File", "Functions", "Lines"], rows.chain([together]))
}

/// AUDITOR: the files of `specs/` in which nothing is to be believed.
pub fn unread(counts: &Counts) -> String {
    let unread: Vec<_> = files(counts).into_iter().filter(|(_, lines)| *lines == 0).collect();
    let rows = unread.chunk_by(|((a, _), _), ((b, _), _)| a == b).map(|same| {
        let names: Vec<String> = same.iter().map(|((_, file), _)| format!("`{file}`")).collect();
        vec![format!("`{}/specs`", same[0].0 .0), names.join(", ")]
    });
    table(&["Crate", "Files"], rows)
}

/// AUDITOR: the last line of the gate. rt counts each crate that it proved and each edit that it refused.
pub fn gate(counts: &Counts) -> String {
    let (crates, edits) = (counts.crates.len(), counts.edits().len());
    format!("    {} passed, 0 failed\n\nThese are {crates} crates and {edits} wrong answers.\n", crates + edits)
}

/// README: how much was compared, from what `.ci/compare` wrote.
pub fn compared(said: &str) -> Result<String, String> {
    let last = said.lines().filter(|line| line.starts_with("compare: ") && line.ends_with(" agree"));
    let line = |words: &str| last.clone().find(|line| line.contains(words)).unwrap_or("");
    let words = [" calls agree", " runs of the program, ", " runs of why, "].map(line).join(" ");
    let numbers: Vec<String> = words.split(' ').filter_map(|word| word.parse().ok()).map(number).collect();
    let [calls, runs, lines, why_runs, why_lines] = &numbers[..] else {
        return Err("the three last lines of .ci/compare are not there".into());
    };
    let program = format!("{runs} runs of the program, which wrote {lines} lines");
    let why = format!("{why_runs} runs of `why`, which wrote {why_lines} lines");
    Ok(format!("Compared with the independent program: {calls} calls; {program};\nand {why}.\n"))
}
