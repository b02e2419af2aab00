//! What the ledger rests on besides the proofs: only its own crate asks the system, only there is it opened, and a run
//! has one.
//!
//! A proved program asks the system by what its `main` is given, and by nothing else; so the guards follow that from
//! `main` into the ledger. They go by the text of `src/`, in which there are no macros and no `unsafe` code.

use crate::code::Function;
use crate::tree::{Crate, Files};

/// The crate of the ledger, and the program of examples, which has none.
pub const LEDGER: &str = "ledger";
pub const VECTORS: &str = "vectors";

/// The names of what a `main` is given: the system, as std has it.
const RUNTIME: [&str; 2] = ["HostRuntime", "LibcRuntime"];

/// How `main` takes it and gives it away, and the import that says what `Handle` is.
const MAIN: &str = "fn main(rt: HostRuntime) {";
const GIVEN: &str = "Handle::new(rt)";
const HANDLE: &str = "use ledger::handle::Handle;";

/// The lines of the ledger that name it.
const KEPT: [&str; 3] =
    ["use std::rt::HostRuntime;", "pub(crate) rt: HostRuntime,", "pub fn new(rt: HostRuntime) -> Handle"];

/// What the ledger may import of std. So a call of the system is written in one of the ways below it.
const IMPORTS: [&str; 10] = [
    "env::FillError",
    "fs::File",
    "io",
    "io::ErrorKind",
    "io::Print",
    "io::Read",
    "os::fd::AsRawFd",
    "rt::Env",
    "rt::HostRuntime",
    "rt::Stdin",
];
const CALLS: [&str; 4] = [".rt", "File::", ".read", "drop("];

/// The law that opens the ledger, how a ledger is begun, and how a function takes one, or its number alone.
const OPENS: &str = "enter_is";
const BEGUN: &str = "let mut ledger";
const TAKES: &str = "ledger: &mut u64";
const NUMBER: &str = "ledger: u64";

/// Says the first guard that does not hold.
pub fn hold(crates: &[Crate], functions: &[Function]) -> Result<(), String> {
    for one in crates {
        stands_on(one, crates)?;
        is_plain(one)?;
        if one.name == LEDGER {
            keeps(one)?;
        } else if one.name != VECTORS {
            asks_nothing(one)?;
            gives(one, functions)?;
        }
        opens(one)?;
        begins(one)?;
        passes(one, functions)?;
    }
    Ok(())
}

/// The lines of a crate's code with its imports, without comments and what is imported for contracts.
fn lines(one: &Crate) -> impl Iterator<Item = &str> {
    let lines = one.code.values().flat_map(|text| text.lines()).map(str::trim);
    lines.filter(|line| !line.starts_with("//") && !line.starts_with("ghost use "))
}

/// A crate names no library of the kit but std.
fn stands_on(one: &Crate, crates: &[Crate]) -> Result<(), String> {
    match one.needs.iter().find(|name| crates.iter().all(|other| other.name != **name)) {
        Some(kit) => {
            Err(format!("crates.txt lets {} name {kit}, and the kit's libraries but std may ask the system", one.name))
        }
        None => Ok(()),
    }
}

/// No function of C is declared, no code is `unsafe`, and outside the examples nothing is written by macros.
fn is_plain(one: &Crate) -> Result<(), String> {
    let says = |what: &str| Err(format!("crates/{}/src {what}", one.name));
    if lines(one).any(|line| words(line, "extern").next().is_some() && !line.contains(" fn ")) {
        return says("declares functions of C, by which only the kit may ask the system");
    }
    if lines(one).any(|line| line != "#[unsafe(no_mangle)]" && words(line, "unsafe").next().is_some()) {
        return says("has unsafe code, which no guard can follow");
    }
    let is_macro = |line: &str| {
        let calls = |(at, _): (usize, _)| line[..at].ends_with(of_word) && line[at + 1..].starts_with(['(', '[', '{']);
        line.match_indices('!').any(calls) || words(line, "macro_rules").next().is_some()
    };
    match lines(one).find(|line| is_macro(line)).filter(|_| one.name != VECTORS) {
        Some(line) => says(&format!("has the macro `{line}`, which no guard can follow")),
        None => Ok(()),
    }
}

/// Whether a line names std, but for its numbers.
fn names_std(line: &str) -> bool {
    let behind = |kit: &'static str| words(line, kit).map(move |at| &line[at + kit.len()..]);
    let number = |behind: &str| behind.strip_prefix("::num").is_some_and(|rest| !rest.starts_with(of_word));
    ["std", "core"].into_iter().flat_map(behind).any(|behind| !number(behind))
}

/// The ledger imports of std what is listed above, and alone has what `main` is given.
fn keeps(one: &Crate) -> Result<(), String> {
    let listed = |path: &str| {
        let (module, items) = path.split_once("::{").unwrap_or((path, ""));
        let items = items.trim_end_matches('}').split(", ");
        items.map(|item| format!("{module}::{item}")).all(|item| IMPORTS.contains(&item.trim_end_matches(':')))
    };
    let imported = |line: &&str| !line.strip_prefix("use std::").is_some_and(|path| listed(path.trim_end_matches(';')));
    if let Some(line) = lines(one).filter(|line| names_std(line)).find(imported) {
        return Err(format!("{LEDGER} has `{line}`, and may name only what rust/counts/src/guards.rs lists of std"));
    }
    match lines(one).filter(|line| names_runtime(line)).find(|line| !KEPT.contains(line)) {
        Some(line) => Err(format!("{LEDGER} has `{line}`, by which the system could be asked elsewhere")),
        None => Ok(()),
    }
}

fn names_runtime(line: &str) -> bool {
    RUNTIME.iter().any(|name| words(line, name).next().is_some())
}

/// Other crates name nothing of std but its numbers, and do not reach into a handle.
fn asks_nothing(one: &Crate) -> Result<(), String> {
    if let Some(line) = lines(one).find(|line| names_std(line)) {
        return Err(format!("crates/{}/src has `{line}`, and only {LEDGER} may ask the system by std", one.name));
    }
    let reaches = |line: &&str| words(line, "rt").any(|at| line[..at].ends_with('.'));
    match lines(one).find(reaches) {
        Some(line) => Err(format!("crates/{}/src has `{line}`, and only {LEDGER} may open a handle", one.name)),
        None => Ok(()),
    }
}

/// Only the `main` of a program is given the system, and it gives that to the ledger's handle and does nothing else
/// with it.
fn gives(one: &Crate, functions: &[Function]) -> Result<(), String> {
    let mut named = lines(one).filter(|line| names_runtime(line));
    if !one.is_program() {
        return match named.next() {
            Some(line) => Err(format!("crates/{}/src has `{line}`, and only a main is given the system", one.name)),
            None => Ok(()),
        };
    }
    let main = functions.iter().find(|other| other.krate == one.name && other.name == "main");
    let body = main.map_or("", |main| main.body.as_str());
    let given = words(body, "rt").count() == 1 && body.contains(GIVEN) && lines(one).any(|line| line == HANDLE);
    match named.eq([MAIN]) && given {
        true => Ok(()),
        false => Err(format!("the main of {} must be `{MAIN}`, and give rt to `{GIVEN}` alone", one.name)),
    }
}

/// The ledger is opened in its own crate alone.
fn opens(one: &Crate) -> Result<(), String> {
    let folders = [("specs", &one.specs), ("src", &one.code), ("proofs", &one.proofs), ("must-fail", &one.edits)];
    let names = |(folder, files): (&str, &Files)| {
        let file = files.iter().find(|(_, text)| text.contains(OPENS))?.0;
        Some(format!("crates/{}/{folder}/{file} names {OPENS}, which only {LEDGER} may", one.name))
    };
    match folders.into_iter().find_map(names).filter(|_| one.name != LEDGER) {
        Some(reason) => Err(reason),
        None => Ok(()),
    }
}

/// A program begins one ledger, and a library none.
fn begins(one: &Crate) -> Result<(), String> {
    let begun: usize = one.code.values().map(|text| text.matches(BEGUN).count()).sum();
    let due = usize::from(one.is_program() && one.name != VECTORS);
    if begun == due {
        return Ok(());
    }
    Err(format!("crates/{}/src has `{BEGUN}` {begun} times, and must have it {due} times", one.name))
}

/// Where the system is not asked, the ledger is only handed on: a function that takes it is called, and is handed the
/// one that its caller has, and nothing else is done with it, so that no call is taken back. `main` begins it, and
/// hands it to `run`.
fn passes(one: &Crate, functions: &[Function]) -> Result<(), String> {
    let taker = |other: &&Function| other.takes_ledger() && one.may_name(&other.krate);
    let takers: Vec<&str> = functions.iter().filter(taker).map(|other| other.name.as_str()).collect();
    let takes = |name: &str| takers.contains(&name);
    let renamed = |line: &str| Some(line.split_once(" as ")?.0.rsplit("::").next()?.to_string());
    if let Some(name) = lines(one).filter_map(renamed).find(|name| takes(name)) {
        return Err(format!("crates/{}/src gives {name}, which takes the ledger, another name", one.name));
    }
    let asking = asking(functions);
    let enters = |other: &Function| {
        one.name == LEDGER && (asking.contains(&other.name.as_str()) || other.signature.contains(NUMBER))
    };
    for function in functions.iter().filter(|other| other.krate == one.name && !enters(other)) {
        let (body, place) = (&function.body, format!("{}::{}::{}", one.name, function.file, function.name));
        let main = function.name == "main";
        for name in &takers {
            let called = |at: &usize| body[at + name.len()..].starts_with(['(', ':']);
            if words(body, name).any(|at| !called(&at)) {
                return Err(format!("{place} names {name}, which takes the ledger, and does not call it"));
            }
        }
        for (at, _) in body.match_indices('(').filter(|(at, _)| takes(last_word(&body[..*at]))) {
            let given = body[at + 1..].trim_start();
            let given = given.strip_prefix("&mut ").filter(|_| main).unwrap_or(given);
            if !given.starts_with("ledger,") && !given.starts_with("ledger)") {
                return Err(format!("{place} hands {} something else than `ledger`", last_word(&body[..at])));
            }
        }
        for at in words(body, LEDGER) {
            let (before, after) = (body[..at].trim_end(), &body[at + LEDGER.len()..]);
            let begun = main && before.ends_with("let mut");
            let before = before.strip_suffix("&mut").filter(|_| main).unwrap_or(before).trim_end();
            let handed = before.strip_suffix('(').is_some_and(|before| takes(last_word(before)));
            if !(begun || after.starts_with("::") || handed && after.starts_with([',', ')'])) {
                return Err(format!("{place} does something else with the ledger than hand it on"));
            }
        }
    }
    Ok(())
}

/// The functions of the ledger that call the system, themselves or through others of it.
pub fn asking(functions: &[Function]) -> Vec<&str> {
    let own: Vec<&Function> = functions.iter().filter(|one| one.krate == LEDGER).collect();
    let mut asking: Vec<&str> = Vec::new();
    let calls = |one: &Function, asking: &[&str]| {
        let called = |name: &&str| words(&one.body, name).any(|at| one.body[at + name.len()..].starts_with('('));
        CALLS.iter().any(|call| one.body.contains(call)) || asking.iter().any(called)
    };
    while let Some(one) = own.iter().find(|one| !asking.contains(&one.name.as_str()) && calls(one, &asking)) {
        asking.push(&one.name);
    }
    asking
}

fn of_word(c: char) -> bool {
    c.is_alphanumeric() || c == '_'
}

/// The word at the end of a text.
fn last_word(text: &str) -> &str {
    &text[text.trim_end_matches(of_word).len()..]
}

/// Where this word stands in a text, and not as a part of another one.
fn words<'a>(text: &'a str, word: &'a str) -> impl Iterator<Item = usize> + 'a {
    let whole = move |at: &usize| !text[..*at].ends_with(of_word) && !text[at + word.len()..].starts_with(of_word);
    text.match_indices(word).map(|(at, _)| at).filter(whole)
}

impl Function {
    fn takes_ledger(&self) -> bool {
        self.signature.contains(TAKES)
    }
}
