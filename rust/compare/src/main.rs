//! Compares Wickorchard with the oracle on seeded inputs grouped by purpose: the library, call by call, or the program
//! or the program `why`, run by run.
//!
//! The library is x86-64 code, so its calls are made by a program of their own, the lender. The words that start it, or
//! a program, are given to this one: on a machine of another kind an emulator comes first.
//!
//! Each group writes a line: what it does, how many calls or runs it compared, and how they were answered. The first
//! that differs, or that does not come back, is written out with its inputs and both answers, and the status is then 1.
//! Every input comes from a fixed seed, so a run can be repeated.

#![deny(unsafe_code)]

mod abi;
mod arena;
mod bench;
mod damages;
mod deepest;
mod draws;
mod groups;
mod headers;
mod heads;
mod lender;
mod lists;
#[allow(unsafe_code)]
mod mapping;
mod mismatch;
mod old_trees;
mod part_damages;
mod placed;
mod process;
mod shared_ends;
mod stops;
mod text_damages;
mod texts;
mod tree_damages;
mod trees;
mod trials;

use std::env;
use std::ffi::OsString;
use std::path::PathBuf;
use std::process::ExitCode;

use bench::{Bench, Run};
use process::Program;
use trials::Trials;

/// The status where nothing could be compared.
const NOT_STARTED: u8 = 2;

/// The folder in which the arena's file and the program's folders are made; where this is not set, it is the system's
/// for temporary files.
const FOLDER_VARIABLE: &str = "WICKORCHARD_COMPARE_FOLDER";

const USAGE: &str =
    "usage: compare library COMMAND.., the words that start the lender; the arena's path is put after them
       compare program COMMAND.., the words that start the program from any folder
       compare why COMMAND.., the words that start the program `why` from any folder";

fn main() -> ExitCode {
    let words: Vec<OsString> = env::args_os().skip(1).collect();
    let folder = env::var_os(FOLDER_VARIABLE).map_or_else(env::temp_dir, PathBuf::from);
    let own_name = |what: &str| folder.join(format!("wickorchard-{what}-{}", std::process::id()));
    let compared = match words.split_first() {
        Some((what, command)) if what == "library" && !command.is_empty() => library(command, own_name("arena")),
        Some((what, command)) if what == "program" && !command.is_empty() => {
            program("the program", groups::run_program, command, own_name("runs"))
        }
        Some((what, command)) if what == "why" && !command.is_empty() => {
            program("why", groups::run_why, command, own_name("runs"))
        }
        _ => Err(USAGE.to_string()),
    };
    match compared {
        Ok(Ok(agreed)) => {
            println!("compare: {agreed} agree");
            ExitCode::SUCCESS
        }
        Ok(Err(difference)) => {
            println!("{difference}");
            ExitCode::FAILURE
        }
        Err(reason) => {
            eprintln!("compare: {reason}");
            ExitCode::from(NOT_STARTED)
        }
    }
}

/// What was compared, or the difference that was found; or why nothing could be compared.
type Compared = Result<Result<String, String>, String>;

fn library(command: &[OsString], arena: PathBuf) -> Compared {
    let (lender, words) = lender::start(command, &arena)?;
    let mut bench = Bench::new(lender, words);
    if let Err(mismatch) = groups::run(&mut bench) {
        return Ok(Err(format!("\n{mismatch}\ncompare: the library and the oracle differ")));
    }
    let ended = bench.finish().map_err(|silence| format!("compare: all calls agree, but at the end {silence}"));
    Ok(ended.map(|calls| format!("{calls} calls")))
}

/// A program of this name, by these groups of runs.
fn program(name: &'static str, groups: fn(&mut Trials) -> Run, command: &[OsString], folder: PathBuf) -> Compared {
    let program = Program::new(command, folder).map_err(|error| format!("a folder cannot be made: {error}"))?;
    let mut trials = Trials::new(name.trim_start_matches("the "), program);
    let differ = groups(&mut trials).err();
    let (runs, lines) = trials.finish().map_err(|error| format!("a folder cannot be removed: {error}"))?;
    Ok(match differ {
        Some(mismatch) => Err(format!("\n{mismatch}\ncompare: {name} and the oracle differ")),
        None => Ok(format!("{runs} runs of {name}, and the {lines} lines that it wrote,")),
    })
}
