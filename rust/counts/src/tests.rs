//! A small tree, and what must be counted of it.

use std::collections::BTreeMap;

use crate::counts::Counts;
use crate::pages;
use crate::tree::Crate;

/// `call` promises `Kept`, which rests on `low`; a claim rests on `high`, another public function cites `other`, and a
/// private one `step`.
const SPECS: &str = "\
-- A comment.
use Rattle.std.specs.Prelude.{ℕ, ◌≡◌}
use Rattle.low.specs.declared.code.Answer.TheVariants as answer
infixr 20 ◌then◌

abbrev pub low : ℕ
low = 1

pub data Kept (n : ℕ) : Type 0 where
  kept :
      n ≡ low → Kept n
  -- no line of the definition
  lost : Kept n

module _ (F : ℕ) where
  unfoldable pub ◌then◌ : ℕ → ℕ
  answer.Yes then w = w

abbrev pub high : ℕ
high = 2 then 3

unfoldable pub other : ℕ
other = low

abbrev pub step : ℕ
step = other
";

const CODE: &str = "\
use std::num;
ghost use Rattle.low.specs.Words.{kept, low, high, other, step};

// A comment.
#[derive(Clone, Copy)]
pub enum Answer {
    Yes,
}

pub fn call(
    low: u32,
) -> Answer
    ensures high { kept low.now ≡ {
        result } }
{
    Answer::Yes
}

#[unsafe(no_mangle)]
pub fn more() -> u32
    ensures { result ≡ other.size }
{
    1
}

fn private(n: u32)
    requires { n ≡ step }
    ensures { result ≡ 1 }
{
}

pub(crate) fn said() {
    more();
}
";

const CLAIMS: &str = "\
use Rattle.low.specs as low
use Rattle.low.proofs as in_low

abbrev pub Code : Type 1
Code = in_low.code.call.Statement.statement M × low.Words.high
";

const CALLS: &str = "\
use Rattle.low.specs as low

pub record Calls : Type 0 where
  pub call : Fixes low.Words.Kept
";

fn tree(claims: &str) -> Vec<Crate> {
    let file = |name: &str, text: &str| BTreeMap::from([(name.to_string(), text.to_string())]);
    let low = Crate {
        name: "low".to_string(),
        specs: file("Words", SPECS),
        code: file("code", CODE),
        proofs: file("code/call/Answers", "-- Why.\n\nyes = no\n"),
        edits: file("call.no", ""),
        ..Crate::default()
    };
    let specs = [file("Code", claims), file("Demand1", CALLS)].into_iter().flatten().collect();
    vec![low, Crate { name: "claims".to_string(), specs, ..Crate::default() }]
}

#[test]
fn each_definition_counts_with_the_first_who_cites_it() {
    let counts = Counts::new(tree(CLAIMS)).unwrap();
    let found = counts.definitions.iter().zip(&counts.columns);
    let found: Vec<_> = found.map(|(one, column)| (one.name.as_str(), one.lines, *column)).collect();
    let low = [("low", 2, 0), ("Kept", 4, 0), ("◌then◌", 2, 1), ("high", 2, 1), ("other", 2, 3), ("step", 2, 4)];
    assert_eq!(found, [&low[..], &[("Answer", 3, 1), ("Code", 2, 1), ("Calls", 2, 1)]].concat());
}

#[test]
fn a_function_has_its_lines_and_what_its_contract_names() {
    let counts = Counts::new(tree(CLAIMS)).unwrap();
    let found = counts.functions.iter().map(|one| (one.name.as_str(), one.public, one.lines, one.cites.len()));
    let all = [("call", true, 8, 1), ("more", true, 5, 1), ("private", false, 5, 1), ("said", false, 3, 0)];
    assert_eq!(found.collect::<Vec<_>>(), all);
    assert!(counts.functions[1].body == "\n    1\n}" && counts.functions[1].signature == "pub fn more() -> u32");
    assert_eq!(counts.calls, [0]);
    assert_eq!((counts.code_lines(|_| true), counts.proof_lines(), counts.edits()), (24, 3, vec!["call.no"]));
}

#[test]
fn a_claim_of_no_public_function_is_refused() {
    assert!(Counts::new(tree(&CLAIMS.replace("code.call", "code.private"))).is_err());
    assert!(Counts::new(tree(&CLAIMS.replace("code.call", "line.call"))).is_err());
}

#[test]
fn a_call_without_a_line_is_refused() {
    let without = |line: &str| {
        let mut crates = tree(CLAIMS);
        crates[1].specs.insert("Demand1".to_string(), CALLS.replace("  pub call :", line));
        Counts::new(crates)
    };
    assert!(without("  pub other :").is_err_and(|reason| reason.ends_with(" no line for call")));
    assert!(without("pub record Other : Type 0 where\n  pub call :").is_err());
}

#[test]
fn a_static_library_promises_what_the_calls_do() {
    let exported = |old: &str, new: &str| {
        let mut crates = tree(CLAIMS);
        let code = CODE.split("\n#[unsafe").next().unwrap();
        let code = code.replace("pub fn call(\n    low: u32,\n)", "pub extern \"C\" fn call(low: u32)");
        assert!(code.contains(old), "{old}");
        let code = BTreeMap::from([("lib".to_string(), code.replace(old, new))]);
        crates.push(Crate { name: "low_c".to_string(), is_static: true, code, ..Crate::default() });
        Counts::new(crates)
    };
    let same = exported("low: u32", "low: u32").unwrap();
    assert_eq!((same.functions.len(), same.public().count(), same.calls), (5, 3, vec![0]));
    let others =
        [("fn call", "fn more"), ("result }", "low.now }"), ("low: u32", "low: u64"), ("{kept", "{other as kept")];
    for (old, new) in others {
        let found = exported(old, new).err();
        assert!(found.is_some_and(|found| found.ends_with(" promises what no public call of that name does")), "{new}");
    }
}

#[test]
fn a_public_function_that_asks_something_is_refused() {
    let mut crates = tree(CLAIMS);
    crates[0].code.insert("code".to_string(), CODE.replace("fn private", "pub fn private"));
    assert!(Counts::new(crates).is_err_and(|reason| reason.contains("low::code::private")));
}

#[test]
fn a_public_function_that_promises_nothing_is_refused() {
    let mut crates = tree(CLAIMS);
    crates[0].code.insert("code".to_string(), CODE.replace("    ensures { result ≡ other.size }\n", ""));
    assert!(Counts::new(crates).is_err_and(|reason| reason == "low::code::more is public and promises nothing"));
}

#[test]
fn a_definition_that_is_not_found_is_refused() {
    let lost = Counts::new(tree(&CLAIMS.replace("Words.high", "Words.higher")));
    assert!(lost.is_err_and(|reason| reason.starts_with("low.specs.Words.higher ")));
}

#[test]
fn a_line_of_no_definition_is_refused() {
    assert!(Counts::new(tree(&CLAIMS.replace("abbrev pub Code", "  pub Code"))).is_err());
}

/// A ledger with functions that ask the system, one of them through another one, and one that does not.
const ASKS: &str = "\
use std::rt::HostRuntime;
use std::io::{ErrorKind, Read};

pub struct Handle {
    pub(crate) rt: HostRuntime,
}

impl Handle {
    pub fn new(rt: HostRuntime) -> Handle
        ensures { result ≡ record { rt = rt } }
    {
        Handle { rt }
    }
}

pub fn write_out(ledger: &mut u64, handle: Handle, bytes: &[u8]) -> bool
    ensures { result ≡ result }
{
    *ledger = one_more(*ledger, bytes.len());
    is_written(handle, bytes)
}

fn is_written(handle: Handle, bytes: &[u8]) -> bool {
    handle.rt.write_all(bytes).is_ok()
}

pub fn one_more(ledger: u64, bytes: usize) -> u64
    ensures { result ≡ result }
{
    std::num::wrapping_add_u64(ledger, bytes as u64)
}
";

const PROGRAM: &str = "\
ghost use Rattle.low.specs.Words.{step};

use ledger::handle::Handle;

fn main(rt: HostRuntime) {
    let mut ledger = 0u64;
    run(&mut ledger, Handle::new(rt));
}

fn run(ledger: &mut u64, handle: Handle) -> bool
    ensures { result ≡ step }
{
    ledger::output::write_out(
        ledger,
        handle,
        b\"yes\",
    )
}
";

/// The small tree with that ledger and that program, of which this file of this crate is another.
fn guarded(krate: &str, file: &str, text: &str) -> Result<Counts, String> {
    let code = |name: &str, file: &str, text: &str| Crate {
        name: name.to_string(),
        code: BTreeMap::from([(file.to_string(), text.to_string())]),
        ..Crate::default()
    };
    let mut crates = tree(CLAIMS);
    crates.extend([code("ledger", "output", ASKS), code("program", "main", PROGRAM)]);
    crates[3].needs = vec!["ledger".to_string()];
    crates[2].proofs.insert("output/write_out/Answers".to_string(), "returns c = enter_is _".to_string());
    let changed = crates.iter_mut().find(|one| one.name == krate).unwrap();
    let files = if file.starts_with("proofs/") { &mut changed.proofs } else { &mut changed.code };
    files.insert(file.to_string(), text.to_string());
    Counts::new(crates)
}

/// A file of the crate is refused for this reason.
fn refused(krate: &str, file: &str, text: &str, reason: &str) {
    let found = guarded(krate, file, text).err();
    assert!(found.as_ref().is_some_and(|found| found.contains(reason)), "{text}: {found:?}");
}

#[test]
fn only_the_ledger_may_ask_the_system() {
    let mut crates = tree(CLAIMS);
    crates[0].needs.push("os".to_string());
    assert!(Counts::new(crates).is_err_and(|reason| reason.starts_with("crates.txt lets low name os,")));
    refused("low", "more", "extern \"C\" {\n    fn write();\n}\n", "crates/low/src declares functions of C");
    refused("low", "more", "unsafe extern \"C\" {\n    fn write();\n}\n", "crates/low/src declares functions of C");
    refused("low", "more", "fn no() {\n    unsafe { *at }\n}\n", "crates/low/src has unsafe code");
    refused("low", "more", "fn no() {\n    println!(rt; \"no\");\n}\n", "crates/low/src has the macro `println!(rt;");
    refused("low", "more", "macro_rules! no {\n}\n", "crates/low/src has the macro `macro_rules!");
    for module in ["fs", "io", "env", "rt", "os", "process", "net", "thread", "time", "ptr", "array", "number"] {
        refused("low", "more", &format!("use std::{module}::what;\n"), "and only ledger may ask the system by std");
        refused(
            "program",
            "more",
            &format!("fn f() {{\n    std::{module}::g();\n}}\n"),
            "only ledger may ask the system",
        );
    }
    refused("low", "more", "use std::{fs, num};\n", "and only ledger may ask the system by std");
    refused("low", "more", "use core::rt;\n", "and only ledger may ask the system by std");
    refused("low", "more", "fn f(h: Handle) {\n    h.rt.stdin();\n}\n", "and only ledger may open a handle");
    assert!(guarded("low", "more", "// By `std::fs`, as the file `check.rt` does.\nfn f() {}\n").is_ok());
}

#[test]
fn the_ledger_asks_in_ways_that_are_known() {
    let says = |old: &str, new: &str, reason: &str| {
        assert!(ASKS.contains(old), "{old}");
        refused("ledger", "output", &ASKS.replace(old, new), reason);
    };
    says("{ErrorKind, Read};", "{ErrorKind, Write};", "ledger has `use std::io::{ErrorKind, Write};`");
    says("io::{ErrorKind, Read};", "fs::read;", "ledger has `use std::fs::read;`");
    says("    handle.rt", "    std::fs::read(b\"no\");\n    handle.rt", "ledger has `std::fs::read(b\"no\");`");
    says("pub(crate) rt", "pub rt", "ledger has `pub rt: HostRuntime,`");
    refused(
        "ledger",
        "more",
        "pub fn of(handle: Handle) -> HostRuntime {\n    handle.rt\n}\n",
        "ledger has `pub fn of",
    );
}

#[test]
fn only_a_main_is_given_the_system_and_gives_it_to_the_ledger() {
    let says = |old: &str, new: &str| {
        assert!(PROGRAM.contains(old), "{old}");
        refused(
            "program",
            "main",
            &PROGRAM.replace(old, new),
            "the main of program must be `fn main(rt: HostRuntime) {`",
        );
    };
    says("run(&mut ledger, Handle::new(rt))", "run(&mut ledger, other(rt))");
    says("    run(", "    other(rt);\n    run(");
    says("    run(", "    let other = rt;\n    run(");
    says("use ledger::handle::Handle;", "use low::handle::Handle;");
    says("fn main(rt: HostRuntime)", "fn main(it: HostRuntime)");
    says("fn run(", "fn other(rt: HostRuntime) {}\n\nfn run(");
    says("fn run(", "fn other(rt: LibcRuntime) {}\n\nfn run(");
    refused("low", "more", "pub fn other(rt: HostRuntime) {}\n", "only a main is given the system");
}

#[test]
fn only_the_ledger_may_open_it() {
    refused("low", "proofs/Other", "same = enter_is _", "Other names enter_is");
}

#[test]
fn a_run_has_one_ledger() {
    let twice = PROGRAM.replace("    run(", "    let mut ledger = 0u64;\n    run(");
    assert!(guarded("program", "main", &twice).is_err_and(|reason| reason.contains(" 2 times, and must have it 1 ")));
    let elsewhere = guarded("low", "more", "fn begin() {\n    let mut ledger = 0u64;\n}\n");
    assert!(elsewhere.is_err_and(|reason| reason.contains("low/src has `let mut ledger` 1 times")));
}

#[test]
fn the_ledger_is_only_handed_on() {
    let says = |old: &str, new: &str, reason: &str| {
        let found = guarded("program", "main", &PROGRAM.replace(old, new)).err();
        assert!(found.is_some_and(|found| found.starts_with(reason)), "{new}");
    };
    says("  ledger,", "  &mut other,", "program::main::run hands write_out something else than `ledger`");
    says("  ledger,", "  &mut ledger,", "program::main::run hands write_out something else than `ledger`");
    says("    run(&mut ledger", "    run(&mut other", "program::main::main hands run something else than `ledger`");
    says(
        "    run(",
        "    replace(&mut ledger, 0);\n    run(",
        "program::main::main does something else with the ledger",
    );
    says("    ledger::", "    let say = write_out;\n    ledger::", "program::main::run names write_out, which takes");
    says("    ledger::", "    *ledger = 0;\n    ledger::", "program::main::run does something else with the ledger");
    says("    ledger::", "    let other = ledger;\n    ledger::", "program::main::run does something else");
    says("    ledger::", "    replace(ledger, 0);\n    ledger::", "program::main::run does something else");
    let back = guarded("ledger", "more", "pub fn back(ledger: &mut u64) {\n    *ledger = 0;\n}\n");
    assert!(back.is_err_and(|reason| reason.starts_with("ledger::more::back does something else")));
    says("fn main", "use ledger::output::write_out as say;\n\nfn main", "crates/program/src gives write_out,");
}

#[test]
fn what_asks_the_system_and_what_a_run_promises_is_to_be_read() {
    let counts = guarded("program", "main", PROGRAM).unwrap();
    let rows = "| `ledger/src/output.rt` | `write_out`, `is_written` | 9 |\n| `program/src/main.rt` | `main` | 4 |\n";
    assert_eq!(counts.columns[..6], [0, 0, 1, 1, 2, 2]);
    assert!(pages::programs(&counts).ends_with(&format!("{rows}| together | | 13 of 37 |\n")));
}

#[test]
fn a_part_is_written_whole() {
    let page = "a\n<!-- counted: x -->\nold\n<!-- end of counted -->\nb\n<!-- end of counted -->\n";
    let made = pages::with_part(page, "x", "new\n").unwrap();
    assert_eq!(made, page.replace("old", "new"));
    assert!(pages::with_part(page, "y", "new\n").is_err());
}

#[test]
fn the_lines_of_a_file_stand_behind_its_name() {
    let files = |lines| BTreeMap::from([(("low".to_string(), "Words".to_string()), lines)]);
    let page = "`high/specs`: `Words` 7. `low/specs`: the `Words`\n9, and `Words`.";
    assert_eq!(pages::with_files(page, &files(12)).unwrap(), page.replace('9', "12"));
    assert!(pages::with_files("`low/specs`: `Words`, 9", &files(12)).is_err());
    assert!(pages::with_files("`low/specs`: nothing", &files(0)).is_ok());
}

#[test]
fn a_wrong_answer_is_known_by_its_form() {
    assert_eq!(pages::edits("`a_b.c_1`, a.b_c, `a.rt`, `A.b_c`, `a/b.c_d`, `a.b_c`."), ["a_b.c_1", "a.b_c"]);
    assert_eq!(pages::named("a `b` c `d.e`"), ["b", "d.e"]);
}

#[test]
fn the_tables_have_the_counts() {
    let counts = Counts::new(tree(CLAIMS)).unwrap();
    assert!(pages::definitions(&counts).contains("| `low` | 6 | 4 | 0 | 2 | 2 |\n| `claims` | 0 | 4 | 0 | 0 | 0 |\n"));
    assert!(pages::definitions(&counts).contains("So 14 of 18 lines are to be believed."));
    assert!(pages::calls(&counts).ends_with("| `call` | `low/src/code.rt` | `Kept` (`low/specs/Words`) |\n"));
    assert!(pages::gate(&counts).starts_with("    3 passed, 0 failed\n"));
}

#[test]
fn what_was_compared_is_taken_from_the_last_lines() {
    let runs = |of: &str| format!("compare: 53 runs of {of}, and the 1000 lines that it wrote, agree\n");
    let (calls, program, why) = ("compare: 1174408 calls agree\n", runs("the program"), runs("why").replace("53", "7"));
    let text = pages::compared(&format!("{calls}{program}{why}")).unwrap();
    assert!(text.contains(" 1,174,408 calls; 53 runs of the program, which wrote 1,000 lines;\n"));
    assert!(text.ends_with("and 7 runs of `why`, which wrote 1,000 lines.\n"));
    assert!(pages::compared(calls).is_err() && pages::compared(&format!("{calls}{program}")).is_err());
}
