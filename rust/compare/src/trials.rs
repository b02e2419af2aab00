//! Runs of a program beside the oracle's own, with all that it writes compared byte for byte.

use std::collections::BTreeMap;
use std::io::{self, Write};
use std::thread;
use std::time::Instant;

use oracle::{program, why};

use crate::bench::Run;
use crate::placed::{self, Placed};
use crate::process::{Deaf, Fault, Feed, Program, Running};

/// The most bytes of a file, of the input and of either output that are written out.
const SHOWN_BYTES: usize = 600;
/// The bytes that are written out before the first difference, and after it.
const SHOWN_BESIDE: usize = 100;

/// The two files as they stand in the program's folder, and what it is started with.
#[derive(Clone, Debug)]
pub struct Stand {
    pub rules: Placed,
    pub tree: Placed,
    /// The words that `why` is started with; None where the other program is run, which takes none.
    pub words: Option<Vec<Vec<u8>>>,
}

impl Stand {
    pub fn of(rules: impl Into<Vec<u8>>, tree: impl Into<Vec<u8>>) -> Stand {
        Stand::placed(Placed::file(rules), Placed::file(tree))
    }

    pub fn placed(rules: Placed, tree: Placed) -> Stand {
        Stand { rules, tree, words: None }
    }

    /// The same for `why`, started with these words.
    pub fn asked(self, words: &[impl AsRef<[u8]>]) -> Stand {
        Stand { words: Some(words.iter().map(|word| word.as_ref().to_vec()).collect()), ..self }
    }

    /// What the oracle's program writes.
    pub fn answers(&self, input: &[u8]) -> Vec<u8> {
        match &self.words {
            None => program(self.rules.found(), self.tree.found(), input),
            Some(words) => why(&words.iter().map(Vec::as_slice).collect::<Vec<_>>(), self.rules.found(), input),
        }
    }
}

/// Written lines by their first word and, where that is `refused`, by number.
type Tally = BTreeMap<(String, u64), u64>;

pub struct Trials {
    /// What the lines of the groups begin with.
    name: &'static str,
    program: Program,
    group: String,
    runs: u64,
    lines: u64,
    /// The written lines of the group.
    tally: Tally,
    note: String,
}

impl Trials {
    pub fn new(name: &'static str, program: Program) -> Trials {
        let (group, note) = (String::new(), String::new());
        Trials { name, program, group, runs: 0, lines: 0, tally: Tally::new(), note }
    }

    /// Removes the program's folders. Gives how many runs were compared, and how many lines they wrote.
    pub fn finish(self) -> io::Result<(u64, u64)> {
        self.program.remove_folders().map(|()| (self.runs, self.lines))
    }

    /// Runs a group of comparisons, and writes its line: what it does at once, what came of it at its end.
    pub fn group(&mut self, deed: &str, run: impl FnOnce(&mut Trials) -> Run) -> Run {
        self.group = format!("{}: {deed}", self.name);
        print!("{} ..", self.group);
        io::stdout().flush().expect("standard output is written");
        let (runs, lines, start) = (self.runs, self.lines, Instant::now());
        self.tally.clear();
        self.note.clear();
        run(self)?;
        assert!(self.runs > runs, "a group compares something");
        let (runs, lines, seconds) = (self.runs - runs, self.lines - lines, start.elapsed().as_secs_f64());
        println!(" {runs} runs, {lines} lines in {seconds:.2} s: {}{}", tally_text(&self.tally), self.note);
        Ok(())
    }

    /// Says so at the end of the group's line.
    pub fn note(&mut self, note: &str) {
        self.note = format!("; {note}");
    }

    /// Can this process not read a file that its owner may not read?
    pub fn locks_hold(&self) -> bool {
        placed::locks_hold(&self.program.folder().join("tree.txt")).expect("the program's folder can be written to")
    }

    /// Runs the program on this input. Gives what it wrote, which is what the oracle's program writes.
    pub fn compare(&mut self, case: &str, stand: &Stand, input: &[u8], feed: Feed) -> Result<Vec<u8>, String> {
        let (wrote, fault) = self.with_files(stand, |program| program.run(input, feed))?;
        let manner = format!("{feed:?}");
        self.judge(&Trial { case, stand, input, manner, wrote, fault }, &stand.answers(input))
    }

    /// Talks with the program: what each part of the input must be answered comes before the next part is sent, and
    /// nothing else does. After the last part the input ends.
    pub fn converse(&mut self, case: &str, stand: &Stand, parts: &[&[u8]]) -> Run {
        let input = &parts.concat();
        let (wrote, fault) = self.with_files(stand, |program| {
            let mut running = Running::start(program)?;
            let (mut wrote, mut said) = (Vec::new(), 0);
            for part in parts {
                running.say(part);
                said += part.len();
                // A line that is pending is answered when its newline comes, or at the end.
                let whole_lines = input[..said].iter().rposition(|&byte| byte == b'\n').map_or(0, |last| last + 1);
                let due = stand.answers(&input[..whole_lines]);
                wrote.extend(running.hear(due.len().saturating_sub(wrote.len())));
                if wrote != due {
                    return Ok((wrote, Some(Fault::NotDue { sent: said, due })));
                }
            }
            let (rest, fault) = running.finish();
            wrote.extend(rest);
            Ok((wrote, fault))
        })?;
        let manner = format!("in {} parts, each answered before the next", parts.len());
        self.judge(&Trial { case, stand, input, manner, wrote, fault }, &stand.answers(input)).map(|_| ())
    }

    /// The program must end by itself while its input stays open, having written what the oracle writes.
    pub fn ends_alone(&mut self, case: &str, stand: &Stand) -> Run {
        let (wrote, fault) = self.with_files(stand, |program| Ok(Running::start(program)?.hear_out()))?;
        let manner = "open, and nothing is sent".to_string();
        self.judge(&Trial { case, stand, input: b"", manner, wrote, fault }, &stand.answers(b"")).map(|_| ())
    }

    /// The program must stop where its output cannot be written, though its input stays open.
    pub fn stops_deaf(&mut self, case: &str, stand: &Stand, input: &[u8], output: Deaf) -> Run {
        let fault = self.with_files(stand, |program| program.run_deaf(input, output))?;
        let manner = format!("open, with output {output:?}");
        self.judge(&Trial { case, stand, input, manner, wrote: Vec::new(), fault }, b"").map(|_| ())
    }

    /// Puts both files into the program's folder, has the program run, started with its words, and feeds those that are
    /// pipes for so long.
    fn with_files<T>(&self, stand: &Stand, run: impl FnOnce(&Program) -> io::Result<T>) -> Result<T, String> {
        thread::scope(|scope| {
            for (name, placed) in [("rules.txt", &stand.rules), ("tree.txt", &stand.tree)] {
                let path = self.program.folder().join(name);
                placed.put(&path).map_err(|error| format!("{} cannot be made: {error}", path.display()))?;
                scope.spawn(move || placed.feed(&path));
            }
            let program = self.program.started_with(stand.words.as_deref().unwrap_or_default());
            run(&program).map_err(|error| format!("the program cannot be run: {error}"))
        })
    }

    /// Gives what the program wrote where this was wanted, and nothing went wrong.
    fn judge(&mut self, trial: &Trial, wanted: &[u8]) -> Result<Vec<u8>, String> {
        if trial.fault.is_some() || trial.wrote != wanted {
            return Err(trial.mismatch(&self.group, wanted));
        }
        self.runs += 1;
        for line in wanted.split_inclusive(|&byte| byte == b'\n') {
            self.lines += 1;
            *self.tally.entry(kind_of(line)).or_default() += 1;
        }
        Ok(trial.wrote.clone())
    }
}

/// One run, and what came of it.
struct Trial<'a> {
    case: &'a str,
    stand: &'a Stand,
    input: &'a [u8],
    /// How the input came.
    manner: String,
    wrote: Vec<u8>,
    fault: Option<Fault>,
}

impl Trial<'_> {
    /// The difference from what was wanted, in writing.
    fn mismatch(&self, group: &str, wanted: &[u8]) -> String {
        let wrote = &self.wrote;
        let mut text = String::from("MISMATCH in the program\n");
        let mut say = |name: &str, what: &str| text += &format!("  {name:<10} {what}\n");
        say("group", group);
        say("case", self.case);
        if let Some(words) = &self.stand.words {
            say("words", &words.iter().map(|word| format!("\"{}\" ", shown(word))).collect::<String>());
        }
        say("rules.txt", &placed_text(&self.stand.rules));
        say("tree.txt", &placed_text(&self.stand.tree));
        say("input", &format!("{}, {}", self.manner, bytes_text(self.input)));
        say("program", &bytes_text(wrote));
        say("oracle", &bytes_text(wanted));
        if let Some(fault) = &self.fault {
            say("fault", &fault.to_string());
        }
        if let Some(at) = first_difference(wrote, wanted) {
            let line = wanted[..at].iter().filter(|&&byte| byte == b'\n').count() + 1;
            say("differ", &format!("first at byte {at}, in line {line}"));
            say("  program", &format!("..\"{}\"..", around(wrote, at)));
            say("  oracle", &format!("..\"{}\"..", around(wanted, at)));
        }
        text
    }
}

/// The line's first word, and the number of a refusal.
fn kind_of(line: &[u8]) -> (String, u64) {
    let line = String::from_utf8_lossy(line);
    let mut words = line.trim_end().split('\t');
    let first = words.next().unwrap_or_default().to_string();
    let number = words.next().filter(|_| first == "refused");
    (first, number.map_or(0, |number| number.parse().expect("the oracle writes numbers")))
}

fn tally_text(tally: &Tally) -> String {
    let number = |number: &u64| if *number == 0 { String::new() } else { format!(" {number}") };
    let counts = tally.iter().map(|((first, refusal), count)| format!("{count} {first}{}", number(refusal)));
    match counts.collect::<Vec<_>>().join(", ") {
        none if none.is_empty() => "nothing written".to_string(),
        counts => counts,
    }
}

fn first_difference(wrote: &[u8], wanted: &[u8]) -> Option<usize> {
    let common = wrote.iter().zip(wanted).take_while(|(one, other)| one == other).count();
    (common < wrote.len().max(wanted.len())).then_some(common)
}

fn around(bytes: &[u8], at: usize) -> String {
    let from = at.saturating_sub(SHOWN_BESIDE).min(bytes.len());
    bytes[from..bytes.len().min(at + SHOWN_BESIDE)].escape_ascii().to_string()
}

fn placed_text(placed: &Placed) -> String {
    match placed {
        Placed::File(bytes) => bytes_text(bytes),
        Placed::Locked(bytes) => format!("locked, {}", bytes_text(bytes)),
        Placed::Pipe(bytes, piece) => format!("a pipe in pieces of {piece}, {}", bytes_text(bytes)),
        other => format!("{other:?}"),
    }
}

fn bytes_text(bytes: &[u8]) -> String {
    let more = if bytes.len() > SHOWN_BYTES { ".." } else { "" };
    format!("{} bytes: \"{}\"{more}", bytes.len(), shown(bytes))
}

fn shown(bytes: &[u8]) -> String {
    bytes[..bytes.len().min(SHOWN_BYTES)].escape_ascii().to_string()
}
