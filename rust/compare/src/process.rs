//! A program as a process: started in its folder, fed through standard input, and listened to.

use std::ffi::OsString;
use std::fmt::{self, Display, Formatter};
use std::fs::{self, File};
use std::io::{self, Read, Write};
use std::os::unix::ffi::OsStringExt;
use std::path::{Path, PathBuf};
use std::process::{Child, ChildStdin, ChildStdout, Command, ExitStatus, Stdio};
use std::sync::mpsc::{self, Receiver, RecvTimeoutError, Sender};
use std::thread;
use std::time::{Duration, Instant};

/// How long a run, or the wait for an answer, may take. Either takes far less than a second, under an emulator too.
const PATIENCE: Duration = Duration::from_secs(20);
/// How long a program that has nothing to answer is listened to.
const SILENCE: Duration = Duration::from_millis(15);
/// Between two short pieces of the input, so that the program reads each by itself.
const PAUSE: Duration = Duration::from_micros(100);
/// Pieces from this length on follow each other at once.
const LONG_PIECE: usize = 4_096;
/// No run writes so much.
const TOO_MUCH: usize = 1 << 26;

/// How the input comes.
#[derive(Clone, Copy, Debug)]
pub enum Feed {
    /// From a file.
    File,
    /// Through a pipe, in pieces of this length.
    Pieces(usize),
    /// From a folder, so that the first read fails.
    Folder,
}

/// Where the program's output goes in a run that is not listened to.
#[derive(Clone, Copy, Debug)]
pub enum Deaf {
    /// To a pipe whose other end is closed.
    Closed,
    /// To a device that is full.
    Full,
}

/// What went wrong in a run, apart from what the program wrote to standard output.
pub enum Fault {
    /// It was ended, since it did not end by itself.
    NoEnd,
    Ended(ExitStatus),
    /// It wrote this to standard error.
    Said(Vec<u8>),
    /// It had written something else than this, which was due when so many bytes of the input had been sent.
    NotDue {
        sent: usize,
        due: Vec<u8>,
    },
}

/// The program's command, and the folders of its runs.
pub struct Program {
    command: Vec<OsString>,
    /// Holds the input where it comes from a file, what is said on standard error, and the program's own folder.
    base: PathBuf,
}

impl Program {
    /// Makes the folders in this one. What the command names must be found from any folder.
    pub fn new(command: &[OsString], base: PathBuf) -> io::Result<Program> {
        let program = Program { command: command.to_vec(), base };
        fs::create_dir_all(program.folder())?;
        Ok(program)
    }

    /// The same program, with these words after its command.
    pub fn started_with(&self, words: &[Vec<u8>]) -> Program {
        let words = words.iter().map(|word| OsString::from_vec(word.clone()));
        Program { command: self.command.iter().cloned().chain(words).collect(), base: self.base.clone() }
    }

    /// The folder that the program is run in, which has its two files.
    pub fn folder(&self) -> PathBuf {
        self.base.join("policy")
    }

    pub fn remove_folders(&self) -> io::Result<()> {
        fs::remove_dir_all(&self.base)
    }

    /// Runs the program on this input. Gives what it wrote.
    pub fn run(&self, input: &[u8], feed: Feed) -> io::Result<(Vec<u8>, Option<Fault>)> {
        match feed {
            Feed::File => {
                let path = self.base.join("input");
                fs::write(&path, input)?;
                Ok(Running::with(self, Stdio::from(File::open(path)?))?.finish())
            }
            Feed::Folder => Ok(Running::with(self, Stdio::from(File::open(&self.base)?))?.finish()),
            Feed::Pieces(length) => {
                let running = Running::start(self)?;
                input.chunks(length).for_each(|piece| running.say(piece));
                Ok(running.finish())
            }
        }
    }

    /// Runs the program on input that does not end, where nothing that it writes can be taken. It must stop.
    pub fn run_deaf(&self, input: &[u8], output: Deaf) -> io::Result<Option<Fault>> {
        let stdout = match output {
            // Closed before the program starts: its first write may come at once.
            Deaf::Closed => Stdio::from(io::pipe()?.1),
            Deaf::Full => Stdio::from(File::options().write(true).open("/dev/full")?),
        };
        let mut child = self.command(Stdio::piped(), stdout)?.spawn()?;
        let pipe = child.stdin.take().map(speak);
        say(&pipe, input);
        match wait(&mut child) {
            None => Ok(Some(Fault::NoEnd)),
            Some(_) => said(&self.said()),
        }
    }

    fn said(&self) -> PathBuf {
        self.base.join("said")
    }

    fn command(&self, stdin: Stdio, stdout: Stdio) -> io::Result<Command> {
        let mut command = Command::new(&self.command[0]);
        let said = File::create(self.said())?;
        command.args(&self.command[1..]).current_dir(self.folder()).stdin(stdin).stdout(stdout).stderr(said);
        Ok(command)
    }
}

/// The program while it runs.
pub struct Running {
    child: Child,
    /// Where its input goes, if it comes through a pipe and has not ended.
    input: Option<Sender<Vec<u8>>>,
    /// What it writes, piece by piece.
    output: Receiver<Vec<u8>>,
    said: PathBuf,
}

impl Running {
    /// Starts the program, whose input comes through a pipe.
    pub fn start(program: &Program) -> io::Result<Running> {
        Running::with(program, Stdio::piped())
    }

    fn with(program: &Program, stdin: Stdio) -> io::Result<Running> {
        let mut child = program.command(stdin, Stdio::piped())?.spawn()?;
        let stdout = child.stdout.take().expect("standard output is a pipe");
        let (input, output) = (child.stdin.take().map(speak), listen(stdout));
        Ok(Running { child, input, output, said: program.said() })
    }

    /// Gives the program some input, and leaves more to come.
    pub fn say(&self, bytes: &[u8]) {
        say(&self.input, bytes);
    }

    /// What the program writes: so many bytes, fewer where it ends or the time is over, or more where it writes more
    /// than is waited for.
    pub fn hear(&mut self, length: usize) -> Vec<u8> {
        let until = Instant::now() + PATIENCE;
        let mut heard = Vec::new();
        while heard.len() < length {
            match self.output.recv_timeout(until.saturating_duration_since(Instant::now())) {
                Ok(piece) => heard.extend(piece),
                Err(_) => return heard,
            }
        }
        heard.extend(self.output.recv_timeout(SILENCE).unwrap_or_default());
        heard
    }

    /// Ends the input, and gives all that the program still writes.
    pub fn finish(mut self) -> (Vec<u8>, Option<Fault>) {
        self.input = None;
        self.hear_out()
    }

    /// Gives all that the program writes while its input stays open, until it ends.
    pub fn hear_out(&mut self) -> (Vec<u8>, Option<Fault>) {
        let until = Instant::now() + PATIENCE;
        let mut wrote = Vec::new();
        while wrote.len() < TOO_MUCH {
            match self.output.recv_timeout(until.saturating_duration_since(Instant::now())) {
                Ok(piece) => wrote.extend(piece),
                Err(RecvTimeoutError::Disconnected) => return self.ending(wrote),
                Err(RecvTimeoutError::Timeout) => break,
            }
        }
        end(&mut self.child);
        (wrote, Some(Fault::NoEnd))
    }

    /// What the program wrote, now that it writes no more. It must end well, with nothing on standard error.
    fn ending(&mut self, wrote: Vec<u8>) -> (Vec<u8>, Option<Fault>) {
        let fault = match wait(&mut self.child) {
            None => Some(Fault::NoEnd),
            Some(status) if !status.success() => Some(Fault::Ended(status)),
            Some(_) => said(&self.said).expect("what was said can be read"),
        };
        (wrote, fault)
    }
}

impl Drop for Running {
    fn drop(&mut self) {
        end(&mut self.child);
    }
}

/// Takes what the program writes, at once.
fn listen(mut stdout: ChildStdout) -> Receiver<Vec<u8>> {
    let (send, output) = mpsc::channel();
    thread::spawn(move || {
        let mut piece = vec![0; 1 << 16];
        while let Ok(length @ 1..) = stdout.read(&mut piece) {
            if send.send(piece[..length].to_vec()).is_err() {
                break;
            }
        }
    });
    output
}

/// Writes to the program each piece that is sent, and ends its input when there are no more to come.
fn speak(mut pipe: ChildStdin) -> Sender<Vec<u8>> {
    let (input, pieces) = mpsc::channel::<Vec<u8>>();
    thread::spawn(move || {
        for piece in pieces {
            if pipe.write_all(&piece).is_err() {
                break;
            }
            if piece.len() < LONG_PIECE {
                thread::sleep(PAUSE);
            }
        }
    });
    input
}

/// Sends a piece. A program that has ended takes none; that shows in what it wrote.
fn say(input: &Option<Sender<Vec<u8>>>, bytes: &[u8]) {
    let _ = input.as_ref().map(|input| input.send(bytes.to_vec()));
}

/// The status that the program ends with by itself; where it does not in time it is ended, and there is none.
fn wait(child: &mut Child) -> Option<ExitStatus> {
    let until = Instant::now() + PATIENCE;
    while Instant::now() < until {
        if let Some(status) = child.try_wait().expect("a program that was started can be waited for") {
            return Some(status);
        }
        thread::sleep(PAUSE);
    }
    end(child);
    None
}

/// Ends the program where it has not ended by itself.
fn end(child: &mut Child) {
    child.kill().and_then(|()| child.wait()).expect("a program that was started can be ended");
}

fn said(path: &Path) -> io::Result<Option<Fault>> {
    let said = fs::read(path)?;
    Ok((!said.is_empty()).then_some(Fault::Said(said)))
}

impl Display for Fault {
    fn fmt(&self, to: &mut Formatter) -> fmt::Result {
        match self {
            Fault::NoEnd => write!(to, "it did not end within {} seconds", PATIENCE.as_secs()),
            Fault::Ended(status) => write!(to, "it ended with {status}"),
            Fault::Said(said) => write!(to, "it wrote to standard error: \"{}\"", said.escape_ascii()),
            Fault::NotDue { sent, due } => {
                write!(to, "after {sent} bytes it had not written what was due: \"{}\"", due.escape_ascii())
            }
        }
    }
}
