//! The lender: a program beside this one, built from `lender.c`, that has the arena mapped and makes the calls.

use std::ffi::OsString;
use std::fmt::{self, Display, Formatter};
use std::fs::{self, File};
use std::io::{self, ErrorKind, Read, Write};
use std::net::Shutdown;
use std::os::fd::OwnedFd;
use std::os::unix::net::UnixStream;
use std::path::Path;
use std::process::{Child, Command, ExitStatus};
use std::time::Duration;

use crate::abi::Request;
use crate::arena::ARENA_BYTES;
use crate::mapping::Mapping;

/// How long a reply may take. A call takes far less than a second, under an emulator too.
const PATIENCE: Duration = Duration::from_secs(60);

pub struct Lender {
    child: Child,
    /// The other end is the lender's standard input and output.
    stream: UnixStream,
}

/// Why a call was not answered. The lender has ended.
pub enum Silence {
    /// It ended by itself, with this status.
    Ended(ExitStatus),
    /// It was ended, since no reply came.
    NoReply,
    /// It was ended, since its reply was another word than this.
    WrongReply { wanted: u64, found: u64 },
}

/// Makes the arena's file at this path, maps it, and starts the lender with the path after the words of its command.
/// The file is removed as soon as both have it mapped, or something failed.
pub fn start(command: &[OsString], path: &Path) -> Result<(Lender, Mapping), String> {
    let file = File::options()
        .read(true)
        .write(true)
        .create_new(true)
        .open(path)
        .map_err(|error| format!("{} cannot be made: {error}", path.display()))?;
    let started = map_and_start(&file, path, command);
    fs::remove_file(path).map_err(|error| format!("{} cannot be removed: {error}", path.display()))?;
    started
}

fn map_and_start(file: &File, path: &Path, command: &[OsString]) -> Result<(Lender, Mapping), String> {
    let mapping =
        Mapping::of(file, ARENA_BYTES).map_err(|error| format!("{} cannot be mapped: {error}", path.display()))?;
    let mut lender = Lender::spawn(command, path).map_err(|error| format!("{command:?} cannot be run: {error}"))?;
    lender.expect_reply(ARENA_BYTES as u64).map_err(|silence| format!("{command:?} is not ready: {silence}"))?;
    Ok((lender, mapping))
}

impl Lender {
    fn spawn(command: &[OsString], arena: &Path) -> io::Result<Lender> {
        let (stream, lenders_end) = UnixStream::pair()?;
        stream.set_read_timeout(Some(PATIENCE))?;
        stream.set_write_timeout(Some(PATIENCE))?;
        let lenders_end = OwnedFd::from(lenders_end);
        // This program keeps no copy of the lender's end, so that a lender that has ended is noticed at once.
        let child = Command::new(&command[0])
            .args(&command[1..])
            .arg(arena)
            .stdin(lenders_end.try_clone()?)
            .stdout(lenders_end)
            .spawn()?;
        Ok(Lender { child, stream })
    }

    /// Has the lender make the call, and waits until it has. The lent bytes are borrowed alone for so long.
    pub fn call(&mut self, _lent: &mut Mapping, request: &Request) -> Result<(), Silence> {
        match self.stream.write_all(request.words().map(u64::to_le_bytes).as_flattened()) {
            Err(error) => Err(self.silence(error)),
            Ok(()) => self.expect_reply(request.call.number()),
        }
    }

    /// Ends the lender's input, after which it must end well.
    pub fn finish(mut self) -> Result<(), Silence> {
        let rest = self.stream.shutdown(Shutdown::Write).and_then(|()| self.stream.read(&mut [0; 1]));
        match rest {
            Err(error) => Err(self.silence(error)),
            Ok(_) => match self.end() {
                status if status.success() => Ok(()),
                status => Err(Silence::Ended(status)),
            },
        }
    }

    /// Waits for the lender's next word, which must be this one.
    fn expect_reply(&mut self, wanted: u64) -> Result<(), Silence> {
        let mut reply = [0; 8];
        match self.stream.read_exact(&mut reply).map(|()| u64::from_le_bytes(reply)) {
            Err(error) => Err(self.silence(error)),
            Ok(found) if found == wanted => Ok(()),
            Ok(found) => {
                self.end();
                Err(Silence::WrongReply { wanted, found })
            }
        }
    }

    /// What this failure of the stream means. It times out where nothing came, and breaks where the lender ended.
    fn silence(&mut self, error: io::Error) -> Silence {
        let status = self.end();
        match error.kind() {
            ErrorKind::WouldBlock | ErrorKind::TimedOut => Silence::NoReply,
            _ => Silence::Ended(status),
        }
    }

    /// Ends the lender where it has not ended by itself, and gives its status.
    fn end(&mut self) -> ExitStatus {
        self.child.kill().and_then(|()| self.child.wait()).expect("a program that was started can be ended")
    }
}

impl Display for Silence {
    fn fmt(&self, to: &mut Formatter) -> fmt::Result {
        match self {
            Silence::Ended(status) => write!(to, "the lender ended with {status}"),
            Silence::NoReply => write!(to, "the lender gave no reply for {} seconds", PATIENCE.as_secs()),
            Silence::WrongReply { wanted, found } => write!(to, "the lender replied {found}, not {wanted}"),
        }
    }
}
