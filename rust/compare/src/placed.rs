//! What stands in the program's folder where one of its files should be.

use std::fs::{self, File, OpenOptions, Permissions};
use std::io::{self, ErrorKind, Write};
use std::os::unix::fs::{symlink, OpenOptionsExt, PermissionsExt};
use std::path::Path;
use std::process::Command;
use std::thread;
use std::time::{Duration, Instant};

use oracle::program::Found;

/// A file that can be opened and gives an error when it is read from its start.
const READ_ERROR: &str = "/proc/self/mem";
/// Opens a pipe for writing without waiting for its reader. As on Linux, on every machine.
const NOT_WAITING: i32 = 0o4000;
/// How long a named pipe waits for the program to open it, or to read from it.
const PATIENCE: Duration = Duration::from_secs(20);
/// How long it waits before it tries again, and between two pieces.
const PAUSE: Duration = Duration::from_micros(200);

#[derive(Clone, Debug)]
pub enum Placed {
    Missing,
    Folder,
    /// A link to itself, which nothing can open.
    Loop,
    /// A link to a file that opens, but whose reading fails.
    ReadError,
    /// A file that its owner may not read.
    Locked(Vec<u8>),
    File(Vec<u8>),
    /// A named pipe, through which the bytes come in pieces of this length: every read is short.
    Pipe(Vec<u8>, usize),
}

impl Placed {
    pub fn file(bytes: impl Into<Vec<u8>>) -> Placed {
        Placed::File(bytes.into())
    }

    /// What the oracle is told of it.
    pub fn found(&self) -> Found<'_> {
        match self {
            Placed::Missing => Found::Missing,
            Placed::Folder | Placed::Loop | Placed::ReadError | Placed::Locked(_) => Found::Unreadable,
            Placed::File(bytes) | Placed::Pipe(bytes, _) => Found::Bytes(bytes),
        }
    }

    /// Puts it at this path, in place of what is there.
    pub fn put(&self, path: &Path) -> io::Result<()> {
        remove(path)?;
        match self {
            Placed::Missing => Ok(()),
            Placed::Folder => fs::create_dir(path),
            Placed::Loop => symlink(path, path),
            Placed::ReadError => symlink(READ_ERROR, path),
            Placed::File(bytes) => fs::write(path, bytes),
            Placed::Locked(bytes) => {
                fs::write(path, bytes)?;
                fs::set_permissions(path, Permissions::from_mode(0o000))
            }
            Placed::Pipe(..) => match Command::new("mkfifo").arg(path).status()? {
                status if status.success() => Ok(()),
                status => Err(io::Error::other(format!("mkfifo ended with {status}"))),
            },
        }
    }

    /// Writes the bytes of a named pipe, once the program has opened it. The program may close it before all is
    /// written, or never open it; what it answers then is the comparison's to judge.
    pub fn feed(&self, path: &Path) {
        let Placed::Pipe(bytes, piece) = self else { return };
        let open = || OpenOptions::new().write(true).custom_flags(NOT_WAITING).open(path);
        let until = Instant::now() + PATIENCE;
        let Ok(mut pipe) = retried(until, open) else { return };
        for part in bytes.chunks(*piece) {
            if write_part(&mut pipe, part, until).is_err() {
                return;
            }
            thread::sleep(PAUSE);
        }
    }
}

/// Can this process not read a file that its owner may not read? The system's first user can.
pub fn locks_hold(path: &Path) -> io::Result<bool> {
    Placed::Locked(Vec::new()).put(path)?;
    let opened = File::open(path).is_ok();
    remove(path)?;
    Ok(!opened)
}

fn remove(path: &Path) -> io::Result<()> {
    match fs::symlink_metadata(path) {
        Err(error) if error.kind() == ErrorKind::NotFound => Ok(()),
        Err(error) => Err(error),
        Ok(found) if found.is_dir() => fs::remove_dir(path),
        Ok(_) => fs::remove_file(path),
    }
}

/// Writes all of a piece to a pipe that is full at times.
fn write_part(pipe: &mut File, mut part: &[u8], until: Instant) -> io::Result<()> {
    while !part.is_empty() {
        let written = retried(until, || pipe.write(part))?;
        part = &part[written..];
    }
    Ok(())
}

/// Does it again until it is done, or the time is over.
fn retried<T>(until: Instant, mut action: impl FnMut() -> io::Result<T>) -> io::Result<T> {
    loop {
        match action() {
            Err(error) if error.kind() != ErrorKind::BrokenPipe && Instant::now() < until => thread::sleep(PAUSE),
            done => return done,
        }
    }
}
