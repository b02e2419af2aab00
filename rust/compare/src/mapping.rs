//! Bytes that are shared with the lender: a file that both programs have mapped.
//!
//! All unsafe code of the comparison is in this module.

use std::ffi::{c_int, c_void};
use std::fs::File;
use std::io;
use std::os::fd::AsRawFd;
use std::{ptr, slice};

// As on Linux of 64 bits, on every machine.
extern "C" {
    fn mmap(at: *mut c_void, size: usize, access: c_int, flags: c_int, file: c_int, offset: i64) -> *mut c_void;
    fn munmap(at: *mut c_void, size: usize) -> c_int;
}

const PROT_READ: c_int = 1;
const PROT_WRITE: c_int = 2;
const MAP_SHARED: c_int = 1;
/// The address that `mmap` gives where it fails.
const MAP_FAILED: usize = usize::MAX;

pub struct Mapping {
    start: *mut u8,
    length: usize,
}

impl Mapping {
    /// Makes the file this many bytes long, each of them 0, and maps it.
    pub fn of(file: &File, length: usize) -> io::Result<Mapping> {
        file.set_len(length as u64)?;
        // SAFETY: the system chooses where the mapping stands, so it replaces no memory of this program.
        let start = unsafe { mmap(ptr::null_mut(), length, PROT_READ | PROT_WRITE, MAP_SHARED, file.as_raw_fd(), 0) };
        if start.addr() == MAP_FAILED {
            return Err(io::Error::last_os_error());
        }
        Ok(Mapping { start: start.cast(), length })
    }

    pub fn bytes(&self) -> &[u8] {
        // SAFETY: `start` is the start of a page and `length` bytes from it are mapped until this is dropped. The
        // lender writes to them within `Lender::call` only, which borrows this mapping alone, so not while the
        // slice is in use.
        unsafe { slice::from_raw_parts(self.start, self.length) }
    }

    pub fn bytes_mut(&mut self) -> &mut [u8] {
        // SAFETY: as in `bytes`; the mapping is borrowed alone, so there is no other slice of it.
        unsafe { slice::from_raw_parts_mut(self.start, self.length) }
    }
}

impl Drop for Mapping {
    fn drop(&mut self) {
        // SAFETY: this is the whole mapping that `of` made, and no slice of it outlives it.
        unsafe { munmap(self.start.cast(), self.length) };
    }
}
