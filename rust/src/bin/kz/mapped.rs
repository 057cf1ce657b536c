//! A file of floats that is mapped to memory and not read: all processes of a machine that use it share one copy.
//!
//! What is mapped changes where the file does. A file that is replaced, as `kz weights --force` does it, stays as it
//! was for whoever has it open; one that is written over is found out by `unchanged`, and one that is cut short ends
//! the run with words: no program can go on there.

use crate::files;
use crate::shown::shown;
use std::ffi::{c_int, c_void};
use std::fs::File;
use std::io;
use std::ops::Deref;
use std::os::fd::AsRawFd;
use std::os::unix::fs::MetadataExt;
use std::path::Path;
use std::sync::OnceLock;

// As Linux has them on x86-64.
const PROT_READ: c_int = 1;
const MAP_SHARED: c_int = 1;
const SIGBUS: c_int = 7;

extern "C" {
    fn mmap(at: *mut c_void, len: usize, prot: c_int, flags: c_int, file: c_int, from: i64) -> *mut c_void;
    fn munmap(at: *mut c_void, len: usize) -> c_int;
    fn signal(number: c_int, handler: extern "C" fn(c_int)) -> usize;
    fn write(file: c_int, bytes: *const u8, len: usize) -> isize;
    fn _exit(status: c_int) -> !;
}

/// Floats that are held, or those of a mapped file.
pub enum Floats {
    Held(Vec<f32>),
    Mapped(Mapped),
}

impl Deref for Floats {
    type Target = [f32];

    fn deref(&self) -> &[f32] {
        match self {
            Floats::Held(floats) => floats,
            // Safe, since so many bytes are mapped, from the start of a page on, and every pattern is a float.
            Floats::Mapped(mapped) => unsafe { std::slice::from_raw_parts(mapped.at.cast(), mapped.len) },
        }
    }
}

pub struct Mapped {
    at: *mut c_void,
    /// In floats.
    len: usize,
    file: File,
    stamp: Stamp,
}

// What is mapped is only read.
unsafe impl Send for Mapped {}
unsafe impl Sync for Mapped {}

/// The length of a file and when it was written last, in seconds and nanoseconds.
type Stamp = (u64, i64, i64);

fn stamp(file: &File) -> io::Result<Stamp> {
    let found = file.metadata()?;
    Ok((found.len(), found.mtime(), found.mtime_nsec()))
}

impl Mapped {
    /// The floats of a plain file that has just so many, little-endian as the machine is; None where it cannot be
    /// mapped.
    pub fn new(name: &Path, len: usize) -> Option<Mapped> {
        if files::standard(name) {
            return None;
        }
        let file = File::open(name).ok()?;
        let (found, bytes) = (file.metadata().ok()?, len.checked_mul(4)?);
        if !found.is_file() || found.len() != bytes as u64 || bytes == 0 || cfg!(target_endian = "big") {
            return None;
        }
        let stamp = stamp(&file).ok()?;
        say_where_it_ends(name);
        // Safe, since nothing is there yet; the pages stay until they are unmapped.
        let at = unsafe { mmap(std::ptr::null_mut(), bytes, PROT_READ, MAP_SHARED, file.as_raw_fd(), 0) };
        (at as isize != -1).then_some(Mapped { at, len, file, stamp })
    }

    /// Whether the file is as it was when it was mapped, by its length and the time of the last write.
    pub fn unchanged(&self) -> bool {
        stamp(&self.file).is_ok_and(|now| now == self.stamp)
    }
}

impl Drop for Mapped {
    fn drop(&mut self) {
        // Safe, since no slice of it outlives it.
        unsafe { munmap(self.at, 4 * self.len) };
    }
}

static WORDS: OnceLock<String> = OnceLock::new();

/// Where a page of the file is not there any more, Linux sends a signal: words say so, and the run ends with status 1.
fn say_where_it_ends(name: &Path) {
    WORDS.get_or_init(|| format!("kz: {}: {ENDED}\n", shown(name)));
    // Safe, since the handler makes no call but two that may be made in one.
    unsafe { signal(SIGBUS, ended) };
}

const ENDED: &str = "was cut short, or cannot be read any more, while it was in use; give it whole, and go on with \
                     --skip-existing";

extern "C" fn ended(_: c_int) {
    let words = WORDS.get().map_or("", String::as_str);
    unsafe {
        write(2, words.as_ptr(), words.len());
        _exit(1)
    }
}
