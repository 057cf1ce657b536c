//! A file as it is read, from the front on: its length, if it has one, is known before its bytes are.

use crate::fail::Fail;
use crate::files;
use std::fs::File;
use std::io::{self, stdin, Read, Seek};
use std::os::fd::AsFd;
use std::path::Path;

pub struct Source<R> {
    from: R,
    /// Bytes that were looked at and not yet taken.
    ahead: Vec<u8>,
    /// How many bytes are not yet taken; None of a pipe or a device.
    left: Option<u64>,
}

pub fn unread(file: &Path) -> impl Fn(io::Error) -> Fail + '_ {
    move |e| Fail::file(file, format!("cannot be read: {e}"))
}

/// Standard input as a file, which is a pipe or a plain one.
fn input() -> io::Result<File> {
    Ok(File::from(stdin().as_fd().try_clone_to_owned()?))
}

impl Source<File> {
    /// A file, or standard input where - is its name.
    pub fn open(file: &Path) -> Result<Source<File>, Fail> {
        let mut from = if files::standard(file) { input() } else { File::open(file) }.map_err(unread(file))?;
        let found = from.metadata().map_err(unread(file))?;
        let left = match found.is_file() {
            // Of standard input some may be read already.
            true => Some(found.len().saturating_sub(from.stream_position().map_err(unread(file))?)),
            false => None,
        };
        Ok(Source { from, ahead: vec![], left })
    }
}

impl<R: Read> Source<R> {
    #[cfg(test)]
    pub fn new(from: R, left: Option<u64>) -> Source<R> {
        Source { from, ahead: vec![], left }
    }

    /// How many bytes are left, where that is known before they are read.
    pub fn left(&self) -> Option<u64> {
        self.left
    }

    /// The next bytes, which are not taken: as many as there are, up to a count.
    pub fn look(&mut self, most: usize) -> io::Result<&[u8]> {
        let more = most.saturating_sub(self.ahead.len());
        (&mut self.from).take(more as u64).read_to_end(&mut self.ahead)?;
        Ok(&self.ahead[..most.min(self.ahead.len())])
    }

    /// Takes the next bytes: how many there were.
    pub fn take(&mut self, bytes: &mut [u8]) -> io::Result<usize> {
        let mut taken = bytes.len().min(self.ahead.len());
        bytes[..taken].copy_from_slice(&self.ahead[..taken]);
        self.ahead.drain(..taken);
        while taken < bytes.len() {
            match self.from.read(&mut bytes[taken..]) {
                Ok(0) => break,
                Ok(n) => taken += n,
                Err(e) if e.kind() == io::ErrorKind::Interrupted => {}
                Err(e) => return Err(e),
            }
        }
        self.left = self.left.map(|left| left.saturating_sub(taken as u64));
        Ok(taken)
    }

    /// Takes all bytes that are left, behind those that are there.
    pub fn rest(&mut self, bytes: &mut Vec<u8>) -> io::Result<()> {
        bytes.append(&mut self.ahead);
        self.from.read_to_end(bytes)?;
        self.left = self.left.map(|_| 0);
        Ok(())
    }

    /// Takes little-endian f32 until the floats are full: how many bytes there were.
    pub fn floats(&mut self, floats: &mut [f32]) -> io::Result<usize> {
        let mut bytes = [0; 1 << 16];
        let mut taken = 0;
        for some in floats.chunks_mut(bytes.len() / 4) {
            let asked = &mut bytes[..4 * some.len()];
            let found = self.take(asked)?;
            taken += found;
            if found < asked.len() {
                break;
            }
            for (float, four) in some.iter_mut().zip(asked.chunks_exact(4)) {
                *float = f32::from_le_bytes([four[0], four[1], four[2], four[3]]);
            }
        }
        Ok(taken)
    }

    /// Whether no byte is left.
    pub fn ended(&mut self) -> io::Result<bool> {
        Ok(self.look(1)?.is_empty())
    }
}
