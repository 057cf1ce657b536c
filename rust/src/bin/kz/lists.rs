//! The names of sweeps, on the command line or in a list, and which of the sweeps are a shard's.

use crate::fail::Fail;
use crate::given::{decimal, Given};
use crate::shown::shown;
use crate::source::{unread, Source};
use std::ffi::OsStr;
use std::os::unix::ffi::OsStrExt;
use std::path::{Path, PathBuf};

/// All names, in their order. What else is missing is said before a list is read.
pub fn names(given: &Given) -> Result<Vec<PathBuf>, Fail> {
    given.needed("-o", "DIR")?;
    match (given.path("--list"), &given.files[..]) {
        (None, _) if given.null => Err(Fail::usage("--null says how the names of --list end; give --list FILE")),
        (None, []) => Err(Fail::usage("no SWEEP.ppm is given")),
        (None, files) => Ok(files.to_vec()),
        (Some(list), []) => listed(&list, given.null),
        (Some(_), _) => Err(Fail::usage("give sweeps by their names or by --list, not both")),
    }
}

/// The names of a list, each as its bytes are.
fn listed(list: &Path, null: bool) -> Result<Vec<PathBuf>, Fail> {
    let mut bytes = vec![];
    Source::open(list)?.rest(&mut bytes).map_err(unread(list))?;
    let found = parted(&bytes, null).map_err(|words| Fail::file(list, words))?;
    match found[..] {
        [] => Err(Fail::file(list, "names no sweep")),
        _ => Ok(found),
    }
}

/// Names that each end in a newline, or in a byte of 0; behind the last it may be missing. Empty ones are passed over.
fn parted(bytes: &[u8], null: bool) -> Result<Vec<PathBuf>, String> {
    let end = if null { 0 } else { b'\n' };
    let mut names = vec![];
    for (i, name) in bytes.split(|byte| *byte == end).enumerate() {
        let line = i + 1;
        if name.contains(&0) {
            return Err(format!("line {line} has a byte 0; a list whose names end in one is read with --null"));
        }
        if name.ends_with(b"\r") && !null {
            return Err(format!("line {line} ends in a carriage return; write the list with newlines alone"));
        }
        if name == b"-" {
            return Err("names -, and standard input is no part of a list; a file of that name is ./-".into());
        }
        if !name.is_empty() {
            names.push(PathBuf::from(OsStr::from_bytes(name)));
        }
    }
    Ok(names)
}

/// Every so-many-th sweep of a list, from one on.
pub struct Shard {
    first: usize,
    count: usize,
}

impl Shard {
    /// `2/8`, or all of the list.
    pub fn read(given: &Given) -> Result<Shard, Fail> {
        let Some(value) = given.path("--shard") else { return Ok(Shard { first: 0, count: 1 }) };
        let words = || format!("--shard takes I/N, as 2/8, with I from 1 to N; {} is none", shown(&value));
        let text = value.to_str().and_then(|text| text.split_once('/'));
        let numbers = text.and_then(|(index, count)| Some((decimal(index)?, decimal(count)?)));
        match numbers {
            Some((index, count)) if (1..=count).contains(&index) => Ok(Shard { first: index - 1, count }),
            _ => Err(Fail::usage(words())),
        }
    }

    pub fn has(&self, place: usize) -> bool {
        place % self.count == self.first
    }

    /// What is said where it has none of so many sweeps: more shards than sweeps are no fault.
    pub fn empty(&self, total: usize) -> String {
        format!("no sweep of {total} is in shard {}/{}", self.first + 1, self.count)
    }
}

#[cfg(test)]
mod tests {
    use super::*;

    fn names(bytes: &[u8], null: bool) -> Result<Vec<Vec<u8>>, String> {
        let names = parted(bytes, null)?;
        Ok(names.iter().map(|name| name.as_os_str().as_bytes().to_vec()).collect())
    }

    #[test]
    fn lists() {
        let two = vec![b"a b.ppm".to_vec(), b"\xff\\.ppm".to_vec()];
        for bytes in [&b"a b.ppm\n\xff\\.ppm"[..], b"a b.ppm\n\xff\\.ppm\n", b"\n\na b.ppm\n\n\xff\\.ppm\n\n"] {
            assert_eq!(names(bytes, false), Ok(two.clone()));
        }
        assert_eq!(names(b"a b.ppm\0\xff\\.ppm\0", true), Ok(two.clone()));
        assert_eq!(names(b"a\nb\r\0", true), Ok(vec![b"a\nb\r".to_vec()]));
        assert_eq!(names(b" a \n", false), Ok(vec![b" a ".to_vec()]));
        assert_eq!(names(b"", false), Ok(vec![]));
        assert!(names(b"a\nb\r\nc\n", false).unwrap_err().starts_with("line 2 ends in a carriage return"));
        assert!(names(b"a\n-\n", false).unwrap_err().starts_with("names -, ") && names(b"./-\n", false).is_ok());
        assert!(names(b"a\0b\0", false).unwrap_err().starts_with("line 1 has a byte 0"));
    }

    /// Each place is in exactly one shard.
    #[test]
    fn shards() {
        for count in 1..9 {
            for place in 0..30 {
                let of = (0..count).filter(|first| Shard { first: *first, count }.has(place)).count();
                assert_eq!(of, 1, "{place} of {count}");
            }
        }
    }
}
