//! Why a command ended early, in words for the person who gave it.

use crate::shown::shown;
use kyzgultam::Refusal;
use std::fmt;
use std::path::Path;

pub enum Fail {
    /// Exit status 1: the words say which file, why, and what to do.
    Refused(String),
    /// Exit status 1: the file that was to be written is there already.
    Taken(String),
    /// Exit status 1: nothing can be written where it is to go, so a list need not go on.
    Stopped(String),
    /// Exit status 1: the log cannot be written, so nothing more is done.
    Unlogged(String),
    /// Exit status 1: weights or tables are at fault, so no sweep can be encoded.
    Unfit(String),
    /// Exit status 2: the command line is not one that kz knows.
    Usage(String),
    /// Exit status 3: nothing is wrong, and the answer, which was said, is the one that is looked for.
    Found,
}

impl Fail {
    pub fn usage(words: impl fmt::Display) -> Fail {
        Fail::Usage(words.to_string())
    }

    pub fn file(file: &Path, words: impl fmt::Display) -> Fail {
        Fail::Refused(format!("{}: {words}", shown(file)))
    }

    /// What is said.
    pub fn words(&self) -> &str {
        match self {
            Fail::Refused(words) | Fail::Taken(words) | Fail::Stopped(words) => words,
            Fail::Unlogged(words) | Fail::Unfit(words) | Fail::Usage(words) => words,
            Fail::Found => "",
        }
    }

    /// A call's refusal, about a file.
    pub fn call(file: &Path, refusal: Refusal, advice: impl fmt::Display) -> Fail {
        Fail::file(file, numbered(refusal, advice))
    }
}

/// A refusal by its number, and what to do.
pub fn numbered(refusal: Refusal, advice: impl fmt::Display) -> String {
    format!("refused, number {}: {refusal}; {advice}", refusal.number())
}
