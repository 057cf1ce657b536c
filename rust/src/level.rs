//! Which level of processors the calls run for, where the archives of all are linked. All have the same bits.

use std::error::Error;
use std::ffi::{OsStr, OsString};
use std::fmt;
use std::sync::OnceLock;

/// A level of processors, as x86-64's own description names them: each has what the one before it has, and more.
#[derive(Clone, Copy, Debug, PartialEq, Eq, PartialOrd, Ord, Hash)]
pub enum Level {
    /// Every x86-64: SSE2, registers of 128 bits.
    X86_64,
    /// AVX2 and what came with it, registers of 256 bits.
    X86_64V3,
    /// AVX-512 in its five parts F, BW, CD, DQ and VL, registers of 512 bits.
    X86_64V4,
}

impl Level {
    pub const ALL: [Level; 3] = [Level::X86_64, Level::X86_64V3, Level::X86_64V4];

    /// As KZ_LEVEL and the folders of `target/archives` name it.
    pub fn name(self) -> &'static str {
        match self {
            Level::X86_64 => "x86-64",
            Level::X86_64V3 => "x86-64-v3",
            Level::X86_64V4 => "x86-64-v4",
        }
    }

    /// Whether this processor has it, and the system keeps its registers.
    pub fn is_here(self) -> bool {
        match self {
            Level::X86_64 => true,
            Level::X86_64V3 => v3_is_here(),
            Level::X86_64V4 => v3_is_here() && v4_adds_are_here(),
        }
    }
}

impl fmt::Display for Level {
    fn fmt(&self, f: &mut fmt::Formatter) -> fmt::Result {
        f.write_str(self.name())
    }
}

fn v3_is_here() -> bool {
    is_x86_feature_detected!("avx")
        && is_x86_feature_detected!("avx2")
        && is_x86_feature_detected!("bmi1")
        && is_x86_feature_detected!("bmi2")
        && is_x86_feature_detected!("f16c")
        && is_x86_feature_detected!("fma")
        && is_x86_feature_detected!("lzcnt")
        && is_x86_feature_detected!("movbe")
        && is_x86_feature_detected!("popcnt")
}

fn v4_adds_are_here() -> bool {
    is_x86_feature_detected!("avx512f")
        && is_x86_feature_detected!("avx512bw")
        && is_x86_feature_detected!("avx512cd")
        && is_x86_feature_detected!("avx512dq")
        && is_x86_feature_detected!("avx512vl")
}

/// KZ_LEVEL asks for a level that there is not, or that cannot run here.
#[derive(Clone, Debug, PartialEq, Eq)]
pub struct UnknownLevel {
    asked: OsString,
    why: Why,
}

#[derive(Clone, Copy, Debug, PartialEq, Eq)]
enum Why {
    NoLevel,
    NotHere,
    OneLinked,
}

impl fmt::Display for UnknownLevel {
    fn fmt(&self, f: &mut fmt::Formatter) -> fmt::Result {
        write!(f, "KZ_LEVEL is {:?}, ", self.asked)?;
        match self.why {
            Why::NoLevel => f.write_str("and there is no such level")?,
            Why::NotHere => f.write_str("and this processor has not got that level")?,
            Why::OneLinked => {
                return f.write_str("but only the archives of KZ_ARCHIVES were linked, of one level: unset it");
            }
        }
        let here: Vec<&str> = Level::ALL.into_iter().filter(|level| level.is_here()).map(Level::name).collect();
        write!(f, "; here there are: {}", here.join(", "))
    }
}

impl Error for UnknownLevel {}

/// The level for which the calls of this crate run, picked once: the one that KZ_LEVEL names, or the highest that this
/// processor has. `None` where the archives of one level alone were linked, by KZ_ARCHIVES at build time: which one,
/// only their maker knows.
///
/// Where KZ_LEVEL cannot be had, every call panics with the sentence of the [`UnknownLevel`]. A program that does not
/// trust its environment asks here first.
///
/// ```
/// match kyzgultam::level() {
///     Ok(Some(level)) => println!("runs for {level}"),
///     Ok(None) => println!("runs as it was linked"),
///     Err(unknown) => eprintln!("{unknown}"),
/// }
/// ```
pub fn level() -> Result<Option<Level>, UnknownLevel> {
    picked().clone()
}

/// The level of a call.
#[cfg(kz_levels)]
pub(crate) fn running() -> Level {
    match picked() {
        Ok(level) => level.unwrap_or(Level::X86_64),
        Err(unknown) => panic!("{unknown}"),
    }
}

fn picked() -> &'static Result<Option<Level>, UnknownLevel> {
    static PICKED: OnceLock<Result<Option<Level>, UnknownLevel>> = OnceLock::new();
    PICKED.get_or_init(|| pick(std::env::var_os("KZ_LEVEL").as_deref()))
}

fn pick(asked: Option<&OsStr>) -> Result<Option<Level>, UnknownLevel> {
    let unknown = |asked: &OsStr, why| Err(UnknownLevel { asked: asked.to_owned(), why });
    match (asked, cfg!(kz_levels)) {
        (None, false) => Ok(None),
        (Some(name), false) => unknown(name, Why::OneLinked),
        (None, true) => Ok(Level::ALL.into_iter().rev().find(|level| level.is_here())),
        (Some(name), true) => match Level::ALL.into_iter().find(|level| name == level.name()) {
            None => unknown(name, Why::NoLevel),
            Some(level) if level.is_here() => Ok(Some(level)),
            Some(_) => unknown(name, Why::NotHere),
        },
    }
}
