//! A line on standard error that says how far a long list is, where a person looks on.

use crate::shown::shown;
use std::ffi::OsStr;
use std::io::{stderr, IsTerminal, Write};
use std::time::Instant;

pub struct Progress {
    total: usize,
    begun: usize,
    start: Instant,
    shown: bool,
}

impl Progress {
    /// So many pieces of work.
    pub fn new(total: usize) -> Progress {
        Progress { total, begun: 0, start: Instant::now(), shown: total > 1 && stderr().is_terminal() }
    }

    /// The next piece of work begins.
    pub fn at(&mut self, name: &OsStr) {
        self.begun += 1;
        if self.shown {
            let share = (self.begun - 1) as f64 / self.total as f64;
            let left = match share > 0.0 {
                true => format!(", about {} left", time(self.start.elapsed().as_secs_f64() / share * (1.0 - share))),
                false => String::new(),
            };
            let percent = (100.0 * share) as usize;
            let name: String = shown(name).to_string().chars().take(30).collect();
            let _ = write!(stderr(), "\r\x1b[K{}/{} ({percent}%) {name}{left}", self.begun, self.total);
            let _ = stderr().flush();
        }
    }

    pub fn clear(&self) {
        if self.shown {
            let _ = write!(stderr(), "\r\x1b[K");
        }
    }
}

/// A line on standard error.
pub fn warn(words: &str) {
    let _ = writeln!(stderr(), "kz: {words}");
}

/// Seconds for people.
pub fn time(seconds: f64) -> String {
    let s = seconds.ceil() as u64;
    if s < 60 {
        format!("{s} s")
    } else {
        format!("{}:{:02}:{:02}", s / 3600, s / 60 % 60, s % 60)
    }
}
