//! Buffers that are lent, with marks all around, and the differences that are found in them.

use std::fmt;

/// Differences that are printed.
const SHOWN: usize = 20;

pub trait Cell: Copy + PartialEq + fmt::LowerHex {
    fn mark(at: usize) -> Self;
}

impl Cell for u8 {
    fn mark(at: usize) -> u8 {
        0xA5 ^ (at as u8).wrapping_mul(29)
    }
}

/// The bits of numbers near -6.9, which no sample of 01's numbers is.
impl Cell for u32 {
    fn mark(at: usize) -> u32 {
        0xC0DE_0000 | (at & 0xFFFF) as u32
    }
}

/// Marked cells before and after a buffer. An odd number, so that bytes are lent at odd places.
const GUARD: usize = 61;

/// A buffer to lend: contents in front, then marks.
pub struct Lent<T> {
    cells: Vec<T>,
    len: usize,
}

impl<T: Cell> Lent<T> {
    pub fn new(front: &[T], len: usize) -> Self {
        let mut cells: Vec<T> = (0..len + 2 * GUARD).map(T::mark).collect();
        cells[GUARD..GUARD + front.len()].copy_from_slice(front);
        Lent { cells, len }
    }

    pub fn pointer(&mut self) -> *mut T {
        self.cells[GUARD..].as_mut_ptr()
    }

    /// The first place, guards among them, where `front` and then marks do not stand.
    pub fn differs(&self, name: &str, front: &[T]) -> Option<String> {
        self.differs_from(name, [(0, front)])
    }

    /// The same where runs, given upward, stand at their places, and marks elsewhere.
    pub fn differs_from<'a>(
        &self,
        name: &str,
        runs: impl IntoIterator<Item = (usize, &'a [T])>,
    ) -> Option<String>
    where
        T: 'a,
    {
        let wrong = |at: usize, right: T| {
            let (place, found, len) = (at as isize - GUARD as isize, self.cells[at], self.len);
            format!("{name}[{place}] of {len} is {found:x}, not {right:x}")
        };
        let no_mark = |from: usize, to: usize| {
            // All are looked at before one is looked for: so they are looked at side by side.
            let cells = self.cells[from..to].iter().zip(from..);
            let same = cells.fold(true, |same, (cell, at)| same & (*cell == T::mark(at)));
            let mut places = (from..to).filter(|_| !same);
            let at = places.find(|at| self.cells[*at] != T::mark(*at))?;
            Some(wrong(at, T::mark(at)))
        };
        let mut from = 0;
        for (place, run) in runs {
            let start = GUARD + place;
            if let Some(what) = no_mark(from, start) {
                return Some(what);
            }
            from = start + run.len();
            if self.cells[start..from] != *run {
                let at = (0..run.len()).find(|at| self.cells[start + at] != run[*at])?;
                return Some(wrong(start + at, run[at]));
            }
        }
        no_mark(from, self.cells.len())
    }
}

pub fn differ<const N: usize>(
    names: [&str; N],
    found: [usize; N],
    right: [usize; N],
) -> Option<String> {
    let at = (0..N).find(|at| found[*at] != right[*at])?;
    Some(format!("{} is {}, not {}", names[at], found[at], right[at]))
}

/// How many calls differ, and the first of them in words.
#[derive(Default)]
pub struct Differences {
    pub count: u64,
    first: Vec<String>,
}

impl Differences {
    pub fn note(&mut self, found: Option<String>, words: impl Fn() -> String) {
        if let Some(what) = found {
            self.count += 1;
            if self.first.len() < SHOWN {
                self.first.push(format!("{}: {what}", words()));
            }
        }
    }

    pub fn print(&self) {
        for line in &self.first {
            println!("{line}");
        }
    }
}
