//! The files of a sweep's tiles. A name has what the patches do not say: the sweep's sides and the tile's place.

use crate::given;
use kyzgultam::Cut;
use std::ffi::{OsStr, OsString};
use std::os::unix::ffi::OsStrExt;
use std::path::Path;

/// Row and column of a tile in the cut.
pub type Place = (usize, usize);

pub fn place(cut: &Cut, index: usize) -> Place {
    (index / cut.columns, index % cut.columns)
}

/// `r00c01`, with as many digits as the last row or column needs, at least two: the names sort by place.
pub fn label(cut: &Cut, (row, column): Place) -> String {
    let digits = (cut.rows.max(cut.columns) - 1).to_string().len().max(2);
    format!("r{row:0digits$}c{column:0digits$}")
}

/// The name of a tile's file, as SWEEP.3000x2000.r00c01.patches.npy, without its ending.
pub fn name(sweep: &OsStr, (height, width): (usize, usize), label: &str) -> OsString {
    let mut name = sweep.to_os_string();
    name.push(format!(".{height}x{width}.{label}"));
    name
}

/// What a name says.
#[derive(Debug, PartialEq)]
pub struct Named<'a> {
    pub sweep: &'a OsStr,
    pub sides: (usize, usize),
    pub place: Place,
}

/// Reads the name of a file of patches.
pub fn named(file: &Path) -> Option<Named<'_>> {
    let name = file.file_name()?.as_bytes().strip_suffix(b".patches.npy")?;
    let (name, place) = last(name)?;
    let (sweep, sides) = last(name)?;
    let (row, column) = place.strip_prefix('r')?.split_once('c')?;
    let place = (given::decimal(row)?, given::decimal(column)?);
    Some(Named { sweep: OsStr::from_bytes(sweep), sides: given::sides(sides)?, place })
}

/// What stands before the last dot, and the text behind it.
fn last(name: &[u8]) -> Option<(&[u8], &str)> {
    let dot = name.iter().rposition(|b| *b == b'.')?;
    Some((&name[..dot], std::str::from_utf8(&name[dot + 1..]).ok()?))
}

#[cfg(test)]
mod tests {
    use super::*;

    #[test]
    fn names_are_read_as_they_are_written() {
        for (rows, columns, place, right) in [
            (2, 2, (0, 1), "s.30x20.r00c01"),
            (1, 100, (0, 99), "s.30x20.r00c99"),
            (1, 101, (0, 7), "s.30x20.r000c007"),
            (8192, 1, (8191, 0), "s.30x20.r8191c0000"),
        ] {
            let cut = Cut { side: 1, rows, columns };
            for sweep in [OsStr::new("s"), OsStr::from_bytes(b"a.b c\xff.1x2.r00c00"), OsStr::new("")] {
                let mut file = name(sweep, (30, 20), &label(&cut, place));
                assert!(sweep != "s" || file == right);
                file.push(".patches.npy");
                let file = Path::new("some/folder").join(file);
                assert_eq!(named(&file), Some(Named { sweep, sides: (30, 20), place }), "{file:?}");
            }
        }
    }

    #[test]
    fn places_run_by_row() {
        let cut = Cut { side: 28, rows: 2, columns: 3 };
        let labels: Vec<String> = (0..6).map(|index| label(&cut, place(&cut, index))).collect();
        assert_eq!(labels, ["r00c00", "r00c01", "r00c02", "r01c00", "r01c01", "r01c02"]);
    }

    #[test]
    fn other_names_say_nothing() {
        for name in [
            "s.patches.npy",
            "s.30x20.r00c01.tokens.npy",
            "s.30x20.r00c01.npy",
            "s.30x20.r00c01",
            "s.r00c01.patches.npy",
            "s.30x20.c01r00.patches.npy",
            "s.30x20.r00.patches.npy",
            "s.30x20.r-1c01.patches.npy",
            "s.30x20.r00c.patches.npy",
            "s.30x20.r00c01c02.patches.npy",
            "s.30x20x10.r00c01.patches.npy",
            "s.30x.r00c01.patches.npy",
            "s.30x20.r00c99999999999999999999.patches.npy",
            "30x20.r00c01.patches.npy",
            ".patches.npy",
            "..",
        ] {
            assert_eq!(named(Path::new(name)), None, "{name}");
        }
    }
}
