//! The files that names and folders stand for. Each is taken once, whatever names it has.

use crate::fail::Fail;
use crate::files;
use crate::progress::warn;
use crate::source::unread;
use std::collections::BTreeMap;
use std::fs::{self, Metadata};
use std::io;
use std::os::unix::ffi::OsStrExt;
use std::os::unix::fs::MetadataExt;
use std::path::{Path, PathBuf};

#[derive(Default)]
pub struct Gathered {
    /// In the order of the names, those of a folder by their bytes.
    pub files: Vec<PathBuf>,
    /// Another name of a file that is taken already, and its index.
    pub again: Vec<(PathBuf, usize)>,
    /// What is said of names that lead to no file.
    pub refused: Vec<Fail>,
    /// How many entries of folders have no ending that is asked for, or are no plain files.
    pub passed: usize,
    /// Which file has which index, by device and number: links lead to one.
    taken: BTreeMap<(u64, u64), usize>,
}

/// The files of names, and of folders those with one of the endings, which are in small letters.
pub fn gather(names: &[PathBuf], endings: &[&str]) -> Gathered {
    let mut gathered = Gathered::default();
    for name in names {
        match fs::metadata(name) {
            _ if files::standard(name) => gathered.refused.push(Fail::file(name, TWICE)),
            Ok(found) if found.is_dir() => gathered.folder(name, endings),
            Ok(found) if found.is_file() => gathered.take(name.clone(), &found),
            Ok(_) => gathered.refused.push(Fail::file(name, TWICE)),
            Err(e) => gathered.refused.push(unread(name)(e)),
        }
    }
    gathered
}

const TWICE: &str = "is no plain file, and is to be read twice; write it to one";

impl Gathered {
    /// Says what was refused.
    pub fn warn(&self) {
        self.refused.iter().for_each(|fail| warn(fail.words()));
    }

    /// Whether nothing was refused.
    pub fn whole(&self) -> Result<(), Fail> {
        let words = match self.refused.len() {
            0 => return Ok(()),
            1 => "1 name".into(),
            n => format!("{n} names"),
        };
        Err(Fail::Refused(format!("{words} could not be read: the answer is not whole")))
    }

    /// A folder's own files. One that has none is refused: that nothing was found in nothing is no answer.
    fn folder(&mut self, folder: &Path, endings: &[&str]) {
        let entries = match entries(folder) {
            Ok(entries) => entries,
            Err(e) => return self.refused.push(unread(folder)(e)),
        };
        let before = self.files.len() + self.again.len() + self.refused.len();
        for file in entries {
            match fs::metadata(&file) {
                _ if !ends(&file, endings) => self.passed += 1,
                Ok(found) if found.is_file() => self.take(file, &found),
                Ok(_) => self.passed += 1,
                Err(e) => self.refused.push(unread(&file)(e)),
            }
        }
        if self.files.len() + self.again.len() + self.refused.len() == before {
            let words = format!("has no file that ends in .{}; give another folder, or files", endings.join(", ."));
            self.refused.push(Fail::file(folder, words));
        }
    }

    fn take(&mut self, file: PathBuf, found: &Metadata) {
        let index = *self.taken.entry((found.dev(), found.ino())).or_insert(self.files.len());
        if index < self.files.len() {
            self.again.push((file, index));
        } else {
            self.files.push(file);
        }
    }
}

fn entries(folder: &Path) -> io::Result<Vec<PathBuf>> {
    let mut entries = fs::read_dir(folder)?.map(|entry| Ok(entry?.path())).collect::<io::Result<Vec<_>>>()?;
    entries.sort();
    Ok(entries)
}

/// Whether a name has one of the endings, in small or large letters, and something before it.
fn ends(file: &Path, endings: &[&str]) -> bool {
    let name = file.file_name().map_or(vec![], |name| name.as_bytes().to_ascii_lowercase());
    let stem = |ending: &str| name.strip_suffix(ending.as_bytes())?.strip_suffix(b".").map(<[u8]>::len);
    !name.starts_with(b".") && endings.iter().any(|ending| stem(ending).is_some_and(|len| len > 0))
}

#[cfg(test)]
mod tests {
    use super::*;

    #[test]
    fn endings() {
        for (name, right) in [
            ("a.ppm", true),
            ("d/a.b.PGM", true),
            ("a.patches.npy", true),
            ("a.Patches.npy", true),
            ("a.tokens.npy", false),
            ("a.npy", false),
            ("ppm", false),
            (".ppm", false),
            ("appm", false),
            (".kz-0123456789abcdef.part", false),
            (".hidden.ppm", false),
            ("..", false),
        ] {
            assert_eq!(ends(Path::new(name), &["patches.npy", "ppm", "pgm"]), right, "{name}");
        }
    }
}
