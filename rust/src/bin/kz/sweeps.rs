//! The sweeps of a list: where the picture of each comes from, and what its files are named after.

use crate::fail::Fail;
use crate::netpbm::Picture;
use crate::picture::Found;
use crate::shown::shown;
use crate::{files, picture};
use std::borrow::Cow;
use std::collections::{BTreeMap, BTreeSet};
use std::ffi::{OsStr, OsString};
use std::path::{Component, Path, PathBuf};

pub struct Sweep {
    /// In the whole list, from 0.
    pub place: usize,
    /// What it is called in what is said.
    pub file: PathBuf,
    pub stem: OsString,
    /// Of standard input, which is read once.
    held: Option<Found>,
}

impl Sweep {
    /// A picture, and whether it is taken, as `picture::find` has it.
    pub fn find(&self) -> (Cow<'_, Picture>, Result<(), Fail>) {
        match &self.held {
            None => {
                let (picture, taken) = picture::find(&self.file);
                (Cow::Owned(picture), taken)
            }
            Some((picture, taken)) => {
                (Cow::Borrowed(picture), taken.clone().map_err(|words| Fail::file(&self.file, words)))
            }
        }
    }

    pub fn read(&self) -> Result<Cow<'_, Picture>, Fail> {
        let (picture, taken) = self.find();
        taken.map(|()| picture)
    }
}

/// The sweeps of a list. A file is named after its sweep, without folder and ending, and where these are alike with the
/// names of its folders. Two that are still alike would be written to one file.
pub fn listed(list: &[PathBuf]) -> Result<Vec<Sweep>, Fail> {
    let mut sweeps = Vec::new();
    for file in list {
        let place = sweeps.len();
        if files::standard(file) {
            sweeps.extend(came(place)?);
        } else {
            let stem = file.file_stem();
            let stem = stem.ok_or_else(|| Fail::usage(format!("{}: is no name of a file", shown(file))))?;
            sweeps.push(Sweep { place, file: file.clone(), stem: stem.to_os_string(), held: None });
        }
    }
    tell_apart(&mut sweeps);
    apart(&sweeps)?;
    Ok(sweeps)
}

/// Puts the names of folders before stems that are alike: as many as tell them apart, and none where none do.
fn tell_apart(sweeps: &mut [Sweep]) {
    let mut alike: BTreeMap<OsString, Vec<usize>> = BTreeMap::new();
    for (i, sweep) in sweeps.iter().enumerate() {
        alike.entry(sweep.stem.clone()).or_default().push(i);
    }
    for places in alike.into_values().filter(|places| places.len() > 1) {
        let most = places.iter().map(|i| folders(&sweeps[*i].file).len()).max().unwrap_or(0);
        let names = |count| places.iter().map(|i| in_folders(&sweeps[*i], count)).collect::<Vec<OsString>>();
        let told = (1..=most).map(names).find(|names| names.iter().collect::<BTreeSet<_>>().len() == names.len());
        for (i, name) in places.iter().zip(told.into_iter().flatten()) {
            sweeps[*i].stem = name;
        }
    }
}

/// The names of the folders of a file, as it is given, the outermost first.
fn folders(file: &Path) -> Vec<&OsStr> {
    let parts = file.parent().into_iter().flat_map(Path::components);
    parts.filter(|part| matches!(part, Component::Normal(_))).map(Component::as_os_str).collect()
}

/// `folder.stem`, with so many of the innermost folders as there are.
fn in_folders(sweep: &Sweep, count: usize) -> OsString {
    let folders = folders(&sweep.file);
    let inner = &folders[folders.len().saturating_sub(count)..];
    inner.iter().copied().chain([sweep.stem.as_os_str()]).collect::<Vec<_>>().join(OsStr::new("."))
}

/// The pictures of standard input, from a place on: `stdin`, or, of several, `stdin.f0000` and so on.
fn came(place: usize) -> Result<Vec<Sweep>, Fail> {
    let mut found = picture::all(Path::new("-"))?;
    if found.len() == 1 {
        let held = found.pop();
        return Ok(vec![Sweep { place, file: "-".into(), stem: "stdin".into(), held }]);
    }
    let sweep = |(i, held)| Sweep {
        place: place + i,
        file: format!("-, picture {i}").into(),
        stem: format!("stdin.f{i:04}").into(),
        held: Some(held),
    };
    Ok(found.into_iter().enumerate().map(sweep).collect())
}

fn apart(sweeps: &[Sweep]) -> Result<(), Fail> {
    let mut seen = BTreeMap::new();
    for sweep in sweeps {
        if let Some(other) = seen.insert(&sweep.stem, &sweep.file) {
            let (a, b) = (shown(other), shown(&sweep.file));
            return Err(Fail::usage(format!("{a} and {b} would be written to the same file; give them apart")));
        }
    }
    Ok(())
}

#[cfg(test)]
mod tests {
    use super::*;

    fn named(files: &[&str]) -> Result<Vec<String>, ()> {
        let files: Vec<PathBuf> = files.iter().map(PathBuf::from).collect();
        let sweeps = listed(&files).map_err(drop)?;
        Ok(sweeps.into_iter().map(|sweep| sweep.stem.into_string().unwrap()).collect())
    }

    #[test]
    fn equal_stems_have_their_folders_names() {
        for (files, names) in [
            (&["a/x.ppm", "b/y.ppm"][..], &["x", "y"][..]),
            (&["a/x.ppm", "b/x.png", "b/y.ppm"], &["a.x", "b.x", "y"]),
            (&["x.ppm", "a/x.ppm"], &["x", "a.x"]),
            (&["./x.ppm", "/data/a/x.ppm"], &["x", "a.x"]),
            // As many folders as are needed, and for all that are alike.
            (&["1/a/x.ppm", "2/a/x.ppm"], &["1.a.x", "2.a.x"]),
            (&["1/a/x.ppm", "2/a/x.ppm", "b/x.ppm"], &["1.a.x", "2.a.x", "b.x"]),
            (&["a/b/../x.ppm", "c/x.ppm"], &["b.x", "c.x"]),
        ] {
            assert_eq!(named(files).unwrap(), names, "{files:?}");
        }
        // No folder tells these apart; nor may a name that is made be another's.
        for files in [
            &["a/x.ppm", "a/x.png"][..],
            &["x.ppm", "./x.ppm"],
            &["../x.ppm", "x.ppm"],
            &["a/x.ppm", "b/x.ppm", "c/a.x.ppm"],
            &[".."],
        ] {
            assert!(named(files).is_err(), "{files:?}");
        }
    }
}
