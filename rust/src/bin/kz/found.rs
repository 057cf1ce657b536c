//! What `kz copies` found, in words, as JSON and as an exit status.

use crate::alike::Pair;
use crate::fail::Fail;
use crate::gather::Gathered;
use crate::json::{self, string};
use crate::npy::Shape;
use crate::shown::shown;
use crate::table::table;
use std::path::PathBuf;

/// Sweeps are named by the index of their file.
pub struct Found {
    pub gathered: Gathered,
    /// The shape of each that was read, and the rule that resized it, where one did.
    pub shapes: Vec<Option<(Shape, Option<usize>)>>,
    /// Of each the sweep that it is a copy of.
    pub copies: Vec<Option<usize>>,
    pub pairs: Vec<Pair>,
    /// How many pairs more there are, by their hashes.
    pub more: usize,
    /// The picture of each pair, where they are written and it could be.
    pub pictures: Vec<Option<PathBuf>>,
}

impl Found {
    pub fn of(gathered: Gathered) -> Found {
        Found { gathered, shapes: vec![], copies: vec![], pairs: vec![], more: 0, pictures: vec![] }
    }

    fn name(&self, index: usize) -> String {
        shown(&self.gathered.files[index]).to_string()
    }

    /// Each copy and the sweep that it is a copy of.
    fn copied(&self) -> impl Iterator<Item = (usize, usize)> + '_ {
        self.copies.iter().enumerate().filter_map(|(i, of)| Some((i, (*of)?)))
    }

    /// How many patches a pair has, and the row and column of the first that differs.
    fn place(&self, pair: &Pair) -> (usize, usize, usize) {
        let [h, w, _] = self.shapes[pair.a].map_or([1; 3], |(shape, _)| shape);
        (h * w, pair.first / w, pair.first % w)
    }

    fn picture(&self, pair: usize) -> Option<&PathBuf> {
        self.pictures.get(pair)?.as_ref()
    }

    pub fn words(&self) -> String {
        let mut text = String::new();
        let copies: Vec<_> = self.copied().map(|(copy, of)| [copy, of].map(|i| self.name(i))).collect();
        if !copies.is_empty() {
            text += &format!("{}\n", table(["copy", "of"], 0, &copies));
        }
        if !self.pairs.is_empty() {
            text += &format!("{}\n", self.pairs_in_words());
        }
        for (name, of) in &self.gathered.again {
            text += &format!("{}: is the same file as {}, and was taken once\n", shown(name), self.name(*of));
        }
        text + &self.summary()
    }

    fn pairs_in_words(&self) -> String {
        let row = |(i, pair): (usize, &Pair)| {
            let (count, row, column) = self.place(pair);
            let numbers = [pair.differ, count, row, column].map(|number| number.to_string());
            let [differ, count, row, column] = numbers;
            let picture = self.picture(i).map_or(String::new(), |file| shown(file).to_string());
            [differ, count, row, column, self.name(pair.a), self.name(pair.b), picture]
        };
        let rows: Vec<_> = self.pairs.iter().enumerate().map(row).collect();
        let picture = if self.pictures.is_empty() { "" } else { "picture" };
        let mut text = table(["differ", "of", "first row", "column", "sweep", "and", picture], 4, &rows);
        if self.more > 0 {
            text += &format!("and {} more by their hashes; --all compares and says every one\n", self.more);
        }
        text
    }

    fn summary(&self) -> String {
        let count = self.shapes.iter().flatten().count();
        let copies = self.copied().count();
        let pairs = self.pairs.len() + self.more;
        let mut text = match copies {
            0 => format!("{}, no copies", several(count, "sweep")),
            1 => format!("{}, 1 is a copy", several(count, "sweep")),
            n => format!("{}, {n} are copies", several(count, "sweep")),
        };
        if pairs > 0 {
            let share = if pairs == 1 { "shares" } else { "share" };
            text += &format!("; {} {share} most patches", several(pairs, "pair"));
        }
        let resized: Vec<usize> = self.shapes.iter().flatten().filter_map(|(_, rule)| *rule).collect();
        if let Some(rule) = resized.first() {
            text += &format!("; {} resized by rule {rule} before", several(resized.len(), "sweep"));
        }
        if self.gathered.passed > 0 {
            text += &format!("; {} of the folders not looked at", entries(self.gathered.passed));
        }
        text
    }

    pub fn json(&self) -> String {
        let name = |index: usize| string(&self.gathered.files[index]);
        let sweeps = self.shapes.iter().enumerate().filter_map(|(i, found)| {
            let ([h, w, floats], rule) = (*found)?;
            let rule = rule.map_or("null".into(), |rule| rule.to_string());
            Some(format!("{{\"file\": {}, \"grid\": [{h}, {w}], \"floats\": {floats}, \"rule\": {rule}}}", name(i)))
        });
        let of = |file: String, of: usize| format!("{{\"file\": {file}, \"of\": {}}}", name(of));
        let pairs = self.pairs.iter().enumerate().map(|(i, pair)| {
            let (count, row, column) = self.place(pair);
            let (a, b) = (name(pair.a), name(pair.b));
            let picture = self.picture(i).map_or("null".into(), string);
            format!(
                "{{\"files\": [{a}, {b}], \"differ\": {}, \"patches\": {count}, \"row\": {row}, \"column\": {column}, \
                 \"picture\": {picture}}}",
                pair.differ
            )
        });
        let parts = [
            ("sweeps", json::list(sweeps)),
            ("copies", json::list(self.copied().map(|(copy, other)| of(name(copy), other)))),
            ("pairs", json::list(pairs)),
            ("more_pairs", self.more.to_string()),
            ("same_file", json::list(self.gathered.again.iter().map(|(file, other)| of(string(file), *other)))),
            ("refused", json::list(self.gathered.refused.iter().map(|fail| string(fail.words())))),
            ("passed_over", self.gathered.passed.to_string()),
        ];
        json::object(&parts)
    }

    /// Whether copies were found; where something could not be read, that comes first.
    pub fn status(&self) -> Result<(), Fail> {
        self.gathered.whole()?;
        self.copied().next().map_or(Ok(()), |_| Err(Fail::Found))
    }
}

/// `1 sweep`, `2 sweeps`.
fn several(count: usize, what: &str) -> String {
    format!("{count} {what}{}", if count == 1 { "" } else { "s" })
}

fn entries(count: usize) -> String {
    if count == 1 {
        "1 other entry".into()
    } else {
        format!("{count} other entries")
    }
}
