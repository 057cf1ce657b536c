//! A call in the words in which a difference is printed: names, each with a value.

use super::fills::Fill;
use super::settings::{of, Choice, Settings, Sides, OWN};

/// A place of the patches, and the bits that are put there.
pub type Set = (usize, u32);

pub struct Words<'a>(pub &'a [&'a str]);

/// Three bit patterns.
fn three(word: &str) -> Option<[u32; 3]> {
    let list: Result<Vec<_>, _> = word
        .split(',')
        .map(|x| u32::from_str_radix(x, 16))
        .collect();
    list.ok()?.try_into().ok()
}

impl<'a> Words<'a> {
    fn all(&self, name: &'a str) -> impl Iterator<Item = &'a str> {
        let pairs = self.0.chunks_exact(2);
        pairs
            .filter(move |pair| pair[0] == name)
            .map(|pair| pair[1])
    }

    pub fn text(&self, name: &'a str) -> Option<&'a str> {
        self.all(name).next()
    }

    pub fn number(&self, name: &'a str) -> Option<usize> {
        self.text(name)?.parse().ok()
    }

    pub fn settings(&self) -> Option<Settings> {
        let s = of(
            self.number("patch")?,
            self.number("merge")?,
            self.number("image")?,
        );
        let bits = |name, own| self.text(name).map_or(Some(own), three);
        let (mean, deviation) = (bits("mean", OWN.mean)?, bits("deviation", OWN.deviation)?);
        Some(
            s.rule(self.number("rule")?)
                .with(Choice { mean, deviation }),
        )
    }

    pub fn sides(&self) -> Option<Sides> {
        Some([self.number("height")?, self.number("width")?])
    }

    pub fn fill(&self, name: &'a str) -> Option<Fill> {
        Fill::of(self.text(name)?)
    }

    /// What is set in the patches.
    pub fn sets(&self) -> Option<Vec<Set>> {
        let one = |word: &str| {
            let (at, bits) = word.split_once('=')?;
            Some((at.parse().ok()?, u32::from_str_radix(bits, 16).ok()?))
        };
        self.all("set").map(one).collect()
    }
}

/// What is set in the patches, in words.
pub fn shown(sets: &[Set]) -> String {
    let one = |(at, bits): &Set| format!(" set {at}={bits:08x}");
    sets.iter().map(one).collect()
}
