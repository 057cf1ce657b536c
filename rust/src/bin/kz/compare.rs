//! `kz compare`: which patches of two sweeps are equal.

use crate::encode::{by_rule, Cutter};
use crate::fail::Fail;
use crate::given::Given;
use crate::model::allowed;
use crate::netpbm::Picture;
use crate::shown::shown;
use crate::{beside, files, nearest, paint, picture, png, room, unsaid};
use kyzgultam::{patch, restore, PictureSettings};
use std::io::{self, Write};
use std::path::Path;

pub const HELP: &str = "\
kz compare A.ppm B.ppm [-o OUT.png] [--settings LIST] [--force]
kz compare --tokens A.tokens.npy B.tokens.npy ..

Says how many patches of A and B are equal, bit for bit, and which is the
first that is not. Both are resized first, by the rule of --settings; where a
side is above image, the answer names the rule, and where A and B have other
sides and were made alike, it says so. Sweeps archived before there was a
choice were cut by rule 1. With -o it writes a picture of A, resized, in which
the patches that differ are red: PNG or PPM, as OUT ends in .png or .ppm. Exit
status 0 where all are equal, 3 where one is not, and 1 where that is not known
or cannot be said. A or B may be -, standard input.
Of --settings (`kz encode --help`) patch, merge, image, rule, mean and
deviation are used; the last two change no answer, since the same patches are
equal by all that are allowed.

With --tokens it reads token vectors, as `kz encode` writes them, and says of
each sweep in turn, in a table, which of up to 64 before it is nearest: the
one with the largest mean, over the places of the grid, of the cosine of the
two token vectors there. Sweeps of another shape are not compared.
";

const LARGER: &str = "give a larger patch= or a smaller image= in --settings";

pub fn run(given: &Given) -> Result<(), Fail> {
    if given.tokens {
        return nearest::run(given);
    }
    let [a, b] = &given.files[..] else {
        return Err(Fail::usage("compare takes two files, A.ppm and B.ppm"));
    };
    let out = given.path("-o");
    if let Some(out) = &out {
        files::vacant(out, given.force)?;
        png::says("-o", out)?;
    }
    let settings = given.settings()?.picture;
    allowed(&settings)?;
    let (first, second) = (Cut::read(a, &settings)?, Cut::read(b, &settings)?);
    let marks = first.marks(&second, &settings)?;
    let mut to = beside(out.as_deref().as_slice());
    first.say(&mut to, &second, &marks, &settings).map_err(unsaid)?;
    drop(second);
    if let Some(out) = out {
        let map = first.map(&marks, &settings)?;
        files::write(&out, given.force, |to| png::named(to, &out, &map))?;
        writeln!(to, "{}: the patches that differ are red", shown(&out)).map_err(unsaid)?;
    }
    if marks.contains(&true) {
        return Err(Fail::Found);
    }
    Ok(())
}

/// A picture's patches.
struct Cut<'a> {
    file: &'a Path,
    sides: (usize, usize),
    grid: (usize, usize),
    /// The rule that resized it, where that matters.
    rule: Option<usize>,
    patches: Vec<f32>,
}

impl<'a> Cut<'a> {
    fn read(file: &'a Path, settings: &PictureSettings) -> Result<Cut<'a>, Fail> {
        let picture = picture::read(file)?;
        let mut cutter = Cutter::default();
        let (grid, rule) = cutter.cut(file, &picture, settings)?;
        Ok(Cut { file, sides: (picture.height, picture.width), grid, rule, patches: cutter.patches })
    }

    fn count(&self) -> usize {
        self.grid.0 * self.grid.1
    }

    /// What is said where there is no memory for something of the patches.
    fn large(&self, what: &str, settings: &PictureSettings) -> String {
        format!("the {what} of its {} patches (patch={})", self.count(), settings.patch_size)
    }

    /// Which patches are not those of another picture, bit for bit.
    fn marks(&self, other: &Cut, settings: &PictureSettings) -> Result<Vec<bool>, Fail> {
        if self.grid != other.grid {
            let (a, b) = (shown(self.file), shown(other.file));
            return Err(Fail::Refused(format!(
                "{a} has a grid of {}x{} patches and {b} one of {}x{}; compare pictures of one size",
                self.grid.0, self.grid.1, other.grid.0, other.grid.1
            )));
        }
        let same = |a: &[f32], b: &[f32]| a.iter().zip(b).all(|(x, y)| x.to_bits() == y.to_bits());
        let p = settings.patch_size;
        let marks = room::empty(self.count(), &self.large("marks", settings), LARGER);
        let mut marks = marks.map_err(|words| Fail::file(self.file, words))?;
        marks.extend((0..self.count()).map(|i| !same(patch(&self.patches, p, i), patch(&other.patches, p, i))));
        Ok(marks)
    }

    /// The answer, and whether pictures of other sides were made alike for it.
    fn say(&self, to: &mut dyn Write, other: &Cut, marks: &[bool], settings: &PictureSettings) -> io::Result<()> {
        let (grid_h, grid_w) = self.grid;
        let equal = marks.iter().filter(|mark| !**mark).count();
        let tail = match marks.iter().position(|mark| *mark) {
            Some(i) => format!("; the first that differs is at row {}, column {} (from 0)", i / grid_w, i % grid_w),
            None => String::new(),
        };
        let rule = by_rule(self.rule.or(other.rule));
        writeln!(to, "{equal} of {} patches are equal{tail}{rule}", self.count())?;
        if self.sides != other.sides {
            let of = |cut: &Cut| format!("{} is {}x{}", shown(cut.file), cut.sides.0, cut.sides.1);
            let (h, w) = (grid_h * settings.patch_size, grid_w * settings.patch_size);
            writeln!(to, "{} and {}: both were resized to {h}x{w} to be compared", of(self), of(other))?;
        }
        to.flush()
    }

    /// The picture, resized, with the marked patches in red.
    fn map(&self, marks: &[bool], settings: &PictureSettings) -> Result<Picture, Fail> {
        let rgb = room::zeros(self.patches.len(), &self.large("picture", settings), LARGER);
        let mut rgb = rgb.map_err(|words| Fail::file(self.file, words))?;
        let size = restore(&self.patches, self.grid.0, self.grid.1, settings, &mut rgb);
        let size = size.map_err(|refusal| Fail::call(self.file, refusal, "report it"))?;
        Ok(paint::marks(Picture { height: size.height, width: size.width, rgb }, self.grid, marks))
    }
}
