//! `kz copies`: which sweeps of a folder are copies of which, by their patches alone, and which share most of them.

use crate::alike::{hash, Compared, Patches, Print};
use crate::answer;
use crate::encode::Cutter;
use crate::fail::Fail;
use crate::found::Found;
use crate::gather::gather;
use crate::given::Given;
use crate::model::allowed;
use crate::netpbm::Picture;
use crate::npy::{self, Element, Shape};
use crate::progress::Progress;
use crate::source::{unread, Source};
use crate::{files, paint, picture, png, room};
use kyzgultam::{restore, PictureSettings};
use std::fs::File;
use std::path::{Path, PathBuf};

pub const HELP: &str = "\
kz copies DIR .. [--all] [--json] [-o OUT] [--settings LIST] [--force]
Says which sweeps are copies of which: those with the same grid and the same
patches, each equal bit for bit. Of a folder its own files are taken: patches
(.patches.npy) and sweeps (.png, .ppm, .pgm, .pnm), whose patches are made by
patch, merge, image, rule, mean and deviation of --settings (`kz help encode`).
Patches in files stay as they are: compare what was cut by one choice. Sweeps
with a side above image are resized first, and what that takes away is not
compared; the answer counts them.
A copy is said only after every patch of both was compared; hashes of patches
only tell whom to compare. -0 is not 0, and a NaN equals the same NaN. A file
with two names, as by a link, is no copy: it is taken once, and both are said.
Two sweeps that share more than half of their patches, place by place, are no
copies: they are said with how many differ and the first place that does, rows
and columns from 0. These are the 100 nearest pairs, and every one with --all.
With -o each such pair has a picture in OUT: the first of the two, resized,
with the patches that differ in red. --json gives the answer as a JSON text.
It holds 8 bytes a patch, 32 a pair and the floats of two sweeps. What cannot
be read is named, and the others are still compared. Exit status 0 no copies, 3
copies found, 1 the answer is not whole or cannot be said, 2 no command line.
";

/// So many pairs are said without --all.
const PAIRS: usize = 100;

/// What is taken from a folder.
const ENDINGS: [&str; 5] = ["patches.npy", "png", "ppm", "pgm", "pnm"];

pub fn run(given: &Given) -> Result<(), Fail> {
    if given.files.is_empty() {
        return Err(Fail::usage("copies takes folders or files, DIR .."));
    }
    let settings = given.settings()?.picture;
    allowed(&settings)?;
    let gathered = gather(&given.files, &ENDINGS);
    let mut sweeps = Sweeps { files: gathered.files.clone(), settings, cutter: Cutter::default() };
    let mut found = Found::of(gathered);
    let prints = prints(&mut sweeps, &mut found);
    let mut compared = Compared::new(&prints, &mut sweeps);
    compare(&mut compared, &mut found, if given.all { usize::MAX } else { PAIRS });
    // What was found is said, also where its pictures cannot be written.
    let painted = given.path("-o").map(|out| pictures(&mut compared, &mut found, &out, given.force, &settings));
    found.gathered.refused.extend(compared.lost.into_values());
    found.gathered.warn();
    answer(format_args!("{}", if given.json { found.json() } else { found.words() }))?;
    painted.unwrap_or(Ok(()))?;
    found.status()
}

/// Sweeps and files of patches, which are read, and sweeps cut, each time their patches are asked for.
struct Sweeps {
    files: Vec<PathBuf>,
    settings: PictureSettings,
    cutter: Cutter,
}

impl Sweeps {
    /// The patches of a file, in the buffer: their shape, and the rule that resized the sweep, where one did.
    fn patches(&mut self, index: usize, floats: &mut Vec<f32>) -> Result<(Shape, Option<usize>), Fail> {
        let file = &self.files[index];
        let mut source = Source::open(file)?;
        if file.extension().is_some_and(|e| e == "npy") || npy::begins(&mut source).map_err(unread(file))? {
            return Ok((read(file, source, floats)?, None));
        }
        std::mem::swap(&mut self.cutter.patches, floats);
        let cut = picture::read(file).and_then(|picture| self.cutter.cut(file, &picture, &self.settings));
        std::mem::swap(&mut self.cutter.patches, floats);
        let ((h, w), rule) = cut?;
        Ok(([h, w, 3 * self.settings.patch_size.pow(2)], rule))
    }
}

impl Patches for Sweeps {
    fn read(&mut self, index: usize, shape: Shape, floats: &mut Vec<f32>) -> Result<(), Fail> {
        let (found, _) = self.patches(index, floats)?;
        (found == shape).then_some(()).ok_or_else(|| changed(&self.files[index]))
    }
}

fn changed(file: &Path) -> Fail {
    Fail::file(file, "was changed while it was read; try again")
}

/// All patches of a file, whose bits are kept.
fn read(file: &Path, mut source: Source<File>, floats: &mut Vec<f32>) -> Result<Shape, Fail> {
    let shape = npy::shape(&mut source, Element::Float).map_err(|why| Fail::file(file, why))?;
    if shape.contains(&0) {
        return Err(Fail::file(file, "holds no patches"));
    }
    let [h, w, len] = shape;
    let what = format!("its {h}x{w} patches of {len} floats");
    let fit = room::fit(floats, h * w * len, &what, "try it again where there is more");
    fit.map_err(|words| Fail::file(file, words))?;
    let whole = source.floats(floats).map_err(unread(file))? == 4 * floats.len();
    whole.then_some(shape).ok_or_else(|| changed(file))
}

/// What is kept of each file's patches. A file that is refused is left out.
fn prints(sweeps: &mut Sweeps, found: &mut Found) -> Vec<Option<Print>> {
    let mut progress = Progress::new(sweeps.files.len());
    let mut floats = vec![];
    let mut prints = vec![];
    for (index, file) in sweeps.files.clone().iter().enumerate() {
        progress.at(file.as_os_str());
        let print = sweeps.patches(index, &mut floats).and_then(|(shape, rule)| {
            let print = Print::of(&floats, shape, hash).map_err(|words| Fail::file(file, words))?;
            Ok((print, rule))
        });
        found.shapes.push(print.as_ref().ok().map(|(print, rule)| (print.shape, *rule)));
        match print {
            Ok((print, _)) => prints.push(Some(print)),
            Err(fail) => {
                found.gathered.refused.push(fail);
                prints.push(None);
            }
        }
    }
    progress.clear();
    prints
}

/// Compares in full: all that may be copies, and of the pairs that may share most patches so many.
fn compare(compared: &mut Compared<Sweeps>, found: &mut Found, most: usize) {
    let files = found.gathered.files.clone();
    let at = |progress: &mut Progress, index: usize| progress.at(files[index].as_os_str());
    let classes = compared.classes();
    let mut progress = Progress::new(classes.iter().map(Vec::len).sum());
    found.copies = compared.copies(classes, |index| at(&mut progress, index));
    progress.clear();
    let mut likely = compared.likely(&found.copies);
    found.more = likely.len().saturating_sub(most);
    likely.truncate(most);
    let mut progress = Progress::new(likely.len());
    found.pairs = compared.pairs(likely, |index| at(&mut progress, index));
    progress.clear();
}

/// Writes a picture of each pair.
fn pictures(
    compared: &mut Compared<Sweeps>,
    found: &mut Found,
    out: &Path,
    force: bool,
    settings: &PictureSettings,
) -> Result<(), Fail> {
    let name = |i: usize| out.join(format!("pair-{:03}.png", i + 1));
    files::folder(out)?;
    (0..found.pairs.len()).try_for_each(|i| files::vacant(&name(i), force))?;
    for (i, pair) in found.pairs.iter().enumerate() {
        let file = &found.gathered.files[pair.a];
        let Some(marks) = compared.differing(pair.a, pair.b) else {
            found.pictures.push(None);
            continue;
        };
        let shape = found.shapes[pair.a].map_or([1; 3], |(shape, _)| shape);
        let picture = drawn(compared.first(), shape, settings).map_err(|words| Fail::file(file, words))?;
        let map = paint::marks(picture, (shape[0], shape[1]), &marks);
        files::write(&name(i), force, |to| png::png(to, &map))?;
        found.pictures.push(Some(name(i)));
    }
    Ok(())
}

/// The picture of patches; where they are none of a picture by these settings, a grey one.
fn drawn(patches: &[f32], [h, w, len]: Shape, settings: &PictureSettings) -> Result<Picture, String> {
    let room = |len| room::zeros(len, "the picture of a pair", "leave out -o");
    if let Ok(len) = settings.restored_len(h, w) {
        let mut rgb = room(len)?;
        if let Ok(size) = restore(patches, h, w, settings, &mut rgb) {
            return Ok(Picture { height: size.height, width: size.width, rgb });
        }
    }
    let side = (1..=32).find(|side| 3 * side * side == len).unwrap_or(8);
    let mut rgb: Vec<u8> = room(3 * h * w * side * side)?;
    rgb.fill(128);
    Ok(Picture { height: h * side, width: w * side, rgb })
}
