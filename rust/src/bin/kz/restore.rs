//! `kz restore`: a patches file back to a picture.

use crate::fail::Fail;
use crate::given::Given;
use crate::model::allowed;
use crate::netpbm::Picture;
use crate::shown::shown;
use crate::source::{unread, Source};
use crate::{beside, files, join, npy, png, room, spoilt};
use kyzgultam::{PictureSettings, Refusal};
use std::fmt;
use std::fs::File;
use std::io::Write;
use std::path::Path;

pub const HELP: &str = "\
kz restore FILE.patches.npy -o OUT.ppm [--grid HxW] [--settings LIST]
           [--force]
kz restore --tiles SWEEP.HxW.rRcC.patches.npy .. -o OUT.ppm
           [--settings LIST] [--force]

The first form writes the picture that gave the patches, as it was resized
before it was cut: as PNG if OUT ends in .png, and else as PPM. A .npy file, as
`kz patches` writes it, says its grid itself: its shape is grid rows x grid
columns x 3 patch^2, and another is refused. FILE - is standard input. A file
of plain floats (f32, little-endian) needs --grid. --settings are to be those
that the patches were cut with: patch, merge, image, mean and deviation (`kz
encode --help`). The file does not hold the last two: with others than its own
most files are refused with 8. So is a damaged one, of which `kz salvage`
brings back what is left. The resize rule may be left out: the grid says which
sides it gave.

The second form joins the tiles that `kz patches --tiles` wrote to the sweep,
byte for byte, as in kz restore --tiles out/a.*.patches.npy -o a.ppm. It needs
all of one sweep, in any order; the names say the sweep's sides and where each
tile belongs. One that is missing, given twice or of another sweep is named,
and nothing is written.
";

pub fn run(given: &Given) -> Result<(), Fail> {
    if given.tiles {
        return join::run(given);
    }
    let [file] = &given.files[..] else {
        return Err(Fail::usage("restore takes one FILE.patches.npy, or --tiles and all tiles of a sweep"));
    };
    let out = given.needed("-o", "OUT.ppm")?;
    let settings = given.settings()?.picture;
    let asked = given.sides("--grid")?;
    allowed(&settings)?;
    files::vacant(&out, given.force)?;
    let mut read = Patches::read(file, asked, &settings)?;
    let (grid_h, grid_w) = read.grid;
    let size = kyzgultam::restore(&read.floats, grid_h, grid_w, &settings, &mut read.rgb);
    let size = size.map_err(|refusal| match refusal {
        Refusal::Sample => damaged(file, spoilt::first(&read.floats, grid_w, WHOLE, &settings), ""),
        refusal => read.refused(refusal),
    })?;
    let picture = Picture { height: size.height, width: size.width, rgb: read.rgb };
    files::write(&out, given.force, |to| png::or_ppm(to, &out, &picture))?;
    let _ = writeln!(beside(&[&out]), "{}: {}x{}", shown(&out), size.height, size.width);
    Ok(())
}

/// A picture has no padding, whatever its sides are.
const WHOLE: (usize, usize) = (usize::MAX, usize::MAX);

const DAMAGED: &str = "the file is damaged (`kz salvage` brings back what is not), or was cut with another mean= or \
                       deviation= than these --settings have, or was not written by `kz patches`";
const OWN: &str = "give the --settings, and of plain floats the --grid, that it was written with";
pub const ELSEWHERE: &str = "try it again where there is more";

/// Patches that no picture gives: which float says so, and why the file may have it.
pub fn damaged(file: &Path, which: Option<String>, or: &str) -> Fail {
    let which = which.map_or(String::new(), |which| format!("{which}; "));
    Fail::call(file, Refusal::Sample, format!("{which}{DAMAGED}{or}"))
}

/// A file's patches, and room for the picture that they bring back.
pub struct Patches<'a> {
    file: &'a Path,
    pub grid: (usize, usize),
    pub floats: Vec<f32>,
    pub rgb: Vec<u8>,
    /// What to do where a call refuses them.
    advice: String,
}

impl<'a> Patches<'a> {
    /// Reads all of a file. Its grid, and then its length, are tested before its floats are read, whose bits are kept.
    pub fn read(
        file: &'a Path,
        asked: Option<(usize, usize)>,
        settings: &PictureSettings,
    ) -> Result<Patches<'a>, Fail> {
        let mut source = Source::open(file)?;
        let (grid_h, grid_w, depth) =
            grid(file, &mut source, asked, settings.patch_size.saturating_pow(2).saturating_mul(3))?;
        let advice = format!("it was read as {grid_h}x{grid_w} patches of {depth} floats: {OWN}");
        let mut read = Patches { file, grid: (grid_h, grid_w), floats: vec![], rgb: vec![], advice };
        let len = settings.restored_len(grid_h, grid_w).map_err(|refusal| read.refused(refusal))?;
        if len != grid_h * grid_w * depth {
            return Err(read.unlike(&bytes(4 * grid_h * grid_w * depth, len)));
        }
        let of = format!("of its grid of {grid_h}x{grid_w} (patch={})", settings.patch_size);
        let found = floats(file, source, len, &of)?;
        read.floats = found.map_err(|words| read.unlike(&words))?;
        let rgb = room::zeros(len, &format!("the picture {of}"), ELSEWHERE);
        read.rgb = rgb.map_err(|words| Fail::file(file, words))?;
        Ok(read)
    }

    /// What is said where a call refuses them.
    pub fn refused(&self, refusal: Refusal) -> Fail {
        Fail::call(self.file, refusal, &self.advice)
    }

    /// What is said where they have another length.
    fn unlike(&self, bytes: &str) -> Fail {
        Fail::call(self.file, Refusal::PatchesLength, format!("{bytes}; {}", self.advice))
    }
}

/// How many bytes there are, and how many a count of floats has.
pub fn bytes(found: impl fmt::Display, floats: usize) -> String {
    format!("it has {found} bytes of floats, and {} are expected", 4 * floats)
}

/// Grid and floats a patch: of a .npy file its shape, of plain floats what is asked for.
fn grid(
    file: &Path,
    source: &mut Source<File>,
    asked: Option<(usize, usize)>,
    depth: usize,
) -> Result<(usize, usize, usize), Fail> {
    let named = file.extension().is_some_and(|e| e == "npy");
    if named || npy::begins(source).map_err(unread(file))? {
        let [h, w, depth] = npy::shape(source, npy::Element::Float).map_err(|why| Fail::file(file, why))?;
        return match asked.filter(|grid| *grid != (h, w)) {
            None => Ok((h, w, depth)),
            Some(grid) => {
                let words = format!("has a grid of {h}x{w}, and --grid says {}x{}; leave --grid out", grid.0, grid.1);
                Err(Fail::file(file, words))
            }
        };
    }
    let words = || format!("{}: is no .npy file, so it does not say its grid; give --grid HxW", shown(file));
    let (h, w) = asked.ok_or_else(|| Fail::usage(words()))?;
    Ok((h, w, depth))
}

/// A count of floats, which is all that is left of the file; where it is not, words say so. Its length is tested first.
pub fn floats(file: &Path, mut source: Source<File>, len: usize, of: &str) -> Result<Result<Vec<f32>, String>, Fail> {
    if let Some(left) = source.left().filter(|left| *left != 4 * len as u64) {
        return Ok(Err(bytes(left, len)));
    }
    let floats = room::zeros(len, &format!("the patches {of}"), ELSEWHERE);
    let mut floats = floats.map_err(|words| Fail::file(file, words))?;
    let found = source.floats(&mut floats).map_err(unread(file))?;
    if found < 4 * len {
        return Ok(Err(bytes(found, len)));
    }
    let ended = source.ended().map_err(unread(file))?;
    Ok(if ended { Ok(floats) } else { Err(bytes(format!("more than {found}"), len)) })
}
