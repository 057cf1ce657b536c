//! `kz salvage`: a damaged patches file back to a picture, and which of its samples are bad.

use crate::fail::Fail;
use crate::given::Given;
use crate::model::allowed;
use crate::netpbm::Picture;
use crate::restore::{Patches, ELSEWHERE};
use crate::shown::shown;
use crate::{beside, files, paint, png, room, unsaid};
use kyzgultam::{BadSample, PictureSettings, Refusal};
use std::fs;
use std::io::{self, BufWriter, Write};
use std::path::{Path, PathBuf};

pub const HELP: &str = "\
kz salvage FILE.patches.npy -o OUT.ppm [--map OUT.png] [--grid HxW] [--all]
           [--settings LIST] [--force]

Writes the picture of damaged patches: as `kz restore`, which refuses them
with 8, but a sample with bits that no byte has in its channel becomes byte 0.
Each such sample is said in a line: its patch, its channel, its pixel in the
picture and the bits that were found, rows and columns from 0. After 100 of
them it says how many more there are; with --all it says every one. Damage
that left the bits of another byte cannot be seen. Exit status 0 where the
picture was written, whatever is bad, and 1 where that cannot be said on
standard output.

With --map it also writes the picture with the bad pixels in magenta, their
patches framed and all others dimmed, enlarged where it is small, as PNG or PPM
by its ending (-o: PNG by .png, else PPM). A pixel is marked as a whole, which-
ever of its samples is bad, and by more than itself where it is too small.

The file, --grid and --settings are as for `kz restore`: with another mean or
deviation than its own most samples are bad. The resize rule may be left out.
A tile's file gives the tile with its padding.
";

/// So many bad samples are said without --all.
const LINES: usize = 100;

/// Entries of the first list.
const FEW: usize = 4096;

pub fn run(given: &Given) -> Result<(), Fail> {
    let [file] = &given.files[..] else {
        return Err(Fail::usage("salvage takes one FILE.patches.npy"));
    };
    let out = given.needed("-o", "OUT.ppm")?;
    let map = given.path("--map");
    apart(file, &out, map.as_deref())?;
    let settings = given.settings()?.picture;
    let asked = given.sides("--grid")?;
    allowed(&settings)?;
    for output in [Some(&out), map.as_ref()].into_iter().flatten() {
        files::vacant(output, given.force)?;
    }
    map.as_deref().map_or(Ok(()), |map| png::says("--map", map))?;
    let saved = Saved::read(file, asked, &settings)?;
    // Made before the first file is written: where there is no memory for it, there is neither.
    let marked = map.as_ref().map(|_| saved.marked(file)).transpose()?;
    files::write(&out, given.force, |to| png::or_ppm(to, &out, &saved.picture))?;
    let to = beside(&[&out, map.as_deref().unwrap_or(&out)]);
    let mut lines = vec![format!("{}: {}", shown(&out), saved.sum())];
    let mapped = map.zip(marked).map_or(Ok(()), |(map, marked)| {
        files::write(&map, given.force, |to| png::named(to, &map, &marked))?;
        let words = match saved.list.len() {
            0 => "nothing is marked",
            _ => "bad pixels are magenta, and their patches framed",
        };
        lines.push(format!("{}: {}x{}, {words}", shown(&map), marked.height, marked.width));
        Ok(())
    });
    // The picture is there, so what is bad in it is said even where its map is not.
    let most = if given.all { saved.list.len() } else { LINES };
    let said = saved.say(&mut BufWriter::new(to), &lines, most).map_err(unsaid);
    mapped.and(said)
}

/// The outputs are two files, and neither is the one that is read: what is damaged stays as it is.
fn apart(file: &Path, out: &Path, map: Option<&Path>) -> Result<(), Fail> {
    let read = fs::canonicalize(file).ok().filter(|_| !files::standard(file));
    for (name, output) in [("-o", Some(out)), ("--map", map)] {
        let output = output.filter(|output| !files::standard(output));
        if let Some(output) = output.filter(|output| read.is_some() && place(output) == read) {
            let words = format!("{name} {} is the file that is read; give another name", shown(output));
            return Err(Fail::usage(words));
        }
    }
    match map {
        Some(map) if map == out || (place(map).is_some() && place(map) == place(out)) => {
            Err(Fail::usage(format!("-o and --map are both {}; give two names", shown(out))))
        }
        _ => Ok(()),
    }
}

/// Where a file is to be written, whether it is there or not. No link is followed, since none is written through.
fn place(file: &Path) -> Option<PathBuf> {
    let folder = file.parent().filter(|folder| !folder.as_os_str().is_empty()).unwrap_or(Path::new("."));
    Some(fs::canonicalize(folder).ok()?.join(file.file_name()?))
}

/// A picture from patches of a side, and the samples that it is without.
struct Saved {
    picture: Picture,
    patch: usize,
    grid: (usize, usize),
    list: Vec<BadSample>,
}

impl Saved {
    fn read(file: &Path, asked: Option<(usize, usize)>, settings: &PictureSettings) -> Result<Saved, Fail> {
        let mut read = Patches::read(file, asked, settings)?;
        let (grid_h, grid_w) = read.grid;
        let mut list = vec![];
        let mut entries = FEW;
        let saved = loop {
            let room = room::fit(&mut list, entries, &format!("a list of {entries} bad samples"), ELSEWHERE);
            room.map_err(|words| Fail::file(file, words))?;
            match kyzgultam::salvage(&read.floats, grid_h, grid_w, settings, &mut read.rgb, &mut list) {
                // How many are bad, no answer but an accepted one says.
                Err(Refusal::List) if entries < read.floats.len() => entries = (8 * entries).min(read.floats.len()),
                saved => break saved.map_err(|refusal| read.refused(refusal))?,
            }
        };
        list.truncate(saved.bad);
        let picture = Picture { height: saved.height, width: saved.width, rgb: read.rgb };
        Ok(Saved { picture, patch: settings.patch_size, grid: read.grid, list })
    }

    fn marked(&self, file: &Path) -> Result<Picture, Fail> {
        let room = room::empty(paint::damage_len(&self.picture), "the map of its bad samples", "leave --map out");
        let room = room.map_err(|words| Fail::file(file, words))?;
        Ok(paint::damage(&self.picture, self.patch, &self.list, room))
    }

    /// The sides, and how much is bad.
    fn sum(&self) -> String {
        let Picture { height, width, .. } = self.picture;
        let (bad, samples) = (self.list.len(), self.picture.rgb.len());
        let (held, patches) = (self.list.chunk_by(|a, b| a.patch == b.patch).count(), self.grid.0 * self.grid.1);
        let tail = match bad {
            0 => ": it is what `kz restore` writes".into(),
            _ => format!(", in {held} of {patches} patches; byte 0 is in their place"),
        };
        format!("{height}x{width}, {bad} of {samples} samples are bad{tail}")
    }

    /// Lines, and then the bad samples, of which at most so many.
    fn say(&self, to: &mut dyn Write, lines: &[String], most: usize) -> io::Result<()> {
        for line in lines {
            writeln!(to, "{line}")?;
        }
        let bad = self.list.len();
        if bad > self.picture.rgb.len() / 2 {
            writeln!(to, "more than half are bad: {OTHER}")?;
        }
        if bad > 0 {
            writeln!(to, "patch row  column  channel  pixel row  column  found bits")?;
        }
        for sample in self.list.iter().take(most) {
            self.line(to, *sample)?;
        }
        if bad > most {
            writeln!(to, "and {} more; --all says every one", bad - most)?;
        }
        to.flush()
    }

    fn line(&self, to: &mut dyn Write, bad: BadSample) -> io::Result<()> {
        let (p, grid_w) = (self.patch, self.grid.1);
        let (grid_y, grid_x) = (bad.patch as usize / grid_w, bad.patch as usize % grid_w);
        let (channel, y, x) = (CHANNELS[bad.channel(p)], bad.row(p, grid_w), bad.column(p, grid_w));
        writeln!(to, "{grid_y:>9} {grid_x:>7}  {channel:<7} {y:>10} {x:>7}  {:#010x}", bad.bits)
    }
}

const CHANNELS: [&str; 3] = ["red", "green", "blue"];
const OTHER: &str = "the file may have been cut with another mean= or deviation= than these --settings have";
