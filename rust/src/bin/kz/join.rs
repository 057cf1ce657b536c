//! `kz restore --tiles`: the patches of all tiles of a sweep back to the sweep.

use crate::fail::{numbered, Fail};
use crate::given::Given;
use crate::model::{allowed, refused_settings};
use crate::netpbm::Picture;
use crate::progress::Progress;
use crate::restore::{bytes, damaged, floats, ELSEWHERE};
use crate::shown::shown;
use crate::source::Source;
use crate::tiles::{label, named, place, Named};
use crate::{beside, files, npy, png, room, spoilt};
use kyzgultam::{cut, restore_tile, Cut, PictureSettings, Refusal};
use std::collections::BTreeMap;
use std::ffi::OsStr;
use std::io::Write;
use std::path::{Path, PathBuf};

pub fn run(given: &Given) -> Result<(), Fail> {
    let Some(first) = given.files.first() else {
        return Err(Fail::usage("no SWEEP.HxW.rRcC.patches.npy is given"));
    };
    if given.sides("--grid")?.is_some() {
        return Err(Fail::usage("--grid is for plain floats; a tile's file says its own"));
    }
    let out = given.needed("-o", "OUT.ppm")?;
    let settings = given.settings()?.picture;
    allowed(&settings)?;
    files::vacant(&out, given.force)?;
    let tiles = tiles_of(&given.files)?;
    let (height, width) = tiles[0].1.sides;
    let refused = |refusal| match refusal {
        Refusal::Setting | Refusal::Channel => refused_settings(refusal),
        Refusal::ImageSize => Fail::call(first, refusal, "give a larger image= in --settings"),
        _ => Fail::call(first, refusal, format!("its name says a sweep of {height}x{width}: {KEPT}")),
    };
    let cut = cut(height, width, &settings).map_err(refused)?;
    let tiles = in_order(&tiles, &cut)?;
    let rgb = room::zeros(height * width * 3, &format!("the sweep of {height}x{width} pixels"), ELSEWHERE);
    let mut sweep = Picture { height, width, rgb: rgb.map_err(|words| Fail::file(first, words))? };
    let mut progress = Progress::new(tiles.len());
    for (index, file) in tiles.iter().enumerate() {
        let name = label(&cut, place(&cut, index));
        progress.at(OsStr::new(&name));
        join(file, index, &name, &settings, &mut sweep).inspect_err(|_| progress.clear())?;
    }
    progress.clear();
    files::write(&out, given.force, |to| png::or_ppm(to, &out, &sweep))?;
    let words = format!("{height}x{width}, joined from {}x{} tiles", cut.rows, cut.columns);
    let _ = writeln!(beside(&[&out]), "{}: {words}", shown(&out));
    Ok(())
}

const KEPT: &str = "give the files by the names that `kz patches --tiles` gave them";

/// What each name says; all are of one sweep.
fn tiles_of(files: &[PathBuf]) -> Result<Vec<(&Path, Named<'_>)>, Fail> {
    let mut tiles: Vec<(&Path, Named)> = vec![];
    for file in files {
        let words = || format!("has no name of a tile's patches, as SWEEP.3000x2000.r00c01.patches.npy; {KEPT}");
        let named = named(file).ok_or_else(|| Fail::file(file, words()))?;
        if let Some((first, of)) = tiles.first().filter(|(_, of)| (of.sweep, of.sides) != (named.sweep, named.sides)) {
            let (height, width) = of.sides;
            let other = format!("{} of {height}x{width}", shown(of.sweep));
            let words = format!("is no tile of {other}, of which {} is one; give the tiles of one sweep", shown(first));
            return Err(Fail::file(file, words));
        }
        tiles.push((file, named));
    }
    Ok(tiles)
}

/// The files by the tiles' indices: each tile of the cut once.
fn in_order<'a>(tiles: &[(&'a Path, Named)], cut: &Cut) -> Result<Vec<&'a Path>, Fail> {
    let (_, Named { sweep, sides: (height, width), .. }) = &tiles[0];
    let of = format!("these --settings cut {height}x{width} into {}x{} tiles", cut.rows, cut.columns);
    let mut found = BTreeMap::new();
    for (file, Named { place: (row, column), .. }) in tiles {
        if *row >= cut.rows || *column >= cut.columns {
            return Err(Fail::call(file, Refusal::Tile, format!("{of}: {OWN}")));
        }
        if let Some(other) = found.insert(row * cut.columns + column, *file) {
            let (a, b, tile) = (shown(other), shown(*file), label(cut, (*row, *column)));
            return Err(Fail::Refused(format!("{a} and {b} are both tile {tile} of the sweep; give one of them")));
        }
    }
    let count = cut.rows * cut.columns;
    if let Some(index) = (0..count).find(|index| !found.contains_key(index)) {
        let tile = label(cut, place(cut, index));
        let more = match count - found.len() {
            1 => String::new(),
            missing => format!(", and {} more", missing - 1),
        };
        let words = format!("{}: tile {tile} is missing{more}: {of}; give all of them, or {OWN}", shown(sweep));
        return Err(Fail::Refused(words));
    }
    Ok(found.into_values().collect())
}

const OWN: &str = "give the --settings that the sweep was cut with";

/// Writes a tile to its place in the sweep.
fn join(file: &Path, index: usize, name: &str, settings: &PictureSettings, sweep: &mut Picture) -> Result<(), Fail> {
    let tile = settings.tile(sweep.height, sweep.width, index).map_err(refused_settings)?;
    let mut source = Source::open(file)?;
    let [h, w, depth] = npy::shape(&mut source, npy::Element::Float).map_err(|why| Fail::file(file, why))?;
    let right = [tile.grid_h, tile.grid_w, tile.floats / (tile.grid_h * tile.grid_w)];
    let unlike = |found: String, bytes: String| {
        let of = format!("tile {name} of a sweep of {}x{} has {}x{}", sweep.height, sweep.width, right[0], right[1]);
        Fail::file(file, format!("{found}: {of} patches of {} floats by these --settings{bytes}; {OWN}", right[2]))
    };
    let numbered = |found| numbered(Refusal::PatchesLength, found);
    if [h, w, depth] != right {
        let found = format!("it has {h}x{w} patches of {depth} floats");
        return Err(match h * w * depth {
            len if len == tile.floats => unlike(found, String::new()),
            len => unlike(numbered(found), format!("; {}", bytes(4 * len, tile.floats))),
        });
    }
    let of = format!("of tile {name} (patch={}, image={})", settings.patch_size, settings.image_size);
    let patches = floats(file, source, tile.floats, &of)?;
    // From a pipe, whose length shows at its end.
    let patches = patches.map_err(|bytes| unlike(numbered(bytes), String::new()))?;
    let done = restore_tile(&patches, sweep.height, sweep.width, index, settings, &mut sweep.rgb);
    done.map(drop).map_err(|refusal| match refusal {
        Refusal::Sample => {
            let which = spoilt::first(&patches, tile.grid_w, (tile.height, tile.width), settings);
            damaged(file, which, &format!(", or is not tile {name} of its sweep"))
        }
        _ => Fail::call(file, refusal, OWN),
    })
}
