//! The log of a job, which leaves the clinic's network: none of its bytes depends on a pixel. A line has what is handed
//! over here and nothing else: places in the list, settings, sides, and a report of preprocess, which is proved to be
//! the same for all pictures of equal sides.

use crate::fail::Fail;
use crate::files;
use crate::shown::shown;
use kyzgultam::{Patches, PictureSettings, Refusal, Tile};
use std::fs::File;
use std::io::{self, Write};
use std::path::{Path, PathBuf};

pub struct Log {
    file: PathBuf,
    open: File,
    /// How long it is, in whole lines.
    len: u64,
}

/// Height and width.
pub type Sides = (usize, usize);

impl Log {
    /// An empty one.
    pub fn new(file: &Path, force: bool) -> Result<Log, Fail> {
        let open = files::begin(file, force).map_err(taken)?;
        Ok(Log { file: file.to_path_buf(), open, len: 0 })
    }

    /// The line of a sweep, counted from 0.
    pub fn sweep(
        &mut self,
        index: usize,
        settings: &PictureSettings,
        sides: Sides,
        report: Result<Patches, Refusal>,
    ) -> Result<(), Fail> {
        self.put(&sweep(index, settings, sides, report))
    }

    /// The line of a sweep's tile, both counted from 0.
    pub fn tile(
        &mut self,
        index: usize,
        tile: usize,
        settings: &PictureSettings,
        sides: Sides,
        report: Result<Tile, Refusal>,
    ) -> Result<(), Fail> {
        self.put(&self::tile(index, tile, settings, sides, report))
    }

    /// Each line in one piece, so that a run that is killed leaves whole ones. What a full disk took of one is removed.
    fn put(&mut self, line: &str) -> Result<(), Fail> {
        if let Err(e) = self.open.write_all(line.as_bytes()) {
            let _ = self.open.set_len(self.len);
            return Err(self.unwritten(e));
        }
        self.len += line.len() as u64;
        Ok(())
    }

    /// Some file systems say only here that something was not written.
    pub fn end(self) -> Result<(), Fail> {
        self.open.sync_all().map_err(|e| self.unwritten(e))
    }

    fn unwritten(&self, e: io::Error) -> Fail {
        Fail::Unlogged(format!("{}: cannot be written: {e}; {AGAIN}", shown(&self.file)))
    }
}

const AGAIN: &str = "stopped; make room, and go on with --skip-existing and another --log";

/// Refuses a log that would be written over, before long work.
pub fn vacant(file: &Path, force: bool) -> Result<(), Fail> {
    files::vacant(file, force).map_err(taken)
}

fn taken(fail: Fail) -> Fail {
    match fail {
        Fail::Taken(words) => Fail::Taken(format!("{words}, or give another --log")),
        fail => fail,
    }
}

fn sweep(index: usize, settings: &PictureSettings, sides: Sides, report: Result<Patches, Refusal>) -> String {
    let (lent, number) = (lent(settings, sides), number(report.err()));
    let Patches { grid_h, grid_w, floats } = report.unwrap_or(Patches { grid_h: 0, grid_w: 0, floats: 0 });
    format!("sweep={index} {lent} number={number} grid_h={grid_h} grid_w={grid_w} floats={floats}\n")
}

fn tile(index: usize, tile: usize, settings: &PictureSettings, sides: Sides, report: Result<Tile, Refusal>) -> String {
    let (lent, number) = (lent(settings, sides), number(report.err()));
    let none = Tile { grid_h: 0, grid_w: 0, floats: 0, top: 0, left: 0, height: 0, width: 0 };
    let Tile { grid_h, grid_w, floats, top, left, height, width } = report.unwrap_or(none);
    format!(
        "sweep={index} tile={tile} {lent} number={number} grid_h={grid_h} grid_w={grid_w} floats={floats} \
         top={top} left={left} tile_h={height} tile_w={width}\n"
    )
}

/// What a call was lent but for the pixels. Means and deviations are bits: equal settings are equal text.
fn lent(settings: &PictureSettings, (height, width): Sides) -> String {
    let PictureSettings { patch_size, spatial_merge_size, image_size, resize_rule, mean, deviation } = settings;
    let bits = |numbers: &[f32; 3]| numbers.map(|number| format!("{:08x}", number.to_bits())).join("/");
    let (mean, deviation) = (bits(mean), bits(deviation));
    format!(
        "patch={patch_size} merge={spatial_merge_size} image={image_size} rule={resize_rule} mean={mean} \
         deviation={deviation} height={height} width={width}"
    )
}

fn number(refusal: Option<Refusal>) -> u32 {
    refusal.map_or(0, Refusal::number)
}

#[cfg(test)]
mod tests {
    use super::*;

    const SETTINGS: &str = "patch=14 merge=2 image=1540 rule=1 mean=3ef6813a/3eea685e/3ed100ff \
                            deviation=3e8989d0/3e85c974/3e8d32a8 height=3000 width=2000";

    #[test]
    fn lines() {
        let settings = PictureSettings::default();
        let patches = Patches { grid_h: 110, grid_w: 34, floats: 7 };
        let line = sweep(2, &settings, (3000, 2000), Ok(patches));
        assert_eq!(line, format!("sweep=2 {SETTINGS} number=0 grid_h=110 grid_w=34 floats=7\n"));
        let line = sweep(2, &settings, (3000, 2000), Err(Refusal::Output));
        assert_eq!(line, format!("sweep=2 {SETTINGS} number=5 grid_h=0 grid_w=0 floats=0\n"));
        let report = Tile { grid_h: 1, grid_w: 2, floats: 3, top: 4, left: 5, height: 6, width: 7 };
        let line = tile(0, 3, &settings, (3000, 2000), Ok(report));
        let sizes = "grid_h=1 grid_w=2 floats=3 top=4 left=5 tile_h=6 tile_w=7";
        assert_eq!(line, format!("sweep=0 tile=3 {SETTINGS} number=0 {sizes}\n"));
        let line = tile(0, 3, &settings, (3000, 2000), Err(Refusal::Channel));
        let zeros = "grid_h=0 grid_w=0 floats=0 top=0 left=0 tile_h=0 tile_w=0";
        assert_eq!(line, format!("sweep=0 tile=3 {SETTINGS} number=19 {zeros}\n"));
    }
}
