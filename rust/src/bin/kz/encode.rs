//! `kz encode` and `kz patches`: sweeps to files of floats.

use crate::alive::Alive;
use crate::fail::{numbered, Fail};
use crate::given::Given;
use crate::lists::{self, Shard};
use crate::log::{self, Log};
use crate::model::{allowed, refused_settings, Lent, Model};
use crate::netpbm::Picture;
use crate::npy::Element;
use crate::pace::Pace;
use crate::progress::warn;
use crate::shown::shown;
use crate::source::Source;
use crate::sweeps::{self, Sweep};
use crate::turns::Turns;
use crate::{beside, files, npy, room, tiles};
use kyzgultam::{pixtral_preprocess, preprocess_tile, PictureSettings, Refusal, Tile};
use std::borrow::Cow;
use std::ffi::OsStr;
use std::fs;
use std::io::Write;
use std::path::{Path, PathBuf};
use std::thread::{self, Builder};
use std::time::Instant;

pub const ENCODE: &str = "\
kz encode SWEEP.ppm .. -o DIR [--tiles] [--model DIR] [--weights FILE]
          [--tables FILE] [--config FILE] [--settings LIST] [--bf16]
          [--jobs N] [--list FILE [--null]] [--shard I/N] [--log FILE]
          [--force | --skip-existing]
Writes the token vectors of a SWEEP (PNG, P5, P6) to DIR/SWEEP.tokens.npy, an
array of NumPy: rows x columns x text; with --bf16 rounded to bf16, as '<u2',
in half the room. `kz patches --help` has -, --tiles, --jobs and all behind it.
--model is a folder with config.json and model.safetensors (`kz weights
--help`). Else weights are those of --weights or from a seed; tables those of
--tables or small ones for theta 10000. Both are plain f32, little-endian, in
the order of include/kyzgultam.h; full tables: all cosines, then all sines.
Runs share the memory of --weights: replace that file, do not write over it.
With --model or --config sizes are a config.json's (`kz config --help`), and
--settings names none. It is a list as patch=14,image=560; built in are:
  patch 14 (1..32)   hidden 64 (4..2048)  layers 2 (0..48)
  merge 2 (1..4)     heads 4 (1..64)      intermediate 128 (1..8192)
  image 1540         head: hidden / heads text 64 (1..8192)
    (1..2048)          (4, 8 .. 256)      scale: 1 / root of head
  rule 1 (1, 2)      bias 0 (0, 1)        mean, deviation: as in the Rust
Rule 1, as in the Rust and in all that was archived before there was a choice,
cuts each side to image by itself and so squashes a longer sweep; 2 keeps its
shape, and is named where it does. With bias 1 linear_1 and linear_2 have one.
A byte becomes (byte / 255 - mean) / deviation, no two alike: one number for
all channels or three, as mean=0.2,deviation=0.3/0.25/0.3.
";

pub const PATCHES: &str = "\
kz patches SWEEP.ppm .. -o DIR [--tiles] [--settings LIST] [--jobs N]
           [--list FILE [--null]] [--shard I/N] [--log FILE]
           [--force | --skip-existing]
Writes the patches of a SWEEP (PNG, P5, P6) to DIR/SWEEP.patches.npy, an array
of NumPy: grid rows x grid columns x 3 patch^2, a patch's samples by channel,
row and column. SWEEP - is standard input, with one or several P5 and P6, one
behind the other: stdin.f0000 and so on; -o - is standard output, for one file.
Of --settings (`kz help encode`) patch, merge, image, rule, mean and deviation
are used, and the rule is named where a side is above image. The file has no
settings: note them beside it, since `kz restore` needs the same to go back.
With --tiles nothing is resized: each sweep is cut by row into square tiles,
whose side is the largest multiple of patch x merge not above image; the last
ones are smaller, and padded on the right and below with bytes of 0. A tile's
name says the sweep's sides and the tile's row and column, from 0, and nothing
else does: DIR/SWEEP.3000x2000.r00c01.patches.npy. `kz restore --tiles` joins.
--jobs does N sweeps at once; what is said, log and exit status are as with 1.
--list has the names in FILE (-: standard input), one a line, or with --null
each before a byte 0; --shard, I from 1 to N, takes every N-th from the I-th.
--skip-existing takes files that are there for done, so that a list goes on
that was cut off: do that by the --settings that it was begun with.
With --log each sweep, or tile, has a line in FILE: its index in the list, the
settings, the sides, and preprocess's number, grid and count of floats. It has
no name and no time, and no pixel changes it: it says nothing of forward's 12,
nor of what was written or skipped. So FILE may leave the clinic's network.
";

/// Patches of one picture after another, in one buffer.
#[derive(Default)]
pub struct Cutter {
    pub patches: Vec<f32>,
}

/// A grid, and, where a side was above the image size, the rule that resized the picture: elsewhere they are alike.
type Resized = ((usize, usize), Option<usize>);

pub fn by_rule(rule: Option<usize>) -> String {
    rule.map_or(String::new(), |rule| format!("; resized by rule {rule}"))
}

/// What is said of a picture that is not cut.
fn refused(file: &Path, refusal: Refusal) -> Fail {
    match refusal {
        Refusal::Setting | Refusal::Channel => refused_settings(refusal),
        Refusal::ImageSize => Fail::call(file, refusal, "give a larger image= in --settings"),
        _ => Fail::call(file, refusal, "cut or shrink the picture"),
    }
}

/// What a call reported. Where there was no memory for its patches, words say so; it was lent no room, and gave 5.
struct Called<Report> {
    room: Result<(), String>,
    report: Result<Report, Refusal>,
}

impl<Report> Called<Report> {
    fn of(self, file: &Path) -> Result<Report, Fail> {
        self.room.map_err(|words| Fail::file(file, words))?;
        self.report.map_err(|refusal| refused(file, refusal))
    }
}

impl Cutter {
    /// Cuts a file's picture: the patches are in the buffer.
    pub fn cut(&mut self, file: &Path, picture: &Picture, settings: &PictureSettings) -> Result<Resized, Fail> {
        let cut = self.whole(picture, settings).of(file)?;
        Ok(resized(picture, settings, cut))
    }

    /// Cuts a picture: its patches are in the buffer.
    fn whole(&mut self, picture: &Picture, settings: &PictureSettings) -> Called<kyzgultam::Patches> {
        let Picture { height, width, ref rgb } = *picture;
        let room = self.fit(settings, "its patches", settings.patches_len(height, width));
        Called { room, report: pixtral_preprocess(rgb, height, width, settings, &mut self.patches) }
    }

    /// Cuts a tile out of a sweep: its patches are in the buffer.
    fn tile(&mut self, picture: &Picture, index: usize, settings: &PictureSettings) -> Called<Tile> {
        let Picture { height, width, ref rgb } = *picture;
        let room = self.fit(settings, "the patches of a tile", settings.tile_len(height, width, index));
        Called { room, report: preprocess_tile(rgb, height, width, index, settings, &mut self.patches) }
    }

    /// Room for so many floats. Where that is refused, so is the call, and needs none.
    fn fit(&mut self, settings: &PictureSettings, what: &str, floats: Result<usize, Refusal>) -> Result<(), String> {
        let what = format!("{what} (image={})", settings.image_size);
        room::fit(&mut self.patches, floats.unwrap_or(0), &what, "give a smaller image= in --settings")
    }
}

fn resized(picture: &Picture, settings: &PictureSettings, cut: kyzgultam::Patches) -> Resized {
    let long = picture.height.max(picture.width) > settings.image_size;
    ((cut.grid_h, cut.grid_w), long.then_some(settings.resize_rule))
}

/// What is made of patches and written, by row and column of a grid of vectors.
trait Vectors {
    /// What they are called.
    const NAME: &'static str;

    /// How many there are for a grid of patches, down and across, and the floats of each.
    fn shape(&self, grid: (usize, usize)) -> npy::Shape;

    /// How many seconds it will take to make them, about, where that is long.
    fn about(&self, grid: (usize, usize)) -> Option<f64>;

    /// Those of patches.
    fn of<'a>(&'a mut self, patches: &'a [f32], grid: (usize, usize)) -> Result<&'a [f32], Trouble>;
}

/// Why there are no vectors.
enum Trouble {
    /// Of these patches.
    These(String),
    /// Of any.
    Any(String),
}

/// The patches themselves, of so many floats.
struct Patches(usize);

impl Vectors for Patches {
    const NAME: &'static str = "patches";

    fn shape(&self, grid: (usize, usize)) -> npy::Shape {
        [grid.0, grid.1, self.0]
    }

    fn about(&self, _: (usize, usize)) -> Option<f64> {
        None
    }

    fn of<'a>(&'a mut self, patches: &'a [f32], _: (usize, usize)) -> Result<&'a [f32], Trouble> {
        Ok(patches)
    }
}

/// The token vectors that a model gives for them. Threads share the model, and each has what it is lent.
struct Tokens<'m> {
    model: &'m Model,
    pace: &'m Pace,
    lent: Lent,
}

impl Vectors for Tokens<'_> {
    const NAME: &'static str = "tokens";

    fn shape(&self, grid: (usize, usize)) -> npy::Shape {
        let merge = self.model.settings.picture.spatial_merge_size;
        [grid.0 / merge, grid.1 / merge, self.model.settings.text_hidden_size]
    }

    fn about(&self, grid: (usize, usize)) -> Option<f64> {
        self.pace.about(self.model, grid)
    }

    fn of<'a>(&'a mut self, patches: &'a [f32], grid: (usize, usize)) -> Result<&'a [f32], Trouble> {
        self.model.lend(grid, &mut self.lent).map_err(Trouble::These)?;
        let begun = Instant::now();
        let done = self.model.forward(patches, grid, &mut self.lent);
        // Weights that changed meanwhile are no model's.
        self.model.unchanged().map_err(Trouble::Any)?;
        done.map_err(|refusal| {
            let words = numbered(refusal, self.model.advice(refusal));
            if self.model.is_finite() {
                Trouble::These(words)
            } else {
                Trouble::Any(words)
            }
        })?;
        self.pace.took(&self.model.settings, grid, begun);
        Ok(&self.lent.tokens)
    }
}

pub fn encode(given: &Given) -> Result<(), Fail> {
    let list = List::read(given)?;
    let settings = given.settings()?.picture;
    list.allowed(&settings)?;
    let (model, pace) = (Model::read(given)?, Pace::default());
    list.write(&settings, || Tokens { model: &model, pace: &pace, lent: Lent::default() })
}

pub fn patches(given: &Given) -> Result<(), Fail> {
    let list = List::read(given)?;
    let settings = given.settings()?.picture;
    list.allowed(&settings)?;
    list.write(&settings, || Patches(3 * settings.patch_size.pow(2)))
}

/// Sweeps, and the folder to which what becomes of each is written.
struct List<'a> {
    given: &'a Given,
    folder: PathBuf,
    log: Option<PathBuf>,
    jobs: usize,
    /// Those of the shard.
    sweeps: Vec<Sweep>,
}

/// What one thread works with.
struct Hand<'a, V> {
    settings: &'a PictureSettings,
    turns: &'a Turns,
    cutter: Cutter,
    vectors: V,
}

impl<V> Drop for Hand<'_, V> {
    fn drop(&mut self) {
        if thread::panicking() {
            self.turns.give_up();
        }
    }
}

impl List<'_> {
    /// A file is named after its sweep in the whole list, so that its name does not hang on the shard.
    fn read(given: &Given) -> Result<List<'_>, Fail> {
        let folder = given.needed("-o", "DIR")?;
        let (jobs, shard) = (given.number("--jobs")?.unwrap_or(1), Shard::read(given)?);
        let names = lists::names(given)?;
        let log = given.path("--log");
        if let Some(log) = &log {
            apart(log, &names)?;
            log::vacant(log, given.force)?;
        }
        let mut sweeps = sweeps::listed(&names)?;
        let total = sweeps.len();
        sweeps.retain(|sweep| shard.has(sweep.place));
        if sweeps.is_empty() {
            let _ = writeln!(beside(&[&folder]), "{}", shard.empty(total));
        }
        let list = List { given, folder, log, jobs, sweeps };
        list.one_file()?;
        Ok(list)
    }

    /// Standard output takes one file.
    fn one_file(&self) -> Result<(), Fail> {
        match (self.sweeps.len(), self.given.tiles, self.given.skip) {
            _ if !files::standard(&self.folder) => Ok(()),
            (0, ..) => Ok(()),
            (1, false, false) => files::vacant(&self.folder, false),
            (1, true, _) => Err(Fail::usage("-o - is for one file, and each tile has one; give a folder")),
            (1, _, true) => Err(Fail::usage("-o - has no file that --skip-existing could find; give a folder")),
            (n, ..) => Err(Fail::usage(format!("-o - is for one file, and there are {n} sweeps; give a folder"))),
        }
    }

    /// Makes the folder, and then the log, which may stand in it.
    fn begin(&self) -> Result<Option<Log>, Fail> {
        if !files::standard(&self.folder) {
            files::folder(&self.folder)?;
        }
        self.log.as_ref().map(|log| Log::new(log, self.given.force)).transpose()
    }

    /// Refuses settings by which no sweep is cut. The log has their number for each sweep all the same.
    fn allowed(&self, settings: &PictureSettings) -> Result<(), Fail> {
        let allowed = allowed(settings);
        if allowed.is_err() && self.log.is_some() {
            self.finish(self.begin()?, 0, settings, &mut Cutter::default())?;
        }
        allowed
    }

    /// Writes what is made of each sweep, or of its tiles, by as many threads as there are jobs. Where one cannot be
    /// started, there are fewer.
    fn write<V: Vectors>(&self, settings: &PictureSettings, vectors: impl Fn() -> V + Sync) -> Result<(), Fail> {
        let log = self.begin()?;
        for part in files::parts(&self.folder) {
            warn(&format!("{}: {LEFT}", shown(&part)));
        }
        let total = self.sweeps.len();
        let turns = Turns::new(total, log, Alive::new(total), beside(&[&self.folder]));
        let work = || self.work(Hand { settings, turns: &turns, cutter: Cutter::default(), vectors: vectors() });
        thread::scope(|scope| {
            let alive = turns.alive.shown().then(|| Builder::new().spawn_scoped(scope, || turns.alive.run()));
            let others: Vec<_> =
                (1..self.jobs.min(total)).map_while(|_| Builder::new().spawn_scoped(scope, work).ok()).collect();
            work();
            let joined = others.into_iter().try_for_each(|other| other.join());
            turns.alive.stop();
            drop(alive);
            joined.unwrap_or_else(|panic| std::panic::resume_unwind(panic));
        });
        let (done, log, lines) = turns.ended();
        if let Err(Fail::Unlogged(_)) = done {
            return done;
        }
        self.finish(log, lines, settings, &mut Cutter::default())?;
        done
    }

    /// Does one sweep after the other, as long as there are any. One that is refused is named, and the others are still
    /// done, unless nothing can be written any more.
    fn work<V: Vectors>(&self, mut hand: Hand<V>) {
        while let Some(index) = hand.turns.begin() {
            hand.turns.alive.begin(index, &self.sweeps[index].stem);
            let done = match self.given.tiles {
                true => self.tiles(index, &mut hand),
                false => self.whole(index, &mut hand),
            };
            hand.turns.alive.end(index);
            hand.turns.end(index, done);
        }
    }

    /// Reads a sweep, cuts it and writes its line: what became of it. Its patches are in the buffer.
    fn logged(
        &self,
        log: &mut Log,
        index: usize,
        settings: &PictureSettings,
        cutter: &mut Cutter,
    ) -> Result<Result<Resized, Fail>, Fail> {
        let sweep = &self.sweeps[index];
        let (picture, taken) = sweep.find();
        let cut = cutter.whole(&picture, settings);
        log.sweep(sweep.place, settings, (picture.height, picture.width), cut.report)?;
        Ok(taken.and_then(|()| cut.of(&sweep.file)).map(|cut| resized(&picture, settings, cut)))
    }

    /// Reads a sweep, cuts all of its tiles and writes their lines: the sweep. One that has no cut has a line for
    /// tile 0, with the number.
    fn logged_tiles(
        &self,
        log: &mut Log,
        index: usize,
        settings: &PictureSettings,
        cutter: &mut Cutter,
    ) -> Result<Result<Cow<'_, Picture>, Fail>, Fail> {
        let sweep = &self.sweeps[index];
        let (picture, taken) = sweep.find();
        let (height, width) = (picture.height, picture.width);
        let count = kyzgultam::cut(height, width, settings).map_or(1, |cut| cut.rows * cut.columns);
        for tile in 0..count {
            log.tile(sweep.place, tile, settings, (height, width), cutter.tile(&picture, tile, settings).report)?;
        }
        Ok(taken.map(|()| picture))
    }

    /// Writes the lines of the sweeps that were not begun. Where a list stops may hang on how many files forward left
    /// to be written, so a log does not tell it.
    fn finish(
        &self,
        log: Option<Log>,
        lines: usize,
        settings: &PictureSettings,
        cutter: &mut Cutter,
    ) -> Result<(), Fail> {
        let Some(mut log) = log else { return Ok(()) };
        for index in lines..self.sweeps.len() {
            if self.given.tiles {
                self.logged_tiles(&mut log, index, settings, cutter).map(drop)?;
            } else {
                self.logged(&mut log, index, settings, cutter).map(drop)?;
            }
        }
        log.end()
    }

    /// With a log the sweep is cut and its line written before its file is asked for: that one is there may say that an
    /// earlier forward did not refuse the sweep with 12.
    fn whole<V: Vectors>(&self, index: usize, hand: &mut Hand<V>) -> Result<(), Fail> {
        let sweep = &self.sweeps[index];
        let file = &sweep.file;
        let out = self.out::<V>(&sweep.stem);
        let [.., floats] = hand.vectors.shape((0, 0));
        let (settings, turns) = (hand.settings, hand.turns);
        let cut = turns.log(index, |log| self.logged(log, index, settings, &mut hand.cutter))?;
        let words = self.unless_done(&out, None, floats, || {
            let (grid, rule) = cut.unwrap_or_else(|| hand.cutter.cut(file, &*sweep.read()?, settings))?;
            let words = self.put(index, &out, hand, grid, |words| format!("{}: {words}", shown(file)))?;
            Ok(format!("{words}{}", by_rule(rule)))
        })?;
        turns.say(index, words);
        Ok(())
    }

    /// Each tile has a file of its own. Where one is there and is not to be skipped, none is written. With a log the
    /// lines of all tiles are written before the first of them is done, and before their files are asked for.
    fn tiles<V: Vectors>(&self, sweep: usize, hand: &mut Hand<V>) -> Result<(), Fail> {
        let Sweep { file, stem, .. } = &self.sweeps[sweep];
        let (settings, turns) = (hand.settings, hand.turns);
        let logged = turns.log(sweep, |log| self.logged_tiles(log, sweep, settings, &mut hand.cutter))?;
        let picture = logged.unwrap_or_else(|| self.sweeps[sweep].read())?;
        let (height, width) = (picture.height, picture.width);
        let refused = |refusal| refused(file, refusal);
        let cut = kyzgultam::cut(height, width, settings).map_err(refused)?;
        let label = |index: usize| tiles::label(&cut, tiles::place(&cut, index));
        let out = |index: usize| self.out::<V>(&tiles::name(stem, (height, width), &label(index)));
        let count = cut.rows * cut.columns;
        if !self.given.skip {
            (0..count).try_for_each(|index| files::vacant(&out(index), self.given.force))?;
        }
        for index in 0..count {
            turns.alive.part(sweep, index, count);
            let tile = settings.tile(height, width, index).map_err(refused)?;
            let [h, w, floats] = hand.vectors.shape((tile.grid_h, tile.grid_w));
            let out = out(index);
            let words = self.unless_done(&out, Some((h, w)), floats, || {
                let tile = hand.cutter.tile(&picture, index, settings).of(file)?;
                let Tile { grid_h, grid_w, top, left, height, width, .. } = tile;
                let of_tile = |words: &str| format!("{}: tile {}: {words}", shown(file), label(index));
                let words = self.put(sweep, &out, hand, (grid_h, grid_w), of_tile)?;
                Ok(format!("{words}; {height}x{width} pixels from row {top}, column {left}"))
            })?;
            turns.say(sweep, words);
        }
        Ok(())
    }

    fn out<V: Vectors>(&self, name: &OsStr) -> PathBuf {
        if files::standard(&self.folder) {
            return self.folder.clone();
        }
        let mut name = name.to_os_string();
        name.push(format!(".{}.npy", V::NAME));
        self.folder.join(name)
    }

    /// What the files hold.
    fn element(&self) -> Element {
        if self.given.bf16 {
            Element::Bf16
        } else {
            Element::Float
        }
    }

    /// Does the work that writes a file, unless that is there and is taken for done.
    fn unless_done(
        &self,
        out: &Path,
        grid: Option<(usize, usize)>,
        floats: usize,
        work: impl FnOnce() -> Result<String, Fail>,
    ) -> Result<String, Fail> {
        match files::vacant(out, self.given.force).and_then(|()| work()) {
            Err(Fail::Taken(_)) if self.given.skip => finished(out, grid, floats, self.element()),
            done => done,
        }
    }

    /// Writes the vectors of the patches in the buffer: what is said of the file.
    fn put<V: Vectors>(
        &self,
        index: usize,
        out: &Path,
        hand: &mut Hand<V>,
        grid: (usize, usize),
        of: impl Fn(&str) -> String,
    ) -> Result<String, Fail> {
        let [h, w, len] = hand.vectors.shape(grid);
        let alive = &hand.turns.alive;
        if alive.shown() {
            alive.expect(index, hand.vectors.about(grid));
        }
        let floats = hand.vectors.of(&hand.cutter.patches, grid).map_err(|trouble| match trouble {
            Trouble::These(words) => Fail::Refused(of(&words)),
            Trouble::Any(words) => Fail::Unfit(of(&words)),
        })?;
        let element = self.element();
        files::write(out, self.given.force, |to| {
            npy::head(to, element, [h, w, len])?;
            match element {
                Element::Float => files::put(to, floats),
                Element::Bf16 => files::put_bf16(to, floats),
            }
        })?;
        Ok(format!("{}: {h}x{w} {} of {len} {}", shown(out), V::NAME, element.name()))
    }
}

const LEFT: &str = "was begun by a run that is at work now, or was killed; if none is at work here, remove it";

/// Refuses a log that has the name of a sweep, or one of those under which vectors are written.
fn apart(log: &Path, sweeps: &[PathBuf]) -> Result<(), Fail> {
    let place = |file: &Path| fs::canonicalize(file).ok();
    let there = place(log);
    if there.is_some() && sweeps.iter().any(|sweep| place(sweep) == there) {
        return Err(Fail::usage(format!("--log {} is a sweep of the list; {OTHER}", shown(log))));
    }
    if log.extension().is_some_and(|ending| ending == "npy") {
        return Err(Fail::usage(format!("--log {} has the ending of vectors; {OTHER}", shown(log))));
    }
    Ok(())
}

const OTHER: &str = "give it another name";

/// What is said of a file that is there and is skipped: one of another form is not taken for done. Of a tile the grid
/// is known too.
fn finished(out: &Path, grid: Option<(usize, usize)>, floats: usize, element: Element) -> Result<String, Fail> {
    let unlike = |words: String| Fail::file(out, format!("was not skipped: it {words}"));
    let [h, w, found] = npy::shape(&mut Source::open(out)?, element).map_err(unlike)?;
    if found != floats {
        let words = format!("has vectors of {found} floats, and these --settings give {floats}");
        return Err(unlike(format!("{words}; give another -o")));
    }
    if let Some((right_h, right_w)) = grid.filter(|grid| *grid != (h, w)) {
        let words = format!("has {h}x{w} vectors, and these --settings give its tile {right_h}x{right_w}");
        return Err(unlike(format!("{words}; give another -o")));
    }
    Ok(format!("{}: is there already, skipped", shown(out)))
}
