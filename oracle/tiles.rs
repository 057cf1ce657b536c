//! Compares libkyzgultam with the Rust on the tiles of a sweep: the cut, a tile's patches and the way
//! back, byte for byte.
//!
//! The Rust has no tiles: the cut, the padding, the way back and the refusals follow the text of
//! 2026-09. The patches of a padded tile are by the Rust's own `pixtral_preprocess`, cut out as for
//! picture, which resizes nothing there.
//!
//!     tiles            edges, refusals that meet, means and deviations, random calls with a fixed seed
//!     tiles CALL       one call, in the words in which a difference is printed
//!     tiles --sample   prints the answers as crates/tiles_replay/stdin holds them

use std::collections::BTreeMap;
use std::fmt;
use std::io::Write;

#[path = "edges.rs"]
mod edges;
#[path = "fewer.rs"]
mod fewer;
#[path = "fills.rs"]
mod fills;
#[path = "lent.rs"]
mod lent;
#[path = "records.rs"]
mod records;
#[path = "sample.rs"]
mod sample;
#[path = "settings.rs"]
mod settings;
#[path = "words.rs"]
mod words;
use edges::{byte, changes, channel, choice, grey, odd_bits, pairs};
use edges::{several, sound, spread, unsound, wide};
use fewer::fewer;
use fills::{Fill, Random, SEED};
use lent::{differ, Differences, Lent};
use records::CELLS;
use settings::{of, preprocess_in_rust, Choice, Settings, Sides, Table};
use settings::{MAX, NO_RULES, OWN, RULES, USUAL};
use words::{shown, Set, Words};

#[repr(C)]
struct CutReport {
    number: u32,
    side: usize,
    rows: usize,
    columns: usize,
}

#[repr(C)]
struct TileReport {
    number: u32,
    grid_h: usize,
    grid_w: usize,
    floats: usize,
    top: usize,
    left: usize,
    height: usize,
    width: usize,
}

// An f32 is lent by its bits, which no move of a NaN can change.
extern "C" {
    fn kz_cut(s: Settings, height: usize, width: usize) -> CutReport;
    fn kz_preprocess_tile(
        s: Settings,
        rgb: *const u8,
        rgb_len: usize,
        height: usize,
        width: usize,
        index: usize,
        out: *mut u32,
        out_len: usize,
    ) -> TileReport;
    fn kz_restore_tile(
        s: Settings,
        patches: *const u32,
        patches_len: usize,
        height: usize,
        width: usize,
        index: usize,
        out: *mut u8,
        out_len: usize,
    ) -> TileReport;
}

/// Random sweeps, rounds of every set of faults, and random calls of which most are refused.
const SWEEPS: usize = 1_500;
const ROUNDS: usize = 40;
const MIXED: usize = 100_000;

// --- The text ---

/// A tile of a sweep: where it lies, its own sides, and those with the padding.
#[derive(Clone, Copy, PartialEq)]
struct Tile {
    top: usize,
    left: usize,
    height: usize,
    width: usize,
    padded: Sides,
}

/// The places along a side at which a tile begins.
fn starts(length: usize, tile: usize) -> impl Iterator<Item = usize> {
    (0..length).step_by(tile)
}

impl Settings {
    /// The largest multiple of the align not above the image size.
    fn tile_side(self) -> usize {
        let multiple = |n: &usize| n % self.align() == 0;
        (0..=self.image_size).rev().find(multiple).unwrap_or(0)
    }

    /// How many tiles stand down and across.
    fn cut(self, sides: Sides) -> Sides {
        sides.map(|side| starts(side, self.tile_side()).count())
    }

    fn tiles(self, sides: Sides) -> usize {
        let [rows, columns] = self.cut(sides);
        rows * columns
    }

    /// Tile `index` of a sweep, cut row by row into tiles of one side, the last ones smaller.
    fn tile(self, [height, width]: Sides, index: usize) -> Option<Tile> {
        let side = self.tile_side();
        let row = |top| starts(width, side).map(move |left| [top, left]);
        let [top, left] = starts(height, side).flat_map(row).nth(index)?;
        let own = [height - top, width - left].map(|rest| usize::min(side, rest));
        Some(Tile {
            top,
            left,
            height: own[0],
            width: own[1],
            padded: own.map(|side| side.next_multiple_of(self.align())),
        })
    }

    /// The floats of a tile's patches; 0 where there is no such tile.
    fn tile_floats(self, sides: Sides, index: usize) -> usize {
        self.tile(sides, index).map_or(0, Tile::floats)
    }
}

impl Tile {
    fn has(self, row: usize, column: usize) -> bool {
        row < self.height && column < self.width
    }

    /// The padded tile's bytes out of those of a sweep so wide: zero bytes to the right and below.
    fn bytes(self, rgb: &[u8], width: usize) -> Vec<u8> {
        let mut bytes = Vec::with_capacity(self.floats());
        for row in 0..self.padded[0] {
            for column in 0..self.padded[1] {
                let at = ((self.top + row) * width + self.left + column) * 3;
                match self.has(row, column) {
                    true => bytes.extend(&rgb[at..at + 3]),
                    false => bytes.extend([0, 0, 0]),
                }
            }
        }
        bytes
    }

    fn grid(self, s: Settings) -> Sides {
        self.padded.map(|side| side / s.patch_size)
    }

    fn floats(self) -> usize {
        self.padded[0] * self.padded[1] * 3
    }

    /// The patches of a padded tile's bytes.
    fn patches(self, s: Settings, bytes: &[u8]) -> Vec<u32> {
        let (patches, grid_h, grid_w) = preprocess_in_rust(s, bytes, self.padded);
        assert!(
            [grid_h, grid_w] == self.grid(s),
            "the Rust resizes a padded tile: {s}, {:?}",
            self.padded
        );
        patches.into_iter().map(f32::to_bits).collect()
    }

    /// The tile's own bytes, by row; none where a sample is no byte's, or in the padding not byte 0's.
    fn restored(self, table: &Table, s: Settings, patches: &[u32]) -> Option<Vec<u8>> {
        let bytes = table.unpatched(s, patches, self.grid(s))?;
        let mut own = Vec::with_capacity(self.height * self.width * 3);
        for (pixel, bytes) in bytes.chunks(3).enumerate() {
            match self.has(pixel / self.padded[1], pixel % self.padded[1]) {
                true => own.extend(bytes),
                false if *bytes == [0, 0, 0] => {}
                false => return None,
            }
        }
        Some(own)
    }

    /// The rows of the own bytes, each with its place in a sweep so wide.
    fn rows(self, own: &[u8], width: usize) -> impl Iterator<Item = (usize, &[u8])> {
        let place = move |row: usize| ((self.top + row) * width + self.left) * 3;
        let rows = own.chunks_exact(self.width * 3).enumerate();
        rows.map(move |(row, bytes)| (place(row), bytes))
    }

    /// What both calls report of it.
    fn report(self, s: Settings) -> [usize; 8] {
        let [grid_h, grid_w] = self.grid(s);
        let (top, left) = (self.top, self.left);
        let (height, width, floats) = (self.height, self.width, self.floats());
        [0, grid_h, grid_w, floats, top, left, height, width]
    }
}

/// The tile that is asked for, or the number of a call that is refused before its buffers are measured.
fn asked_tile(
    table: &Table,
    s: Settings,
    rgb: Option<usize>,
    sides: Sides,
    index: usize,
) -> Result<Tile, u32> {
    match table.refused(s, rgb, sides) {
        0 => s.tile(sides, index).ok_or(20),
        number => Err(number),
    }
}

/// The tile of which an accepted preprocess writes the patches, or the number.
fn preprocessed(
    table: &Table,
    s: Settings,
    rgb: usize,
    sides: Sides,
    index: usize,
    out: usize,
) -> Result<Tile, u32> {
    let tile = asked_tile(table, s, Some(rgb), sides, index)?;
    match out < tile.floats() {
        true => Err(5),
        false => Ok(tile),
    }
}

/// The tile of which an accepted restore writes these own bytes, or the number.
fn restored(
    table: &Table,
    s: Settings,
    patches: &[u32],
    sides: Sides,
    index: usize,
    out: usize,
) -> Result<(Tile, Vec<u8>), u32> {
    let tile = asked_tile(table, s, None, sides, index)?;
    if patches.len() != tile.floats() {
        return Err(7);
    }
    if out < sides[0] * sides[1] * 3 {
        return Err(5);
    }
    let own = tile.restored(table, s, patches).ok_or(8u32)?;
    Ok((tile, own))
}

/// What a refused call reports.
fn refusal(number: u32) -> [usize; 8] {
    [number as usize, 0, 0, 0, 0, 0, 0, 0]
}

// --- The comparison ---

/// Where the patches of a restore come from.
#[derive(Clone, Copy)]
enum Source {
    /// The samples of a run of bytes, each in the channel of its place.
    Samples(Fill),
    /// The patches of a tile of a sweep of the call's sides.
    Tile(usize, Fill),
}

impl fmt::Display for Source {
    fn fmt(&self, to: &mut fmt::Formatter) -> fmt::Result {
        match self {
            Source::Samples(fill) => write!(to, "samples {fill}"),
            Source::Tile(index, fill) => write!(to, "tile {index} rgb {fill}"),
        }
    }
}

/// In which order the tiles of a sweep are joined.
#[derive(Clone, Copy)]
enum Order {
    Forward,
    Reverse,
    Random(u64),
}

impl Order {
    fn of(word: &str) -> Option<Order> {
        match word.split_once(':') {
            Some(("random", seed)) => seed.parse().ok().map(Order::Random),
            None if word == "forward" => Some(Order::Forward),
            None if word == "reverse" => Some(Order::Reverse),
            _ => None,
        }
    }

    fn indexes(self, count: usize) -> Vec<usize> {
        let mut list: Vec<usize> = (0..count).collect();
        match self {
            Order::Forward => {}
            Order::Reverse => list.reverse(),
            Order::Random(seed) => {
                let mut random = Random(seed);
                (1..count).for_each(|at| list.swap(at, random.below(at + 1)));
            }
        }
        list
    }
}

impl fmt::Display for Order {
    fn fmt(&self, to: &mut fmt::Formatter) -> fmt::Result {
        match self {
            Order::Forward => write!(to, "forward"),
            Order::Reverse => write!(to, "reverse"),
            Order::Random(seed) => write!(to, "random:{seed}"),
        }
    }
}

/// A sweep's bytes, or those of a wrong length, and the same to lend once they are.
struct Sweep {
    of: (usize, Sides, Fill),
    rgb: Vec<u8>,
    lent: Option<Lent<u8>>,
}

impl Sweep {
    fn pointer(&mut self) -> *const u8 {
        let lend = || Lent::new(&self.rgb, self.rgb.len());
        self.lent.get_or_insert_with(lend).pointer()
    }

    fn differs(&self) -> Option<String> {
        self.lent.as_ref()?.differs("rgb", &self.rgb)
    }
}

/// The patches of a tile.
struct Patches {
    of: (Settings, Sides, usize, Fill),
    bits: Vec<u32>,
}

struct Comparison {
    table: Table,
    /// The last that were asked for: the calls come in groups that share one.
    sweep: Option<Sweep>,
    patches: Option<Patches>,
    random: Random,
    joined: u64,
    /// How many cut, preprocess_tile and restore_tile calls have each number.
    numbers: [BTreeMap<u32, u64>; 3],
    wrong: Differences,
}

const NAMES: [&str; 8] = [
    "number", "grid_h", "grid_w", "floats", "top", "left", "height", "width",
];

impl TileReport {
    fn numbers(&self) -> [usize; 8] {
        let (grid_h, grid_w, floats) = (self.grid_h, self.grid_w, self.floats);
        let (top, left) = (self.top, self.left);
        let (height, width) = (self.height, self.width);
        let number = self.number as usize;
        [number, grid_h, grid_w, floats, top, left, height, width]
    }
}

impl Comparison {
    fn new() -> Self {
        Comparison {
            table: Table::new(OWN),
            sweep: None,
            patches: None,
            random: Random(SEED),
            joined: 0,
            numbers: Default::default(),
            wrong: Differences::default(),
        }
    }

    fn count(&mut self, call: usize, number: u32) {
        *self.numbers[call].entry(number).or_default() += 1;
    }

    /// Makes the bytes the last sweep.
    fn sweep(&mut self, len: usize, sides: Sides, fill: Fill) -> &mut Sweep {
        let of = (len, sides, fill);
        if !self.sweep.as_ref().is_some_and(|sweep| sweep.of == of) {
            self.sweep = None;
            let (rgb, lent) = (fill.bytes(len, sides), None);
            self.sweep = Some(Sweep { of, rgb, lent });
        }
        self.sweep.as_mut().expect("a sweep was made")
    }

    /// Makes the patches of a tile the last ones.
    fn patches(&mut self, s: Settings, sides: Sides, index: usize, fill: Fill) -> &[u32] {
        let of = (s, sides, index, fill);
        if !self.patches.as_ref().is_some_and(|p| p.of == of) {
            self.patches = None;
            let tile = s.tile(sides, index).expect("the tile is in the cut");
            let rgb = &self.sweep(sides[0] * sides[1] * 3, sides, fill).rgb;
            let bits = tile.patches(s, &tile.bytes(rgb, sides[1]));
            self.patches = Some(Patches { of, bits });
        }
        &self.patches.as_ref().expect("patches were made").bits
    }

    fn cut(&mut self, s: Settings, sides: Sides) {
        let right = match self.table.of(s.six).refused(s, None, sides) {
            0 => {
                let [rows, columns] = s.cut(sides);
                [0, s.tile_side(), rows, columns]
            }
            number => [number as usize, 0, 0, 0],
        };
        self.count(0, right[0] as u32);
        let [h, w] = sides;
        let ours = unsafe { kz_cut(s, h, w) };
        let found = [ours.number as usize, ours.side, ours.rows, ours.columns];
        let found = differ(["number", "side", "rows", "columns"], found, right);
        self.wrong
            .note(found, || format!("cut {s} height {h} width {w}"));
    }

    /// Says the number, as `restore` does.
    fn preprocess(
        &mut self,
        s: Settings,
        sides: Sides,
        index: usize,
        fill: Fill,
        rgb: usize,
        out: usize,
    ) -> u32 {
        let answer = preprocessed(self.table.of(s.six), s, rgb, sides, index, out);
        if answer.is_ok() {
            self.patches(s, sides, index, fill);
        }
        self.sweep(rgb, sides, fill);
        let sweep = self.sweep.as_mut().expect("the call's sweep");
        let (right, patches): (_, &[u32]) = match (answer, &self.patches) {
            (Ok(tile), Some(patches)) => (tile.report(s), &patches.bits),
            (Ok(_), None) => unreachable!("an accepted call has patches"),
            (Err(number), _) => (refusal(number), &[]),
        };
        let [h, w] = sides;
        let mut output = Lent::new(&[], out);
        let (from, to) = (sweep.pointer(), output.pointer());
        let ours = unsafe { kz_preprocess_tile(s, from, rgb, h, w, index, to, out) };
        let found = differ(NAMES, ours.numbers(), right)
            .or_else(|| output.differs("out", patches))
            .or_else(|| sweep.differs());
        let number = right[0] as u32;
        self.count(1, number);
        self.wrong.note(found, || {
            let call = format!("preprocess_tile {s} height {h} width {w} index {index}");
            format!("{call} rgb {fill} bytes {rgb} out {out}")
        });
        number
    }

    fn restore(
        &mut self,
        s: Settings,
        sides: Sides,
        index: usize,
        source: Source,
        floats: usize,
        out: usize,
        set: &[Set],
    ) -> u32 {
        let mut patches: Vec<u32> = match source {
            Source::Samples(fill) => {
                let bytes = fill.bytes(floats, [1, floats / 3]);
                self.table.of(s.six).samples(s, &bytes)
            }
            Source::Tile(index, fill) => self.patches(s, sides, index, fill).to_vec(),
        };
        patches.resize(floats, 0);
        for (place, bits) in set.iter().filter(|(place, _)| *place < floats) {
            patches[*place] = *bits;
        }
        let answer = restored(self.table.of(s.six), s, &patches, sides, index, out);
        let [h, w] = sides;
        let mut input = Lent::new(&patches, floats);
        let mut output = Lent::new(&[], out);
        let (from, to) = (input.pointer(), output.pointer());
        let ours = unsafe { kz_restore_tile(s, from, floats, h, w, index, to, out) };
        let (right, left) = match &answer {
            Ok((tile, own)) => {
                let left = output.differs_from("out", tile.rows(own, w));
                (tile.report(s), left)
            }
            Err(number) => (refusal(*number), output.differs("out", &[])),
        };
        let found = differ(NAMES, ours.numbers(), right)
            .or(left)
            .or_else(|| input.differs("patches", &patches));
        let number = right[0] as u32;
        self.count(2, number);
        self.wrong.note(found, || {
            let set = shown(set);
            let call = format!("restore_tile {s} height {h} width {w} index {index}");
            format!("{call} {source} floats {floats} out {out}{set}")
        });
        number
    }

    /// All tiles of a sweep to patches and, over marks, back: the sweep.
    fn join(&mut self, s: Settings, sides: Sides, fill: Fill, order: Order) {
        self.joined += 1;
        let ([h, w], len) = (sides, sides[0] * sides[1] * 3);
        let largest = s.tile_floats(sides, 0);
        let sweep = self.sweep(len, sides, fill);
        let mut patches = vec![0u32; largest];
        let mut output = Lent::new(&[], len);
        let mut found = None;
        for index in order.indexes(s.tiles(sides)) {
            let (from, to) = (sweep.pointer(), patches.as_mut_ptr());
            let made = unsafe { kz_preprocess_tile(s, from, len, h, w, index, to, largest) };
            let (from, to) = (patches.as_ptr(), output.pointer());
            let floats = usize::min(made.floats, largest);
            let back = unsafe { kz_restore_tile(s, from, floats, h, w, index, to, len) };
            let numbers = [made.number, back.number].map(|number| number as usize);
            let refused = differ(["preprocess", "restore"], numbers, [0, 0]);
            found = found.or_else(|| refused.map(|what| format!("tile {index}: {what}")));
        }
        found = found
            .or_else(|| output.differs("out", &sweep.rgb))
            .or_else(|| sweep.differs());
        self.wrong.note(found, || {
            format!("join {s} height {h} width {w} rgb {fill} order {order}")
        });
    }

    /// The call of such words: a kind, then names with values.
    fn repeat(&mut self, words: &[&str]) -> Option<()> {
        let (kind, words) = words.split_first()?;
        let words = Words(words);
        let number = |name| words.number(name);
        let (s, sides) = (words.settings()?, words.sides()?);
        match *kind {
            "cut" => self.cut(s, sides),
            "preprocess_tile" => {
                let (index, fill) = (number("index")?, words.fill("rgb")?);
                self.preprocess(s, sides, index, fill, number("bytes")?, number("out")?);
            }
            "restore_tile" => {
                let source = match words.text("samples") {
                    Some(_) => Source::Samples(words.fill("samples")?),
                    None => Source::Tile(number("tile")?, words.fill("rgb")?),
                };
                let (index, floats, out) = (number("index")?, number("floats")?, number("out")?);
                self.restore(s, sides, index, source, floats, out, &words.sets()?);
            }
            "join" => {
                let order = Order::of(words.text("order")?)?;
                self.join(s, sides, words.fill("rgb")?, order);
            }
            _ => return None,
        }
        Some(())
    }

    /// Prints the differences and the counts, and says whether nothing differs.
    fn report(self) -> bool {
        self.wrong.print();
        let [cut, preprocess, restore] = &self.numbers;
        eprintln!(
            "tiles: numbers of cut {cut:?}, of preprocess_tile {preprocess:?}, \
             of restore_tile {restore:?}"
        );
        let calls = |numbers: &BTreeMap<u32, u64>| numbers.values().sum::<u64>();
        println!(
            "tiles: {} cut, {} preprocess_tile, {} restore_tile calls and {} joined sweeps \
             compared with the Rust; {} differ",
            calls(cut),
            calls(preprocess),
            calls(restore),
            self.joined,
            self.wrong.count
        );
        self.wrong.count == 0
    }
}

// --- What is compared ---

/// A call that is accepted, to be spoilt.
#[derive(Clone)]
struct Call {
    s: Settings,
    sides: Sides,
    index: usize,
    /// Of the RGB, of the patches and of the two outputs.
    rgb: usize,
    floats: usize,
    out: usize,
    bytes: usize,
    set: Vec<Set>,
}

/// The numbers of each call but 0, in its order.
const CUT: [u32; 4] = [1, 19, 2, 4];
const PREPROCESS: [u32; 7] = [1, 19, 2, 3, 4, 20, 5];
const RESTORE: [u32; 8] = [1, 19, 2, 4, 20, 7, 5, 8];

impl Random {
    /// Gives a call what it is refused for with a number.
    fn spoil(&mut self, call: &mut Call, number: u32) {
        match number {
            1 => match self.below(4) {
                0 => call.s.patch_size = self.pick(&[0, 33, 1 << 32, MAX]),
                1 => call.s.spatial_merge_size = self.pick(&[0, 5, 1 << 32, MAX]),
                2 => call.s.image_size = self.pick(&[0, 2049, 1 << 32, MAX]),
                _ => call.s.resize_rule = self.pick(&NO_RULES),
            },
            19 => {
                let (c, at) = (self.pick(&unsound()), self.below(4));
                call.s.six = spread(c)[at];
            }
            2 => call.sides[self.below(2)] = self.pick(&[0, 8193, 1 << 32, 1 << 63, MAX]),
            3 => {
                let n = call.rgb;
                call.rgb = self.pick(&[0, n - 1, n + 1, n - 3, 2 * n, call.floats]);
            }
            4 => call.s.image_size = 1 + self.below(call.s.align() - 1),
            20 => {
                let (i, n) = (call.index, call.s.tiles(call.sides));
                call.index = self.pick(&[n, n + 1, 2 * n, i + (1 << 32), i + (1 << 63), MAX]);
            }
            7 => {
                let n = call.floats;
                call.floats = self.pick(&[0, n - 1, n + 1, 2 * n, call.bytes]);
            }
            5 => {
                let (out, bytes) = (call.out, call.bytes);
                call.out = self.pick(&[0, 1, out - 1, out - 3]);
                call.bytes = self.pick(&[0, 1, bytes - 1, bytes - 3]);
            }
            8 => {
                let (place, odd) = (self.below(call.floats), odd_bits());
                call.set.push((place, self.pick(&odd)));
            }
            _ => unreachable!("no call has the number {number}"),
        }
    }
}

impl Comparison {
    fn edges_and_random(mut self) -> bool {
        self.cuts();
        self.small_sweeps();
        self.long_sweeps();
        self.meetings();
        self.damaged_tiles();
        self.choices();
        self.random_sweeps();
        self.mixed();
        self.huge_sweeps();
        self.report()
    }

    /// The cut alone: every patch, merge and image size, every side, and every integer at its ends.
    fn cuts(&mut self) {
        for patch in 1..=32 {
            for merge in 1..=4 {
                for image in 1..=2048 {
                    let random = &mut self.random;
                    let s = of(patch, merge, image).rule(random.pick(&RULES));
                    let (any, last) = (1 + random.below(8192), random.pick(&[1, 8191, 8192]));
                    let sides = random.pick(&[[any, last], [last, any]]);
                    self.cut(s, sides);
                }
            }
        }
        for s in [
            USUAL,
            of(1, 1, 1),
            of(1, 3, 8),
            of(32, 4, 2048),
            of(31, 3, 2047),
        ] {
            (0..=8193).for_each(|side| self.cut(s, [side, 8193 - side]));
        }
        let ends = vec![0, 1, 2, 8191, 8192, 8193, 1 << 32, 1 << 63, MAX - 1, MAX];
        for patch in [0, 1, 32, 33, 1 << 32, 1 << 63, MAX] {
            for merge in [0, 1, 4, 5, 1 << 32, 1 << 63, MAX] {
                for image in [0, 1, 127, 128, 2048, 2049, 1 << 63, MAX] {
                    for sides in pairs(ends.clone()) {
                        let s = of(patch, merge, image).rule(self.random.rule());
                        self.cut(s, sides);
                    }
                }
            }
        }
        for rule in NO_RULES.into_iter().chain(RULES) {
            self.cut(USUAL.rule(rule), [3080, 1541]);
        }
    }

    /// Tiles of up to 80 by 80.
    fn small_sweeps(&mut self) {
        for patch in 1..=5 {
            (1..=4).for_each(|merge| self.small_sweeps_of(patch, merge));
        }
    }

    /// Sides at and beside multiples of the align and of the tile's side; image sizes below the align.
    fn small_sweeps_of(&mut self, patch: usize, merge: usize) {
        let a = patch * merge;
        for image in [a, a + 1, 2 * a - 1, 2 * a, 2 * a + 1, 3 * a + a / 2, 4 * a] {
            let s = of(patch, merge, image).rule(self.random.pick(&RULES));
            let n = s.tile_side();
            let mut list = vec![1, a - 1, a, a + 1, n - 1, n, n + 1];
            list.extend([2 * n - 1, 2 * n, 2 * n + 1]);
            list.retain(|side| *side > 0);
            for sides in pairs(list) {
                self.whole_sweep(s, sides);
            }
        }
        for image in [1, a / 2, a - 1].into_iter().filter(|n| (1..a).contains(n)) {
            let s = of(patch, merge, image).rule(self.random.pick(&RULES));
            for (sides, index) in [([1, 1], 0), ([a, a + 1], 1), ([2 * a, 3], MAX)] {
                let (fill, rgb, n) = (self.random.fill(), sides[0] * sides[1] * 3, a * a * 3);
                self.cut(s, sides);
                self.preprocess(s, sides, index, fill, rgb, n);
                self.restore(s, sides, index, Source::Samples(Fill::Zero), n, rgb, &[]);
            }
        }
    }

    /// Every tile of a sweep, three indexes past the last, and all joined in three orders.
    fn whole_sweep(&mut self, s: Settings, sides: Sides) {
        let fill = self.random.any_fill();
        self.covered(s, sides);
        self.some_tiles(s, sides, fill, 0..s.tiles(sides));
    }

    /// The same with some tiles; all are joined.
    fn some_tiles(
        &mut self,
        s: Settings,
        sides: Sides,
        fill: Fill,
        list: impl IntoIterator<Item = usize>,
    ) {
        self.cut(s, sides);
        for index in list {
            self.there_and_back(s, sides, index, fill);
        }
        let (len, count) = (sides[0] * sides[1] * 3, s.tiles(sides));
        let (n, last) = (
            s.tile_floats(sides, count - 1),
            Source::Tile(count - 1, fill),
        );
        for index in [count, count + 1, MAX] {
            self.preprocess(s, sides, index, fill, len, s.tile_floats(sides, 0));
            self.restore(s, sides, index, last, n, len, &[]);
        }
        let random = Order::Random(self.random.next());
        for order in [Order::Forward, Order::Reverse, random] {
            self.join(s, sides, fill, order);
        }
    }

    /// By the text every pixel is in one tile.
    fn covered(&mut self, s: Settings, sides: Sides) {
        let mut times = vec![0; sides[0] * sides[1]];
        for tile in (0..s.tiles(sides)).filter_map(|index| s.tile(sides, index)) {
            for row in tile.top..tile.top + tile.height {
                let from = row * sides[1] + tile.left;
                times[from..from + tile.width]
                    .iter_mut()
                    .for_each(|n| *n += 1);
            }
        }
        let once = times.iter().filter(|n| **n == 1).count();
        let found = differ(["pixels in one tile"], [once], [times.len()]);
        self.wrong
            .note(found, || format!("settled {s} sides {sides:?}"));
    }

    /// A tile's patches into outputs of several lengths, and back into sweeps of several; and another
    /// tile's patches in its place.
    fn there_and_back(&mut self, s: Settings, sides: Sides, index: usize, fill: Fill) {
        let (len, n) = (sides[0] * sides[1] * 3, s.tile_floats(sides, index));
        for out in [n, n - 1, n + 40] {
            self.preprocess(s, sides, index, fill, len, out);
        }
        for out in [len, len - 1, len + 40] {
            self.restore(s, sides, index, Source::Tile(index, fill), n, out, &[]);
        }
        let count = s.tiles(sides);
        if count > 1 {
            let other = (index + 1 + self.random.below(count - 1)) % count;
            let (n, source) = (s.tile_floats(sides, other), Source::Tile(other, fill));
            self.restore(s, sides, index, source, n, len, &[]);
        }
    }

    /// A side of 8192, or tiles of 1540.
    fn long_sweeps(&mut self) {
        for s in [
            of(1, 1, 1),
            of(2, 3, 13),
            of(3, 4, 61),
            USUAL,
            of(32, 4, 2048).rule(2),
        ] {
            for sides in [[1, 8192], [8192, 1], [2, 8191], [8191, 3]] {
                let (fill, count) = (self.random.fill(), s.tiles(sides));
                self.some_tiles(s, sides, fill, [0, 1, count / 2, count - 2, count - 1]);
            }
        }
        for (s, sides) in [
            (USUAL, [1540, 1540]),
            (USUAL.rule(2), [1541, 1569]),
            (of(16, 2, 100), [300, 257]),
            (of(32, 4, 130), [129, 260]),
        ] {
            self.whole_sweep(s, sides);
        }
    }

    /// Every set of faults at once has the first number of the call's list.
    fn meetings(&mut self) {
        for (s, sides, index) in [
            (of(2, 1, 5), [5, 7], 3),
            (of(1, 3, 7), [7, 6], 1),
            (of(5, 2, 29).rule(2), [20, 31], 1),
        ] {
            let (len, n) = (sides[0] * sides[1] * 3, s.tile_floats(sides, index));
            let base = Call {
                s,
                sides,
                index,
                rgb: len,
                floats: n,
                out: n,
                bytes: len,
                set: Vec::new(),
            };
            for _ in 0..ROUNDS {
                for faults in 0..1 << CUT.len() {
                    let (call, first) = self.spoilt(&base, &CUT, faults);
                    self.cut(call.s, call.sides);
                    let number = self.table.of(call.s.six).refused(call.s, None, call.sides);
                    self.settled(call.s, number, first);
                }
                for faults in 0..1 << PREPROCESS.len() {
                    let (call, first) = self.spoilt(&base, &PREPROCESS, faults);
                    let (s, sides, index) = (call.s, call.sides, call.index);
                    let fill = self.random.fill();
                    let number = self.preprocess(s, sides, index, fill, call.rgb, call.out);
                    self.settled(call.s, number, first);
                }
                for faults in 0..1 << RESTORE.len() {
                    let (call, first) = self.spoilt(&base, &RESTORE, faults);
                    let (s, sides, index) = (call.s, call.sides, call.index);
                    let (floats, source) = (call.floats, Source::Samples(Fill::Zero));
                    let number =
                        self.restore(s, sides, index, source, floats, call.bytes, &call.set);
                    self.settled(call.s, number, first);
                }
            }
        }
    }

    /// A call with some of the faults of a list, the last first, and the number that it has to have.
    fn spoilt(&mut self, base: &Call, list: &[u32], faults: usize) -> (Call, u32) {
        let mut call = base.clone();
        let some = (0..list.len()).filter(|at| faults >> at & 1 == 1);
        let some: Vec<u32> = some.map(|at| list[at]).collect();
        for number in some.iter().rev() {
            self.random.spoil(&mut call, *number);
        }
        (call, some.first().copied().unwrap_or(0))
    }

    /// By the text the call has this number.
    fn settled(&mut self, s: Settings, found: u32, right: u32) {
        let found = differ(["number"], [found as usize], [right as usize]);
        self.wrong.note(found, || format!("settled {s}"));
    }

    fn damaged_tiles(&mut self) {
        for (s, sides) in [
            (of(1, 1, 1), [2, 2]),
            (of(1, 2, 3), [3, 5]),
            (of(5, 1, 23), [30, 27]),
            (of(3, 4, 25).rule(2), [30, 25]),
            (of(14, 2, 28), [29, 33]),
        ] {
            (0..s.tiles(sides)).for_each(|index| self.damaged_tile(s, sides, index));
        }
        for six in [grey(), wide(), choice([channel(0.2, -0.25); 3])] {
            self.damaged_tile(of(3, 2, 14).with(six), [13, 17], 3);
        }
    }

    /// A tile's patches with samples changed, at own places and at those of the padding: the first, the
    /// last and some between.
    fn damaged_tile(&mut self, s: Settings, sides: Sides, index: usize) {
        let fill = self.random.fill();
        let patches = self.patches(s, sides, index, fill).to_vec();
        let (n, len) = (patches.len(), sides[0] * sides[1] * 3);
        for list in own_and_padding(s, sides, index)
            .iter()
            .filter(|list| !list.is_empty())
        {
            let mut places = vec![list[0], list[list.len() - 1]];
            places.extend((0..5).map(|_| self.random.pick(list)));
            for place in places {
                for set in changes(s, &patches, place, self.random.below(n)) {
                    for out in [len, len - 1, len + 3] {
                        let source = Source::Tile(index, fill);
                        self.restore(s, sides, index, source, n, out, &set);
                    }
                }
            }
        }
    }

    /// Means and deviations, allowed and not: every tile of a sweep, and what is not byte 0's sample at
    /// places of the padding.
    fn choices(&mut self) {
        let channels = sound().into_iter().chain(unsound());
        let list: Vec<Choice> = channels.flat_map(spread).chain(several()).collect();
        for six in list {
            let s = of(3, 2, 14).with(six).rule(self.random.pick(&RULES));
            let (sides, len, fill) = ([13, 17], 13 * 17 * 3, self.random.any_fill());
            let n = s.tile_floats(sides, 3);
            if !self.table.of(six).allowed {
                self.cut(s, sides);
                self.preprocess(s, sides, 3, fill, len, n);
                self.restore(s, sides, 3, Source::Samples(fill), n, len, &[]);
                continue;
            }
            self.whole_sweep(s, sides);
            let [_, padding] = own_and_padding(s, sides, 3);
            for place in [
                padding[0],
                self.random.pick(&padding),
                padding[padding.len() - 1],
            ] {
                let channel = place * 3 / s.patch_floats() % 3;
                let zero = six.value(channel, 0);
                let mut list = vec![
                    zero ^ 1 << 31,
                    0,
                    1 << 31,
                    0x7FC0_0000,
                    0xFFC0_0000,
                    0x7F80_0001,
                ];
                list.extend([1, 2, 128, 255].map(|byte| six.value(channel, byte)));
                list.extend([1, 2].map(|shift| six.value((channel + shift) % 3, 0)));
                list.push(OWN.value(channel, 0));
                for bits in list {
                    let source = Source::Tile(3, fill);
                    self.restore(s, sides, 3, source, n, len, &[(place, bits)]);
                }
            }
        }
    }

    fn random_sweeps(&mut self) {
        for _ in 0..fewer(SWEEPS) {
            let random = &mut self.random;
            let (patch, merge) = (1 + random.below(32), 1 + random.below(4));
            let a = patch * merge;
            let image = a + random.below(100);
            let side = |random: &mut Random| match random.below(4) {
                0 => 1 + random.below(8),
                1 => 1 + random.below(image),
                2 => 1 + random.below(3 * image),
                _ => image / a * a * (1 + random.below(2)) + random.below(3),
            };
            let sides = [side(random), side(random)];
            let s = of(patch, merge, image).rule(random.pick(&RULES));
            let s = s.with(random.pick(&[OWN, OWN, grey(), wide()]));
            let (fill, order) = (random.any_fill(), Order::Random(random.next()));
            let index = random.below(s.tiles(sides));
            self.cut(s, sides);
            self.there_and_back(s, sides, index, fill);
            self.join(s, sides, fill, order);
        }
    }

    /// Calls in which each part by itself is sound or not, so that refusals meet.
    fn mixed(&mut self) {
        let (odd, bad) = (odd_bits(), unsound());
        for _ in 0..fewer(MIXED) {
            let random = &mut self.random;
            let patch = random.pick(&[1, 1, 2, 2, 3, 4, 0, 33]);
            let merge = random.pick(&[1, 1, 2, 2, 3, 4, 0, 5]);
            let image = random.pick(&[1, 3, 4, 6, 8, 9, 12, 16, 0, 2049]);
            let six = match random.below(16) {
                0 => choice([random.pick(&bad); 3]),
                1 => grey(),
                _ => OWN,
            };
            let s = of(patch, merge, image).rule(random.rule()).with(six);
            let sides: Sides = [
                random.pick(&[1, 2, 3, 4, 7, 9, 13, 0, 8193]),
                random.pick(&[1, 2, 3, 5, 8, 9, 17, 0, MAX]),
            ];
            let index = random.pick(&[0, 0, 0, 1, 1, 2, 3, 5, 8, 20, MAX]);
            let len = sides[0].saturating_mul(sides[1]).saturating_mul(3);
            let (rgb, bytes) = (random.length(len), random.length(len));
            let fill = random.any_fill();
            let tile = asked_tile(self.table.of(six), s, None, sides, index);
            let (n, source) = match tile {
                Ok(tile) => (tile.floats(), Source::Tile(index, fill)),
                Err(_) => (random.pick(&[3, 12, 27, 48, 108]), Source::Samples(fill)),
            };
            let (out, floats) = (random.length(n), random.length(n));
            let mut set = Vec::new();
            if random.below(3) == 0 {
                set.push((random.below(n), random.pick(&odd)));
            }
            self.preprocess(s, sides, index, fill, rgb, out);
            self.restore(s, sides, index, source, floats, bytes, &set);
        }
    }

    /// 8192 by 8192: the first tile, the last and one more, of the largest side, of one that leaves the
    /// last tile small, and of 1. The sweep, twice 201 MB, is given up before restore has its own.
    fn huge_sweeps(&mut self) {
        let (sides, len) = ([8192, 8192], 8192 * 8192 * 3);
        for s in [of(32, 4, 2048), of(31, 3, 2047).rule(2), of(1, 1, 1)] {
            self.cut(s, sides);
            let (fill, count) = (self.random.fill(), s.tiles(sides));
            for index in [0, count - 1] {
                let (n, source) = (s.tile_floats(sides, index), Source::Tile(index, fill));
                self.preprocess(s, sides, index, fill, len, n);
                if index > 0 {
                    self.preprocess(s, sides, count, fill, len, n);
                }
                self.sweep = None;
                self.restore(s, sides, index, source, n, len, &[]);
                if index > 0 {
                    self.restore(s, sides, count, source, n, len, &[]);
                }
            }
        }
    }
}

/// The places of a tile's patches that are its own, and those of the padding.
fn own_and_padding(s: Settings, sides: Sides, index: usize) -> [Vec<usize>; 2] {
    let tile = s.tile(sides, index).expect("the tile is in the cut");
    let s = s.with(OWN);
    let white = vec![255; sides[0] * sides[1] * 3];
    let patches = tile.patches(s, &tile.bytes(&white, sides[1]));
    let black = [0, 1, 2].map(|channel| OWN.value(channel, 0));
    (0..patches.len())
        .partition(|place| !black.contains(&patches[*place]))
        .into()
}

fn one(words: &[&str]) -> bool {
    let mut all = Comparison::new();
    if all.repeat(words).is_none() {
        eprintln!("usage: tiles [CALL | --sample]");
        std::process::exit(2);
    }
    all.report()
}

// --- The sample ---

/// What a record asks: preprocess_tile into `out` cells, then restore_tile, at the index `back`, of the
/// buffer's first `floats`.
struct Asked {
    s: Settings,
    sides: Sides,
    index: usize,
    rgb: usize,
    out: usize,
    seed: u32,
    back: usize,
    floats: usize,
    bytes: usize,
    /// As `sample::damage` numbers it.
    damage: usize,
    place: usize,
}

/// A record that both calls accept.
fn asked(s: Settings, sides: Sides, index: usize, seed: u32) -> Asked {
    let (floats, bytes) = (s.tile_floats(sides, index), sides[0] * sides[1] * 3);
    Asked {
        s,
        sides,
        index,
        rgb: bytes,
        out: floats,
        seed,
        back: index,
        floats,
        bytes,
        damage: 0,
        place: 0,
    }
}

impl Asked {
    /// The record's line, by the text over the Rust alone.
    fn answered(&self) -> String {
        let (s, sides) = (self.s, self.sides);
        let lengths = [self.rgb, self.out, self.floats, self.bytes];
        assert!(lengths.iter().all(|len| *len <= CELLS), "{lengths:?}");
        let table = Table::new(s.six);
        let mut cells: Vec<u32> = sample::marks().take(CELLS).collect();
        let made = preprocessed(&table, s, self.rgb, sides, self.index, self.out);
        if let Ok(tile) = made {
            let rgb = Fill::Sample(self.seed).bytes(self.rgb, sides);
            let patches = tile.patches(s, &tile.bytes(&rgb, sides[1]));
            cells[..patches.len()].copy_from_slice(&patches);
        }
        let floats_hash = sample::hash(&cells[..self.out]);
        sample::damage(&mut cells, self.damage, self.place);
        let mut whole = records::marked(self.bytes);
        let patches = &cells[..self.floats];
        let back = restored(&table, s, patches, sides, self.back, self.bytes);
        if let Ok((tile, own)) = &back {
            for (place, row) in tile.rows(own, sides[1]) {
                whole[place..place + row.len()].copy_from_slice(row);
            }
        }
        let mut list = vec![s.patch_size, s.spatial_merge_size, s.image_size];
        list.extend([sides[0], sides[1], self.index, self.rgb, self.out]);
        list.push(self.seed as usize);
        list.extend(made.map_or_else(refusal, |tile| tile.report(s)));
        list.push(floats_hash as usize);
        list.extend([self.back, self.floats, self.bytes, self.damage, self.place]);
        list.extend(back.map_or_else(refusal, |(tile, _)| tile.report(s)));
        list.push(records::hash_bytes(&whole));
        list.extend(records::end(s));
        sample::line(&list)
    }
}

/// Whether a tile and its sweep fit the replay's buffers, 40 cells more among them.
fn fits(s: Settings, sides: Sides, index: usize) -> bool {
    let tile = s.tile(sides, index);
    sides[0] * sides[1] * 3 + 40 <= CELLS && tile.is_some_and(|tile| tile.floats() + 40 <= CELLS)
}

/// Sides below, at and above each limit; first tiles, last tiles and any; and every tile of two sweeps.
fn sample_tiles(random: &mut Random, list: &mut Vec<Asked>) {
    let settings = [
        of(1, 1, 1),
        of(1, 2, 2),
        of(1, 4, 5),
        of(2, 3, 13),
        of(3, 2, 20),
        of(4, 4, 64),
        of(5, 3, 50),
        of(7, 2, 60),
        of(14, 2, 28),
        of(14, 2, 56),
        of(14, 2, 1540),
        of(16, 3, 48),
        of(32, 1, 33),
        of(31, 1, 2047),
    ];
    for s in settings {
        let (a, n) = (s.align(), s.tile_side());
        let mut sides = vec![1, a - 1, a, a + 1, n - 1, n, n + 1];
        sides.extend([2 * n - 1, 2 * n, 2 * n + 1, 3 * n + 1, 17, 61]);
        sides.retain(|side| (1..=100).contains(side));
        let mut taken = 0;
        while taken < 8 {
            let sides = [random.pick(&sides), random.pick(&sides)];
            let last = s.tiles(sides) - 1;
            let between = usize::min(last, 1 + random.below(last.max(2) - 1));
            let index = [0, last, between][taken % 3];
            if fits(s, sides, index) {
                let s = s.rule(random.pick(&RULES));
                let mut a = asked(s, sides, index, random.next() as u32);
                a.out += random.pick(&[0, 0, 1, 40]);
                a.bytes += random.pick(&[0, 0, 1, 40]);
                list.push(a);
                taken += 1;
            }
        }
    }
    for (s, sides) in [(of(2, 3, 13), [25, 30]), (of(14, 2, 30), [29, 57])] {
        let seed = random.next() as u32;
        list.extend((0..s.tiles(sides)).map(|index| asked(s, sides, index, seed)));
    }
}

/// A record that both calls accept, to be changed: its tile has padding to the right and below.
fn accepted(random: &mut Random) -> Asked {
    let (s, sides) = random.pick(&[
        (of(14, 2, 30), [29, 33]),
        (of(3, 2, 20), [23, 41]),
        (of(2, 2, 9), [21, 10]),
        (of(16, 2, 33), [33, 49]),
    ]);
    let index = s.tiles(sides) - 1;
    let s = s.rule(random.pick(&RULES));
    asked(s, sides, index, random.next() as u32)
}

/// Each number of either call in several ways, each damage at own places and at those of the padding,
/// other tiles' patches, and refusals that meet.
fn sample_refusals(random: &mut Random, list: &mut Vec<Asked>) {
    let mut from = |change: &dyn Fn(&mut Asked)| {
        let mut a = accepted(random);
        change(&mut a);
        list.push(a);
    };
    for patch_size in [0, 33, MAX] {
        from(&|a| a.s.patch_size = patch_size);
    }
    for merge in [0, 5, MAX] {
        from(&|a| a.s.spatial_merge_size = merge);
    }
    for image in [0, 2049, MAX] {
        from(&|a| a.s.image_size = image);
    }
    for rule in [0, 3, MAX] {
        from(&|a| a.s.resize_rule = rule);
    }
    for side in [0, 8193, MAX] {
        from(&|a| a.sides[0] = side);
        from(&|a| a.sides[1] = side);
    }
    from(&|a| a.rgb += 1);
    from(&|a| a.rgb -= 1);
    from(&|a| a.rgb = 0);
    from(&|a| a.s.image_size = a.s.align() - 1);
    from(&|a| a.s = of(14, 2, 27));
    from(&|a| a.s = of(32, 4, 127));
    from(&|a| a.index += 1);
    from(&|a| a.index += 1 << 32);
    from(&|a| a.index = MAX);
    from(&|a| a.out -= 1);
    from(&|a| a.out = 0);
    from(&|a| a.back += 1);
    from(&|a| a.back += 1 << 32);
    from(&|a| a.back = MAX);
    from(&|a| a.floats += 1);
    from(&|a| a.floats -= 1);
    from(&|a| a.floats = 0);
    from(&|a| a.bytes -= 1);
    from(&|a| a.bytes = a.floats);
    from(&|a| a.bytes = 0);
    for bit in 0..32 {
        from(&|a| {
            let places = &own_and_padding(a.s, a.sides, a.index)[bit % 2];
            (a.damage, a.place) = (1, places[(places.len() - 1) * bit / 31]);
        });
    }
    for damage in 2..=4 {
        for part in [0, 1] {
            from(&|a| {
                (a.damage, a.place) = (damage, own_and_padding(a.s, a.sides, a.index)[part][0])
            });
            from(&|a| {
                let places = &own_and_padding(a.s, a.sides, a.index)[part];
                (a.damage, a.place) = (damage, places[places.len() - 1]);
            });
        }
    }
    // The patches of a whole tile: at another's place, and at one that has padding.
    for (s, sides, index, back) in [
        (of(2, 2, 9), [8, 16], 0, 1),
        (of(2, 2, 9), [16, 16], 3, 0),
        (of(2, 2, 9), [16, 15], 0, 1),
        (of(2, 2, 9), [15, 16], 0, 2),
        (of(2, 2, 9), [15, 15], 1, 2),
        (of(2, 2, 9), [9, 16], 0, 2),
    ] {
        from(&|a| {
            *a = asked(s, sides, index, a.seed);
            a.back = back;
        });
    }
    from(&|a| (a.s.patch_size, a.sides[0], a.rgb, a.index, a.back) = (0, 0, 1, MAX, MAX));
    from(&|a| (a.sides[0], a.rgb, a.s.image_size, a.out) = (0, 1, 1, 0));
    from(&|a| (a.rgb, a.s.image_size, a.index, a.back) = (1, 1, MAX, MAX));
    from(&|a| (a.s.image_size, a.index, a.back, a.out, a.floats) = (1, MAX, MAX, 0, 5));
    from(&|a| (a.index, a.out, a.back, a.floats, a.bytes) = (MAX, 0, MAX, 5, 0));
    from(&|a| (a.floats, a.bytes, a.damage) = (a.floats - 1, 0, 2));
    from(&|a| (a.bytes, a.damage) = (a.bytes - 1, 2));
}

/// Means and deviations that are accepted, with samples damaged too; and 19, alone and where it meets
/// others.
fn sample_choices(random: &mut Random, list: &mut Vec<Asked>) {
    for six in [
        grey(),
        wide(),
        choice([channel(0.2, -0.25); 3]),
        choice([channel(0.1, -0.3), channel(0.2, 0.25), channel(0.3, -1e38)]),
        choice([
            channel(0.2, 3e-39),
            channel(1e4, 1.0),
            channel(-3.0, -1e-30),
        ]),
    ] {
        let from = |random: &mut Random| {
            let mut a = accepted(random);
            a.s.six = six;
            a
        };
        list.push(from(random));
        for part in [0, 1] {
            let mut a = from(random);
            (a.damage, a.place) = (
                1,
                random.pick(&own_and_padding(a.s, a.sides, a.index)[part]),
            );
            list.push(a);
        }
    }
    // -0 in the place of a sample: of byte 0, which is +0 or -0, or another byte has it.
    for (mean, deviation) in [(0.0, 1.0), (0.0, -1.0), (byte(7), -0.3), (byte(7), 0.3)] {
        for part in [0, 1] {
            let mut a = accepted(random);
            a.s.six = choice([channel(mean, deviation); 3]);
            (a.damage, a.place) = (
                3,
                random.pick(&own_and_padding(a.s, a.sides, a.index)[part]),
            );
            list.push(a);
        }
    }
    let bad = unsound();
    for k in 0..8 {
        let mut a = accepted(random);
        a.s.six = spread(bad[k * (bad.len() - 1) / 7])[k % 4];
        list.push(a);
    }
    let mut from = |change: &dyn Fn(&mut Asked)| {
        let mut a = accepted(random);
        a.s.six = choice([channel(0.2, 0.0); 3]);
        change(&mut a);
        list.push(a);
    };
    from(&|a| a.s.patch_size = 0);
    from(&|a| a.s.resize_rule = 3);
    from(&|a| a.sides[0] = 0);
    from(&|a| (a.rgb, a.floats) = (a.rgb + 1, a.floats - 1));
    from(&|a| a.s.image_size = 1);
    from(&|a| (a.index, a.back) = (MAX, MAX));
    from(&|a| (a.out, a.bytes) = (0, 0));
}

fn sample() -> std::io::Result<()> {
    let mut random = Random(SEED);
    let mut list = Vec::new();
    sample_tiles(&mut random, &mut list);
    sample_refusals(&mut random, &mut list);
    sample_choices(&mut random, &mut list);
    let mut out = std::io::stdout().lock();
    list.iter()
        .try_for_each(|a| writeln!(out, "{}", a.answered()))
}

fn main() {
    let words: Vec<String> = std::env::args().skip(1).collect();
    let words: Vec<&str> = words.iter().map(String::as_str).collect();
    let same = match words[..] {
        [] => Comparison::new().edges_and_random(),
        ["--sample"] => sample().is_ok(),
        _ => one(&words),
    };
    std::process::exit(if same { 0 } else { 1 });
}
