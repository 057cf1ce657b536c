//! Compares libkyzgultam with the Rust on the salvage of damaged patches: the bytes and the list, byte for
//! byte.
//!
//! The Rust has no salvage: what is bad, the list and the refusals follow the text of 2026-10, over the
//! samples that the Rust's formula gives and, of pictures, over the patches of its own
//! `pixtral_preprocess`. In each call `kz_restore` gets the same patterns too: as the text says, it accepts
//! exactly where salvage lists nothing, with the same bytes.
//!
//!     salvage            edges, refusals that meet, means and deviations, random calls with a fixed seed
//!     salvage CALL       one call, in the words in which a difference is printed
//!     salvage --sample   prints the answers as crates/salvage_replay/stdin holds them

use std::collections::BTreeMap;
use std::fmt;
use std::io::Write;

// What the other programs alone use of a file is no fault here.
#[allow(dead_code)]
#[path = "edges.rs"]
mod edges;
#[path = "fewer.rs"]
mod fewer;
#[path = "fills.rs"]
mod fills;
#[path = "lent.rs"]
mod lent;
#[allow(dead_code)]
#[path = "records.rs"]
mod records;
#[path = "restore.rs"]
mod restore;
#[allow(dead_code)]
#[path = "sample.rs"]
mod sample;
#[allow(dead_code)]
#[path = "settings.rs"]
mod settings;
#[allow(dead_code)]
#[path = "words.rs"]
mod words;
use edges::{byte, changes, channel, choice, grey, odd_bits, pairs};
use edges::{several, sound, spread, unsound, wide, Channel};
use fewer::fewer;
use fills::{Fill, Random, SEED};
use lent::{differ, Differences, Lent};
use restore::{restore, unshaped};
use settings::{of, preprocess_in_rust, Choice, Settings, Sides, Table};
use settings::{MAX, NO_RULES, OWN, RULES, USUAL};
use words::{shown, Set, Words};

#[repr(C)]
struct SalvageReport {
    number: u32,
    height: usize,
    width: usize,
    bad: usize,
}

extern "C" {
    fn kz_salvage(
        s: Settings,
        patches: *const u32,
        patches_len: usize,
        grid_h: usize,
        grid_w: usize,
        out: *mut u8,
        out_len: usize,
        list: *mut u32,
        list_len: usize,
    ) -> SalvageReport;
}

/// Random pictures, rounds of every set of faults, and random calls of which most are refused.
const PICTURES: usize = 2_000;
const ROUNDS: usize = 40;
const MIXED: usize = 150_000;
/// The most samples of a call in a long list.
const SMALL: usize = 1 << 14;

// --- The text ---

/// What an accepted call writes.
struct Saved {
    bytes: Vec<u8>,
    list: Vec<u32>,
}

/// Walks over the samples as they lie: one that no byte has in its channel is listed, and byte 0's stands in
/// its place.
fn salvaged(
    table: &Table,
    s: Settings,
    patches: &[u32],
    grid: Sides,
    out: usize,
    room: usize,
) -> Result<Saved, u32> {
    match unshaped(table, s, patches.len(), grid, out) {
        0 => {}
        number => return Err(number),
    }
    let (mut mended, mut list) = (patches.to_vec(), Vec::new());
    for (patch, samples) in mended.chunks_mut(s.patch_floats()).enumerate() {
        for (place, bits) in samples.iter_mut().enumerate() {
            let channel = place / (s.patch_size * s.patch_size);
            if table.byte(channel, *bits).is_none() {
                list.extend([patch as u32, place as u32, *bits]);
                *bits = s.six.value(channel, 0);
            }
        }
    }
    if list.len() / 3 > room / 3 {
        return Err(21);
    }
    let bytes = table.unpatched(s, &mended, grid);
    let bytes = bytes.expect("a sample that is not listed has a byte");
    Ok(Saved { bytes, list })
}

// --- The comparison ---

/// Where the samples of a call come from.
#[derive(Clone, Copy)]
enum Source {
    /// Those of a run of bytes, each in the channel of its place.
    Samples(Fill),
    /// The Rust's patches of a picture of the grid's sides, of which nothing is resized.
    Picture(Fill),
}

impl fmt::Display for Source {
    fn fmt(&self, to: &mut fmt::Formatter) -> fmt::Result {
        match self {
            Source::Samples(fill) => write!(to, "samples {fill}"),
            Source::Picture(fill) => write!(to, "rgb {fill}"),
        }
    }
}

/// What happens to the samples, before single ones are set.
#[derive(Clone, Copy)]
enum Damage {
    None,
    /// To the bits of each so many more.
    Moved(i32),
    /// One bit of each is flipped.
    Flipped(u32),
    /// By a seed, about so many of 256 become patterns of any kind.
    Some(usize, u64),
    /// By a seed, each becomes a NaN.
    Nans(u64),
    /// By a seed, each becomes any bits.
    Any(u64),
}

impl Damage {
    fn of(word: &str) -> Option<Damage> {
        let parts: Vec<&str> = word.split(':').collect();
        Some(match parts[..] {
            ["none"] => Damage::None,
            ["moved", more] => Damage::Moved(more.parse().ok()?),
            ["flipped", bit] => Damage::Flipped(bit.parse().ok()?),
            ["some", share, seed] => Damage::Some(share.parse().ok()?, seed.parse().ok()?),
            ["nans", seed] => Damage::Nans(seed.parse().ok()?),
            ["any", seed] => Damage::Any(seed.parse().ok()?),
            _ => return None,
        })
    }

    /// Samples of patches of side `p`, damaged.
    fn put(self, six: Choice, p: usize, cells: &mut [u32]) {
        match self {
            Damage::None => {}
            Damage::Moved(more) => cells
                .iter_mut()
                .for_each(|x| *x = x.wrapping_add_signed(more)),
            Damage::Flipped(bit) => cells.iter_mut().for_each(|x| *x ^= 1 << bit),
            Damage::Some(share, seed) => {
                let mut random = Random(seed);
                for (at, x) in cells.iter_mut().enumerate() {
                    if random.below(256) < share {
                        *x = random.pattern(six, at / (p * p) % 3, *x);
                    }
                }
            }
            Damage::Nans(seed) => {
                let mut random = Random(seed);
                cells.iter_mut().for_each(|x| *x = random.nan());
            }
            Damage::Any(seed) => {
                let mut random = Random(seed);
                cells.iter_mut().for_each(|x| *x = random.next() as u32);
            }
        }
    }
}

impl fmt::Display for Damage {
    fn fmt(&self, to: &mut fmt::Formatter) -> fmt::Result {
        match self {
            Damage::None => write!(to, "none"),
            Damage::Moved(more) => write!(to, "moved:{more}"),
            Damage::Flipped(bit) => write!(to, "flipped:{bit}"),
            Damage::Some(share, seed) => write!(to, "some:{share}:{seed}"),
            Damage::Nans(seed) => write!(to, "nans:{seed}"),
            Damage::Any(seed) => write!(to, "any:{seed}"),
        }
    }
}

/// NaNs, quiet and signalling, of either sign: each bit of the payload alone, all, and every other one.
fn nans() -> Vec<u32> {
    let one = (0..23).map(|bit| 1 << bit);
    let two = (0..22).map(|bit| 1 << 22 | 1 << bit);
    let more = [0x7F_FFFF, 0x3F_FFFF, 0x2A_AAAA, 0x55_5555, 0x12_3456];
    let payloads = one.chain(two).chain(more);
    payloads
        .flat_map(|bits| [0x7F80_0000, 0xFF80_0000].map(|infinity| infinity | bits))
        .collect()
}

impl Random {
    fn nan(&mut self) -> u32 {
        let payload = 1 + self.below(0x7F_FFFF) as u32;
        self.pick(&[0x7F80_0000, 0xFF80_0000]) | payload
    }

    /// A pattern in the place of a channel's sample: most of them are bad, some are another byte's.
    fn pattern(&mut self, six: Choice, channel: usize, bits: u32) -> u32 {
        let byte = self.next() as u8;
        let other = (channel + 1 + self.below(2)) % 3;
        let between = || {
            let two = [byte, byte.saturating_add(1)].map(|b| six.value(channel, b));
            ((f32::from_bits(two[0]) + f32::from_bits(two[1])) / 2.0).to_bits()
        };
        match self.below(10) {
            0 | 1 => self.nan(),
            2 => self.pick(&[0x7F80_0000, 0xFF80_0000]),
            3 => self.pick(&[0, 0x8000_0000]),
            4 => bits ^ 1 << self.below(32),
            5 => self.pick(&[bits.wrapping_add(1), bits.wrapping_sub(1)]),
            6 => six.value(other, byte),
            7 => six.value(channel, byte),
            8 => between(),
            _ => self.next() as u32,
        }
    }
}

#[derive(Clone)]
struct Call {
    s: Settings,
    grid: Sides,
    source: Source,
    damage: Damage,
    /// The lengths of the patches, of the output and of the list.
    floats: usize,
    out: usize,
    list: usize,
    set: Vec<Set>,
}

impl fmt::Display for Call {
    fn fmt(&self, to: &mut fmt::Formatter) -> fmt::Result {
        let (s, [h, w], source, damage) = (self.s, self.grid, self.source, self.damage);
        write!(
            to,
            "salvage {s} grid_h {h} grid_w {w} {source} damage {damage}"
        )?;
        let (floats, out, list, set) = (self.floats, self.out, self.list, shown(&self.set));
        write!(to, " floats {floats} out {out} list {list}{set}")
    }
}

/// The samples of a whole grid's patches.
fn size(s: Settings, grid: Sides) -> usize {
    grid[0] * grid[1] * s.patch_floats()
}

/// A call of a whole grid, with no room in the list.
fn whole(s: Settings, grid: Sides, source: Source) -> Call {
    let n = size(s, grid);
    Call {
        s,
        grid,
        source,
        damage: Damage::None,
        floats: n,
        out: n,
        list: 0,
        set: Vec::new(),
    }
}

impl Call {
    fn damaged(self, damage: Damage) -> Call {
        Call { damage, ..self }
    }

    fn set(self, set: &[Set]) -> Call {
        let set = set.to_vec();
        Call { set, ..self }
    }

    fn lengths(&self, out: usize, list: usize) -> Call {
        let call = self.clone();
        Call { out, list, ..call }
    }

    fn rgb(&self, fill: Fill) -> Vec<u8> {
        let sides = self.grid.map(|side| side * self.s.patch_size);
        fill.bytes(sides[0] * sides[1] * 3, sides)
    }

    fn patches(&self, table: &Table) -> Vec<u32> {
        let s = self.s;
        let mut patches = match self.source {
            Source::Samples(fill) => {
                table.samples(s, &fill.bytes(self.floats, [1, self.floats / 3]))
            }
            Source::Picture(fill) => {
                let sides = self.grid.map(|side| side * s.patch_size);
                let (patches, grid_h, grid_w) = preprocess_in_rust(s, &self.rgb(fill), sides);
                assert!([grid_h, grid_w] == self.grid, "the Rust resizes: {self}");
                patches.into_iter().map(f32::to_bits).collect()
            }
        };
        patches.resize(self.floats, 0);
        let p = if s.allowed() { s.patch_size } else { 1 };
        self.damage.put(s.six, p, &mut patches);
        for (place, bits) in self.set.iter().filter(|(place, _)| *place < self.floats) {
            patches[*place] = *bits;
        }
        patches
    }

    /// Ours, beside the text's.
    fn differs(&self, patches: &[u32], answer: &Result<Saved, u32>) -> Option<String> {
        let (s, [h, w]) = (self.s, self.grid);
        let mut input = Lent::new(patches, patches.len());
        let mut output = Lent::new(&[], self.out);
        let mut list = Lent::new(&[], self.list);
        let (from, to, entries) = (input.pointer(), output.pointer(), list.pointer());
        let (n, out, room) = (self.floats, self.out, self.list);
        let ours = unsafe { kz_salvage(s, from, n, h, w, to, out, entries, room) };
        let found = [ours.number as usize, ours.height, ours.width, ours.bad];
        let (right, bytes, entries): (_, &[u8], &[u32]) = match answer {
            Ok(saved) => {
                let [height, width] = self.grid.map(|side| side * s.patch_size);
                let right = [0, height, width, saved.list.len() / 3];
                (right, &saved.bytes, &saved.list)
            }
            Err(number) => ([*number as usize, 0, 0, 0], &[], &[]),
        };
        differ(["number", "height", "width", "bad"], found, right)
            .or_else(|| output.differs("out", bytes))
            .or_else(|| list.differs("list", entries))
            .or_else(|| input.differs("patches", patches))
    }
}

struct Comparison {
    table: Table,
    random: Random,
    /// How many calls have each number.
    numbers: BTreeMap<u32, u64>,
    listed: u64,
    wrong: Differences,
}

impl Comparison {
    fn new() -> Self {
        Comparison {
            table: Table::new(OWN),
            random: Random(SEED),
            numbers: BTreeMap::new(),
            listed: 0,
            wrong: Differences::default(),
        }
    }

    /// Says the number, and how many samples are listed.
    fn salvage(&mut self, call: &Call) -> (u32, usize) {
        let (s, grid, out) = (call.s, call.grid, call.out);
        let table = self.table.of(s.six);
        let patches = call.patches(table);
        let answer = salvaged(table, s, &patches, grid, out, call.list);
        let restored = match &answer {
            Ok(saved) if saved.list.is_empty() => Ok(&saved.bytes[..]),
            Ok(_) | Err(21) => Err(8),
            Err(number) => Err(*number),
        };
        let mut found = call.differs(&patches, &answer).or_else(|| {
            let what = restore(s, grid, &patches, out, restored)?;
            Some(format!("of restore {what}"))
        });
        // What nothing damaged comes back as the picture's own bytes.
        if let (Source::Picture(fill), Damage::None, true) =
            (call.source, call.damage, call.set.is_empty())
        {
            if restored.is_ok_and(|bytes| bytes != call.rgb(fill)) {
                found = found.or(Some("the bytes are not the picture's".to_string()));
            }
        }
        self.wrong.note(found, || call.to_string());
        let (number, listed) = match answer {
            Ok(saved) => (0, saved.list.len() / 3),
            Err(number) => (number, 0),
        };
        *self.numbers.entry(number).or_default() += 1;
        self.listed += listed as u64;
        (number, listed)
    }

    /// The call of such words: names with values.
    fn repeat(&mut self, words: &[&str]) -> Option<()> {
        let ("salvage", words) = words.split_first().map(|(kind, rest)| (*kind, rest))? else {
            return None;
        };
        let words = Words(words);
        let number = |name| words.number(name);
        let source = match words.text("samples") {
            Some(_) => Source::Samples(words.fill("samples")?),
            None => Source::Picture(words.fill("rgb")?),
        };
        self.salvage(&Call {
            s: words.settings()?,
            grid: [number("grid_h")?, number("grid_w")?],
            source,
            damage: Damage::of(words.text("damage")?)?,
            floats: number("floats")?,
            out: number("out")?,
            list: number("list")?,
            set: words.sets()?,
        });
        Some(())
    }

    /// Prints the differences and the counts, and says whether nothing differs.
    fn report(self) -> bool {
        self.wrong.print();
        eprintln!("salvage: numbers {:?}", self.numbers);
        println!(
            "salvage: {} salvage and as many restore calls, {} samples listed, compared with the Rust; \
             {} differ",
            self.numbers.values().sum::<u64>(),
            self.listed,
            self.wrong.count
        );
        self.wrong.count == 0
    }
}

// --- What is compared ---

/// The numbers but 0, in their order.
const NUMBERS: [u32; 6] = [1, 19, 6, 7, 5, 21];

impl Random {
    /// Gives a call what it is refused for with a number.
    fn spoil(&mut self, call: &mut Call, number: u32) {
        match number {
            1 => match self.below(4) {
                0 => call.s.patch_size = self.pick(&[0, 33, 1 << 32, MAX]),
                1 => call.s.spatial_merge_size = self.pick(&[0, 5, 1 << 32, MAX]),
                2 => call.s.image_size = self.pick(&[0, 2049, 1 << 32, MAX]),
                _ => call.s.resize_rule = self.pick(&NO_RULES),
            },
            19 => {
                let (c, at) = (self.pick(&unsound()), self.below(4));
                call.s.six = spread(c)[at];
            }
            6 => {
                let (merge, most) = (call.s.spatial_merge_size, call.s.most());
                let odd = if merge == 1 { most + 1 } else { merge + 1 };
                call.grid[self.below(2)] =
                    self.pick(&[0, odd, most + merge, 1 << 32, 1 << 63, MAX]);
            }
            7 => {
                let n = call.floats;
                call.floats = self.pick(&[0, n - 1, n + 1, n - 3, 2 * n]);
            }
            5 => call.out = self.pick(&[0, 1, call.out - 1, call.out - 3]),
            21 => {
                let (bad, from) = (1 + self.below(4), self.below(call.floats - 4));
                call.set = (from..from + bad).map(|at| (at, self.nan())).collect();
                call.list = 3 * bad - 1 - self.below(3);
            }
            _ => unreachable!("no call has the number {number}"),
        }
    }

    /// Settings for small grids, now and then such as are refused.
    fn settings(&mut self, bad: &[Channel]) -> Settings {
        let patch = match self.below(16) {
            0 => self.pick(&[0, 33]),
            _ => 1 + self.below(5),
        };
        let merge = match self.below(16) {
            0 => self.pick(&[0, 5]),
            _ => self.pick(&[1, 1, 2, 2, 3, 4]),
        };
        let image = match self.below(16) {
            0 => self.pick(&[0, 2049]),
            _ => self.pick(&[4, 12, 16, 17, 20, 24, 30, 40]),
        };
        let six = match self.below(16) {
            0 => choice([self.pick(bad); 3]),
            1 => grey(),
            2 => wide(),
            _ => OWN,
        };
        of(patch, merge, image).rule(self.rule()).with(six)
    }

    /// Sides of a grid under settings.
    fn grid(&mut self, s: Settings, most: usize) -> Sides {
        let merge = s.spatial_merge_size;
        let most = usize::min(s.most() / merge, most);
        [0, 1].map(|_| merge * (1 + self.below(most)))
    }
}

/// Settings whose pictures are small, with a grid each.
fn small_grids() -> Vec<(Settings, Sides)> {
    vec![
        (of(1, 1, 1), [1, 1]),
        (of(1, 2, 7), [2, 6]),
        (of(2, 1, 9), [3, 2]),
        (of(3, 2, 20).rule(2), [2, 4]),
        (of(5, 1, 23), [1, 4]),
        (of(14, 2, 28), [2, 2]),
        (of(16, 1, 33), [2, 1]),
        (of(32, 1, 64).rule(2), [1, 1]),
    ]
}

impl Comparison {
    fn edges_and_random(mut self) -> bool {
        self.settled();
        self.clean();
        self.grids();
        self.ends();
        self.meetings();
        self.places();
        self.counts();
        self.patterns();
        self.choices();
        self.random_pictures();
        self.mixed();
        self.large();
        self.report()
    }

    /// Lists and bytes that are written here by hand.
    fn settled(&mut self) {
        let [quiet, other] = [0xFFC0_1234u32, 0x7F80_0001];
        for (s, grid, set, list, dark) in [
            // Patches of one pixel: samples 1 and 5.
            (
                of(1, 1, 2),
                [1, 2],
                [(1, quiet), (5, other)],
                [0, 1, quiet, 1, 2, other],
                [1, 5],
            ),
            // 2 by 2 patches of 2 by 2 pixels. Sample 22 is of patch 1: blue, row 1, column 0, and so the
            // picture's row 1 and column 2; sample 27 is of patch 2: red, row 1, column 1; so 3 and 1.
            (
                of(2, 1, 4),
                [2, 2],
                [(22, other), (27, quiet)],
                [1, 10, other, 2, 3, quiet],
                [(4 + 2) * 3 + 2, (3 * 4 + 1) * 3],
            ),
        ] {
            let call = whole(s, grid, Source::Samples(Fill::Full)).set(&set);
            let table = self.table.of(s.six);
            let patches = call.patches(table);
            let saved = salvaged(table, s, &patches, grid, call.out, 6);
            let right = |saved: &Saved| {
                let zeros = (0..call.out).filter(|at| saved.bytes[*at] == 0);
                saved.list == list && zeros.eq(dark)
            };
            let found = usize::from(saved.is_ok_and(|saved| right(&saved)));
            self.wrong
                .note(differ(["settled"], [found], [1]), || call.to_string());
            self.salvage(&call.lengths(call.out, 6));
        }
    }

    /// Pictures that nothing damaged: outputs one short, exact and longer, and lists of any length.
    fn clean(&mut self) {
        let settings = [
            of(1, 1, 1),
            of(1, 3, 7),
            of(1, 4, 16),
            of(2, 2, 9),
            of(3, 4, 61),
            of(5, 1, 50),
            of(7, 3, 64),
            of(14, 2, 100),
            of(16, 1, 64),
            of(32, 1, 33),
            of(32, 2, 130),
        ];
        for s in settings {
            let (m, most) = (s.spatial_merge_size, s.most() / s.spatial_merge_size);
            let sides = vec![m, 2 * m, most * m];
            let fits =
                |grid: &Sides| grid.iter().all(|side| side / m <= most) && size(s, *grid) <= SMALL;
            for grid in pairs(sides).into_iter().filter(fits) {
                let s = s.rule(self.random.pick(&RULES));
                let call = whole(s, grid, Source::Picture(self.random.any_fill()));
                for out in [call.out, call.out - 1, call.out + 40] {
                    for list in [0, 1, 2, 3, 4, 40] {
                        self.salvage(&call.lengths(out, list));
                    }
                }
            }
        }
    }

    /// Grids at and past each limit, and lengths at and beside the right ones; of the samples about one in
    /// eight is damaged, or none.
    fn grids(&mut self) {
        for s in [
            of(1, 1, 1),
            of(1, 4, 4),
            of(1, 2, 9),
            of(1, 3, 2),
            of(2, 3, 13),
            of(5, 2, 24),
            of(14, 2, 27),
            of(14, 2, 60),
            of(32, 4, 127),
            of(32, 1, 64),
            of(16, 4, 2048),
        ] {
            let s = s.rule(self.random.pick(&RULES));
            let (m, most) = (s.spatial_merge_size, s.most());
            let mut sides = vec![0, 1, m - 1, m, m + 1, 2 * m, 3 * m];
            sides.extend([most - 1, most, most + 1, most + m]);
            sides.extend([most / m * m, most / m * m + m]);
            sides.extend([1 << 32, 1 << 63, MAX / m * m, MAX]);
            for grid in pairs(sides) {
                let n = grid[0].wrapping_mul(grid[1]).wrapping_mul(s.patch_floats());
                for floats in [0, n.wrapping_sub(1), n, n.wrapping_add(1)] {
                    if floats <= SMALL {
                        self.lengths(s, grid, floats);
                    }
                }
            }
        }
    }

    /// Outputs and lists of several lengths beside so many samples.
    fn lengths(&mut self, s: Settings, grid: Sides, floats: usize) {
        for out in [0, floats.saturating_sub(1), floats, floats + 40] {
            let random = &mut self.random;
            let damage = match random.below(3) {
                0 => Damage::None,
                _ => Damage::Some(32, random.next()),
            };
            let call = Call {
                s,
                grid,
                source: Source::Samples(random.fill()),
                damage,
                floats,
                out,
                list: random.pick(&[0, 2, 3, floats / 8, floats, 3 * floats]),
                set: Vec::new(),
            };
            self.salvage(&call);
        }
    }

    /// Every integer at its ends, and what is no resize rule.
    fn ends(&mut self) {
        let sides = vec![0, 1, 2, 4, 1 << 32, 1 << 63, MAX];
        for patch in [0, 1, 2, 32, 33, 1 << 32, 1 << 63, MAX] {
            for merge in [0, 1, 4, 5, 1 << 63, MAX] {
                for image in [0, 1, 2, 128, 2048, 2049, MAX] {
                    for grid in pairs(sides.clone()) {
                        let s = of(patch, merge, image).rule(self.random.rule());
                        self.any_lengths(s, grid);
                    }
                }
            }
        }
        for s in [of(1, 1, 2), of(0, 1, 2), of(33, 5, 2049), of(1, 2, 1)] {
            for rule in NO_RULES.into_iter().chain(RULES) {
                for grid in [[1, 2], [0, 1], [3, 1]] {
                    (0..4).for_each(|_| self.any_lengths(s.rule(rule), grid));
                }
            }
        }
    }

    /// Lengths that fit small grids, or none.
    fn any_lengths(&mut self, s: Settings, grid: Sides) {
        let random = &mut self.random;
        let call = Call {
            s,
            grid,
            source: Source::Samples(Fill::Ramp),
            damage: random.pick(&[Damage::None, Damage::Flipped(0)]),
            floats: random.pick(&[0, 3, 6, 12, 48]),
            out: random.pick(&[0, 2, 3, 6, 12, 48]),
            list: random.pick(&[0, 2, 3, 8, 9, 18, 144]),
            set: Vec::new(),
        };
        self.salvage(&call);
    }

    /// Every set of faults at once has the first number of the list.
    fn meetings(&mut self) {
        for (s, grid) in [
            (of(2, 1, 5), [2, 1]),
            (of(1, 3, 7), [3, 6]),
            (of(5, 2, 29).rule(2), [2, 4]),
        ] {
            for _ in 0..ROUNDS {
                for faults in 0..1 << NUMBERS.len() {
                    let some = (0..NUMBERS.len()).filter(|at| faults >> at & 1 == 1);
                    let some: Vec<u32> = some.map(|at| NUMBERS[at]).collect();
                    let mut call = whole(s, grid, Source::Samples(self.random.fill()));
                    call.list = self.random.below(9);
                    for number in some.iter().rev() {
                        self.random.spoil(&mut call, *number);
                    }
                    let found = self.salvage(&call).0 as usize;
                    let right = some.first().copied().unwrap_or(0) as usize;
                    let found = differ(["settled number"], [found], [right]);
                    self.wrong.note(found, || call.to_string());
                }
            }
        }
    }

    /// One bad sample at a time: at the first and the last place of the buffer, of a patch, of a channel and
    /// of a row.
    fn places(&mut self) {
        for (s, grid) in small_grids() {
            self.damaged_places(s, grid);
        }
        for six in [grey(), wide(), choice([channel(0.2, -0.25); 3])] {
            self.damaged_places(of(3, 2, 14).with(six), [2, 4]);
        }
    }

    fn damaged_places(&mut self, s: Settings, grid: Sides) {
        let call = whole(s, grid, Source::Samples(self.random.fill()));
        let patches = call.patches(self.table.of(s.six));
        let (n, p, m) = (call.floats, s.patch_size, s.patch_floats());
        let last = n - m;
        let mut places = vec![0, p - 1, p * p - 1, p * p, 2 * p * p, m - 1];
        places.extend([last, last + p * p - p, last + p * p, n - p, n - 1]);
        places.push(self.random.below(n));
        places.sort();
        places.dedup();
        for place in places {
            let mut sets = changes(s, &patches, place, self.random.below(n));
            sets.extend(nans().into_iter().map(|bits| vec![(place, bits)]));
            for set in sets {
                let call = call.clone().set(&set);
                let (out, list) = (self.random.pick(&[n, n - 1, n + 3]), self.random.below(10));
                self.salvage(&call.lengths(n, 6));
                self.salvage(&call.lengths(out, list));
            }
        }
    }

    /// Few bad samples, many and nothing else.
    fn counts(&mut self) {
        for (s, grid) in small_grids() {
            for share in [1, 16, 64, 128, 255, 256] {
                for _ in 0..6 {
                    let damage = Damage::Some(share, self.random.next());
                    self.around_enough(s, grid, damage);
                }
            }
            for _ in 0..6 {
                let damage = Damage::Nans(self.random.next());
                self.around_enough(s, grid, damage);
            }
        }
    }

    /// Lists of just enough entries, of one less, of a part of one less, and longer ones.
    fn around_enough(&mut self, s: Settings, grid: Sides, damage: Damage) {
        let call = whole(s, grid, Source::Picture(self.random.any_fill())).damaged(damage);
        let n = call.floats;
        let (_, bad) = self.salvage(&call.lengths(n, 3 * n));
        let mut lists = vec![0, 1, 2, 3, 3 * bad, 3 * bad + 1, 3 * bad + 2, 3 * bad + 3];
        lists.extend((1..=4).map(|less| (3 * bad).saturating_sub(less)));
        lists.extend([3 * bad + 40, bad, 2 * bad]);
        for list in lists {
            let out = self.random.pick(&[n, n, n, n + 40, n - 1]);
            self.salvage(&call.lengths(out, list));
        }
    }

    /// 16 by 16 patches of one pixel, which have every byte's sample in every channel.
    fn patterns(&mut self) {
        let alone = sound().into_iter().map(|c| choice([c; 3]));
        let list: Vec<Choice> = alone.chain(several()).collect();
        for six in [OWN].into_iter().chain(list) {
            let call = whole(
                of(1, 1, 16).with(six),
                [16, 16],
                Source::Samples(Fill::Ramp),
            );
            let call = call.lengths(768, 3 * 768);
            let near = if six == OWN { 40 } else { 3 };
            let mut list: Vec<Damage> = (-near..=near).map(Damage::Moved).collect();
            list.extend((0..32).map(Damage::Flipped));
            list.push(Damage::Nans(self.random.next()));
            list.extend((0..8).map(|_| Damage::Some(256, self.random.next())));
            for damage in list {
                self.salvage(&call.clone().damaged(damage));
            }
        }
        for six in [OWN, grey(), wide()] {
            let s = of(1, 1, 512).with(six);
            let call = whole(s, [512, 512], Source::Samples(Fill::Ramp));
            let damage = Damage::Any(self.random.next());
            self.salvage(&call.lengths(call.out, 3 * call.out).damaged(damage));
        }
    }

    /// Means and deviations, allowed and not: clean patches and damaged ones.
    fn choices(&mut self) {
        let channels = sound().into_iter().chain(unsound());
        let list: Vec<Choice> = channels.flat_map(spread).chain(several()).collect();
        for six in list {
            let s = of(3, 2, 14).with(six).rule(self.random.pick(&RULES));
            let (grid, fill) = ([2, 4], self.random.any_fill());
            let clean = whole(s, grid, Source::Samples(fill));
            let n = clean.floats;
            let some = clean.clone().damaged(Damage::Some(32, self.random.next()));
            let all = clean.clone().damaged(Damage::Nans(self.random.next()));
            for call in [&clean, &some, &all] {
                for list in [0, 3 * n, self.random.below(n)] {
                    self.salvage(&call.lengths(n, list));
                }
            }
            // 01's own samples, of which few are those of other numbers.
            let call = whole(s.with(OWN), grid, Source::Samples(fill));
            let patches = call.patches(self.table.of(OWN));
            let set: Vec<Set> = patches.into_iter().enumerate().collect();
            self.salvage(&clean.set(&set).lengths(n, 3 * n));
        }
    }

    fn random_pictures(&mut self) {
        for _ in 0..fewer(PICTURES) {
            let random = &mut self.random;
            let (patch, merge) = (1 + random.below(32), 1 + random.below(4));
            let image = patch * merge + random.below(60);
            let s = of(patch, merge, image).rule(random.pick(&RULES));
            let s = s.with(random.pick(&[OWN, OWN, grey(), wide()]));
            let grid = random.grid(s, 8);
            let share = random.pick(&[0, 1, 4, 32, 256]);
            let damage = Damage::Some(share, random.next());
            let call = whole(s, grid, Source::Picture(random.fill())).damaged(damage);
            let n = call.floats;
            let (_, bad) = self.salvage(&call.lengths(n, 3 * n));
            let around = (3 * bad + 4).saturating_sub(self.random.below(9));
            let out = n + self.random.below(5);
            self.salvage(&call.lengths(out, around));
        }
    }

    /// Calls in which each part by itself is sound or not, so that refusals meet.
    fn mixed(&mut self) {
        let bad = unsound();
        for _ in 0..fewer(MIXED) {
            let random = &mut self.random;
            let s = random.settings(&bad);
            let merge = s.spatial_merge_size;
            let mut side = |ends: [usize; 2]| match random.below(8) {
                0 => random.pick(&ends),
                1 => 1 + random.below(6),
                _ => merge * (1 + random.below(2)),
            };
            let grid: Sides = [side([0, MAX]), side([0, 1 << 63])];
            let n = grid[0].saturating_mul(grid[1]);
            let floats = random.length(n.saturating_mul(s.patch_floats()));
            let out = random.length(floats);
            let share = random.pick(&[0, 1, 4, 16, 256]);
            let call = Call {
                s,
                grid,
                source: Source::Samples(random.any_fill()),
                damage: Damage::Some(share, random.next()),
                floats,
                out,
                list: random.pick(&[0, 2, 3, 4, 11, floats / 16, floats, 3 * floats]),
                set: Vec::new(),
            };
            self.salvage(&call);
        }
    }

    /// 1540 by 1540 and 2048 by 2048 pixels; the largest list, of all samples.
    fn large(&mut self) {
        for (s, grid) in [(USUAL, [110, 110]), (of(32, 4, 2048).rule(2), [64, 64])] {
            let damage = Damage::Some(1, self.random.next());
            let call = whole(s, grid, Source::Samples(self.random.fill())).damaged(damage);
            let n = call.out;
            let (_, bad) = self.salvage(&call.lengths(n + 7, n));
            self.salvage(&call.lengths(n, 3 * bad - 1));
        }
        let call = whole(of(1, 1, 2048), [2048, 2048], Source::Samples(Fill::Zero));
        let damage = Damage::Nans(self.random.next());
        self.salvage(&call.lengths(call.out, 3 * call.out).damaged(damage));
    }
}

fn one(words: &[&str]) -> bool {
    let mut all = Comparison::new();
    if all.repeat(words).is_none() {
        eprintln!("usage: salvage [CALL | --sample]");
        std::process::exit(2);
    }
    all.report()
}

// --- The sample ---

/// The cells of each of the replay's buffers: a patch of 32 by 32 pixels, and 64 more.
const ROOM: usize = 3136;

/// What a record asks: a salvage of samples by a seed, of which some become patterns.
#[derive(Clone)]
struct Asked {
    s: Settings,
    grid: Sides,
    floats: usize,
    out: usize,
    list: usize,
    seed: u32,
    /// How many samples of a channel lie side by side.
    run: usize,
    /// From `from` on and below `to`, every so many: place i gets `bits` and i times `add`.
    from: usize,
    to: usize,
    step: usize,
    bits: u32,
    add: u32,
    /// And one place its own.
    place: usize,
    other: u32,
}

/// A record whose samples are all of bytes, with room for seven entries.
fn asked(s: Settings, grid: Sides, seed: u32) -> Asked {
    let n = size(s, grid);
    Asked {
        s,
        grid,
        floats: n,
        out: n,
        list: 21,
        seed,
        run: s.patch_size * s.patch_size,
        from: 0,
        to: 0,
        step: 1,
        bits: 0,
        add: 0,
        place: n,
        other: 0,
    }
}

impl Asked {
    fn patterns(&self) -> Vec<u32> {
        let bytes = Fill::Sample(self.seed).bytes(self.floats, [1, 1]);
        let places = bytes.into_iter().enumerate();
        places
            .map(|(at, byte)| match at {
                _ if at == self.place => self.other,
                _ if self.from <= at && at < self.to && (at - self.from) % self.step == 0 => {
                    (at as u32).wrapping_mul(self.add).wrapping_add(self.bits)
                }
                _ => self.s.six.value(at / self.run % 3, byte),
            })
            .collect()
    }

    fn saved(&self, list: usize) -> Result<Saved, u32> {
        let table = Table::new(self.s.six);
        salvaged(&table, self.s, &self.patterns(), self.grid, self.out, list)
    }

    /// How many samples are bad, in a call that nothing else refuses.
    fn bad(&self) -> usize {
        self.saved(MAX).map_or(0, |saved| saved.list.len() / 3)
    }

    /// The record's line, by the text over the Rust's samples alone.
    fn answered(&self) -> String {
        let (s, lengths) = (self.s, [self.floats, self.out, self.list]);
        assert!(lengths.iter().all(|len| *len <= ROOM), "{lengths:?}");
        let mut out = records::marked(self.out);
        let mut entries: Vec<u32> = sample::states(sample::MARKS).take(self.list).collect();
        let report = match self.saved(self.list) {
            Ok(saved) => {
                out[..saved.bytes.len()].copy_from_slice(&saved.bytes);
                entries[..saved.list.len()].copy_from_slice(&saved.list);
                let [height, width] = self.grid.map(|side| side * s.patch_size);
                [0, height, width, saved.list.len() / 3]
            }
            Err(number) => [number as usize, 0, 0, 0],
        };
        let mut list = vec![s.patch_size, s.spatial_merge_size, s.image_size];
        list.extend([self.grid[0], self.grid[1]]);
        list.extend(lengths);
        list.extend([self.seed as usize, self.run, self.from, self.to, self.step]);
        list.extend([self.bits as usize, self.add as usize]);
        list.extend([self.place, self.other as usize]);
        list.push(sample::hash(&self.patterns()) as usize);
        list.extend(report);
        list.push(records::hash_bytes(&out));
        list.push(sample::hash(&entries) as usize);
        list.extend(records::end(s));
        sample::line(&list)
    }
}

/// Samples that nothing damaged, beside lists of several lengths.
fn sample_clean(random: &mut Random, list: &mut Vec<Asked>) {
    let more = [(of(1, 4, 16), [16, 16]), (of(7, 3, 64), [3, 3])];
    for (s, grid) in small_grids().into_iter().chain(more) {
        for room in [0, 40] {
            let mut a = asked(s, grid, random.next() as u32);
            a.s.resize_rule = random.pick(&RULES);
            a.out += random.pick(&[0, 0, 1, 40]);
            a.list = room;
            list.push(a);
        }
    }
}

/// One bad sample at the first and the last place of the buffer, of a patch, of a channel and of a row: each
/// time another pattern, NaNs above all.
fn sample_places(random: &mut Random, list: &mut Vec<Asked>) {
    let mut patterns = nans().into_iter().step_by(3).chain(odd_bits()).cycle();
    for (s, grid) in small_grids() {
        let (n, p, m) = (size(s, grid), s.patch_size, s.patch_floats());
        let mut places = vec![0, p - 1, p * p - 1, p * p, m - 1, n - m, n - p, n - 1];
        places.sort();
        places.dedup();
        for place in places {
            let mut a = asked(s, grid, random.next() as u32);
            let other = patterns.next().expect("there is always one more");
            (a.place, a.other, a.list) = (place, other, 3 + random.below(5));
            a.out += random.pick(&[0, 0, 1, 40]);
            list.push(a);
        }
    }
}

/// Another byte's sample, which is not bad; another channel's; and its own, with one bit flipped.
fn sample_others(random: &mut Random, list: &mut Vec<Asked>) {
    for (k, (s, grid)) in small_grids().into_iter().enumerate() {
        let mut a = asked(s, grid, random.next() as u32);
        let (place, byte) = (random.below(a.floats), random.next() as u8);
        let (own, channel) = (a.patterns()[place], place / a.run % 3);
        a.place = place;
        let others = [
            s.six.value(channel, byte),
            s.six.value((channel + 1) % 3, byte),
        ];
        for other in [others[0], others[1], own ^ 1 << (k * 5 % 32)] {
            a.other = other;
            list.push(a.clone());
        }
    }
}

/// Many bad samples, or nothing else: lists of just enough entries, longer, and an entry or a part of one
/// short.
fn sample_counts(random: &mut Random, list: &mut Vec<Asked>) {
    for (s, grid) in small_grids() {
        for step in [1, 2, 7, 1 + s.patch_size, s.patch_floats()] {
            let mut a = asked(s, grid, random.next() as u32);
            // The payloads of all places are below 2^23.
            let nan = random.pick(&[0x7F80_0001, 0xFF80_0001]);
            (a.bits, a.add) = (nan, 1 + random.below(2600) as u32);
            (a.from, a.to, a.step) = (random.below(step.min(a.floats)), a.floats, step);
            let enough = 3 * a.bad();
            let lengths = [enough, enough + 1 + random.below(2), enough + 12];
            a.list = random.pick(&lengths);
            if enough + 12 <= ROOM {
                list.push(a.clone());
            }
            a.list = usize::min(enough - 1 - random.below(3), ROOM);
            list.push(a);
        }
    }
}

/// A record with two bad samples that is accepted, to be changed.
fn accepted(random: &mut Random) -> Asked {
    let (s, grid) = random.pick(&[
        (of(14, 2, 28), [2, 2]),
        (of(3, 2, 20), [2, 4]),
        (of(2, 1, 9), [3, 2]),
        (of(16, 1, 33), [2, 1]),
    ]);
    let s = s.rule(random.pick(&RULES));
    let mut a = asked(s, grid, random.next() as u32);
    a.from = random.below(a.floats);
    (a.to, a.bits) = (a.from + 1, random.nan());
    a.place = (a.from + 1 + random.below(a.floats - 1)) % a.floats;
    a.other = random.nan();
    a
}

/// Each number in several ways, and refusals that meet.
fn sample_refusals(random: &mut Random, list: &mut Vec<Asked>) {
    let mut from = |change: &dyn Fn(&mut Asked)| {
        let mut a = accepted(random);
        change(&mut a);
        list.push(a);
    };
    for patch_size in [0, 33, MAX] {
        from(&|a| a.s.patch_size = patch_size);
    }
    for merge in [0, 5, MAX] {
        from(&|a| a.s.spatial_merge_size = merge);
    }
    for image in [0, 2049, MAX] {
        from(&|a| a.s.image_size = image);
    }
    for rule in [0, 3, MAX] {
        from(&|a| a.s.resize_rule = rule);
    }
    for side in [0, 1 << 32, MAX] {
        from(&|a| a.grid[0] = side);
        from(&|a| a.grid[1] = side);
    }
    from(&|a| a.grid[0] = a.s.most() + a.s.spatial_merge_size);
    from(&|a| (a.s, a.grid) = (of(14, 2, 56), [2, 3]));
    from(&|a| a.floats += 1);
    from(&|a| a.floats -= 1);
    from(&|a| a.floats = 0);
    from(&|a| a.out -= 1);
    from(&|a| a.out = 0);
    for room in 0..=5 {
        from(&|a| a.list = room);
    }
    from(&|_| {});
    from(&|a| a.list = 6);
    from(&|a| (a.s.patch_size, a.grid[0], a.floats, a.out, a.list) = (0, 0, 1, 0, 0));
    from(&|a| (a.grid[1], a.floats, a.out, a.list) = (0, 5, 0, 0));
    from(&|a| (a.floats, a.out, a.list) = (a.floats - 1, 0, 0));
    from(&|a| (a.out, a.list) = (a.out - 1, 0));
    from(&|a| (a.out, a.list) = (a.out + 40, 5));
}

/// Means and deviations that are accepted, with samples damaged too; and 19, alone and where it meets others.
fn sample_choices(random: &mut Random, list: &mut Vec<Asked>) {
    for six in [
        grey(),
        wide(),
        choice([channel(0.2, -0.25); 3]),
        choice([channel(0.1, -0.3), channel(0.2, 0.25), channel(0.3, -1e38)]),
        choice([
            channel(0.2, 3e-39),
            channel(1e4, 1.0),
            channel(-3.0, -1e-30),
        ]),
    ] {
        for part in 0..3 {
            let mut a = accepted(random);
            a.s.six = six;
            match part {
                0 => (a.to, a.place) = (0, a.floats),
                1 => (a.to, a.bits) = (a.floats, OWN.value(0, 9)),
                _ => {}
            }
            list.push(a);
        }
    }
    // -0 in the place of a sample: of byte 0, which is +0 or -0, or of another byte.
    for (mean, deviation) in [(0.0, 1.0), (0.0, -1.0), (byte(7), -0.3), (byte(7), 0.3)] {
        let mut a = accepted(random);
        a.s.six = choice([channel(mean, deviation); 3]);
        a.other = 1 << 31;
        list.push(a);
    }
    let bad = unsound();
    for k in 0..8 {
        let mut a = unallowed(random);
        a.s.six = spread(bad[k * (bad.len() - 1) / 7])[k % 4];
        list.push(a);
    }
    let mut from = |change: &dyn Fn(&mut Asked)| {
        let mut a = unallowed(random);
        change(&mut a);
        list.push(a);
    };
    from(&|a| a.s.patch_size = 0);
    from(&|a| a.s.resize_rule = 3);
    from(&|a| a.grid[0] = 0);
    from(&|a| a.floats -= 1);
    from(&|a| (a.out, a.list) = (0, 0));
}

/// A record that has 19. It has no sample of a byte, whose bits may be those of any NaN.
fn unallowed(random: &mut Random) -> Asked {
    let mut a = accepted(random);
    a.s.six = choice([channel(0.2, 0.0); 3]);
    (a.from, a.to, a.add) = (0, a.floats, random.next() as u32);
    a
}

fn sample() -> std::io::Result<()> {
    let mut random = Random(SEED);
    let mut list = Vec::new();
    sample_clean(&mut random, &mut list);
    sample_places(&mut random, &mut list);
    sample_others(&mut random, &mut list);
    sample_counts(&mut random, &mut list);
    sample_refusals(&mut random, &mut list);
    sample_choices(&mut random, &mut list);
    let mut out = std::io::stdout().lock();
    list.iter()
        .try_for_each(|a| writeln!(out, "{}", a.answered()))
}

fn main() {
    let words: Vec<String> = std::env::args().skip(1).collect();
    let words: Vec<&str> = words.iter().map(String::as_str).collect();
    let same = match words[..] {
        [] => Comparison::new().edges_and_random(),
        ["--sample"] => sample().is_ok(),
        _ => one(&words),
    };
    std::process::exit(if same { 0 } else { 1 });
}
