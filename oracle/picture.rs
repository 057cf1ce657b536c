//! Compares libkyzgultam with the Rust on preprocess, restore and the patch lookup, byte for byte.
//!
//! `pixtral_preprocess` and `bilinear_resize_rgb` are the Rust's own, cut from its source, with the
//! means and deviations of the call in the place of the Rust's six constants (`run` does it). The Rust
//! has no refusal numbers, no restore and no lookup: these follow the text of the paper that adds them,
//! and which means and deviations are allowed follows that of 2026-08. Nor has it resize rule 2: the
//! sides follow the text of 2026-07, and the Rust's own two functions resize a picture to these sides,
//! in one step, and cut it into patches.
//!
//!     picture            edges, random calls with a fixed seed, and other six numbers (choices.rs)
//!     picture CALL       one call, in the words in which a difference is printed
//!     picture --bench    times ours and the Rust
//!     picture --sample   prints the Rust's answers as crates/picture_replay/stdin holds them

use std::collections::BTreeMap;
use std::fmt;
use std::hint::black_box;
use std::io::Write;
use std::time::Instant;

#[path = "choices.rs"]
mod choices;
#[path = "edges.rs"]
mod edges;
#[path = "fewer.rs"]
mod fewer;
#[path = "fills.rs"]
mod fills;
#[path = "lent.rs"]
mod lent;
#[path = "records.rs"]
mod records;
#[path = "restore.rs"]
mod restore;
#[path = "sample.rs"]
mod sample;
#[path = "settings.rs"]
mod settings;
#[path = "words.rs"]
mod words;
use edges::{changes, grey, odd_bits, pairs, wide};
use fewer::fewer;
use fills::{Fill, Random, SEED};
use lent::{differ, Differences, Lent};
use records::CELLS;
use restore::{kz_restore, restore, unshaped};
use sample::hash;
use settings::{of, preprocess_in_rust, rust, Choice, Settings, Sides, Table};
use settings::{MAX, NO_RULES, OWN, RULES, USUAL};
use words::{shown, Set, Words};

#[repr(C)]
#[derive(Default)]
struct PreprocessReport {
    number: u32,
    grid_h: usize,
    grid_w: usize,
    floats: usize,
}

#[repr(C)]
#[derive(Default)]
struct PatchPlace {
    start: usize,
    len: usize,
}

// An f32 is lent by its bits, which no move of a NaN can change.
extern "C" {
    fn kz_preprocess(
        s: Settings,
        rgb: *const u8,
        rgb_len: usize,
        height: usize,
        width: usize,
        out: *mut u32,
        out_len: usize,
    ) -> PreprocessReport;
    fn kz_patch(patches: *const u32, len: usize, patch_size: usize, i: usize) -> PatchPlace;
}

/// Random pictures, and random calls of which most are refused, in the default run.
const PICTURES: usize = 2_500;
const MIXED: usize = 150_000;
/// The most bytes that a picture of a long list, or its result, has.
const SMALL: usize = 1 << 19;

// --- The paper's text ---

impl Settings {
    /// Rule 2, with S the image size and m the longer side: max(1, floor(side × S / m)) where m > S.
    fn scaled(self, sides: Sides) -> Sides {
        let (s, m) = (self.image_size, usize::max(sides[0], sides[1]));
        match self.resize_rule == 2 && m > s {
            true => sides.map(|side| usize::max(1, side * s / m)),
            false => sides,
        }
    }

    /// Rounded up to a multiple of the align, cut to the image size, rounded down to a multiple.
    fn resized(self, sides: Sides) -> Sides {
        let a = self.align();
        self.scaled(sides)
            .map(|side| usize::min(side.div_ceil(a) * a, self.image_size) / a * a)
    }

    fn grid(self, sides: Sides) -> Sides {
        self.resized(sides).map(|side| side / self.patch_size)
    }

    /// The floats of a picture's patches, and the bytes of the resized picture.
    fn size(self, sides: Sides) -> usize {
        let [height, width] = self.resized(sides);
        height * width * 3
    }
}

/// Restore's number, and the bytes that an accepted call writes.
fn restored(
    table: &Table,
    s: Settings,
    patches: &[u32],
    grid: Sides,
    out: usize,
) -> Result<Vec<u8>, u32> {
    match unshaped(table, s, patches.len(), grid, out) {
        0 => table.unpatched(s, patches, grid).ok_or(8),
        number => Err(number),
    }
}

/// Patch i from place i · 3p²; 0 and 0 where p is not in 1..32 or the whole patch does not lie inside.
fn placed(floats: usize, patch_size: usize, i: usize) -> [usize; 2] {
    if !(1..=32).contains(&patch_size) {
        return [0, 0];
    }
    let len = 3 * patch_size * patch_size;
    match i.checked_mul(len) {
        Some(start) if floats >= len && start <= floats - len => [start, len],
        _ => [0, 0],
    }
}

/// A picture that preprocess accepts, and the answers by the Rust.
struct Picture {
    of: (Settings, Sides, Fill),
    rgb: Vec<u8>,
    patches: Vec<u32>,
    grid: Sides,
    resized: Vec<u8>,
}

fn picture(s: Settings, sides: Sides, fill: Fill) -> Picture {
    let rgb = fill.bytes(sides[0] * sides[1] * 3, sides);
    let [height, width] = s.resized(sides);
    let mut resized = vec![0; height * width * 3];
    rust::bilinear_resize_rgb(&rgb, sides[0], sides[1], &mut resized, height, width);
    // Sides that are multiples of the align and not above the image size are resized to themselves.
    let (patches, grid_h, grid_w) = match s.resize_rule {
        1 => preprocess_in_rust(s, &rgb, sides),
        _ => preprocess_in_rust(s, &resized, [height, width]),
    };
    assert!(
        [grid_h, grid_w] == s.grid(sides),
        "the Rust gives another grid than the paper: {s}, {sides:?}"
    );
    Picture {
        of: (s, sides, fill),
        rgb,
        patches: patches.into_iter().map(f32::to_bits).collect(),
        grid: [grid_h, grid_w],
        resized,
    }
}

// --- The comparison ---

/// Where the patches of a restore come from.
#[derive(Clone, Copy)]
enum Source {
    /// The samples of a run of bytes, each in the channel of its place.
    Samples(Fill),
    /// The Rust's patches of a picture.
    Picture(Sides, Fill),
}

impl fmt::Display for Source {
    fn fmt(&self, to: &mut fmt::Formatter) -> fmt::Result {
        match self {
            Source::Samples(fill) => write!(to, "samples {fill}"),
            Source::Picture([h, w], fill) => write!(to, "height {h} width {w} rgb {fill}"),
        }
    }
}

struct Comparison {
    table: Table,
    /// The last picture that was asked for: the calls come in groups that share one.
    last: Option<Picture>,
    random: Random,
    preprocess: u64,
    restore: u64,
    patch: u64,
    /// How many preprocess and restore calls have each number.
    numbers: [BTreeMap<u32, u64>; 2],
    wrong: Differences,
}

impl Comparison {
    fn new() -> Self {
        Comparison {
            table: Table::new(OWN),
            last: None,
            random: Random(SEED),
            preprocess: 0,
            restore: 0,
            patch: 0,
            numbers: [BTreeMap::new(), BTreeMap::new()],
            wrong: Differences::default(),
        }
    }

    /// Makes the picture the last one.
    fn ask(&mut self, s: Settings, sides: Sides, fill: Fill) -> &Picture {
        if !self.last.as_ref().is_some_and(|p| p.of == (s, sides, fill)) {
            self.last = Some(picture(s, sides, fill));
        }
        self.last.as_ref().expect("a picture was made")
    }

    fn preprocess(&mut self, s: Settings, sides: Sides, fill: Fill, rgb: usize, out: usize) {
        self.preprocess += 1;
        let (number, found) = match self.table.of(s.six).refused(s, Some(rgb), sides) {
            0 => {
                let p = self.ask(s, sides, fill);
                match out < p.patches.len() {
                    true => (5, preprocess(s, sides, &p.rgb, out, 5, [0, 0], &[])),
                    false => {
                        let found = preprocess(s, sides, &p.rgb, out, 0, p.grid, &p.patches);
                        (0, found)
                    }
                }
            }
            number => {
                let rgb = fill.bytes(rgb, sides);
                let found = preprocess(s, sides, &rgb, out, number, [0, 0], &[]);
                (number, found)
            }
        };
        *self.numbers[0].entry(number).or_default() += 1;
        let [h, w] = sides;
        self.wrong.note(found, || {
            format!("preprocess {s} height {h} width {w} rgb {fill} bytes {rgb} out {out}")
        });
    }

    fn restore(
        &mut self,
        s: Settings,
        grid: Sides,
        source: Source,
        floats: usize,
        out: usize,
        set: &[Set],
    ) {
        self.restore += 1;
        let mut patches: Vec<u32> = match source {
            Source::Samples(fill) => {
                let bytes = fill.bytes(floats, [1, floats / 3]);
                self.table.of(s.six).samples(s, &bytes)
            }
            Source::Picture(sides, fill) => self.ask(s, sides, fill).patches.clone(),
        };
        patches.resize(floats, 0);
        for (place, bits) in set {
            patches[*place] = *bits;
        }
        let expected = restored(self.table.of(s.six), s, &patches, grid, out);
        let number = *expected.as_ref().err().unwrap_or(&0);
        *self.numbers[1].entry(number).or_default() += 1;
        let answer = expected.as_deref().map_err(|number| *number);
        let mut found = restore(s, grid, &patches, out, answer);
        // what nothing damaged comes back as the Rust's resized bytes
        if let (None, Source::Picture(..), true) = (&found, source, set.is_empty()) {
            let resized = &self.last.as_ref().expect("the call's picture").resized;
            if expected.is_ok_and(|bytes| bytes != *resized) {
                found = Some("the bytes are not the resized ones".to_string());
            }
        }
        let [h, w] = grid;
        self.wrong.note(found, || {
            let set = shown(set);
            format!("restore {s} grid_h {h} grid_w {w} {source} floats {floats} out {out}{set}")
        });
    }

    fn patch(&mut self, floats: usize, patch_size: usize, i: usize) {
        self.patch += 1;
        let found = patch(floats, patch_size, i);
        self.wrong.note(found, || {
            format!("lookup floats {floats} patch {patch_size} i {i}")
        });
    }

    /// The call of such words: a kind, then names with values.
    fn repeat(&mut self, words: &[&str]) -> Option<()> {
        let (kind, words) = words.split_first()?;
        let words = Words(words);
        let number = |name| words.number(name);
        match *kind {
            "preprocess" => {
                let (s, sides, fill) = (words.settings()?, words.sides()?, words.fill("rgb")?);
                self.preprocess(s, sides, fill, number("bytes")?, number("out")?);
            }
            "restore" => {
                let grid = [number("grid_h")?, number("grid_w")?];
                let source = match words.text("samples") {
                    Some(_) => Source::Samples(words.fill("samples")?),
                    None => Source::Picture(words.sides()?, words.fill("rgb")?),
                };
                let (floats, out) = (number("floats")?, number("out")?);
                self.restore(words.settings()?, grid, source, floats, out, &words.sets()?);
            }
            "lookup" => self.patch(number("floats")?, number("patch")?, number("i")?),
            _ => return None,
        }
        Some(())
    }

    /// Prints the differences and the counts, and says whether nothing differs.
    fn report(self) -> bool {
        self.wrong.print();
        let [preprocess, restore] = &self.numbers;
        eprintln!("picture: numbers of preprocess {preprocess:?}, of restore {restore:?}");
        println!(
            "picture: {} preprocess, {} restore, {} patch calls compared with the Rust; {} differ",
            self.preprocess, self.restore, self.patch, self.wrong.count
        );
        self.wrong.count == 0
    }
}

/// Ours, beside a number, a grid and the front of the output.
fn preprocess(
    s: Settings,
    [height, width]: Sides,
    rgb: &[u8],
    out: usize,
    number: u32,
    grid: Sides,
    patches: &[u32],
) -> Option<String> {
    let mut input = Lent::new(rgb, rgb.len());
    let mut output = Lent::new(&[], out);
    let (from, to) = (input.pointer(), output.pointer());
    let ours = unsafe { kz_preprocess(s, from, rgb.len(), height, width, to, out) };
    let found = [ours.number as usize, ours.grid_h, ours.grid_w, ours.floats];
    let right = [number as usize, grid[0], grid[1], patches.len()];
    differ(["number", "grid_h", "grid_w", "floats"], found, right)
        .or_else(|| output.differs("out", patches))
        .or_else(|| input.differs("rgb", rgb))
}

fn patch(floats: usize, patch_size: usize, i: usize) -> Option<String> {
    let mut input = Lent::<u32>::new(&[], floats);
    let ours = unsafe { kz_patch(input.pointer(), floats, patch_size, i) };
    let right = placed(floats, patch_size, i);
    differ(["start", "len"], [ours.start, ours.len], right)
        .or_else(|| input.differs("patches", &[]))
}

// --- What is compared ---

impl Comparison {
    /// A picture's patches into outputs of several lengths, and back out of them.
    fn there_and_back(&mut self, s: Settings, sides: Sides, fill: Fill) {
        let n = s.size(sides);
        for out in [n, n - 1, n + 40] {
            self.preprocess(s, sides, fill, sides[0] * sides[1] * 3, out);
            self.restore(s, s.grid(sides), Source::Picture(sides, fill), n, out, &[]);
        }
    }

    fn large_pictures(&mut self) {
        for sides in [
            [1, 1],
            [28, 28],
            [29, 28],
            [28, 29],
            [1540, 1541],
            [1540, 1540],
        ] {
            for s in under_both(&[USUAL]) {
                let fill = self.random.fill();
                self.there_and_back(s, sides, fill);
            }
        }
        for s in under_both(&[USUAL, of(32, 4, 2048), of(1, 1, 1), of(3, 4, 61)]) {
            for sides in [[1, 8192], [8192, 1], [2, 8191], [8191, 3]] {
                let fill = self.random.fill();
                self.there_and_back(s, sides, fill);
            }
        }
        let fill = self.random.fill();
        self.there_and_back(of(32, 4, 2048), [8192, 8192], fill);
        // 4099 × 2048 / 8192 is 1024.75.
        let fill = self.random.fill();
        self.there_and_back(of(32, 4, 2048).rule(2), [8192, 4099], fill);
        for s in under_both(&[of(31, 3, 2047)]) {
            self.there_and_back(s, [2048, 2047], Fill::Checks);
        }
        // Rule 2's settled grids, upright and lying.
        for (s, sides, grid) in [
            (USUAL.rule(2), [3080, 1540], [110, 56]),
            (USUAL.rule(2), [1540, 3080], [56, 110]),
            (of(1, 1, 2).rule(2), [8192, 1], [2, 1]),
            (of(1, 1, 2).rule(2), [1, 8192], [1, 2]),
        ] {
            let found = differ(["grid_h", "grid_w"], s.grid(sides), grid);
            self.wrong
                .note(found, || format!("settled {s} sides {sides:?}"));
            let fill = self.random.fill();
            self.there_and_back(s, sides, fill);
        }
    }

    /// Every kind of side, below, at and above the align and the image size, with every fill.
    fn small_pictures(&mut self) {
        self.there_and_back(of(14, 2, 100), [200, 200], Fill::Ramp);
        self.there_and_back(of(1, 4, 4), [1, 2], Fill::Across);
        self.there_and_back(of(1, 2, 2), [1, 4], Fill::Across);
        let settings = [
            of(1, 1, 1),
            of(1, 1, 2),
            of(1, 3, 7),
            of(1, 4, 4),
            of(2, 2, 5),
            of(3, 4, 61),
            of(5, 1, 50),
            of(7, 3, 64),
            of(14, 2, 28),
            of(14, 2, 29),
            of(14, 2, 55),
            of(14, 2, 100),
            of(16, 1, 64),
            of(32, 1, 33),
            of(32, 4, 128),
            of(32, 4, 130),
            USUAL,
        ];
        for s in settings {
            let (a, n) = (s.align(), s.image_size);
            let mut list = vec![1, a - 1, a, a + 1, 2 * a, n - 1, n, n + 1];
            for sides in pairs(list.clone()) {
                self.small_picture(s.rule(2), sides);
            }
            self.long_pictures(s.rule(2));
            list.extend([2, 3, 5, 13, 31, 61, 127, 251]);
            for sides in pairs(list) {
                self.small_picture(s, sides);
            }
        }
    }

    /// The longer side around multiples of the image size, and 8192; the other at and beside the first
    /// that is scaled to 1, and to 1 more than a multiple of the align.
    fn long_pictures(&mut self, s: Settings) {
        let (a, n) = (s.align(), s.image_size);
        for longer in [n + 1, 2 * n - 1, 2 * n, 2 * n + 1, 3 * n, 8192] {
            let mut list = vec![1, longer / 2, longer - 1, longer];
            for most in [0, a, 2 * a, n / a * a] {
                let above = ((most + 1) * longer).div_ceil(n);
                list.extend([above - 1, above]);
            }
            list.sort();
            list.dedup();
            for side in list.into_iter().filter(|side| *side <= longer) {
                self.small_picture(s, [longer, side]);
                self.small_picture(s, [side, longer]);
            }
        }
    }

    /// One whose buffers are not long, with any fill.
    fn small_picture(&mut self, s: Settings, sides: Sides) {
        if !sides.contains(&0) && usize::max(sides[0] * sides[1] * 3, s.size(sides)) <= SMALL {
            let fill = self.random.any_fill();
            self.there_and_back(s, sides, fill);
        }
    }

    fn random_pictures(&mut self, pictures: usize, mut six: impl FnMut() -> Choice) {
        for _ in 0..pictures {
            let random = &mut self.random;
            let (patch, merge) = (1 + random.below(32), 1 + random.below(4));
            let a = patch * merge;
            let image = a + random.below(160);
            let side = |random: &mut Random| match random.below(4) {
                0 => 1 + random.below(8),
                1 => 1 + random.below(image),
                2 => 1 + random.below(3 * image),
                _ => image / a * a + random.below(3),
            };
            let sides = [side(random), side(random)];
            let (rule, fill) = (random.pick(&RULES), random.fill());
            let s = of(patch, merge, image).rule(rule).with(six());
            self.there_and_back(s, sides, fill);
        }
    }

    /// Preprocess at and past each limit, and where products come round to small numbers.
    fn refused_pictures(&mut self) {
        let settings = [USUAL, of(1, 1, 1), of(32, 4, 2048), of(32, 4, 128)];
        for s in under_both(&settings) {
            for sides in [[1, 1], [3, 5], [28, 29]] {
                let (rgb, n) = (sides[0] * sides[1] * 3, s.size(sides));
                for rgb in [0, 1, rgb - 1, rgb, rgb + 1, 2 * rgb] {
                    for out in [0, 1, n - 1, n, n + 1] {
                        self.preprocess(s, sides, Fill::Ramp, rgb, out);
                    }
                }
            }
        }
        for image in 1..=200 {
            for s in under_both(&[of(14, 2, image), of(32, 4, image)]) {
                self.preprocess(s, [3, 2], Fill::Ramp, 18, 200 * 200 * 3);
            }
        }
        let list = vec![
            0,
            1,
            2,
            8191,
            8192,
            8193,
            16384,
            1 << 32,
            1 << 63,
            MAX - 1,
            MAX,
        ];
        for sides in pairs(list) {
            let product = sides[0].wrapping_mul(sides[1]).wrapping_mul(3);
            for rgb in [0, 3, product] {
                for s in under_both(&[of(14, 2, 28)]) {
                    if rgb <= SMALL {
                        self.preprocess(s, sides, Fill::Ramp, rgb, 3000);
                    }
                }
            }
        }
        let list = vec![
            0,
            1,
            2,
            1 << 31,
            1 << 32,
            1 << 63,
            MAX / 3,
            MAX / 3 + 1,
            MAX,
        ];
        for patch in [0, 1, 32, 33, 1 << 32, 1 << 63, MAX] {
            for merge in [0, 1, 4, 5, 1 << 32, 1 << 63, MAX] {
                for image in [0, 1, 127, 128, 2048, 2049, 1 << 63, MAX] {
                    for sides in pairs(list.clone()) {
                        let rgb = self.random.pick(&[0, 0, 3, 6, 12]);
                        let out = self.random.pick(&[0, 1, 3, 12, 49152]);
                        let s = of(patch, merge, image).rule(self.random.pick(&RULES));
                        self.preprocess(s, sides, Fill::Ramp, rgb, out);
                    }
                }
            }
        }
        // What is no rule, alone and where 1, 2, 3, 4 and 5 have other reasons too.
        for s in [USUAL, of(0, 2, 1540), of(33, 5, 2049), of(14, 2, 27)] {
            for rule in NO_RULES {
                for sides in [[3, 5], [0, 5], [3, 8193]] {
                    for (rgb, out) in [(45, 2352), (44, 2352), (45, 2351), (0, 0)] {
                        self.preprocess(s.rule(rule), sides, Fill::Ramp, rgb, out);
                    }
                }
            }
        }
    }

    /// Restore with grids at and past each limit, and lengths at and beside the right ones.
    fn grids(&mut self) {
        let settings = [
            of(1, 1, 1),
            of(1, 4, 4),
            of(1, 2, 9),
            of(1, 3, 2),
            of(2, 3, 13),
            of(5, 2, 24),
            of(14, 2, 27),
            of(14, 2, 28),
            of(14, 2, 60),
            of(32, 4, 127),
            of(32, 4, 128),
            of(32, 1, 64),
            of(16, 4, 2048),
        ];
        for s in under_both(&settings) {
            let (m, most) = (s.spatial_merge_size, s.most());
            let mut list = vec![
                0,
                1,
                m - 1,
                m,
                m + 1,
                2 * m,
                3 * m,
                most - 1,
                most,
                most + 1,
            ];
            list.extend([most / m * m, most / m * m + m, most + m]);
            list.extend([1 << 32, 1 << 63, MAX / m * m, MAX]);
            for grid in pairs(list) {
                let n = grid[0].wrapping_mul(grid[1]).wrapping_mul(s.patch_floats());
                for floats in [0, n.wrapping_sub(1), n, n.wrapping_add(1)] {
                    let outs: &[usize] = match floats == n {
                        true => &[0, n.saturating_sub(1), n, n.saturating_add(40)],
                        false => &[floats],
                    };
                    for out in outs.iter().filter(|_| floats <= SMALL / 8) {
                        let source = Source::Samples(self.random.fill());
                        self.restore(s, grid, source, floats, *out, &[]);
                    }
                }
            }
        }
        let list = vec![0, 1, 2, 4, 1 << 32, 1 << 63, MAX];
        for patch in [0, 1, 2, 32, 33, 1 << 32, 1 << 63, MAX] {
            for merge in [0, 1, 4, 5, 1 << 63, MAX] {
                for image in [0, 1, 2, 128, 2048, 2049, MAX] {
                    for grid in pairs(list.clone()) {
                        let floats = self.random.pick(&[0, 3, 12, 48]);
                        let out = self.random.pick(&[0, 2, 3, 12, 48]);
                        let source = Source::Samples(Fill::Ramp);
                        let s = of(patch, merge, image).rule(self.random.pick(&RULES));
                        self.restore(s, grid, source, floats, out, &[]);
                    }
                }
            }
        }
        // What is no rule, alone and where 1, 6, 7, 5 and 8 have other reasons too.
        for s in [of(1, 1, 2), of(0, 1, 2), of(33, 5, 2049), of(1, 2, 1)] {
            for rule in NO_RULES {
                for grid in [[1, 2], [0, 1], [3, 1]] {
                    for (floats, out) in [(6, 6), (5, 6), (6, 5), (1, 0)] {
                        for set in [&[][..], &[(0, 0x7FC0_0000)]] {
                            let source = Source::Samples(Fill::Ramp);
                            self.restore(s.rule(rule), grid, source, floats, out, set);
                        }
                    }
                }
            }
        }
    }

    fn damaged_pictures(&mut self) {
        for (s, sides) in [
            (of(1, 1, 1), [1, 1]),
            (of(1, 2, 3), [2, 3]),
            (of(14, 2, 28), [5, 9]),
            (of(5, 1, 23), [30, 7]),
            (of(5, 1, 23).rule(2), [7, 30]),
            (of(32, 1, 64), [40, 64]),
        ] {
            self.damaged_picture(s, sides);
        }
    }

    /// A picture's patches with samples changed, at the first places, the last and between.
    fn damaged_picture(&mut self, s: Settings, sides: Sides) {
        let fill = self.random.fill();
        let patches = picture(s, sides, fill).patches;
        let n = patches.len();
        let mut places = vec![0, 1, n / 3, n / 2, 2 * n / 3, n - 2, n - 1];
        places.extend((0..5).map(|_| self.random.below(n)));
        for place in places {
            let source = Source::Picture(sides, fill);
            for set in changes(s, &patches, place, self.random.below(n)) {
                for out in [n, n - 1, n + 3] {
                    self.restore(s, s.grid(sides), source, n, out, &set);
                }
            }
        }
    }

    /// One pixel, with bits around every value and between two, and random bits.
    fn pixels(&mut self) {
        let plain = [OWN.value(0, 9), OWN.value(1, 99), OWN.value(2, 199)];
        for channel in 0..3 {
            let mut list = odd_bits();
            for byte in 0..=255 {
                let bits = OWN.value(channel, byte);
                list.extend(bits - 40..=bits + 40);
                let next = OWN.value(channel, byte.saturating_add(1));
                let middle = ((f32::from_bits(bits) + f32::from_bits(next)) / 2.0).to_bits();
                list.extend(middle - 1..=middle + 1);
                list.extend((0..3).map(|other| OWN.value(other, byte)));
            }
            list.extend((0..fewer(MIXED) / 2).map(|_| self.random.next() as u32));
            for bits in list {
                let mut set = [(0, plain[0]), (1, plain[1]), (2, plain[2])];
                set[channel].1 = bits;
                self.restore(of(1, 1, 1), [1, 1], Source::Samples(Fill::Zero), 3, 3, &set);
            }
        }
    }

    /// Calls in which each part by itself is sound or not, so that refusals meet; the means and
    /// deviations are those of a list, in turn.
    fn mixed(&mut self, calls: usize, list: &[Choice]) {
        let odd = odd_bits();
        for six in list.iter().cycle().take(calls) {
            let random = &mut self.random;
            let patch = random.pick(&[1, 1, 2, 2, 3, 4, 0, 33]);
            let merge = random.pick(&[1, 1, 2, 2, 3, 4, 0, 5]);
            let image = random.pick(&[1, 3, 4, 6, 8, 9, 12, 16, 0, 2049]);
            let s = of(patch, merge, image).rule(random.rule()).with(*six);
            let sides: Sides = [
                random.pick(&[1, 1, 2, 3, 4, 7, 0, 8193]),
                random.pick(&[1, 1, 2, 3, 5, 9, 0, MAX]),
            ];
            let rgb = random.length(sides[0].saturating_mul(sides[1]).saturating_mul(3));
            let out = random.pick(&[0, 3, 12, 27, 48, 108, 192, 432, 768]);
            let fill = random.fill();
            let grid: Sides = [
                random.pick(&[1, 2, 3, 4, 6, 0, 8, MAX]),
                random.pick(&[1, 2, 3, 4, 6, 0, 9, 1 << 63]),
            ];
            let n = grid[0].saturating_mul(grid[1]);
            let floats = random.length(n.saturating_mul(s.patch_floats()));
            let bytes = random.length(floats);
            let mut set = Vec::new();
            if floats > 0 && random.below(3) == 0 {
                set.push((random.below(floats), random.pick(&odd)));
            }
            self.preprocess(s, sides, fill, rgb, out);
            self.restore(s, grid, Source::Samples(fill), floats, bytes, &set);
        }
    }

    fn patches(&mut self) {
        let mut sizes: Vec<usize> = vec![0, 1, 2, 3, 7, 14, 31, 32, 33, 34, 64, 1 << 16];
        sizes.extend([
            1 << 31,
            1 << 32,
            1 << 33,
            (1 << 63) - 1,
            1 << 63,
            MAX - 1,
            MAX,
        ]);
        for patch_size in sizes {
            let n = patch_size.wrapping_mul(patch_size).wrapping_mul(3);
            let mut lengths = vec![0, 1, 2, 3, 4, 5, 6, 7, 100, 3071, 3072, 3073];
            lengths.extend([n.wrapping_sub(1), n, n.wrapping_add(1)]);
            lengths.extend([n.wrapping_mul(2), n.wrapping_mul(5)]);
            lengths.retain(|floats| *floats <= SMALL);
            for floats in lengths {
                // the count of whole patches, and where i · 3p² comes round to a small number
                let (count, round) = (floats / n.max(1), MAX / n.max(1));
                let mut places = vec![0, 1, 2, 3, count.saturating_sub(1), count, count + 1];
                places.extend([1 << 31, 1 << 32, 1 << 62, 1 << 63, MAX - 1, MAX]);
                places.extend([
                    round - 1,
                    round,
                    round.wrapping_add(1),
                    round.wrapping_add(2),
                ]);
                places.extend((0..3).map(|_| self.random.next() as usize));
                for i in places {
                    self.patch(floats, patch_size, i);
                }
            }
        }
    }
}

/// Each with rule 1 and with rule 2.
fn under_both(settings: &[Settings]) -> Vec<Settings> {
    let both = |s: &Settings| RULES.map(|rule| s.rule(rule));
    settings.iter().flat_map(both).collect()
}

fn edges_and_random() -> bool {
    let mut all = Comparison::new();
    all.large_pictures();
    all.small_pictures();
    all.random_pictures(fewer(PICTURES), || OWN);
    all.refused_pictures();
    all.grids();
    all.damaged_pictures();
    all.pixels();
    all.mixed(fewer(MIXED), &[OWN]);
    all.patches();
    all.choices();
    all.report()
}

fn one(words: &[&str]) -> bool {
    let mut all = Comparison::new();
    if all.repeat(words).is_none() {
        eprintln!("usage: picture [CALL | --bench | --sample]");
        std::process::exit(2);
    }
    all.report()
}

// --- The benchmark ---

/// Milliseconds of the fastest of several runs, each of the two in turn: 15, or those that begin within
/// three seconds.
fn fastest(mut ours: impl FnMut(), mut other: impl FnMut()) -> [f64; 2] {
    let time = |run: &mut dyn FnMut()| {
        let began = Instant::now();
        run();
        began.elapsed().as_secs_f64() * 1e3
    };
    let began = Instant::now();
    let runs = (0..15).take_while(|_| began.elapsed().as_secs() < 3);
    runs.fold([f64::INFINITY; 2], |best, _| {
        [best[0].min(time(&mut ours)), best[1].min(time(&mut other))]
    })
}

fn bench_preprocess(s: Settings, [height, width]: Sides) {
    let made = picture(s, [height, width], Fill::Random(SEED));
    let mut out = vec![0u32; made.patches.len()];
    let rgb = black_box(&made.rgb[..]);
    let ours = || unsafe {
        let (from, to) = (rgb.as_ptr(), out.as_mut_ptr());
        black_box(kz_preprocess(
            s,
            from,
            rgb.len(),
            height,
            width,
            to,
            out.len(),
        ));
    };
    let other = || {
        black_box(preprocess_in_rust(s, rgb, [height, width]));
    };
    let [ours, other] = fastest(ours, other);
    assert!(out == made.patches, "the patches differ");
    let name = format!("preprocess {height}x{width}");
    println!(
        "{name:24}{ours:10.2}{other:10.2}   {:.2} times as fast",
        other / ours
    );
}

fn bench_restore(s: Settings, sides: Sides) {
    let made = picture(s, sides, Fill::Random(SEED));
    let mut out = vec![0u8; made.resized.len()];
    let patches = black_box(&made.patches[..]);
    let ours = || unsafe {
        let (from, to) = (patches.as_ptr(), out.as_mut_ptr());
        let [grid_h, grid_w] = made.grid;
        black_box(kz_restore(
            s,
            from,
            patches.len(),
            grid_h,
            grid_w,
            to,
            out.len(),
        ));
    };
    let [ours, _] = fastest(ours, || {});
    assert!(out == made.resized, "the bytes are not the resized ones");
    let name = format!("restore {}x{}", sides[0], sides[1]);
    let speed = out.len() as f64 / ours / 1e3;
    println!(
        "{name:24}{ours:10.2}{:>10}   {speed:.0} MB of RGB a second",
        "-"
    );
}

fn bench() {
    println!("{:24}{:>10}{:>10}", "milliseconds", "ours", "the Rust");
    let largest = [1540, 1540];
    bench_preprocess(USUAL, largest);
    bench_preprocess(USUAL, [1024, 768]);
    bench_restore(USUAL, largest);
    println!("means 0.2, deviations 0.25: grey ultrasound");
    bench_preprocess(USUAL.with(grey()), largest);
    bench_restore(USUAL.with(grey()), largest);
    println!("means 0.2, deviations 1e38: each byte is looked up by halving the table");
    bench_restore(USUAL.with(wide()), largest);
}

// --- The sample ---

/// What a record asks: preprocess into `out` cells, then restore of the buffer's first `floats`.
struct Asked {
    s: Settings,
    sides: Sides,
    rgb: usize,
    out: usize,
    seed: u32,
    grid: Sides,
    floats: usize,
    bytes: usize,
    /// As `sample::damage` numbers it.
    damage: usize,
    place: usize,
}

/// A record that both calls accept.
fn asked(s: Settings, sides: Sides, seed: u32) -> Asked {
    Asked {
        s,
        sides,
        rgb: sides[0] * sides[1] * 3,
        out: s.size(sides),
        seed,
        grid: s.grid(sides),
        floats: s.size(sides),
        bytes: s.size(sides),
        damage: 0,
        place: 0,
    }
}

impl Asked {
    /// The record's line, by the Rust and the paper's text alone.
    fn answered(&self) -> String {
        let (s, sides) = (self.s, self.sides);
        let table = Table::new(s.six);
        let mut cells: Vec<u32> = sample::marks().take(CELLS).collect();
        let mut report = [table.refused(s, Some(self.rgb), sides) as usize, 0, 0, 0];
        if report[0] == 0 {
            let made = picture(s, sides, Fill::Sample(self.seed));
            let n = made.patches.len();
            if self.out < n {
                report[0] = 5;
            } else {
                report = [0, made.grid[0], made.grid[1], n];
                cells[..n].copy_from_slice(&made.patches);
            }
        }
        let floats_hash = hash(&cells[..self.out]);
        sample::damage(&mut cells, self.damage, self.place);
        let mut whole = records::marked(self.bytes);
        let back = match restored(&table, s, &cells[..self.floats], self.grid, self.bytes) {
            Ok(bytes) => {
                whole[..bytes.len()].copy_from_slice(&bytes);
                [0, self.grid[0] * s.patch_size, self.grid[1] * s.patch_size]
            }
            Err(number) => [number as usize, 0, 0],
        };
        let mut list = vec![s.patch_size, s.spatial_merge_size, s.image_size];
        list.extend([sides[0], sides[1], self.rgb, self.out, self.seed as usize]);
        list.extend(report);
        list.push(floats_hash as usize);
        list.extend([self.grid[0], self.grid[1], self.floats, self.bytes]);
        list.extend([self.damage, self.place]);
        list.extend(back);
        list.push(records::hash_bytes(&whole));
        list.extend(records::end(s));
        sample::line(&list)
    }
}

/// Sides below, at and above each limit, under settings whose results have sides up to 64.
fn sample_pictures(random: &mut Random, list: &mut Vec<Asked>) {
    let settings = [
        of(1, 1, 1),
        of(1, 2, 2),
        of(1, 4, 4),
        of(1, 1, 64),
        of(2, 3, 13),
        of(3, 2, 20),
        of(4, 4, 64),
        of(5, 3, 50),
        of(7, 2, 60),
        of(14, 2, 28),
        of(14, 2, 56),
        of(14, 2, 1540),
        of(16, 4, 64),
        of(32, 1, 64),
        of(32, 2, 64),
    ];
    for s in settings {
        let (a, n) = (s.align(), s.image_size);
        let mut sides = vec![1, a - 1, a, a + 1, 2 * a, n - 1, n, n + 1, 17, 61, 64];
        sides.retain(|side| (1..=64).contains(side) && s.resized([*side, 1])[0] <= 64);
        for _ in 0..8 {
            let sides = [random.pick(&sides), random.pick(&sides)];
            let mut a = asked(s, sides, random.next() as u32);
            a.out += random.pick(&[0, 0, 1, 40]);
            a.bytes += random.pick(&[0, 0, 1, 40]);
            list.push(a);
        }
    }
}

/// A record that both calls accept, to be changed.
fn accepted(random: &mut Random, rule: usize) -> Asked {
    let s = random.pick(&[of(14, 2, 56), of(3, 2, 20), of(2, 1, 9), of(16, 4, 64)]);
    let sides = [1 + random.below(30), 1 + random.below(30)];
    asked(s.rule(rule), sides, random.next() as u32)
}

/// Each number of either call in several ways, each damage, and refusals that meet.
fn sample_refusals(random: &mut Random, list: &mut Vec<Asked>) {
    let mut from = |change: &dyn Fn(&mut Asked)| {
        let mut a = accepted(random, 1);
        change(&mut a);
        list.push(a);
    };
    for patch_size in [0, 33, MAX] {
        from(&|a| a.s.patch_size = patch_size);
    }
    for merge in [0, 5, MAX] {
        from(&|a| a.s.spatial_merge_size = merge);
    }
    for image in [0, 2049, MAX] {
        from(&|a| a.s.image_size = image);
    }
    for side in [0, 8193, 1 << 32, MAX] {
        from(&|a| a.sides[0] = side);
        from(&|a| a.sides[1] = side);
    }
    from(&|a| a.rgb += 1);
    from(&|a| a.rgb -= 1);
    from(&|a| a.rgb = 0);
    from(&|a| a.s.image_size = a.s.align() - 1);
    from(&|a| a.s = of(14, 2, 27));
    from(&|a| a.s = of(32, 4, 127));
    from(&|a| a.out -= 1);
    from(&|a| a.out = 0);
    for side in [0, 1 << 32, MAX] {
        from(&|a| a.grid[0] = side);
        from(&|a| a.grid[1] = side);
    }
    from(&|a| a.grid[0] = a.s.most() + 1);
    from(&|a| a.grid[1] = a.s.most() / a.s.spatial_merge_size * a.s.spatial_merge_size + 4);
    from(&|a| (a.s, a.grid) = (of(14, 2, 56), [2, 3]));
    from(&|a| a.floats += 1);
    from(&|a| a.floats -= 1);
    from(&|a| a.floats = 0);
    from(&|a| a.bytes -= 1);
    from(&|a| a.bytes = 0);
    for bit in 0..32 {
        from(&|a| (a.damage, a.place) = (1, (a.floats - 32) / 32 * bit / 31 * 32 + bit));
    }
    for damage in 2..=4 {
        from(&|a| (a.damage, a.place) = (damage, 0));
        from(&|a| (a.damage, a.place) = (damage, a.floats / 2));
        from(&|a| (a.damage, a.place) = (damage, a.floats - 1));
    }
    from(&|a| (a.s.patch_size, a.sides[0], a.rgb, a.grid[0]) = (0, 0, 1, 0));
    from(&|a| (a.sides[0], a.rgb, a.s.image_size, a.out) = (0, 1, 1, 0));
    from(&|a| (a.rgb, a.s.image_size, a.out) = (1, 1, 0));
    from(&|a| (a.s.image_size, a.out) = (1, 0));
    from(&|a| (a.grid[1], a.floats, a.bytes) = (0, 5, 0));
    from(&|a| (a.floats, a.bytes, a.damage) = (a.floats - 1, 0, 2));
    from(&|a| (a.bytes, a.damage) = (a.bytes - 1, 2));
}

/// Rule 2, with the longer side at the image size and above, at and beside the sides that it scales to
/// a whole number; each number of either call under it; and what is no rule.
fn sample_rules(random: &mut Random, list: &mut Vec<Asked>) {
    for (s, sides) in [
        (of(1, 1, 1), [64, 1]),
        (of(1, 1, 2), [64, 1]),
        (of(1, 1, 2), [1, 64]),
        (of(1, 1, 20), [20, 7]),
        (of(1, 1, 20), [21, 7]),
        (of(1, 1, 20), [7, 21]),
        (of(1, 1, 20), [40, 39]),
        (of(1, 1, 20), [20, 41]),
        (of(1, 2, 20), [39, 21]),
        (of(2, 3, 13), [64, 27]),
        (of(3, 2, 20), [1, 61]),
        (of(4, 4, 64), [64, 1]),
        (of(5, 3, 50), [61, 64]),
        (of(7, 2, 60), [64, 64]),
        (of(14, 2, 28), [17, 64]),
        (of(14, 2, 56), [64, 33]),
        (of(14, 2, 56), [34, 64]),
    ] {
        let mut a = asked(s.rule(2), sides, random.next() as u32);
        a.out += random.pick(&[0, 0, 1, 40]);
        a.bytes += random.pick(&[0, 0, 1, 40]);
        list.push(a);
    }
    let mut from = |change: &dyn Fn(&mut Asked)| {
        let mut a = accepted(random, 2);
        change(&mut a);
        list.push(a);
    };
    from(&|a| a.sides[0] = 0);
    from(&|a| a.rgb += 1);
    from(&|a| a.s.image_size = a.s.align() - 1);
    from(&|a| a.out -= 1);
    from(&|a| a.grid[0] = a.s.most() + 1);
    from(&|a| a.floats -= 1);
    from(&|a| a.bytes -= 1);
    from(&|a| (a.damage, a.place) = (1, a.floats / 2));
    for rule in [0, 3, MAX] {
        from(&|a| a.s.resize_rule = rule);
    }
    from(&|a| (a.s.resize_rule, a.sides[0], a.rgb, a.grid[0]) = (0, 0, 1, 0));
}

fn sample() -> std::io::Result<()> {
    let mut random = Random(SEED);
    let mut list = Vec::new();
    sample_pictures(&mut random, &mut list);
    sample_refusals(&mut random, &mut list);
    sample_rules(&mut random, &mut list);
    choices::sample(&mut random, &mut list);
    let mut out = std::io::stdout().lock();
    list.iter()
        .try_for_each(|a| writeln!(out, "{}", a.answered()))
}

fn main() {
    let words: Vec<String> = std::env::args().skip(1).collect();
    let words: Vec<&str> = words.iter().map(String::as_str).collect();
    let same = match words[..] {
        [] => edges_and_random(),
        ["--bench"] => {
            bench();
            true
        }
        ["--sample"] => sample().is_ok(),
        _ => one(&words),
    };
    std::process::exit(if same { 0 } else { 1 });
}
