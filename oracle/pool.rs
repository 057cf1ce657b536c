//! Compares libkyzgultam on a pool of token vectors with the text of 2026-13: the numbers, the bookkeeping,
//! and every float of the slice.
//!
//! The Rust has no pool. What a call answers follows the text: a map from keys to vectors, in the order of
//! adding. Beside it stands what docs/DECISIONS.md adds to the text: where the vectors lie, and which
//! bookkeepings are refused with 27 though the slice has their length. Each is held to the calls.
//!
//!     pool               edges, random sequences of calls with fixed seeds, damaged bookkeepings
//!     pool KIND SEED     one sequence, or `damaged` one bookkeeping, by the words in which a difference is printed
//!     pool --sample      prints the answers as crates/pool_replay/stdin holds them

use std::collections::BTreeMap;
use std::io::Write;

// What the other programs alone use of a file is no fault here.
#[allow(dead_code)]
#[path = "lent.rs"]
mod lent;
#[allow(dead_code)]
#[path = "sample.rs"]
mod sample;
use lent::{Differences, Lent};

const MAX: usize = usize::MAX;
const MOST: usize = 64;
/// Random sequences of each kind, and damaged bookkeepings.
const SEQUENCES: u64 = 1_000;
const CALLS: usize = 200;
const DAMAGED: u64 = 60_000;

#[repr(C)]
#[derive(Clone, Copy, Debug, Default, PartialEq)]
struct Held {
    key: u64,
    start: usize,
    len: usize,
}

#[repr(C)]
#[derive(Clone, Copy, Debug, PartialEq)]
struct Books {
    len: usize,
    count: usize,
    held: [Held; MOST],
}

#[repr(C)]
struct PoolReport {
    number: u32,
    pool: Books,
}

#[repr(C)]
#[derive(Clone, Copy, Debug, PartialEq)]
struct Place {
    number: u32,
    start: usize,
    len: usize,
}

extern "C" {
    fn kz_pool_new(len: usize) -> Books;
    fn kz_pool_add(
        p: Books,
        slice: *mut u32,
        len: usize,
        key: u64,
        from: *const u32,
        n: usize,
    ) -> PoolReport;
    fn kz_pool_find(p: Books, slice: *const u32, len: usize, key: u64) -> Place;
    fn kz_pool_drop(p: Books, slice: *const u32, len: usize, key: u64) -> PoolReport;
}

/// SplitMix64.
struct Random(u64);

impl Random {
    fn next(&mut self) -> u64 {
        self.0 = self.0.wrapping_add(0x9E37_79B9_7F4A_7C15);
        let mut z = self.0;
        z = (z ^ (z >> 30)).wrapping_mul(0xBF58_476D_1CE4_E5B9);
        z = (z ^ (z >> 27)).wrapping_mul(0x94D0_49BB_1331_11EB);
        z ^ (z >> 31)
    }

    fn below(&mut self, n: usize) -> usize {
        (self.next() % n as u64) as usize
    }

    fn pick<T: Copy>(&mut self, from: &[T]) -> T {
        from[self.below(from.len())]
    }

    /// Any bits, NaNs among them.
    fn words(&mut self, n: usize) -> Vec<u32> {
        (0..n).map(|_| self.next() as u32).collect()
    }
}

// --- The text ---

/// Keys with their vectors, in the order of adding, of a pool for so many floats.
struct Map {
    len: usize,
    held: Vec<(u64, Vec<u32>)>,
    added: usize,
    dropped: usize,
}

impl Map {
    fn new(len: usize) -> Map {
        Map {
            len,
            held: Vec::new(),
            added: 0,
            dropped: 0,
        }
    }

    fn place(&self, key: u64) -> Option<usize> {
        self.held.iter().position(|(held, _)| *held == key)
    }

    fn floats(&self) -> usize {
        self.held.iter().map(|(_, vectors)| vectors.len()).sum()
    }

    fn add(&mut self, lent: usize, key: u64, vectors: &[u32]) -> u32 {
        if lent != self.len {
            return 27;
        }
        if self.place(key).is_some() {
            return 23;
        }
        if vectors.is_empty() {
            return 24;
        }
        if self.held.len() == MOST || self.floats() + vectors.len() > self.len {
            return 25;
        }
        self.held.push((key, vectors.to_vec()));
        self.added += vectors.len();
        0
    }

    fn drop_key(&mut self, lent: usize, key: u64) -> u32 {
        if lent != self.len {
            return 27;
        }
        match self.place(key) {
            None => 26,
            Some(place) => {
                self.dropped += self.held.remove(place).1.len();
                0
            }
        }
    }
}

// --- What docs/DECISIONS.md adds: where the vectors lie ---

/// The bookkeeping, and what the slice holds.
#[derive(Clone)]
struct Layout {
    books: Books,
    cells: Vec<u32>,
    slides: u64,
}

impl Layout {
    fn made(&self, lent: usize) -> bool {
        let mut end = 0;
        self.books.len == lent
            && self.books.count <= MOST
            && self.books.held[..self.books.count].iter().all(|held| {
                let behind = held.start as u128 >= end;
                end = held.start as u128 + held.len as u128;
                behind && end <= lent as u128
            })
    }

    fn held(&self) -> &[Held] {
        &self.books.held[..self.books.count]
    }

    fn place(&self, key: u64) -> Option<usize> {
        self.held().iter().position(|held| held.key == key)
    }

    fn add(&mut self, lent: usize, key: u64, vectors: &[u32]) -> u32 {
        if !self.made(lent) {
            return 27;
        }
        if self.place(key).is_some() {
            return 23;
        }
        if vectors.is_empty() {
            return 24;
        }
        let floats: usize = self.held().iter().map(|held| held.len).sum();
        if self.books.count == MOST || floats + vectors.len() > lent {
            return 25;
        }
        let mut end = self.held().last().map_or(0, |held| held.start + held.len);
        if end + vectors.len() > lent {
            let old = self.cells.clone();
            end = 0;
            for held in &mut self.books.held[..self.books.count] {
                self.cells[end..end + held.len]
                    .copy_from_slice(&old[held.start..held.start + held.len]);
                held.start = end;
                end += held.len;
            }
            self.slides += 1;
        }
        self.cells[end..end + vectors.len()].copy_from_slice(vectors);
        self.books.held[self.books.count] = Held {
            key,
            start: end,
            len: vectors.len(),
        };
        self.books.count += 1;
        0
    }

    fn find(&self, lent: usize, key: u64) -> Place {
        let refused = |number| Place {
            number,
            start: 0,
            len: 0,
        };
        if !self.made(lent) {
            return refused(27);
        }
        match self.place(key) {
            None => refused(26),
            Some(place) => Place {
                number: 0,
                start: self.held()[place].start,
                len: self.held()[place].len,
            },
        }
    }

    fn drop_key(&mut self, lent: usize, key: u64) -> u32 {
        match self.find(lent, key).number {
            0 => {
                let place = self.place(key).expect("it was found");
                self.books
                    .held
                    .copy_within(place + 1..self.books.count, place);
                self.books.count -= 1;
                0
            }
            number => number,
        }
    }
}

// --- The comparison ---

/// A pool as the calls have it, and as the text and docs/DECISIONS.md have it.
struct Beside {
    ours: Books,
    slice: Lent<u32>,
    layout: Layout,
    /// None where no calls made the bookkeeping.
    map: Option<Map>,
}

impl Beside {
    fn new(cells: Vec<u32>) -> Beside {
        let len = cells.len();
        let ours = unsafe { kz_pool_new(len) };
        let books = Books {
            len,
            count: 0,
            held: [Held::default(); MOST],
        };
        let slice = Lent::new(&cells, len);
        Beside {
            ours,
            slice,
            layout: Layout {
                books,
                cells,
                slides: 0,
            },
            map: Some(Map::new(len)),
        }
    }

    /// A bookkeeping of which nothing is known.
    fn damaged(books: Books, cells: Vec<u32>) -> Beside {
        let slice = Lent::new(&cells, cells.len());
        Beside {
            ours: books,
            slice,
            layout: Layout {
                books,
                cells,
                slides: 0,
            },
            map: None,
        }
    }

    fn differs(&self) -> Option<String> {
        if self.ours != self.layout.books {
            let (a, b) = (self.ours, self.layout.books);
            let at = (0..MOST).find(|at| a.held[*at] != b.held[*at]);
            let entries =
                at.map(|at| format!(", held[{at}] {:?}, not {:?}", a.held[at], b.held[at]));
            let entries = entries.unwrap_or_default();
            return Some(format!(
                "the pool is len {} count {}, not {} {}{entries}",
                a.len, a.count, b.len, b.count
            ));
        }
        self.slice.differs("slice", &self.layout.cells)
    }

    fn number(&self, found: u32, layout: u32, map: Option<u32>) -> Option<String> {
        let right = map.unwrap_or(layout);
        (found != right || layout != right)
            .then(|| format!("the number is {found}, not {right} (placed: {layout})"))
    }

    fn add(&mut self, lent: usize, key: u64, vectors: &[u32]) -> (u32, Option<String>) {
        let mut from = Lent::new(vectors, vectors.len());
        let (slice, pointer) = (self.slice.pointer(), from.pointer());
        let report = unsafe { kz_pool_add(self.ours, slice, lent, key, pointer, vectors.len()) };
        self.ours = report.pool;
        let layout = self.layout.add(lent, key, vectors);
        let map = self.map.as_mut().map(|map| map.add(lent, key, vectors));
        let found = self.number(report.number, layout, map);
        (
            report.number,
            found
                .or_else(|| from.differs("vectors", vectors))
                .or_else(|| self.differs()),
        )
    }

    fn drop_key(&mut self, lent: usize, key: u64) -> (u32, Option<String>) {
        let report = unsafe { kz_pool_drop(self.ours, self.slice.pointer(), lent, key) };
        self.ours = report.pool;
        let layout = self.layout.drop_key(lent, key);
        let map = self.map.as_mut().map(|map| map.drop_key(lent, key));
        (
            report.number,
            self.number(report.number, layout, map)
                .or_else(|| self.differs()),
        )
    }

    fn find(&mut self, lent: usize, key: u64) -> (u32, Option<String>) {
        let found = unsafe { kz_pool_find(self.ours, self.slice.pointer(), lent, key) };
        let right = self.layout.find(lent, key);
        let mut what = (found != right).then(|| format!("found {found:?}, not {right:?}"));
        if let Some(map) = &self.map {
            let held = map.place(key).map(|place| &map.held[place].1[..]);
            let there = match found.number {
                0 => Some(&self.layout.cells[found.start..found.start + found.len]),
                _ => None,
            };
            if lent == map.len && held != there {
                what = what.or(Some(format!(
                    "the vectors of {key} are not those that were added"
                )));
            }
        }
        (found.number, what.or_else(|| self.differs()))
    }

    /// All keys of the map, in its order, and the floats that were added and not dropped.
    fn held(&self) -> Option<String> {
        let map = self.map.as_ref()?;
        let keys = self.ours.held[..self.ours.count]
            .iter()
            .map(|held| held.key);
        let floats: usize = self.ours.held[..self.ours.count]
            .iter()
            .map(|held| held.len)
            .sum();
        let same =
            keys.eq(map.held.iter().map(|(key, _)| *key)) && floats == map.added - map.dropped;
        (!same).then(|| "the keys or the floats held are others".to_string())
    }
}

#[derive(Default)]
struct Comparison {
    numbers: BTreeMap<u32, u64>,
    slides: u64,
    wrong: Differences,
}

impl Comparison {
    fn note(&mut self, (number, found): (u32, Option<String>), words: &dyn Fn() -> String) -> u32 {
        *self.numbers.entry(number).or_default() += 1;
        self.wrong.note(found, words);
        number
    }

    /// Every key that is held, and one that is not.
    fn finds(&mut self, pool: &mut Beside, unknown: u64, words: &dyn Fn() -> String) {
        let len = pool.layout.books.len;
        let keys: Vec<u64> = pool
            .layout
            .held()
            .iter()
            .map(|held| held.key)
            .chain([unknown])
            .collect();
        for key in keys {
            let found = pool.find(len, key);
            self.note(found, words);
        }
        self.wrong.note(pool.held(), words);
    }

    /// A random sequence of calls since new.
    fn sequence(&mut self, kind: u64, seed: u64) {
        let words = || format!("pool {kind} {seed}");
        let mut random = Random(seed.wrapping_mul(8).wrapping_add(kind));
        let len = match kind {
            0 => random.below(9),
            1 => 64 + random.below(40),
            _ => 1 + random.below(400),
        };
        let keys: Vec<u64> = match kind {
            1 => (0..80).collect(),
            _ => (0..1 + random.below(90))
                .map(|_| random.next() >> random.below(64))
                .chain([0, u64::MAX])
                .collect(),
        };
        let most = match kind {
            0 => 4,
            1 => 2,
            2 => 12,
            _ => len / 2 + 2,
        };
        let drops = [30, 8, 40, 45][kind as usize % 4];
        let cells = random.words(len);
        let mut pool = Beside::new(cells);
        self.wrong.note(pool.differs(), &words);
        for call in 0..CALLS {
            // Of the second kind most keys are new, so that the pool fills up.
            let key = match kind == 1 && random.below(4) != 0 {
                true => call as u64 % 80,
                false => random.pick(&keys),
            };
            let lent = match random.below(24) {
                0 => random.pick(&[0, len.saturating_sub(1), len]),
                _ => len,
            };
            let answer = match random.below(100) {
                share if share < drops => pool.drop_key(lent, key),
                share if share < drops + 5 => pool.find(lent, key),
                _ => {
                    let n = match random.below(10) {
                        0 => 0,
                        // What is left, one more, and one less.
                        1 | 2 if kind != 1 => {
                            let left = len - pool.map.as_ref().map_or(0, Map::floats);
                            (left + random.below(3)).saturating_sub(1)
                        }
                        _ if kind == 1 => 1,
                        _ => random.below(most + 1),
                    };
                    let vectors = random.words(n);
                    pool.add(lent, key, &vectors)
                }
            };
            self.note(answer, &words);
            if call % 7 == 0 {
                self.finds(&mut pool, random.next(), &words);
            }
        }
        self.finds(&mut pool, 1 << 63 | 12345, &words);
        self.slides += pool.layout.slides;
    }

    /// A bookkeeping with numbers of all sizes, and each call on it.
    fn damage(&mut self, seed: u64) {
        let words = || format!("pool damaged {seed}");
        let mut random = Random(!seed);
        let len = random.below(40);
        let mut books = Books {
            len,
            count: random.below(7),
            held: [Held::default(); MOST],
        };
        let edges = [
            0,
            1,
            len,
            len + 1,
            len.saturating_sub(1),
            MAX,
            MAX - 1,
            MAX - len,
            MAX / 2 + 1,
        ];
        let mut at = 0;
        for held in &mut books.held {
            let (start, n) = (at + random.below(3), random.below(4));
            *held = Held {
                key: random.next() % 8,
                start,
                len: n,
            };
            at = start + n;
        }
        for _ in 0..random.below(4) {
            let place = random.below(8);
            match random.below(6) {
                0 => books.count = random.pick(&[0, 63, 64, 65, 66, 1 << 32, MAX]),
                1 => books.len = random.pick(&edges),
                2 | 3 => books.held[place].start = random.pick(&edges),
                _ => books.held[place].len = random.pick(&edges),
            }
        }
        let cells = random.words(len);
        for call in 0..3 {
            let mut pool = Beside::damaged(books, cells.clone());
            let key = random.next() % 9;
            let answer = match call {
                0 => {
                    let n = random.below(len + 2);
                    let vectors = random.words(n);
                    pool.add(len, key, &vectors)
                }
                1 => pool.find(len, key),
                _ => pool.drop_key(len, key),
            };
            self.note(answer, &words);
            self.slides += pool.layout.slides;
        }
    }

    /// Sequences that are written here: the numbers and the places too.
    fn edges(&mut self) {
        let words = || "pool edges".to_string();
        let mut random = Random(1);
        // Every number where it meets those behind it.
        let cells = random.words(10);
        let mut pool = Beside::new(cells);
        let some = random.words(12);
        for (key, n, right) in [
            (7, 0, 24),
            (7, 11, 25),
            (7, 4, 0),
            (7, 0, 23),
            (7, 11, 23),
            (8, 0, 24),
            (8, 7, 25),
            (8, 6, 0),
            (9, 1, 25),
        ] {
            let answer = pool.add(10, key, &some[..n]);
            let found = self.note(answer, &words);
            assert_eq!(found, right, "add of {n} under {key}");
        }
        for lent in [0, 9] {
            for key in [7, 9] {
                let answers = [
                    pool.add(lent, key, &[]),
                    pool.find(lent, key),
                    pool.drop_key(lent, key),
                ];
                assert!(answers
                    .into_iter()
                    .all(|answer| self.note(answer, &words) == 27));
            }
        }
        for (key, right) in [(9, 26), (7, 0), (7, 26)] {
            let answer = pool.drop_key(10, key);
            assert_eq!(self.note(answer, &words), right, "drop of {key}");
        }
        // The room of 7 lies before 8: it is used by a slide, and by none where the room behind suffices.
        let answer = pool.add(10, 7, &some[..4]);
        assert_eq!(self.note(answer, &words), 0);
        assert_eq!(pool.layout.slides, 1);
        // Sixty-four of one float, every second dropped, and one in the room of all of these.
        let cells = random.words(MOST);
        let mut pool = Beside::new(cells);
        for key in 0..MOST as u64 {
            let answer = pool.add(MOST, key, &some[..1]);
            assert_eq!(self.note(answer, &words), 0);
        }
        let answer = pool.add(MOST, 64, &some[..1]);
        assert_eq!(self.note(answer, &words), 25);
        for key in (0..MOST as u64).step_by(2) {
            let answer = pool.drop_key(MOST, key);
            assert_eq!(self.note(answer, &words), 0);
        }
        let many = random.words(32);
        let answer = pool.add(MOST, 64, &many);
        assert_eq!(self.note(answer, &words), 0);
        self.finds(&mut pool, 0, &words);
        // Slides by every gap, over results longer and shorter than it.
        for gap in 1..20 {
            for n in [1, gap - 1, gap, gap + 1, 3 * gap, 50] {
                if n == 0 {
                    continue;
                }
                let len = gap + 3 * n;
                let cells = random.words(len);
                let mut pool = Beside::new(cells);
                let parts = [gap, n, n, n];
                for (key, part) in parts.into_iter().enumerate() {
                    let vectors = random.words(part);
                    let answer = pool.add(len, key as u64, &vectors);
                    self.note(answer, &words);
                }
                let answer = pool.drop_key(len, 0);
                self.note(answer, &words);
                let vectors = random.words(gap);
                let answer = pool.add(len, 9, &vectors);
                assert_eq!(self.note(answer, &words), 0);
                assert_eq!(pool.layout.slides, 1);
                self.finds(&mut pool, 0, &words);
                self.slides += pool.layout.slides;
            }
        }
        // A slice of none.
        let mut pool = Beside::new(Vec::new());
        let answers = [
            pool.add(0, 1, &[]),
            pool.add(0, 1, &some[..1]),
            pool.find(0, 0),
            pool.drop_key(0, 0),
        ];
        let numbers = answers.map(|answer| self.note(answer, &words));
        assert_eq!(numbers, [24, 25, 26, 26]);
    }

    fn all(mut self) -> bool {
        self.edges();
        for seed in 0..SEQUENCES {
            (0..4).for_each(|kind| self.sequence(kind, seed));
        }
        (0..DAMAGED).for_each(|seed| self.damage(seed));
        self.report()
    }

    /// Prints the differences and the counts, and says whether nothing differs.
    fn report(self) -> bool {
        self.wrong.print();
        eprintln!("pool: numbers {:?}", self.numbers);
        println!(
            "pool: {} calls, {} slides, compared with the text of the request; {} differ",
            self.numbers.values().sum::<u64>(),
            self.slides,
            self.wrong.count
        );
        self.wrong.count == 0
    }
}

// --- The sample ---

/// The cells of the replay's slice.
const ROOM: usize = 512;

/// The replay's floats: bits of whole numbers.
fn floats(seed: u32, n: usize) -> Vec<u32> {
    sample::states(seed)
        .take(n)
        .map(|x| (x as f32).to_bits())
        .collect()
}

/// A record: what is asked, and what is answered and left. The slice has ROOM cells, of which the call is lent n.
struct Sample<W> {
    to: W,
    layout: Layout,
}

impl<W: Write> Sample<W> {
    fn put(&mut self, asked: [usize; 5], found: Place) {
        let books = self.layout.books;
        let mut list = asked.to_vec();
        list.extend([found.number as usize, books.count, found.start, found.len]);
        list.push(sample::hash(&self.layout.cells) as usize);
        writeln!(self.to, "{}", sample::line(&list)).expect("standard output can be written");
    }

    /// A new pool for n floats, over a slice of the seed's floats.
    fn new_pool(&mut self, n: usize, seed: u32) {
        let books = Books {
            len: n,
            count: 0,
            held: [Held::default(); MOST],
        };
        self.layout = Layout {
            books,
            cells: floats(seed, ROOM),
            slides: 0,
        };
        self.put(
            [0, n, 0, 0, seed as usize],
            Place {
                number: 0,
                start: 0,
                len: 0,
            },
        );
    }

    fn add(&mut self, lent: usize, key: u64, n: usize, seed: u32) {
        let number = self.layout.add(lent, key, &floats(seed, n));
        self.put(
            [1, lent, key as usize, n, seed as usize],
            Place {
                number,
                start: 0,
                len: 0,
            },
        );
    }

    fn find(&mut self, lent: usize, key: u64) {
        let found = self.layout.find(lent, key);
        self.put([2, lent, key as usize, 0, 0], found);
    }

    fn drop_key(&mut self, lent: usize, key: u64) {
        let number = self.layout.drop_key(lent, key);
        self.put(
            [3, lent, key as usize, 0, 0],
            Place {
                number,
                start: 0,
                len: 0,
            },
        );
    }

    /// Damage: another count, and another entry.
    fn count(&mut self, count: usize) {
        self.layout.books.count = count;
        self.put(
            [4, 0, 0, count, 0],
            Place {
                number: 0,
                start: 0,
                len: 0,
            },
        );
    }

    fn entry(&mut self, at: usize, held: Held) {
        self.layout.books.held[at] = held;
        let asked = [5, at, held.key as usize, held.start, held.len];
        self.put(
            asked,
            Place {
                number: 0,
                start: 0,
                len: 0,
            },
        );
    }
}

fn sample() {
    let books = Books {
        len: 0,
        count: 0,
        held: [Held::default(); MOST],
    };
    let layout = Layout {
        books,
        cells: Vec::new(),
        slides: 0,
    };
    let mut list = Sample {
        to: std::io::stdout().lock(),
        layout,
    };
    let mut random = Random(13);
    // Random sequences: short and long slices, small and large results.
    for (len, most, keys, drops, calls) in [
        (12, 5, 6, 30, 70),
        (200, 40, 12, 35, 110),
        (ROOM, 8, 90, 12, 160),
        (70, 1, 90, 10, 130),
        (ROOM, 200, 8, 40, 90),
    ] {
        list.new_pool(len, random.next() as u32);
        for _ in 0..calls {
            let key = random.below(keys) as u64;
            let lent = if random.below(20) == 0 {
                random.below(ROOM + 1)
            } else {
                len
            };
            match random.below(100) {
                share if share < drops => list.drop_key(lent, key),
                share if share < drops + 12 => list.find(lent, key),
                _ => list.add(lent, key, random.below(most + 1), random.next() as u32),
            }
        }
        for key in 0..keys.min(9) as u64 {
            list.find(len, key);
        }
    }
    // A slide over neighbours, by every length of gap.
    for gap in [1, 2, 5, 17] {
        list.new_pool(3 * 9 + gap, gap as u32);
        for (key, n) in [(1, gap), (2, 9), (u64::MAX, 9), (4, 9)] {
            list.add(3 * 9 + gap, key, n, key as u32);
        }
        list.drop_key(3 * 9 + gap, 1);
        list.add(3 * 9 + gap, 1, gap, 99);
        [1, 2, u64::MAX, 4]
            .into_iter()
            .for_each(|key| list.find(3 * 9 + gap, key));
    }
    // Bookkeepings that no calls make.
    for (at, held) in [
        (
            0,
            Held {
                key: 1,
                start: 40,
                len: 1,
            },
        ),
        (
            0,
            Held {
                key: 1,
                start: 41,
                len: 0,
            },
        ),
        (
            0,
            Held {
                key: 1,
                start: MAX,
                len: 1,
            },
        ),
        (
            1,
            Held {
                key: 2,
                start: 9,
                len: 5,
            },
        ),
        (
            1,
            Held {
                key: 2,
                start: 10,
                len: 31,
            },
        ),
        (
            1,
            Held {
                key: 2,
                start: 2,
                len: MAX,
            },
        ),
        (
            1,
            Held {
                key: 1,
                start: 12,
                len: 5,
            },
        ),
        (
            2,
            Held {
                key: 3,
                start: 99,
                len: 99,
            },
        ),
    ] {
        list.new_pool(40, 5);
        list.add(40, 1, 10, 6);
        list.add(40, 2, 10, 7);
        list.entry(at, held);
        list.find(40, 1);
        list.add(40, 8, 25, 8);
        list.drop_key(40, 1);
        list.find(40, 1);
        for count in [64, 65, MAX, 0, 2] {
            list.count(count);
            list.find(40, 2);
        }
        list.add(40, 9, 3, 9);
    }
}

fn main() {
    let words: Vec<String> = std::env::args().skip(1).collect();
    let words: Vec<&str> = words.iter().map(String::as_str).collect();
    let mut all = Comparison::default();
    let same = match words[..] {
        [] => all.all(),
        ["--sample"] => {
            sample();
            true
        }
        [kind, seed] => {
            let seed = seed.parse().expect("a seed is a number");
            match kind.parse() {
                Ok(kind) => all.sequence(kind, seed),
                Err(_) => all.damage(seed),
            }
            all.report()
        }
        _ => {
            eprintln!("usage: pool [KIND SEED | damaged SEED | --sample]");
            std::process::exit(2);
        }
    };
    std::process::exit(if same { 0 } else { 1 });
}
