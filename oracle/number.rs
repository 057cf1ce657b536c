//! Compares libnumber with the Rust on the five number rules and on packed bf16, bit for bit.
//!
//! `half_to_f32` and `truncate_to_bf16_inplace` are the Rust's own, cut from its source; the root is
//! `f32::sqrt`. E and T stand in for the Rust's calls of `exp` and `tanh`, so there is nothing to cut:
//! they follow the rules' text (rules.rs). Of every pattern that is compared it is asked too that T is 0 of the zeros
//! alone, of a subnormal that subnormal, and that 1 + T, which is what gelu takes of it, is what it was with T of 01.
//!
//! What is packed is the upper half of the Rust's own rounded value, and widened the value that it is the half of.
//!
//!     number            every half and every packed value; of the others the edges and a random run with a fixed seed
//!     number --all      every half and every packed value; of the others all 2^32 patterns, on two threads
//!     number --sample   prints the Rust's answers as crates/number_replay/stdin holds them
//!     number --errors   prints how far T is from the hyperbolic tangent, by decade (errors.rs)

mod errors;
mod fewer;
mod rules;

use rules::{exp_rule, l, tanh_before, tanh_rule};
use std::collections::HashSet;
use std::hint::black_box;
use std::io::Write;

include!(env!("KZ_CUT"));

extern "C" {
    fn kz_bf16(x: u32) -> u32;
    fn kz_half(h: u16) -> u32;
    fn kz_root(x: u32) -> u32;
    fn kz_exp(x: u32) -> u32;
    fn kz_tanh(x: u32) -> u32;
    fn kz_bf16_pack(x: u32) -> u16;
    fn kz_bf16_widen(b: u16) -> u32;
    fn kz_bf16_pack_all(x: *const u32, x_len: usize, out: *mut u16, out_len: usize) -> usize;
    fn kz_bf16_widen_all(b: *const u16, b_len: usize, out: *mut u32, out_len: usize) -> usize;
}

/// Random patterns of each rule but half in the default run.
const RANDOM: usize = 60_000_000;
/// Records of each rule in the sample, and the most of them that are edges.
const SAMPLE: usize = 1_000;
const SAMPLE_EDGES: usize = 700;
/// Differences that are printed.
const SHOWN: usize = 20;

const NAN: u32 = 0x7FC0_0000;
const INFINITY: u32 = 0x7F80_0000;
const SIGN: u32 = 0x8000_0000;

// --- The rules ---

/// The f32 with pattern `x`. A move that changed a signalling NaN would make the comparison void.
fn value(x: u32) -> f32 {
    let v = black_box(f32::from_bits(x));
    assert_eq!(v.to_bits(), x, "this machine's f32 moves change bits");
    v
}

fn bits(v: f32) -> u32 {
    if v.is_nan() {
        NAN
    } else {
        v.to_bits()
    }
}

fn bf16(x: u32) -> u32 {
    let mut v = [value(x)];
    truncate_to_bf16_inplace(&mut v);
    v[0].to_bits()
}

fn half(x: u32) -> u32 {
    half_to_f32(x as u16).to_bits()
}

fn root(x: u32) -> u32 {
    bits(value(x).sqrt())
}

fn exp(x: u32) -> u32 {
    bits(exp_rule(value(x)))
}

fn tanh(y: u32) -> u32 {
    let t = bits(tanh_rule(value(y)));
    let size = y & !SIGN;
    assert!(t & !SIGN != 0 || size == 0, "T of {y:08x} is 0");
    assert!(t == y || size >= 0x0080_0000, "T of {y:08x} is not that subnormal");
    let before = bits(tanh_before(value(y)));
    let plus_one = |t: u32| bits(1.0 + value(t));
    assert!(t == before || plus_one(t) == plus_one(before), "gelu at T of {y:08x} is not what it was");
    t
}

struct Rule {
    name: &'static str,
    letter: char,
    ours: fn(u32) -> u32,
    rust: fn(u32) -> u32,
    /// Takes a random word to an input at which the rule has work to do.
    busy: fn(u32) -> u32,
}

const HALF: Rule = Rule {
    name: "half",
    letter: 'h',
    ours: |x| unsafe { kz_half(x as u16) },
    rust: half,
    busy: |u| u & 0xFFFF,
};

const BF16: Rule = Rule {
    name: "bf16",
    letter: 'b',
    ours: |x| unsafe { kz_bf16(x) },
    rust: bf16,
    busy: |u| u,
};

const ROOT: Rule = Rule {
    name: "root",
    letter: 'r',
    ours: |x| unsafe { kz_root(x) },
    rust: root,
    busy: |u| u & !SIGN,
};

const EXP: Rule = Rule {
    name: "exp",
    letter: 'e',
    ours: |x| unsafe { kz_exp(x) },
    rust: exp,
    busy: |u| between(u, -104.0, 89.0),
};

const TANH: Rule = Rule {
    name: "tanh",
    letter: 't',
    ours: |x| unsafe { kz_tanh(x) },
    rust: tanh,
    busy: |u| between(u, -10.0, 10.0),
};

const PACK: Rule = Rule {
    name: "pack",
    letter: 'p',
    ours: |x| unsafe { u32::from(kz_bf16_pack(x)) },
    rust: |x| bf16(x) >> 16,
    busy: |u| u,
};

const WIDEN: Rule = Rule {
    name: "widen",
    letter: 'w',
    ours: |x| unsafe { kz_bf16_widen(x as u16) },
    rust: |x| x << 16,
    busy: |u| u & 0xFFFF,
};

const WIDE: [Rule; 5] = [BF16, ROOT, EXP, TANH, PACK];
/// Those of 16 bits.
const SHORT: [Rule; 2] = [HALF, WIDEN];

fn between(u: u32, low: f64, high: f64) -> u32 {
    ((low + (high - low) * (f64::from(u) / 4_294_967_296.0)) as f32).to_bits()
}

// --- The inputs ---

/// The patterns up to `reach` places from `x`'s below the sign, with either sign.
fn around(x: u32, reach: u32, to: &mut Vec<u32>) {
    let size = x & !SIGN;
    for near in size.saturating_sub(reach)..=(size + reach).min(!SIGN) {
        to.push(near);
        to.push(near | SIGN);
    }
}

/// Zeros, infinities, NaNs, and the numbers at which a rule changes its way or its answer its kind.
fn special() -> Vec<u32> {
    let mut to = Vec::new();
    around(0, 3, &mut to);
    around(INFINITY, 3, &mut to);
    around(0x7FFF_FFFF, 3, &mut to);
    for quiet in [0x7FC0_0000, 0x7FC0_0001, 0x7FD5_5555, 0x7FFF_0000] {
        around(quiet, 1, &mut to);
    }
    for signalling in [0x7F80_8000, 0x7FA0_0000, 0x7FBF_FFFF] {
        around(signalling, 1, &mut to);
    }
    // a bf16 that goes up into infinity, ties at an even and at an odd place, and a NaN that wraps
    for tie in [0x7F7F_8000, 0x3F80_8000, 0x3F81_8000, 0x7FFF_8000] {
        around(tie, 1, &mut to);
    }
    for threshold in [89.0f32, 104.0, 10.0] {
        around(threshold.to_bits(), 3, &mut to);
    }
    // E reaches infinity, and below zero the subnormals, the smallest of them and half of it
    for size in [88.722_84_f32, 87.336_55, 103.278_93, 103.972_08] {
        around(size.to_bits(), 8, &mut to);
    }
    for n in 1..=20u8 {
        around((f32::from(n) * f32::from(n)).to_bits(), 1, &mut to);
    }
    to
}

/// Every power of two that is an f32, and infinity's place after the last.
fn powers() -> Vec<u32> {
    let mut to = Vec::new();
    for place in 0..23 {
        around(1 << place, 2, &mut to);
    }
    for exponent in 1..=255 {
        around(exponent << 23, 2, &mut to);
    }
    to
}

/// Where the k of E, or of T, goes on by one: the odd multiples of L/2, or of L/4.
fn steps() -> Vec<u32> {
    let mut to = Vec::new();
    for k in 0..=151 {
        let middle = (f64::from(k) + 0.5) * l();
        around((middle as f32).to_bits(), 2, &mut to);
        around(((middle / 2.0) as f32).to_bits(), 2, &mut to);
    }
    to
}

/// Every upper half with lower halves around a tie of bf16, and exact squares with their neighbours.
fn dense() -> Vec<u32> {
    let mut to = Vec::new();
    for upper in 0..=0xFFFFu32 {
        for lower in [0, 1, 0x7FFF, 0x8000, 0x8001, 0xFFFF] {
            to.push(upper << 16 | lower);
        }
    }
    for n in 1..=4096u16 {
        around((f32::from(n) * f32::from(n)).to_bits(), 1, &mut to);
    }
    to
}

/// The list with the first of equal inputs alone.
fn once(list: Vec<u32>) -> Vec<u32> {
    let mut seen = HashSet::new();
    list.into_iter().filter(|x| seen.insert(*x)).collect()
}

/// The edges among the halves.
fn half_edges() -> Vec<u32> {
    let mut to = Vec::new();
    let places = (0..10).map(|place| 1 << place);
    let exponents = (0..=31).map(|exponent| exponent << 10);
    let others = [0x03FF, 0x3555, 0x7BFF, 0x7D55, 0x7E00, 0x7FFF];
    for size in places.chain(exponents).chain(others) {
        for near in i32::max(size - 2, 0)..=i32::min(size + 2, 0x7FFF) {
            to.push(near as u32);
            to.push(near as u32 | 0x8000);
        }
    }
    to
}

/// SplitMix64 from a fixed seed; the upper half of each word.
struct Random(u64);

impl Random {
    fn new() -> Self {
        Random(0x6B79_7A67_756C_7461)
    }

    fn next(&mut self) -> u32 {
        self.0 = self.0.wrapping_add(0x9E37_79B9_7F4A_7C15);
        let mut z = self.0;
        z = (z ^ (z >> 30)).wrapping_mul(0xBF58_476D_1CE4_E5B9);
        z = (z ^ (z >> 27)).wrapping_mul(0x94D0_49BB_1331_11EB);
        ((z ^ (z >> 31)) >> 32) as u32
    }
}

// --- The comparison ---

struct Difference {
    rule: &'static str,
    input: u32,
    ours: u32,
    rust: u32,
}

#[derive(Default)]
struct Tally {
    compared: u64,
    differ: u64,
    first: Vec<Difference>,
}

impl Tally {
    fn compare(&mut self, rule: &Rule, input: u32) {
        let (ours, rust) = ((rule.ours)(input), (rule.rust)(input));
        self.compared += 1;
        if ours != rust {
            self.differ += 1;
            if self.first.len() < SHOWN {
                self.first.push(Difference {
                    rule: rule.name,
                    input,
                    ours,
                    rust,
                });
            }
        }
    }

    fn join(mut self, other: Tally) -> Tally {
        self.compared += other.compared;
        self.differ += other.differ;
        self.first.extend(other.first);
        self.first.sort_by_key(|d| d.input);
        self.first.truncate(SHOWN);
        self
    }
}

fn every_short(rule: &Rule) -> Tally {
    let mut tally = Tally::default();
    for x in 0..=0xFFFF {
        tally.compare(rule, x);
    }
    tally
}

/// Packs and widens slices of every two lengths up to some, and of a few longer ones, at every place in a line of memory:
/// the values, the count, and what stands before and behind them. How many calls were made, and how many differ.
fn slices() -> (u64, u64) {
    let mut random = Random::new();
    let patterns: Vec<u32> = (0..5000).map(|_| random.next()).collect();
    let packed: Vec<u16> = patterns.iter().map(|x| (bf16(*x) >> 16) as u16).collect();
    let lengths = || (0..70).chain([255, 256, 257, 1000, 4095, 4096, 4097]);
    let (mut calls, mut differ) = (0, 0);
    for (len, room) in lengths().flat_map(|len| lengths().map(move |room| (len, room))) {
        let (from, to) = (random.next() as usize % 33, random.next() as usize % 33);
        let count = len.min(room);
        let mut narrow = vec![0xA5A5u16; to + room + 33];
        let mut right = narrow.clone();
        right[to..to + count].copy_from_slice(&packed[from..from + count]);
        let x = &patterns[from..from + len];
        let found = unsafe { kz_bf16_pack_all(x.as_ptr(), len, narrow[to..].as_mut_ptr(), room) };
        differ += u64::from(found != count || narrow != right);
        let mut wide = vec![0xA5A5_5A5Au32; to + room + 33];
        let mut right = wide.clone();
        for (right, b) in right[to..to + count].iter_mut().zip(&packed[from..]) {
            *right = u32::from(*b) << 16;
        }
        let b = &packed[from..from + len];
        let found = unsafe { kz_bf16_widen_all(b.as_ptr(), len, wide[to..].as_mut_ptr(), room) };
        differ += u64::from(found != count || wide != right);
        calls += 2;
    }
    (calls, differ)
}

fn edges_and_random(rule: &Rule) -> Tally {
    let mut tally = Tally::default();
    for x in once([special(), powers(), steps(), dense()].concat()) {
        tally.compare(rule, x);
    }
    let mut random = Random::new();
    for _ in 0..fewer::fewer(RANDOM) / 2 {
        tally.compare(rule, random.next());
        tally.compare(rule, (rule.busy)(random.next()));
    }
    tally
}

fn every_second(rule: &Rule, from: u32) -> Tally {
    let mut tally = Tally::default();
    let mut x = from;
    loop {
        tally.compare(rule, x);
        match x.checked_add(2) {
            Some(next) => x = next,
            None => return tally,
        }
    }
}

fn every_pattern(rule: &Rule) -> Tally {
    std::thread::scope(|threads| {
        let odd = threads.spawn(|| every_second(rule, 1));
        let even = every_second(rule, 0);
        even.join(odd.join().expect("the other thread stopped"))
    })
}

/// Prints the differences and the counts, and says whether nothing differs.
fn report(short: [Tally; 2], wide: [Tally; 5]) -> bool {
    let (calls, other) = slices();
    let [half, widen] = &short;
    let [bf16, root, exp, tanh, pack] = &wide;
    let all = [half, bf16, root, exp, tanh, pack, widen];
    let differ = all.iter().map(|t| t.differ).sum::<u64>() + other;
    for d in all.iter().flat_map(|t| &t.first).take(SHOWN) {
        println!(
            "{} {:08x}: ours {:08x}, the Rust's {:08x}",
            d.rule, d.input, d.ours, d.rust
        );
    }
    if other > 0 {
        println!("slices: {other} of {calls} differ");
    }
    println!(
        "number: half {}, bf16 {}, root {}, exp {}, tanh {}, pack {}, widen {}, {calls} slices compared with the Rust; \
         {differ} differ",
        half.compared,
        bf16.compared,
        root.compared,
        exp.compared,
        tanh.compared,
        pack.compared,
        widen.compared
    );
    differ == 0
}

// --- The sample ---

/// `first` whole, then others of the edges, then random inputs. The edges come in groups of ten, so a
/// prime stride through them meets every distance and both signs.
fn sample_inputs(rule: &Rule, first: Vec<u32>, rest: Vec<u32>) -> Vec<u32> {
    let spread = (0..rest.len()).map(|i| rest[i * 7919 % rest.len()]);
    let mut inputs = once(first.into_iter().chain(spread).collect());
    inputs.truncate(SAMPLE_EDGES);
    let mut random = Random::new();
    while inputs.len() < SAMPLE {
        inputs.push((rule.busy)(random.next()));
    }
    inputs
}

fn sample() -> std::io::Result<()> {
    let mut out = std::io::stdout().lock();
    let mut print = |rule: &Rule, first, rest| {
        for x in sample_inputs(rule, first, rest) {
            writeln!(out, "{} {:08x} {:08x}", rule.letter, x, (rule.rust)(x))?;
        }
        Ok(())
    };
    print(&BF16, special(), powers())?;
    print(&HALF, Vec::new(), half_edges())?;
    print(&ROOT, special(), powers())?;
    let both = || [steps(), powers()].concat();
    print(&EXP, special(), both())?;
    print(&TANH, special(), both())?;
    print(&PACK, special(), powers())?;
    print(&WIDEN, Vec::new(), half_edges())
}

fn main() {
    let words: Vec<String> = std::env::args().skip(1).collect();
    let words: Vec<&str> = words.iter().map(String::as_str).collect();
    let same = match words[..] {
        [] => report(SHORT.each_ref().map(every_short), WIDE.each_ref().map(edges_and_random)),
        ["--all"] => report(SHORT.each_ref().map(every_short), WIDE.each_ref().map(every_pattern)),
        ["--sample"] => sample().is_ok(),
        ["--errors"] => {
            errors::print(TANH.ours);
            true
        }
        _ => {
            eprintln!("usage: number [--all | --sample | --errors]");
            std::process::exit(2);
        }
    };
    std::process::exit(if same { 0 } else { 1 });
}
