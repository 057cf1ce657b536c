//! Compares libkyzgultam's kz_forward, kz_forward_axes and kz_forward_plain with the Rust, byte for byte, and kz_lengths
//! with the text of the paper.
//!
//! The Rust's `PixtralEncoder::forward`, the types and all that it calls are cut from its source, with E and T in the
//! place of the platform's exp and tanh (`run` does it), one thread, and no log and no progress bar. The Rust has no
//! bias: right behind its linear_1 and its linear_2 `run` puts a call of `add_bias`, stated here from the text of
//! 2026-03, which does nothing where a call has none. The order of stages that are examined for finite values, and the
//! refusals, are stated here from the text of the paper; what the stages come to is compared with the Rust's forward
//! too. Each call is made twice, with 01's means and deviations and with others, between which forward and lengths make
//! no difference.
//!
//!     encoder            edges, a call for each stage (stages.rs), calls by small tables (axes.rs) and with
//!                        plain attention (plain.rs), and random calls with a fixed seed, with KZ_FEWER
//!                        a tenth of them (fewer.rs)
//!     encoder --bench    times ours and the Rust, on one thread (bench.rs); with --quick, on
//!                        small grids alone, with --large, on these and 64x64, with one layer
//!     encoder --sample   prints the Rust's answers as crates/encoder_replay/stdin holds them

use std::collections::{BTreeMap, BTreeSet};
use std::io::Write;

#[path = "axes.rs"]
mod axes;
#[path = "bench.rs"]
mod bench;
#[path = "fewer.rs"]
mod fewer;
#[path = "plain.rs"]
mod plain;
mod rules;
#[path = "sample.rs"]
mod sample;
#[path = "stages.rs"]
mod stages;

#[allow(dead_code)]
mod rust {
    use super::rules::{exp_rule, tanh_rule};

    // What stands in the place of what is not cut: the settings that forward reads, the error, log lines and the
    // progress bar.
    pub struct PixtralVisionConfig {
        pub hidden_size: usize,
        pub patch_size: usize,
        pub spatial_merge_size: usize,
    }

    #[derive(Debug)]
    pub enum HerbertError {
        Backend(String),
    }

    type Result<T> = std::result::Result<T, HerbertError>;

    macro_rules! debug {
        ($($words:tt)*) => {};
    }

    mod indicatif {
        pub struct ProgressStyle;
        impl ProgressStyle {
            pub fn with_template(_: &str) -> Option<Self> {
                Some(Self)
            }
            pub fn progress_chars(self, _: &str) -> Self {
                self
            }
        }
        pub struct ProgressBar;
        impl ProgressBar {
            pub fn new(_: u64) -> Self {
                Self
            }
            pub fn set_style(&self, _: ProgressStyle) {}
            pub fn set_message(&self, _: String) {}
            pub fn set_position(&self, _: u64) {}
            pub fn finish_and_clear(&self) {}
        }
    }

    fn num_threads() -> usize {
        1
    }

    #[derive(Clone, Copy)]
    struct SendMutPtr(*mut f32);
    unsafe impl Send for SendMutPtr {}
    unsafe impl Sync for SendMutPtr {}
    impl SendMutPtr {
        unsafe fn write(self, offset: usize, val: f32) {
            *self.0.add(offset) = val;
        }
    }

    /// A linear layer's bias, where it has one: each finished sum plus its own.
    fn add_bias(bias: &Option<Vec<f32>>, rows: &mut [f32]) {
        if let Some(bias) = bias {
            rows.chunks_mut(bias.len()).for_each(|row| row.iter_mut().zip(bias).for_each(|(x, b)| *x += b));
        }
    }

    include!(env!("KZ_CUT"));

    /// The functions that the stages call, which the Rust keeps to itself.
    pub mod open {
        use super::*;
        pub fn bf16(x: &mut [f32]) {
            truncate_to_bf16_inplace(x)
        }
        pub fn norm(x: &[f32], n: &RmsNorm) -> Vec<f32> {
            let mut y = vec![0.0; x.len()];
            rms_norm(x, n, &mut y);
            y
        }
        pub fn linear(x: &[f32], l: &LinearNoBias) -> Vec<f32> {
            let mut y = vec![0.0; x.len() / l.in_f * l.out_f];
            linear_no_bias_forward(x, l, &mut y);
            y
        }
        pub fn biased(mut y: Vec<f32>, bias: &Option<Vec<f32>>) -> Vec<f32> {
            add_bias(bias, &mut y);
            y
        }
        pub fn rotate(x: &mut [f32], cos: &[f32], sin: &[f32]) {
            rotate_half_inplace(x, cos, sin)
        }
        pub fn gate(g: f32, u: f32) -> f32 {
            silu(g) * u
        }
        pub fn gelu(x: &mut [f32]) {
            gelu_inplace(x)
        }
        pub fn rope(max_patches: usize, head_dim: usize, theta: f32) -> (Vec<f32>, Vec<f32>) {
            precompute_2d_rope(max_patches, head_dim, theta)
        }
        pub fn attention(a: &PixtralAttention, h: &[f32], c: &[f32], s: &[f32], p: &[usize]) -> Vec<f32> {
            let mut y = vec![0.0; h.len()];
            pixtral_attention_forward(a, h, c, s, p, p.len(), &mut y);
            y
        }
    }
}

use rust::open;
use rust::{LinearNoBias, MultiModalProjector, PixtralAttention, PixtralBlock, PixtralEncoder, PixtralMLP};
use rust::{PixtralOutput, PixtralVisionConfig, RmsNorm};

#[repr(C)]
#[derive(Clone, Copy, Debug)]
struct Settings {
    patch_size: usize,
    spatial_merge_size: usize,
    image_size: usize,
    resize_rule: usize,
    /// Three means and three deviations, by their bits: forward and lengths do not read them.
    six: [u32; 6],
    hidden_size: usize,
    num_heads: usize,
    head_dim: usize,
    num_layers: usize,
    intermediate_size: usize,
    text_hidden_size: usize,
    projector_bias: usize,
    scaling: f32,
}

#[repr(C)]
#[derive(Debug, PartialEq)]
struct Report {
    number: u32,
    tokens: usize,
}

#[repr(C)]
#[derive(Debug, Default, PartialEq)]
struct Lengths {
    number: u32,
    patches: usize,
    weights: usize,
    /// Of each full table, and of each of the four small ones.
    tables: usize,
    axes: usize,
    scratch: usize,
    out: usize,
}

#[link(name = "kyzgultam", kind = "static")]
extern "C" {
    fn kz_lengths(s: Settings, grid_h: usize, grid_w: usize) -> Lengths;
    fn kz_forward(
        s: Settings,
        patches: *const f32,
        patches_len: usize,
        grid_h: usize,
        grid_w: usize,
        weights: *const f32,
        weights_len: usize,
        rope_cos: *const f32,
        rope_cos_len: usize,
        rope_sin: *const f32,
        rope_sin_len: usize,
        scratch: *mut f32,
        scratch_len: usize,
        out: *mut f32,
        out_len: usize,
    ) -> Report;
    fn kz_forward_axes(
        s: Settings,
        patches: *const f32,
        patches_len: usize,
        grid_h: usize,
        grid_w: usize,
        weights: *const f32,
        weights_len: usize,
        row_cos: *const f32,
        row_cos_len: usize,
        row_sin: *const f32,
        row_sin_len: usize,
        column_cos: *const f32,
        column_cos_len: usize,
        column_sin: *const f32,
        column_sin_len: usize,
        scratch: *mut f32,
        scratch_len: usize,
        out: *mut f32,
        out_len: usize,
    ) -> Report;
}

const SEED: u64 = 88_172_645_463_325_252;
/// 01's means and deviations.
const OWN: [u32; 6] = [0x3EF6_813A, 0x3EEA_685E, 0x3ED1_00FF, 0x3E89_89D0, 0x3E85_C974, 0x3E8D_32A8];

struct Random(u64);

impl Random {
    fn next(&mut self) -> u64 {
        self.0 ^= self.0 << 13;
        self.0 ^= self.0 >> 7;
        self.0 ^= self.0 << 17;
        self.0
    }
    fn from(&mut self, low: usize, high: usize) -> usize {
        low + (self.next() % ((high - low + 1) as u64)) as usize
    }
    /// Between -size and size, now and then -0.
    fn float(&mut self, size: f32) -> f32 {
        let x = ((self.next() >> 40) as f32 / 8388608.0 - 1.0) * size;
        if self.next() % 50 == 0 { -0.0 } else { x }
    }
    fn floats(&mut self, n: usize, size: f32) -> Vec<f32> {
        (0..n).map(|_| self.float(size)).collect()
    }
}

#[derive(Clone, Debug)]
struct Call {
    s: Settings,
    grid: [usize; 2],
    patches: Vec<f32>,
    weights: Vec<f32>,
    cos: Vec<f32>,
    sin: Vec<f32>,
    scratch: Vec<f32>,
    out: Vec<f32>,
}

fn layer_floats(s: &Settings) -> usize {
    let (h, i) = (s.hidden_size, s.intermediate_size);
    2 * h + 4 * h * h + 3 * h * i
}

fn weight_floats(s: &Settings) -> usize {
    let (h, x, mm) = (s.hidden_size, s.text_hidden_size, s.spatial_merge_size * s.spatial_merge_size);
    let bias = if s.projector_bias == 1 { x } else { 0 };
    let projector = h + h * h * mm + (x * h + bias) + (x * x + bias);
    h * 3 * s.patch_size * s.patch_size + h + s.num_layers * layer_floats(s) + projector
}

fn scratch_floats(s: &Settings, t: usize, o: usize) -> usize {
    7 * t * s.hidden_size + 2 * t * s.intermediate_size + t + 2 * o * s.text_hidden_size
}

/// 1 and 6, or what the buffers' lengths are compared with.
fn lengths(s: &Settings, grid: [usize; 2]) -> Lengths {
    let allowed = (1..=32).contains(&s.patch_size)
        && (1..=4).contains(&s.spatial_merge_size)
        && (1..=2048).contains(&s.image_size)
        && (1..=2).contains(&s.resize_rule)
        && (4..=2048).contains(&s.hidden_size)
        && (1..=64).contains(&s.num_heads)
        && (4..=256).contains(&s.head_dim)
        && s.head_dim % 4 == 0
        && s.num_heads * s.head_dim == s.hidden_size
        && s.num_layers <= 48
        && (1..=8192).contains(&s.intermediate_size)
        && (1..=8192).contains(&s.text_hidden_size)
        && (0..=1).contains(&s.projector_bias)
        && s.scaling > 0.0
        && s.scaling < f32::INFINITY;
    if !allowed {
        return Lengths { number: 1, ..Lengths::default() };
    }
    let most = s.image_size / s.patch_size;
    if grid.iter().any(|g| !(1..=most).contains(g) || g % s.spatial_merge_size != 0) {
        return Lengths { number: 6, ..Lengths::default() };
    }
    let t = grid[0] * grid[1];
    let o = t / (s.spatial_merge_size * s.spatial_merge_size);
    Lengths {
        number: 0,
        patches: t * 3 * s.patch_size * s.patch_size,
        weights: weight_floats(s),
        tables: most * most * s.head_dim,
        axes: most * s.head_dim / 4,
        scratch: scratch_floats(s, t, o),
        out: o * s.text_hidden_size,
    }
}

/// 1, 6, 7, 9, 10, 5, 11, in that order; 0 where none applies.
fn refusal(c: &Call) -> u32 {
    let n = lengths(&c.s, c.grid);
    if n.number != 0 {
        return n.number;
    }
    if c.patches.len() != n.patches {
        return 7;
    }
    if c.weights.len() != n.weights {
        return 9;
    }
    if [&c.cos, &c.sin].iter().any(|table| table.len() != n.tables) {
        return 10;
    }
    if c.out.len() < n.out {
        return 5;
    }
    if c.scratch.len() < n.scratch {
        return 11;
    }
    0
}

/// The Rust's encoder of a call's settings, weights and tables.
fn model(c: &Call) -> PixtralEncoder {
    let s = &c.s;
    let (h, i, x) = (s.hidden_size, s.intermediate_size, s.text_hidden_size);
    let mut at = 0;
    let mut take = |n: usize| {
        at += n;
        c.weights[at - n..at].to_vec()
    };
    let norm = |weight| RmsNorm { weight, dim: h, eps: 1e-5 };
    let linear = |weight, out_f, in_f| LinearNoBias { weight, in_f, out_f };
    let f = 3 * s.patch_size * s.patch_size;
    let patch_conv = linear(take(h * f), h, f);
    let ln_pre = norm(take(h));
    let mut blocks = Vec::new();
    for _ in 0..s.num_layers {
        let attention_norm = norm(take(h));
        let attn = PixtralAttention {
            q_proj: linear(take(h * h), h, h),
            k_proj: linear(take(h * h), h, h),
            v_proj: linear(take(h * h), h, h),
            o_proj: linear(take(h * h), h, h),
            num_heads: s.num_heads,
            head_dim: s.head_dim,
            scaling: s.scaling,
        };
        let ffn_norm = norm(take(h));
        let ffn = PixtralMLP {
            gate_proj: linear(take(i * h), i, h),
            up_proj: linear(take(i * h), i, h),
            down_proj: linear(take(h * i), h, i),
        };
        blocks.push(PixtralBlock { attention_norm, attn, ffn_norm, ffn });
    }
    let wide = h * s.spatial_merge_size * s.spatial_merge_size;
    let biased = s.projector_bias == 1;
    let projector = MultiModalProjector {
        norm: norm(take(h)),
        merging_layer: linear(take(h * wide), h, wide),
        linear_1: linear(take(x * h), x, h),
        linear_1_bias: biased.then(|| take(x)),
        linear_2: linear(take(x * x), x, x),
        linear_2_bias: biased.then(|| take(x)),
        spatial_merge_size: s.spatial_merge_size,
    };
    PixtralEncoder {
        config: PixtralVisionConfig {
            hidden_size: h,
            patch_size: s.patch_size,
            spatial_merge_size: s.spatial_merge_size,
        },
        patch_conv,
        ln_pre,
        blocks,
        projector,
        rope_cos: c.cos.clone(),
        rope_sin: c.sin.clone(),
        max_patches_per_side: s.image_size / s.patch_size,
    }
}

fn positions(c: &Call) -> Vec<usize> {
    let most = c.s.image_size / c.s.patch_size;
    (0..c.grid[0]).flat_map(|h| (0..c.grid[1]).map(move |w| h * most + w)).collect()
}

/// The Rust's forward.
fn forward(c: &Call, m: &PixtralEncoder) -> PixtralOutput {
    m.forward(&c.patches, c.grid[0], c.grid[1]).expect("the Rust refuses what is not refused")
}

/// The rows by the stages one after another, or the name of the first at which a value is not finite; and the names
/// of those that were examined.
fn staged(c: &Call, m: &PixtralEncoder, examined: &mut Vec<&'static str>) -> Result<Vec<f32>, &'static str> {
    let mut fine = |name: &'static str, x: &[f32]| {
        examined.push(name);
        if x.iter().all(|v| v.is_finite()) { Ok(()) } else { Err(name) }
    };
    for (name, x) in [("patches", &c.patches), ("weights", &c.weights), ("cos", &c.cos), ("sin", &c.sin)] {
        fine(name, x)?;
    }
    let p = positions(c);
    let (d, dim, t) = (c.s.head_dim, c.s.hidden_size, p.len());
    let mut h = open::linear(&c.patches, &m.patch_conv);
    fine("patch projection", &h)?;
    open::bf16(&mut h);
    fine("its bf16", &h)?;
    h = open::norm(&h, &m.ln_pre);
    fine("ln_pre", &h)?;
    open::bf16(&mut h);
    fine("ln_pre's bf16", &h)?;
    for b in &m.blocks {
        let x = open::norm(&h, &b.attention_norm);
        fine("norm", &x)?;
        let mut q = open::linear(&x, &b.attn.q_proj);
        fine("q", &q)?;
        let mut k = open::linear(&x, &b.attn.k_proj);
        fine("k", &k)?;
        fine("v", &open::linear(&x, &b.attn.v_proj))?;
        for (i, at) in p.iter().enumerate() {
            let (cos, sin) = (&c.cos[at * d..(at + 1) * d], &c.sin[at * d..(at + 1) * d]);
            for head in 0..c.s.num_heads {
                let place = i * dim + head * d;
                open::rotate(&mut q[place..place + d], cos, sin);
                open::rotate(&mut k[place..place + d], cos, sin);
            }
        }
        fine("rotated q", &q)?;
        fine("rotated k", &k)?;
        let mut scores = Vec::new();
        for i in 0..t {
            for j in 0..t {
                for head in 0..c.s.num_heads {
                    let mut dot = 0.0f32;
                    for e in 0..d {
                        dot += q[i * dim + head * d + e] * k[j * dim + head * d + e];
                    }
                    scores.push(dot * c.s.scaling);
                }
            }
        }
        fine("scores", &scores)?;
        // The attention's sums, through an o that hands its input on.
        let mut one = vec![0.0; dim * dim];
        (0..dim).for_each(|i| one[i * dim + i] = 1.0);
        let through = |m: &LinearNoBias| LinearNoBias { weight: m.weight.clone(), in_f: m.in_f, out_f: m.out_f };
        let plain = PixtralAttention {
            q_proj: through(&b.attn.q_proj),
            k_proj: through(&b.attn.k_proj),
            v_proj: through(&b.attn.v_proj),
            o_proj: LinearNoBias { weight: one, in_f: dim, out_f: dim },
            ..b.attn
        };
        let sums = open::attention(&plain, &x, &c.cos, &c.sin, &p);
        fine("attention sums", &sums)?;
        let o = open::linear(&sums, &b.attn.o_proj);
        fine("o", &o)?;
        h.iter_mut().zip(&o).for_each(|(a, b)| *a += b);
        fine("residual", &h)?;
        let x = open::norm(&h, &b.ffn_norm);
        fine("second norm", &x)?;
        let g = open::linear(&x, &b.ffn.gate_proj);
        fine("gate", &g)?;
        let u = open::linear(&x, &b.ffn.up_proj);
        fine("up", &u)?;
        let a: Vec<f32> = g.iter().zip(&u).map(|(g, u)| open::gate(*g, *u)).collect();
        fine("silu * up", &a)?;
        let y = open::linear(&a, &b.ffn.down_proj);
        fine("down", &y)?;
        h.iter_mut().zip(&y).for_each(|(a, b)| *a += b);
        fine("second residual", &h)?;
        open::bf16(&mut h);
        fine("bf16", &h)?;
    }
    let x = open::norm(&h, &m.projector.norm);
    fine("projector norm", &x)?;
    // The merge moves values; what follows it is the projector's own, through linear layers cut off one by one.
    let (merge, gw) = (c.s.spatial_merge_size, c.grid[1]);
    let mut merged = Vec::new();
    for bh in 0..c.grid[0] / merge {
        for bw in 0..gw / merge {
            for e in 0..dim {
                for mh in 0..merge {
                    for mw in 0..merge {
                        merged.push(x[((bh * merge + mh) * gw + bw * merge + mw) * dim + e]);
                    }
                }
            }
        }
    }
    let a = open::linear(&merged, &m.projector.merging_layer);
    fine("merging_layer", &a)?;
    let mut b = open::biased(open::linear(&a, &m.projector.linear_1), &m.projector.linear_1_bias);
    fine("linear_1", &b)?;
    open::gelu(&mut b);
    fine("gelu", &b)?;
    let rows = open::biased(open::linear(&b, &m.projector.linear_2), &m.projector.linear_2_bias);
    fine("linear_2", &rows)?;
    Ok(rows)
}

/// What the Rust answers: the number, with the stage at which a value is not finite, or the rows.
struct Answer {
    number: u32,
    stage: Option<&'static str>,
    rows: Option<PixtralOutput>,
}

fn answer(c: &Call) -> Answer {
    answered(c, refusal(c))
}

/// The same where a refusal before 12 is known.
fn answered(c: &Call, number: u32) -> Answer {
    if number != 0 {
        return Answer { number, stage: None, rows: None };
    }
    let m = model(c);
    match staged(c, &m, &mut Vec::new()) {
        Err(stage) => Answer { number: 12, stage: Some(stage), rows: None },
        Ok(rows) => {
            let whole = forward(c, &m);
            let same = bits(&rows) == bits(&whole.hidden_states);
            assert!(same, "the stages do not come to the Rust's forward: {:?} grid {:?}", c.s, c.grid);
            Answer { number: 0, stage: None, rows: Some(whole) }
        }
    }
}

/// The tokens, and the output and the scratch afterwards.
fn left(c: &Call, a: &Answer) -> (usize, Vec<f32>, Vec<f32>) {
    let (mut out, mut tokens) = (c.out.clone(), 0);
    if let Some(rows) = &a.rows {
        tokens = rows.num_tokens;
        out[..rows.hidden_states.len()].copy_from_slice(&rows.hidden_states);
    }
    let work = if a.number == 0 || a.number == 12 { vec![0.0; c.scratch.len()] } else { c.scratch.clone() };
    (tokens, out, work)
}

fn bits(x: &[f32]) -> Vec<u32> {
    x.iter().map(|v| v.to_bits()).collect()
}

/// The port's forward of a call, whose settings may have other means and deviations.
fn ours(s: Settings, c: &Call, scratch: &mut [f32], out: &mut [f32]) -> Report {
    unsafe {
        kz_forward(
            s,
            c.patches.as_ptr(),
            c.patches.len(),
            c.grid[0],
            c.grid[1],
            c.weights.as_ptr(),
            c.weights.len(),
            c.cos.as_ptr(),
            c.cos.len(),
            c.sin.as_ptr(),
            c.sin.len(),
            scratch.as_mut_ptr(),
            scratch.len(),
            out.as_mut_ptr(),
            out.len(),
        )
    }
}

/// The port's forward of a call by small tables, in the place of the call's own.
fn ours_by(axes: &axes::Axes, s: Settings, c: &Call, scratch: &mut [f32], out: &mut [f32]) -> Report {
    unsafe {
        kz_forward_axes(
            s,
            c.patches.as_ptr(),
            c.patches.len(),
            c.grid[0],
            c.grid[1],
            c.weights.as_ptr(),
            c.weights.len(),
            axes[0].as_ptr(),
            axes[0].len(),
            axes[1].as_ptr(),
            axes[1].len(),
            axes[2].as_ptr(),
            axes[2].len(),
            axes[3].as_ptr(),
            axes[3].len(),
            scratch.as_mut_ptr(),
            scratch.len(),
            out.as_mut_ptr(),
            out.len(),
        )
    }
}

/// The settings, and the same with odd or random bits for means and deviations, which the call's index draws.
fn with_others(s: &Settings, index: usize) -> [Settings; 2] {
    let odd =
        [f32::NAN, -f32::NAN, f32::INFINITY, f32::NEG_INFINITY, 0.0, -0.0, 1e-45, f32::MAX, 1e8].map(f32::to_bits);
    let mut r = Random(SEED.wrapping_mul(2 * index as u64 + 1));
    let six = OWN.map(|_| if r.from(0, 3) == 0 { r.next() as u32 } else { odd[r.from(0, odd.len() - 1)] });
    [*s, Settings { six, ..*s }]
}

#[derive(Default)]
struct Tally {
    calls: usize,
    axes: usize,
    plain: usize,
    lengths: usize,
    accepted: usize,
    differ: usize,
    numbers: BTreeMap<u32, usize>,
    stages: BTreeMap<&'static str, usize>,
}

impl Tally {
    fn lengths(&mut self, s: &Settings, grid: [usize; 2]) {
        let right = lengths(s, grid);
        for s in with_others(s, self.lengths) {
            let found = unsafe { kz_lengths(s, grid[0], grid[1]) };
            self.lengths += 1;
            if found != right {
                self.wrong(format!("{s:?} grid {grid:?}: {found:?}, expected {right:?}"));
            }
        }
    }

    fn wrong(&mut self, words: String) {
        self.differ += 1;
        if self.differ <= 5 {
            println!("encoder: {words}");
        }
    }

    /// The stage that the call stops at.
    fn compare(&mut self, c: &Call) -> Option<&'static str> {
        self.by(c, None)
    }

    /// The same; where the call's tables are those that small ones stand for, by these too.
    fn by(&mut self, c: &Call, axes: Option<&axes::Axes>) -> Option<&'static str> {
        self.lengths(&c.s, c.grid);
        let a = answer(c);
        let number = a.number;
        if let Some(stage) = a.stage {
            *self.stages.entry(stage).or_default() += 1;
        }
        let (tokens, left, work) = left(c, &a);
        for s in with_others(&c.s, self.calls) {
            self.calls += 1;
            self.axes += usize::from(axes.is_some());
            for axes in [None, axes].into_iter().take(1 + usize::from(axes.is_some())) {
                let (mut scratch, mut out) = (c.scratch.clone(), c.out.clone());
                let report = match axes {
                    None => ours(s, c, &mut scratch, &mut out),
                    Some(axes) => ours_by(axes, s, c, &mut scratch, &mut out),
                };
                self.accepted += usize::from(number == 0);
                *self.numbers.entry(number).or_default() += 1;
                if report != (Report { number, tokens }) || bits(&out) != bits(&left) || bits(&scratch) != bits(&work) {
                    let by = if axes.is_some() { "by small tables " } else { "" };
                    self.wrong(format!("{by}{s:?} grid {:?}: {report:?}, expected {number} with {tokens}", c.grid));
                }
            }
        }
        a.stage
    }

    /// With rule 1 and with rule 2, between which forward and lengths make no difference.
    fn under_both(&mut self, c: &mut Call) -> [Option<&'static str>; 2] {
        [1, 2].map(|rule| {
            c.s.resize_rule = rule;
            self.compare(c)
        })
    }

    /// Whether the stages that are examined, and those that calls stopped at, are those of stages.rs.
    fn every_stage(&self) -> bool {
        let calm = &stages::calls(&mut Random(SEED))[0].1;
        let mut examined = Vec::new();
        let accepted = staged(calm, &model(calm), &mut examined).is_ok();
        let reached: BTreeSet<_> = self.stages.keys().copied().collect();
        let every = accepted
            && examined == stages::examined(calm.s.num_layers)
            && reached == stages::reachable().into_iter().collect();
        if !every {
            println!("encoder: not the stages of stages.rs: examined {examined:?}, stopped at {reached:?}");
        }
        every
    }
}

/// A call of small sizes that is accepted, up to 12.
fn small(r: &mut Random) -> Call {
    let (heads, d, merge, patch) = (r.from(1, 4), 4 * r.from(1, 4), r.from(1, 4), r.from(1, 8));
    let grid = [merge * r.from(1, 3), merge * r.from(1, 3)];
    let s = Settings {
        patch_size: patch,
        spatial_merge_size: merge,
        image_size: (grid[0].max(grid[1]) + r.from(0, 2)) * patch + r.from(0, patch - 1),
        resize_rule: r.from(1, 2),
        six: OWN,
        hidden_size: heads * d,
        num_heads: heads,
        head_dim: d,
        num_layers: r.from(0, 4),
        intermediate_size: r.from(1, 64),
        text_hidden_size: r.from(1, 64),
        projector_bias: r.from(0, 1),
        scaling: 1.0 / (d as f32).sqrt(),
    };
    sized(r, s, grid, 1.0)
}

/// The settings of a model of real width, with two layers and a side of at most so many patches.
fn real(side: usize) -> Settings {
    Settings {
        patch_size: 14,
        spatial_merge_size: 2,
        image_size: 14 * side,
        resize_rule: 1,
        six: OWN,
        hidden_size: 1024,
        num_heads: 16,
        head_dim: 64,
        num_layers: 2,
        intermediate_size: 4096,
        text_hidden_size: 1024,
        projector_bias: 0,
        scaling: 0.125,
    }
}

/// Buffers that fit, with weights up to a size.
fn sized(r: &mut Random, s: Settings, grid: [usize; 2], size: f32) -> Call {
    let t = grid[0] * grid[1];
    let o = t / (s.spatial_merge_size * s.spatial_merge_size);
    let most = s.image_size / s.patch_size;
    let (more, room) = (r.from(0, 3), r.from(0, 5));
    Call {
        s,
        grid,
        patches: r.floats(t * 3 * s.patch_size * s.patch_size, 2.0),
        weights: r.floats(weight_floats(&s), size),
        cos: r.floats(most * most * s.head_dim, 1.0),
        sin: r.floats(most * most * s.head_dim, 1.0),
        scratch: r.floats(scratch_floats(&s, t, o) + more, 1.0),
        out: r.floats(o * s.text_hidden_size + room, 1.0),
    }
}

fn shorter(x: &mut Vec<f32>) {
    x.pop();
}

/// One integer or length of a call changed, or one value of a buffer that is not finite.
fn changed(r: &mut Random, c: &mut Call) {
    let end = [0, 1, 2, 3, 5, 33, 65, 257, 2049, 8193, usize::MAX, usize::MAX - 3, 1 << 63, 1 << 32];
    let n = end[r.from(0, end.len() - 1)];
    let odd = [f32::NAN, f32::INFINITY, f32::NEG_INFINITY, 3.0e38, -3.0e38];
    let v = odd[r.from(0, odd.len() - 1)];
    match r.from(0, 24) {
        0 => c.s.patch_size = n,
        1 => c.s.spatial_merge_size = n,
        2 => c.s.image_size = n,
        3 => c.s.hidden_size = n,
        4 => c.s.num_heads = n,
        5 => c.s.head_dim = n,
        6 => c.s.num_layers = n,
        7 => c.s.intermediate_size = n,
        8 => c.s.text_hidden_size = n,
        9 => c.s.scaling = [0.0, -0.0, -1.0, f32::NAN, f32::INFINITY, 1e-45, 3.0e38][r.from(0, 6)],
        10 => c.grid[0] = n,
        11 => c.grid[1] = n,
        12 => shorter(&mut c.patches),
        13 => c.weights.push(0.0),
        14 => shorter(&mut c.weights),
        15 => shorter(&mut c.cos),
        16 => c.sin.push(0.0),
        17 => c.out.truncate(r.from(0, c.out.len())),
        18 => c.scratch.truncate(c.scratch.len() - r.from(0, 4)),
        19 => c.s.resize_rule = n,
        20 => c.s.projector_bias = n,
        k => {
            let buffer = match k {
                21 => &mut c.patches,
                22 => &mut c.cos,
                23 => &mut c.sin,
                _ => &mut c.weights,
            };
            if !buffer.is_empty() {
                let at = r.from(0, buffer.len() - 1);
                buffer[at] = v;
            }
        }
    }
}

/// Numbers of no resize rule and of no projector_bias, alone and beside each other refusal; the low 32 bits of the last
/// ones are such a number.
fn no_rules(r: &mut Random, tally: &mut Tally) {
    let other: [fn(&mut Call); 9] = [
        |_| (),
        |c| c.s.num_layers = 49,
        |c| c.grid[0] = 0,
        |c| shorter(&mut c.patches),
        |c| shorter(&mut c.weights),
        |c| shorter(&mut c.sin),
        |c| c.out.clear(),
        |c| c.scratch.clear(),
        |c| c.weights[0] = f32::NAN,
    ];
    for rule in [0, 3, usize::MAX, 1 << 63, 1 << 32, (1 << 32) + 1, (1 << 32) + 2] {
        for change in other {
            let mut c = small(r);
            change(&mut c);
            c.s.resize_rule = rule;
            tally.compare(&c);
        }
    }
    for bias in [2, 3, usize::MAX, 1 << 63, 1 << 32, (1 << 32) + 1] {
        for change in other {
            let mut c = small(r);
            change(&mut c);
            c.s.projector_bias = bias;
            tally.compare(&c);
        }
    }
}

/// The lengths with each integer, and each two, at 0, in and beside every range, and at the end of usize; for small
/// settings, for those of a real model and for the largest.
fn every_end(tally: &mut Tally) {
    const MAX: usize = usize::MAX;
    const ENDS: [usize; 22] =
        [0, 1, 2, 3, 4, 5, 32, 33, 48, 49, 64, 65, 256, 260, 2048, 2049, 8192, 8193, 1 << 32, 1 << 63, MAX - 3, MAX];
    let put = |s: &mut Settings, grid: &mut [usize; 2], k: usize, n: usize| match k {
        0 => s.patch_size = n,
        1 => s.spatial_merge_size = n,
        2 => s.image_size = n,
        3 => s.hidden_size = n,
        4 => s.num_heads = n,
        5 => s.head_dim = n,
        6 => s.num_layers = n,
        7 => s.intermediate_size = n,
        8 => s.text_hidden_size = n,
        9 => s.resize_rule = n,
        10 => s.projector_bias = n,
        _ => grid[k - 11] = n,
    };
    let small = Settings { hidden_size: 8, num_heads: 2, head_dim: 4, num_layers: 1, text_hidden_size: 3, ..real(4) };
    let largest = Settings {
        patch_size: 1,
        spatial_merge_size: 1,
        image_size: 2048,
        resize_rule: 2,
        six: OWN,
        hidden_size: 2048,
        num_heads: 8,
        head_dim: 256,
        num_layers: 48,
        intermediate_size: 8192,
        text_hidden_size: 8192,
        projector_bias: 1,
        scaling: f32::MAX,
    };
    for (base, sides) in [(small, [2, 4]), (real(110), [110, 58]), (largest, [2048, 2048])] {
        tally.lengths(&base, sides);
        for (j, k) in (0..13).flat_map(|j| (0..=j).map(move |k| (j, k))) {
            for (a, b) in ENDS.into_iter().flat_map(|a| ENDS.map(|b| (a, b))) {
                let (mut s, mut grid) = (base, sides);
                put(&mut s, &mut grid, j, a);
                put(&mut s, &mut grid, k, b);
                tally.lengths(&s, grid);
            }
        }
        for scaling in [0.0, -0.0, -1.0, 1e-45, -1e-45, f32::MAX, f32::NAN, f32::INFINITY, f32::NEG_INFINITY] {
            tally.lengths(&Settings { scaling, ..base }, sides);
        }
    }
}

fn edges_and_random() -> bool {
    let (mut r, mut by_axes) = (Random(SEED), Random(SEED + 6));
    let mut tally = Tally::default();
    for i in 0..fewer::fewer(4000) {
        let mut c = small(&mut r);
        // Large weights in one part after another, so that each stage in turn overflows.
        if i % 4 == 1 {
            let part = c.weights.len() / 8 + 1;
            let (at, size) = (r.from(0, c.weights.len() - 1), [1e19, 1e30, 3e38][r.from(0, 2)]);
            let to = (at + part).min(c.weights.len());
            c.weights[at..to].iter_mut().for_each(|w| *w *= size);
        }
        // Every other four by small tables too.
        let mut small = (i / 4 % 2 == 1).then(|| axes::random(&mut by_axes, &c.s));
        if i % 4 >= 2 {
            changed(&mut r, &mut c);
        }
        if i % 4 == 3 {
            changed(&mut r, &mut c);
        }
        match &mut small {
            Some(small) => {
                if i % 4 >= 2 && i % 3 == 0 {
                    axes::changed(&mut by_axes, small);
                }
                axes::compare(&mut tally, &c, small);
            }
            None => drop(tally.compare(&c)),
        }
    }
    // Heads of as many dimensions as wide registers take at once, and more by each remainder.
    let mut wide = Random(SEED + 31);
    for head_dim in (32..=132).step_by(4) {
        let c = small(&mut wide);
        let scaling = 1.0 / (head_dim as f32).sqrt();
        let s = Settings { hidden_size: head_dim * c.s.num_heads, head_dim, scaling, num_layers: 2, ..c.s };
        tally.compare(&sized(&mut wide, s, c.grid, 0.2));
    }
    axes::all(&mut by_axes, &mut tally);
    // The settings of 1540: a grid too tall, and one that merge does not divide.
    for grid in [[112, 2], [3, 2], [2, 112], [2, 3], [0, 2], [2, 0], [110, 2], [2, 2]] {
        let s = Settings {
            patch_size: 14,
            spatial_merge_size: 2,
            image_size: 1540,
            resize_rule: 1,
            six: OWN,
            hidden_size: 8,
            num_heads: 1,
            head_dim: 8,
            num_layers: 1,
            intermediate_size: 8,
            text_hidden_size: 8,
            projector_bias: 0,
            scaling: 0.5,
        };
        tally.under_both(&mut sized(&mut r, s, grid, 1.0));
    }
    for projector_bias in [0, 1] {
        tally.compare(&sized(&mut r, Settings { projector_bias, ..real(4) }, [2, 2], 0.05));
    }
    for (stage, mut c) in stages::calls(&mut r) {
        for stopped in tally.under_both(&mut c) {
            if stopped != stage {
                tally.differ += 1;
                println!("encoder: a call that is to stop at {stage:?} stops at {stopped:?}");
            }
        }
    }
    no_rules(&mut r, &mut tally);
    every_end(&mut tally);
    plain::all(&mut Random(SEED + 11), &mut tally);
    let all = tally.every_stage();
    eprintln!("encoder: numbers {:?}, stages {:?}", tally.numbers, tally.stages);
    println!(
        "encoder: {} forward calls by full tables, {} by small ones, {} with plain attention and {} lengths calls \
         compared with the Rust; of forward {} accepted, stopped at {} stages of {}; {} differ",
        tally.calls,
        tally.axes,
        tally.plain,
        tally.lengths,
        tally.accepted,
        tally.stages.len(),
        stages::examined(1).len(),
        tally.differ
    );
    all && tally.differ == 0
}

// --- The sample ---

/// The cells of the replay's inputs, and where patches, weights, cosines and sines start in them.
const CELLS: usize = 8_192;
const STARTS: [usize; 4] = [0, 1_024, 7_168, 7_680];

/// What a record asks.
struct Asked {
    s: Settings,
    grid: [usize; 2],
    /// Of patches, weights, cosines, sines, scratch and output.
    lengths: [usize; 6],
    seed: u32,
    /// As `sample::damage` numbers it, at a place among the cells.
    damage: usize,
    place: usize,
    /// 1 where it is a forward with plain attention.
    plain: usize,
}

impl Asked {
    /// The call: from the seed floats from -1 to 1, damaged, and marks in scratch and output.
    fn call(&self) -> Call {
        let unit = |x: u32| ((x >> 8) as f32 / 8_388_608.0 - 1.0).to_bits();
        let mut cells: Vec<u32> = sample::states(self.seed).map(unit).take(CELLS).collect();
        sample::damage(&mut cells, self.damage, self.place);
        let part = |k: usize| {
            let cells = &cells[STARTS[k]..STARTS[k] + self.lengths[k]];
            cells.iter().map(|x| f32::from_bits(*x)).collect()
        };
        let marks = |n: usize| sample::marks().map(f32::from_bits).take(n).collect();
        Call {
            s: self.s,
            grid: self.grid,
            patches: part(0),
            weights: part(1),
            cos: part(2),
            sin: part(3),
            scratch: marks(self.lengths[4]),
            out: marks(self.lengths[5]),
        }
    }

    /// The record's line, by the Rust and the paper's text alone.
    fn answered(&self) -> String {
        let s = &self.s;
        let c = self.call();
        let a = if self.plain == 1 { answered(&c, plain::refusal(&c)) } else { answer(&c) };
        let (tokens, out, work) = left(&c, &a);
        let hash = |x: &[f32]| sample::hash(&bits(x)) as usize;
        let mut list = vec![s.patch_size, s.spatial_merge_size, s.image_size];
        list.extend([s.hidden_size, s.num_heads, s.head_dim, s.num_layers]);
        list.extend([s.intermediate_size, s.text_hidden_size, s.scaling.to_bits() as usize]);
        list.extend(self.grid);
        list.extend(self.lengths);
        list.extend([self.seed as usize, self.damage, self.place]);
        list.extend([a.number as usize, tokens, hash(&out), hash(&work), s.resize_rule, s.projector_bias]);
        list.push(self.plain);
        sample::line(&list)
    }
}

/// A record that is accepted, if its values are finite; the model's parts are small enough for the cells.
fn asked(r: &mut Random, layers: usize) -> Asked {
    let (merge, patch) = (r.from(1, 2), r.from(1, 3));
    let [heads, d] = [[1, 4], [2, 4], [1, 8], [2, 8], [4, 4]][r.from(0, 4)];
    let most = 4 - merge;
    let grid = [merge * r.from(1, most), merge * r.from(1, most)];
    let s = Settings {
        patch_size: patch,
        spatial_merge_size: merge,
        image_size: (grid[0].max(grid[1]) + r.from(0, 1)) * patch + r.from(0, patch - 1),
        resize_rule: 1,
        six: OWN,
        hidden_size: heads * d,
        num_heads: heads,
        head_dim: d,
        num_layers: layers,
        intermediate_size: r.from(1, 16),
        text_hidden_size: r.from(1, 16),
        projector_bias: 0,
        scaling: 1.0 / (d as f32).sqrt(),
    };
    let (t, most) = (grid[0] * grid[1], s.image_size / patch);
    let o = t / (merge * merge);
    let table = most * most * d;
    let lengths = [
        t * 3 * patch * patch,
        weight_floats(&s),
        table,
        table,
        scratch_floats(&s, t, o),
        o * s.text_hidden_size,
    ];
    Asked { s, grid, lengths, seed: r.next() as u32, damage: 0, place: 0, plain: 0 }
}

/// 0 to 2 layers; scratch and output as long as needed, or longer; now and then -0 or a flipped low bit.
fn sample_accepted(r: &mut Random, list: &mut Vec<Asked>) {
    for i in 0..24 {
        let mut a = asked(r, i % 3);
        a.lengths[4] += [0, 1, 40][r.from(0, 2)];
        a.lengths[5] += [0, 1, 40][r.from(0, 2)];
        let k = r.from(0, 3);
        let place = STARTS[k] + r.from(0, a.lengths[k] - 1);
        if i >= 12 && place % 32 < 24 {
            (a.damage, a.place) = ([1, 3][i % 2], place);
        }
        list.push(a);
    }
}

/// Each number but 12 in several ways, and refusals that meet.
fn sample_refused(r: &mut Random, list: &mut Vec<Asked>) {
    const MAX: usize = usize::MAX;
    let mut from = |change: &dyn Fn(&mut Asked)| {
        let mut a = asked(r, 1);
        change(&mut a);
        list.push(a);
    };
    for n in [0, 33] {
        from(&|a| a.s.patch_size = n);
    }
    for n in [0, 5] {
        from(&|a| a.s.spatial_merge_size = n);
    }
    for n in [0, 2049] {
        from(&|a| a.s.image_size = n);
    }
    for n in [0, 3, 2052] {
        from(&|a| (a.s.hidden_size, a.s.num_heads, a.s.head_dim) = (n, 1, n));
    }
    from(&|a| (a.s.hidden_size, a.s.num_heads, a.s.head_dim) = (260, 65, 4));
    from(&|a| (a.s.hidden_size, a.s.num_heads, a.s.head_dim) = (6, 1, 6));
    from(&|a| a.s.num_heads += 1);
    from(&|a| a.s.num_layers = 49);
    for n in [0, 8193, MAX] {
        from(&|a| a.s.intermediate_size = n);
        from(&|a| a.s.text_hidden_size = n);
    }
    for x in [0.0, -0.0, -1.0, f32::NAN, f32::INFINITY] {
        from(&|a| a.s.scaling = x);
    }
    from(&|a| a.grid[0] = 0);
    from(&|a| a.grid[1] = MAX);
    from(&|a| {
        let (most, merge) = (a.s.image_size / a.s.patch_size, a.s.spatial_merge_size);
        a.grid[1] = most / merge * merge + merge
    });
    from(&|a| (a.s.spatial_merge_size, a.grid[0]) = (2, 1));
    // One buffer too short or too long: patches, weights, either table, scratch, output.
    for k in 0..6 {
        from(&|a| a.lengths[k] -= 1);
    }
    for k in 0..4 {
        from(&|a| a.lengths[k] += 1);
    }
    from(&|a| a.lengths = [0; 6]);
    // Two at once, in the order in which they are looked at: 1, 6, 7, 9, 10, 5, 11, 12.
    from(&|a| (a.s.num_layers, a.grid[0]) = (49, 0));
    from(&|a| (a.grid[0], a.lengths[0]) = (0, 1));
    from(&|a| (a.lengths[0], a.lengths[1]) = (1, 1));
    from(&|a| (a.lengths[1], a.lengths[2]) = (1, 1));
    from(&|a| (a.lengths[3], a.lengths[5]) = (1, 0));
    from(&|a| (a.lengths[5], a.lengths[4]) = (0, 0));
    from(&|a| (a.lengths[4], a.damage, a.place) = (0, 2, 0));
}

/// An input that is not finite, in each buffer; and for each stage that one large value was found to stop, one record.
fn sample_stopped(r: &mut Random, list: &mut Vec<Asked>) {
    for k in 0..4 {
        let mut a = asked(r, k % 3);
        (a.damage, a.place) = (2 + 2 * (k % 2), STARTS[k] + r.from(0, a.lengths[k] - 1));
        list.push(a);
    }
    let mut seen = vec!["patches", "weights", "cos", "sin"];
    // No more were found in 40,000; the last of them at 17,121.
    for i in 0..17_122 {
        let mut a = asked(r, 1 + i % 2);
        if i % 8 == 0 {
            a.s.scaling = 3.0e38;
        }
        let k = r.from(0, 3);
        // Bit 30 of a float below 1 makes it large.
        let places: Vec<usize> = (STARTS[k]..STARTS[k] + a.lengths[k]).filter(|p| p % 32 == 30).collect();
        if places.is_empty() {
            continue;
        }
        (a.damage, a.place) = (1, places[r.from(0, places.len() - 1)]);
        let c = a.call();
        if let Err(stage) = staged(&c, &model(&c), &mut Vec::new()) {
            if !seen.contains(&stage) {
                seen.push(stage);
                list.push(a);
            }
        }
    }
    eprintln!("encoder: stages {seen:?}");
}

/// Rule 2, and what is no rule.
fn sample_rules(r: &mut Random, list: &mut Vec<Asked>) {
    for rule in [2, 2, 0, 3, usize::MAX] {
        let mut a = asked(r, 1);
        a.s.resize_rule = rule;
        list.push(a);
    }
}

/// With a bias: accepted with 0 to 2 layers; what is no projector_bias; weights without the biases that the setting
/// tells of, and with them where it tells of none; the last value of each bias a NaN, -0 and infinity.
fn sample_biased(r: &mut Random, list: &mut Vec<Asked>) {
    let mut biased = |layers: usize, change: &dyn Fn(&mut Asked)| {
        let mut a = asked(r, layers);
        a.s.projector_bias = 1;
        a.lengths[1] = weight_floats(&a.s);
        change(&mut a);
        list.push(a);
    };
    for i in 0..9 {
        biased(i % 3, &|_| ());
    }
    for n in [2, usize::MAX, 1 << 32, (1 << 32) + 1] {
        biased(1, &|a| a.s.projector_bias = n);
    }
    biased(1, &|a| a.lengths[1] -= 2 * a.s.text_hidden_size);
    biased(1, &|a| a.lengths[1] -= a.s.text_hidden_size);
    biased(1, &|a| a.s.projector_bias = 0);
    // The last value of linear_2's bias, and of linear_1's.
    let last = |a: &Asked, of: usize| {
        let x = a.s.text_hidden_size;
        STARTS[1] + a.lengths[1] - 1 - if of == 1 { x * x + x } else { 0 }
    };
    for of in [1, 2] {
        for damage in [2, 3, 4] {
            biased(1, &|a| (a.damage, a.place) = (damage, last(a, of)));
        }
    }
}

/// With plain attention: accepted with 0 to 2 layers and with 48 tokens; the scratch one short, and that of forward; 66
/// tokens, alone and with each refusal beside it; a value that is not finite in each input, and scores that are not.
fn sample_plain(r: &mut Random, list: &mut Vec<Asked>) {
    let mut plain = |mut a: Asked, change: &dyn Fn(&mut Asked)| {
        let t = a.grid[0] * a.grid[1];
        a.plain = 1;
        a.lengths[4] += if t > 64 { 0 } else { t * t - t };
        change(&mut a);
        list.push(a);
    };
    for i in 0..9 {
        plain(asked(r, i % 3), &|a| a.lengths[4] += [0, 0, 7][i % 3]);
    }
    plain(many(r, [6, 8]), &|_| ());
    plain(many(r, [8, 6]), &|a| a.lengths[4] -= 1);
    plain(many(r, [6, 8]), &|a| a.lengths[4] -= 48 * 48 - 48);
    for change in [
        (|_| ()) as fn(&mut Asked),
        |a| a.s.num_layers = 49,
        |a| a.grid[0] = 0,
        |a| a.lengths[0] -= 1,
        |a| a.lengths[1] -= 1,
        |a| a.lengths[3] -= 1,
        |a| a.lengths[5] = 0,
        |a| a.lengths[4] = 0,
        |a| (a.damage, a.place) = (2, 0),
    ] {
        plain(many(r, [6, 11]), &change);
    }
    for k in 0..4 {
        plain(asked(r, 1), &|a| (a.damage, a.place) = (2, STARTS[k] + a.lengths[k] - 1));
    }
    let unscaled = std::iter::repeat_with(|| {
        let mut a = many(r, [3, 4]);
        a.s.scaling = 3.0e38;
        a
    });
    let stops = |a: &Asked| staged(&a.call(), &model(&a.call()), &mut Vec::new()).err() == Some("scores");
    let found = unscaled.take(1000).find(stops).expect("scores that are not finite");
    plain(found, &|_| ());
}

/// A record of many tokens, with one head of four, one layer, and no merging.
fn many(r: &mut Random, grid: [usize; 2]) -> Asked {
    let mut a = asked(r, 1);
    let most = grid[0].max(grid[1]);
    (a.s.patch_size, a.s.spatial_merge_size, a.s.image_size) = (1, 1, most);
    (a.s.hidden_size, a.s.num_heads, a.s.head_dim) = (4, 1, 4);
    (a.s.intermediate_size, a.s.text_hidden_size) = (2, 1);
    let (t, table) = (grid[0] * grid[1], most * most * 4);
    a.grid = grid;
    a.lengths = [t * 3, weight_floats(&a.s), table, table, scratch_floats(&a.s, t, t), t];
    a
}

fn sample() -> std::io::Result<()> {
    let mut r = Random(SEED);
    let mut list = Vec::new();
    sample_accepted(&mut r, &mut list);
    sample_refused(&mut r, &mut list);
    sample_stopped(&mut r, &mut list);
    sample_rules(&mut r, &mut list);
    sample_biased(&mut r, &mut list);
    sample_plain(&mut r, &mut list);
    let mut out = std::io::stdout().lock();
    list.iter().try_for_each(|a| writeln!(out, "{}", a.answered()))
}

fn main() {
    let words: Vec<String> = std::env::args().skip(1).collect();
    let words: Vec<&str> = words.iter().map(String::as_str).collect();
    let same = match words[..] {
        [] => edges_and_random(),
        ["--bench"] => bench::run(&bench::PLAN),
        ["--bench", "--quick"] => bench::run(&bench::QUICK),
        ["--bench", "--large"] => bench::run(&bench::LARGE),
        ["--sample"] => sample().is_ok(),
        _ => {
            eprintln!("usage: encoder [--bench [--quick | --large] | --sample]");
            std::process::exit(2);
        }
    };
    std::process::exit(i32::from(!same));
}
