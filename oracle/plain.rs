//! Calls of kz_forward_plain. What it gives is the Rust's forward itself; its refusals are stated here from the text of
//! 2026-11: 22 above 64 tokens directly after 7, and t² − t floats more of scratch. Where it gives neither 22 nor 11,
//! kz_forward is called with the same buffers too, and has to answer the same.

use super::{answered, bits, changed, left, lengths, ours, real, shorter, sized, small, stages, with_others};
use super::{Call, Random, Report, Settings, Tally, OWN};
use std::collections::BTreeSet;

extern "C" {
    fn kz_forward_plain(
        s: Settings,
        patches: *const f32,
        patches_len: usize,
        grid_h: usize,
        grid_w: usize,
        weights: *const f32,
        weights_len: usize,
        rope_cos: *const f32,
        rope_cos_len: usize,
        rope_sin: *const f32,
        rope_sin_len: usize,
        scratch: *mut f32,
        scratch_len: usize,
        out: *mut f32,
        out_len: usize,
    ) -> Report;
}

/// The port's forward of a call with plain attention.
fn plain(s: Settings, c: &Call, scratch: &mut [f32], out: &mut [f32]) -> Report {
    unsafe {
        kz_forward_plain(
            s,
            c.patches.as_ptr(),
            c.patches.len(),
            c.grid[0],
            c.grid[1],
            c.weights.as_ptr(),
            c.weights.len(),
            c.cos.as_ptr(),
            c.cos.len(),
            c.sin.as_ptr(),
            c.sin.len(),
            scratch.as_mut_ptr(),
            scratch.len(),
            out.as_mut_ptr(),
            out.len(),
        )
    }
}

/// 1, 6, 7, 22, 9, 10, 5, 11, in that order; 0 where none applies.
pub fn refusal(c: &Call) -> u32 {
    let n = lengths(&c.s, c.grid);
    if n.number != 0 {
        return n.number;
    }
    let t = c.grid[0] * c.grid[1];
    if c.patches.len() != n.patches {
        return 7;
    }
    if t > 64 {
        return 22;
    }
    if c.weights.len() != n.weights {
        return 9;
    }
    if [&c.cos, &c.sin].iter().any(|table| table.len() != n.tables) {
        return 10;
    }
    if c.out.len() < n.out {
        return 5;
    }
    if c.scratch.len() < n.scratch + (t * t - t) {
        return 11;
    }
    0
}

/// The stage that the call stops at.
fn compare(tally: &mut Tally, c: &Call) -> Option<&'static str> {
    let a = answered(c, refusal(c));
    let number = a.number;
    let (tokens, left, work) = left(c, &a);
    let right = Report { number, tokens };
    for s in with_others(&c.s, tally.plain) {
        tally.plain += 1;
        tally.accepted += usize::from(number == 0);
        *tally.numbers.entry(number).or_default() += 1;
        for row_wise in [false, true].into_iter().take(1 + usize::from(number != 22 && number != 11)) {
            let (mut scratch, mut out) = (c.scratch.clone(), c.out.clone());
            let by = if row_wise { ours } else { plain };
            let report = by(s, c, &mut scratch, &mut out);
            if report != right || bits(&out) != bits(&left) || bits(&scratch) != bits(&work) {
                let by = if row_wise { "forward beside plain" } else { "plain" };
                tally.wrong(format!("{by} {s:?} grid {:?}: {report:?}, expected {right:?}", c.grid));
            }
        }
    }
    a.stage
}

/// A call with its scratch longer by the matrix, without the row.
fn longer(r: &mut Random, mut c: Call) -> Call {
    let t = c.grid[0] * c.grid[1];
    c.scratch.extend(r.floats(t * t - t, 1.0));
    c
}

/// A call of small sizes on this grid, without merging.
fn on(r: &mut Random, grid: [usize; 2]) -> Call {
    let (heads, d, patch) = (r.from(1, 4), 4 * r.from(1, 3), r.from(1, 2));
    let s = Settings {
        patch_size: patch,
        spatial_merge_size: 1,
        image_size: (grid[0].max(grid[1]) + r.from(0, 1)) * patch + r.from(0, patch - 1),
        resize_rule: r.from(1, 2),
        six: OWN,
        hidden_size: heads * d,
        num_heads: heads,
        head_dim: d,
        num_layers: r.from(1, 2),
        intermediate_size: r.from(1, 16),
        text_hidden_size: r.from(1, 16),
        projector_bias: r.from(0, 1),
        scaling: [1.0 / (d as f32).sqrt(), 1e-3, 30.0, 1e4][r.from(0, 3)],
    };
    let c = sized(r, s, grid, 1.0);
    longer(r, c)
}

/// Every grid of 1 to 65 tokens.
fn every_grid(r: &mut Random, tally: &mut Tally) {
    for (h, w) in (1..=65).flat_map(|h| (1..=65 / h).map(move |w| (h, w))) {
        let c = on(r, [h, w]);
        compare(tally, &c);
    }
}

/// The scratch at and beside each length that it could be taken for, from 1 to 65 tokens.
fn every_length(r: &mut Random, tally: &mut Tally) {
    for t in 1..=65 {
        let mut c = on(r, [1, t]);
        let rows = lengths(&c.s, c.grid).scratch;
        let least = rows + t * t - t;
        for len in [0, 1, t * t, rows - 1, rows, rows + t, least - 1, least, least + 1, rows + t * t] {
            c.scratch.resize(len, 0.5);
            compare(tally, &c);
        }
    }
}

/// Each refusal by itself and with each other, 22 among them: the first in the order is the answer.
fn refusals(r: &mut Random, tally: &mut Tally) {
    type Change = (u32, fn(&mut Call));
    let changes: [Change; 12] = [
        (1, |c| c.s.num_layers = 49),
        (6, |c| c.grid[1] = usize::MAX),
        (7, |c| shorter(&mut c.patches)),
        (22, |c| {
            c.patches.resize(65 * 3 * c.s.patch_size * c.s.patch_size, 0.5);
            c.grid = [5, 13];
        }),
        (9, |c| shorter(&mut c.weights)),
        (9, |c| c.weights.push(0.0)),
        (10, |c| shorter(&mut c.cos)),
        (10, |c| c.sin.push(0.0)),
        (5, |c| c.out.clear()),
        (11, |c| c.scratch.clear()),
        (12, |c| *c.patches.last_mut().expect("a value") = f32::NAN),
        (12, |c| c.weights[0] = f32::INFINITY),
    ];
    let order = [1, 6, 7, 22, 9, 10, 5, 11, 12];
    for (i, (number, change)) in changes.iter().enumerate() {
        for (other, second) in &changes[i..] {
            let mut c = on(r, [4, 16]);
            // As many rows and columns as either grid has.
            c.s.image_size = 16 * c.s.patch_size;
            let n = lengths(&c.s, c.grid).tables;
            (c.cos, c.sin) = (r.floats(n, 1.0), r.floats(n, 1.0));
            second(&mut c);
            change(&mut c);
            let found = refusal(&c);
            let first = order.iter().find(|n| *n == number || *n == other);
            // 12 is found later; a length that lost a float and got it again is right.
            let undone = number == other && found == 0;
            if Some(&found) != first && first != Some(&12) && !undone {
                tally.wrong(format!("plain: {number} and {other} give {found}"));
            }
            compare(tally, &c);
        }
    }
}

/// A call for each stage (stages.rs), and large values in the q and k of one head, so that a score of the first, of a
/// middle and of the last head is not finite.
fn every_stage(r: &mut Random, tally: &mut Tally) {
    let mut reached = BTreeSet::new();
    let mut stops = |tally: &mut Tally, stage: Option<&'static str>, c: &Call| {
        let found = compare(tally, c);
        reached.extend(found);
        if found != stage {
            tally.wrong(format!("plain: a call that is to stop at {stage:?} stops at {found:?}"));
        }
    };
    for (stage, c) in stages::calls(r) {
        for resize_rule in [1, 2] {
            let mut c = longer(r, c.clone());
            c.s.resize_rule = resize_rule;
            stops(tally, stage, &c);
        }
    }
    for (head, last) in [(0, 3), (1, 3), (2, 3), (0, 2), (1, 2), (0, 1)] {
        let mut c = on(r, [2, 3]);
        (c.s.num_heads, c.s.hidden_size, c.s.num_layers) = (last, last * c.s.head_dim, 1);
        (c.s.scaling, c.s.projector_bias) = (0.5, 0);
        let c = &mut sized(r, c.s, [2, 3], 1.0);
        let (h, d, p) = (c.s.hidden_size, c.s.head_dim, c.s.patch_size);
        let q = 3 * p * p * h + 2 * h;
        for at in [q, q + h * h] {
            c.weights[at + head * d * h..][..d * h].iter_mut().for_each(|w| *w *= 1e21);
        }
        let mut c = longer(r, c.clone());
        stops(tally, Some("scores"), &c);
        // Finite sums, which the scale alone takes out of the floats.
        for at in [q, q + h * h] {
            c.weights[at + head * d * h..][..d * h].iter_mut().for_each(|w| *w *= 1e-11);
        }
        stops(tally, None, &c);
        c.s.scaling = 3.0e38;
        stops(tally, Some("scores"), &c);
    }
    if reached != stages::reachable().into_iter().collect() {
        tally.wrong(format!("plain: not the stages of stages.rs: stopped at {reached:?}"));
    }
}

/// Each place of each input with a value that is not finite.
fn every_place(r: &mut Random, tally: &mut Tally) {
    let right = on(r, [2, 3]);
    let buffers: [fn(&mut Call) -> &mut Vec<f32>; 4] =
        [|c| &mut c.patches, |c| &mut c.weights, |c| &mut c.cos, |c| &mut c.sin];
    for buffer in buffers {
        for place in 0..buffer(&mut right.clone()).len() {
            let mut c = right.clone();
            buffer(&mut c)[place] = [f32::NAN, f32::INFINITY, f32::NEG_INFINITY][place % 3];
            compare(tally, &c);
        }
    }
}

/// Random calls, with merging and up to 144 tokens: as they are, with large weights in one part after another, and
/// with one or two changes.
fn random(r: &mut Random, tally: &mut Tally) {
    for i in 0..super::fewer::fewer(1200) {
        let c = small(r);
        let mut c = longer(r, c);
        if i % 4 == 1 {
            let part = c.weights.len() / 8 + 1;
            let (at, size) = (r.from(0, c.weights.len() - 1), [1e19, 1e30, 3e38][r.from(0, 2)]);
            let to = (at + part).min(c.weights.len());
            c.weights[at..to].iter_mut().for_each(|w| *w *= size);
        }
        for _ in 2..=i % 4 {
            changed(r, &mut c);
        }
        compare(tally, &c);
    }
}

pub fn all(r: &mut Random, tally: &mut Tally) {
    every_grid(r, tally);
    every_length(r, tally);
    refusals(r, tally);
    every_stage(r, tally);
    every_place(r, tally);
    random(r, tally);
    // A model of real width, with one layer.
    let c = sized(r, Settings { num_layers: 1, ..real(8) }, [8, 8], 0.05);
    let c = longer(r, c);
    compare(tally, &c);
}
