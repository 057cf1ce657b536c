//! Calls of kz_forward_axes. The Rust has full tables alone, so it goes by those that the four stand for, stated here
//! from the text of 2026-06: with q = head width / 4 the row of (h, w) is q values of row h, q of column w, and both
//! again. Each call is made by both, by the four and by these full ones.

use super::{bits, lengths, open, real, shorter, sized, small, Call, Random, Settings, Tally};

/// row_cos, row_sin, column_cos and column_sin.
pub type Axes = [Vec<f32>; 4];

fn expand(s: &Settings, rows: &[f32], columns: &[f32]) -> Vec<f32> {
    let (most, q) = (s.image_size / s.patch_size, s.head_dim / 4);
    let mut table = Vec::with_capacity(most * most * s.head_dim);
    for h in 0..most {
        for w in 0..most {
            for _ in 0..2 {
                table.extend(&rows[h * q..h * q + q]);
                table.extend(&columns[w * q..w * q + q]);
            }
        }
    }
    table
}

/// The call by full tables. Where one of the four is not as long as it has to be it has none, and 10 in the same place.
fn full(c: &Call, axes: &Axes) -> Call {
    let n = lengths(&c.s, c.grid);
    let right = n.number == 0 && axes.iter().all(|table| table.len() == n.axes);
    let by = |k: usize| if right { expand(&c.s, &axes[k], &axes[k + 2]) } else { Vec::new() };
    Call { cos: by(0), sin: by(1), ..c.clone() }
}

/// The four tables of full ones of this form.
fn parts(s: &Settings, full: [&[f32]; 2]) -> Axes {
    let (most, d) = (s.image_size / s.patch_size, s.head_dim);
    let rows = |table: &[f32]| (0..most).flat_map(|h| table[h * most * d..][..d / 4].to_vec()).collect();
    let columns = |table: &[f32]| (0..most).flat_map(|w| table[w * d + d / 4..][..d / 4].to_vec()).collect();
    [rows(full[0]), rows(full[1]), columns(full[0]), columns(full[1])]
}

/// Tables of random values that fit a call.
pub fn random(r: &mut Random, s: &Settings) -> Axes {
    [(); 4].map(|()| r.floats(s.image_size / s.patch_size * s.head_dim / 4, 1.0))
}

/// One table with another length, or with one value that is not finite or that is large.
pub fn changed(r: &mut Random, axes: &mut Axes) {
    let table = &mut axes[r.from(0, 3)];
    let (len, k) = (table.len(), r.from(0, 5));
    match k {
        0 => shorter(table),
        1 => table.push(0.0),
        2 => table.truncate(r.from(0, len)),
        _ if len == 0 => (),
        k => table[r.from(0, len - 1)] = [f32::NAN, f32::NEG_INFINITY, 3.0e38][k - 3],
    }
}

/// By the four and by the full tables that they stand for.
pub fn compare(tally: &mut Tally, c: &Call, axes: &Axes) {
    tally.by(&full(c, axes), Some(axes));
}

/// A length or a value of each of the four tables, and each other refusal, by itself and two at once: the first in
/// forward's order is the answer.
fn refusals(r: &mut Random, tally: &mut Tally) {
    type Change = (u32, fn(&mut Call, &mut Axes));
    let changes: [Change; 17] = [
        (1, |c, _| c.s.num_layers = 49),
        (6, |c, _| c.grid[1] = usize::MAX),
        (7, |c, _| shorter(&mut c.patches)),
        (9, |c, _| c.weights.push(0.0)),
        (10, |_, a| shorter(&mut a[0])),
        (10, |_, a| shorter(&mut a[1])),
        (10, |_, a| shorter(&mut a[2])),
        (10, |_, a| shorter(&mut a[3])),
        (10, |_, a| a[0].push(0.0)),
        (10, |_, a| a[3].push(0.0)),
        (5, |c, _| c.out.clear()),
        (11, |c, _| c.scratch.clear()),
        (12, |_, a| a[0][0] = f32::NAN),
        (12, |_, a| a[1][0] = f32::INFINITY),
        (12, |_, a| a[2][0] = f32::NEG_INFINITY),
        (12, |_, a| a[3][0] = f32::NAN),
        (12, |c, _| c.weights[0] = f32::NAN),
    ];
    let order = [1, 6, 7, 9, 10, 5, 11, 12];
    for (i, (number, change)) in changes.iter().enumerate() {
        for (other, second) in &changes[i..] {
            let c = &mut small(r);
            let axes = &mut random(r, &c.s);
            // What is not finite is put in first, where there is still something.
            second(c, axes);
            change(c, axes);
            let first = order.iter().find(|n| *n == number || *n == other);
            let found = super::refusal(&full(c, axes));
            // 12 is found later, and a table that lost a value and got one again is as long as before.
            let undone = (*number, *other) == (10, 10) && found == 0;
            if Some(&found) != first && first != Some(&12) && !undone {
                tally.wrong(format!("{number} and {other} give {found}"));
            }
            compare(tally, c, axes);
        }
    }
}

/// Every edge of 10: each of the four, alone and with all, at and beside each length that it could be taken for.
fn edges(r: &mut Random, tally: &mut Tally) {
    for round in 0..24 {
        let c = small(r);
        let right = random(r, &c.s);
        let (most, d, n) = (c.s.image_size / c.s.patch_size, c.s.head_dim, right[0].len());
        let [lower, whole] = [c.grid[round % 2] * d / 4, most * most * d];
        for len in [0, 1, n - 1, n + 1, 2 * n, 4 * n, n / 2, d / 4, d, most, lower, most * d, whole - 1, whole] {
            for k in 0..5 {
                let mut axes = right.clone();
                for table in if k < 4 { k..k + 1 } else { 0..4 } {
                    axes[table] = r.floats(len, 1.0);
                }
                compare(tally, &c, &axes);
            }
        }
    }
}

/// Each place of each table with a value that is not finite: also of rows and columns that the grid does not have.
fn examined(r: &mut Random, tally: &mut Tally) {
    for _ in 0..6 {
        let c = small(r);
        let right = random(r, &c.s);
        for (k, place) in (0..4).flat_map(|k| (0..right[k].len()).map(move |place| (k, place))) {
            let mut axes = right.clone();
            axes[k][place] = [f32::NAN, f32::INFINITY, f32::NEG_INFINITY][place % 3];
            compare(tally, &c, &axes);
        }
    }
}

/// The tables of the Rust's own precompute_2d_rope: of the form that is stated here, and calls by them.
fn precomputed(r: &mut Random, tally: &mut Tally) {
    for (i, theta) in (0..240).zip([10000.0, 1e6, 2.5, 1.0, 0.3, 3.0e38].into_iter().cycle()) {
        let s = if i < 4 { Settings { projector_bias: i % 2, ..real(4) } } else { small(r).s };
        let grid = [s.spatial_merge_size; 2];
        let c = if i < 4 { sized(r, s, [2, 2], 0.05) } else { sized(r, s, grid, 1.0) };
        let most = s.image_size / s.patch_size;
        let (cos, sin) = open::rope(most, s.head_dim, theta);
        let axes = parts(&s, [&cos, &sin]);
        let again = full(&c, &axes);
        if bits(&again.cos) != bits(&cos) || bits(&again.sin) != bits(&sin) {
            tally.wrong(format!("precompute_2d_rope({most}, {}, {theta}) has another form", s.head_dim));
        }
        compare(tally, &c, &axes);
    }
    // As large as a Pixtral's, and others, by their form alone.
    for (most, head_dim) in [(110, 64), (110, 16), (64, 88), (37, 256), (1, 4)] {
        let s = Settings { head_dim, num_heads: 1, hidden_size: head_dim, ..real(most) };
        let (cos, sin) = open::rope(most, head_dim, 10000.0);
        let axes = parts(&s, [&cos, &sin]);
        let same = |k: usize, table: &[f32]| bits(&expand(&s, &axes[k], &axes[k + 2])) == bits(table);
        if !(same(0, &cos) && same(1, &sin)) {
            tally.wrong(format!("precompute_2d_rope({most}, {head_dim}, 10000) has another form"));
        }
    }
}

pub fn all(r: &mut Random, tally: &mut Tally) {
    refusals(r, tally);
    edges(r, tally);
    examined(r, tally);
    precomputed(r, tally);
}
