//! Forward by tables of rows and of columns: the bits of forward by the full tables that they stand for, and tables of
//! which every value is the nearest float.

mod common;

use common::{expand, same, Random};
use kyzgultam::{forward, forward_axes, rope_axes, EncoderSettings, PictureSettings, Refusal, RopeAxes};

/// Four tables of random floats, or with values that are no cosines.
fn random_axes(random: &mut Random, len: usize, size: f32) -> RopeAxes {
    let mut table = || random.floats(len, size);
    RopeAxes { row_cos: table(), row_sin: table(), column_cos: table(), column_sin: table() }
}

type Answer = (Result<usize, Refusal>, Vec<f32>, Vec<f32>);

/// Patches, weights, scratch and output of a call.
struct Lent {
    patches: Vec<f32>,
    weights: Vec<f32>,
    scratch: Vec<f32>,
    out: Vec<f32>,
}

impl Lent {
    fn new(random: &mut Random, s: &EncoderSettings, grid: (usize, usize), size: f32) -> Lent {
        let n = s.lengths(grid.0, grid.1).unwrap();
        Lent {
            patches: random.floats(n.patches, 2.0),
            weights: random.floats(n.weights, size),
            scratch: random.floats(n.scratch + 3, 1e9),
            out: random.floats(n.out + 5, 1e9),
        }
    }

    /// The answer, the output and the scratch by small tables.
    fn axes(&self, s: &EncoderSettings, grid: (usize, usize), axes: &RopeAxes) -> Answer {
        let (mut scratch, mut out) = (self.scratch.clone(), self.out.clone());
        let found = forward_axes(s, &self.patches, grid.0, grid.1, &self.weights, axes, &mut scratch, &mut out);
        (found, out, scratch)
    }

    /// The same by full ones.
    fn full(&self, s: &EncoderSettings, grid: (usize, usize), cos: &[f32], sin: &[f32]) -> Answer {
        let (mut scratch, mut out) = (self.scratch.clone(), self.out.clone());
        let found = forward(s, &self.patches, grid.0, grid.1, &self.weights, cos, sin, &mut scratch, &mut out);
        (found, out, scratch)
    }
}

fn alike(a: &Answer, b: &Answer) -> bool {
    a.0 == b.0 && same(&a.1, &b.1) && same(&a.2, &b.2)
}

/// Answer, output and scratch are those of forward by the full tables: for accepted calls, and where a stage is not
/// finite.
#[test]
fn axes_are_the_full_tables() {
    let mut random = Random(20_260_606);
    let mut seen = [0; 13];
    while seen[0] < 200 || seen[12] < 20 {
        let mut s = random.encoder();
        s.num_heads = random.from(1, 3);
        s.head_dim = 4 * random.from(1, 6);
        s.hidden_size = s.num_heads * s.head_dim;
        let Ok((grid_h, grid_w)) = s.picture.grid(random.from(1, 60), random.from(1, 60)) else { continue };
        if grid_h * grid_w > 200 {
            continue;
        }
        let (most, len) = (s.picture.image_size / s.picture.patch_size, s.axes_len().unwrap());
        assert_eq!(len, most * s.head_dim / 4);
        let size = [0.3, 0.3, 0.3, 1e25][random.from(0, 3)];
        let axes = random_axes(&mut random, len, 1.0);
        let (cos, sin) = expand(&axes, most, s.head_dim);
        let lent = Lent::new(&mut random, &s, (grid_h, grid_w), size);
        let found = lent.axes(&s, (grid_h, grid_w), &axes);
        assert!(alike(&found, &lent.full(&s, (grid_h, grid_w), &cos, &sin)), "{s:?} {grid_h} {grid_w}");
        seen[found.0.map_or_else(|refusal| refusal.number() as usize, |_| 0)] += 1;
    }
}

/// Rows 2 × 3 of a grid of at most 4 × 4, heads of 8.
const SETTINGS: EncoderSettings = EncoderSettings {
    picture: PictureSettings::new(2, 1, 8),
    hidden_size: 16,
    num_heads: 2,
    head_dim: 8,
    num_layers: 2,
    intermediate_size: 5,
    text_hidden_size: 3,
    projector_bias: false,
    scaling: 0.35,
};
const GRID: (usize, usize) = (2, 3);
const LEN: usize = 4 * 2;

type Field = fn(&mut RopeAxes) -> &mut Vec<f32>;
const FIELDS: [Field; 4] = [|a| &mut a.row_cos, |a| &mut a.row_sin, |a| &mut a.column_cos, |a| &mut a.column_sin];

/// A float of a row or a column that the grid has changes the vectors; one that it has not changes nothing.
#[test]
fn each_float_counts_where_the_grid_has_it() {
    let mut random = Random(7);
    let axes = random_axes(&mut random, LEN, 1.0);
    let lent = Lent::new(&mut random, &SETTINGS, GRID, 0.5);
    let right = lent.axes(&SETTINGS, GRID, &axes);
    assert_eq!(right.0, Ok(6));
    for (k, field) in FIELDS.into_iter().enumerate() {
        let side = if k < 2 { GRID.0 } else { GRID.1 };
        for place in 0..LEN {
            let mut other = axes.clone();
            field(&mut other)[place] += 0.25;
            let found = lent.axes(&SETTINGS, GRID, &other);
            assert_eq!(found.0, Ok(6));
            assert_eq!(same(&found.1, &right.1), place / 2 >= side, "table {k}, float {place}");
        }
    }
}

/// 10 for each of the four, too short or too long, the length of a full table too, and before 5 and 11; 9 before it.
#[test]
fn lengths_of_each_table() {
    let mut random = Random(8);
    let axes = random_axes(&mut random, LEN, 1.0);
    let lent = Lent::new(&mut random, &SETTINGS, GRID, 0.5);
    assert_eq!((SETTINGS.axes_len(), SETTINGS.tables_len()), (Ok(LEN), Ok(4 * 4 * 8)));
    for field in FIELDS {
        for len in [0, 1, LEN / 2, LEN - 1, LEN + 1, 2 * LEN, 4 * 4 * 8] {
            let mut other = axes.clone();
            *field(&mut other) = vec![0.5; len];
            let (found, out, scratch) = lent.axes(&SETTINGS, GRID, &other);
            assert_eq!(found, Err(Refusal::TableLength), "{len}");
            assert!(same(&out, &lent.out) && same(&scratch, &lent.scratch));
            let call = |weights: &[f32], scratch: &mut [f32], out: &mut [f32]| {
                forward_axes(&SETTINGS, &lent.patches, GRID.0, GRID.1, weights, &other, scratch, out)
            };
            assert_eq!(call(&lent.weights, &mut [], &mut []), Err(Refusal::TableLength));
            assert_eq!(call(&lent.weights[1..], &mut [], &mut []), Err(Refusal::WeightsLength));
        }
    }
    // The two full tables' floats, in four parts, are as many as are wrong.
    let quarters = random_axes(&mut random, 4 * 4 * 8, 1.0);
    assert_eq!(lent.axes(&SETTINGS, GRID, &quarters).0, Err(Refusal::TableLength));
}

/// 12 for each float of each table, also those of no row and no column of the grid: the scratch is +0 then.
#[test]
fn tables_are_examined_whole() {
    let mut random = Random(9);
    let axes = random_axes(&mut random, LEN, 1.0);
    let lent = Lent::new(&mut random, &SETTINGS, GRID, 0.5);
    for field in FIELDS {
        for place in 0..LEN {
            for odd in [f32::NAN, f32::INFINITY, f32::NEG_INFINITY] {
                let mut other = axes.clone();
                field(&mut other)[place] = odd;
                let (found, out, scratch) = lent.axes(&SETTINGS, GRID, &other);
                assert_eq!(found, Err(Refusal::NotFinite), "{place}");
                assert!(same(&out, &lent.out) && same(&scratch, &vec![0.0; scratch.len()]));
            }
        }
    }
}

/// Lent tables are taken as owned ones are.
#[test]
fn lent_tables() {
    let mut random = Random(10);
    let axes = random_axes(&mut random, LEN, 1.0);
    let lent = Lent::new(&mut random, &SETTINGS, GRID, 0.5);
    let right = lent.axes(&SETTINGS, GRID, &axes);
    let slices: RopeAxes<&[f32]> = RopeAxes {
        row_cos: &axes.row_cos,
        row_sin: &axes.row_sin,
        column_cos: &axes.column_cos,
        column_sin: &axes.column_sin,
    };
    let (mut scratch, mut out) = (lent.scratch.clone(), lent.out.clone());
    let (h, w) = GRID;
    let found = forward_axes(&SETTINGS, &lent.patches, h, w, &lent.weights, &slices, &mut scratch, &mut out);
    assert!(alike(&(found, out, scratch), &right));
}

/// Every value of some tables is the nearest float, by hashes that tests/rope.py worked out in integers.
#[test]
fn every_value_is_the_nearest() {
    let hash = |floats: &[f32]| {
        let step = |found: u64, x: &f32| (found ^ u64::from(x.to_bits())).wrapping_mul(0x0100_0000_01B3);
        format!("{:016x}", floats.iter().fold(0xCBF2_9CE4_8422_2325, step))
    };
    let lines: Vec<&str> = include_str!("rope.txt").lines().collect();
    assert_eq!(lines.len(), 10);
    for line in lines {
        let words: Vec<&str> = line.split(' ').collect();
        let [most, head, theta, right @ ..] = &words[..] else { panic!("{line}") };
        let (most, head) = (most.parse().unwrap(), head.parse().unwrap());
        let axes = rope_axes(most, head, theta.parse().unwrap()).unwrap();
        let tables = [&axes.row_cos, &axes.row_sin, &axes.column_cos, &axes.column_sin];
        assert!(tables.iter().all(|table| table.len() == most * head / 4), "{line}");
        assert_eq!(tables.map(|table| hash(table)), right, "{line}");
    }
}

/// The tables are near those of the Rust's precompute_2d_rope, whose frequencies and angles are rounded to f32.
#[test]
fn near_the_rusts() {
    for (most, head, theta) in [(110, 64, 10000.0), (110, 16, 10000.0), (64, 100, 500000.0), (20, 4, 1.0)] {
        let axes = rope_axes(most, head, theta).unwrap();
        let freqs: Vec<f32> = (0..head / 2).map(|i| 1.0 / theta.powf(2.0 * i as f32 / head as f32)).collect();
        for at in 0..most * head / 4 {
            let (position, j) = (at / (head / 4), at % (head / 4));
            let [row, column] = [2 * j, 2 * j + 1].map(|i| position as f32 * freqs[i]);
            let near = |a: f32, b: f32| (a - b).abs() < 1e-5;
            assert!(near(axes.row_cos[at], row.cos()) && near(axes.row_sin[at], row.sin()), "{most} {head} {at}");
            let (cos, sin) = (axes.column_cos[at], axes.column_sin[at]);
            assert!(near(cos, column.cos()) && near(sin, column.sin()), "{most} {head} {at}");
        }
    }
}

#[test]
fn tables_that_are_refused() {
    for (most, head, theta) in [
        (2049, 64, 10000.0),
        (usize::MAX, 64, 10000.0),
        (110, 0, 10000.0),
        (110, 2, 10000.0),
        (110, 62, 10000.0),
        (110, 260, 10000.0),
        (110, usize::MAX, 10000.0),
        (110, 64, 0.999),
        (110, 64, 0.0),
        (110, 64, -10000.0),
        (110, 64, f32::INFINITY),
        (110, 64, f32::NAN),
    ] {
        assert_eq!(rope_axes(most, head, theta), Err(Refusal::Setting), "{most} {head} {theta}");
    }
    assert_eq!(rope_axes(0, 64, 10000.0), Ok(RopeAxes::default()));
    // With theta 1 each angle is the position; and the most that are allowed are as long as the settings have them.
    assert_eq!(rope_axes(3, 4, 1.0).unwrap().row_cos, [1.0, 0.540_302_3, -0.416_146_84]);
    let largest = EncoderSettings {
        picture: PictureSettings::new(1, 1, 2048),
        hidden_size: 256,
        num_heads: 1,
        head_dim: 256,
        ..EncoderSettings::default()
    };
    assert_eq!(rope_axes(2048, 256, 10000.0).unwrap().column_sin.len(), largest.axes_len().unwrap());
}

/// Both forward calls run on a thread with 140 KiB of stack, with the widest head.
#[test]
fn little_stack() {
    let s = EncoderSettings { hidden_size: 512, num_heads: 2, head_dim: 256, num_layers: 1, ..SETTINGS };
    let mut random = Random(11);
    let axes = random_axes(&mut random, s.axes_len().unwrap(), 1.0);
    let lent = Lent::new(&mut random, &s, GRID, 0.1);
    let (cos, sin) = expand(&axes, 4, 256);
    let run = move || (lent.axes(&s, GRID, &axes), lent.full(&s, GRID, &cos, &sin));
    let (small, full) = std::thread::Builder::new().stack_size(140 << 10).spawn(run).unwrap().join().unwrap();
    assert!(small.0 == Ok(6) && alike(&small, &full));
}
