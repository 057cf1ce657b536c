//! The lengths of the buffers of a forward call: those that the scope document states, and those that forward takes.

mod common;

use common::Random;
use kyzgultam::{forward, forward_axes, forward_plain, EncoderSettings, Lengths, PictureSettings, Refusal, RopeAxes};

/// Numbers 1 and 6, and the lengths, as the scope document states them.
fn stated(s: &EncoderSettings, grid_h: usize, grid_w: usize) -> Result<Lengths, Refusal> {
    let (p, m) = (s.picture.patch_size, s.picture.spatial_merge_size);
    let (h, i, x) = (s.hidden_size, s.intermediate_size, s.text_hidden_size);
    let allowed = (1..=32).contains(&p)
        && (1..=4).contains(&m)
        && (1..=2048).contains(&s.picture.image_size)
        && [1, 2].contains(&s.picture.resize_rule)
        && (4..=2048).contains(&h)
        && (1..=64).contains(&s.num_heads)
        && (4..=256).contains(&s.head_dim)
        && s.head_dim % 4 == 0
        && s.num_heads * s.head_dim == h
        && s.num_layers <= 48
        && (1..=8192).contains(&i)
        && (1..=8192).contains(&x)
        && s.scaling > 0.0
        && s.scaling.is_finite();
    if !allowed {
        return Err(Refusal::Setting);
    }
    let most = s.picture.image_size / p;
    if [grid_h, grid_w].iter().any(|side| !(1..=most).contains(side) || side % m != 0) {
        return Err(Refusal::Grid);
    }
    let t = grid_h * grid_w;
    let o = t / (m * m);
    let layer = 2 * h + 4 * h * h + 3 * h * i;
    let bias = if s.projector_bias { x } else { 0 };
    let projector = h + h * h * m * m + (x * h + bias) + (x * x + bias);
    Ok(Lengths {
        patches: t * 3 * p * p,
        weights: h * 3 * p * p + h + s.num_layers * layer + projector,
        tables: most * most * s.head_dim,
        axes: most * s.head_dim / 4,
        scratch: 7 * t * h + 2 * t * i + t + 2 * o * x,
        out: o * x,
    })
}

/// The lengths by the call and by each method, against those that are stated.
fn compare(s: &EncoderSettings, grid_h: usize, grid_w: usize) -> Result<Lengths, Refusal> {
    let right = stated(s, grid_h, grid_w);
    assert_eq!(s.lengths(grid_h, grid_w), right, "{s:?} {grid_h} {grid_w}");
    assert_eq!(s.scratch_len(grid_h, grid_w), right.map(|n| n.scratch), "{s:?} {grid_h} {grid_w}");
    assert_eq!(s.tokens_len(grid_h, grid_w), right.map(|n| n.out), "{s:?} {grid_h} {grid_w}");
    // The scope document's sum with the matrix in the place of the row.
    let plain = right.and_then(|n| {
        let t = grid_h * grid_w;
        let (h, i, o) = (s.hidden_size, s.intermediate_size, n.out);
        (t <= 64).then_some(7 * t * h + 2 * t * i + t * t + 2 * o).ok_or(Refusal::Tokens)
    });
    assert_eq!(s.plain_scratch_len(grid_h, grid_w), plain, "{s:?} {grid_h} {grid_w}");
    let merge = s.picture.spatial_merge_size;
    let smallest = stated(s, merge, merge);
    assert_eq!(s.weights_len(), smallest.map(|n| n.weights), "{s:?}");
    assert_eq!(s.tables_len(), smallest.map(|n| n.tables), "{s:?}");
    assert_eq!(s.axes_len(), smallest.map(|n| n.axes), "{s:?}");
    // Of the encoder's own settings restore knows nothing.
    let picture = EncoderSettings { picture: s.picture, ..EncoderSettings::default() };
    let bytes = stated(&picture, grid_h, grid_w).map(|n| n.patches);
    assert_eq!(s.picture.restored_len(grid_h, grid_w), bytes, "{s:?} {grid_h} {grid_w}");
    right
}

/// Settings from all of what is allowed, with any means and deviations, which no length hangs on.
fn any(random: &mut Random) -> EncoderSettings {
    let head_dim = 4 * random.from(1, 64);
    let num_heads = random.from(1, (2048 / head_dim).min(64));
    let mut floats = || [(); 3].map(|()| f32::from_bits(random.next() as u32));
    let (mean, deviation) = (floats(), floats());
    EncoderSettings {
        picture: PictureSettings {
            resize_rule: random.from(1, 2),
            mean,
            deviation,
            ..PictureSettings::new(random.from(1, 32), random.from(1, 4), random.from(1, 2048))
        },
        hidden_size: num_heads * head_dim,
        num_heads,
        head_dim,
        num_layers: random.from(0, 48),
        intermediate_size: random.from(1, 8192),
        text_hidden_size: random.from(1, 8192),
        projector_bias: random.from(0, 1) == 1,
        scaling: 0.5,
    }
}

type Field = fn(&mut EncoderSettings) -> &mut usize;
const FIELDS: [Field; 10] = [
    |s| &mut s.picture.patch_size,
    |s| &mut s.picture.spatial_merge_size,
    |s| &mut s.picture.image_size,
    |s| &mut s.picture.resize_rule,
    |s| &mut s.hidden_size,
    |s| &mut s.num_heads,
    |s| &mut s.head_dim,
    |s| &mut s.num_layers,
    |s| &mut s.intermediate_size,
    |s| &mut s.text_hidden_size,
];

const MAX: usize = usize::MAX;
/// 0, in and beside the ranges, and the end of usize.
const ENDS: [usize; 21] =
    [0, 1, 2, 3, 4, 5, 32, 33, 48, 49, 64, 65, 256, 260, 2048, 2049, 8192, 8193, 1 << 32, MAX - 3, MAX];

#[test]
fn lengths_are_those_stated() {
    let mut random = Random(20_260_815);
    let mut seen = [0; 7];
    let mut count = |found: Result<Lengths, Refusal>| seen[found.err().map_or(0, |r| r.number() as usize)] += 1;
    for i in 0..20_000 {
        let mut s = any(&mut random);
        let (merge, most) = (s.picture.spatial_merge_size, s.picture.image_size / s.picture.patch_size);
        let mut side = || random.from(0, most / merge + 1) * merge;
        let mut grid = [side(), side()];
        if i % 4 == 1 {
            grid[random.from(0, 1)] = random.from(0, most + 2);
        }
        if i % 4 >= 2 {
            *FIELDS[random.from(0, FIELDS.len() - 1)](&mut s) = ENDS[random.from(0, ENDS.len() - 1)];
        }
        count(compare(&s, grid[0], grid[1]));
    }
    // Each setting and each side at every end.
    for end in ENDS {
        for field in FIELDS {
            let mut s = EncoderSettings::default();
            *field(&mut s) = end;
            count(compare(&s, 2, 4));
        }
        for (grid_h, grid_w) in [(end, 4), (2, end), (end, end)] {
            count(compare(&EncoderSettings::default(), grid_h, grid_w));
        }
    }
    for scaling in [0.0, -0.0, -1.0, 1e-45, f32::MAX, f32::INFINITY, f32::NEG_INFINITY, f32::NAN] {
        count(compare(&EncoderSettings { scaling, ..EncoderSettings::default() }, 2, 4));
    }
    assert!([0, 1, 6].iter().all(|n| seen[*n] > 1000) && seen.iter().sum::<usize>() > 20_000, "{seen:?}");
}

/// What is longest: 2048 × 2048 patches, the widest layers and as many as can be.
#[test]
fn the_largest() {
    let settings = EncoderSettings {
        picture: PictureSettings::new(1, 1, 2048),
        hidden_size: 2048,
        num_heads: 8,
        head_dim: 256,
        num_layers: 48,
        intermediate_size: 8192,
        text_hidden_size: 8192,
        projector_bias: true,
        scaling: 0.0625,
    };
    let lengths = Lengths {
        patches: 12_582_912,
        weights: 3_309_529_088,
        tables: 1_073_741_824,
        axes: 131_072,
        scratch: 197_572_689_920,
        out: 34_359_738_368,
    };
    assert_eq!(compare(&settings, 2048, 2048), Ok(lengths));
}

/// With these lengths a call is accepted. With one float less it is refused with that buffer's number, and with one
/// more it is where the length is to be exact.
#[test]
fn forward_takes_just_these() {
    use Refusal::{Output, PatchesLength, Scratch, TableLength, Tokens, WeightsLength};
    let mut random = Random(1_234_567);
    let (mut accepted, mut refused, mut hopeless, mut many) = (0, 0, 0, 0);
    for _ in 0..400 {
        let mut s = random.encoder();
        (s.picture.mean, s.picture.deviation) = ([f32::NAN; 3], [0.0; 3]);
        let (grid_h, grid_w) = (random.from(0, 9), random.from(0, 9));
        let found = s.lengths(grid_h, grid_w);
        let Ok(n) = found else {
            let call = forward(&s, &[], grid_h, grid_w, &[], &[], &[], &mut [], &mut []);
            assert_eq!(call.err(), found.err(), "{s:?} {grid_h} {grid_w}");
            let call = forward_axes(&s, &[], grid_h, grid_w, &[], &RopeAxes::<&[f32]>::default(), &mut [], &mut []);
            assert_eq!(call.err(), found.err(), "{s:?} {grid_h} {grid_w}");
            let call = forward_plain(&s, &[], grid_h, grid_w, &[], &[], &[], &mut [], &mut []);
            assert_eq!(call.err(), found.err(), "{s:?} {grid_h} {grid_w}");
            refused += 1;
            // Without a length for the weights there is no picture that gives a grid.
            assert_eq!(s.weights_len().err(), s.picture.grid(1, 1).err().map(|_| Refusal::Grid), "{s:?}");
            hopeless += usize::from(s.weights_len().is_err());
            continue;
        };
        accepted += 1;
        let lens = [n.patches, n.weights, n.tables, n.tables, n.scratch, n.out];
        let floats = lens.map(|len| random.floats(len + 1, 0.2));
        let call = |lens: [usize; 6]| {
            let [patches, weights, cos, sin, scratch, out] = &floats;
            let (mut scratch, mut out) = (scratch[..lens[4]].to_vec(), out[..lens[5]].to_vec());
            let (cos, sin) = (&cos[..lens[2]], &sin[..lens[3]]);
            let (patches, weights) = (&patches[..lens[0]], &weights[..lens[1]]);
            forward(&s, patches, grid_h, grid_w, weights, cos, sin, &mut scratch, &mut out)
        };
        assert_eq!(call(lens).map(|count| count * s.text_hidden_size), Ok(n.out));
        let numbers = [PatchesLength, WeightsLength, TableLength, TableLength, Scratch, Output];
        for (k, number) in numbers.into_iter().enumerate() {
            let (mut less, mut more) = (lens, lens);
            less[k] -= 1;
            more[k] += 1;
            assert_eq!(call(less), Err(number), "{s:?} {grid_h} {grid_w}");
            assert_eq!(call(more).err(), (k < 4).then_some(number), "{s:?} {grid_h} {grid_w}");
        }
        // The same with plain attention, up to 64 tokens.
        let t = grid_h * grid_w;
        let lens = [n.patches, n.weights, n.tables, n.tables, n.scratch + t * t - t, n.out];
        let floats = lens.map(|len| random.floats(len + 1, 0.2));
        let call = |lens: [usize; 6]| {
            let part = |k: usize| &floats[k][..lens[k]];
            let (mut scratch, mut out) = (part(4).to_vec(), part(5).to_vec());
            forward_plain(&s, part(0), grid_h, grid_w, part(1), part(2), part(3), &mut scratch, &mut out)
        };
        let right = if t <= 64 { Ok(n.out) } else { Err(Tokens) };
        assert_eq!(call(lens).map(|count| count * s.text_hidden_size), right);
        for (k, number) in numbers.into_iter().enumerate() {
            let (mut less, mut more) = (lens, lens);
            less[k] -= 1;
            more[k] += 1;
            let number = if t <= 64 || k == 0 { number } else { Tokens };
            assert_eq!(call(less), Err(number), "{s:?} {grid_h} {grid_w}");
            assert_eq!(call(more).err(), (k < 4 || t > 64).then_some(number), "{s:?} {grid_h} {grid_w}");
        }
        many += usize::from(t > 64);
        // The same with four tables.
        let lens = [n.patches, n.weights, n.axes, n.axes, n.axes, n.axes, n.scratch, n.out];
        let floats = lens.map(|len| random.floats(len + 1, 0.2));
        let call = |lens: [usize; 8]| {
            let part = |k: usize| &floats[k][..lens[k]];
            let axes = RopeAxes { row_cos: part(2), row_sin: part(3), column_cos: part(4), column_sin: part(5) };
            let (mut scratch, mut out) = (part(6).to_vec(), part(7).to_vec());
            forward_axes(&s, part(0), grid_h, grid_w, part(1), &axes, &mut scratch, &mut out)
        };
        assert_eq!(call(lens).map(|count| count * s.text_hidden_size), Ok(n.out));
        let numbers = [[PatchesLength, WeightsLength], [TableLength; 2], [TableLength; 2], [Scratch, Output]].concat();
        for (k, number) in numbers.into_iter().enumerate() {
            let (mut less, mut more) = (lens, lens);
            less[k] -= 1;
            more[k] += 1;
            assert_eq!(call(less), Err(number), "{s:?} {grid_h} {grid_w}");
            assert_eq!(call(more).err(), (k < 6).then_some(number), "{s:?} {grid_h} {grid_w}");
        }
    }
    assert!(accepted > 50 && refused > 50 && hopeless > 10 && many > 0, "{accepted} {refused} {hopeless} {many}");
}
