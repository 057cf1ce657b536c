//! Every number of every call, the order in which they are given, and what a refused call leaves alone.

mod common;

use common::{allowed, same, Random};
use kyzgultam::{
    cut, forward, forward_axes, forward_plain, pixtral_preprocess, preprocess_tile, restore, restore_tile, salvage,
    BadSample, EncoderSettings, Patches, PictureSettings, PixtralEncoder, Refusal, RopeAxes,
};

const PICTURE: PictureSettings = PictureSettings::new(2, 2, 8);

const ENCODER: EncoderSettings = EncoderSettings {
    picture: PICTURE,
    hidden_size: 8,
    num_heads: 2,
    head_dim: 4,
    num_layers: 1,
    intermediate_size: 5,
    text_hidden_size: 3,
    projector_bias: false,
    scaling: 0.5,
};

/// Ways to spoil a call, each with the number that it should get, in the call's order.
type Spoils<C> = Vec<(u32, fn(&mut C))>;

/// Spoils the call in one way and in all later ways: the first number is the answer.
fn each<C: Clone>(good: &C, spoils: Spoils<C>, run: fn(&C) -> Result<(), Refusal>) {
    assert_eq!(run(good), Ok(()));
    for first in 0..spoils.len() {
        let number = spoils[first].0;
        let mut alone = good.clone();
        spoils[first].1(&mut alone);
        assert_eq!(run(&alone).unwrap_err().number(), number, "spoiled as {number} alone");
        let mut many = good.clone();
        // The later ones first, so that the one that is looked for has the last word.
        for (_, spoil) in spoils[first..].iter().rev() {
            spoil(&mut many);
        }
        assert_eq!(run(&many).unwrap_err().number(), number, "spoiled as {number} and later");
    }
}

#[test]
fn numbers_and_sentences() {
    assert!(Refusal::ALL.iter().map(|refusal| refusal.number()).eq(1..=27));
    for (i, refusal) in Refusal::ALL.iter().enumerate() {
        let sentence = refusal.to_string();
        assert!(sentence.len() > 20 && !sentence.ends_with('.'), "{sentence}");
        assert!(Refusal::ALL[..i].iter().all(|other| other.to_string() != sentence));
        let error: &dyn std::error::Error = refusal;
        assert_eq!(error.to_string(), sentence);
    }
}

/// Each refusal has the header's name, in its other spelling, and the header's number; the header has no other.
#[test]
fn the_numbers_are_the_headers() {
    let spelled = |refusal: Refusal| {
        let upper = |c: char| [if c.is_uppercase() { "_" } else { "" }, &c.to_uppercase().to_string()].concat();
        format!("KZ{} = {}", format!("{refusal:?}").chars().map(upper).collect::<String>(), refusal.number())
    };
    let header = include_str!("../../include/kyzgultam.h");
    let numbers = header.split("enum kz_number {").nth(1).unwrap().split("};").next().unwrap();
    let lines: Vec<&str> = numbers.lines().filter_map(|line| line.split("/*").next()).collect();
    let found: Vec<&str> =
        lines.iter().map(|line| line.trim().trim_end_matches(',')).filter(|l| !l.is_empty()).collect();
    let right: Vec<String> =
        ["KZ_ACCEPTED = 0".into()].into_iter().chain(Refusal::ALL.iter().copied().map(spelled)).collect();
    assert_eq!(found, right);
}

#[derive(Clone)]
struct Preprocess {
    settings: PictureSettings,
    rgb: Vec<u8>,
    height: usize,
    width: usize,
    out: usize,
}

/// Runs the call on a marked output, which is to be untouched where it is refused and to keep its tail.
fn preprocess(c: &Preprocess) -> Result<(), Refusal> {
    let marks = Random(7).floats(c.out, 1e9);
    let mut out = marks.clone();
    let found = pixtral_preprocess(&c.rgb, c.height, c.width, &c.settings, &mut out);
    let floats = found.map_or(0, |p| p.floats);
    assert!(same(&out[floats..], &marks[floats..]));
    assert!(out[..floats].iter().all(|x| x.abs() < 3.0));
    found.map(drop)
}

fn good_preprocess() -> Preprocess {
    Preprocess { settings: PICTURE, rgb: vec![9; 3 * 5 * 3], height: 3, width: 5, out: 4 * 8 * 3 + 7 }
}

#[test]
fn preprocess_refuses() {
    let good = good_preprocess();
    let spoils: Spoils<Preprocess> = vec![
        (1, |c| c.settings.spatial_merge_size = 0),
        (1, |c| c.settings.resize_rule = 0),
        (19, |c| c.settings.deviation[1] = 0.0),
        (2, |c| c.width = 8193),
        (3, |c| c.rgb.push(0)),
        (4, |c| c.settings.image_size = 3),
        (5, |c| c.out = 4 * 8 * 3 - 1),
    ];
    each(&good, spoils, preprocess);
    for side in [0, 8193, usize::MAX] {
        for (height, width) in [(side, 5), (3, side), (side, side)] {
            for resize_rule in [1, 2] {
                let settings = PictureSettings { resize_rule, ..PICTURE };
                assert_eq!(preprocess(&Preprocess { settings, height, width, ..good.clone() }), Err(Refusal::Side));
                assert_eq!(settings.grid(height, width), Err(Refusal::Side));
            }
        }
    }
    for rgb in [vec![], vec![9; 44]] {
        assert_eq!(preprocess(&Preprocess { rgb, ..good.clone() }), Err(Refusal::RgbLength));
    }
    assert_eq!(preprocess(&Preprocess { out: 0, ..good }), Err(Refusal::Output));
}

#[derive(Clone)]
struct Restore {
    settings: PictureSettings,
    patches: Vec<f32>,
    grid: (usize, usize),
    out: usize,
}

fn run_restore(c: &Restore) -> Result<(), Refusal> {
    let marks = Random(7).bytes(c.out);
    let mut out = marks.clone();
    let found = restore(&c.patches, c.grid.0, c.grid.1, &c.settings, &mut out);
    let bytes = found.map_or(0, |p| p.height * p.width * 3);
    assert_eq!(out[bytes..], marks[bytes..]);
    found.map(drop)
}

fn patches_of(rgb: &[u8], height: usize, width: usize) -> Vec<f32> {
    let mut patches = vec![0.0; PICTURE.patches_len(height, width).unwrap()];
    let found = pixtral_preprocess(rgb, height, width, &PICTURE, &mut patches);
    assert_eq!(found, Ok(Patches { grid_h: height / 2, grid_w: width / 2, floats: rgb.len() }));
    patches
}

fn good_restore() -> Restore {
    let patches = patches_of(&Random(3).bytes(4 * 8 * 3), 4, 8);
    Restore { settings: PICTURE, patches, grid: (2, 4), out: 4 * 8 * 3 + 5 }
}

#[test]
fn restore_refuses() {
    let good = good_restore();
    let spoils: Spoils<Restore> = vec![
        (1, |c| c.settings.patch_size = 33),
        (1, |c| c.settings.resize_rule = 3),
        (19, |c| c.settings.mean[2] = f32::NAN),
        (6, |c| c.grid.1 = 6),
        (7, |c| c.patches.push(0.0)),
        (5, |c| c.out = 4 * 8 * 3 - 1),
        (8, |c| c.patches[11] = 0.123),
    ];
    each(&good, spoils, run_restore);
    for side in [0, 1, 3, 5, 6, usize::MAX] {
        for grid in [(side, 4), (2, side)] {
            assert_eq!(run_restore(&Restore { grid, ..good.clone() }), Err(Refusal::Grid), "{grid:?}");
        }
    }
    for sample in [f32::NAN, f32::INFINITY, -0.0, good.patches[0] + 1e-6] {
        let mut bad = good.clone();
        bad.patches[0] = sample;
        assert_eq!(run_restore(&bad), Err(Refusal::Sample), "{sample}");
    }
}

#[derive(Clone)]
struct Salvage {
    settings: PictureSettings,
    patches: Vec<f32>,
    grid: (usize, usize),
    out: usize,
    list: usize,
}

fn run_salvage(c: &Salvage) -> Result<(), Refusal> {
    let marks = Random(7).bytes(c.out);
    let entry = BadSample { patch: 7, place: 8, bits: 9 };
    let (mut out, mut list) = (marks.clone(), vec![entry; c.list]);
    let found = salvage(&c.patches, c.grid.0, c.grid.1, &c.settings, &mut out, &mut list);
    let (bytes, bad) = found.map_or((0, 0), |s| (s.height * s.width * 3, s.bad));
    assert_eq!(out[bytes..], marks[bytes..]);
    assert!(list[bad..].iter().all(|found| *found == entry));
    assert!(list[..bad].iter().all(|found| *found != entry));
    found.map(drop)
}

/// Two samples are bad, for which there is just room.
fn good_salvage() -> Salvage {
    let Restore { settings, mut patches, grid, out } = good_restore();
    (patches[11], patches[95]) = (0.123, f32::NAN);
    Salvage { settings, patches, grid, out, list: 2 }
}

#[test]
fn salvage_refuses() {
    let good = good_salvage();
    let spoils: Spoils<Salvage> = vec![
        (1, |c| c.settings.patch_size = 33),
        (1, |c| c.settings.resize_rule = 3),
        (19, |c| c.settings.mean[2] = f32::NAN),
        (6, |c| c.grid.1 = 6),
        (7, |c| c.patches.push(0.0)),
        (5, |c| c.out = 4 * 8 * 3 - 1),
        (21, |c| c.list = 1),
    ];
    each(&good, spoils, run_salvage);
    for side in [0, 1, 3, 5, 6, usize::MAX] {
        for grid in [(side, 4), (2, side), (side, side)] {
            assert_eq!(run_salvage(&Salvage { grid, ..good.clone() }), Err(Refusal::Grid), "{grid:?}");
        }
    }
    for len in [0, 95, 97, 192] {
        let patches = vec![good.patches[0]; len];
        assert_eq!(run_salvage(&Salvage { patches, ..good.clone() }), Err(Refusal::PatchesLength));
    }
    for out in [0, 4 * 8 * 3 - 1] {
        assert_eq!(run_salvage(&Salvage { out, ..good.clone() }), Err(Refusal::Output));
    }
    assert_eq!(run_salvage(&Salvage { list: 0, ..good.clone() }), Err(Refusal::List));
    for sample in [f32::NAN, f32::INFINITY, -0.0, good.patches[0] + 1e-6] {
        let mut bad = good.clone();
        bad.patches[0] = sample;
        assert_eq!(run_salvage(&bad), Err(Refusal::List), "{sample}");
        assert_eq!(run_salvage(&Salvage { list: 3, ..bad }), Ok(()), "{sample}");
    }
}

/// A call of a tile: `input` is the RGB or the patches, `out` the output's length.
#[derive(Clone)]
struct OfTile<T> {
    settings: PictureSettings,
    input: Vec<T>,
    height: usize,
    width: usize,
    index: usize,
    out: usize,
}

fn run_preprocess_tile(c: &OfTile<u8>) -> Result<(), Refusal> {
    let marks = Random(7).floats(c.out, 1e9);
    let mut out = marks.clone();
    let found = preprocess_tile(&c.input, c.height, c.width, c.index, &c.settings, &mut out);
    let floats = found.map_or(0, |tile| tile.floats);
    assert!(same(&out[floats..], &marks[floats..]));
    assert!(out[..floats].iter().all(|x| x.abs() < 3.0));
    found.map(drop)
}

fn run_restore_tile(c: &OfTile<f32>) -> Result<(), Refusal> {
    let marks = Random(7).bytes(c.out);
    let mut out = marks.clone();
    let found = restore_tile(&c.input, c.height, c.width, c.index, &c.settings, &mut out);
    assert!(found.is_ok() || out == marks);
    found.map(drop)
}

/// A sweep of 10 × 13 is cut into four tiles of at most 8 × 8. The last has 2 × 5 pixels, padded to 4 × 8.
const LAST: usize = 4 * 8 * 3;

fn good_preprocess_tile() -> OfTile<u8> {
    let input = Random(3).bytes(10 * 13 * 3);
    OfTile { settings: PICTURE, input, height: 10, width: 13, index: 3, out: LAST + 7 }
}

fn good_restore_tile() -> OfTile<f32> {
    let OfTile { input: rgb, settings, height, width, index, .. } = good_preprocess_tile();
    let mut input = vec![0.0; LAST];
    preprocess_tile(&rgb, height, width, index, &settings, &mut input).unwrap();
    OfTile { settings, input, height, width, index, out: rgb.len() + 5 }
}

#[test]
fn tiles_refuse() {
    let good = good_preprocess_tile();
    let spoils: Spoils<OfTile<u8>> = vec![
        (1, |c| c.settings.spatial_merge_size = 5),
        (1, |c| c.settings.resize_rule = 3),
        (19, |c| c.settings.deviation[0] = 0.0),
        (2, |c| c.height = 8193),
        (3, |c| c.input.push(0)),
        (4, |c| c.settings.image_size = 3),
        (20, |c| c.index = 4),
        (5, |c| c.out = LAST - 1),
    ];
    each(&good, spoils, run_preprocess_tile);
    let spoils: Spoils<OfTile<u8>> = vec![
        (1, |c| c.settings.patch_size = 0),
        (1, |c| c.settings.resize_rule = 0),
        (19, |c| c.settings.mean[1] = f32::NAN),
        (2, |c| c.width = 0),
        (4, |c| c.settings.image_size = 3),
    ];
    each(&good, spoils, |c| cut(c.height, c.width, &c.settings).map(drop));
    let back = good_restore_tile();
    let spoils: Spoils<OfTile<f32>> = vec![
        (1, |c| c.settings.patch_size = 33),
        (1, |c| c.settings.resize_rule = 0),
        (19, |c| c.settings.mean[2] = f32::INFINITY),
        (2, |c| c.width = 8193),
        (4, |c| c.settings.image_size = 3),
        (20, |c| c.index = 4),
        (7, |c| c.input.push(0.0)),
        (5, |c| c.out = 10 * 13 * 3 - 1),
        // The last sample is the padding's: blue of a byte that is not 0.
        (8, |c| c.input[LAST - 1] = common::sample(1, c.settings.mean[2], c.settings.deviation[2])),
    ];
    each(&back, spoils, run_restore_tile);

    for side in [0, 8193, usize::MAX] {
        for (height, width) in [(side, 13), (10, side), (side, side)] {
            assert_eq!(cut(height, width, &PICTURE), Err(Refusal::Side));
            assert_eq!(PICTURE.tile(height, width, 0), Err(Refusal::Side));
            assert_eq!(run_preprocess_tile(&OfTile { height, width, ..good.clone() }), Err(Refusal::Side));
            assert_eq!(run_restore_tile(&OfTile { height, width, ..back.clone() }), Err(Refusal::Side));
        }
    }
    for index in [4, 5, usize::MAX / 2, usize::MAX - 3, usize::MAX] {
        assert_eq!(PICTURE.tile(10, 13, index), Err(Refusal::Tile));
        assert_eq!(PICTURE.tile_len(10, 13, index), Err(Refusal::Tile));
        assert_eq!(run_preprocess_tile(&OfTile { index, ..good.clone() }), Err(Refusal::Tile));
        assert_eq!(run_restore_tile(&OfTile { index, ..back.clone() }), Err(Refusal::Tile));
    }
    for len in [0, 10 * 13 * 3 - 1, 10 * 13 * 3 + 1, 8 * 8 * 3] {
        assert_eq!(run_preprocess_tile(&OfTile { input: vec![9; len], ..good.clone() }), Err(Refusal::RgbLength));
    }
    // The length of the tile's own pixels, that of a whole tile, and none.
    for len in [0, LAST - 1, LAST + 1, 2 * 5 * 3, 8 * 8 * 3] {
        let input = vec![back.input[0]; len];
        assert_eq!(run_restore_tile(&OfTile { input, ..back.clone() }), Err(Refusal::PatchesLength), "{len}");
    }
    for out in [0, LAST - 1] {
        assert_eq!(run_preprocess_tile(&OfTile { out, ..good.clone() }), Err(Refusal::Output));
    }
    // The output is the sweep's, though the tile's own bytes are 30.
    for out in [0, 30, LAST, 10 * 13 * 3 - 1] {
        assert_eq!(run_restore_tile(&OfTile { out, ..back.clone() }), Err(Refusal::Output));
    }
    for sample in [f32::NAN, f32::INFINITY, -0.0, back.input[0] + 1e-6] {
        for place in [0, LAST - 1] {
            let mut bad = back.clone();
            bad.input[place] = sample;
            assert_eq!(run_restore_tile(&bad), Err(Refusal::Sample), "{sample}");
        }
    }
}

/// Means and deviations by which a sample is not finite, or two bytes are alike.
const REFUSED: [(f32, f32); 22] = [
    (f32::NAN, 0.25),
    (0.2, f32::NAN),
    (f32::INFINITY, 0.25),
    (f32::NEG_INFINITY, 0.25),
    (0.2, f32::INFINITY),
    (0.2, f32::NEG_INFINITY),
    (f32::INFINITY, f32::INFINITY),
    // Forgotten ones, and a sign that says nothing.
    (0.0, 0.0),
    (0.2, 0.0),
    (0.2, -0.0),
    // Quotients that overflow: nearly all, those of a few bytes, and those of the last and of the first byte alone.
    (0.2, 1e-45),
    (0.2, -1e-40),
    (0.2, 2.3e-39),
    (0.2, 2.345e-39),
    (0.8, 2.345e-39),
    (-1e30, 1e-10),
    // Differences that are all alike, and of which two are.
    (1e8, 0.25),
    (-1e8, 0.25),
    (f32::MAX, 1.0),
    (65_600.0, 1.0),
    (-65_537.0, 1.0),
    // Quotients that are alike where the differences are not.
    (-65_000.0, 1.98),
];

#[test]
fn channels_are_refused() {
    for (mean, deviation) in REFUSED {
        assert!(!allowed(mean, deviation), "{mean} {deviation}");
        for spoiled in [&[0][..], &[1], &[2], &[0, 1, 2]] {
            let mut settings = PICTURE;
            for c in spoiled {
                (settings.mean[*c], settings.deviation[*c]) = (mean, deviation);
            }
            let (made, back) = (Preprocess { settings, ..good_preprocess() }, Restore { settings, ..good_restore() });
            assert_eq!(preprocess(&made), Err(Refusal::Channel), "{settings:?}");
            assert_eq!(run_restore(&back), Err(Refusal::Channel), "{settings:?}");
            // 1 comes before, and what comes after does not count.
            let merged = PictureSettings { spatial_merge_size: 5, ..settings };
            assert_eq!(preprocess(&Preprocess { settings: merged, ..made.clone() }), Err(Refusal::Setting));
            assert_eq!(run_restore(&Restore { settings: merged, ..back.clone() }), Err(Refusal::Setting));
            assert_eq!(preprocess(&Preprocess { height: 0, rgb: vec![], out: 0, ..made }), Err(Refusal::Channel));
            let nothing = Restore { patches: vec![], grid: (0, usize::MAX), out: 0, ..back };
            assert_eq!(run_restore(&nothing), Err(Refusal::Channel));
            let saved = Salvage { settings, ..good_salvage() };
            assert_eq!(run_salvage(&saved), Err(Refusal::Channel), "{settings:?}");
            assert_eq!(run_salvage(&Salvage { settings: merged, ..saved.clone() }), Err(Refusal::Setting));
            let nothing = Salvage { patches: vec![], grid: (0, usize::MAX), out: 0, list: 0, ..saved };
            assert_eq!(run_salvage(&nothing), Err(Refusal::Channel));
            // The same of a cut and of tiles; a tile's length hangs on neither.
            for (height, width) in [(10, 13), (0, usize::MAX)] {
                assert_eq!(cut(height, width, &settings), Err(Refusal::Channel), "{settings:?}");
                assert_eq!(cut(height, width, &merged), Err(Refusal::Setting), "{settings:?}");
                let there = OfTile { settings, height, width, ..good_preprocess_tile() };
                let back = OfTile { settings, height, width, ..good_restore_tile() };
                assert_eq!(run_preprocess_tile(&there), Err(Refusal::Channel), "{settings:?}");
                assert_eq!(run_restore_tile(&back), Err(Refusal::Channel), "{settings:?}");
                assert_eq!(run_preprocess_tile(&OfTile { settings: merged, ..there }), Err(Refusal::Setting));
                assert_eq!(run_restore_tile(&OfTile { settings: merged, ..back }), Err(Refusal::Setting));
                assert_eq!(settings.tile(height, width, 3), PICTURE.tile(height, width, 3));
            }
        }
    }
}

/// Whether a channel is allowed is what plain Rust says, in each place.
#[test]
fn channels_are_allowed_as_defined() {
    let mut random = Random(20_260_819);
    let mut seen = [0; 2];
    for i in 0..6000 {
        let (mean, deviation) = random.channel();
        let mut settings = PICTURE;
        (settings.mean[i % 3], settings.deviation[i % 3]) = (mean, deviation);
        let right = allowed(mean, deviation);
        let refused = (!right).then_some(Refusal::Channel);
        let mut out = [0.0; 4 * 8 * 3];
        let found = pixtral_preprocess(&[9; 4 * 8 * 3], 4, 8, &settings, &mut out);
        assert_eq!(found.err(), refused, "{settings:?}");
        let back = restore(&out, 2, 4, &settings, &mut [0; 4 * 8 * 3]);
        assert_eq!(back.err(), refused, "{settings:?}");
        let saved = salvage(&out, 2, 4, &settings, &mut [0; 4 * 8 * 3], &mut []);
        assert_eq!(saved.err(), refused, "{settings:?}");
        assert_eq!(cut(4, 8, &settings).err(), refused, "{settings:?}");
        let tile = preprocess_tile(&[9; 4 * 8 * 3], 4, 8, 0, &settings, &mut out);
        assert_eq!(tile.err(), refused, "{settings:?}");
        let back = restore_tile(&out, 4, 8, 0, &settings, &mut [0; 4 * 8 * 3]);
        assert_eq!(back.err(), refused, "{settings:?}");
        seen[usize::from(right)] += 1;
    }
    assert!(seen.iter().all(|n| *n > 1000), "{seen:?}");
}

#[derive(Clone)]
struct Forward {
    settings: EncoderSettings,
    patches: Vec<f32>,
    grid: (usize, usize),
    weights: Vec<f32>,
    cos: Vec<f32>,
    sin: Vec<f32>,
    scratch: usize,
    out: usize,
}

fn run_forward(c: &Forward) -> Result<(), Refusal> {
    let marks = Random(7).floats(c.out.max(c.scratch), 1e9);
    let (mut out, mut scratch) = (marks[..c.out].to_vec(), marks[..c.scratch].to_vec());
    let found =
        forward(&c.settings, &c.patches, c.grid.0, c.grid.1, &c.weights, &c.cos, &c.sin, &mut scratch, &mut out);
    let floats = found.map_or(0, |count| count * c.settings.text_hidden_size);
    assert!(same(&out[floats..], &marks[floats..c.out]));
    if matches!(found, Ok(_) | Err(Refusal::NotFinite)) {
        assert!(same(&scratch, &vec![0.0; c.scratch]), "the scratch is +0 all over");
    } else {
        assert!(same(&scratch, &marks[..c.scratch]), "the scratch is as it was");
    }
    // The same through the struct.
    let encoder = PixtralEncoder { settings: c.settings, weights: &c.weights, rope_cos: &c.cos, rope_sin: &c.sin };
    let mut again = marks[..c.out].to_vec();
    assert_eq!(encoder.forward(&c.patches, c.grid.0, c.grid.1, &mut scratch, &mut again), found);
    assert!(same(&again, &out));
    found.map(drop)
}

fn good_forward() -> Forward {
    let mut random = Random(11);
    Forward {
        settings: ENCODER,
        patches: patches_of(&random.bytes(4 * 8 * 3), 4, 8),
        grid: (2, 4),
        weights: random.floats(ENCODER.weights_len().unwrap(), 0.3),
        cos: random.floats(ENCODER.tables_len().unwrap(), 1.0),
        sin: random.floats(ENCODER.tables_len().unwrap(), 1.0),
        scratch: ENCODER.scratch_len(2, 4).unwrap() + 9,
        out: ENCODER.tokens_len(2, 4).unwrap() + 5,
    }
}

#[test]
fn forward_refuses() {
    let good = good_forward();
    let spoils: fn() -> Spoils<Forward> = || {
        vec![
            (1, |c| c.settings.num_layers = 49),
            (1, |c| c.settings.picture.resize_rule = 0),
            (6, |c| c.grid.0 = 3),
            (7, |c| c.patches.truncate(c.patches.len() - 1)),
            (9, |c| c.weights.truncate(c.weights.len() - 1)),
            (10, |c| c.sin.push(0.0)),
            (5, |c| c.out = 5),
            (11, |c| c.scratch -= 10),
            (12, |c| c.weights[3] = f32::NAN),
        ]
    };
    each(&good, spoils(), run_forward);
    // Of means and deviations it knows nothing, so that 19 is none of its numbers.
    let mut odd = good.clone();
    (odd.settings.picture.mean, odd.settings.picture.deviation) = ([f32::NAN; 3], [0.0; 3]);
    each(&odd, spoils(), run_forward);
    let others: Spoils<Forward> = vec![
        (6, |c| c.grid.1 = 0),
        (6, |c| c.grid.1 = usize::MAX),
        (7, |c| c.patches.clear()),
        (9, |c| c.weights.push(0.0)),
        (9, |c| c.weights.clear()),
        (10, |c| c.cos.truncate(c.cos.len() - 1)),
        (10, |c| c.cos.clear()),
        (5, |c| c.out = 0),
        (11, |c| c.scratch = 0),
        (12, |c| c.patches[0] = f32::INFINITY),
        (12, |c| *c.cos.last_mut().unwrap() = f32::NEG_INFINITY),
        (12, |c| *c.sin.last_mut().unwrap() = f32::NAN),
        // Finite inputs, but a stage that is not.
        (12, |c| c.weights.fill(f32::MAX)),
    ];
    for (number, spoil) in others {
        let mut bad = good.clone();
        spoil(&mut bad);
        assert_eq!(run_forward(&bad).unwrap_err().number(), number);
    }
}

/// A call by small tables: all but the tables are the other's.
#[derive(Clone)]
struct ForwardAxes {
    call: Forward,
    axes: RopeAxes,
}

fn run_forward_axes(c: &ForwardAxes) -> Result<(), Refusal> {
    let ForwardAxes { call: Forward { settings, patches, grid, weights, scratch, out, .. }, axes } = c;
    let (room, scratch_room) = (*out, *scratch);
    let marks = Random(7).floats(room.max(scratch_room), 1e9);
    let (mut out, mut scratch) = (marks[..room].to_vec(), marks[..scratch_room].to_vec());
    let found = forward_axes(settings, patches, grid.0, grid.1, weights, axes, &mut scratch, &mut out);
    let floats = found.map_or(0, |count| count * settings.text_hidden_size);
    assert!(same(&out[floats..], &marks[floats..room]));
    if matches!(found, Ok(_) | Err(Refusal::NotFinite)) {
        assert!(same(&scratch, &vec![0.0; scratch_room]), "the scratch is +0 all over");
    } else {
        assert!(same(&scratch, &marks[..scratch_room]), "the scratch is as it was");
    }
    found.map(drop)
}

fn good_forward_axes() -> ForwardAxes {
    let mut random = Random(12);
    let mut table = || random.floats(ENCODER.axes_len().unwrap(), 1.0);
    let axes = RopeAxes { row_cos: table(), row_sin: table(), column_cos: table(), column_sin: table() };
    ForwardAxes { call: good_forward(), axes }
}

#[test]
fn forward_axes_refuses() {
    let good = good_forward_axes();
    let spoils: fn() -> Spoils<ForwardAxes> = || {
        vec![
            (1, |c| c.call.settings.num_layers = 49),
            (1, |c| c.call.settings.picture.resize_rule = 0),
            (6, |c| c.call.grid.0 = 3),
            (7, |c| c.call.patches.truncate(c.call.patches.len() - 1)),
            (9, |c| c.call.weights.truncate(c.call.weights.len() - 1)),
            (10, |c| c.axes.row_cos.push(0.0)),
            (10, |c| c.axes.row_sin.truncate(c.axes.row_sin.len() - 1)),
            (10, |c| c.axes.column_cos.clear()),
            (10, |c| c.axes.column_sin.push(0.0)),
            (5, |c| c.call.out = 5),
            (11, |c| c.call.scratch -= 10),
            (12, |c| c.call.weights[3] = f32::NAN),
        ]
    };
    each(&good, spoils(), run_forward_axes);
    let mut odd = good.clone();
    (odd.call.settings.picture.mean, odd.call.settings.picture.deviation) = ([f32::NAN; 3], [0.0; 3]);
    each(&odd, spoils(), run_forward_axes);
    let others: Spoils<ForwardAxes> = vec![
        (6, |c| c.call.grid.1 = usize::MAX),
        (7, |c| c.call.patches.clear()),
        (9, |c| c.call.weights.clear()),
        // Each as long as a full table, all of them gone, and the four as two.
        (10, |c| c.axes.row_cos.resize(ENCODER.tables_len().unwrap(), 0.0)),
        (10, |c| c.axes = RopeAxes::default()),
        (10, |c| (c.axes.row_cos, c.axes.row_sin) = (c.call.cos.clone(), c.call.sin.clone())),
        (5, |c| c.call.out = 0),
        (11, |c| c.call.scratch = 0),
        (12, |c| c.call.patches[0] = f32::INFINITY),
        (12, |c| *c.axes.row_cos.last_mut().unwrap() = f32::NEG_INFINITY),
        (12, |c| *c.axes.row_sin.last_mut().unwrap() = f32::NAN),
        (12, |c| *c.axes.column_cos.last_mut().unwrap() = f32::INFINITY),
        (12, |c| *c.axes.column_sin.last_mut().unwrap() = f32::NAN),
        (12, |c| c.call.weights.fill(f32::MAX)),
    ];
    for (number, spoil) in others {
        let mut bad = good.clone();
        spoil(&mut bad);
        assert_eq!(run_forward_axes(&bad).unwrap_err().number(), number);
    }
}

/// With plain attention.
fn run_forward_plain(c: &Forward) -> Result<(), Refusal> {
    let marks = Random(7).floats(c.out.max(c.scratch), 1e9);
    let (mut out, mut scratch) = (marks[..c.out].to_vec(), marks[..c.scratch].to_vec());
    let found =
        forward_plain(&c.settings, &c.patches, c.grid.0, c.grid.1, &c.weights, &c.cos, &c.sin, &mut scratch, &mut out);
    let floats = found.map_or(0, |count| count * c.settings.text_hidden_size);
    assert!(same(&out[floats..], &marks[floats..c.out]));
    if matches!(found, Ok(_) | Err(Refusal::NotFinite)) {
        assert!(same(&scratch, &vec![0.0; c.scratch]), "the scratch is +0 all over");
    } else {
        assert!(same(&scratch, &marks[..c.scratch]), "the scratch is as it was");
    }
    // The same through the struct.
    let encoder = PixtralEncoder { settings: c.settings, weights: &c.weights, rope_cos: &c.cos, rope_sin: &c.sin };
    let mut again = marks[..c.out].to_vec();
    assert_eq!(encoder.forward_plain(&c.patches, c.grid.0, c.grid.1, &mut scratch, &mut again), found);
    assert!(same(&again, &out));
    found.map(drop)
}

/// A grid of 8 × 8, the most tokens that are served, where one of 8 × 10 is allowed too.
fn good_forward_plain() -> Forward {
    let settings = EncoderSettings { picture: PictureSettings::new(2, 2, 20), ..ENCODER };
    let mut random = Random(13);
    Forward {
        settings,
        patches: random.floats(settings.picture.restored_len(8, 8).unwrap(), 1.0),
        grid: (8, 8),
        weights: random.floats(settings.weights_len().unwrap(), 0.3),
        cos: random.floats(settings.tables_len().unwrap(), 1.0),
        sin: random.floats(settings.tables_len().unwrap(), 1.0),
        scratch: settings.plain_scratch_len(8, 8).unwrap() + 9,
        out: settings.tokens_len(8, 8).unwrap() + 5,
    }
}

#[test]
fn forward_plain_refuses() {
    let good = good_forward_plain();
    let spoils: fn() -> Spoils<Forward> = || {
        vec![
            (1, |c| c.settings.num_layers = 49),
            (1, |c| c.settings.picture.resize_rule = 0),
            (6, |c| c.grid.0 = 3),
            (7, |c| c.patches.truncate(c.patches.len() - 1)),
            (22, |c| {
                c.grid.1 = 10;
                c.patches.resize(8 * 10 * 3 * 4, 0.5);
            }),
            (9, |c| c.weights.truncate(c.weights.len() - 1)),
            (10, |c| c.sin.push(0.0)),
            (5, |c| c.out = 47),
            (11, |c| c.scratch -= 10),
            (12, |c| c.weights[3] = f32::NAN),
        ]
    };
    each(&good, spoils(), run_forward_plain);
    let mut odd = good.clone();
    (odd.settings.picture.mean, odd.settings.picture.deviation) = ([f32::NAN; 3], [0.0; 3]);
    each(&odd, spoils(), run_forward_plain);
    let others: Spoils<Forward> = vec![
        (6, |c| c.grid.1 = 0),
        (6, |c| c.grid.1 = usize::MAX),
        // Patches of 8 × 8 for 8 × 10, and none.
        (7, |c| c.grid.1 = 10),
        (7, |c| c.patches.clear()),
        // Room for 80 tokens and their matrix, and no room at all.
        (22, |c| {
            c.grid = (10, 8);
            c.patches.resize(8 * 10 * 3 * 4, 0.5);
            (c.scratch, c.out) = (20_000, 1_000);
        }),
        (22, |c| {
            c.grid = (10, 10);
            c.patches.resize(10 * 10 * 3 * 4, f32::NAN);
            (c.scratch, c.out) = (0, 0);
            (c.weights, c.cos, c.sin) = (vec![], vec![], vec![]);
        }),
        (9, |c| c.weights.push(0.0)),
        (9, |c| c.weights.clear()),
        (10, |c| c.cos.truncate(c.cos.len() - 1)),
        (10, |c| c.cos.clear()),
        (5, |c| c.out = 0),
        (11, |c| c.scratch = c.settings.scratch_len(8, 8).unwrap()),
        (11, |c| c.scratch = 0),
        (12, |c| c.patches[0] = f32::INFINITY),
        (12, |c| *c.cos.last_mut().unwrap() = f32::NEG_INFINITY),
        (12, |c| *c.sin.last_mut().unwrap() = f32::NAN),
        // Finite inputs, but a stage that is not.
        (12, |c| c.weights.fill(f32::MAX)),
    ];
    for (number, spoil) in others {
        let mut bad = good.clone();
        spoil(&mut bad);
        assert_eq!(run_forward_plain(&bad).unwrap_err().number(), number);
    }
}

#[test]
fn settings_at_their_ends() {
    type Field<S> = fn(&mut S) -> &mut usize;
    let picture: [(Field<PictureSettings>, usize); 4] = [
        (|s| &mut s.patch_size, 32),
        (|s| &mut s.spatial_merge_size, 4),
        (|s| &mut s.image_size, 2048),
        (|s| &mut s.resize_rule, 2),
    ];
    for (field, most) in picture {
        for value in [0, most + 1, usize::MAX] {
            let mut settings = PICTURE;
            *field(&mut settings) = value;
            assert_eq!(preprocess(&Preprocess { settings, ..good_preprocess() }), Err(Refusal::Setting));
            assert_eq!(run_restore(&Restore { settings, ..good_restore() }), Err(Refusal::Setting));
            assert_eq!(run_salvage(&Salvage { settings, ..good_salvage() }), Err(Refusal::Setting));
            assert_eq!(run_preprocess_tile(&OfTile { settings, ..good_preprocess_tile() }), Err(Refusal::Setting));
            assert_eq!(run_restore_tile(&OfTile { settings, ..good_restore_tile() }), Err(Refusal::Setting));
            assert_eq!(cut(1, 1, &settings), Err(Refusal::Setting));
            assert_eq!(settings.tile(1, 1, 0), Err(Refusal::Setting));
            assert_eq!(settings.grid(1, 1), Err(Refusal::Setting));
            assert_eq!(settings.patches_len(1, 1), Err(Refusal::Setting));
            assert_eq!(settings.restored_len(2, 2), Err(Refusal::Setting));
            let mut bad = good_forward();
            bad.settings.picture = settings;
            assert_eq!(run_forward(&bad), Err(Refusal::Setting));
            assert_eq!(bad.settings.lengths(2, 4), Err(Refusal::Setting));
            assert_eq!(bad.settings.weights_len(), Err(Refusal::Setting));
            assert_eq!(run_forward_plain(&bad), Err(Refusal::Setting));
            assert_eq!(bad.settings.plain_scratch_len(2, 4), Err(Refusal::Setting));
            let small = ForwardAxes { call: bad, ..good_forward_axes() };
            assert_eq!(run_forward_axes(&small), Err(Refusal::Setting));
        }
    }
    let encoder: [(Field<EncoderSettings>, &[usize]); 6] = [
        (|s| &mut s.hidden_size, &[0, 7, 9, 2049, usize::MAX]),
        (|s| &mut s.num_heads, &[0, 1, 3, 65, usize::MAX]),
        (|s| &mut s.head_dim, &[0, 2, 3, 8, 260, usize::MAX]),
        (|s| &mut s.num_layers, &[49, usize::MAX]),
        (|s| &mut s.intermediate_size, &[0, 8193, usize::MAX]),
        (|s| &mut s.text_hidden_size, &[0, 8193, usize::MAX]),
    ];
    for (field, values) in encoder {
        for value in values {
            let mut bad = good_forward();
            *field(&mut bad.settings) = *value;
            assert_eq!(run_forward(&bad), Err(Refusal::Setting));
            assert_eq!(bad.settings.lengths(2, 4), Err(Refusal::Setting));
            assert_eq!(bad.settings.weights_len(), Err(Refusal::Setting));
            assert_eq!(bad.settings.tables_len(), Err(Refusal::Setting));
            assert_eq!(bad.settings.axes_len(), Err(Refusal::Setting));
            assert_eq!(bad.settings.scratch_len(2, 4), Err(Refusal::Setting));
            assert_eq!(bad.settings.tokens_len(2, 4), Err(Refusal::Setting));
            assert_eq!(run_forward_plain(&bad), Err(Refusal::Setting));
            assert_eq!(bad.settings.plain_scratch_len(2, 4), Err(Refusal::Setting));
            let small = ForwardAxes { call: bad, ..good_forward_axes() };
            assert_eq!(run_forward_axes(&small), Err(Refusal::Setting));
        }
    }
    for scaling in [0.0, -0.0, -1.0, f32::INFINITY, f32::NEG_INFINITY, f32::NAN] {
        let mut bad = good_forward();
        bad.settings.scaling = scaling;
        assert_eq!(run_forward(&bad), Err(Refusal::Setting));
        assert_eq!(bad.settings.lengths(2, 4), Err(Refusal::Setting));
        assert_eq!(bad.settings.weights_len(), Err(Refusal::Setting));
        assert_eq!(run_forward_plain(&bad), Err(Refusal::Setting));
        assert_eq!(bad.settings.plain_scratch_len(2, 4), Err(Refusal::Setting));
        let small = ForwardAxes { call: bad, ..good_forward_axes() };
        assert_eq!(run_forward_axes(&small), Err(Refusal::Setting));
    }
}

#[test]
fn lengths_refuse() {
    for side in [0, 1, 3, 5, 6, usize::MAX] {
        for (grid_h, grid_w) in [(side, 4), (2, side), (side, side)] {
            assert_eq!(ENCODER.lengths(grid_h, grid_w), Err(Refusal::Grid));
            assert_eq!(ENCODER.scratch_len(grid_h, grid_w), Err(Refusal::Grid));
            assert_eq!(ENCODER.tokens_len(grid_h, grid_w), Err(Refusal::Grid));
            assert_eq!(ENCODER.plain_scratch_len(grid_h, grid_w), Err(Refusal::Grid));
            assert_eq!(PICTURE.restored_len(grid_h, grid_w), Err(Refusal::Grid));
            // A setting comes first.
            assert_eq!(EncoderSettings { num_layers: 49, ..ENCODER }.lengths(grid_h, grid_w), Err(Refusal::Setting));
            // Means and deviations come nowhere.
            let odd = PictureSettings { mean: [f32::NAN; 3], deviation: [0.0; 3], ..PICTURE };
            assert_eq!(EncoderSettings { picture: odd, ..ENCODER }.lengths(grid_h, grid_w), Err(Refusal::Grid));
            assert_eq!(odd.restored_len(grid_h, grid_w), Err(Refusal::Grid));
        }
    }
    // An image size of patch × merge allows one grid; one less allows none, and then no weights have a length.
    for (image_size, refusal) in [(4, None), (3, Some(Refusal::Grid)), (0, Some(Refusal::Setting))] {
        let settings = EncoderSettings { picture: PictureSettings { image_size, ..PICTURE }, ..ENCODER };
        assert_eq!(settings.lengths(2, 2).err(), refusal);
        assert_eq!(settings.weights_len().err(), refusal);
        assert_eq!(settings.tables_len().err(), refusal);
        assert_eq!(settings.axes_len().err(), refusal);
    }
}
