//! The Rust's stored answers, through this crate: those of crates/*_replay, whose main.rt says what a record holds.

#[rustfmt::skip]
#[allow(dead_code)]
#[path = "../../oracle/sample.rs"]
mod sample;

use kyzgultam::{
    bf16, bf16_pack, bf16_widen, exp, forward, forward_plain, half_to_f32, pixtral_preprocess, preprocess_tile,
    restore, restore_tile, root, salvage, tanh, BadSample, EncoderSettings, PictureSettings, Refusal, Tile,
};
use sample::{damage, hash, marks, states, MARKS};

/// The cells that a preprocess writes to the front of, and a restore reads from.
const CELLS: usize = 12352;

fn records(text: &str) -> impl Iterator<Item = Vec<usize>> + '_ {
    text.lines().map(|line| line.split('\t').map(|x| x.parse().unwrap()).collect())
}

fn floats(bits: impl IntoIterator<Item = u32>) -> Vec<f32> {
    bits.into_iter().map(f32::from_bits).collect()
}

fn bits(floats: &[f32]) -> Vec<u32> {
    floats.iter().map(|x| x.to_bits()).collect()
}

fn marked(len: usize) -> Vec<f32> {
    floats(marks().take(len))
}

fn damaged(mut cells: Vec<u32>, code: usize, place: usize) -> Vec<f32> {
    damage(&mut cells, code, place);
    floats(cells)
}

fn bytes(seed: u32, len: usize) -> Vec<u8> {
    states(seed).map(|x| (x >> 24) as u8).take(len).collect()
}

fn hash_floats(floats: &[f32]) -> usize {
    hash(&bits(floats)) as usize
}

fn hash_bytes(bytes: &[u8]) -> usize {
    hash(&bytes.iter().map(|b| u32::from(*b)).collect::<Vec<_>>()) as usize
}

/// The settings of a record that ends with the resize rule, the means and the deviations.
fn picture_settings(v: &[usize]) -> PictureSettings {
    let end = &v[v.len() - 7..];
    let channels = |at: usize| [0, 1, 2].map(|c| f32::from_bits(end[at + c] as u32));
    let (mean, deviation) = (channels(1), channels(4));
    PictureSettings { resize_rule: end[0], mean, deviation, ..PictureSettings::new(v[0], v[1], v[2]) }
}

fn number<T>(answer: &Result<T, Refusal>) -> usize {
    answer.as_ref().err().map_or(0, |r| r.number() as usize)
}

#[test]
fn number_rules() {
    let text = include_str!("../../crates/number_replay/stdin");
    for line in text.lines() {
        let bits = |at: usize| u32::from_str_radix(&line[at..at + 8], 16).unwrap();
        let x = f32::from_bits(bits(2));
        let found = match &line[..1] {
            "b" => bf16(x).to_bits(),
            "h" => half_to_f32(bits(2) as u16).to_bits(),
            "r" => root(x).to_bits(),
            "e" => exp(x).to_bits(),
            "t" => tanh(x).to_bits(),
            "p" => u32::from(bf16_pack(x)),
            "w" => bf16_widen(bits(2) as u16).to_bits(),
            _ => panic!("{line}"),
        };
        assert_eq!(found, bits(11), "{line}");
    }
}

#[test]
fn pictures() {
    let mut seen = [0; 20];
    for v in records(include_str!("../../crates/picture_replay/stdin")) {
        let settings = picture_settings(&v);
        let mut cells = marked(CELLS);
        let made = pixtral_preprocess(&bytes(v[7] as u32, v[5]), v[3], v[4], &settings, &mut cells[..v[6]]);
        let sizes = made.map_or([0; 3], |p| [p.grid_h, p.grid_w, p.floats]);
        let answer = [number(&made), sizes[0], sizes[1], sizes[2], hash_floats(&cells[..v[6]])];
        assert_eq!(answer[..], v[8..13]);
        seen[number(&made)] += 1;

        // The restore of what that left, damaged.
        let cells = damaged(bits(&cells), v[17], v[18]);
        let mut out = bytes(MARKS, v[16]);
        let back = restore(&cells[..v[15]], v[13], v[14], &settings, &mut out);
        let sides = back.map_or([0; 2], |p| [p.height, p.width]);
        assert_eq!([number(&back), sides[0], sides[1], hash_bytes(&out)][..], v[19..23]);
        seen[number(&back)] += 1;
    }
    assert!([0, 1, 2, 3, 4, 5, 6, 7, 8, 19].iter().all(|n| seen[*n] > 0), "{seen:?}");
}

#[test]
fn tiles() {
    let answer = |found: &Result<Tile, Refusal>, hash: usize| {
        let sizes = found.map_or([0; 7], |t| [t.grid_h, t.grid_w, t.floats, t.top, t.left, t.height, t.width]);
        [&[number(found)], &sizes[..], &[hash]].concat()
    };
    let mut seen = [0; 21];
    for v in records(include_str!("../../crates/tiles_replay/stdin")) {
        let settings = picture_settings(&v);
        let mut cells = marked(CELLS);
        let made = preprocess_tile(&bytes(v[8] as u32, v[6]), v[3], v[4], v[5], &settings, &mut cells[..v[7]]);
        assert_eq!(answer(&made, hash_floats(&cells[..v[7]])), v[9..18]);
        seen[number(&made)] += 1;

        // As for a picture, in a sweep of the same sides.
        let cells = damaged(bits(&cells), v[21], v[22]);
        let mut out = bytes(MARKS, v[20]);
        let back = restore_tile(&cells[..v[19]], v[3], v[4], v[18], &settings, &mut out);
        assert_eq!(answer(&back, hash_bytes(&out)), v[23..32]);
        seen[number(&back)] += 1;
    }
    assert!([0, 1, 2, 3, 4, 5, 7, 8, 19, 20].iter().all(|n| seen[*n] > 0), "{seen:?}");
}

/// The patterns of a record of salvage: samples of bytes, some with other patterns in their place.
fn salvage_patches(v: &[usize], settings: &PictureSettings) -> Vec<u32> {
    let (mean, deviation) = (settings.mean, settings.deviation);
    let sample = |(i, b): (usize, u8)| {
        let c = i / v[9] % 3;
        ((f32::from(b) / 255.0 - mean[c]) / deviation[c]).to_bits()
    };
    let mut cells: Vec<u32> = bytes(v[8] as u32, v[5]).into_iter().enumerate().map(sample).collect();
    let end = v[11].min(v[5]);
    for i in (v[10]..end).step_by(v[12]) {
        cells[i] = (v[13] as u32).wrapping_add((i as u32).wrapping_mul(v[14] as u32));
    }
    if let Some(cell) = cells.get_mut(v[15]) {
        *cell = v[16] as u32;
    }
    cells
}

#[test]
fn salvaged() {
    let mut seen = [0; 22];
    for v in records(include_str!("../../crates/salvage_replay/stdin")) {
        let settings = picture_settings(&v);
        let cells = salvage_patches(&v, &settings);
        let mut out = bytes(MARKS, v[6]);
        // The crate's list has whole entries: of the numbers behind them nothing is lent.
        let words: Vec<u32> = states(MARKS).take(v[7]).collect();
        let entry = |e: &[u32]| BadSample { patch: e[0], place: e[1], bits: e[2] };
        let mut list: Vec<BadSample> = words.chunks_exact(3).map(entry).collect();
        let found = salvage(&floats(cells.iter().copied()), v[3], v[4], &settings, &mut out, &mut list);
        let sizes = found.map_or([0; 3], |s| [s.height, s.width, s.bad]);
        let mut left: Vec<u32> = list.iter().flat_map(|e| [e.patch, e.place, e.bits]).collect();
        left.extend_from_slice(words.chunks_exact(3).remainder());
        let answer = [number(&found), sizes[0], sizes[1], sizes[2], hash_bytes(&out), hash(&left) as usize];
        assert_eq!(hash(&cells) as usize, v[17]);
        assert_eq!(answer[..], v[18..24]);
        seen[number(&found)] += 1;
    }
    assert!([0, 1, 5, 6, 7, 19, 21].iter().all(|n| seen[*n] > 0), "{seen:?}");
}

#[test]
fn token_vectors() {
    const STARTS: [usize; 4] = [0, 1024, 7168, 7680];
    let unit = |x: u32| ((x >> 8) as f32 / 8_388_608.0 - 1.0).to_bits();
    let mut seen = [0; 23];
    let mut biased = [0; 23];
    let mut plain = [0; 23];
    for v in records(include_str!("../../crates/encoder_replay/stdin")) {
        // The crate's projector_bias is a bool; what is none is refused with 1, where it can be asked.
        if v[26] > 1 {
            assert_eq!(v[21], 1);
            continue;
        }
        let settings = EncoderSettings {
            picture: PictureSettings { resize_rule: v[25], ..PictureSettings::new(v[0], v[1], v[2]) },
            hidden_size: v[3],
            num_heads: v[4],
            head_dim: v[5],
            num_layers: v[6],
            intermediate_size: v[7],
            text_hidden_size: v[8],
            projector_bias: v[26] == 1,
            scaling: f32::from_bits(v[9] as u32),
        };
        let cells = damaged(states(v[18] as u32).map(unit).take(8192).collect(), v[19], v[20]);
        let part = |k: usize| &cells[STARTS[k]..STARTS[k] + v[12 + k]];
        let (mut scratch, mut out) = (marked(v[16]), marked(v[17]));
        let (cos, sin) = (part(2), part(3));
        let by = if v[27] == 1 { forward_plain } else { forward };
        let found = by(&settings, part(0), v[10], v[11], part(1), cos, sin, &mut scratch, &mut out);
        let answer = [number(&found), found.unwrap_or(0), hash_floats(&out), hash_floats(&scratch)];
        assert_eq!(answer[..], v[21..25]);
        seen[number(&found)] += 1;
        biased[number(&found)] += v[26];
        plain[number(&found)] += v[27];
    }
    assert!([0, 1, 5, 6, 7, 9, 10, 11, 12].iter().all(|n| seen[*n] > 0), "{seen:?}");
    assert!([0, 9, 12].iter().all(|n| biased[*n] > 0), "{biased:?}");
    assert!([0, 1, 6, 7, 11, 12, 22].iter().all(|n| plain[*n] > 0), "{plain:?}");
}
