//! Sweeps larger than the image size: how they are cut, what a tile's patches are, and that the tiles join.

mod common;

use common::{alike, same, sample, Random};
use kyzgultam::{
    cut, forward, pixtral_preprocess, preprocess_tile, restore, restore_tile, Cut, EncoderSettings, PictureSettings,
    Refusal, Tile,
};

const MAX: usize = usize::MAX;

/// A sweep and the settings that it is cut with.
struct Sweep {
    settings: PictureSettings,
    height: usize,
    width: usize,
    rgb: Vec<u8>,
}

impl Sweep {
    fn new(random: &mut Random, settings: PictureSettings, height: usize, width: usize) -> Sweep {
        Sweep { settings, height, width, rgb: random.bytes(height * width * 3) }
    }

    /// One that has an accepted cut, of at most some hundred tiles, with all kinds of channels.
    fn any(random: &mut Random) -> Sweep {
        loop {
            let mut settings = random.picture();
            for c in 0..3 {
                (settings.mean[c], settings.deviation[c]) = random.allowed_channel();
            }
            let side = side(&settings);
            if side > 0 {
                let (height, width) = (random.from(1, 4 * side.min(50)), random.from(1, 4 * side.min(50)));
                return Sweep::new(random, settings, height, width);
            }
        }
    }

    /// How it is cut, as the definition reads.
    fn cut(&self) -> Cut {
        let side = side(&self.settings);
        let count = |length: usize| (0..length).step_by(side).count();
        Cut { side, rows: count(self.height), columns: count(self.width) }
    }

    fn count(&self) -> usize {
        self.cut().rows * self.cut().columns
    }

    /// A tile, as the definition reads.
    fn tile(&self, index: usize) -> Tile {
        let Cut { side, columns, .. } = self.cut();
        let s = &self.settings;
        let (top, left) = (index / columns * side, index % columns * side);
        let (height, width) = (side.min(self.height - top), side.min(self.width - left));
        let padded = |side: usize| (side..).find(|x| x % (s.patch_size * s.spatial_merge_size) == 0).unwrap();
        let (grid_h, grid_w) = (padded(height) / s.patch_size, padded(width) / s.patch_size);
        Tile { grid_h, grid_w, floats: grid_h * grid_w * 3 * s.patch_size * s.patch_size, top, left, height, width }
    }

    /// The byte of a tile at a row, a column and a channel; 0 in the padding.
    fn byte(&self, tile: &Tile, y: usize, x: usize, c: usize) -> u8 {
        let own = y < tile.height && x < tile.width;
        if own {
            self.rgb[((tile.top + y) * self.width + tile.left + x) * 3 + c]
        } else {
            0
        }
    }

    /// Row, column and channel of a place in a tile's patches.
    fn place(&self, tile: &Tile, i: usize) -> (usize, usize, usize) {
        let p = self.settings.patch_size;
        let (patch, within) = (i / (3 * p * p), i % (3 * p * p));
        (patch / tile.grid_w * p + within / p % p, patch % tile.grid_w * p + within % p, within / (p * p))
    }

    /// A tile's patches, as the definition reads.
    fn patches(&self, index: usize) -> Vec<f32> {
        let tile = self.tile(index);
        let of = |i: usize| {
            let (y, x, c) = self.place(&tile, i);
            sample(self.byte(&tile, y, x, c), self.settings.mean[c], self.settings.deviation[c])
        };
        (0..tile.floats).map(of).collect()
    }

    fn preprocess(&self, index: usize, out: &mut [f32]) -> Result<Tile, Refusal> {
        preprocess_tile(&self.rgb, self.height, self.width, index, &self.settings, out)
    }

    fn restore(&self, index: usize, patches: &[f32], out: &mut [u8]) -> Result<Tile, Refusal> {
        restore_tile(patches, self.height, self.width, index, &self.settings, out)
    }
}

/// The largest multiple of patch × merge not above the image size.
fn side(s: &PictureSettings) -> usize {
    (0..=s.image_size).rev().find(|side| side % (s.patch_size * s.spatial_merge_size) == 0).unwrap()
}

#[test]
fn settled_examples() {
    let s = PictureSettings::new;
    for (settings, (height, width), right) in [
        (s(14, 2, 1540), (3000, 2000), Ok((1540, 2, 2))),
        (s(14, 2, 1567), (3000, 2000), Ok((1540, 2, 2))),
        (s(14, 2, 1568), (3000, 2000), Ok((1568, 2, 2))),
        (s(14, 2, 1540), (1540, 1540), Ok((1540, 1, 1))),
        (s(14, 2, 1540), (1541, 1540), Ok((1540, 2, 1))),
        (s(14, 2, 1540), (1540, 1541), Ok((1540, 1, 2))),
        (s(14, 2, 1540), (3080, 3081), Ok((1540, 2, 3))),
        (s(14, 2, 1540), (1, 1), Ok((1540, 1, 1))),
        (s(14, 2, 1540), (8192, 8192), Ok((1540, 6, 6))),
        (s(14, 2, 28), (8192, 1), Ok((28, 293, 1))),
        (s(14, 2, 27), (8192, 1), Err(Refusal::ImageSize)),
        (s(32, 4, 2048), (8192, 8192), Ok((2048, 4, 4))),
        (s(31, 4, 2048), (8192, 8192), Ok((1984, 5, 5))),
        (s(1, 1, 1), (8192, 8192), Ok((1, 8192, 8192))),
        (s(1, 1, 2048), (2049, 1), Ok((2048, 2, 1))),
        (s(14, 2, 1540), (0, 1), Err(Refusal::Side)),
        (s(14, 2, 1540), (1, 8193), Err(Refusal::Side)),
        (s(14, 2, 1540), (MAX, MAX), Err(Refusal::Side)),
    ] {
        let right = right.map(|(side, rows, columns)| Cut { side, rows, columns });
        for resize_rule in [1, 2] {
            assert_eq!(cut(height, width, &PictureSettings { resize_rule, ..settings }), right, "{height} {width}");
        }
    }
    let tile = |index| s(14, 2, 1540).tile(3000, 2000, index);
    let of = |grid_h, grid_w, top, left, height, width| {
        Ok(Tile { grid_h, grid_w, floats: grid_h * grid_w * 588, top, left, height, width })
    };
    assert_eq!(tile(0), of(110, 110, 0, 0, 1540, 1540));
    assert_eq!(tile(1), of(110, 34, 0, 1540, 1540, 460));
    assert_eq!(tile(2), of(106, 110, 1540, 0, 1460, 1540));
    assert_eq!(tile(3), of(106, 34, 1540, 1540, 1460, 460));
    assert_eq!(tile(4), Err(Refusal::Tile));
}

/// Patches, reports and lengths are those of the definition, in an output of just that length and in a longer one,
/// which keeps its tail; both resize rules give the same.
#[test]
fn a_tile_is_as_defined() {
    let mut random = Random(20_260_901);
    let (mut tiles, mut padded) = (0, 0);
    for _ in 0..200 {
        let sweep = Sweep::any(&mut random);
        let Sweep { settings, height, width, .. } = sweep;
        assert_eq!(cut(height, width, &settings), Ok(sweep.cut()), "{settings:?} {height} {width}");
        for index in 0..sweep.count() {
            let (tile, right) = (sweep.tile(index), sweep.patches(index));
            assert_eq!(settings.tile(height, width, index), Ok(tile), "{settings:?} {height} {width} {index}");
            assert_eq!(settings.tile_len(height, width, index), Ok(tile.floats));
            let marks = random.floats(tile.floats + 7, 1e9);
            let mut out = marks.clone();
            assert_eq!(sweep.preprocess(index, &mut out), Ok(tile), "{settings:?} {height} {width} {index}");
            assert!(same(&out[..tile.floats], &right), "{settings:?} {height} {width} {index}");
            assert!(same(&out[tile.floats..], &marks[tile.floats..]));

            let other = PictureSettings { resize_rule: 3 - settings.resize_rule, ..settings };
            let mut exact = vec![0.0; tile.floats];
            assert_eq!(preprocess_tile(&sweep.rgb, height, width, index, &other, &mut exact), Ok(tile));
            assert!(same(&exact, &right));
            let mut short = marks[..tile.floats - 1].to_vec();
            assert_eq!(sweep.preprocess(index, &mut short), Err(Refusal::Output));
            assert!(same(&short, &marks[..tile.floats - 1]));
            tiles += 1;
            padded += usize::from((tile.height * tile.width * 3) < tile.floats);
        }
        for index in [sweep.count(), sweep.count() + 1, MAX / 2, MAX] {
            assert_eq!(settings.tile(height, width, index), Err(Refusal::Tile));
            assert_eq!(sweep.preprocess(index, &mut []), Err(Refusal::Tile));
            assert_eq!(sweep.restore(index, &[], &mut []), Err(Refusal::Tile));
        }
    }
    assert!(tiles > 800 && padded > 400 && tiles - padded > 300, "{tiles} {padded}");
}

/// A picture whose sides are multiples and not above the image size is one tile, with the patches of preprocess.
#[test]
fn a_small_picture_is_one_tile() {
    let mut random = Random(20_260_902);
    for _ in 0..200 {
        let settings = random.picture();
        let (side, align) = (side(&settings), settings.patch_size * settings.spatial_merge_size);
        if side == 0 {
            continue;
        }
        let (height, width) = (random.from(1, side / align) * align, random.from(1, side / align) * align);
        let sweep = Sweep::new(&mut random, settings, height, width);
        let [mut tile, mut patches] = [(); 2].map(|()| vec![0.0; sweep.rgb.len()]);
        let made = pixtral_preprocess(&sweep.rgb, height, width, &settings, &mut patches).unwrap();
        let Tile { grid_h, grid_w, floats, .. } = sweep.preprocess(0, &mut tile).unwrap();
        assert_eq!((grid_h, grid_w, floats), (made.grid_h, made.grid_w, made.floats));
        assert!(same(&tile, &patches));
        let mut back = vec![0; sweep.rgb.len()];
        restore(&tile, grid_h, grid_w, &settings, &mut back).unwrap();
        assert_eq!(back, sweep.rgb);
    }
}

/// Each byte of the sweep is written by just one tile, in any order of the tiles, and nothing else is.
#[test]
fn the_tiles_join() {
    let mut random = Random(20_260_903);
    for _ in 0..150 {
        let sweep = Sweep::any(&mut random);
        let (len, count) = (sweep.rgb.len(), sweep.count());
        let junk = random.bytes(len + 5);
        let mut joined = junk.clone();
        let mut written = vec![0; len];
        for index in (0..count).rev() {
            let (tile, patches) = (sweep.tile(index), sweep.patches(index));
            let before = joined.clone();
            assert_eq!(sweep.restore(index, &patches, &mut joined), Ok(tile));
            for (i, byte) in joined[..len].iter().enumerate() {
                let (y, x) = (i / 3 / sweep.width, i / 3 % sweep.width);
                let own =
                    (tile.top..tile.top + tile.height).contains(&y) && (tile.left..tile.left + tile.width).contains(&x);
                written[i] += usize::from(own);
                assert_eq!(*byte, if own { sweep.rgb[i] } else { before[i] }, "{:?} {index} {i}", sweep.settings);
            }
            assert_eq!(joined[len..], junk[len..]);
            // A buffer of the sweep alone, and by the other rule.
            let other = PictureSettings { resize_rule: 3 - sweep.settings.resize_rule, ..sweep.settings };
            let mut exact = before[..len].to_vec();
            assert_eq!(restore_tile(&patches, sweep.height, sweep.width, index, &other, &mut exact), Ok(tile));
            assert_eq!(exact, joined[..len]);
        }
        assert!(written.iter().all(|times| *times == 1));
        assert_eq!(joined[..len], sweep.rgb);
    }
}

/// With one sample replaced: in the tile's own pixels another byte's comes back, in the padding it is 8, as is one that
/// no byte has; then nothing is written.
#[test]
fn padding_is_byte_0() {
    let mut random = Random(20_260_904);
    let (mut own, mut padding, mut none) = (0, 0, 0);
    let zeros = [alike(0.0, 1.0, PictureSettings::new(2, 2, 9)), alike(0.0, -1.0, PictureSettings::new(3, 1, 8))];
    for round in 0..60 {
        let sweep = match zeros.get(round) {
            Some(settings) => Sweep::new(&mut random, *settings, 11, 19),
            None => Sweep::any(&mut random),
        };
        let index = sweep.count() - 1;
        let (tile, patches) = (sweep.tile(index), sweep.patches(index));
        let junk = random.bytes(sweep.rgb.len());
        let places: Vec<usize> = match tile.floats {
            0..800 => (0..tile.floats).collect(),
            _ => (0..800).map(|_| random.from(0, tile.floats - 1)).collect(),
        };
        for i in places {
            let (y, x, c) = sweep.place(&tile, i);
            let of = |byte| sample(byte, sweep.settings.mean[c], sweep.settings.deviation[c]);
            let byte = random.from(1, 255) as u8;
            let inside = y < tile.height && x < tile.width;
            let mut damaged = patches.clone();
            damaged[i] = of(byte);
            let mut out = junk.clone();
            let found = sweep.restore(index, &damaged, &mut out);
            if inside {
                assert_eq!(found, Ok(tile));
                assert_eq!(out[((tile.top + y) * sweep.width + tile.left + x) * 3 + c], byte);
                own += 1;
            } else {
                assert_eq!(found, Err(Refusal::Sample), "{:?} {i} {byte}", sweep.settings);
                assert_eq!(out, junk);
                padding += 1;
            }
            // The other bits of the same number, where there are some, and those of no number.
            let zero = of(0) == 0.0;
            damaged[i] = if zero && !inside { -of(0) } else { f32::NAN };
            let mut out = junk.clone();
            assert_eq!(sweep.restore(index, &damaged, &mut out), Err(Refusal::Sample), "{:?} {i}", sweep.settings);
            assert_eq!(out, junk);
            none += 1;
        }
    }
    assert!(own > 5000 && padding > 2000 && none > 10_000, "{own} {padding} {none}");
}

/// Patches of another index, of other sides or with another length are refused, or are a tile of that place.
#[test]
fn a_tile_at_another_index() {
    let mut random = Random(20_260_905);
    let sweep = Sweep::new(&mut random, PictureSettings::new(2, 2, 9), 20, 21);
    assert_eq!(sweep.cut(), Cut { side: 8, rows: 3, columns: 3 });
    let all: Vec<Vec<f32>> = (0..9).map(|index| sweep.patches(index)).collect();
    for (from, patches) in all.iter().enumerate() {
        for to in 0..9 {
            let junk = random.bytes(sweep.rgb.len());
            let mut out = junk.clone();
            let found = sweep.restore(to, patches, &mut out);
            let (of, tile) = (sweep.tile(from), sweep.tile(to));
            // In the last column 5 columns of pixels are padded to 8, where the others have random bytes.
            let right = match (of.floats == tile.floats, of.height <= tile.height && of.width <= tile.width) {
                (false, _) => Err(Refusal::PatchesLength),
                (true, false) => Err(Refusal::Sample),
                (true, true) => Ok(tile),
            };
            assert_eq!(found, right, "{from} {to}");
            assert!(right.is_ok() || out == junk);
        }
    }
}

/// At the ends of what is allowed, with buffers of true lengths.
#[test]
fn sizes_at_the_edges() {
    let mut random = Random(20_260_906);
    // One pixel a tile: all tiles of the longest sides.
    let least = PictureSettings::new(1, 1, 1);
    for (height, width) in [(8192, 1), (1, 8192)] {
        let sweep = Sweep::new(&mut random, least, height, width);
        let mut joined = vec![0; sweep.rgb.len()];
        for index in 0..8192 {
            let mut patches = [0.0; 3];
            let tile = sweep.preprocess(index, &mut patches);
            let (top, left) = if height == 1 { (0, index) } else { (index, 0) };
            assert_eq!(tile, Ok(Tile { grid_h: 1, grid_w: 1, floats: 3, top, left, height: 1, width: 1 }));
            assert_eq!(sweep.restore(index, &patches, &mut joined), tile);
        }
        assert_eq!(joined, sweep.rgb);
        assert_eq!(sweep.preprocess(8192, &mut [0.0; 3]), Err(Refusal::Tile));
    }
    // The largest sweep: one pixel a tile, and the largest tiles, of 2048 and, with A = 124, of 1984.
    let (side, last) = (8192, 8192 * 8192 - 1);
    let mut rgb = vec![0; side * side * 3];
    rgb[last * 3..].copy_from_slice(&[1, 2, 3]);
    let mut out = vec![0; rgb.len()];
    let mut patches = vec![0.0; 2048 * 2048 * 3];
    for (settings, index, from) in [
        (least, last, 8191),
        (PictureSettings::new(1, 1, 2048), 15, 6144),
        (PictureSettings::new(32, 4, 2048), 15, 6144),
        (PictureSettings::new(31, 4, 2048), 24, 7936),
    ] {
        let own = side - from;
        let tile = preprocess_tile(&rgb, side, side, index, &settings, &mut patches).unwrap();
        assert_eq!((tile.top, tile.left, tile.height, tile.width), (from, from, own, own));
        assert_eq!(settings.tile(side, side, index), Ok(tile));
        out[last * 3..].fill(9);
        assert_eq!(restore_tile(&patches[..tile.floats], side, side, index, &settings, &mut out), Ok(tile));
        assert_eq!(out[last * 3..], [1, 2, 3]);
        for beyond in [index + 1, MAX - index, MAX] {
            assert_eq!(preprocess_tile(&rgb, side, side, beyond, &settings, &mut patches), Err(Refusal::Tile));
            assert_eq!(restore_tile(&patches, side, side, beyond, &settings, &mut out), Err(Refusal::Tile));
        }
        // One byte less than the sweep.
        let short = restore_tile(&patches[..tile.floats], side, side, index, &settings, &mut out[1..]);
        assert_eq!(short, Err(Refusal::Output));
    }
}

/// What a tile gives is what forward takes.
#[test]
fn forward_takes_every_tile() {
    let mut random = Random(20_260_907);
    let mut seen = 0;
    for _ in 0..150 {
        let sweep = Sweep::any(&mut random);
        let settings = EncoderSettings { picture: sweep.settings, ..random.encoder() };
        for index in 0..sweep.count() {
            let tile = sweep.tile(index);
            assert_eq!(settings.lengths(tile.grid_h, tile.grid_w).map(|n| n.patches), Ok(tile.floats));
        }
        let tile = sweep.tile(sweep.count() - 1);
        let n = settings.lengths(tile.grid_h, tile.grid_w).unwrap();
        if n.scratch > 100_000 || n.tables > 100_000 {
            continue;
        }
        let mut patches = vec![0.0; tile.floats];
        sweep.preprocess(sweep.count() - 1, &mut patches).unwrap();
        let [weights, cos, sin] = [n.weights, n.tables, n.tables].map(|len| random.floats(len, 0.1));
        let (mut scratch, mut out) = (vec![0.0; n.scratch], vec![0.0; n.out]);
        let found =
            forward(&settings, &patches, tile.grid_h, tile.grid_w, &weights, &cos, &sin, &mut scratch, &mut out);
        // Samples may be so large that a stage is not finite; the grid and the length are never refused.
        assert!(matches!(found, Ok(_) | Err(Refusal::NotFinite)), "{found:?}");
        seen += usize::from(found.is_ok());
    }
    assert!(seen > 20, "{seen}");
}

/// Each picture call runs on a thread with 136 KiB of stack.
#[test]
fn on_a_small_stack() {
    let run = || {
        let settings = PictureSettings::new(14, 2, 1540);
        let rgb: Vec<u8> = Random(20_260_908).bytes(1600 * 1700 * 3);
        let mut patches = vec![0.0; 1540 * 1540 * 3];
        let mut back = vec![0; rgb.len()];
        let made = pixtral_preprocess(&rgb, 1600, 1700, &settings, &mut patches).unwrap();
        restore(&patches, made.grid_h, made.grid_w, &settings, &mut back).unwrap();
        for index in 0..4 {
            let tile = preprocess_tile(&rgb, 1600, 1700, index, &settings, &mut patches).unwrap();
            restore_tile(&patches[..tile.floats], 1600, 1700, index, &settings, &mut back).unwrap();
        }
        assert_eq!(cut(1600, 1700, &settings), Ok(Cut { side: 1540, rows: 2, columns: 2 }));
        back == rgb
    };
    assert!(std::thread::Builder::new().stack_size(136 << 10).spawn(run).unwrap().join().unwrap());
}
