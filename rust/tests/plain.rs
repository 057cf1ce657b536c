//! Forward with plain attention: the bits of forward on every grid of 1 to 64 tokens, 22 above, and its own scratch.

mod common;

use common::{same, Random};
use kyzgultam::{forward, forward_plain, EncoderSettings, PictureSettings, Refusal};

type Answer = (Result<usize, Refusal>, Vec<f32>, Vec<f32>);

/// Patches, weights, tables, scratch and output of a call.
struct Lent {
    patches: Vec<f32>,
    weights: Vec<f32>,
    cos: Vec<f32>,
    sin: Vec<f32>,
    scratch: Vec<f32>,
    out: Vec<f32>,
}

impl Lent {
    /// Buffers that fit both calls, the scratch with its matrix and three floats behind it.
    fn new(random: &mut Random, s: &EncoderSettings, grid: (usize, usize), size: f32) -> Lent {
        let (n, t) = (s.lengths(grid.0, grid.1).unwrap(), grid.0 * grid.1);
        Lent {
            patches: random.floats(n.patches, 2.0),
            weights: random.floats(n.weights, size),
            cos: random.floats(n.tables, 1.0),
            sin: random.floats(n.tables, 1.0),
            scratch: random.floats(n.scratch + t * t - t + 3, 1e9),
            out: random.floats(n.out + 5, 1e9),
        }
    }

    /// The answer, the output and the scratch with plain attention.
    fn plain(&self, s: &EncoderSettings, grid: (usize, usize)) -> Answer {
        let (mut scratch, mut out) = (self.scratch.clone(), self.out.clone());
        let (patches, weights) = (&self.patches, &self.weights);
        let found = forward_plain(s, patches, grid.0, grid.1, weights, &self.cos, &self.sin, &mut scratch, &mut out);
        (found, out, scratch)
    }

    /// The same by the row-wise engine.
    fn row_wise(&self, s: &EncoderSettings, grid: (usize, usize)) -> Answer {
        let (mut scratch, mut out) = (self.scratch.clone(), self.out.clone());
        let (patches, weights) = (&self.patches, &self.weights);
        let found = forward(s, patches, grid.0, grid.1, weights, &self.cos, &self.sin, &mut scratch, &mut out);
        (found, out, scratch)
    }
}

fn alike(a: &Answer, b: &Answer) -> bool {
    a.0 == b.0 && same(&a.1, &b.1) && same(&a.2, &b.2)
}

fn zeroed(scratch: &[f32]) -> bool {
    same(scratch, &vec![0.0; scratch.len()])
}

/// Sides of at most 65 patches.
const SETTINGS: EncoderSettings = EncoderSettings {
    picture: PictureSettings::new(1, 1, 65),
    hidden_size: 8,
    num_heads: 2,
    head_dim: 4,
    num_layers: 2,
    intermediate_size: 5,
    text_hidden_size: 3,
    projector_bias: false,
    scaling: 0.5,
};

/// Every grid of 1 to 64 tokens: answer, output and scratch are those of forward.
#[test]
fn every_grid() {
    let mut random = Random(20_261_101);
    let mut grids = 0;
    for (grid_h, grid_w) in (1..=64).flat_map(|h| (1..=64 / h).map(move |w| (h, w))) {
        let lent = Lent::new(&mut random, &SETTINGS, (grid_h, grid_w), 0.5);
        let found = lent.plain(&SETTINGS, (grid_h, grid_w));
        assert_eq!(found.0, Ok(grid_h * grid_w));
        assert!(alike(&found, &lent.row_wise(&SETTINGS, (grid_h, grid_w))), "{grid_h} {grid_w}");
        assert!(zeroed(&found.2), "{grid_h} {grid_w}");
        grids += 1;
    }
    assert_eq!(grids, 280);
}

/// Random models, with merging and without: the answers are forward's too where a stage is not finite; above 64 tokens,
/// counted before merging, it is 22.
#[test]
fn random_models() {
    let mut random = Random(20_261_102);
    let mut seen = [0; 23];
    while seen[0] < 200 || seen[12] < 20 || seen[22] < 20 {
        let mut s = random.encoder();
        s.num_heads = random.from(1, 4);
        s.head_dim = 4 * random.from(1, 6);
        s.hidden_size = s.num_heads * s.head_dim;
        s.scaling = [0.5, 0.1, 3.0, 1e37][random.from(0, 3)];
        let Ok((grid_h, grid_w)) = s.picture.grid(random.from(1, 60), random.from(1, 60)) else { continue };
        if grid_h * grid_w > 150 {
            continue;
        }
        let size = [0.3, 0.3, 0.3, 1e12][random.from(0, 3)];
        let lent = Lent::new(&mut random, &s, (grid_h, grid_w), size);
        let found = lent.plain(&s, (grid_h, grid_w));
        let number = found.0.map_or_else(|refusal| refusal.number() as usize, |_| 0);
        seen[number] += 1;
        assert_eq!(number == 22, grid_h * grid_w > 64, "{s:?} {grid_h} {grid_w}");
        if number == 22 {
            assert!(same(&found.1, &lent.out) && same(&found.2, &lent.scratch));
        } else {
            assert!(zeroed(&found.2));
            assert!(alike(&found, &lent.row_wise(&s, (grid_h, grid_w))), "{s:?} {grid_h} {grid_w}");
        }
    }
}

/// 65 tokens are 22 in each form of the grid, with any scratch; forward takes them.
#[test]
fn one_token_more() {
    let mut random = Random(20_261_103);
    for grid in [(1, 65), (5, 13), (13, 5), (65, 1), (65, 65)] {
        let lent = Lent::new(&mut random, &SETTINGS, grid, 0.5);
        let (found, out, scratch) = lent.plain(&SETTINGS, grid);
        assert_eq!(found, Err(Refusal::Tokens));
        assert!(same(&out, &lent.out) && same(&scratch, &lent.scratch));
        assert_eq!(SETTINGS.plain_scratch_len(grid.0, grid.1), Err(Refusal::Tokens));
        if grid.0 * grid.1 == 65 {
            assert_eq!(lent.row_wise(&SETTINGS, grid).0, Ok(65));
        }
    }
    // 64 tokens that are merged to 16, and 72 that are merged to 18.
    let s = EncoderSettings { picture: PictureSettings::new(1, 2, 65), ..SETTINGS };
    for (grid, right) in [((8, 8), Ok(16)), ((2, 32), Ok(16)), ((2, 36), Err(Refusal::Tokens))] {
        assert_eq!(Lent::new(&mut random, &s, grid, 0.5).plain(&s, grid).0, right);
    }
}

/// t² − t floats more than forward: 11 by one float less, from 1 token, where both need as many, to 64.
#[test]
fn its_own_scratch() {
    let mut random = Random(20_261_104);
    for t in 1..=64 {
        let lent = Lent::new(&mut random, &SETTINGS, (1, t), 0.5);
        let (least, rows) = (SETTINGS.plain_scratch_len(1, t).unwrap(), SETTINGS.scratch_len(1, t).unwrap());
        assert_eq!(least, rows + t * t - t);
        let call = |len: usize| {
            let (mut scratch, mut out) = (lent.scratch[..len].to_vec(), lent.out.clone());
            let (cos, sin) = (&lent.cos, &lent.sin);
            let found = forward_plain(&SETTINGS, &lent.patches, 1, t, &lent.weights, cos, sin, &mut scratch, &mut out);
            (found, scratch, out)
        };
        let (found, scratch, _) = call(least);
        assert!(found == Ok(t) && zeroed(&scratch));
        for len in [0, 1, rows - 1, rows, least - 1] {
            if len < least {
                let (found, scratch, out) = call(len);
                assert_eq!(found, Err(Refusal::Scratch), "{t} tokens, {len} floats");
                assert!(same(&scratch, &lent.scratch[..len]) && same(&out, &lent.out));
            }
        }
    }
}

/// Scaled scores that are not finite, in the first head and in the last: 12, and +0 all over.
#[test]
fn scores_that_are_not_finite() {
    let mut random = Random(20_261_105);
    let s = EncoderSettings { num_layers: 1, ..SETTINGS };
    let (h, grid) = (s.hidden_size, (3, 4));
    // The rows of q and of k that make a head: behind patch_conv, ln_pre and attention_norm.
    let at = 3 * h + h + h;
    for head in 0..2 {
        let mut lent = Lent::new(&mut random, &s, grid, 0.5);
        for part in [at, at + h * h] {
            lent.weights[part + head * 4 * h..][..4 * h].iter_mut().for_each(|w| *w *= 1e20);
        }
        let found = lent.plain(&s, grid);
        assert_eq!(found.0, Err(Refusal::NotFinite));
        assert!(same(&found.1, &lent.out) && zeroed(&found.2));
        assert!(alike(&found, &lent.row_wise(&s, grid)));
        // Dot products that are finite, and only the scaled ones are not.
        for part in [at, at + h * h] {
            lent.weights[part + head * 4 * h..][..4 * h].iter_mut().for_each(|w| *w *= 1e-3);
        }
        assert_eq!(lent.plain(&s, grid).0, Ok(12));
        let scaled = EncoderSettings { scaling: 1e30, ..s };
        let found = lent.plain(&scaled, grid);
        assert_eq!(found.0, Err(Refusal::NotFinite));
        assert!(zeroed(&found.2) && alike(&found, &lent.row_wise(&scaled, grid)));
    }
}

/// With the widest head and 64 tokens it runs on a thread with 140 KiB of stack.
#[test]
fn little_stack() {
    let s = EncoderSettings { hidden_size: 512, num_heads: 2, head_dim: 256, num_layers: 1, ..SETTINGS };
    let s = EncoderSettings { picture: PictureSettings::new(1, 1, 8), ..s };
    let lent = Lent::new(&mut Random(20_261_106), &s, (8, 8), 0.1);
    let run = move || (lent.plain(&s, (8, 8)), lent.row_wise(&s, (8, 8)));
    let (plain, row_wise) = std::thread::Builder::new().stack_size(140 << 10).spawn(run).unwrap().join().unwrap();
    assert!(plain.0 == Ok(64) && alike(&plain, &row_wise));
}
