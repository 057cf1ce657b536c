//! The bias of linear_1 and linear_2: where it stands in the weights, what it adds, and what is refused with it.

mod common;

use common::{same, Random};
use kyzgultam::{bf16, forward, root, tanh, EncoderSettings, PictureSettings, Refusal};

/// No layers, and tokens of one patch of one pixel, so that the projector is most of what is left.
const PLAIN: EncoderSettings = EncoderSettings {
    picture: PictureSettings::new(1, 1, 4),
    hidden_size: 8,
    num_heads: 2,
    head_dim: 4,
    num_layers: 0,
    intermediate_size: 1,
    text_hidden_size: 5,
    projector_bias: false,
    scaling: 0.5,
};
const BIASED: EncoderSettings = EncoderSettings { projector_bias: true, ..PLAIN };
/// The floats of patch_conv, ln_pre, the projector's norm, merging_layer, linear_1, its bias, linear_2 and its bias.
const PARTS: [usize; 8] = [8 * 3, 8, 8, 8 * 8, 5 * 8, 5, 5 * 5, 5];
/// Where the bias of linear_1, linear_2 and its bias start, and where the weights end.
const STARTS: [usize; 4] = [144, 149, 174, 179];

fn patches() -> Vec<f32> {
    Random(20_260_301).floats(3 * 4 * 3, 2.0)
}

fn weights() -> Vec<f32> {
    Random(20_260_302).floats(STARTS[3], 0.9)
}

/// The weights of `PLAIN` among those of `BIASED`.
fn without(weights: &[f32]) -> Vec<f32> {
    [&weights[..STARTS[0]], &weights[STARTS[1]..STARTS[2]]].concat()
}

/// The 12 token vectors of a call. A refused one writes nothing.
fn call(s: &EncoderSettings, weights: &[f32]) -> Result<Vec<f32>, Refusal> {
    let n = s.lengths(3, 4)?;
    let marks = Random(3).floats(n.out, 9.0);
    let (table, mut scratch, mut out) = (vec![0.7; n.tables], vec![0.5; n.scratch], marks.clone());
    let found = forward(s, &patches(), 3, 4, weights, &table, &table, &mut scratch, &mut out);
    let cleared = matches!(found, Ok(_) | Err(Refusal::NotFinite));
    assert!(same(&scratch, &vec![if cleared { 0.0 } else { 0.5 }; n.scratch]));
    assert!(found.is_ok() || same(&out, &marks));
    found.map(|_| out)
}

fn linear(x: &[f32], weights: &[f32], bias: Option<&[f32]>) -> Vec<f32> {
    let sums = weights.chunks(x.len()).map(|row| x.iter().zip(row).fold(0.0, |sum, (x, w)| sum + x * w));
    match bias {
        Some(bias) => sums.zip(bias).map(|(sum, b)| sum + b).collect(),
        None => sums.collect(),
    }
}

fn norm(x: &[f32], weights: &[f32]) -> Vec<f32> {
    let squares = x.iter().fold(0.0, |sum, x| sum + x * x) / x.len() as f32;
    let scale = 1.0 / root(squares + 1e-5);
    x.iter().zip(weights).map(|(x, w)| x * scale * w).collect()
}

fn gelu(x: f32) -> f32 {
    let root_2_over_pi = (2.0f32 / std::f32::consts::PI).sqrt();
    0.5 * x * (1.0 + tanh(root_2_over_pi * (x + 0.044715 * x * x * x)))
}

/// The vectors as their definition reads, with the biases among the weights or without.
fn defined(weights: &[f32], biased: bool) -> Vec<f32> {
    let mut left = weights;
    let [conv, ln_pre, last, merging, one, one_bias, two, two_bias] = PARTS.map(|len| {
        let (part, rest) = left.split_at(len);
        left = rest;
        part
    });
    let rounded = |x: Vec<f32>| x.into_iter().map(bf16).collect::<Vec<_>>();
    let vector = |patch: &[f32]| {
        let x = rounded(norm(&rounded(linear(patch, conv, None)), ln_pre));
        let x = linear(&norm(&x, last), merging, None);
        let x: Vec<f32> = linear(&x, one, biased.then_some(one_bias)).into_iter().map(gelu).collect();
        linear(&x, two, biased.then_some(two_bias))
    };
    patches().chunks(3).flat_map(vector).collect()
}

#[test]
fn the_finished_sum_plus_the_bias() {
    let weights = weights();
    assert_eq!(PARTS.iter().sum::<usize>(), STARTS[3]);
    assert_eq!((BIASED.weights_len(), PLAIN.weights_len()), (Ok(179), Ok(169)));
    let (with, plain) = (call(&BIASED, &weights).unwrap(), call(&PLAIN, &without(&weights)).unwrap());
    assert!(same(&with, &defined(&weights, true)));
    assert!(same(&plain, &defined(&weights, false)));
    assert!(with.iter().zip(&plain).all(|(a, b)| a != b));
}

/// Each of the ten floats has its own part in the answer: linear_2's in one channel alone, linear_1's in all.
#[test]
fn each_float_counts() {
    let right = call(&BIASED, &weights()).unwrap();
    for place in (STARTS[0]..STARTS[1]).chain(STARTS[2]..STARTS[3]) {
        let mut weights = weights();
        weights[place] += 0.5;
        let found = call(&BIASED, &weights).unwrap();
        assert!(same(&found, &defined(&weights, true)));
        for (i, (a, b)) in found.iter().zip(&right).enumerate() {
            assert_eq!(a != b, place < STARTS[1] || i % 5 == place - STARTS[2], "{place} {i}");
        }
    }
}

/// Absent is not a bias of zeros, which takes its places in the weights. The vectors are alike, since no sum is -0.
#[test]
fn a_bias_of_zeros() {
    let mut weights = weights();
    let plain = call(&PLAIN, &without(&weights)).unwrap();
    for zero in [0.0, -0.0] {
        weights[STARTS[0]..STARTS[1]].fill(zero);
        weights[STARTS[2]..].fill(zero);
        assert!(same(&call(&BIASED, &weights).unwrap(), &plain));
        assert_eq!(call(&PLAIN, &weights), Err(Refusal::WeightsLength));
    }
}

#[test]
fn weights_of_another_length() {
    let weights = weights();
    for len in 0..STARTS[3] {
        assert_eq!(call(&BIASED, &weights[..len]), Err(Refusal::WeightsLength));
    }
    assert_eq!(call(&BIASED, &[&weights[..], &[0.0]].concat()), Err(Refusal::WeightsLength));
    // Those of one setting are not those of the other.
    assert_eq!(call(&BIASED, &without(&weights)), Err(Refusal::WeightsLength));
    assert_eq!(call(&PLAIN, &weights), Err(Refusal::WeightsLength));
}

#[test]
fn not_finite() {
    for place in (STARTS[0]..STARTS[1]).chain(STARTS[2]..STARTS[3]) {
        for odd in [f32::NAN, f32::INFINITY, f32::NEG_INFINITY] {
            let mut weights = weights();
            weights[place] = odd;
            assert_eq!(call(&BIASED, &weights), Err(Refusal::NotFinite), "{place} {odd}");
            // The length comes first.
            assert_eq!(call(&PLAIN, &weights), Err(Refusal::WeightsLength), "{place} {odd}");
        }
    }
}

/// Sums that only the bias takes past the largest float are 12; sums that are infinite stay 12 with any bias.
#[test]
fn sums_past_the_largest() {
    let sums = |value: f32, bias: f32| {
        let mut weights = weights();
        weights[STARTS[0]..STARTS[1]].fill(50.0);
        // Each input of linear_2 is near 50.
        weights[STARTS[1]..STARTS[2]].fill(value);
        weights[STARTS[2]..].fill(bias);
        call(&BIASED, &weights)
    };
    for sign in [1.0, -1.0] {
        let near = sign * f32::MAX / 300.0;
        assert!(sums(near, 0.0).is_ok() && sums(near, sign * 1e37).is_ok() && sums(near, -sign * f32::MAX).is_ok());
        assert_eq!(sums(near, sign * f32::MAX), Err(Refusal::NotFinite));
        let past = sign * f32::MAX / 100.0;
        for bias in [0.0, f32::MAX, -f32::MAX] {
            assert_eq!(sums(past, bias), Err(Refusal::NotFinite));
        }
    }
}
