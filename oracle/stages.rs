//! For each stage that is examined, a call in which its value is the first that is not finite.
//!
//! Two stages are finite wherever all before them are:
//!
//! - gelu, (0.5 · x) · (1 + T(y)): T is from -1 to 1, so the result is at most x in size. y is not NaN, as x and
//!   0.044715 · x · x · x have one sign.
//! - A block's second residual, h + down. Where a channel of a token is 2^64 or more in size, the token's sum of
//!   squares is infinite, so its norm is 0, and gate, up and down with it. Where none is, h is below half of
//!   f32::MAX's last place, 2^103, and down, finite, stays finite with it.

use super::{sized, Call, Random, Settings, OWN};

// The stages, in the order in which they are examined.
const BEFORE: [&str; 8] =
    ["patches", "weights", "cos", "sin", "patch projection", "its bf16", "ln_pre", "ln_pre's bf16"];
const IN_A_BLOCK: [&str; 17] = [
    "norm",
    "q",
    "k",
    "v",
    "rotated q",
    "rotated k",
    "scores",
    "attention sums",
    "o",
    "residual",
    "second norm",
    "gate",
    "up",
    "silu * up",
    "down",
    "second residual",
    "bf16",
];
const AFTER: [&str; 5] = ["projector norm", "merging_layer", "linear_1", "gelu", "linear_2"];
/// The two that no call stops at.
const FINITE: [&str; 2] = ["second residual", "gelu"];

const MAX: f32 = f32::MAX;

/// What an accepted call examines, in order.
pub fn examined(layers: usize) -> Vec<&'static str> {
    let blocks = IN_A_BLOCK.repeat(layers);
    BEFORE.into_iter().chain(blocks).chain(AFTER).collect()
}

/// The stages that a call can stop at.
pub fn reachable() -> Vec<&'static str> {
    examined(1).into_iter().filter(|stage| !FINITE.contains(stage)).collect()
}

/// Each call with the stage that it stops at, without a bias and with one; those of a block in the first and in the
/// second.
pub fn calls(r: &mut Random) -> Vec<(Option<&'static str>, Call)> {
    let mut list = Vec::new();
    for bias in [0, 1] {
        let calm = calm(r, bias);
        list.push((None, calm.clone()));
        for stage in reachable() {
            for layer in 0..if IN_A_BLOCK.contains(&stage) { 2 } else { 1 } {
                let mut c = calm.clone();
                overflow(&mut c, stage, layer);
                list.push((Some(stage), c));
            }
        }
        if bias == 1 {
            list.extend(by_bias(&calm));
        }
    }
    list
}

/// Calls that a bias stops, by a value of its own that is not finite or by one with which finite sums are not, that stop
/// since a bias takes nothing back from an infinite sum, and that go on where a bias takes from a large one.
fn by_bias(calm: &Call) -> Vec<(Option<&'static str>, Call)> {
    let mut list = Vec::new();
    for (stage, bias) in [("linear_1", "linear_1 bias"), ("linear_2", "linear_2 bias")] {
        for (stopped, sums, value) in [
            ("weights", [0.0; 4], f32::NAN),
            ("weights", [0.0; 4], f32::NEG_INFINITY),
            (stage, [0.6 * MAX, 0.0, 0.0, 0.0], 0.9 * MAX),
            (stage, [MAX, MAX, 0.0, 0.0], -MAX),
        ] {
            let mut c = calm.clone();
            row(&mut c, 0, stage, 3, sums);
            row(&mut c, 0, bias, 0, [0.0, 0.0, 0.0, value]);
            list.push((Some(stopped), c));
        }
        // Finite before and after.
        let mut c = calm.clone();
        row(&mut c, 0, stage, 3, [0.6 * MAX, 0.0, 0.0, 0.0]);
        row(&mut c, 0, bias, 0, [-0.0, 1e-45, 1.0, -0.6 * MAX]);
        list.push((None, c));
    }
    list
}

/// Ten tokens of 1024 in each of four channels, but for the last token's last channel, which is twice that. Every matrix
/// hands its input on and a norm's weights are 1, ln_pre's 1024, so that a block's bf16 gives 1024 again and norms give 1,
/// for the last token some 0.76, 0.76, 0.76, 1.51. A bias is 0.5 in each channel.
fn calm(r: &mut Random, projector_bias: usize) -> Call {
    let s = Settings {
        patch_size: 1,
        spatial_merge_size: 1,
        image_size: 5,
        resize_rule: 1,
        six: OWN,
        hidden_size: 4,
        num_heads: 1,
        head_dim: 4,
        num_layers: 2,
        intermediate_size: 4,
        text_hidden_size: 4,
        projector_bias,
        scaling: 0.5,
    };
    let mut c = sized(r, s, [2, 5], 1.0);
    c.patches = [1.0, 0.0, 0.0].repeat(10);
    c.patches[9 * 3 + 1] = 1.0;
    c.cos.fill(0.8);
    c.sin.fill(0.6);
    let mut at = 0;
    for (_, name, len) in parts(&s) {
        let part = &mut c.weights[at..at + len];
        match name {
            "patch_conv" => part.copy_from_slice(&[1024.0, 0.0, 0.0].repeat(4)),
            "ln_pre" => part.fill(1024.0),
            "attention_norm" | "ffn_norm" | "projector norm" => part.fill(1.0),
            "linear_1 bias" | "linear_2 bias" => part.fill(0.5),
            _ => (0..16).for_each(|i| part[i] = f32::from(u8::from(i % 5 == 0))),
        }
        at += len;
    }
    row(&mut c, 0, "patch_conv", 3, [1024.0, 1024.0, 0.0]);
    c
}

/// The weights' parts, in their order, where patch and merge are 1 and all sizes are the hidden one: a layer, 0 outside
/// the layers, a name and a length.
fn parts(s: &Settings) -> Vec<(usize, &'static str, usize)> {
    let square = s.hidden_size * s.hidden_size;
    let mut list = vec![(0, "patch_conv", s.hidden_size * 3), (0, "ln_pre", s.hidden_size)];
    for layer in 0..s.num_layers {
        list.push((layer, "attention_norm", s.hidden_size));
        list.extend(["q", "k", "v", "o"].map(|name| (layer, name, square)));
        list.push((layer, "ffn_norm", s.hidden_size));
        list.extend(["gate", "up", "down"].map(|name| (layer, name, square)));
    }
    list.push((0, "projector norm", s.hidden_size));
    list.push((0, "merging_layer", square));
    for (name, bias) in [("linear_1", "linear_1 bias"), ("linear_2", "linear_2 bias")] {
        list.push((0, name, square));
        list.extend((s.projector_bias == 1).then_some((0, bias, s.hidden_size)));
    }
    list
}

/// Puts values in the place of a part's row; a norm has one, and so has a bias.
fn row<const N: usize>(c: &mut Call, layer: usize, name: &str, row: usize, values: [f32; N]) {
    let list = parts(&c.s);
    let part = list.iter().position(|part| (part.0, part.1) == (layer, name)).expect("a part of the weights");
    let at = list[..part].iter().map(|part| part.2).sum::<usize>() + row * N;
    c.weights[at..at + N].copy_from_slice(&values);
}

/// All tokens alike.
fn even(c: &mut Call) {
    row(c, 0, "patch_conv", 3, [1024.0, 0.0, 0.0]);
}

/// The largest bf16 in the last token's last channel, and 0 in the others'. The norms of such a token are 0, so that a
/// block adds to it what attention takes from the others, some 1.04 times the first channel of o's last row.
fn huge(c: &mut Call, layer: usize, o: f32) {
    row(c, 0, "patch_conv", 3, [0.0, 1024.0, 0.0]);
    row(c, 0, "ln_pre", 0, [1024.0, 1024.0, 1024.0, f32::from_bits(0x7F7F_0000)]);
    row(c, layer, "o", 3, [o, 0.0, 0.0, 0.0]);
}

/// Makes a stage's value the first that is not finite.
fn overflow(c: &mut Call, stage: &str, layer: usize) {
    let last = |x: &mut Vec<f32>, v| *x.last_mut().expect("a value") = v;
    match stage {
        "patches" => last(&mut c.patches, f32::NAN),
        "weights" => last(&mut c.weights, f32::INFINITY),
        "cos" => last(&mut c.cos, f32::NEG_INFINITY),
        "sin" => last(&mut c.sin, f32::NAN),
        "patch projection" => row(c, 0, "patch_conv", 3, [MAX, MAX, 0.0]),
        "its bf16" => row(c, 0, "patch_conv", 3, [1024.0, MAX, 0.0]),
        "ln_pre" => row(c, 0, "ln_pre", 0, [1024.0, 1024.0, 1024.0, MAX]),
        "ln_pre's bf16" => {
            even(c);
            row(c, 0, "ln_pre", 0, [1024.0, 1024.0, 1024.0, MAX]);
        }
        "norm" => row(c, layer, "attention_norm", 0, [1.0, 1.0, 1.0, MAX]),
        "q" | "k" | "v" | "gate" | "up" => row(c, layer, stage, 3, [0.0, 0.0, MAX, MAX]),
        // 0.9 · 0.8 + 0.9 · 0.6 is above 1.
        "rotated q" | "rotated k" => {
            for half in [0, 2] {
                row(c, layer, &stage[8..], half, [0.9 * MAX, 0.0, 0.0, 0.0]);
            }
        }
        // Minus infinity at the last token alone, to which softmax gives 0: with no examination all goes on finite.
        "scores" => {
            row(c, layer, "q", 0, [1e20, 0.0, 0.0, 0.0]);
            row(c, layer, "k", 0, [1e20, 0.0, 0.0, -1e20]);
        }
        // Ten times a tenth, rounded up, of f32::MAX.
        "attention sums" => {
            even(c);
            (0..4).for_each(|i| row(c, layer, "q", i, [0.0; 4]));
            row(c, layer, "v", 0, [MAX, 0.0, 0.0, 0.0]);
        }
        "residual" => huge(c, layer, 0.5 * MAX),
        "second norm" => row(c, layer, "ffn_norm", 0, [1.0, 1.0, 1.0, MAX]),
        "silu * up" => {
            for name in ["gate", "up"] {
                row(c, layer, name, 3, [0.0, 0.0, 0.0, 1e20]);
            }
        }
        "down" => row(c, layer, stage, 3, [MAX, MAX, MAX, 0.0]),
        // Between half a bf16's last place, 6.7e35, and a whole.
        "bf16" => huge(c, layer, 1e36),
        "projector norm" => row(c, 0, stage, 0, [1.0, 1.0, 1.0, MAX]),
        "o" | "merging_layer" | "linear_1" | "linear_2" => row(c, layer, stage, 3, [MAX, MAX, 0.0, 0.0]),
        _ => panic!("no call stops at {stage}"),
    }
}
