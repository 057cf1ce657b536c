//! What each setting may be: where a call refuses settings with 1, words say which of them, and its range.

use kyzgultam::{EncoderSettings, PictureSettings};
use std::ops::RangeInclusive;

fn outside(key: &str, value: usize, range: RangeInclusive<usize>) -> Option<String> {
    let words = || format!("{key}={value} is not in {}..{}", range.start(), range.end());
    (!range.contains(&value)).then(words)
}

/// The first setting of a picture that is not allowed.
pub fn picture(s: &PictureSettings) -> Option<String> {
    outside("patch", s.patch_size, 1..=32)
        .or(outside("merge", s.spatial_merge_size, 1..=4))
        .or(outside("image", s.image_size, 1..=2048))
        .or((!(1..=2).contains(&s.resize_rule)).then(|| format!("rule={} is neither 1 nor 2", s.resize_rule)))
}

/// The first setting of an encoder that is not allowed.
pub fn encoder(s: &EncoderSettings) -> Option<String> {
    let (hidden, heads, head) = (s.hidden_size, s.num_heads, s.head_dim);
    let four = || format!("head={head} is no multiple of 4 in 4..256 (it is hidden / heads, unless it is given)");
    let product = || format!("hidden={hidden} is not heads x head, which is {heads} x {head}");
    let scale = s.scaling.is_finite() && s.scaling > 0.0;
    picture(&s.picture)
        .or(outside("hidden", hidden, 4..=2048))
        .or(outside("heads", heads, 1..=64))
        .or((!(4..=256).contains(&head) || head % 4 != 0).then(four))
        .or((heads.checked_mul(head) != Some(hidden)).then(product))
        .or(outside("layers", s.num_layers, 0..=48))
        .or(outside("intermediate", s.intermediate_size, 1..=8192))
        .or(outside("text", s.text_hidden_size, 1..=8192))
        .or((!scale).then(|| format!("scale={} is not finite and above 0", s.scaling)))
}

/// What is said of a size of a config.json, by its key.
pub const OF_CONFIG: [(&str, &str); 7] = [
    ("patch_size", "patch_size is not in 1..32"),
    ("spatial_merge_size", "spatial_merge_size is not in 1..4"),
    ("image_size", "image_size is not in 1..2048"),
    ("num_hidden_layers", "num_hidden_layers is not in 0..48"),
    ("intermediate_size", "intermediate_size is not in 1..8192"),
    ("hidden_size", "hidden_size of vision_config is not in 4..2048, or that of text_config not in 1..8192"),
    (
        "num_attention_heads",
        "num_attention_heads is not in 1..64, or hidden_size / num_attention_heads no multiple of 4 in 4..256",
    ),
];

/// The same of all, by the keys that `--settings` has for them.
pub const ALL_OF_CONFIG: &str =
    "patch is to be in 1..32, merge in 1..4, image in 1..2048, hidden in 4..2048 and heads \
                                 x head, heads in 1..64, head a multiple of 4 in 4..256, layers in 0..48, \
                                 intermediate and text in 1..8192";

#[cfg(test)]
mod tests {
    use super::*;
    use crate::given::SMALL;
    use kyzgultam::{pixtral_preprocess, Refusal};

    const BESIDE: [usize; 22] =
        [0, 1, 2, 3, 4, 5, 6, 8, 32, 33, 48, 49, 64, 65, 256, 257, 260, 2048, 2049, 8192, 8193, usize::MAX];

    type Field = (&'static str, fn(&mut EncoderSettings, usize));

    const FIELDS: [Field; 10] = [
        ("patch=", |s, n| s.picture.patch_size = n),
        ("merge=", |s, n| s.picture.spatial_merge_size = n),
        ("image=", |s, n| s.picture.image_size = n),
        ("rule=", |s, n| s.picture.resize_rule = n),
        ("hidden=", |s, n| s.hidden_size = n),
        ("head", |s, n| s.num_heads = n),
        ("head", |s, n| s.head_dim = n),
        ("layers=", |s, n| s.num_layers = n),
        ("intermediate=", |s, n| s.intermediate_size = n),
        ("text=", |s, n| s.text_hidden_size = n),
    ];

    /// The calls decide; the words name the setting that was changed, or the product that it broke.
    fn agrees(s: &EncoderSettings, name: &str) {
        let merge = s.picture.spatial_merge_size;
        let (words, refused) = (encoder(s), s.lengths(merge, merge) == Err(Refusal::Setting));
        assert_eq!(words.is_some(), refused, "{s:?}: {words:?}");
        let named = words.is_none_or(|words| words.starts_with(name) || words.contains("is not heads x head"));
        assert!(named, "{s:?}: {name}");
        let cut = pixtral_preprocess(&[], 0, 0, &s.picture, &mut []);
        assert_eq!(picture(&s.picture).is_some(), cut == Err(Refusal::Setting), "{s:?}");
    }

    #[test]
    fn as_the_calls_have_them() {
        for (name, set) in FIELDS {
            for n in BESIDE {
                let mut s = SMALL;
                set(&mut s, n);
                agrees(&s, name);
                s.hidden_size = s.num_heads.saturating_mul(s.head_dim);
                agrees(&s, if s.hidden_size < 4 || s.hidden_size > 2048 { "h" } else { name });
            }
        }
        for scaling in [0.0, -0.0, -1.0, f32::MIN_POSITIVE, 1e-45, f32::MAX, f32::INFINITY, f32::NAN] {
            agrees(&EncoderSettings { scaling, ..SMALL }, "scale=");
        }
    }
}
