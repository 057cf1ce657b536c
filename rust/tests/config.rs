//! config.json to settings: what is read, what is refused, and where.

use kyzgultam::{config, EncoderSettings, PictureSettings, Refusal};

/// What config.json does not say, with sizes that are not read.
const LENT: EncoderSettings = EncoderSettings {
    picture: PictureSettings {
        patch_size: 0,
        spatial_merge_size: 9,
        image_size: 5000,
        resize_rule: 2,
        mean: [0.1, 0.2, 0.3],
        deviation: [0.4, 0.5, 0.6],
    },
    hidden_size: 1,
    num_heads: 0,
    head_dim: 3,
    num_layers: 99,
    intermediate_size: 0,
    text_hidden_size: 0,
    projector_bias: true,
    scaling: 0.75,
};

/// The defaults of the Rust, and what is lent.
fn defaults() -> EncoderSettings {
    let EncoderSettings { picture, projector_bias, scaling, .. } = LENT;
    let PictureSettings { resize_rule, mean, deviation, .. } = picture;
    let picture = PictureSettings { resize_rule, mean, deviation, ..PictureSettings::new(14, 2, 1540) };
    EncoderSettings { picture, projector_bias, scaling, ..EncoderSettings::default() }
}

fn read(text: &str) -> EncoderSettings {
    config(&LENT, text.as_bytes()).unwrap_or_else(|refused| panic!("{text}: {refused}"))
}

fn refused(text: &[u8]) -> (u32, usize) {
    let refused = config(&LENT, text).unwrap_err();
    (refused.refusal.number(), refused.place)
}

#[test]
fn every_key_is_read() {
    let text = r#"{"text_config": {"hidden_size": 11, "patch_size": 1}, "hidden_size": 3, "spatial_merge_size": 4,
        "vision_config": {"hidden_size": 96, "num_attention_heads": 8, "num_hidden_layers": 0, "head_dim": 1,
        "intermediate_size": 7, "patch_size": 5, "image_size": 60, "spatial_merge_size": 3, "rope_theta": "x"}}"#;
    let right = EncoderSettings {
        picture: PictureSettings { patch_size: 5, spatial_merge_size: 3, image_size: 60, ..defaults().picture },
        hidden_size: 96,
        num_heads: 8,
        head_dim: 12,
        num_layers: 0,
        intermediate_size: 7,
        text_hidden_size: 11,
        ..defaults()
    };
    assert_eq!(read(text), right);
}

#[test]
fn what_is_absent_has_the_rusts_default() {
    for vision in ["{}", "null", "[]", "7", "\"hidden_size\"", "{\"hidden_size\": null}", "{\"image_size\": \"60\"}"] {
        assert_eq!(read(&format!("{{\"vision_config\":{vision}}}")), defaults(), "{vision}");
    }
    for text in ["null", "{}", "{\"hidden_size\": {}}", "[{\"hidden_size\": 7}]", "\"hidden_size\""] {
        let found = read(&format!("{{\"vision_config\":{{}},\"text_config\":{text}}}"));
        assert_eq!(found, defaults(), "{text}");
    }
}

#[test]
fn a_size_is_plain_digits() {
    let patch = |value: &str| config(&LENT, format!("{{\"vision_config\":{{\"patch_size\":{value}}}}}").as_bytes());
    let is = |value: &str| patch(value).map(|s| s.picture.patch_size).map_err(|r| r.refusal);
    assert_eq!(is("16"), Ok(16));
    for absent in ["-16", "-0", "16.0", "16e0", "1e1", "1E1", "0.5", "true", "null", "\"16\"", "[16]", "{}"] {
        assert_eq!(is(absent), Ok(14), "{absent}");
    }
    // 2^64 and more counts as absent; 2^64 - 1 is a size, and is not allowed.
    assert_eq!(is("18446744073709551616"), Ok(14));
    assert_eq!(is(&"9".repeat(400)), Ok(14));
    assert_eq!(is("18446744073709551615"), Err(Refusal::Setting));
    assert_eq!(is("0"), Err(Refusal::Setting));
}

#[test]
fn merge_falls_back_to_the_top_level() {
    for (text, merge) in [
        (r#"{"vision_config": {}, "spatial_merge_size": 3}"#, 3),
        (r#"{"spatial_merge_size": 3, "vision_config": {"spatial_merge_size": 1}}"#, 1),
        (r#"{"spatial_merge_size": 3, "vision_config": {"spatial_merge_size": 1.0}}"#, 3),
        (r#"{"spatial_merge_size": "3", "vision_config": {"spatial_merge_size": null}}"#, 2),
    ] {
        assert_eq!(read(text).picture.spatial_merge_size, merge, "{text}");
    }
}

#[test]
fn the_last_of_two_keys_counts_after_escapes() {
    for (text, patch) in [
        (r#"{"vision_config": {"patch_size": 3, "patch_size": 5}}"#, 5),
        (r#"{"vision_config": {"patch_size": 3, "patch_size": null}}"#, 14),
        (r#"{"vision_config": {"patch_size": 3}, "vision_config": {}}"#, 14),
        (r#"{"vision_config": {"patch_size": 3, "\u0070atch_size": 5}}"#, 5),
        (r#"{"vision_config": {"p\u0061tch\u005Fsize": 3, "patch_siz\u00e9": 5}}"#, 3),
        (r#"{"vision_config": {"patch_size": 3, "patch_size\u0000": 5, "patch\\u005fsize": 6}}"#, 3),
        (r#"{"\u0076ision_config": {"\u0070\u0061\u0074\u0063\u0068\u005f\u0073\u0069\u007a\u0065": 7}}"#, 7),
    ] {
        assert_eq!(read(text).picture.patch_size, patch, "{text}");
    }
}

#[test]
fn fifteen_and_one() {
    for text in ["{}", "[]", "null", "0", "\"vision_config\"", r#"{"Vision_config": {}}"#, r#"[{"vision_config": {}}]"#]
    {
        assert_eq!(refused(text.as_bytes()), (15, 0), "{text}");
    }
    assert_eq!(refused(br#"{"vision_config": {"num_attention_heads": 0, "patch_size": 0}}"#), (15, 0));
    assert_eq!(refused(br#"{"vision_config": {"patch_size": 33}}"#), (1, 0));
    assert_eq!(refused(br#"{"vision_config": {"hidden_size": 1020}}"#), (1, 0));
    let lent = EncoderSettings { scaling: 0.0, ..LENT };
    assert_eq!(config(&lent, br#"{"vision_config": {}}"#).unwrap_err().refusal, Refusal::Setting);
}

#[test]
fn thirteen_is_at_the_first_byte_that_fits_no_text() {
    for (text, place) in [
        (&b""[..], 0),
        (b"  ", 2),
        (b"\xEF\xBB\xBF{}", 0),
        (b"{\"a\":1,}", 7),
        (b"[1,]", 3),
        (b"[01]", 2),
        (b"[-]", 2),
        (b"[1.]", 3),
        (b"[1e+]", 4),
        (b"{\"a\" 1}", 5),
        (b"{a:1}", 1),
        (b"{} {}", 3),
        (b"nul", 3),
        (b"nulL", 3),
        (b"\"a\tb\"", 2),
        (b"\"\\x\"", 2),
        (b"\"\\u12G4\"", 5),
        (b"\"\xFF\"", 1),
        (b"\"\xC3\"", 2),
        (b"\"\xC0\x80\"", 1),
        (b"\"\xE0\x80\x80\"", 2),
        (b"\"\xED\xA0\x80\"", 2),
        (b"\"\xF4\x90\x80\x80\"", 2),
        (b"[\x00", 1),
    ] {
        assert_eq!(refused(text), (13, place), "{}", String::from_utf8_lossy(text));
    }
    // Lone surrogates and numbers of any size are texts.
    assert_eq!(refused(br#"["\ud800", 1e999, -0, 1E-9]"#), (15, 0));
}

#[test]
fn fourteen_is_at_the_bracket_that_opens_level_33() {
    let nested = |n: usize| [b"[".repeat(n), b"]".repeat(n)].concat();
    assert_eq!(refused(&nested(32)), (15, 0));
    assert_eq!(refused(&nested(33)), (14, 32));
    let objects = [br#"{"a":"#.repeat(32), b"{".to_vec()].concat();
    assert_eq!(refused(&objects), (14, 160));
    // What comes first in the text counts, and 13 where both fall on one byte.
    assert_eq!(refused(&[b"[,", &b"[".repeat(40)[..]].concat()), (13, 1));
    assert_eq!(refused(&[&b"[".repeat(33)[..], b","].concat()), (14, 32));
    assert_eq!(refused(&[&b"[".repeat(32)[..], b"{"].concat()), (14, 32));
    assert_eq!(refused(&[&b"{\"\":".repeat(32)[..], b"}"].concat()), (13, 128));
    assert_eq!(refused(&b"[]]".repeat(40)), (13, 2));
}

#[test]
fn at_most_64_kib() {
    let padded = |n: usize| [&b"{\"vision_config\":{}}"[..], &b" ".repeat(n - 20)].concat();
    assert_eq!(config(&LENT, &padded(65_536)), Ok(defaults()));
    assert_eq!(refused(&padded(65_537)), (13, 0));
    assert_eq!(refused(&b"]".repeat(65_537)), (13, 0));
    assert_eq!(refused(&b" ".repeat(65_536)), (13, 65_536));
}
