//! `kz config`: the settings of a config.json, or where and why it has none.

use crate::answer;
use crate::fail::{numbered, Fail};
use crate::given::Given;
use crate::ranges;
use crate::source::{unread, Source};
use crate::spot::{followers, Spot};
use kyzgultam::{config, ConfigRefusal, EncoderSettings, Refusal};
use std::path::Path;

pub const HELP: &str = "\
kz config CONFIG.json [--settings LIST]

Prints the settings that a config.json says, as a list that --settings takes:
patch, merge, image, hidden, heads, layers and intermediate out of its
vision_config, text out of its text_config, with the Rust's defaults. Of
--settings (`kz encode --help`) rule, mean, deviation, bias and scale are used,
which config.json does not say; scale is else 1 / root of head. `kz encode
--config CONFIG.json` takes the settings from there. Where the file is no JSON,
or has more than 32 brackets open, the answer shows the line, with a caret
under the byte, and what is expected there. Exit status 1 where it is refused.
";

/// What the call takes at most.
const MOST: usize = 65_536;

pub fn run(given: &Given) -> Result<(), Fail> {
    let [file] = &given.files[..] else {
        return Err(Fail::usage("config takes one file, CONFIG.json"));
    };
    answer(format_args!("{}", listed(&given.configured(file)?)))
}

/// The settings of a file; what it does not say is that of `lent`.
pub fn settings(lent: &EncoderSettings, file: &Path) -> Result<EncoderSettings, Fail> {
    let mut source = Source::open(file)?;
    // One byte more than the call takes tells that there are too many.
    let text = source.look(MOST + 1).map_err(unread(file))?;
    config(lent, text).map_err(|refused| Fail::file(file, explained(lent, text, refused)))
}

/// The settings as `--settings` takes them.
fn listed(s: &EncoderSettings) -> String {
    let p = &s.picture;
    let channels = |c: &[f32; 3]| format!("{}/{}/{}", c[0], c[1], c[2]);
    format!(
        "patch={},merge={},image={},rule={},mean={},deviation={},hidden={},heads={},head={},layers={},intermediate={},\
         text={},bias={},scale={}",
        p.patch_size,
        p.spatial_merge_size,
        p.image_size,
        p.resize_rule,
        channels(&p.mean),
        channels(&p.deviation),
        s.hidden_size,
        s.num_heads,
        s.head_dim,
        s.num_layers,
        s.intermediate_size,
        s.text_hidden_size,
        usize::from(s.projector_bias),
        s.scaling
    )
}

/// A refusal in words; of 13 and 14 with the place, the line and a caret under the byte.
fn explained(lent: &EncoderSettings, text: &[u8], refused: ConfigRefusal) -> String {
    let ConfigRefusal { refusal, place } = refused;
    let what = match refusal {
        Refusal::ConfigText if text.len() > MOST => {
            return numbered(refusal, "give a config of at most 65,536 bytes");
        }
        Refusal::ConfigText => expected(lent, &text[..place]),
        Refusal::ConfigDepth => "this bracket opens level 33".into(),
        Refusal::ConfigVision => return numbered(refusal, "give the config.json of a model with a Pixtral encoder"),
        _ => return numbered(refusal, ranges::encoder(lent).unwrap_or_else(|| at_fault(lent, text).into())),
    };
    let spot = Spot::of(text, place);
    let advice = format!("line {}, column {}, byte {place}", spot.line, spot.column);
    numbered(refusal, advice) + &spot.pointed(&what)
}

/// Which size is not allowed. A refusal does not hand the sizes over, so the reader itself is asked: it is the one
/// without which, by its default, the others are allowed. Where two are not, all ranges are said.
fn at_fault(lent: &EncoderSettings, text: &[u8]) -> &'static str {
    let found = ranges::OF_CONFIG.iter().find(|(key, _)| config(lent, &without(text, key)).is_ok());
    found.map_or(ranges::ALL_OF_CONFIG, |(_, words)| words)
}

/// A text in which a key has another name, of the same length.
fn without(text: &[u8], key: &str) -> Vec<u8> {
    let quoted = format!("\"{key}\"");
    let mut text = text.to_vec();
    let places = (0..text.len()).filter(|at| text[*at..].starts_with(quoted.as_bytes())).collect::<Vec<_>>();
    places.into_iter().for_each(|at| text[at + 1] = b'?');
    text
}

/// What may stand behind the front of a text.
fn expected(lent: &EncoderSettings, front: &[u8]) -> String {
    if front.len() == MOST {
        return "more is expected, and there is no room for it".into();
    }
    let stopped = Err(ConfigRefusal { refusal: Refusal::ConfigText, place: front.len() });
    followers(front, |text| config(lent, text) == stopped).to_string()
}

#[cfg(test)]
mod tests {
    use super::*;

    fn said(text: &[u8]) -> String {
        let lent = EncoderSettings::default();
        let refused = config(&lent, text).unwrap_err();
        explained(&lent, text, refused)
    }

    #[test]
    fn a_caret_stands_under_the_byte() {
        assert_eq!(
            said(b"{\"vision_config\":\n  {\"patch_size\": 014}}\n"),
            "refused, number 13: the config is above 64 KiB, or it is no JSON text; line 2, column 19, byte 36\n\
             \x20   {\"patch_size\": 014}}\n\
             \x20                   ^ ',', '.', 'E', 'e' or '}' is expected"
        );
    }

    #[test]
    fn what_is_expected() {
        for (text, words) in [
            (&b""[..], "a value is expected"),
            (b"[1,]", "a value is expected"),
            (b"[", "a value or ']' is expected"),
            (b"{", "'\"' or '}' is expected"),
            (b"{\"a\"", "':' is expected"),
            (b"{} x", "the end is expected"),
            (b"-x", "a digit is expected"),
            (b"\"\\x", "'\"', '/', '\\', 'b', 'f', 'n', 'r', 't' or 'u' is expected"),
            (b"\"\\u12g", "a hex digit is expected"),
            (b"\"a\nb\"", "a character of the string is expected"),
            (b"\"\xe2\x82\"", "the next byte of a character in UTF-8 is expected"),
            (b"nul!", "'l' is expected"),
        ] {
            assert!(said(text).ends_with(&format!("^ {words}")), "{}", said(text));
        }
    }

    #[test]
    fn a_long_line_is_cut() {
        let text = format!("[{}x{}]", "1,".repeat(100), "é".repeat(100));
        let words = said(text.as_bytes());
        let lines: Vec<&str> = words.lines().collect();
        assert_eq!(lines.len(), 3);
        assert_eq!(lines[1], format!("  …{}x{}…", "1,".repeat(25), "é".repeat(49)));
        assert_eq!(lines[2].chars().position(|c| c == '^'), lines[1].chars().position(|c| c == 'x'));
    }

    #[test]
    fn control_bytes_do_not_reach_a_terminal() {
        let words = said(b"{\"a\": \"\x1b[31m\"}");
        assert!(words.contains("\\u{1b}[31m") && !words.contains('\x1b'), "{words}");
    }

    #[test]
    fn the_size_that_is_not_allowed() {
        for (text, words) in [
            (r#""patch_size": 33"#, "patch_size is not in 1..32"),
            (r#""spatial_merge_size":5, "patch_size": 16"#, "spatial_merge_size is not in 1..4"),
            (r#""image_size" : 4096"#, "image_size is not in 1..2048"),
            (r#""num_hidden_layers": 49, "hidden_size": 512"#, "num_hidden_layers is not in 0..48"),
            (r#""intermediate_size": 16384"#, "intermediate_size is not in 1..8192"),
            (r#""hidden_size": 5120"#, "hidden_size of vision_config is not in 4..2048"),
            (
                r#""num_attention_heads": 3"#,
                "num_attention_heads is not in 1..64, or hidden_size / num_attention_heads",
            ),
            (r#""patch_size": 33, "image_size": 4096"#, "patch is to be in 1..32, merge in 1..4"),
            (r#""patch\u005fsize": 33"#, "patch is to be in 1..32, merge in 1..4"),
        ] {
            let words = format!("a setting is not allowed; {words}");
            let said = said(format!("{{\"vision_config\": {{{text}}}}}").as_bytes());
            assert!(said.contains(&words), "{said}");
        }
        let text = br#"{"vision_config": {}, "text_config": {"hidden_size": 8193}}"#;
        assert!(said(text).contains("or that of text_config not in 1..8192"));
    }

    #[test]
    fn depth_and_length() {
        let words = said(&b"[".repeat(33));
        assert!(words.contains("number 14") && words.contains("column 33") && words.ends_with("level 33"), "{words}");
        assert!(said(&b" ".repeat(65_537)).ends_with("give a config of at most 65,536 bytes"));
    }
}
