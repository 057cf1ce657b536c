//! `kz weights`, and the weights of `kz encode --model`: those of a safetensors file, or where and why it has none.

use crate::beside;
use crate::fail::{numbered, Fail};
use crate::files;
use crate::given::Given;
use crate::model::{parts, refused_settings, weights_room};
use crate::room;
use crate::shown::shown;
use crate::source::{unread, Source};
use crate::spot::{followers, Spot};
use kyzgultam::{tensor_names, weights, EncoderSettings, Refusal, WeightsRefusal};
use std::io::Write;
use std::path::Path;

pub const HELP: &str = "\
kz weights FILE.safetensors -o OUT [--config CONFIG.json] [--settings LIST]
           [--force]

Writes the weights of a model, which a safetensors file has, as plain floats:
f32, little-endian, in the order of include/kyzgultam.h. `kz encode --weights
OUT` takes them with the same settings; `kz encode --model DIR` needs no OUT,
and reads DIR/config.json and DIR/model.safetensors.

Read are the tensors that herbert-rs asks for (vision_tower.patch_conv.weight
and so on), of dtype F32, BF16 or F16, and all others are skipped. Sizes are
those of the config.json or of --settings (`kz encode --help`), of which rule,
mean, deviation and scale are not used here. Where --settings has no bias=, it
is 1 if the file has a multi_modal_projector.linear_1.bias, and what is said
of OUT names it. The file is read whole: it needs memory beside the weights.

A file that is refused is shown where it is wrong, with its number: 16 it is
no safetensors file, or the entry of a tensor that is asked for is damaged; 17
a tensor is missing, or of another dtype or count, as in another model's file
or with another model's settings; 18 a tensor lies outside the data, or has
not as many bytes as its count asks for. Exit status 1 where it is refused.
";

pub fn run(given: &Given) -> Result<(), Fail> {
    let out = given.needed("-o", "OUT")?;
    let [file] = &given.files[..] else {
        return Err(Fail::usage("weights takes one file, FILE.safetensors"));
    };
    files::vacant(&out, given.force)?;
    let (settings, floats) = read(given.settings()?, given.bias()?, file)?;
    files::write(&out, given.force, |to| files::put(to, &floats))?;
    let (tensors, bias) = (tensor_names(&settings).len(), usize::from(settings.projector_bias));
    let words = format!("{} floats of {tensors} tensors, bias={bias}", floats.len());
    let _ = writeln!(beside(&[&out]), "{}: {words}", shown(&out));
    Ok(())
}

/// The weights of a file, and the settings with the bias that it has, unless that is said.
pub fn read(settings: EncoderSettings, bias: Option<bool>, file: &Path) -> Result<(EncoderSettings, Vec<f32>), Fail> {
    let mut source = Source::open(file)?;
    let len = source.left().unwrap_or(0);
    let image = room::empty(usize::try_from(len).unwrap_or(usize::MAX), "its bytes", "try it where there is more");
    let mut image = image.map_err(|words| Fail::file(file, words))?;
    source.rest(&mut image).map_err(unread(file))?;
    let settings = EncoderSettings { projector_bias: bias.unwrap_or_else(|| has_bias(&settings, &image)), ..settings };
    let len = settings.weights_len().map_err(refused_settings)?;
    let mut floats = weights_room(&settings, len)?;
    floats.resize(len, 0.0);
    match weights(&settings, &image, &mut floats) {
        Ok(_) => Ok((settings, floats)),
        Err(refused) => Err(Fail::file(file, explained(&settings, &image, refused))),
    }
}

const BIAS: &str = "multi_modal_projector.linear_1.bias";

/// Whether the file has that tensor. Where another is at fault before it, the file is refused for that with and without.
fn has_bias(settings: &EncoderSettings, image: &[u8]) -> bool {
    let with = EncoderSettings { projector_bias: true, ..*settings };
    let missing = WeightsRefusal { refusal: Refusal::Tensor, tensor: Some(BIAS.into()), place: 0 };
    weights(&with, image, &mut []) != Err(missing)
}

/// A refusal in words: which tensor and which byte, that part of the header with a caret under the byte, and what to do.
fn explained(settings: &EncoderSettings, image: &[u8], refused: WeightsRefusal) -> String {
    let WeightsRefusal { refusal, tensor, place } = refused;
    let asked = image.first_chunk().map(|length| u64::from_le_bytes(*length));
    // Where there is a place, there is a whole header.
    let header = || &image[8..8 + asked.map_or(0, |length| length as usize)];
    let pointed = |what: &str| Spot::of(header(), place - 8).pointed(what);
    match (refusal, tensor, place) {
        (Refusal::Header, _, 0) => {
            let found = image.len();
            let words = match asked {
                None => format!("it has {found} bytes, and the length of its header takes 8"),
                Some(length) => format!("it has {found} bytes, and its header is to have {length} behind the first 8"),
            };
            numbered(refusal, format!("{words}; {WHOLE}"))
        }
        (Refusal::Header, None, _) => {
            let what = stopped(settings, header(), place);
            numbered(refusal, format!("byte {place}; {WHOLE}")) + &pointed(&what)
        }
        (_, Some(name), 0) => numbered(refusal, format!("there is no {name}; {OTHER}")),
        (_, Some(name), _) => {
            let count = tensor_names(settings).into_iter().zip(parts(settings)).find(|(other, _)| *other == name);
            let count = count.map_or(0, |(_, (out, inputs))| out * inputs.max(1));
            let (advice, what) = match refusal {
                Refusal::Header => (WHOLE, ENTRY.into()),
                Refusal::Tensor => (OTHER, format!("{count} values of F32, BF16 or F16 are expected")),
                _ => (
                    WHOLE,
                    format!("{count} values in data of {} bytes are expected", image.len() - 8 - header().len()),
                ),
            };
            numbered(refusal, format!("{name}, byte {place}; {advice}")) + &pointed(&what)
        }
        _ => numbered(refusal, "look at --settings"),
    }
}

const WHOLE: &str = "give a whole safetensors file";
const OTHER: &str = "give the config.json or --settings of this model, or the file of that model";
const ENTRY: &str = "an object with a string dtype, a shape and two data_offsets of plain digits is expected";

/// What is expected where a header stops.
fn stopped(settings: &EncoderSettings, header: &[u8], place: usize) -> String {
    let (front, behind) = header.split_at(place - 8);
    if front.trim_ascii().is_empty() {
        return "'{' is expected".into();
    }
    let stopped = WeightsRefusal { refusal: Refusal::Header, tensor: None, place };
    let stops = |text: &[u8]| {
        let image = [&(text.len() as u64).to_le_bytes(), text].concat();
        weights(settings, &image, &mut []).is_err_and(|refused| refused == stopped)
    };
    let expected = followers(front, stops);
    match behind {
        // Any other value may stand there.
        [b'[' | b'{', ..] if expected.bytes[usize::from(b'0')] => "this bracket opens level 33".into(),
        _ => expected.to_string(),
    }
}

#[cfg(test)]
mod tests {
    use super::*;
    use crate::given::SMALL;

    fn said(header: &str, data: usize) -> String {
        let length = (header.len() as u64).to_le_bytes();
        let image = [&length, header.as_bytes(), &vec![0; data]].concat();
        explained(&SMALL, &image, weights(&SMALL, &image, &mut []).unwrap_err())
    }

    #[test]
    fn a_damaged_header_is_shown() {
        for (header, words) in [
            ("", "; byte 8; give a whole safetensors file\n  \n  ^ '{' is expected"),
            (" [] ", "; byte 9; give a whole safetensors file\n   [] \n   ^ '{' is expected"),
            ("{\"a\":1,}", "; byte 15; give a whole safetensors file\n  {\"a\":1,}\n         ^ '\"' is expected"),
        ] {
            assert!(said(header, 0).ends_with(words), "{}", said(header, 0));
        }
        let deep = format!("{{\"a\":{}", "[".repeat(40));
        let words = said(&deep, 0);
        assert!(words.contains("; byte 44; ") && words.ends_with("^ this bracket opens level 33"), "{words}");
    }

    #[test]
    fn a_tensor_is_shown() {
        let name = "vision_tower.ln_pre.weight";
        let words = said(&format!("{{\"{name}\":[]}}"), 0);
        assert!(words.contains("number 16: ") && words.contains(&format!("; {name}, byte 38; ")), "{words}");
        assert!(words.ends_with(&format!("\n  {{\"{name}\":[]}}\n{}^ {ENTRY}", " ".repeat(32))), "{words}");
        let words = said("{}", 0);
        assert!(
            words.contains("number 17: ") && words.contains("; there is no vision_tower.patch_conv.weight; "),
            "{words}"
        );
        let entry = "{\"dtype\":\"F16\",\"shape\":[8],\"data_offsets\":[0,16]}";
        let words = said(&format!("{{\"vision_tower.patch_conv.weight\":{entry}}}"), 16);
        assert!(words.ends_with("^ 37632 values of F32, BF16 or F16 are expected"), "{words}");
    }
}
