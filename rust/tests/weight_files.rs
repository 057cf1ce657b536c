//! `kz weights` and `kz encode --model`, as they are run.

mod common;

use common::tensors::{file, Tensors};
use common::tool::{plain, sweep, Folder, CONFIG, LIST, WEIGHTS};
use common::Random;
use kyzgultam::{bf16, bf16_pack, EncoderSettings, PictureSettings};
use std::fs;

const SETTINGS: EncoderSettings = EncoderSettings {
    picture: PictureSettings::new(2, 2, 16),
    hidden_size: 8,
    num_heads: 2,
    head_dim: 4,
    num_layers: 1,
    intermediate_size: 5,
    text_hidden_size: 3,
    projector_bias: false,
    scaling: 0.5,
};

const BIASED: EncoderSettings = EncoderSettings { projector_bias: true, ..SETTINGS };

/// A file of F32, and its values.
fn made(settings: &EncoderSettings, seed: u64) -> (Tensors, Vec<f32>) {
    let floats = Random(seed).floats(settings.weights_len().unwrap(), 0.5);
    let mut made = Tensors::new(settings, "F32", |n| vec![0; n]);
    made.data = plain(&floats);
    (made, floats)
}

fn folder(name: &str) -> Folder {
    let folder = Folder::new(name);
    sweep(&folder, "a.ppm", 8, 12, 5);
    fs::create_dir(folder.path("model")).unwrap();
    folder.put("model/config.json", CONFIG.as_bytes());
    folder
}

#[test]
fn weights_are_written_and_encoded_with() {
    let folder = folder("weights");
    let (tensors, floats) = made(&SETTINGS, 1);
    folder.put("model/model.safetensors", &tensors.bytes());
    folder.put("plain", &plain(&floats));
    let said = folder.done("weights model/model.safetensors -o out --config model/config.json");
    assert_eq!(said, format!("out: {WEIGHTS} floats of 15 tensors, bias=0\n"));
    assert_eq!(folder.get("out"), plain(&floats));
    folder.done(&format!("weights model/model.safetensors -o listed {LIST}"));
    assert_eq!(folder.get("listed"), plain(&floats));
    folder.done(&format!("encode a.ppm -o plain.d --weights plain {LIST}"));
    folder.done("encode a.ppm -o model.d --model model");
    folder.done("encode a.ppm -o out.d --config model/config.json --weights out");
    assert_eq!(folder.get("model.d/a.tokens.npy"), folder.get("plain.d/a.tokens.npy"));
    assert_eq!(folder.get("out.d/a.tokens.npy"), folder.get("plain.d/a.tokens.npy"));
    // What config.json does not say is that of --settings.
    folder.done("encode a.ppm -o lent --model model --settings mean=0.2,deviation=0.25,scale=0.25");
    folder.done(&format!("encode a.ppm -o right --weights plain {LIST},mean=0.2,deviation=0.25,scale=0.25"));
    assert_eq!(folder.get("lent/a.tokens.npy"), folder.get("right/a.tokens.npy"));
    // A file that is there is left, unless forced.
    folder.fails(1, &format!("weights model/model.safetensors -o out {LIST}"), &["out: is there already"]);
    folder.done(&format!("weights model/model.safetensors -o out --force {LIST}"));
}

#[test]
fn halves_are_widened() {
    let folder = folder("weights-bf16");
    let floats = Random(3).floats(WEIGHTS, 0.5);
    let mut tensors = Tensors::new(&SETTINGS, "BF16", |n| vec![0; n]);
    tensors.data = floats.iter().flat_map(|x| bf16_pack(*x).to_le_bytes()).collect();
    folder.put("a.safetensors", &tensors.bytes());
    folder.done(&format!("weights a.safetensors -o out {LIST}"));
    let rounded: Vec<f32> = floats.iter().map(|x| bf16(*x)).collect();
    assert_eq!(folder.get("out"), plain(&rounded));
}

#[test]
fn a_bias_is_found_in_the_file() {
    let folder = folder("weights-bias");
    let (tensors, floats) = made(&BIASED, 2);
    folder.put("model/model.safetensors", &tensors.bytes());
    let said = folder.done(&format!("weights model/model.safetensors -o out {LIST}"));
    assert_eq!(said, format!("out: {} floats of 17 tensors, bias=1\n", WEIGHTS + 6));
    assert_eq!(folder.get("out"), plain(&floats));
    folder.done("encode a.ppm -o found --model model");
    folder.done(&format!("encode a.ppm -o said --weights out {LIST},bias=1"));
    assert_eq!(folder.get("found/a.tokens.npy"), folder.get("said/a.tokens.npy"));
    // Unless it is said.
    let said = folder.done(&format!("weights model/model.safetensors -o without {LIST},bias=0"));
    assert_eq!(said, format!("without: {WEIGHTS} floats of 15 tensors, bias=0\n"));
    folder.done("encode a.ppm -o bare --model model --settings bias=0");
    folder.done(&format!("encode a.ppm -o bare.right --weights without {LIST}"));
    assert_eq!(folder.get("bare/a.tokens.npy"), folder.get("bare.right/a.tokens.npy"));
    let (tensors, _) = made(&SETTINGS, 2);
    folder.put("none.safetensors", &tensors.bytes());
    let words = format!("weights none.safetensors -o none {LIST},bias=1");
    folder.fails(1, &words, &["number 17: ", "there is no multi_modal_projector.linear_1.bias; "]);
    // One of the two alone is no bias.
    let (mut tensors, _) = made(&BIASED, 2);
    tensors.entries.pop();
    folder.put("half.safetensors", &tensors.bytes());
    let words = format!("weights half.safetensors -o half {LIST}");
    folder.fails(1, &words, &["number 17: ", "there is no multi_modal_projector.linear_2.bias; "]);
}

#[test]
fn which_of_the_two_files_is_wrong() {
    let folder = folder("weights-model");
    let run = "encode a.ppm -o out --model model";
    folder.fails(1, run, &["kz: model/model.safetensors: cannot be read: "]);
    folder.put("model/model.safetensors.index.json", b"{}");
    folder.fails(1, run, &["kz: model/model.safetensors: is not there, and by ", "the model is in several"]);
    let (tensors, _) = made(&SETTINGS, 4);
    folder.put("model/model.safetensors", &tensors.bytes());
    folder.put("model/config.json", b"{\"vision_config\": {},}");
    folder.fails(1, run, &["kz: model/config.json: refused, number 13: ", "byte 21", "^ '\"' is expected"]);
    folder.put("model/config.json", &CONFIG.replace("\"hidden_size\": 8", "\"hidden_size\": 12").into_bytes());
    folder.fails(1, run, &["kz: model/config.json: refused, number 1: "]);
    folder.put("model/config.json", &CONFIG.replace("\"hidden_size\": 3", "\"hidden_size\": 4").into_bytes());
    let caret = "^ 32 values of F32, BF16 or F16 are expected\n";
    let place = format!("; multi_modal_projector.linear_1.weight, byte {}; ", {
        tensors.place("multi_modal_projector.linear_1.weight")
    });
    folder.fails(1, run, &["kz: model/model.safetensors: refused, number 17: ", &place, caret]);
    fs::remove_file(folder.path("model/config.json")).unwrap();
    folder.fails(1, run, &["kz: model/config.json: cannot be read: "]);
    folder.fails(2, "encode a.ppm -o out --model model --config model/config.json", &["leave out --config"]);
    folder.put("model/config.json", CONFIG.as_bytes());
    folder.fails(2, "encode a.ppm -o out --model model --weights w", &["leave out --weights"]);
    folder.fails(2, "encode a.ppm -o out --model model --settings patch=2", &["patch is what the config says"]);
    folder.fails(2, "patches a.ppm -o out --model model", &["no option --model"]);
    assert!(!folder.path("out").exists());
}

#[test]
fn every_damage_has_its_number() {
    let folder = folder("weights-damaged");
    let (tensors, _) = made(&SETTINGS, 6);
    let (header, bytes) = (tensors.header(), tensors.bytes());
    let name = "vision_tower.ln_pre.weight";
    let with = |old: &str, new: &str| file(header.replacen(old, new, 1).as_bytes(), &tensors.data);
    let entry = r#"{"dtype":"F32","shape":[8],"data_offsets":[384,416]}"#;
    let byte = format!("{name}, byte {}; ", tensors.place(name));
    let last = format!("byte {}; ", 7 + header.len());
    let files: [(&[u8], &[&str]); 11] = [
        (b"", &["number 16: ", "it has 0 bytes, and the length of its header takes 8"]),
        (&bytes[..100], &["number 16: ", "it has 100 bytes, and its header is to have "]),
        (&file(&header.as_bytes()[..header.len() - 1], b""), &["number 16: ", &last, "^ ',' or '}' is expected\n"]),
        (&file(b" []", b""), &["number 16: ", "byte 9; ", "\n   []\n   ^ '{' is expected\n"]),
        (&with("{", &format!("{{\"a\":{}", "[".repeat(33))), &["byte 44; ", "^ this bracket opens level 33\n"]),
        (&with(entry, "[]"), &["number 16: ", &byte, "^ an object with a string dtype"]),
        (&with(&format!("\"{name}\""), "\"other\""), &["number 17: ", &format!("there is no {name}; ")]),
        (&with(entry, &entry.replace("F32", "I8")), &["number 17: ", &byte, "^ 8 values of F32, BF16 or F16"]),
        (&with(entry, &entry.replace("[8]", "[8,2]")), &["number 17: ", &byte, "config.json or --settings"]),
        (&with(entry, &entry.replace("416", "417")), &["number 18: ", &byte, "^ 8 values in data of "]),
        (&bytes[..bytes.len() - 1], &["number 18: ", "multi_modal_projector.linear_2.weight, byte "]),
    ];
    assert!(header.contains(entry));
    for (bytes, parts) in files {
        folder.put("a.safetensors", bytes);
        folder.fails(1, &format!("weights a.safetensors -o out {LIST}"), parts);
        folder.fails(1, &format!("weights a.safetensors -o out {LIST}"), &["a.safetensors: refused, number 1"]);
    }
    folder.fails(1, &format!("weights nothing -o out {LIST}"), &["nothing: cannot be read"]);
    folder.fails(1, &format!("weights model -o out {LIST}"), &["model: cannot be read"]);
    folder.fails(1, "weights a.safetensors -o out --settings hidden=9", &["--settings: refused, number 1: "]);
    folder.fails(2, "weights -o out", &["weights takes one file"]);
    folder.fails(2, "weights a.safetensors", &["-o OUT is missing"]);
    assert!(!folder.path("out").exists());
}

#[test]
fn a_value_that_is_not_finite_is_named() {
    let folder = folder("weights-nan");
    let (mut tensors, _) = made(&SETTINGS, 7);
    // The third value of ln_pre, behind 96 of patch_conv.
    tensors.data[4 * 98..4 * 99].copy_from_slice(&0x7FC0_0001u32.to_le_bytes());
    folder.put("model/model.safetensors", &tensors.bytes());
    let words = "value 2 of vision_tower.ln_pre.weight in model/model.safetensors is not; ";
    folder.fails(1, "encode a.ppm -o out --model model", &["a.ppm: refused, number 12: ", words]);
    // The plain file has the bits of it.
    folder.done(&format!("weights model/model.safetensors -o out.f32 {LIST}"));
    assert_eq!(folder.get("out.f32"), tensors.data);
}
