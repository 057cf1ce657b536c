//! Weights from a safetensors file: what is read of it, and where a file is refused.

mod common;

use common::tensors::{counts, entry, file, size, Tensors};
use common::{same, Random};
use kyzgultam::{forward_axes, half_to_f32, rope_axes, tensor_names, weights};
use kyzgultam::{EncoderSettings, PictureSettings, Refusal, WeightsRefusal};

const SETTINGS: EncoderSettings = EncoderSettings {
    picture: PictureSettings::new(2, 2, 8),
    hidden_size: 8,
    num_heads: 2,
    head_dim: 4,
    num_layers: 1,
    intermediate_size: 5,
    text_hidden_size: 3,
    projector_bias: true,
    scaling: 0.5,
};

/// What the weights are filled with before a call: NaNs of their own bits.
fn marks(len: usize) -> Vec<f32> {
    (0..len).map(|i| f32::from_bits(0x7F80_0001 + i as u32)).collect()
}

/// The weights of a file, behind which the tail is kept.
fn read(settings: &EncoderSettings, bytes: &[u8]) -> Vec<f32> {
    let len = settings.weights_len().unwrap();
    let mut out = marks(len + 5);
    assert_eq!(weights(settings, bytes, &mut out), Ok(len));
    assert!(same(&out[len..], &marks(len + 5)[len..]));
    out.truncate(len);
    out
}

/// Number, tensor, counted from 1 or 0, and place; nothing is written.
fn refused(settings: &EncoderSettings, bytes: &[u8], lent: usize) -> (u32, usize, usize) {
    let mut out = marks(lent);
    let WeightsRefusal { refusal, tensor, place } = weights(settings, bytes, &mut out).unwrap_err();
    assert!(same(&out, &marks(lent)));
    let index = tensor.map_or(0, |name| 1 + tensor_names(settings).iter().position(|other| *other == name).unwrap());
    (refusal.number(), index, place)
}

fn made(seed: u64) -> Tensors {
    let mut random = Random(seed);
    Tensors::new(&SETTINGS, "F16", |n| random.bytes(n))
}

fn len() -> usize {
    SETTINGS.weights_len().unwrap()
}

fn halves(bytes: &[u8]) -> Vec<u16> {
    bytes.chunks_exact(2).map(|two| u16::from_le_bytes([two[0], two[1]])).collect()
}

fn widened(dtype: &str, bytes: &[u8]) -> Vec<f32> {
    match dtype {
        "F32" => {
            let four = bytes.chunks_exact(4);
            four.map(|b| f32::from_bits(u32::from_le_bytes([b[0], b[1], b[2], b[3]]))).collect()
        }
        "BF16" => halves(bytes).into_iter().map(|x| f32::from_bits(u32::from(x) << 16)).collect(),
        _ => halves(bytes).into_iter().map(half_to_f32).collect(),
    }
}

#[test]
fn every_dtype_is_widened() {
    let mut random = Random(4);
    for dtype in ["F32", "BF16", "F16"] {
        for _ in 0..20 {
            // Every pattern, NaNs too.
            let settings = random.encoder();
            let Ok(len) = settings.weights_len() else { continue };
            let made = Tensors::new(&settings, dtype, |n| random.bytes(n));
            assert_eq!(made.data.len(), len * size(dtype));
            assert!(same(&read(&settings, &made.bytes()), &widened(dtype, &made.data)), "{dtype}");
        }
    }
}

#[test]
fn tensors_lie_anywhere_and_have_a_dtype_each() {
    let settings = EncoderSettings { num_layers: 12, ..SETTINGS };
    let (names, counts) = (tensor_names(&settings), counts(&settings));
    let mut random = Random(7);
    let data = random.bytes(60_000);
    let mut right = vec![];
    let mut entries = vec![];
    for (name, count) in names.iter().zip(&counts) {
        let dtype = ["F32", "BF16", "F16"][random.from(0, 2)];
        // With holes, and over one another.
        let begin = random.from(0, data.len() - count * size(dtype));
        entries.push((name.clone(), entry(dtype, *count, begin)));
        right.extend(widened(dtype, &data[begin..begin + count * size(dtype)]));
    }
    // Layers 1, 10 and 11 are told apart wherever they stand.
    for turn in 0..10 {
        let made = Tensors { entries: entries.clone(), data: data.clone() };
        assert!(same(&read(&settings, &made.bytes()), &right), "{turn}");
        let by = random.from(1, entries.len() - 1);
        entries.rotate_left(by);
        let last = entries.len() - 1;
        entries.swap(0, last);
    }
}

#[test]
fn a_bias_is_asked_for_where_the_settings_have_one() {
    let without = EncoderSettings { projector_bias: false, ..SETTINGS };
    let names = tensor_names(&SETTINGS);
    assert_eq!(names[names.len() - 3], "multi_modal_projector.linear_1.bias");
    assert_eq!(names[names.len() - 1], "multi_modal_projector.linear_2.bias");
    let bare: Vec<String> = names.iter().filter(|name| !name.ends_with(".bias")).cloned().collect();
    assert_eq!(tensor_names(&without), bare);
    let full = made(1);
    assert_eq!(
        read(&without, &full.bytes()).len() + 2 * SETTINGS.text_hidden_size,
        read(&SETTINGS, &full.bytes()).len()
    );
    let mut few = full;
    few.entries.retain(|(name, _)| !name.ends_with(".bias"));
    assert_eq!(refused(&SETTINGS, &few.bytes(), len()), (17, names.len() - 2, 0));
}

#[test]
fn what_is_skipped_and_what_counts() {
    let made = made(2);
    let right = read(&SETTINGS, &made.bytes());
    let header = made.header();
    let with = |header: String| read(&SETTINGS, &file(header.as_bytes(), &made.data));
    let first = tensor_names(&SETTINGS).remove(0);
    let body = &header[1..];
    for text in [
        format!(" \t\r\n{header}\n "),
        format!("{{\"__metadata__\":{{\"format\":\"pt\"}},{body}"),
        format!("{{\"__metadata__\":[null,-1.5e9],\"lm_head.weight\":{{\"dtype\":7}},{body}"),
        format!("{{\"a\":{}{},{body}", "[".repeat(31), "]".repeat(31)),
        // Of two alike the last counts, in an entry too.
        format!("{{\"{first}\":null,{body}"),
        format!("{{\"vision_tower\\u002epatch_conv.weight\":{{}},{body}"),
        header.replacen("{\"dtype\":", "{\"dtype\":\"F64\",\"shape\":null,\"data_offsets\":[9],\"dtype\":", 1),
        header.replace("\"dtype\"", "\"d\\u0074yp\\u0065\""),
        header.replace("\"F16\"", "\"\\u00461\\u0036\""),
        header.replace("vision_tower", "\\u0076ision\\u005Ftower"),
        header.replace(":[", ": [ ").replace(",", " , "),
    ] {
        assert!(same(&with(text.clone()), &right), "{text}");
    }
    let mut behind = made.clone();
    behind.data.extend([1, 2, 3]);
    assert!(same(&read(&SETTINGS, &behind.bytes()), &right));
    // A shape is its product; none is 1.
    let one = EncoderSettings { text_hidden_size: 1, ..SETTINGS };
    let made = Tensors::new(&one, "F32", |n| vec![0; n]);
    let text = made.header().replace("[1]", "[]").replace("[8]", "[2,1,4]");
    assert_eq!(read(&one, &file(text.as_bytes(), &made.data)), vec![0.0; one.weights_len().unwrap()]);
}

/// The file with the entry of a tensor, by its index from 0, changed.
fn with(k: usize, change: impl Fn(&str) -> String) -> (Tensors, usize) {
    let mut made = made(3);
    made.entries[k].1 = change(&made.entries[k].1);
    let place = made.place(&made.entries[k].0);
    (made, place)
}

#[test]
fn sixteen_of_the_file() {
    let made = made(5);
    let (header, bytes) = (made.header(), made.bytes());
    let n = bytes.len() as u64;
    for cut in [0, 1, 7, 8, 9, 7 + header.len()] {
        assert_eq!(refused(&SETTINGS, &bytes[..cut], len()), (16, 0, 0), "{cut}");
    }
    for length in [n - 7, n, 1 << 32, 1 << 63, u64::MAX, u64::MAX - 7, u64::MAX - 8] {
        let bytes = [&length.to_le_bytes(), &bytes[8..]].concat();
        assert_eq!(refused(&SETTINGS, &bytes, len()), (16, 0, 0), "{length}");
    }
    let deep = |n: usize| format!("{{\"a\":{}{},{}", "[".repeat(n), "]".repeat(n), &header[1..]);
    read(&SETTINGS, &file(deep(31).as_bytes(), &made.data));
    for (text, place) in [
        (String::new(), 8),
        ("  ".into(), 10),
        ("{".into(), 9),
        (header[..header.len() - 1].into(), 7 + header.len()),
        (format!("{header},"), 8 + header.len()),
        (format!("\u{feff}{header}"), 8),
        (header.replacen(',', ",,", 1), 9 + header.find(',').unwrap()),
        (deep(32), 8 + 5 + 31),
        ("[]".into(), 8),
        (" \n null ".into(), 11),
        (format!("[{header}]"), 8),
    ] {
        assert_eq!(refused(&SETTINGS, &file(text.as_bytes(), &made.data), len()), (16, 0, place), "{text}");
    }
}

#[test]
fn sixteen_of_an_entry() {
    let entries = ["null", "[]", "7", "\"F16\"", "{}"];
    for (k, text) in entries.iter().enumerate() {
        let (made, place) = with(k, |_| text.to_string());
        assert_eq!(refused(&SETTINGS, &made.bytes(), len()), (16, k + 1, place), "{text}");
    }
    let strings = ["null", "16", "[\"F16\"]", "{}", "true"].map(|text| ("\"F16\"", text));
    let lists = ["null", "8", "\"[8]\"", "{}", "[8.0]", "[8e0]", "[-8]", "[\"8\"]", "[[8]]", "[8,null]"];
    let numbers = ["[18446744073709551616]", "[99999999999999999999999999]"];
    let shapes = lists.into_iter().chain(numbers).map(|text| ("[8]", text));
    for (old, text) in strings.into_iter().chain(shapes) {
        let (made, place) = with(1, |entry| entry.replace(old, text));
        assert_eq!(refused(&SETTINGS, &made.bytes(), len()), (16, 2, place), "{text}");
    }
    let offsets = lists.into_iter().chain(numbers).chain(["[]", "[8]", "[8,24,24]", "[8,18446744073709551616]"]);
    for text in offsets {
        let (made, place) = with(1, |entry| format!("{}{text}}}", &entry[..entry.rfind('[').unwrap()]));
        assert_eq!(refused(&SETTINGS, &made.bytes(), len()), (16, 2, place), "{text}");
    }
    for key in ["dtype", "shape", "data_offsets"] {
        let (made, place) = with(4, |entry| entry.replace(key, "Key"));
        assert_eq!(refused(&SETTINGS, &made.bytes(), len()), (16, 5, place), "{key}");
        // The last of two keys is the one that is damaged.
        let (made, place) = with(4, |entry| entry.replace('}', &format!(",\"{key}\":null}}")));
        assert_eq!(refused(&SETTINGS, &made.bytes(), len()), (16, 5, place), "{key}");
    }
    // So is the last of two entries.
    let mut made = made(3);
    made.entries.push((made.entries[6].0.clone(), "[]".into()));
    assert_eq!(refused(&SETTINGS, &made.bytes(), len()), (16, 7, made.place(&made.entries[6].0)));
}

#[test]
fn seventeen() {
    for k in 0..tensor_names(&SETTINGS).len() {
        let mut made = made(3);
        made.entries.remove(k);
        assert_eq!(refused(&SETTINGS, &made.bytes(), len()), (17, k + 1, 0));
    }
    for dtype in ["F64", "f16", "F16 ", "", "I16", "BF16\\u0000", "F\\u00b216"] {
        let (made, place) = with(2, |entry| entry.replace("F16", dtype));
        assert_eq!(refused(&SETTINGS, &made.bytes(), len()), (17, 3, place), "{dtype}");
    }
    let top = u64::MAX;
    // The second to last but two wrap to 8 in 64 bits.
    let shapes = [
        "[9]".into(),
        "[7]".into(),
        "[]".into(),
        "[0]".into(),
        "[8,0]".into(),
        "[2,8]".into(),
        format!("[{top},{top},8]"),
        "[4294967296,4294967296,8]".into(),
        format!("[3,{}]", 8u64.wrapping_mul(0xAAAA_AAAA_AAAA_AAAB)),
        format!("[0,{top},{top}]"),
        format!("[{top}]"),
    ];
    for shape in shapes {
        let (made, place) = with(1, |entry| entry.replace("[8]", &shape));
        assert_eq!(refused(&SETTINGS, &made.bytes(), len()), (17, 2, place), "{shape}");
    }
}

#[test]
fn eighteen() {
    let n = made(3).data.len() as u64;
    let top = u64::MAX;
    // Tensor 2 has 8 halves.
    for (begin, end) in [
        (16, 0),
        (0, 0),
        (0, 15),
        (0, 17),
        (0, 32),
        (n - 15, n + 1),
        (n, n + 16),
        (top - 15, 0),
        (top, 15),
        (top - 16, top),
        (1 << 63, (1 << 63) + 16),
    ] {
        let offsets = |entry: &str| format!("{}[{begin},{end}]}}", &entry[..entry.rfind('[').unwrap()]);
        let (made, place) = with(1, offsets);
        assert_eq!(refused(&SETTINGS, &made.bytes(), len()), (18, 2, place), "{begin} {end}");
    }
    // Offsets are counted from the data's start.
    let mut made = made(3);
    made.data.pop();
    let last = made.entries.len();
    assert_eq!(refused(&SETTINGS, &made.bytes(), len()), (18, last, made.place(&made.entries[last - 1].0)));
}

#[test]
fn each_number_is_over_all_tensors_before_the_next() {
    let count = tensor_names(&SETTINGS).len();
    let mut made = made(6);
    let whole = made.bytes();
    assert_eq!(refused(&SETTINGS, &whole, len() - 1), (5, 0, 0));
    assert_eq!(refused(&SETTINGS, &whole, 0), (5, 0, 0));
    for k in [0, 4] {
        made.entries[k].1 = made.entries[k].1.replacen("offsets\":[", "offsets\":[1", 1);
        assert_eq!(refused(&SETTINGS, &made.bytes(), 0), (18, 1, made.place(&made.entries[0].0)));
    }
    for k in [count - 1, 3] {
        made.entries[k].1 = made.entries[k].1.replacen("F16", "F8", 1);
        assert_eq!(refused(&SETTINGS, &made.bytes(), 0), (17, k + 1, made.place(&made.entries[k].0)));
    }
    let gone = made.entries.remove(2);
    assert_eq!(refused(&SETTINGS, &made.bytes(), 0), (17, 3, 0));
    made.entries.push(gone);
    for k in [count - 2, 6] {
        // The third stands at the end now.
        made.entries[k - 1].1 = "[]".into();
        assert_eq!(refused(&SETTINGS, &made.bytes(), 0), (16, k + 1, made.place(&made.entries[k - 1].0)));
    }
    let mut bytes = made.bytes();
    let text = made.header();
    bytes[8 + text.len() - 1] = b']';
    assert_eq!(refused(&SETTINGS, &bytes, 0), (16, 0, 8 + text.len() - 1));
    assert_eq!(refused(&SETTINGS, &bytes[..200], 0), (16, 0, 0));
    let none = EncoderSettings { num_heads: 3, ..SETTINGS };
    assert_eq!(refused(&none, &bytes[..200], 0), (1, 0, 0));
    let many = EncoderSettings { num_layers: usize::MAX, ..SETTINGS };
    assert_eq!(refused(&many, &whole, len()), (1, 0, 0));
    assert_eq!(tensor_names(&many), [""; 0]);
}

#[test]
fn a_refusal_names_the_tensor() {
    let mut made = made(8);
    made.entries.remove(5);
    let refused = weights(&SETTINGS, &made.bytes(), &mut []).unwrap_err();
    assert_eq!(refused.refusal, Refusal::Tensor);
    assert_eq!(
        refused.to_string(),
        "a tensor is missing, or has another dtype or another count of values: \
         vision_tower.transformer.layers.0.attention.v_proj.weight"
    );
    let error: &dyn std::error::Error = &refused;
    assert_eq!(error.source().unwrap().to_string(), Refusal::Tensor.to_string());
    let refused = weights(&SETTINGS, &file(b"[]", b""), &mut []).unwrap_err();
    assert!(refused.tensor.is_none() && refused.to_string().ends_with(", at byte 8"), "{refused}");
}

#[test]
fn forward_takes_them_and_refuses_a_nan() {
    let mut random = Random(9);
    let floats = random.floats(len(), 0.1);
    let mut made = Tensors::new(&SETTINGS, "F32", |n| vec![0; n]);
    made.data = floats.iter().flat_map(|x| x.to_le_bytes()).collect();
    let patches = random.floats(4 * 12, 1.0);
    let axes = rope_axes(4, 4, 10000.0).unwrap();
    let tokens = |weights: &[f32]| {
        let lengths = SETTINGS.lengths(2, 2).unwrap();
        let (mut scratch, mut out) = (vec![0.0; lengths.scratch], vec![0.0; lengths.out]);
        forward_axes(&SETTINGS, &patches, 2, 2, weights, &axes, &mut scratch, &mut out).map(|_| out)
    };
    let found = read(&SETTINGS, &made.bytes());
    assert!(same(&found, &floats));
    assert!(same(&tokens(&found).unwrap(), &tokens(&floats).unwrap()));
    let at = made.data.len() - 4;
    made.data[at..].copy_from_slice(&0xFF80_0001u32.to_le_bytes());
    let found = read(&SETTINGS, &made.bytes());
    assert_eq!(found[len() - 1].to_bits(), 0xFF80_0001);
    assert_eq!(tokens(&found), Err(Refusal::NotFinite));
}

/// With 48 layers and 32 levels it runs on a thread with 140 KiB of stack.
#[test]
fn little_stack() {
    let settings = EncoderSettings { num_layers: 48, ..SETTINGS };
    let made = Tensors::new(&settings, "BF16", |n| vec![0; n]);
    let header = format!("{{\"a\":{}{},{}", "[".repeat(31), "]".repeat(31), &made.header()[1..]);
    let bytes = file(header.as_bytes(), &made.data);
    let run = move || {
        let mut out = marks(settings.weights_len().unwrap());
        weights(&settings, &bytes, &mut out).map(|_| out)
    };
    let found = std::thread::Builder::new().stack_size(140 << 10).spawn(run).unwrap().join().unwrap().unwrap();
    assert!(found.iter().all(|x| x.to_bits() == 0));
}
