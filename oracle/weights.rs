//! Compares libkyzgultam's kz_weights with the Rust's loader: the names that it asks for, their counts, and every bit of
//! the weights.
//!
//! The Rust's `load_pixtral_encoder_inner`, all that it calls and the types are cut from its source, unchanged. What
//! stands here in the place of the crates that it uses: a map of a file, which is the image of the call; and a
//! SafeTensors that reads headers of the one form in which they are written here, and judges nothing. So what the
//! safetensors crate refuses is not compared, nor is a bias, which the Rust has not.
//!
//!     weights            random models, dtypes and orders, and each tensor missing, of another count and another dtype

use std::collections::BTreeMap;

#[allow(dead_code)]
#[path = "lent.rs"]
mod lent;
use lent::{Differences, Lent};

// The size of a file is worked out for a log line.
#[allow(dead_code, unused_variables)]
mod rust {
    use safetensors::SafeTensors;
    use std::collections::HashMap;
    use std::path::Path;

    #[derive(Clone)]
    pub struct PixtralVisionConfig {
        pub hidden_size: usize,
        pub num_heads: usize,
        pub head_dim: usize,
        pub num_layers: usize,
        pub intermediate_size: usize,
        pub patch_size: usize,
        pub image_size: usize,
        pub rope_theta: f32,
        pub spatial_merge_size: usize,
        pub text_hidden_size: usize,
    }

    #[derive(Debug)]
    pub enum HerbertError {
        ModelLoad(String),
    }

    type Result<T> = std::result::Result<T, HerbertError>;

    macro_rules! debug {
        ($($words:tt)*) => {};
    }
    macro_rules! info {
        ($($words:tt)*) => {};
    }

    /// The one file that there is.
    pub mod fs {
        use super::{HerbertError, Result};
        use std::cell::RefCell;
        use std::path::Path;

        thread_local! {
            pub static IMAGE: RefCell<Vec<u8>> = const { RefCell::new(Vec::new()) };
        }
        pub struct File;
        impl File {
            pub fn open(_: impl AsRef<Path>) -> Result<File> {
                Ok(File)
            }
            pub fn len(&self) -> u64 {
                0
            }
        }
        pub fn read(_: impl AsRef<Path>) -> Result<Vec<u8>> {
            Err(HerbertError::ModelLoad("there is no index".into()))
        }
        pub fn metadata(_: impl AsRef<Path>) -> Result<File> {
            Ok(File)
        }
    }

    struct Mmap(Vec<u8>);
    impl Mmap {
        unsafe fn map(_: &fs::File) -> Result<Mmap> {
            Ok(Mmap(fs::IMAGE.with_borrow(Vec::clone)))
        }
    }
    impl std::ops::Deref for Mmap {
        type Target = [u8];
        fn deref(&self) -> &[u8] {
            &self.0
        }
    }

    mod serde_json {
        pub fn from_slice(_: &[u8]) -> super::Result<super::SafetensorsIndex> {
            Err(super::HerbertError::ModelLoad("there is no index".into()))
        }
    }
    struct SafetensorsIndex {
        weight_map: HashMap<String, String>,
    }

    mod indicatif {
        pub struct ProgressStyle;
        impl ProgressStyle {
            pub fn with_template(_: &str) -> Option<Self> {
                Some(Self)
            }
            pub fn progress_chars(self, _: &str) -> Self {
                self
            }
        }
        pub struct ProgressBar;
        impl ProgressBar {
            pub fn new(_: u64) -> Self {
                Self
            }
            pub fn set_style(&self, _: ProgressStyle) {}
            pub fn set_position(&self, _: u64) {}
            pub fn inc(&self, _: u64) {}
            pub fn finish_and_clear(&self) {}
        }
    }

    mod safetensors {
        use std::collections::HashMap;

        #[derive(Clone, Copy, Debug, PartialEq)]
        pub enum Dtype {
            F32,
            BF16,
            F16,
            I32,
        }

        pub struct View<'a> {
            dtype: Dtype,
            data: &'a [u8],
        }
        impl<'a> View<'a> {
            pub fn dtype(&self) -> Dtype {
                self.dtype
            }
            pub fn data(&self) -> &'a [u8] {
                self.data
            }
        }

        pub struct SafeTensors<'a>(HashMap<String, (Dtype, &'a [u8])>);
        impl<'a> SafeTensors<'a> {
            /// Of a header as `written` writes it.
            pub fn deserialize(bytes: &'a [u8]) -> Result<Self, String> {
                let (length, rest) = bytes.split_first_chunk().ok_or("short")?;
                let (header, data) = rest.split_at(u64::from_le_bytes(*length) as usize);
                let header = std::str::from_utf8(header).map_err(|e| e.to_string())?;
                let mut found = HashMap::new();
                for entry in header.split("\n").filter(|line| line.len() > 2) {
                    let words: Vec<&str> = entry.split('"').collect();
                    let dtype = match words[5] {
                        "F32" => Dtype::F32,
                        "BF16" => Dtype::BF16,
                        "F16" => Dtype::F16,
                        _ => Dtype::I32,
                    };
                    let (_, offsets) = words[10].split_once('[').ok_or("no offsets")?;
                    let offsets: Vec<usize> =
                        offsets.split(|c: char| !c.is_ascii_digit()).filter_map(|n| n.parse().ok()).collect();
                    found.insert(words[1].to_string(), (dtype, &data[offsets[0]..offsets[1]]));
                }
                Ok(SafeTensors(found))
            }

            pub fn tensor(&self, name: &str) -> Result<View<'a>, String> {
                let (dtype, data) = *self.0.get(name).ok_or("missing")?;
                Ok(View { dtype, data })
            }
        }
    }

    include!(env!("KZ_CUT"));

    /// What the loader says of the image in `fs`.
    pub fn load(config: &PixtralVisionConfig) -> std::result::Result<PixtralEncoder, String> {
        let loaded = load_pixtral_encoder_inner(Path::new("/nowhere/at/all"), config, false);
        loaded.map_err(|HerbertError::ModelLoad(words)| words)
    }
}

#[repr(C)]
#[derive(Clone, Copy, Debug)]
struct Settings {
    patch_size: usize,
    spatial_merge_size: usize,
    image_size: usize,
    resize_rule: usize,
    six: [f32; 6],
    hidden_size: usize,
    num_heads: usize,
    head_dim: usize,
    num_layers: usize,
    intermediate_size: usize,
    text_hidden_size: usize,
    projector_bias: usize,
    scaling: f32,
}

#[repr(C)]
struct Report {
    number: u32,
    floats: usize,
    tensor: usize,
    place: usize,
}

#[link(name = "kyzgultam", kind = "static")]
extern "C" {
    fn kz_weights(s: Settings, file: *const u8, file_len: usize, weights: *mut u32, weights_len: usize) -> Report;
}

struct Random(u64);

impl Random {
    fn next(&mut self) -> u64 {
        self.0 ^= self.0 << 13;
        self.0 ^= self.0 >> 7;
        self.0 ^= self.0 << 17;
        self.0
    }

    fn below(&mut self, n: usize) -> usize {
        (self.next() >> 16) as usize % n
    }
}

/// The tensors of a model, in the order of the weights: name, and sides of its matrix; a norm has one.
fn asked(s: &Settings) -> Vec<(String, [usize; 2])> {
    let (h, i, x) = (s.hidden_size, s.intermediate_size, s.text_hidden_size);
    let wide = h * s.spatial_merge_size * s.spatial_merge_size;
    let mut names = vec![
        ("vision_tower.patch_conv.weight".into(), [h, 3 * s.patch_size * s.patch_size]),
        ("vision_tower.ln_pre.weight".into(), [h, 1]),
    ];
    for n in 0..s.num_layers {
        let layer = [
            ("attention_norm", [h, 1]),
            ("attention.q_proj", [h, h]),
            ("attention.k_proj", [h, h]),
            ("attention.v_proj", [h, h]),
            ("attention.o_proj", [h, h]),
            ("ffn_norm", [h, 1]),
            ("feed_forward.gate_proj", [i, h]),
            ("feed_forward.up_proj", [i, h]),
            ("feed_forward.down_proj", [h, i]),
        ];
        let named = |name: &str| format!("vision_tower.transformer.layers.{n}.{name}.weight");
        names.extend(layer.map(|(name, sides)| (named(name), sides)));
    }
    let last = [
        ("norm", [h, 1]),
        ("patch_merger.merging_layer", [h, wide]),
        ("linear_1", [x, h]),
        ("linear_2", [x, x]),
    ];
    names.extend(last.map(|(name, sides)| (format!("multi_modal_projector.{name}.weight"), sides)));
    names
}

/// A tensor of a file.
#[derive(Clone)]
struct Tensor {
    name: String,
    dtype: &'static str,
    sides: [usize; 2],
    data: Vec<u8>,
}

fn made(s: &Settings, random: &mut Random) -> Vec<Tensor> {
    let one = |(name, sides): (String, [usize; 2])| {
        let (dtype, size) = [("F32", 4), ("BF16", 2), ("F16", 2)][random.below(3)];
        // Bytes of every value, so of every pattern, NaNs too.
        let data = (0..sides[0] * sides[1] * size).map(|_| random.next() as u8).collect();
        Tensor { name, dtype, sides, data }
    };
    asked(s).into_iter().map(one).collect()
}

/// An entry a line, in any order, the tensors one behind the other.
fn written(tensors: &[Tensor], random: &mut Random) -> Vec<u8> {
    let mut order: Vec<&Tensor> = tensors.iter().collect();
    for at in (1..order.len()).rev() {
        order.swap(at, random.below(at + 1));
    }
    let (mut entries, mut data) = (vec![], vec![]);
    for Tensor { name, dtype, sides, data: own } in order {
        let begin = data.len();
        data.extend(own);
        let offsets = [begin, data.len()];
        entries.push(format!("\"{name}\":{{\"dtype\":\"{dtype}\",\"shape\":{sides:?},\"data_offsets\":{offsets:?}}}"));
    }
    let header = format!("{{\n{}\n}}", entries.join(",\n"));
    [&(header.len() as u64).to_le_bytes(), header.as_bytes(), &data].concat()
}

/// The Rust's weights, in the order of the weights' table.
fn joined(m: &rust::PixtralEncoder) -> Vec<u32> {
    let mut parts = vec![&m.patch_conv.weight, &m.ln_pre.weight];
    for b in &m.blocks {
        let (a, f) = (&b.attn, &b.ffn);
        parts.extend([&b.attention_norm.weight, &a.q_proj.weight, &a.k_proj.weight, &a.v_proj.weight]);
        parts.extend([&a.o_proj.weight, &b.ffn_norm.weight, &f.gate_proj.weight, &f.up_proj.weight]);
        parts.push(&f.down_proj.weight);
    }
    let p = &m.projector;
    parts.extend([&p.norm.weight, &p.merging_layer.weight, &p.linear_1.weight, &p.linear_2.weight]);
    parts.into_iter().flatten().map(|x| x.to_bits()).collect()
}

#[derive(Default)]
struct Comparison {
    numbers: BTreeMap<u32, u64>,
    wrong: Differences,
}

impl Comparison {
    /// One file. Where it is refused, the Rust's error has the name of our tensor.
    fn compare(&mut self, s: &Settings, image: Vec<u8>, words: &str) {
        let config = rust::PixtralVisionConfig {
            hidden_size: s.hidden_size,
            num_heads: s.num_heads,
            head_dim: s.head_dim,
            num_layers: s.num_layers,
            intermediate_size: s.intermediate_size,
            patch_size: s.patch_size,
            image_size: s.image_size,
            rope_theta: 10000.0,
            spatial_merge_size: s.spatial_merge_size,
            text_hidden_size: s.text_hidden_size,
        };
        let len: usize = asked(s).iter().map(|(_, [out, inputs])| out * inputs).sum();
        let mut out = Lent::new(&[], len + 3);
        let r = unsafe { kz_weights(*s, image.as_ptr(), image.len(), out.pointer(), len + 3) };
        rust::fs::IMAGE.set(image);
        *self.numbers.entry(r.number).or_default() += 1;
        let found = match rust::load(&config) {
            Ok(m) => {
                let said = (r.number, r.floats, r.tensor, r.place) != (0, len, 0, 0);
                let said = said.then(|| format!("{} {} {} {}, not accepted", r.number, r.floats, r.tensor, r.place));
                said.or_else(|| out.differs("weights", &joined(&m)))
            }
            Err(error) => {
                let name = r.tensor.checked_sub(1).and_then(|i| asked(s).into_iter().nth(i));
                let right = r.number == 17 && r.floats == 0 && name.is_some_and(|(name, _)| error.contains(&name));
                let said = (!right).then(|| format!("{} at tensor {}, and the Rust says {error}", r.number, r.tensor));
                said.or_else(|| out.differs("weights", &[]))
            }
        };
        self.wrong.note(found, || format!("{s:?}: {words}"));
    }

    /// A model, and each of its tensors once missing, of another count, and of another dtype.
    fn model(&mut self, s: &Settings, random: &mut Random) {
        let tensors = made(s, random);
        for _ in 0..10 {
            self.compare(s, written(&made(s, random), random), "good");
        }
        for at in 0..tensors.len() {
            let mut other = tensors.clone();
            other.remove(at);
            self.compare(s, written(&other, random), &format!("without tensor {at}"));
            for (more, words) in [(true, "with more"), (false, "with less")] {
                let mut other = tensors.clone();
                let tensor = &mut other[at];
                let size = if tensor.dtype == "F32" { 4 } else { 2 };
                tensor.sides = [1, tensor.sides[0] * tensor.sides[1]];
                tensor.sides[1] = if more { tensor.sides[1] + 1 } else { tensor.sides[1] - 1 };
                tensor.data.resize(tensor.sides[1] * size, 0);
                self.compare(s, written(&other, random), &format!("{words} of tensor {at}"));
            }
            let mut other = tensors.clone();
            other[at].dtype = "I32";
            self.compare(s, written(&other, random), &format!("another dtype of tensor {at}"));
        }
    }
}

fn main() {
    if std::env::args().len() > 1 {
        eprintln!("usage: weights");
        std::process::exit(2);
    }
    let mut random = Random(20260104);
    let mut all = Comparison::default();
    for turn in 0..150 {
        let (num_heads, head_dim) = (1 + random.below(3), 4 * (1 + random.below(2)));
        let patch_size = 1 + random.below(4);
        let spatial_merge_size = 1 + random.below(3);
        let s = Settings {
            patch_size,
            spatial_merge_size,
            image_size: patch_size * spatial_merge_size,
            resize_rule: 1,
            six: [0.0; 6],
            hidden_size: num_heads * head_dim,
            num_heads,
            head_dim,
            // Of 12 layers, 1, 10 and 11 begin alike.
            num_layers: if turn % 50 == 0 { 12 } else { random.below(3) },
            intermediate_size: 1 + random.below(9),
            text_hidden_size: 1 + random.below(9),
            projector_bias: 0,
            scaling: 1.0,
        };
        all.model(&s, &mut random);
    }
    all.wrong.print();
    let count = |number: u32| all.numbers.get(&number).copied().unwrap_or(0);
    let total: u64 = all.numbers.values().sum();
    println!(
        "weights: {total} files, {} accepted and {} refused with 17, compared with the Rust's loader; {} differ",
        count(0),
        count(17),
        all.wrong.count
    );
    std::process::exit(if all.wrong.count == 0 { 0 } else { 1 });
}
