//! A writer of safetensors files, from the public layout.

use kyzgultam::{tensor_names, EncoderSettings};

/// A file of the tensors that settings ask for, before it is written.
#[derive(Clone)]
pub struct Tensors {
    /// Name and entry, as texts.
    pub entries: Vec<(String, String)>,
    pub data: Vec<u8>,
}

/// How many values each tensor has, in the order of the weights.
pub fn counts(s: &EncoderSettings) -> Vec<usize> {
    let (h, i, x) = (s.hidden_size, s.intermediate_size, s.text_hidden_size);
    let (p, m) = (s.picture.patch_size, s.picture.spatial_merge_size);
    let layer = [h, h * h, h * h, h * h, h * h, h, i * h, i * h, h * i];
    let bias = s.projector_bias.then_some(x);
    let layers = std::iter::repeat_n(layer, s.num_layers).flatten();
    let last = [h, h * h * m * m, x * h].into_iter().chain(bias).chain([x * x]).chain(bias);
    [3 * p * p * h, h].into_iter().chain(layers).chain(last).collect()
}

pub fn entry(dtype: &str, count: usize, begin: usize) -> String {
    let end = begin + count * size(dtype);
    format!(r#"{{"dtype":"{dtype}","shape":[{count}],"data_offsets":[{begin},{end}]}}"#)
}

pub fn size(dtype: &str) -> usize {
    if dtype == "F32" {
        4
    } else {
        2
    }
}

/// The bytes of a file with that header.
pub fn file(header: &[u8], data: &[u8]) -> Vec<u8> {
    [&(header.len() as u64).to_le_bytes(), header, data].concat()
}

impl Tensors {
    /// One tensor behind the other, all of one dtype, out of the bytes that are given.
    pub fn new(settings: &EncoderSettings, dtype: &str, mut bytes: impl FnMut(usize) -> Vec<u8>) -> Tensors {
        let mut made = Tensors { entries: vec![], data: vec![] };
        for (name, count) in tensor_names(settings).into_iter().zip(counts(settings)) {
            made.entries.push((name, entry(dtype, count, made.data.len())));
            made.data.extend(bytes(count * size(dtype)));
        }
        made
    }

    pub fn header(&self) -> String {
        let members: Vec<String> = self.entries.iter().map(|(name, entry)| format!("\"{name}\":{entry}")).collect();
        format!("{{{}}}", members.join(","))
    }

    pub fn bytes(&self) -> Vec<u8> {
        file(self.header().as_bytes(), &self.data)
    }

    /// Where in the file the value of the last entry of a tensor begins.
    pub fn place(&self, name: &str) -> usize {
        let found = self.header().rfind(&format!("\"{name}\":"));
        8 + found.unwrap() + name.len() + 3
    }
}
