//! A seeded generator, and encoders and pictures made from it.
#![allow(dead_code)]

pub mod png;
pub mod tensors;
pub mod tool;

use kyzgultam::{EncoderSettings, PictureSettings, RopeAxes};

pub struct Random(pub u64);

impl Random {
    pub fn next(&mut self) -> u64 {
        self.0 ^= self.0 << 13;
        self.0 ^= self.0 >> 7;
        self.0 ^= self.0 << 17;
        self.0
    }

    pub fn from(&mut self, low: usize, high: usize) -> usize {
        low + (self.next() % (high - low + 1) as u64) as usize
    }

    /// Between -size and size.
    pub fn floats(&mut self, n: usize, size: f32) -> Vec<f32> {
        (0..n).map(|_| ((self.next() >> 40) as f32 / 8388608.0 - 1.0) * size).collect()
    }

    pub fn bytes(&mut self, n: usize) -> Vec<u8> {
        (0..n).map(|_| self.next() as u8).collect()
    }

    pub fn picture(&mut self) -> PictureSettings {
        let settings = PictureSettings::new(self.from(1, 9), self.from(1, 4), self.from(1, 90));
        PictureSettings { resize_rule: self.from(1, 2), ..settings }
    }

    /// A mean and a deviation, of ordinary and of extreme sizes; some are not allowed.
    pub fn channel(&mut self) -> (f32, f32) {
        let mut float = |size: f32| self.floats(1, size)[0];
        let (mean, deviation) = (float(1.0), float(1.0));
        let any = f32::from_bits(self.next() as u32);
        match self.from(0, 7) {
            0 => (any, deviation),
            1 => (mean, any),
            2 => (mean * [1e3, 1e5, 3e5, 1e8][self.from(0, 3)], deviation),
            3 => (mean, deviation * [1e38, 1e-30, 1e-38, 1e-39][self.from(0, 3)]),
            _ => (mean, deviation),
        }
    }

    /// An allowed mean and deviation.
    pub fn allowed_channel(&mut self) -> (f32, f32) {
        loop {
            let (mean, deviation) = self.channel();
            if allowed(mean, deviation) {
                return (mean, deviation);
            }
        }
    }

    pub fn encoder(&mut self) -> EncoderSettings {
        let (num_heads, head_dim) = (self.from(1, 3), 4 * self.from(1, 2));
        EncoderSettings {
            picture: self.picture(),
            hidden_size: num_heads * head_dim,
            num_heads,
            head_dim,
            num_layers: self.from(0, 2),
            intermediate_size: self.from(1, 20),
            text_hidden_size: self.from(1, 20),
            projector_bias: self.from(0, 1) == 1,
            scaling: 0.5,
        }
    }
}

/// The sample of a byte, as its definition reads.
pub fn sample(byte: u8, mean: f32, deviation: f32) -> f32 {
    (f32::from(byte) / 255.0 - mean) / deviation
}

/// Whether a channel's 256 samples are finite and strictly rise or strictly fall.
pub fn allowed(mean: f32, deviation: f32) -> bool {
    let samples: Vec<f32> = (0..=255).map(|byte| sample(byte, mean, deviation)).collect();
    let strict = |before: fn(&f32, &f32) -> bool| samples.windows(2).all(|two| before(&two[0], &two[1]));
    samples.iter().all(|x| x.is_finite()) && (strict(f32::lt) || strict(f32::gt))
}

/// Settings with the same mean and the same deviation in all channels.
pub fn alike(mean: f32, deviation: f32, settings: PictureSettings) -> PictureSettings {
    PictureSettings { mean: [mean; 3], deviation: [deviation; 3], ..settings }
}

/// Whether two buffers have the same bits, NaNs too.
pub fn same(a: &[f32], b: &[f32]) -> bool {
    a.len() == b.len() && a.iter().zip(b).all(|(x, y)| x.to_bits() == y.to_bits())
}

/// The full tables of a side that small ones stand for, row by row as the paper has it: cosines and sines.
pub fn expand(axes: &RopeAxes, side: usize, head_dim: usize) -> (Vec<f32>, Vec<f32>) {
    let quarter = head_dim / 4;
    let full = |rows: &[f32], columns: &[f32]| {
        let mut table = Vec::new();
        for (h, w) in (0..side).flat_map(|h| (0..side).map(move |w| (h, w))) {
            for _ in 0..2 {
                table.extend(&rows[h * quarter..(h + 1) * quarter]);
                table.extend(&columns[w * quarter..(w + 1) * quarter]);
            }
        }
        table
    };
    (full(&axes.row_cos, &axes.column_cos), full(&axes.row_sin, &axes.column_sin))
}
