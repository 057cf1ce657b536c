//! The settings of a picture, what the paper's text makes of them, and the Rust's preprocess under them.

use std::fmt;

/// The functions that were cut, and the types that they name; the settings hold the six numbers too.
pub mod rust {
    pub struct PixtralVisionConfig {
        pub patch_size: usize,
        pub spatial_merge_size: usize,
        pub image_size: usize,
        pub mean: [f32; 3],
        pub deviation: [f32; 3],
    }

    #[derive(Debug)]
    pub enum HerbertError {
        Config(#[allow(dead_code)] String),
    }

    pub type Result<T> = std::result::Result<T, HerbertError>;

    include!(env!("KZ_CUT"));
}

/// The means and the deviations of the channels, by their bits.
#[repr(C)]
#[derive(Clone, Copy, PartialEq)]
pub struct Choice {
    pub mean: [u32; 3],
    pub deviation: [u32; 3],
}

#[repr(C)]
#[derive(Clone, Copy, PartialEq)]
pub struct Settings {
    pub patch_size: usize,
    pub spatial_merge_size: usize,
    pub image_size: usize,
    pub resize_rule: usize,
    pub six: Choice,
}

pub const MAX: usize = usize::MAX;
pub const USUAL: Settings = of(14, 2, 1540);
pub const RULES: [usize; 2] = [1, 2];
/// Numbers of no rule; the low 32 bits of the last two are 1 and 2.
pub const NO_RULES: [usize; 7] = [0, 3, MAX, 1 << 63, 1 << 32, (1 << 32) + 1, (1 << 32) + 2];

/// 01's own.
pub const OWN: Choice = Choice {
    mean: [0x3EF6_813A, 0x3EEA_685E, 0x3ED1_00FF],
    deviation: [0x3E89_89D0, 0x3E85_C974, 0x3E8D_32A8],
};

/// Settings with rule 1 and 01's means and deviations.
pub const fn of(patch_size: usize, spatial_merge_size: usize, image_size: usize) -> Settings {
    Settings {
        patch_size,
        spatial_merge_size,
        image_size,
        resize_rule: 1,
        six: OWN,
    }
}

/// Height and width, of pixels or of patches.
pub type Sides = [usize; 2];

impl Settings {
    pub fn rule(self, resize_rule: usize) -> Settings {
        Settings {
            resize_rule,
            ..self
        }
    }

    pub fn with(self, six: Choice) -> Settings {
        Settings { six, ..self }
    }

    pub fn allowed(self) -> bool {
        (1..=32).contains(&self.patch_size)
            && (1..=4).contains(&self.spatial_merge_size)
            && (1..=2048).contains(&self.image_size)
            && RULES.contains(&self.resize_rule)
    }

    pub fn align(self) -> usize {
        self.patch_size * self.spatial_merge_size
    }

    pub fn patch_floats(self) -> usize {
        3 * self.patch_size * self.patch_size
    }
}

impl Choice {
    /// The bits of a byte's sample in a channel.
    pub fn value(self, channel: usize, byte: u8) -> u32 {
        let mean = f32::from_bits(self.mean[channel]);
        let deviation = f32::from_bits(self.deviation[channel]);
        ((f32::from(byte) / 255.0 - mean) / deviation).to_bits()
    }

    fn values(self, channel: usize) -> [u32; 256] {
        std::array::from_fn(|byte| self.value(channel, byte as u8))
    }
}

/// Whether a channel's 256 values are finite, and strictly rise or strictly fall.
fn channel_allowed(values: [u32; 256]) -> bool {
    let values = values.map(f32::from_bits);
    let every = |holds: fn(f32, f32) -> bool| values.windows(2).all(|two| holds(two[0], two[1]));
    let finite = values.iter().all(|v| v.is_finite());
    finite && (every(|this, next| this < next) || every(|this, next| this > next))
}

/// What a choice comes to.
pub struct Table {
    six: Choice,
    pub allowed: bool,
    /// The bits of every byte in every channel.
    values: [[u32; 256]; 3],
    /// Each channel's with their bytes, by the bits.
    bytes: [Vec<(u32, u8)>; 3],
}

impl Table {
    pub fn new(six: Choice) -> Self {
        let values = [0, 1, 2].map(|channel| six.values(channel));
        Table {
            six,
            allowed: values.into_iter().all(channel_allowed),
            values,
            bytes: values.map(|values| {
                let mut list: Vec<_> = values.into_iter().zip(0..=255).collect();
                list.sort();
                list
            }),
        }
    }

    /// The table of a choice, from then on: the calls come in groups that share one.
    pub fn of(&mut self, six: Choice) -> &Table {
        if self.six != six {
            *self = Table::new(six);
        }
        self
    }

    /// The byte that has the bits in a channel.
    pub fn byte(&self, channel: usize, bits: u32) -> Option<u8> {
        let list = &self.bytes[channel];
        let at = list.binary_search_by_key(&bits, |entry| entry.0).ok()?;
        Some(list[at].1)
    }

    /// The samples of a run of bytes, each in the channel of its place among patches.
    pub fn samples(&self, s: Settings, bytes: &[u8]) -> Vec<u32> {
        let p = if s.allowed() { s.patch_size } else { 1 };
        let mut samples = Vec::with_capacity(bytes.len());
        for (run, values) in bytes.chunks(p * p).zip(self.values.iter().cycle()) {
            samples.extend(run.iter().map(|byte| values[*byte as usize]));
        }
        samples
    }

    /// The bytes whose samples the patches are, by row, column and channel; none where one is no byte's.
    pub fn unpatched(&self, s: Settings, patches: &[u32], grid: Sides) -> Option<Vec<u8>> {
        let p = s.patch_size;
        let [height, width] = grid.map(|side| side * p);
        let mut rgb = Vec::with_capacity(height * width * 3);
        for row in 0..height {
            for column in 0..width {
                for channel in 0..3 {
                    let patch = (row / p) * grid[1] + column / p;
                    let place = channel * p * p + (row % p) * p + column % p;
                    let bits = patches[patch * 3 * p * p + place];
                    rgb.push(self.byte(channel, bits)?);
                }
            }
        }
        Some(rgb)
    }

    /// The number of a call that is refused before its output is measured; 0 for any other. The table is
    /// that of the settings. A call that takes no RGB has no length of it.
    pub fn refused(&self, s: Settings, rgb: Option<usize>, sides: Sides) -> u32 {
        if !s.allowed() {
            1
        } else if !self.allowed {
            19
        } else if sides.iter().any(|side| !(1..=8192).contains(side)) {
            2
        } else if rgb.is_some_and(|rgb| rgb != sides[0] * sides[1] * 3) {
            3
        } else if s.image_size < s.align() {
            4
        } else {
            0
        }
    }
}

/// The Rust's preprocess, which is that of rule 1.
pub fn preprocess_in_rust(
    s: Settings,
    rgb: &[u8],
    [height, width]: Sides,
) -> (Vec<f32>, usize, usize) {
    let config = rust::PixtralVisionConfig {
        patch_size: s.patch_size,
        spatial_merge_size: s.spatial_merge_size,
        image_size: s.image_size,
        mean: s.six.mean.map(f32::from_bits),
        deviation: s.six.deviation.map(f32::from_bits),
    };
    rust::pixtral_preprocess(rgb, height, width, &config)
        .expect("the Rust refuses a call that the paper accepts")
}

impl fmt::Display for Settings {
    fn fmt(&self, to: &mut fmt::Formatter) -> fmt::Result {
        let (patch, merge) = (self.patch_size, self.spatial_merge_size);
        let (image, rule) = (self.image_size, self.resize_rule);
        write!(to, "patch {patch} merge {merge} image {image} rule {rule}")?;
        if self.six != OWN {
            let hex = |three: [u32; 3]| three.map(|bits| format!("{bits:08x}")).join(",");
            let (mean, deviation) = (hex(self.six.mean), hex(self.six.deviation));
            write!(to, " mean {mean} deviation {deviation}")?;
        }
        Ok(())
    }
}
