//! Random numbers, and the bytes of pictures.

use std::fmt;

use super::sample::states;
use super::settings::{Sides, NO_RULES, RULES};

pub const SEED: u64 = 0x6B79_7A67_756C_7461;

/// SplitMix64.
pub struct Random(pub u64);

impl Random {
    pub fn next(&mut self) -> u64 {
        self.0 = self.0.wrapping_add(0x9E37_79B9_7F4A_7C15);
        let mut z = self.0;
        z = (z ^ (z >> 30)).wrapping_mul(0xBF58_476D_1CE4_E5B9);
        z = (z ^ (z >> 27)).wrapping_mul(0x94D0_49BB_1331_11EB);
        z ^ (z >> 31)
    }

    pub fn below(&mut self, n: usize) -> usize {
        (self.next() % n as u64) as usize
    }

    pub fn pick<T: Copy>(&mut self, from: &[T]) -> T {
        from[self.below(from.len())]
    }

    /// A resize rule, or now and then what is none.
    pub fn rule(&mut self) -> usize {
        match self.below(16) {
            0 => self.pick(&NO_RULES),
            _ => self.pick(&RULES),
        }
    }

    /// A length, or now and then one beside it; none is long.
    pub fn length(&mut self, n: usize) -> usize {
        match self.below(3) {
            0 => (n.min(1000) + self.below(3)).saturating_sub(1),
            _ => n.min(1000),
        }
    }

    pub fn fill(&mut self) -> Fill {
        Fill::Random(self.next())
    }

    /// One with a name, or random bytes.
    pub fn any_fill(&mut self) -> Fill {
        match self.below(8) {
            k if k < FILLS.len() => FILLS[k].1,
            _ => self.fill(),
        }
    }
}

/// A picture's bytes, by a rule.
#[derive(Clone, Copy, PartialEq)]
pub enum Fill {
    /// The words of SplitMix64 from a seed, the low byte of each first.
    Random(u64),
    /// The generator of the sample from a seed.
    Sample(u32),
    Zero,
    Full,
    /// From 0 in the first column to 255 in the last.
    Across,
    /// From 0 in the first row to 255 in the last.
    Down,
    /// The low 8 bits of each byte's index.
    Ramp,
    /// Pixels of 0 and of 255 in turn.
    Checks,
}

const FILLS: [(&str, Fill); 6] = [
    ("zero", Fill::Zero),
    ("full", Fill::Full),
    ("across", Fill::Across),
    ("down", Fill::Down),
    ("ramp", Fill::Ramp),
    ("checks", Fill::Checks),
];

impl Fill {
    pub fn bytes(self, len: usize, sides: Sides) -> Vec<u8> {
        let [height, width] = sides.map(|side| side.max(1));
        let shade = |at: usize, side: usize| (at * 255 / (side - 1).max(1)) as u8;
        let each = |byte: &dyn Fn(usize) -> u8| (0..len).map(byte).collect();
        match self {
            Fill::Random(seed) => {
                let (mut random, mut bytes) = (Random(seed), vec![0; len]);
                for run in bytes.chunks_mut(8) {
                    run.copy_from_slice(&random.next().to_le_bytes()[..run.len()]);
                }
                bytes
            }
            Fill::Sample(seed) => states(seed).map(|x| (x >> 24) as u8).take(len).collect(),
            Fill::Zero => vec![0; len],
            Fill::Full => vec![255; len],
            Fill::Across => each(&|i| shade(i / 3 % width, width)),
            Fill::Down => each(&|i| shade(i / 3 / width, height)),
            Fill::Ramp => each(&|i| i as u8),
            Fill::Checks => each(&|i| {
                if (i / 3 % width + i / 3 / width) % 2 == 0 {
                    0
                } else {
                    255
                }
            }),
        }
    }

    pub fn of(word: &str) -> Option<Fill> {
        match word.split_once(':') {
            Some(("random", seed)) => seed.parse().ok().map(Fill::Random),
            Some(("sample", seed)) => seed.parse().ok().map(Fill::Sample),
            _ => FILLS
                .iter()
                .find(|(name, _)| *name == word)
                .map(|(_, fill)| *fill),
        }
    }
}

impl fmt::Display for Fill {
    fn fmt(&self, to: &mut fmt::Formatter) -> fmt::Result {
        let name = FILLS.iter().find(|(_, fill)| fill == self);
        match (self, name) {
            (Fill::Random(seed), _) => write!(to, "random:{seed}"),
            (Fill::Sample(seed), _) => write!(to, "sample:{seed}"),
            (_, Some((name, _))) => write!(to, "{name}"),
            (_, None) => Err(fmt::Error),
        }
    }
}
