use std::error::Error;
use std::fmt;

/// Why a call was not accepted. The output is then as it was.
///
/// A call gives the first that applies, in its own order; see each call.
///
/// ```
/// use kyzgultam::{pixtral_preprocess, PictureSettings, Refusal};
///
/// let settings = PictureSettings::default();
/// let refused = pixtral_preprocess(&[0; 12], 2, 3, &settings, &mut []).unwrap_err();
/// assert_eq!(refused, Refusal::RgbLength);
/// assert_eq!(refused.number(), 3);
/// assert_eq!(refused.to_string(), "the RGB length is not height × width × 3");
/// ```
#[derive(Clone, Copy, Debug, PartialEq, Eq, Hash)]
#[non_exhaustive]
pub enum Refusal {
    /// 1: a setting is not allowed.
    Setting = 1,
    /// 2: height or width is not in 1..8192.
    Side = 2,
    /// 3: the RGB length is not height × width × 3.
    RgbLength = 3,
    /// 4: the image size is below patch × merge.
    ImageSize = 4,
    /// 5: the output is shorter than the result; of [`restore_tile`](crate::restore_tile), than the sweep.
    Output = 5,
    /// 6: a grid side is 0, above image size / patch, or not divisible by merge.
    Grid = 6,
    /// 7: the patches' length does not fit the grid, which of a tile is its own.
    PatchesLength = 7,
    /// 8: a sample has bits that no byte has in its channel; in a tile's padding, not byte 0's.
    Sample = 8,
    /// 9: the weights' length is not that of the settings.
    WeightsLength = 9,
    /// 10: a rotary table's length is not that of the settings.
    TableLength = 10,
    /// 11: the scratch is too short.
    Scratch = 11,
    /// 12: a value is not finite.
    NotFinite = 12,
    /// 13: a config.json is above 64 KiB, or no RFC 8259 text agrees with a byte of it, or with its end.
    ConfigText = 13,
    /// 14: a bracket of a config.json opens level 33.
    ConfigDepth = 14,
    /// 15: a config.json has no vision_config, or zero heads in it.
    ConfigVision = 15,
    /// 16: a safetensors file is below 8 bytes or shorter than its header, its header no object of RFC 8259 with at most 32
    /// levels, or an entry asked for has no dtype, shape and two offsets.
    Header = 16,
    /// 17: a tensor is missing, of a dtype that is none of F32, BF16 and F16, or of another count.
    Tensor = 17,
    /// 18: a tensor's offsets fall, pass the end of the data, or are of another length.
    Offsets = 18,
    /// 19: by its mean and deviation a channel's 256 samples are not all finite, or neither strictly rise nor strictly
    /// fall.
    Channel = 19,
    /// 20: a tile's index is outside the cut.
    Tile = 20,
    /// 21: there are more bad samples than the list of [`salvage`](crate::salvage) has entries.
    List = 21,
    /// 22: of [`forward_plain`](crate::forward_plain), a grid of more than 64 tokens, counted before merging.
    Tokens = 22,
    /// 23: the pool holds the key already.
    KeyHeld = 23,
    /// 24: no vectors are given.
    NoVectors = 24,
    /// 25: the pool holds 64 results, or the floats held and the new ones together are more than the slice has.
    PoolFull = 25,
    /// 26: the pool does not hold the key.
    KeyUnknown = 26,
    /// 27: the pool was not made for a slice of this length. [`Pool`](crate::Pool) never gives it.
    PoolSlice = 27,
}

impl Refusal {
    /// Every refusal, by number.
    pub const ALL: &[Refusal] = &[
        Refusal::Setting,
        Refusal::Side,
        Refusal::RgbLength,
        Refusal::ImageSize,
        Refusal::Output,
        Refusal::Grid,
        Refusal::PatchesLength,
        Refusal::Sample,
        Refusal::WeightsLength,
        Refusal::TableLength,
        Refusal::Scratch,
        Refusal::NotFinite,
        Refusal::ConfigText,
        Refusal::ConfigDepth,
        Refusal::ConfigVision,
        Refusal::Header,
        Refusal::Tensor,
        Refusal::Offsets,
        Refusal::Channel,
        Refusal::Tile,
        Refusal::List,
        Refusal::Tokens,
        Refusal::KeyHeld,
        Refusal::NoVectors,
        Refusal::PoolFull,
        Refusal::KeyUnknown,
        Refusal::PoolSlice,
    ];

    /// The number, the same as in C and in the documents: 1 to 27.
    pub fn number(self) -> u32 {
        self as u32
    }

    /// What a number says: nothing at 0.
    ///
    /// # Panics
    /// At a number that is no refusal: then the archives are of another version than this crate.
    pub(crate) fn check(number: u32) -> Result<(), Refusal> {
        match number {
            0 => Ok(()),
            n => match Refusal::ALL.iter().find(|refusal| refusal.number() == n) {
                Some(refusal) => Err(*refusal),
                None => panic!("the archives answer {n}: they are of another version than this crate"),
            },
        }
    }
}

impl fmt::Display for Refusal {
    fn fmt(&self, f: &mut fmt::Formatter) -> fmt::Result {
        f.write_str(match self {
            Refusal::Setting => "a setting is not allowed",
            Refusal::Side => "height or width is not in 1..8192",
            Refusal::RgbLength => "the RGB length is not height × width × 3",
            Refusal::ImageSize => "the image size is below patch × merge",
            Refusal::Output => "the output is shorter than the result",
            Refusal::Grid => "a side of the grid is 0, above image size / patch, or not divisible by merge",
            Refusal::PatchesLength => "the patches' length is not grid_h × grid_w × 3 × patch²",
            Refusal::Sample => "a sample has bits that no byte has in its channel, or in a tile's padding not byte 0's",
            Refusal::WeightsLength => "the weights' length is not that of the settings",
            Refusal::TableLength => "a rotary table's length is not that of the settings",
            Refusal::Scratch => "the scratch is too short",
            Refusal::NotFinite => "a value is not finite, in the inputs or at a stage",
            Refusal::ConfigText => "the config is above 64 KiB, or it is no JSON text",
            Refusal::ConfigDepth => "more than 32 brackets of the config are open within one another",
            Refusal::ConfigVision => "the config has no vision_config, or zero heads in it",
            Refusal::Header => {
                "the file is no safetensors file, or an entry of its header that is asked for is damaged"
            }
            Refusal::Tensor => "a tensor is missing, or has another dtype or another count of values",
            Refusal::Offsets => "a tensor's offsets fall, pass the end of the data, or do not fit its count of values",
            Refusal::Channel => "a channel's samples are not all finite, or neither strictly rise nor strictly fall",
            Refusal::Tile => "the tile's index is outside the cut of the sweep",
            Refusal::List => "there are more bad samples than the list has entries",
            Refusal::Tokens => "the grid has more than 64 tokens",
            Refusal::KeyHeld => "the pool holds the key already",
            Refusal::NoVectors => "there are no vectors to add",
            Refusal::PoolFull => "the pool holds 64 results, or its slice has no room for these vectors",
            Refusal::KeyUnknown => "the pool does not hold the key",
            Refusal::PoolSlice => "the pool was not made for a slice of this length",
        })
    }
}

impl Error for Refusal {}

#[cfg(test)]
mod tests {
    use super::*;

    #[test]
    fn a_number_is_found_wherever_it_stands() {
        assert_eq!(Refusal::check(0), Ok(()));
        for refusal in Refusal::ALL {
            assert_eq!(Refusal::check(refusal.number()), Err(*refusal));
        }
    }

    #[test]
    #[should_panic(expected = "the archives answer 28: they are of another version")]
    fn a_number_behind_the_last_is_none() {
        let _ = Refusal::check(28);
    }
}
