//! config.json. As in calls.rs, a length is its slice's.

use crate::{face, EncoderSettings, Refusal};
use std::error::Error;
use std::fmt;

/// Why [`config`] gave no settings, and where.
#[derive(Clone, Copy, Debug, PartialEq, Eq, Hash)]
pub struct ConfigRefusal {
    /// 13, 14, 15 or 1.
    pub refusal: Refusal,
    /// The byte of 13 or 14, counted from 0: the text's length where it ends too early, 0 where it is above 64 KiB.
    /// With 15 and 1 it is 0.
    pub place: usize,
}

impl fmt::Display for ConfigRefusal {
    fn fmt(&self, f: &mut fmt::Formatter) -> fmt::Result {
        match self.refusal {
            Refusal::ConfigText | Refusal::ConfigDepth => write!(f, "{}, at byte {}", self.refusal, self.place),
            _ => self.refusal.fmt(f),
        }
    }
}

impl Error for ConfigRefusal {
    fn source(&self) -> Option<&(dyn Error + 'static)> {
        Some(&self.refusal)
    }
}

/// The settings that a config.json says, as the Rust's `PixtralVisionConfig::from_file` reads them: the same keys,
/// compared after their escapes are read, the same defaults and fallbacks, and of two keys alike the last. A size is
/// plain digits of at most 2⁶⁴ − 1, and anything else counts as absent. What config.json does not say is that of `lent`:
/// resize rule, means, deviations, `projector_bias` and `scaling`; the sizes of `lent` are not read.
///
/// The text is one of RFC 8259 in UTF-8, of at most 65,536 bytes, with at most 32 brackets open within one another. The
/// settings that are given are allowed: no call refuses them with 1. Refused with 13, 14, 15, 1.
///
/// ```
/// use kyzgultam::{config, EncoderSettings, Refusal};
///
/// let lent = EncoderSettings::default();
/// let text = br#"{"vision_config": {"hidden_size": 512, "num_attention_heads": 8}, "text_config": null}"#;
/// let settings = config(&lent, text).unwrap();
/// assert_eq!((settings.hidden_size, settings.num_heads, settings.head_dim), (512, 8, 64));
/// assert_eq!(settings.text_hidden_size, 5120);
///
/// let refused = config(&lent, br#"{"vision_config": {},}"#).unwrap_err();
/// assert_eq!((refused.refusal, refused.place), (Refusal::ConfigText, 21));
/// assert_eq!(config(&lent, b"[]").unwrap_err().refusal, Refusal::ConfigVision);
/// ```
pub fn config(lent: &EncoderSettings, text: &[u8]) -> Result<EncoderSettings, ConfigRefusal> {
    // Safe, since the length is the slice's, and the call takes any numbers.
    let report = unsafe { face::kz_config(lent.into(), text.as_ptr(), text.len()) };
    match Refusal::check(report.number) {
        Ok(()) => Ok(report.settings.into()),
        Err(refusal) => Err(ConfigRefusal { refusal, place: report.place }),
    }
}
