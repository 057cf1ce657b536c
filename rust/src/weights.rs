//! The weights of a safetensors file. As in calls.rs, a length is its slice's.

use crate::{face, EncoderSettings, Refusal};
use std::error::Error;
use std::fmt;

/// Why [`weights`] wrote nothing, and where.
#[derive(Clone, Debug, PartialEq, Eq, Hash)]
pub struct WeightsRefusal {
    /// 1, 16, 17, 18 or 5.
    pub refusal: Refusal,
    /// The name of the tensor that is at fault: always with 17 and 18, and with 16 where its entry is damaged.
    pub tensor: Option<String>,
    /// The byte of the file, counted from 0: of a damaged header the one at which it stops, of a tensor the first of its
    /// entry's value. Where there is no such byte it is 0: with 1 and 5, with 16 where the file is shorter than its
    /// header says, with 17 where the tensor is missing.
    pub place: usize,
}

impl fmt::Display for WeightsRefusal {
    fn fmt(&self, f: &mut fmt::Formatter) -> fmt::Result {
        self.refusal.fmt(f)?;
        if let Some(name) = &self.tensor {
            write!(f, ": {name}")?;
        }
        match self.place {
            0 => Ok(()),
            place => write!(f, ", at byte {place}"),
        }
    }
}

impl Error for WeightsRefusal {
    fn source(&self) -> Option<&(dyn Error + 'static)> {
        Some(&self.refusal)
    }
}

/// The tensors that [`weights`] asks for, in the order of the weights
/// ([`weights_len`](EncoderSettings::weights_len)); none where it refuses the settings with 1.
///
/// ```
/// use kyzgultam::{tensor_names, EncoderSettings};
///
/// let names = tensor_names(&EncoderSettings::default());
/// assert_eq!(names.len(), 2 + 24 * 9 + 4);
/// assert_eq!(names[0], "vision_tower.patch_conv.weight");
/// assert_eq!(names[3], "vision_tower.transformer.layers.0.attention.q_proj.weight");
/// ```
pub fn tensor_names(settings: &EncoderSettings) -> Vec<String> {
    // A grid of no patches is refused too, but 1 comes first.
    if settings.lengths(0, 0) == Err(Refusal::Setting) {
        return vec![];
    }
    let tower = ["patch_conv", "ln_pre"].map(|name| format!("vision_tower.{name}.weight"));
    let layers = (0..settings.num_layers).flat_map(|n| {
        let layer = [
            "attention_norm",
            "attention.q_proj",
            "attention.k_proj",
            "attention.v_proj",
            "attention.o_proj",
            "ffn_norm",
            "feed_forward.gate_proj",
            "feed_forward.up_proj",
            "feed_forward.down_proj",
        ];
        layer.map(|name| format!("vision_tower.transformer.layers.{n}.{name}.weight"))
    });
    let projector = ["norm.weight", "patch_merger.merging_layer.weight"]
        .into_iter()
        .chain(["linear_1.weight"])
        .chain(settings.projector_bias.then_some("linear_1.bias"))
        .chain(["linear_2.weight"])
        .chain(settings.projector_bias.then_some("linear_2.bias"))
        .map(|name| format!("multi_modal_projector.{name}"));
    tower.into_iter().chain(layers).chain(projector).collect()
}

/// The weights of an encoder out of the bytes of a safetensors file, widened to floats in the order in which
/// [`forward`](crate::forward) is lent them: how many were written, which is
/// [`weights_len`](EncoderSettings::weights_len).
///
/// Of the file the [tensors asked for](tensor_names) are read, each of dtype F32, BF16 or F16: F32 as its bits, BF16 as
/// the upper half of them, F16 as by [`half_to_f32`](crate::half_to_f32). A NaN keeps its bits, and
/// [`forward`](crate::forward) then refuses it with 12. Every other entry of the header is skipped, whatever it holds;
/// tensors may overlap, and lie in any order with anything between and behind them. Of two names or keys alike, after
/// their escapes are read, the last counts.
///
/// Refused with 1, 16, 17, 18, 5, each over all tensors before the next; then nothing is written.
///
/// ```
/// use kyzgultam::{tensor_names, weights, EncoderSettings, PictureSettings, Refusal};
///
/// let settings = EncoderSettings {
///     picture: PictureSettings::new(1, 1, 8),
///     hidden_size: 4,
///     num_heads: 1,
///     head_dim: 4,
///     num_layers: 0,
///     text_hidden_size: 2,
///     ..EncoderSettings::default()
/// };
/// // A file in which all tensors are the same values, as far as they go, of bf16: 1.
/// let entries = tensor_names(&settings).into_iter().zip([12, 4, 4, 16, 8, 4]).map(|(name, count)| {
///     format!(r#""{name}": {{"dtype": "BF16", "shape": [{count}], "data_offsets": [0, {}]}}"#, 2 * count)
/// });
/// let header = format!("{{{}}}", entries.collect::<Vec<_>>().join(", "));
/// let length = (header.len() as u64).to_le_bytes();
/// let file = [&length[..], header.as_bytes(), &[0x80, 0x3F].repeat(16)].concat();
///
/// let mut floats = vec![0.0; settings.weights_len().unwrap()];
/// assert_eq!(weights(&settings, &file, &mut floats), Ok(48));
/// assert_eq!(floats, [1.0; 48]);
///
/// let refused = weights(&settings, &file[..file.len() - 1], &mut floats).unwrap_err();
/// assert_eq!(refused.refusal, Refusal::Offsets);
/// assert_eq!(refused.tensor.unwrap(), "multi_modal_projector.patch_merger.merging_layer.weight");
/// ```
pub fn weights(settings: &EncoderSettings, file: &[u8], out: &mut [f32]) -> Result<usize, WeightsRefusal> {
    // Safe, since the lengths are the slices', which do not overlap, and the call takes any numbers.
    let report = unsafe { face::kz_weights(settings.into(), file.as_ptr(), file.len(), out.as_mut_ptr(), out.len()) };
    match Refusal::check(report.number) {
        Ok(()) => Ok(report.floats),
        Err(refusal) => {
            let tensor = report.tensor.checked_sub(1).and_then(|i| tensor_names(settings).into_iter().nth(i));
            Err(WeightsRefusal { refusal, tensor, place: report.place })
        }
    }
}
