//! The Pixtral image encoder, ported from Rust to Rattle and proved: safe functions over its archives.
//!
//! The calls keep the Rust's names. Every buffer is lent by the caller, and a call allocates nothing. A call that is
//! not accepted says why by a [`Refusal`] and leaves its output as it was; an output longer than the result keeps its
//! tail. That no output is also an input of the same call, and that each length is that of its buffer, is the
//! business of Rust's slices. The proved functions behind ask nothing else of a caller but the floating-point state
//! that Rust takes for granted: rounding to nearest, and no flushing of subnormals. A C program that was linked with
//! `-ffast-math` has another, in the Rust that it calls too.
//!
//! The calls run for the highest level of processors that there is here ([`level`]), with the same bits for each; where
//! the environment's KZ_LEVEL holds them to one that cannot be had, a call panics and says so.
//!
//! A picture larger than the image size is resized, or, where nothing may be lost, taken tile by tile: [`cut`],
//! [`preprocess_tile`] and [`restore_tile`]. Patches that [`restore`] refuses for damaged samples, [`salvage`] brings
//! back without these, and lists them. [`forward`] takes the Rust's rotary tables, [`forward_axes`] small ones;
//! [`forward_plain`] is [`forward`] with attention in the source's form, for up to 64 tokens. [`config`] reads settings
//! from a config.json, [`weights`] the weights from a safetensors file. A [`Pool`] keeps the token vectors of up to 64 sweeps, to compare a new one with.
//!
//! ```
//! use kyzgultam::{forward_axes, pixtral_preprocess, restore, rope_axes, EncoderSettings, PictureSettings};
//!
//! # fn main() -> Result<(), kyzgultam::Refusal> {
//! // A picture of 30 rows and 50 columns, to patches.
//! let picture = PictureSettings::new(14, 2, 112);
//! let rgb = vec![200u8; 30 * 50 * 3];
//! let mut patches = vec![0.0; picture.patches_len(30, 50)?];
//! let grid = pixtral_preprocess(&rgb, 30, 50, &picture, &mut patches)?;
//! assert_eq!((grid.grid_h, grid.grid_w), (4, 4));
//!
//! // Patches to token vectors. These weights are all alike; a model brings its own.
//! let settings = EncoderSettings {
//!     picture,
//!     hidden_size: 16,
//!     num_heads: 2,
//!     head_dim: 8,
//!     num_layers: 1,
//!     intermediate_size: 24,
//!     text_hidden_size: 10,
//!     projector_bias: false,
//!     scaling: 8f32.powf(-0.5),
//! };
//! let lengths = settings.lengths(grid.grid_h, grid.grid_w)?;
//! let weights = vec![0.01; lengths.weights];
//! let axes = rope_axes(picture.image_size / picture.patch_size, settings.head_dim, 10000.0)?;
//! let (mut scratch, mut tokens) = (vec![0.0; lengths.scratch], vec![0.0; lengths.out]);
//! let count = forward_axes(
//!     &settings, &patches, grid.grid_h, grid.grid_w, &weights, &axes, &mut scratch, &mut tokens,
//! )?;
//! assert_eq!(count, 4);
//!
//! // And back: the bytes of the resized picture.
//! let mut bytes = vec![0; picture.restored_len(grid.grid_h, grid.grid_w)?];
//! let size = restore(&patches, grid.grid_h, grid.grid_w, &picture, &mut bytes)?;
//! assert_eq!((size.height, size.width), (56, 56));
//! assert!(bytes.iter().all(|b| *b == 200));
//! # Ok(())
//! # }
//! ```

mod calls;
mod config;
mod face;
mod level;
mod number;
mod pool;
mod refusal;
mod rope;
mod salvage;
mod settings;
mod tiles;
mod weights;

pub use calls::{forward, forward_axes, forward_plain, patch, pixtral_preprocess, restore};
pub use calls::{Patches, Picture, PixtralEncoder};
pub use config::{config, ConfigRefusal};
pub use level::{level, Level, UnknownLevel};
pub use number::{bf16, bf16_pack, bf16_pack_all, bf16_widen, bf16_widen_all};
pub use number::{exp, half_to_f32, root, tanh};
pub use pool::Pool;
pub use refusal::Refusal;
pub use rope::{rope_axes, RopeAxes};
pub use salvage::{salvage, BadSample, Salvaged};
pub use settings::{EncoderSettings, Lengths, PictureSettings};
pub use tiles::{cut, preprocess_tile, restore_tile, Cut, Tile};
pub use weights::{tensor_names, weights, WeightsRefusal};

/// `KZ_VERSION` of the header: where two differ in the first or the second number, an answer may have other bits.
pub const VERSION: &str = env!("CARGO_PKG_VERSION");

/// What the linked archives say their version is, libkyzgultam.a's and libnumber.a's: ten thousand times the first
/// number, a hundred times the second, and the third. Both are that of [`VERSION`], unless archives of another version
/// were handed to the build (`KZ_ARCHIVES`).
pub fn linked_versions() -> [u32; 2] {
    unsafe { [face::kz_version(), face::kz_number_version()] }
}
