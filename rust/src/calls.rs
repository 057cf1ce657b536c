//! Each call hands on slices as pointer and length: an output is lent alone, so it overlaps no other buffer, and a
//! length is its buffer's. What else include/kyzgultam.h asks of a caller, the floating-point state, Rust asks itself.

use crate::{face, EncoderSettings, PictureSettings, Refusal, RopeAxes};

/// What [`pixtral_preprocess`] wrote.
#[derive(Clone, Copy, Debug, PartialEq, Eq, Hash)]
pub struct Patches {
    /// Rows of patches.
    pub grid_h: usize,
    /// Columns of patches.
    pub grid_w: usize,
    /// Floats written over the front of the output.
    pub floats: usize,
}

/// What [`restore`] wrote: height × width pixels of three bytes.
#[derive(Clone, Copy, Debug, PartialEq, Eq, Hash)]
pub struct Picture {
    /// Rows.
    pub height: usize,
    /// Columns.
    pub width: usize,
}

/// The patches of a picture: `height` × `width` pixels of three bytes, by row.
///
/// The picture is resized first, once, to sides that the resize rule gives. Rule 1, the Rust's, takes each side by
/// itself: rounded up to a multiple of patch × merge, cut to the image size and rounded down again, so that a long
/// picture is squashed. Rule 2 keeps its shape: with S the image size and m the longer side, where m is above S each
/// side becomes max(1, ⌊side × S / m⌋) before the same rounding. Where no side is above the image size, both rules give
/// the same patches.
///
/// A byte becomes a sample by the mean and the deviation of its channel; [`PictureSettings`] says how, and which are
/// allowed. Patches run by row; a patch has its samples by channel, row and column. Refused with the first of 1, 19, 2,
/// 3, 4, 5.
///
/// ```
/// # fn main() -> Result<(), kyzgultam::Refusal> {
/// use kyzgultam::{pixtral_preprocess, PictureSettings};
///
/// let settings = PictureSettings::default();
/// let mut out = vec![0.0; settings.patches_len(28, 56)?];
/// let patches = pixtral_preprocess(&[7; 28 * 56 * 3], 28, 56, &settings, &mut out)?;
/// assert_eq!((patches.grid_h, patches.grid_w, patches.floats), (2, 4, 4704));
///
/// // A panoramic sweep: 112 × 448, for an image size of 224.
/// let sweep = vec![7; 112 * 448 * 3];
/// for (resize_rule, grid) in [(1, (8, 16)), (2, (4, 16))] {
///     let settings = PictureSettings { resize_rule, ..PictureSettings::new(14, 2, 224) };
///     let mut out = vec![0.0; settings.patches_len(112, 448)?];
///     let patches = pixtral_preprocess(&sweep, 112, 448, &settings, &mut out)?;
///     assert_eq!((patches.grid_h, patches.grid_w), grid);
/// }
/// # Ok(())
/// # }
/// ```
pub fn pixtral_preprocess(
    rgb_bytes: &[u8],
    height: usize,
    width: usize,
    settings: &PictureSettings,
    out: &mut [f32],
) -> Result<Patches, Refusal> {
    let report = unsafe {
        face::kz_preprocess(*settings, rgb_bytes.as_ptr(), rgb_bytes.len(), height, width, out.as_mut_ptr(), out.len())
    };
    Refusal::check(report.number)?;
    Ok(Patches { grid_h: report.grid_h, grid_w: report.grid_w, floats: report.floats })
}

/// The resized picture that gave the patches; the picture itself where both its sides are multiples of patch × merge
/// and neither is above the image size. It is the same by both resize rules: the grid says its sides. Means and
/// deviations are to be those that the patches were made with: with others most patches are refused with 8.
///
/// Refused with the first of 1, 19, 6, 7, 5, 8: with 8 exactly where no picture gives these patches. What such patches
/// still have, [`salvage`](crate::salvage) brings back.
///
/// ```
/// # fn main() -> Result<(), kyzgultam::Refusal> {
/// # let settings = kyzgultam::PictureSettings::default();
/// let rgb: Vec<u8> = (0..28 * 56 * 3).map(|i| i as u8).collect();
/// let mut patches = vec![0.0; rgb.len()];
/// let grid = kyzgultam::pixtral_preprocess(&rgb, 28, 56, &settings, &mut patches)?;
/// let mut back = vec![0; rgb.len()];
/// let size = kyzgultam::restore(&patches, grid.grid_h, grid.grid_w, &settings, &mut back)?;
/// assert_eq!((size.height, size.width), (28, 56));
/// assert_eq!(back, rgb);
///
/// patches[5] += 0.001;
/// let refused = kyzgultam::restore(&patches, grid.grid_h, grid.grid_w, &settings, &mut back);
/// assert_eq!(refused, Err(kyzgultam::Refusal::Sample));
/// # Ok(())
/// # }
/// ```
pub fn restore(
    patches: &[f32],
    grid_h: usize,
    grid_w: usize,
    settings: &PictureSettings,
    out: &mut [u8],
) -> Result<Picture, Refusal> {
    let report = unsafe {
        face::kz_restore(*settings, patches.as_ptr(), patches.len(), grid_h, grid_w, out.as_mut_ptr(), out.len())
    };
    Refusal::check(report.number)?;
    Ok(Picture { height: report.height, width: report.width })
}

/// Patch `i`, as the part of the patches that it is. It is empty where `patch_size` is not in 1..32, or the whole
/// patch does not lie in the patches.
///
/// ```
/// let patches: Vec<f32> = (0..24).map(|i| i as f32).collect();
/// let second = kyzgultam::patch(&patches, 2, 1);
/// assert_eq!(second.as_ptr(), patches[12..].as_ptr());
/// assert_eq!(second.len(), 12);
/// assert!(kyzgultam::patch(&patches, 2, 2).is_empty());
/// ```
pub fn patch(patches: &[f32], patch_size: usize, i: usize) -> &[f32] {
    let place = unsafe { face::kz_patch(patches.as_ptr(), patches.len(), patch_size, i) };
    &patches[place.start..place.start + place.len]
}

/// The token vectors of patches: their count, and `text_hidden_size` floats for each over the front of `out`.
///
/// [`EncoderSettings::lengths`] tells the length of each buffer. The scratch may hold anything; after an accepted call,
/// and after [`Refusal::NotFinite`], all of it is +0, and after any other refusal it is as it was. The picture's means
/// and deviations are not read: whatever they are, the answer is the same.
/// Refused with the first of 1, 6, 7, 9, 10, 5, 11, 12. The example of [`forward_axes`] has a call.
///
/// No output can be lent as an input too:
///
/// ```compile_fail,E0502
/// let settings = kyzgultam::EncoderSettings::default();
/// let mut floats = vec![0.0; 4704];
/// kyzgultam::forward(&settings, &floats, 2, 4, &[], &[], &[], &mut [], &mut floats);
/// ```
#[allow(clippy::too_many_arguments)] // PixtralEncoder holds those that stay the same
pub fn forward(
    settings: &EncoderSettings,
    patches: &[f32],
    grid_h: usize,
    grid_w: usize,
    weights: &[f32],
    rope_cos: &[f32],
    rope_sin: &[f32],
    scratch: &mut [f32],
    out: &mut [f32],
) -> Result<usize, Refusal> {
    let report = unsafe {
        face::kz_forward(
            settings.into(),
            patches.as_ptr(),
            patches.len(),
            grid_h,
            grid_w,
            weights.as_ptr(),
            weights.len(),
            rope_cos.as_ptr(),
            rope_cos.len(),
            rope_sin.as_ptr(),
            rope_sin.len(),
            scratch.as_mut_ptr(),
            scratch.len(),
            out.as_mut_ptr(),
            out.len(),
        )
    };
    Refusal::check(report.number)?;
    Ok(report.tokens)
}

/// The same by smaller tables: each position's row of cosines and of sines is put together from its row's and its
/// column's floats when it is needed. [`RopeAxes`] says how, and [`rope_axes`](crate::rope_axes) makes the tables of a
/// model.
///
/// Where two full tables hold these rows, as the Rust's `precompute_2d_rope` makes them, [`forward`] gives the same
/// count or refusal, and the same bits. 10 is given where a table does not have [`EncoderSettings::axes_len`] floats; for
/// 12 the four are examined whole, also what this grid does not use. All else is as with [`forward`], the order of the
/// numbers too: 1, 6, 7, 9, 10, 5, 11, 12.
///
/// ```
/// # fn main() -> Result<(), kyzgultam::Refusal> {
/// # use kyzgultam::{EncoderSettings, PictureSettings};
/// use kyzgultam::{forward, forward_axes, rope_axes};
///
/// # let settings = EncoderSettings {
/// #     picture: PictureSettings::new(2, 1, 8),
/// #     hidden_size: 8, num_heads: 1, head_dim: 8, num_layers: 1, intermediate_size: 1,
/// #     text_hidden_size: 3, projector_bias: false, scaling: 0.5,
/// # };
/// # let weights: Vec<f32> = (0..settings.weights_len()?).map(|i| (i % 7) as f32 / 8.0 - 0.25).collect();
/// # let patches: Vec<f32> = (0..settings.picture.restored_len(2, 3)?).map(|i| (i % 5) as f32 - 2.0).collect();
/// // An image size of 8 and patches of 2: four rows and four columns.
/// let axes = rope_axes(4, settings.head_dim, 10000.0)?;
/// assert_eq!(axes.row_cos.len(), settings.axes_len()?);
/// let mut scratch = vec![0.0; settings.scratch_len(2, 3)?];
/// let mut out = vec![0.0; settings.tokens_len(2, 3)?];
/// let count = forward_axes(&settings, &patches, 2, 3, &weights, &axes, &mut scratch, &mut out)?;
/// assert_eq!(count, 6);
///
/// // The full tables, row by row of the grid, give the same bits.
/// let full = |rows: &[f32], columns: &[f32]| -> Vec<f32> {
///     let row = |h: usize, w: usize| [&rows[2 * h..2 * h + 2], &columns[2 * w..2 * w + 2]].concat().repeat(2);
///     (0..16).flat_map(|at| row(at / 4, at % 4)).collect()
/// };
/// let (cos, sin) = (full(&axes.row_cos, &axes.column_cos), full(&axes.row_sin, &axes.column_sin));
/// let mut same = vec![0.0; out.len()];
/// forward(&settings, &patches, 2, 3, &weights, &cos, &sin, &mut scratch, &mut same)?;
/// assert_eq!(out, same);
/// # Ok(())
/// # }
/// ```
#[allow(clippy::too_many_arguments)] // one more than is usual, of which two are outputs
pub fn forward_axes<T: AsRef<[f32]>>(
    settings: &EncoderSettings,
    patches: &[f32],
    grid_h: usize,
    grid_w: usize,
    weights: &[f32],
    axes: &RopeAxes<T>,
    scratch: &mut [f32],
    out: &mut [f32],
) -> Result<usize, Refusal> {
    let (row_cos, row_sin) = (axes.row_cos.as_ref(), axes.row_sin.as_ref());
    let (column_cos, column_sin) = (axes.column_cos.as_ref(), axes.column_sin.as_ref());
    let report = unsafe {
        face::kz_forward_axes(
            settings.into(),
            patches.as_ptr(),
            patches.len(),
            grid_h,
            grid_w,
            weights.as_ptr(),
            weights.len(),
            row_cos.as_ptr(),
            row_cos.len(),
            row_sin.as_ptr(),
            row_sin.len(),
            column_cos.as_ptr(),
            column_cos.len(),
            column_sin.as_ptr(),
            column_sin.len(),
            scratch.as_mut_ptr(),
            scratch.len(),
            out.as_mut_ptr(),
            out.len(),
        )
    };
    Refusal::check(report.number)?;
    Ok(report.tokens)
}

/// [`forward`] with attention in the source's form, to be read beside it: for each head the full matrix of scores, t × t
/// floats of the scratch with t = `grid_h` × `grid_w`, then softmax row by row, then the weighted sums.
///
/// It serves up to 64 tokens, counted before merging, and refuses more with [`Refusal::Tokens`]. Its scratch has t² − t
/// floats more than [`forward`]'s: [`EncoderSettings::plain_scratch_len`]. A call that it accepts, [`forward`] accepts
/// with the same bits, and [`Refusal::NotFinite`] is given by both for the same calls, where it gives neither 22 nor 11.
/// All else is as with [`forward`]. Refused with the first of 1, 6, 7, 22, 9, 10, 5, 11, 12.
///
/// ```
/// # fn main() -> Result<(), kyzgultam::Refusal> {
/// # use kyzgultam::{EncoderSettings, PictureSettings};
/// use kyzgultam::{forward, forward_plain, Refusal};
///
/// # let settings = EncoderSettings {
/// #     picture: PictureSettings::new(1, 1, 13),
/// #     hidden_size: 8, num_heads: 2, head_dim: 4, num_layers: 1, intermediate_size: 1,
/// #     text_hidden_size: 3, projector_bias: false, scaling: 0.5,
/// # };
/// # let weights: Vec<f32> = (0..settings.weights_len()?).map(|i| (i % 7) as f32 / 8.0 - 0.25).collect();
/// # let (cos, sin) = (vec![0.8; settings.tables_len()?], vec![0.6; settings.tables_len()?]);
/// # let patches: Vec<f32> = (0..13 * 5 * 3).map(|i| (i % 5) as f32 - 2.0).collect();
/// let mut scratch = vec![0.0; settings.plain_scratch_len(3, 5)?];
/// assert_eq!(scratch.len(), settings.scratch_len(3, 5)? + 15 * 15 - 15);
/// let mut out = vec![0.0; settings.tokens_len(3, 5)?];
/// # let few = &patches[..3 * 5 * 3];
/// let count = forward_plain(&settings, few, 3, 5, &weights, &cos, &sin, &mut scratch, &mut out)?;
/// assert_eq!(count, 15);
///
/// // The row-wise engine gives the same bits.
/// let mut same = vec![0.0; out.len()];
/// forward(&settings, few, 3, 5, &weights, &cos, &sin, &mut scratch, &mut same)?;
/// assert_eq!(out, same);
///
/// // 13 × 5 are 65 tokens.
/// let refused = forward_plain(&settings, &patches, 13, 5, &weights, &cos, &sin, &mut scratch, &mut out);
/// assert_eq!(refused, Err(Refusal::Tokens));
/// # Ok(())
/// # }
/// ```
#[allow(clippy::too_many_arguments)] // as those of forward
pub fn forward_plain(
    settings: &EncoderSettings,
    patches: &[f32],
    grid_h: usize,
    grid_w: usize,
    weights: &[f32],
    rope_cos: &[f32],
    rope_sin: &[f32],
    scratch: &mut [f32],
    out: &mut [f32],
) -> Result<usize, Refusal> {
    let report = unsafe {
        face::kz_forward_plain(
            settings.into(),
            patches.as_ptr(),
            patches.len(),
            grid_h,
            grid_w,
            weights.as_ptr(),
            weights.len(),
            rope_cos.as_ptr(),
            rope_cos.len(),
            rope_sin.as_ptr(),
            rope_sin.len(),
            scratch.as_mut_ptr(),
            scratch.len(),
            out.as_mut_ptr(),
            out.len(),
        )
    };
    Refusal::check(report.number)?;
    Ok(report.tokens)
}

/// An encoder over lent weights and tables, for calls in the Rust's form: `encoder.forward(..)`.
///
/// ```
/// # fn main() -> Result<(), kyzgultam::Refusal> {
/// # use kyzgultam::{EncoderSettings, PictureSettings};
/// # let settings = EncoderSettings {
/// #     picture: PictureSettings::new(2, 1, 8),
/// #     hidden_size: 4, num_heads: 1, head_dim: 4, num_layers: 0, intermediate_size: 1,
/// #     text_hidden_size: 3, projector_bias: false, scaling: 0.5,
/// # };
/// # let weights = vec![0.5; settings.weights_len()?];
/// # let (cos, sin) = (vec![1.0; settings.tables_len()?], vec![0.0; settings.tables_len()?]);
/// # let patches = vec![0.25; settings.picture.restored_len(2, 3)?];
/// let encoder = kyzgultam::PixtralEncoder {
///     settings,
///     weights: &weights,
///     rope_cos: &cos,
///     rope_sin: &sin,
/// };
/// let mut scratch = vec![0.0; settings.scratch_len(2, 3)?];
/// let mut out = vec![0.0; settings.tokens_len(2, 3)?];
/// let num_tokens = encoder.forward(&patches, 2, 3, &mut scratch, &mut out)?;
/// assert_eq!(num_tokens, 6);
/// # Ok(())
/// # }
/// ```
#[derive(Clone, Copy, Debug)]
pub struct PixtralEncoder<'a> {
    /// The sizes.
    pub settings: EncoderSettings,
    /// As [`EncoderSettings::weights_len`] lists them.
    pub weights: &'a [f32],
    /// As [`EncoderSettings::tables_len`] says.
    pub rope_cos: &'a [f32],
    /// As [`EncoderSettings::tables_len`] says.
    pub rope_sin: &'a [f32],
}

impl PixtralEncoder<'_> {
    /// [`forward`] with this encoder's settings, weights and tables.
    pub fn forward(
        &self,
        patches: &[f32],
        grid_h: usize,
        grid_w: usize,
        scratch: &mut [f32],
        out: &mut [f32],
    ) -> Result<usize, Refusal> {
        forward(&self.settings, patches, grid_h, grid_w, self.weights, self.rope_cos, self.rope_sin, scratch, out)
    }

    /// [`forward_plain`] with this encoder's settings, weights and tables.
    pub fn forward_plain(
        &self,
        patches: &[f32],
        grid_h: usize,
        grid_w: usize,
        scratch: &mut [f32],
        out: &mut [f32],
    ) -> Result<usize, Refusal> {
        forward_plain(&self.settings, patches, grid_h, grid_w, self.weights, self.rope_cos, self.rope_sin, scratch, out)
    }
}
