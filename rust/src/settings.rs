use crate::{face, Refusal, Tile};

/// How a picture is resized and cut, and what its bytes become. The default is a Pixtral's: 14, 2 and 1540, with resize
/// rule 1 and means and deviations that are the Rust's.
///
/// The sample of byte b in channel c (red, green, blue) is (b / 255 − `mean[c]`) / `deviation[c]` in f32, each
/// operation rounded. A channel is allowed when its 256 samples are finite and strictly rise or strictly fall with b,
/// compared as numbers: then no two bytes are alike. Where one is not,
/// [`pixtral_preprocess`](crate::pixtral_preprocess), [`restore`](crate::restore) and [`salvage`](crate::salvage) are
/// refused with 19, and so are [`cut`](crate::cut) and the two calls of a tile; no other call, and no method here,
/// reads the six numbers.
///
/// ```
/// # fn main() -> Result<(), kyzgultam::Refusal> {
/// use kyzgultam::{pixtral_preprocess, restore, PictureSettings, Refusal};
///
/// // Grey ultrasound: its own mean and deviation, in all channels.
/// let grey = PictureSettings { mean: [0.2; 3], deviation: [0.25; 3], ..PictureSettings::new(14, 2, 1540) };
/// let rgb = [51; 28 * 28 * 3];
/// let mut patches = [0.0; 28 * 28 * 3];
/// let grid = pixtral_preprocess(&rgb, 28, 28, &grey, &mut patches)?;
/// assert!(patches.iter().all(|sample| *sample == (51.0 / 255.0 - 0.2) / 0.25));
///
/// // The way back needs the same six numbers.
/// let mut back = [0; 28 * 28 * 3];
/// restore(&patches, grid.grid_h, grid.grid_w, &grey, &mut back)?;
/// assert_eq!(back, rgb);
/// let other = restore(&patches, grid.grid_h, grid.grid_w, &PictureSettings::default(), &mut back);
/// assert_eq!(other, Err(Refusal::Sample));
///
/// // From so large a mean no byte stands out.
/// let alike = PictureSettings { mean: [0.2, 0.2, 1e8], ..grey };
/// assert_eq!(pixtral_preprocess(&rgb, 28, 28, &alike, &mut patches), Err(Refusal::Channel));
/// # Ok(())
/// # }
/// ```
#[repr(C)]
#[derive(Clone, Copy, Debug, PartialEq)]
pub struct PictureSettings {
    /// 1..32.
    pub patch_size: usize,
    /// 1..4.
    pub spatial_merge_size: usize,
    /// 1..2048.
    pub image_size: usize,
    /// 1 or 2: 1 cuts each side by itself, 2 keeps the shape of a long picture.
    /// [`pixtral_preprocess`](crate::pixtral_preprocess) says how. Tiles are never resized.
    pub resize_rule: usize,
    /// By channel; allowed together with its deviation.
    pub mean: [f32; 3],
    /// By channel; below zero the samples fall.
    pub deviation: [f32; 3],
}

/// The sizes of an encoder. The default is the one that the Rust takes where a config says nothing.
#[derive(Clone, Copy, Debug, PartialEq)]
pub struct EncoderSettings {
    /// How a picture is resized and cut.
    pub picture: PictureSettings,
    /// 4..2048, and `num_heads` × `head_dim`.
    pub hidden_size: usize,
    /// 1..64.
    pub num_heads: usize,
    /// 4..256, a multiple of 4.
    pub head_dim: usize,
    /// 0..48.
    pub num_layers: usize,
    /// 1..8192.
    pub intermediate_size: usize,
    /// 1..8192.
    pub text_hidden_size: usize,
    /// Whether linear_1 and linear_2 have a bias; in the Rust neither has. Without, it takes no place in the weights,
    /// where a bias of zeros does.
    pub projector_bias: bool,
    /// The attention scale, finite and above zero: `head_dim` to the power −0.5 in the Rust.
    pub scaling: f32,
}

/// How many floats each buffer of a [`forward`](crate::forward) or [`forward_axes`](crate::forward_axes) call has to
/// have, by [`EncoderSettings::lengths`].
#[derive(Clone, Copy, Debug, PartialEq, Eq, Hash)]
pub struct Lengths {
    /// The patches: exactly so many.
    pub patches: usize,
    /// The weights: exactly so many, with every grid.
    pub weights: usize,
    /// Each of the two full rotary tables: exactly so many, with every grid.
    pub tables: usize,
    /// Each of the four tables of [`RopeAxes`](crate::RopeAxes): exactly so many, with every grid.
    pub axes: usize,
    /// The scratch: at least so many.
    pub scratch: usize,
    /// The output: at least so many, and so many are written.
    pub out: usize,
}

impl Default for PictureSettings {
    fn default() -> Self {
        PictureSettings::new(14, 2, 1540)
    }
}

impl Default for EncoderSettings {
    fn default() -> Self {
        EncoderSettings {
            picture: PictureSettings::default(),
            hidden_size: 1024,
            num_heads: 16,
            head_dim: 64,
            num_layers: 24,
            intermediate_size: 4096,
            text_hidden_size: 5120,
            projector_bias: false,
            scaling: 0.125,
        }
    }
}

impl PictureSettings {
    /// The settings of the common call, with resize rule 1 and the Rust's means and deviations.
    ///
    /// ```
    /// use kyzgultam::PictureSettings;
    ///
    /// assert_eq!(PictureSettings::new(14, 2, 1540), PictureSettings::default());
    /// let panoramic = PictureSettings { resize_rule: 2, ..PictureSettings::new(14, 2, 1540) };
    /// assert_eq!(panoramic.grid(3080, 1540), Ok((110, 56)));
    /// ```
    #[allow(clippy::excessive_precision)] // the Rust's own digits
    pub const fn new(patch_size: usize, spatial_merge_size: usize, image_size: usize) -> Self {
        PictureSettings {
            patch_size,
            spatial_merge_size,
            image_size,
            resize_rule: 1,
            mean: [0.48145466, 0.4578275, 0.40821073],
            deviation: [0.26862954, 0.26130258, 0.27577711],
        }
    }

    /// The grid that a picture of these sides gives: `grid_h` and `grid_w`. Refused with 1, 2 or 4; never with 19,
    /// since no length hangs on means and deviations: the calls that use them decide whether they are allowed.
    ///
    /// ```
    /// let settings = kyzgultam::PictureSettings::default();
    /// assert_eq!(settings.grid(29, 28), Ok((4, 2)));
    /// ```
    pub fn grid(&self, height: usize, width: usize) -> Result<(usize, usize), Refusal> {
        let allowed = (1..=32).contains(&self.patch_size)
            && (1..=4).contains(&self.spatial_merge_size)
            && (1..=2048).contains(&self.image_size)
            && (1..=2).contains(&self.resize_rule);
        if !allowed {
            return Err(Refusal::Setting);
        }
        let sides = 1..=8192;
        if !(sides.contains(&height) && sides.contains(&width)) {
            return Err(Refusal::Side);
        }
        let align = self.patch_size * self.spatial_merge_size;
        if self.image_size < align {
            return Err(Refusal::ImageSize);
        }
        let longer = height.max(width);
        let scaled = self.resize_rule == 2 && longer > self.image_size;
        let patches = |side: usize| {
            let side = if scaled { (side * self.image_size / longer).max(1) } else { side };
            let cut = side.next_multiple_of(align).min(self.image_size);
            cut / align * self.spatial_merge_size
        };
        Ok((patches(height), patches(width)))
    }

    /// How many floats [`pixtral_preprocess`](crate::pixtral_preprocess) writes for a picture of these sides. Refused
    /// with 1, 2 or 4, as [`grid`](Self::grid) is.
    pub fn patches_len(&self, height: usize, width: usize) -> Result<usize, Refusal> {
        let (grid_h, grid_w) = self.grid(height, width)?;
        self.restored_len(grid_h, grid_w)
    }

    /// A tile of a sweep of these sides, as [`preprocess_tile`](crate::preprocess_tile) and
    /// [`restore_tile`](crate::restore_tile) report it. Refused with 1, 2, 4 or 20 and, as [`grid`](Self::grid), never
    /// with 19.
    ///
    /// ```
    /// # fn main() -> Result<(), kyzgultam::Refusal> {
    /// let settings = kyzgultam::PictureSettings::new(14, 2, 1540);
    /// let last = settings.tile(3000, 2000, 3)?;
    /// assert_eq!((last.top, last.left, last.height, last.width), (1540, 1540, 1460, 460));
    /// assert_eq!((last.grid_h, last.grid_w), (106, 34)); // padded to 1484 × 476
    /// assert_eq!(settings.tile(3000, 2000, 4), Err(kyzgultam::Refusal::Tile));
    /// # Ok(())
    /// # }
    /// ```
    pub fn tile(&self, height: usize, width: usize, index: usize) -> Result<Tile, Refusal> {
        // A sweep is cut alike with all means and deviations, so any that are allowed serve.
        let PictureSettings { mean, deviation, .. } = PictureSettings::default();
        let cut = crate::cut(height, width, &PictureSettings { mean, deviation, ..*self })?;
        let (row, column) = (index / cut.columns, index % cut.columns);
        if row >= cut.rows {
            return Err(Refusal::Tile);
        }
        let (top, left) = (row * cut.side, column * cut.side);
        let (height, width) = (cut.side.min(height - top), cut.side.min(width - left));
        let patches = |side: usize| side.div_ceil(self.patch_size * self.spatial_merge_size) * self.spatial_merge_size;
        let (grid_h, grid_w) = (patches(height), patches(width));
        Ok(Tile { grid_h, grid_w, floats: self.restored_len(grid_h, grid_w)?, top, left, height, width })
    }

    /// How many floats [`preprocess_tile`](crate::preprocess_tile) writes for a tile of a sweep of these sides. Refused
    /// with 1, 2, 4 or 20, as [`tile`](Self::tile) is.
    pub fn tile_len(&self, height: usize, width: usize, index: usize) -> Result<usize, Refusal> {
        Ok(self.tile(height, width, index)?.floats)
    }

    /// How many bytes [`restore`](crate::restore) and [`salvage`](crate::salvage) write for this grid, as many as there
    /// are floats in its patches. Refused with 1 or 6; means and deviations are not read.
    pub fn restored_len(&self, grid_h: usize, grid_w: usize) -> Result<usize, Refusal> {
        // Patches are as long for every encoder, so any that is allowed serves.
        let encoder = EncoderSettings { picture: *self, ..EncoderSettings::default() };
        Ok(encoder.lengths(grid_h, grid_w)?.patches)
    }
}

impl EncoderSettings {
    /// How many floats each buffer of a [`forward`](crate::forward) or [`forward_axes`](crate::forward_axes) call with
    /// this grid has to have: the lengths that both are proved to compare with. Refused with 1 or 6; the picture's means
    /// and deviations are not read.
    ///
    /// ```
    /// # fn main() -> Result<(), kyzgultam::Refusal> {
    /// let settings = kyzgultam::EncoderSettings::default();
    /// let lengths = settings.lengths(2, 4)?;
    /// assert_eq!(lengths.patches, 2 * 4 * 3 * 14 * 14);
    /// assert_eq!((lengths.tables, lengths.axes), (110 * 110 * 64, 110 * 16));
    /// assert_eq!(lengths.out, 2 * 5120);
    /// assert_eq!(settings.lengths(2, 3), Err(kyzgultam::Refusal::Grid));
    /// # Ok(())
    /// # }
    /// ```
    pub fn lengths(&self, grid_h: usize, grid_w: usize) -> Result<Lengths, Refusal> {
        // Safe, since the call takes any numbers and touches no memory.
        let report = unsafe { face::kz_lengths(self.into(), grid_h, grid_w) };
        Refusal::check(report.number)?;
        Ok(Lengths {
            patches: report.patches,
            weights: report.weights,
            tables: report.tables,
            axes: report.axes,
            scratch: report.scratch,
            out: report.out,
        })
    }

    /// The lengths for the smallest grid, merge × merge: where it is refused, every grid is.
    fn smallest(&self) -> Result<Lengths, Refusal> {
        let merge = self.picture.spatial_merge_size;
        self.lengths(merge, merge)
    }

    /// How many floats the weights have. Refused with 1, and with 6 where no grid is allowed at all: where the image
    /// size is below patch × merge, no call of [`forward`](crate::forward) can be accepted.
    ///
    /// They are, in this order: patch_conv, ln_pre; for each layer attention_norm, q, k, v, o, ffn_norm, gate, up,
    /// down; then the projector's norm, merging_layer, linear_1, linear_2. Matrices are row-major, `[out, in]`. With
    /// [`projector_bias`](Self::projector_bias) a bias of `text_hidden_size` floats stands right behind linear_1 and
    /// another behind linear_2, each added to its layer's finished sums:
    ///
    /// ```
    /// # fn main() -> Result<(), kyzgultam::Refusal> {
    /// use kyzgultam::EncoderSettings;
    ///
    /// let without = EncoderSettings::default();
    /// let with = EncoderSettings { projector_bias: true, ..without };
    /// assert_eq!(with.weights_len()?, without.weights_len()? + 2 * without.text_hidden_size);
    /// # Ok(())
    /// # }
    /// ```
    pub fn weights_len(&self) -> Result<usize, Refusal> {
        Ok(self.smallest()?.weights)
    }

    /// How many floats each rotary table has: P² × `head_dim`, with P = image size / patch. Refused with 1 and 6, as
    /// [`weights_len`](Self::weights_len) is.
    ///
    /// The row of the patch at row h and column w of the grid is the one at h × P + w.
    pub fn tables_len(&self) -> Result<usize, Refusal> {
        Ok(self.smallest()?.tables)
    }

    /// How many floats each of the four tables of [`RopeAxes`](crate::RopeAxes) has: P × `head_dim` / 4. Refused with 1
    /// and 6, as [`weights_len`](Self::weights_len) is.
    pub fn axes_len(&self) -> Result<usize, Refusal> {
        Ok(self.smallest()?.axes)
    }

    /// How many floats of scratch [`forward`](crate::forward) needs for this grid. Refused with 1 or 6.
    pub fn scratch_len(&self, grid_h: usize, grid_w: usize) -> Result<usize, Refusal> {
        Ok(self.lengths(grid_h, grid_w)?.scratch)
    }

    /// How many floats of scratch [`forward_plain`](crate::forward_plain) needs for this grid: t² − t more than
    /// [`forward`](crate::forward), with t = `grid_h` × `grid_w`. Refused with 1 or 6, and with 22 above 64 tokens, where
    /// no scratch is long enough.
    ///
    /// ```
    /// # fn main() -> Result<(), kyzgultam::Refusal> {
    /// let settings = kyzgultam::EncoderSettings::default();
    /// assert_eq!(settings.plain_scratch_len(8, 8)?, settings.scratch_len(8, 8)? + 64 * 64 - 64);
    /// assert_eq!(settings.plain_scratch_len(8, 10), Err(kyzgultam::Refusal::Tokens));
    /// # Ok(())
    /// # }
    /// ```
    pub fn plain_scratch_len(&self, grid_h: usize, grid_w: usize) -> Result<usize, Refusal> {
        let lengths = self.lengths(grid_h, grid_w)?;
        // No side of an allowed grid is above 2048.
        let t = grid_h * grid_w;
        if t > 64 {
            return Err(Refusal::Tokens);
        }
        Ok(lengths.scratch + t * t - t)
    }

    /// How many floats [`forward`](crate::forward) writes for this grid: a vector of `text_hidden_size` for each
    /// merge × merge patches. Refused with 1 or 6.
    pub fn tokens_len(&self, grid_h: usize, grid_w: usize) -> Result<usize, Refusal> {
        Ok(self.lengths(grid_h, grid_w)?.out)
    }
}
