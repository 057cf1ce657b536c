//! Damaged patches. As in calls.rs, a length is its slice's, and each output is lent alone.

use crate::{face, PictureSettings, Refusal};

/// What [`salvage`] wrote: height × width pixels of three bytes, and entries over the front of the list.
#[derive(Clone, Copy, Debug, PartialEq, Eq, Hash)]
pub struct Salvaged {
    /// Rows.
    pub height: usize,
    /// Columns.
    pub width: usize,
    /// How many samples are bad, and so listed.
    pub bad: usize,
}

/// A sample that [`salvage`] found with bits that no byte has in its channel.
///
/// ```
/// use kyzgultam::BadSample;
///
/// // Of patches of 2 × 2, four side by side: in patch 6, of the channel green, row 1, column 0.
/// let bad = BadSample { patch: 6, place: 4 + 2, bits: 0x7FC0_0000 };
/// assert_eq!(bad.channel(2), 1);
/// assert_eq!((bad.row(2, 4), bad.column(2, 4)), (3, 4));
/// assert!(f32::from_bits(bad.bits).is_nan());
/// ```
#[repr(C)]
#[derive(Clone, Copy, Debug, Default, PartialEq, Eq, Hash)]
pub struct BadSample {
    /// The patch, by row, from 0: it lies in row `patch / grid_w` and column `patch % grid_w` of the grid.
    pub patch: u32,
    /// The place among the patch's 3 × patch² samples, from 0: by channel, row and column.
    pub place: u32,
    /// The bits that were found.
    pub bits: u32,
}

/// Where it lies, by the patch size and the grid of the call. A size of 0 is a panic.
impl BadSample {
    /// The channel: 0 is red, 1 green, 2 blue.
    pub fn channel(self, patch_size: usize) -> usize {
        self.place as usize / patch_size.pow(2)
    }

    /// The pixel's row in the picture.
    pub fn row(self, patch_size: usize, grid_w: usize) -> usize {
        self.patch as usize / grid_w * patch_size + self.place as usize / patch_size % patch_size
    }

    /// The pixel's column in the picture.
    pub fn column(self, patch_size: usize, grid_w: usize) -> usize {
        self.patch as usize % grid_w * patch_size + self.place as usize % patch_size
    }
}

/// The picture of damaged patches: as [`restore`](crate::restore) gives it, but a sample for which restore would refuse
/// with 8 becomes byte 0 and is listed.
///
/// The bad samples stand over the front of `list`, in the order of the patches. Of an accepted call `bad` is 0 exactly
/// where restore accepts, and then the bytes are the same. Damage that left the bits of another byte cannot be seen.
/// Means and deviations are to be those that the patches were made with: with others most samples are bad.
///
/// Refused with the first of 1, 19, 6, 7, 5, 21: with 21 where there are more bad samples than entries in `list`. Then
/// nothing is written, as with every refusal; one of `patches.len()` entries is always long enough.
///
/// ```
/// # fn main() -> Result<(), kyzgultam::Refusal> {
/// use kyzgultam::{pixtral_preprocess, restore, salvage, BadSample, PictureSettings, Refusal};
///
/// let settings = PictureSettings::new(14, 2, 1540);
/// let rgb: Vec<u8> = (0..28 * 56 * 3).map(|i| i as u8).collect();
/// let mut patches = vec![0.0; rgb.len()];
/// let grid = pixtral_preprocess(&rgb, 28, 56, &settings, &mut patches)?;
///
/// // Two samples are damaged, the second in the blue of the last patch's last pixel.
/// patches[300] = f32::from_bits(0xFF80_0001);
/// patches[4703] += 0.001;
/// let mut back = vec![9; rgb.len()];
/// assert_eq!(restore(&patches, grid.grid_h, grid.grid_w, &settings, &mut back), Err(Refusal::Sample));
///
/// let mut list = [BadSample::default(); 10];
/// let saved = salvage(&patches, grid.grid_h, grid.grid_w, &settings, &mut back, &mut list)?;
/// assert_eq!((saved.height, saved.width, saved.bad), (28, 56, 2));
/// assert_eq!(list[0], BadSample { patch: 0, place: 300, bits: 0xFF80_0001 });
/// let last = list[1];
/// assert_eq!((last.patch, last.channel(14), last.row(14, 4), last.column(14, 4)), (7, 2, 27, 55));
/// // All other bytes are back.
/// for bad in &list[..saved.bad] {
///     let at = (bad.row(14, 4) * 56 + bad.column(14, 4)) * 3 + bad.channel(14);
///     assert_eq!(back[at], 0);
///     back[at] = rgb[at];
/// }
/// assert_eq!(back, rgb);
///
/// // With too short a list nothing is written.
/// let refused = salvage(&patches, grid.grid_h, grid.grid_w, &settings, &mut back, &mut list[..1]);
/// assert_eq!(refused, Err(Refusal::List));
/// assert_eq!(back, rgb);
/// # Ok(())
/// # }
/// ```
pub fn salvage(
    patches: &[f32],
    grid_h: usize,
    grid_w: usize,
    settings: &PictureSettings,
    out: &mut [u8],
    list: &mut [BadSample],
) -> Result<Salvaged, Refusal> {
    // Sound: an f32 has size and alignment of a u32, of which any bits are one; an entry is three u32, without padding.
    let (bits, entries) = (patches.as_ptr().cast::<u32>(), list.as_mut_ptr().cast::<u32>());
    let (out, out_len, list_len) = (out.as_mut_ptr(), out.len(), 3 * list.len());
    let report =
        unsafe { face::kz_salvage(*settings, bits, patches.len(), grid_h, grid_w, out, out_len, entries, list_len) };
    Refusal::check(report.number)?;
    Ok(Salvaged { height: report.height, width: report.width, bad: report.bad })
}
