//! Sweeps larger than the image size, cut into tiles. As in calls.rs, a length is its slice's, and an output is lent
//! alone.

use crate::{face, PictureSettings, Refusal};

/// How a sweep is cut into tiles, by [`cut`].
#[derive(Clone, Copy, Debug, PartialEq, Eq, Hash)]
pub struct Cut {
    /// The side of a whole tile, in pixels.
    pub side: usize,
    /// Rows of tiles.
    pub rows: usize,
    /// Columns of tiles.
    pub columns: usize,
}

/// A tile: its patches, and where its own pixels lie in the sweep, to which its padding does not belong.
#[derive(Clone, Copy, Debug, PartialEq, Eq, Hash)]
pub struct Tile {
    /// Rows of patches.
    pub grid_h: usize,
    /// Columns of patches.
    pub grid_w: usize,
    /// Floats of its patches.
    pub floats: usize,
    /// Its first row in the sweep.
    pub top: usize,
    /// Its first column in the sweep.
    pub left: usize,
    /// Its rows of pixels.
    pub height: usize,
    /// Its columns of pixels.
    pub width: usize,
}

impl Tile {
    fn of(report: face::TileReport) -> Result<Tile, Refusal> {
        let face::TileReport { number, grid_h, grid_w, floats, top, left, height, width } = report;
        Refusal::check(number)?;
        Ok(Tile { grid_h, grid_w, floats, top, left, height, width })
    }
}

/// How a sweep of `height` × `width` pixels is cut into tiles, so that nothing of it is resized away.
///
/// With A = patch × merge, the side of a tile is the largest multiple of A not above the image size. The sweep is cut
/// by row, the last tiles of a row and of a column smaller: ⌈height / side⌉ rows of tiles and ⌈width / side⌉ columns.
/// Tile `index` stands in row `index / columns` and column `index % columns`. The resize rule has to be 1 or 2, and is
/// not used. Refused with the first of 1, 19, 2, 4.
///
/// ```
/// # fn main() -> Result<(), kyzgultam::Refusal> {
/// use kyzgultam::{cut, Cut, PictureSettings};
///
/// let settings = PictureSettings::new(14, 2, 1540);
/// assert_eq!(cut(3000, 2000, &settings)?, Cut { side: 1540, rows: 2, columns: 2 });
/// // 1552 is no multiple of 28, but 1540 is.
/// assert_eq!(cut(1541, 1540, &PictureSettings::new(14, 2, 1552))?, Cut { side: 1540, rows: 2, columns: 1 });
/// # Ok(())
/// # }
/// ```
pub fn cut(height: usize, width: usize, settings: &PictureSettings) -> Result<Cut, Refusal> {
    // Safe, since the call takes any numbers and touches no memory.
    let report = unsafe { face::kz_cut(*settings, height, width) };
    Refusal::check(report.number)?;
    Ok(Cut { side: report.side, rows: report.rows, columns: report.columns })
}

/// The patches of one tile of a sweep: `rgb_bytes`, `height` and `width` are the whole sweep's.
///
/// The tile is padded on the right and below with bytes of 0 to multiples of patch × merge, and is not resized. Patches
/// and samples are as those of [`pixtral_preprocess`](crate::pixtral_preprocess), those of the padding too, and
/// [`forward`](crate::forward) takes them. [`PictureSettings::tile_len`] tells how many floats are written.
/// Refused with the first of 1, 19, 2, 3, 4, 20, 5.
///
/// ```
/// # fn main() -> Result<(), kyzgultam::Refusal> {
/// use kyzgultam::{cut, preprocess_tile, restore_tile, PictureSettings};
///
/// // A sweep of 50 × 100, for an image size of 56: two tiles, the second 44 columns wide.
/// let settings = PictureSettings::new(14, 2, 56);
/// let sweep: Vec<u8> = (0..50 * 100 * 3).map(|i| i as u8).collect();
/// let cut = cut(50, 100, &settings)?;
/// assert_eq!((cut.side, cut.rows, cut.columns), (56, 1, 2));
/// let mut tiles = vec![];
/// for index in 0..cut.rows * cut.columns {
///     let mut patches = vec![0.0; settings.tile_len(50, 100, index)?];
///     let tile = preprocess_tile(&sweep, 50, 100, index, &settings, &mut patches)?;
///     assert_eq!((tile.grid_h, tile.grid_w), (4, 4));
///     assert_eq!((tile.top, tile.left, tile.height, tile.width), [(0, 0, 50, 56), (0, 56, 50, 44)][index]);
///     tiles.push(patches);
/// }
///
/// // And back: each tile's own bytes go to their places.
/// let mut joined = vec![0; sweep.len()];
/// for (index, patches) in tiles.iter().enumerate() {
///     restore_tile(patches, 50, 100, index, &settings, &mut joined)?;
/// }
/// assert_eq!(joined, sweep);
/// # Ok(())
/// # }
/// ```
pub fn preprocess_tile(
    rgb_bytes: &[u8],
    height: usize,
    width: usize,
    index: usize,
    settings: &PictureSettings,
    out: &mut [f32],
) -> Result<Tile, Refusal> {
    let (rgb, out, out_len) = (rgb_bytes.as_ptr(), out.as_mut_ptr(), out.len());
    Tile::of(unsafe { face::kz_preprocess_tile(*settings, rgb, rgb_bytes.len(), height, width, index, out, out_len) })
}

/// Writes a tile's own bytes to their places in the sweep: `height`, `width` and `out` are the whole sweep's. Every
/// other byte of `out` is as it was, so that all tiles, in any order, join to the sweep. The settings are to be those
/// that the patches were made with; the resize rule may be the other.
///
/// Refused with the first of 1, 19, 2, 4, 20, 7, 5, 8: with 7 where the patches are not as many floats as the tile has,
/// with 5 where `out` is shorter than height × width × 3, with 8 exactly where no sweep of these sides gives these
/// patches at this index, so also where a sample of the padding is not that of byte 0.
///
/// ```
/// # fn main() -> Result<(), kyzgultam::Refusal> {
/// use kyzgultam::{preprocess_tile, restore_tile, PictureSettings, Refusal};
///
/// // Tile 1 of a sweep of one row and three columns has one pixel, and three of padding.
/// let settings = PictureSettings::new(1, 2, 2);
/// let mut patches = [0.0; 12];
/// preprocess_tile(&[10, 20, 30, 40, 50, 60, 70, 80, 90], 1, 3, 1, &settings, &mut patches)?;
/// let mut sweep = [9; 9];
/// let tile = restore_tile(&patches, 1, 3, 1, &settings, &mut sweep)?;
/// assert_eq!((tile.top, tile.left, tile.height, tile.width), (0, 2, 1, 1));
/// assert_eq!(sweep, [9, 9, 9, 9, 9, 9, 70, 80, 90]);
///
/// // The red of byte 70 in the padding: there it can come from no sweep.
/// patches[9] = patches[0];
/// assert_eq!(restore_tile(&patches, 1, 3, 1, &settings, &mut sweep), Err(Refusal::Sample));
/// assert_eq!(restore_tile(&patches, 1, 3, 2, &settings, &mut sweep), Err(Refusal::Tile));
/// # Ok(())
/// # }
/// ```
pub fn restore_tile(
    patches: &[f32],
    height: usize,
    width: usize,
    index: usize,
    settings: &PictureSettings,
    out: &mut [u8],
) -> Result<Tile, Refusal> {
    let (from, out, out_len) = (patches.as_ptr(), out.as_mut_ptr(), out.len());
    Tile::of(unsafe { face::kz_restore_tile(*settings, from, patches.len(), height, width, index, out, out_len) })
}
