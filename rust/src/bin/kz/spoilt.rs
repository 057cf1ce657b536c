//! Which float of a file of patches is the first that no picture gives: where restore refuses with 8, words say it.

use crate::room;
use kyzgultam::{salvage, BadSample, PictureSettings};

/// A patch of a row of the grid, and a place in it.
type Place = (usize, usize);

/// The first sample with bits that no byte has, or, outside a tile's own height and width, that is not byte 0's, in
/// words. It is looked for row by row of the grid; where there is no memory for that, there are no words.
pub fn first(floats: &[f32], grid_w: usize, own: (usize, usize), settings: &PictureSettings) -> Option<String> {
    let p = settings.patch_size;
    // A row of the grid is a grid by itself if nothing is merged.
    let alone = PictureSettings { spatial_merge_size: 1, ..*settings };
    let len = grid_w * 3 * p * p;
    let mut rgb = room::zeros(len, "a row", "").ok()?;
    let mut list: Vec<BadSample> = room::zeros(len, "a row", "").ok()?;
    for (row, floats) in floats.chunks_exact(len).enumerate() {
        let bad = salvage(floats, 1, grid_w, &alone, &mut rgb, &mut list).ok()?.bad;
        let odd =
            list[..bad].first().map(|bad| ((bad.patch as usize, bad.place as usize), "has bits that no byte has"));
        let own = (own.0.saturating_sub(row * p), own.1);
        let padded = padding(&rgb, grid_w * p, own, p).map(|place| (place, "lies in the padding and is not byte 0's"));
        if let Some(((column, place), what)) = odd.into_iter().chain(padded).min() {
            let at = column * 3 * p * p + place;
            let (float, bits) = (row * len + at, floats[at].to_bits());
            return Some(format!("float {float}, of the patch in row {row}, column {column}, {what}: {bits:#010x}"));
        }
    }
    None
}

/// The first byte of a row of patches, in their order, that is not 0 and lies outside so many rows and columns.
fn padding(rgb: &[u8], width: usize, own: (usize, usize), p: usize) -> Option<Place> {
    let found = rgb.iter().enumerate().filter(|(_, byte)| **byte != 0);
    let places = found.map(|(k, _)| (k / 3 / width, k / 3 % width, k % 3));
    let outside = places.filter(|(y, x, _)| *y >= own.0 || *x >= own.1);
    outside.map(|(y, x, channel)| (x / p, (channel * p + y) * p + x % p)).min()
}

#[cfg(test)]
mod tests {
    use super::*;
    use kyzgultam::{pixtral_preprocess, preprocess_tile};

    const TINY: PictureSettings = PictureSettings::new(2, 2, 16);

    #[test]
    fn no_float_of_a_picture() {
        let rgb: Vec<u8> = (0..8 * 12 * 3).map(|i| (7 * i) as u8).collect();
        let mut patches = vec![0.0; TINY.patches_len(8, 12).unwrap()];
        pixtral_preprocess(&rgb, 8, 12, &TINY, &mut patches).unwrap();
        assert_eq!(first(&patches, 6, (8, 12), &TINY), None);
        // Of 4 x 6 patches of 12 floats, two are bad, and one of a later patch.
        for (at, said) in [
            (287, "float 287, of the patch in row 3, column 5, has bits that no byte has: 0x7f800001"),
            (100, "float 100, of the patch in row 1, column 2, has bits that no byte has: 0x7f800001"),
            (0, "float 0, of the patch in row 0, column 0, has bits that no byte has: 0x7f800001"),
        ] {
            patches[at] = f32::from_bits(0x7F80_0001);
            assert_eq!(first(&patches, 6, (8, 12), &TINY).unwrap(), said);
        }
    }

    #[test]
    fn padding_of_a_tile() {
        // 5 x 6 pixels in 4 x 4 patches of 2 x 2.
        let mut patches = vec![0.0; TINY.tile_len(5, 6, 0).unwrap()];
        preprocess_tile(&[9; 5 * 6 * 3], 5, 6, 0, &TINY, &mut patches).unwrap();
        assert_eq!(first(&patches, 4, (5, 6), &TINY), None);
        let nine = patches[0];
        for (at, row, column) in [(4 * 4 * 12 - 12, 3, 3), (2 * 4 * 12 + 2, 2, 0), (3 * 12, 0, 3)] {
            let old = patches[at];
            patches[at] = nine;
            let said = first(&patches, 4, (5, 6), &TINY).unwrap();
            let place = format!("float {at}, of the patch in row {row}, column {column}, lies in the padding");
            assert!(said.starts_with(&place), "{said}");
            patches[at] = old;
        }
        // A byte of its own may be any.
        patches[2 * 4 * 12] = patches[4 * 4 * 12 - 12];
        assert_eq!(first(&patches, 4, (5, 6), &TINY), None);
    }
}
