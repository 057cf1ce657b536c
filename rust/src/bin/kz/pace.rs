//! How long a forward will take, about: by the sizes, and by how fast an earlier one was.

use crate::model::{Lent, Model};
use kyzgultam::EncoderSettings;
use std::sync::{Mutex, PoisonError};
use std::time::Instant;

type Grid = (usize, usize);

/// Seconds a unit of work, of the last forward.
#[derive(Default)]
pub struct Pace {
    last: Mutex<Option<f64>>,
}

/// Below so many tokens a forward is over before anybody asks, or tells too little of larger ones.
const LEAST: usize = 64;

impl Pace {
    /// About how many seconds a forward will take. Where none was measured yet, a short one is: of a sixteenth of the
    /// tokens at most.
    pub fn about(&self, model: &Model, grid: Grid) -> Option<f64> {
        if self.pace().is_none() {
            self.measure(model, grid)?;
        }
        Some(self.pace()? * work(&model.settings, grid))
    }

    fn pace(&self) -> Option<f64> {
        *self.last.lock().unwrap_or_else(PoisonError::into_inner)
    }

    /// A forward of this grid began then, and is done.
    pub fn took(&self, settings: &EncoderSettings, grid: Grid, begun: Instant) {
        if grid.0 * grid.1 >= LEAST {
            let pace = begun.elapsed().as_secs_f64() / work(settings, grid);
            *self.last.lock().unwrap_or_else(PoisonError::into_inner) = Some(pace);
        }
    }

    /// Patches of zeros on a smaller grid. Where there is no memory for it, or it is refused, nothing is measured.
    fn measure(&self, model: &Model, grid: Grid) -> Option<()> {
        let small = smaller(grid, model.settings.picture.spatial_merge_size)?;
        let mut lent = Lent::default();
        model.lend(small, &mut lent).ok()?;
        let patches = vec![0.0; model.settings.picture.restored_len(small.0, small.1).ok()?];
        let begun = Instant::now();
        model.forward(&patches, small, &mut lent).ok()?;
        self.took(&model.settings, small, begun);
        Some(())
    }
}

/// A grid of some 64 tokens, or a thirty-second of those of a large one; none where that is more than a sixteenth.
fn smaller((h, w): Grid, merge: usize) -> Option<Grid> {
    let tokens = LEAST.max(h * w / 32);
    let side = (tokens as f64).sqrt().ceil() as usize;
    let small = (side.next_multiple_of(merge).min(h), side.next_multiple_of(merge).min(w));
    (16 * small.0 * small.1 <= h * w && small.0 * small.1 >= LEAST).then_some(small)
}

/// The work of a forward, in units of which one is about a nanosecond: a tenth for each product of the linear layers,
/// and for each score 6 and a quarter for each place of a head, as they were measured.
fn work(s: &EncoderSettings, (h, w): Grid) -> f64 {
    let float = |size: usize| size as f64;
    let (t, hidden, text) = (float(h * w), float(s.hidden_size), float(s.text_hidden_size));
    let (patch, merged) = (float(3 * s.picture.patch_size.pow(2)), float(s.picture.spatial_merge_size.pow(2)));
    let layer = hidden * (4.0 * hidden + 3.0 * float(s.intermediate_size));
    let projector = (merged * hidden * hidden + hidden * text + text * text) / merged;
    let products = t * (hidden * patch + float(s.num_layers) * layer + projector);
    let scores = float(s.num_layers * s.num_heads) * t * t;
    0.1 * products + (6.0 + 0.25 * float(s.head_dim)) * scores
}

#[cfg(test)]
mod tests {
    use super::*;
    use crate::given::SMALL;

    #[test]
    fn smaller_grids() {
        for (grid, merge, right) in [
            ((110, 110), 2, Some((20, 20))),
            ((32, 32), 2, Some((8, 8))),
            ((64, 16), 1, Some((8, 8))),
            ((31, 32), 1, None),
            ((2, 2048), 2, None),
            ((8, 8), 2, None),
        ] {
            assert_eq!(smaller(grid, merge), right, "{grid:?}");
        }
    }

    /// Twice the tokens are more than twice the work, and less than four times.
    #[test]
    fn work_grows() {
        let [one, two] = [(32, 32), (32, 64)].map(|grid| work(&SMALL, grid));
        assert!(2.0 * one < two && two < 4.0 * one);
        let none = EncoderSettings { num_layers: 0, ..SMALL };
        assert!((work(&none, (32, 64)) / work(&none, (32, 32)) - 2.0).abs() < 1e-9);
    }
}
