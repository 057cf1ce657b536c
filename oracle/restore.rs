//! Restore, for the programs that compare it: what is refused before a sample is looked at, and ours beside
//! an answer.

use super::lent::{differ, Lent};
use super::settings::{Settings, Sides, Table};

#[repr(C)]
pub struct RestoreReport {
    number: u32,
    height: usize,
    width: usize,
}

// An f32 is lent by its bits, which no move of a NaN can change.
extern "C" {
    pub fn kz_restore(
        s: Settings,
        patches: *const u32,
        patches_len: usize,
        grid_h: usize,
        grid_w: usize,
        out: *mut u8,
        out_len: usize,
    ) -> RestoreReport;
}

impl Settings {
    /// The most patches along a side.
    pub fn most(self) -> usize {
        self.image_size / self.patch_size
    }
}

/// The first of 1, 19, 6, 7 and 5 that applies, and 0 where none does. The table is that of the settings.
pub fn unshaped(table: &Table, s: Settings, floats: usize, grid: Sides, out: usize) -> u32 {
    if !s.allowed() {
        return 1;
    }
    if !table.allowed {
        return 19;
    }
    if grid
        .iter()
        .any(|side| *side == 0 || *side > s.most() || side % s.spatial_merge_size != 0)
    {
        return 6;
    }
    if floats != grid[0] * grid[1] * s.patch_floats() {
        return 7;
    }
    if out < floats {
        return 5;
    }
    0
}

/// Ours, beside the bytes that an accepted call writes, or a number.
pub fn restore(
    s: Settings,
    grid: Sides,
    patches: &[u32],
    out: usize,
    expected: Result<&[u8], u32>,
) -> Option<String> {
    let mut input = Lent::new(patches, patches.len());
    let mut output = Lent::new(&[], out);
    let (from, to) = (input.pointer(), output.pointer());
    let ours = unsafe { kz_restore(s, from, patches.len(), grid[0], grid[1], to, out) };
    let found = [ours.number as usize, ours.height, ours.width];
    let (right, bytes): ([usize; 3], &[u8]) = match expected {
        Ok(bytes) => ([0, grid[0] * s.patch_size, grid[1] * s.patch_size], bytes),
        Err(number) => ([number as usize, 0, 0], &[]),
    };
    differ(["number", "height", "width"], found, right)
        .or_else(|| output.differs("out", bytes))
        .or_else(|| input.differs("patches", patches))
}
