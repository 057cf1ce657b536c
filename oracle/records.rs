//! What the records of crates/picture_replay, crates/tiles_replay and crates/salvage_replay share.

use super::fills::Fill;
use super::sample::{hash, MARKS};
use super::settings::Settings;

/// The cells of each buffer of the first two.
pub const CELLS: usize = 12_352;

/// The bytes that an output starts with.
pub fn marked(len: usize) -> Vec<u8> {
    Fill::Sample(MARKS).bytes(len, [1, 1])
}

pub fn hash_bytes(bytes: &[u8]) -> usize {
    let words: Vec<u32> = bytes.iter().map(|byte| u32::from(*byte)).collect();
    hash(&words) as usize
}

/// The end of a record: the resize rule, and the patterns of means and deviations.
pub fn end(s: Settings) -> impl Iterator<Item = usize> {
    let six = s.six.mean.into_iter().chain(s.six.deviation);
    std::iter::once(s.resize_rule).chain(six.map(|bits| bits as usize))
}
