//! The five number rules, on floats, and bf16 packed to 16 bits. Each takes any value.
//!
//! Safe, since the functions of libnumber.a take any pattern and touch no memory but the slices that they are lent.

use crate::face;

fn by(rule: unsafe fn(u32) -> u32, x: f32) -> f32 {
    f32::from_bits(unsafe { rule(x.to_bits()) })
}

/// An f32 rounded to bf16, its upper 16 bits, ties to even: the Rust's `truncate_to_bf16_inplace`, of one value.
///
/// A NaN whose bits run over becomes −0, as in the Rust.
///
/// ```
/// assert_eq!(kyzgultam::bf16(1.0 + 1.0 / 256.0), 1.0);
/// assert_eq!(kyzgultam::bf16(1.0 + 3.0 / 256.0), 1.0 + 4.0 / 256.0);
/// ```
pub fn bf16(x: f32) -> f32 {
    by(face::kz_bf16, x)
}

/// A half, given by its bits, as an f32. A NaN keeps its payload.
///
/// ```
/// assert_eq!(kyzgultam::half_to_f32(0x3C00), 1.0);
/// assert_eq!(kyzgultam::half_to_f32(0x7BFF), 65504.0);
/// ```
pub fn half_to_f32(bits: u16) -> f32 {
    f32::from_bits(unsafe { face::kz_half(bits) })
}

/// The f32 nearest to the square root. −0 gives itself; a number below zero and a NaN give the NaN 0x7FC00000.
///
/// ```
/// assert_eq!(kyzgultam::root(4.0), 2.0);
/// assert_eq!(kyzgultam::root(-1.0).to_bits(), 0x7FC0_0000);
/// ```
pub fn root(x: f32) -> f32 {
    by(face::kz_root, x)
}

/// Rule E, the exponential with the same bits on every machine. A NaN gives the NaN 0x7FC00000.
///
/// ```
/// assert_eq!(kyzgultam::exp(0.0), 1.0);
/// assert_eq!(kyzgultam::exp(89.0), f32::INFINITY);
/// ```
pub fn exp(x: f32) -> f32 {
    by(face::kz_exp, x)
}

/// Rule T, the hyperbolic tangent with the same bits on every machine. A NaN gives the NaN 0x7FC00000.
///
/// ```
/// assert_eq!(kyzgultam::tanh(-0.0).to_bits(), (-0f32).to_bits());
/// assert_eq!(kyzgultam::tanh(1e-40), 1e-40);
/// assert_eq!(kyzgultam::tanh(-10.0), -1.0);
/// ```
pub fn tanh(y: f32) -> f32 {
    by(face::kz_tanh, y)
}

/// The 16 bits that [`bf16`] of a float keeps: its upper half.
///
/// ```
/// assert_eq!(kyzgultam::bf16_pack(1.0 + 3.0 / 256.0), 0x3F82);
/// ```
pub fn bf16_pack(x: f32) -> u16 {
    unsafe { face::kz_bf16_pack(x.to_bits()) }
}

/// The float whose upper half these 16 bits are; of [`bf16_pack`]'s the rounded float. Proved: packing it gives the
/// bits back.
///
/// ```
/// assert_eq!(kyzgultam::bf16_widen(kyzgultam::bf16_pack(0.1)), kyzgultam::bf16(0.1));
/// ```
pub fn bf16_widen(bits: u16) -> f32 {
    f32::from_bits(unsafe { face::kz_bf16_widen(bits) })
}

/// Packs the first floats, as many as both slices have, and returns how many. The rest of `out` is kept.
///
/// ```
/// let mut packed = [7; 3];
/// assert_eq!(kyzgultam::bf16_pack_all(&[1.0, -2.0], &mut packed), 2);
/// assert_eq!(packed, [0x3F80, 0xC000, 7]);
/// ```
pub fn bf16_pack_all(x: &[f32], out: &mut [u16]) -> usize {
    // An f32 and its pattern have one size and one alignment, and every pattern is one of both.
    unsafe { face::kz_bf16_pack_all(x.as_ptr().cast(), x.len(), out.as_mut_ptr(), out.len()) }
}

/// Widens the first packed values, as many as both slices have, and returns how many. The rest of `out` is kept.
///
/// ```
/// let mut floats = [7.0; 3];
/// assert_eq!(kyzgultam::bf16_widen_all(&[0x3F80, 0xC000], &mut floats), 2);
/// assert_eq!(floats, [1.0, -2.0, 7.0]);
/// ```
pub fn bf16_widen_all(bits: &[u16], out: &mut [f32]) -> usize {
    unsafe { face::kz_bf16_widen_all(bits.as_ptr(), bits.len(), out.as_mut_ptr().cast(), out.len()) }
}
