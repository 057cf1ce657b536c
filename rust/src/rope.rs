//! The rotary tables of rows and of columns, each value the f32 nearest to the exact one.
//!
//! Everything here is +, −, × and ÷ of f64, which IEEE 754 rounds alike on every machine; a library's `cos`, `sin` and
//! `powf` are not, and differ between machines.

use crate::Refusal;
use std::ops::{Add, Div, Mul, Neg, Sub};

/// Four small tables that stand for two full ones, for [`forward_axes`](crate::forward_axes): owned as [`rope_axes`]
/// makes them, or lent, as `RopeAxes<&[f32]>`.
///
/// Each has P × `head_dim` / 4 floats ([`axes_len`](crate::EncoderSettings::axes_len)), P = image size / patch. With
/// q = `head_dim` / 4 the full cosines of the patch at row h and column w of the grid are the q floats of h in
/// `row_cos`, those of w in `column_cos`, and both again; the sines alike.
#[derive(Clone, Copy, Debug, Default, PartialEq)]
pub struct RopeAxes<T = Vec<f32>> {
    /// The cosines of the rows, q for each.
    pub row_cos: T,
    /// The sines of the rows.
    pub row_sin: T,
    /// The cosines of the columns, q for each.
    pub column_cos: T,
    /// The sines of the columns.
    pub column_sin: T,
}

/// The tables of rows and of columns for a base `theta`, 10000 in a Pixtral: with n = `head_dim` / 2, row h has the
/// cosines and sines of h × theta^(−i/n) for even i below n, and column w those of w × theta^(−i/n) for odd i.
///
/// Each value is the f32 nearest to the exact one, rounded once, and has the same bits on every machine. The Rust's
/// `precompute_2d_rope` rounds frequency and angle to f32 and asks the host for `powf`, `cos` and `sin`:
/// docs/DIFFERENCES.md says how far its tables are from these. Refused with 1 where `max_patches` is above 2048,
/// `head_dim` not allowed, or `theta` not finite or below 1.
///
/// ```
/// # fn main() -> Result<(), kyzgultam::Refusal> {
/// let axes = kyzgultam::rope_axes(110, 64, 10000.0)?;
/// assert_eq!(axes.row_cos.len(), 110 * 16);
/// assert_eq!((axes.row_cos[0], axes.row_sin[0]), (1.0, 0.0));
/// // Row 1 begins with the angle 1, column 1 with 10000^(-1/32).
/// assert_eq!((axes.row_cos[16].to_bits(), axes.row_sin[16].to_bits()), (0x3F0A5140, 0x3F576AA4));
/// assert!((axes.column_cos[16] - 0.731761).abs() < 1e-6);
/// # Ok(())
/// # }
/// ```
pub fn rope_axes(max_patches: usize, head_dim: usize, theta: f32) -> Result<RopeAxes, Refusal> {
    let allowed = max_patches <= 2048 && (4..=256).contains(&head_dim) && head_dim % 4 == 0;
    if !(allowed && theta >= 1.0 && theta.is_finite()) {
        return Err(Refusal::Setting);
    }
    let half = head_dim / 2;
    let step = root(Wide::of(1.0) / Wide::of(theta.into()), half);
    let mut freqs = vec![Wide::of(1.0)];
    for i in 1..half {
        freqs.push(freqs[i - 1] * step);
    }
    // Every other frequency, of each position.
    let axis = |first: usize| {
        let freqs = || freqs[first..].iter().step_by(2);
        let angles = (0..max_patches).flat_map(|at| freqs().map(move |freq| *freq * Wide::of(at as f64)));
        let nearest = |(cos, sin): (Wide, Wide)| (cos.nearest(), sin.nearest());
        angles.map(|angle| nearest(turn(angle))).unzip()
    };
    let ((row_cos, row_sin), (column_cos, column_sin)) = (axis(0), axis(1));
    Ok(RopeAxes { row_cos, row_sin, column_cos, column_sin })
}

/// The sum of two f64, of which `low` is at most half a unit in the last place of `high`: 106 bits, of which a product,
/// a quotient and a sum lose less than the last four.
#[derive(Clone, Copy, PartialEq, PartialOrd)]
struct Wide {
    high: f64,
    low: f64,
}

/// A quarter of a turn, π / 2.
const QUARTER: Wide = Wide { high: std::f64::consts::FRAC_PI_2, low: 6.123_233_995_736_766e-17 };

impl Wide {
    const fn of(x: f64) -> Wide {
        Wide { high: x, low: 0.0 }
    }

    /// a + b, exactly.
    fn sum(a: f64, b: f64) -> Wide {
        let high = a + b;
        let of_b = high - a;
        Wide { high, low: (a - (high - of_b)) + (b - of_b) }
    }

    /// a × b, exactly, where no part of it is too large or too small for an f64: each is cut into two of 26 bits.
    fn product(a: f64, b: f64) -> Wide {
        let cut = |x: f64| {
            let large = 134_217_729.0 * x; // 2^27 + 1
            let upper = large - (large - x);
            (upper, x - upper)
        };
        let ((a1, a2), (b1, b2), high) = (cut(a), cut(b), a * b);
        Wide { high, low: ((a1 * b1 - high) + a1 * b2 + a2 * b1) + a2 * b2 }
    }

    /// The nearest f32. To odd first: an f64 that is not exact gets a last bit of 1, and so is no middle of two f32.
    fn nearest(self) -> f32 {
        let bits = self.high.to_bits();
        let odd = match self.low * self.high {
            low if low > 0.0 => bits | 1,
            low if low < 0.0 => (bits - 1) | 1,
            _ => bits,
        };
        f64::from_bits(odd) as f32
    }
}

impl Add for Wide {
    type Output = Wide;
    fn add(self, other: Wide) -> Wide {
        let (high, low) = (Wide::sum(self.high, other.high), Wide::sum(self.low, other.low));
        let near = Wide::sum(high.high, high.low + low.high);
        Wide::sum(near.high, near.low + low.low)
    }
}

impl Neg for Wide {
    type Output = Wide;
    fn neg(self) -> Wide {
        Wide { high: -self.high, low: -self.low }
    }
}

impl Sub for Wide {
    type Output = Wide;
    fn sub(self, other: Wide) -> Wide {
        self + -other
    }
}

impl Mul for Wide {
    type Output = Wide;
    fn mul(self, other: Wide) -> Wide {
        let high = Wide::product(self.high, other.high);
        Wide::sum(high.high, high.low + (self.high * other.low + self.low * other.high))
    }
}

impl Div for Wide {
    type Output = Wide;
    fn div(self, other: Wide) -> Wide {
        let first = self.high / other.high;
        let left = self - other * Wide::of(first);
        let second = left.high / other.high;
        let left = left - other * Wide::of(second);
        Wide::sum(first, second) + Wide::of(left.high / other.high)
    }
}

fn power(x: Wide, n: usize) -> Wide {
    match n {
        0 => Wide::of(1.0),
        _ if n % 2 == 1 => x * power(x, n - 1),
        _ => power(x * x, n / 2),
    }
}

/// The n-th root of a number from 0 to 1: Newton's steps lead down to it from 1, and then no further.
fn root(x: Wide, n: usize) -> Wide {
    let mut y = Wide::of(1.0);
    loop {
        let next = y - (y - x / power(y, n - 1)) / Wide::of(n as f64);
        if next >= y {
            return y;
        }
        y = next;
    }
}

/// Cosine and sine of an angle from 0 to 2048. After the root and at most 127 products the angle is off by less than
/// 2^-82, its quarter turns are by less than 2^-91 and the series by less than 2^-100; where there is no quarter turn,
/// angle and sine are off by less than 2^-93 of themselves. Half a unit in the last place of an f32 from 2^-30 on is at
/// least 2^-55.
fn turn(angle: Wide) -> (Wide, Wide) {
    let quarters = (angle.high / QUARTER.high + 0.5) as u32;
    let x = angle - QUARTER * Wide::of(quarters.into());
    // 1 - x²/(k(k+1)) (1 - x²/((k+2)(k+3)) (1 - ..)), for |x| up to π/4.
    let series = |first: usize| {
        let steps = (first..first + 30).step_by(2).rev().map(|k| Wide::of((k * (k + 1)) as f64));
        steps.fold(Wide::of(1.0), |sum, k| Wide::of(1.0) - x * x * sum / k)
    };
    let (cos, sin) = (series(1), x * series(2));
    match quarters % 4 {
        0 => (cos, sin),
        1 => (-sin, cos),
        2 => (-cos, -sin),
        _ => (sin, -cos),
    }
}
