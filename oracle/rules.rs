//! E and T from the rules' text, one f64 operation for each of its operations, in its order.

/// ln 2, as the rule has it.
pub fn l() -> f64 {
    f64::from_bits(0x3FE6_2E42_FEFA_39EF)
}

/// F. Its callers bound x, so that k is far inside the exponents of an f64.
fn f(x: f64) -> f64 {
    let k = (x / l() + 0.5).floor();
    let r = x - k * l();
    let mut p = 1.0;
    for i in (1..=10).rev() {
        p = 1.0 + (r * p) / f64::from(i);
    }
    p * f64::from_bits(((1023 + k as i64) as u64) << 52)
}

/// E.
pub fn exp_rule(x: f32) -> f32 {
    if x.is_nan() {
        f32::NAN
    } else if x >= 89.0 {
        f32::INFINITY
    } else if x <= -104.0 {
        0.0
    } else {
        f(f64::from(x)) as f32
    }
}

/// T, as 2026-02 mended it for |y| below 2^-6.
pub fn tanh_rule(y: f32) -> f32 {
    if y.abs() < 0.015625 {
        let y = f64::from(y);
        let z = y * y;
        (y * (1.0 - z / 3.0 + z * z * 2.0 / 15.0)) as f32
    } else {
        tanh_before(y)
    }
}

/// T of 01, before 2026-02.
pub fn tanh_before(y: f32) -> f32 {
    if y.is_nan() {
        f32::NAN
    } else if y >= 10.0 {
        1.0
    } else if y <= -10.0 {
        -1.0
    } else {
        let f = f(2.0 * f64::from(y));
        ((f - 1.0) / (f + 1.0)) as f32
    }
}
