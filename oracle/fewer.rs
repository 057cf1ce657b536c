//! How many of the random calls are made.

/// All of them, or a tenth where KZ_FEWER is set (`oracle/run ARCHIVES_DIR --fewer`).
pub fn fewer(count: usize) -> usize {
    match std::env::var_os("KZ_FEWER") {
        Some(_) => count.div_ceil(10),
        None => count,
    }
}
