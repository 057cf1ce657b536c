//! What the samples for crates/*_replay share: the generator, the damage and the hash of crate `replay`.

/// The seed of the marks that outputs start with.
pub const MARKS: u32 = 77;

/// The generator's states after a seed.
pub fn states(seed: u32) -> impl Iterator<Item = u32> {
    let step = |x: &u32| Some(x.wrapping_mul(1_664_525).wrapping_add(1_013_904_223));
    std::iter::successors(Some(seed), step).skip(1)
}

/// The bits of the marks as floats.
pub fn marks() -> impl Iterator<Item = u32> {
    states(MARKS).map(|x| (x as f32).to_bits())
}

/// 0 none; 1 a flipped bit, the place modulo 32; 2 a NaN; 3 minus zero; 4 infinity.
pub fn damage(cells: &mut [u32], code: usize, place: usize) {
    match code {
        1 => cells[place] ^= 1 << (place % 32),
        2 => cells[place] = 0x7FC0_0000,
        3 => cells[place] = 0x8000_0000,
        4 => cells[place] = 0x7F80_0000,
        _ => {}
    }
}

/// Two remainders side by side: a word w takes each h from h to (h · k + w) mod m; both start at 1.
pub fn hash(words: &[u32]) -> u64 {
    let lane = |k: u64, m: u64| words.iter().fold(1, |h, w| (h * k + u64::from(*w)) % m);
    lane(2_147_483_629, 4_294_967_291) << 32 | lane(2_147_483_587, 4_294_967_279)
}

/// A record's line.
pub fn line(numbers: &[usize]) -> String {
    numbers
        .iter()
        .map(usize::to_string)
        .collect::<Vec<_>>()
        .join("\t")
}
