//! Values at which something may go wrong: sides, bits of samples, means and deviations.

use super::settings::{Choice, Settings, Sides, OWN};
use super::words::Set;

/// Every pair of two members of the list.
pub fn pairs(mut list: Vec<usize>) -> Vec<Sides> {
    list.sort();
    list.dedup();
    let with = |first: &usize| {
        list.iter()
            .map(|second| [*first, *second])
            .collect::<Vec<_>>()
    };
    list.iter().flat_map(with).collect()
}

/// NaNs, infinities, zeros, subnormals, whole numbers, and a byte before it is a sample.
pub fn odd_bits() -> Vec<u32> {
    let mut list = vec![0x7FC0_0000, 0x7F80_0001, 0x7FBF_FFFF, 0x7FFF_FFFF];
    list.extend([0xFFC0_0000, 0xFF80_0001, 0xFFFF_FFFF]);
    list.extend([0x7F80_0000, 0xFF80_0000, 0x7F7F_FFFF, 0xFF7F_FFFF]);
    list.extend([0, 0x8000_0000, 1, 0x8000_0001, 0x007F_FFFF, 0x0080_0000]);
    list.extend([1.0, -1.0, 2.0, 255.0, 256.0, 8388608.0, -8388608.0].map(f32::to_bits));
    list.push((100.0f32 / 255.0).to_bits());
    list
}

/// What a sample of patches is changed to: odd bits, bits beside its own, and samples of bytes in each
/// channel; and two samples changed at once.
pub fn changes(s: Settings, patches: &[u32], place: usize, other: usize) -> Vec<Vec<Set>> {
    let bits = patches[place];
    let channel = place * 3 / s.patch_floats() % 3;
    let mut list = odd_bits();
    list.extend((0..32).map(|bit| bits ^ 1 << bit));
    list.extend([bits.wrapping_add(1), bits.wrapping_sub(1)]);
    for byte in [0, 1, 100, 254, 255] {
        list.extend((0..3).map(|shift| s.six.value((channel + shift) % 3, byte)));
    }
    let mut sets: Vec<_> = list.into_iter().map(|bits| vec![(place, bits)]).collect();
    sets.push(vec![(place, patches[other]), (other, bits)]);
    sets.push(vec![(place, 0x7FC0_0000), (other, 0x8000_0000)]);
    sets
}

/// A channel's mean and deviation, by their bits.
pub type Channel = [u32; 2];

pub fn channel(mean: f32, deviation: f32) -> Channel {
    [mean.to_bits(), deviation.to_bits()]
}

pub fn choice(channels: [Channel; 3]) -> Choice {
    Choice {
        mean: channels.map(|c| c[0]),
        deviation: channels.map(|c| c[1]),
    }
}

/// 01's channels.
pub fn own() -> [Channel; 3] {
    [0, 1, 2].map(|c| [OWN.mean[c], OWN.deviation[c]])
}

/// A channel in every place, and in each place beside two of 01's.
pub fn spread(c: Channel) -> [Choice; 4] {
    let beside = |at: usize| {
        let mut channels = own();
        channels[at] = c;
        choice(channels)
    };
    [choice([c; 3]), beside(0), beside(1), beside(2)]
}

/// Grey ultrasound.
pub fn grey() -> Choice {
    choice([channel(0.2, 0.25); 3])
}

/// 255 times the deviation is above every f32.
pub fn wide() -> Choice {
    choice([channel(0.2, 1e38); 3])
}

pub fn byte(b: u8) -> f32 {
    f32::from(b) / 255.0
}

/// The f32 whose bits are so many more.
pub fn step(x: f32, more: i32) -> f32 {
    f32::from_bits(x.to_bits().wrapping_add_signed(more))
}

/// 2^-128: a byte's value of 1 over it is infinite, and 254 / 255 over it is not.
pub const TINY: f32 = 2.938_735_877e-39;
const SMALLEST: f32 = 1e-45;

/// Channels that are allowed.
pub fn sound() -> Vec<Channel> {
    let pairs = [
        (0.2, 0.25),
        (0.2, -0.25),
        (0.5, 0.5),
        (0.0, 1.0),
        (-0.0, 1.0),
        (0.0, -1.0),
        (-3.0, 0.7),
        (1e4, 1.0),
        (-1e4, -0.3),
        (2e4, 3.0),
        (65536.0, 1.0),
        (-65535.0, 1.0),
        (0.4, 1e-30),
        (0.2, 1e38),
        (0.2, -1e38),
        (1e4, 1e38),
        (0.0, f32::MAX),
        (0.2, f32::MIN_POSITIVE),
        (0.2, -f32::MIN_POSITIVE),
        // subnormal deviations, the last two as small as their means let them be
        (0.2, 3e-39),
        (1.0, -3e-39),
        (0.5, TINY),
        (0.2, -TINY),
        (0.0, step(TINY, 1)),
        (1.0, -step(TINY, 1)),
        // a byte's sample is +0, or -0 where the deviation is below zero
        (byte(128), 0.3),
        (byte(128), -0.3),
        (byte(255), 0.3),
        (byte(1), -1e38),
        // a sample is too small for an f32 and so -0, +0, +0, -0
        (step(byte(128), 1), 3e38),
        (step(byte(128), -1), 3e38),
        (step(byte(128), 1), -3e38),
        (SMALLEST, 4.0),
    ];
    pairs
        .map(|(mean, deviation)| channel(mean, deviation))
        .to_vec()
}

/// Channels that are not.
pub fn unsound() -> Vec<Channel> {
    let pairs = [
        (0.2, 0.0),
        (0.2, -0.0),
        (0.0, 0.0),
        // bytes fall together: a third of them, by the division alone, half of them, most, all
        (65535.0, 3.0),
        (1e5, 1.0),
        (-1e5, -0.5),
        (1e6, 1.0),
        (1e7, 0.25),
        (-1e7, 1e30),
        (1e8, 1.0),
        (-1e8, 1e38),
        (f32::MAX, 1.0),
        (f32::MIN, f32::MAX),
        // only two: 1 and 2, 254 and 255
        (65536.007_812_5, 1.0),
        (-65535.003_906_25, 1.0),
        (-65535.003_906_25, -1.0),
        // the last value alone is infinite, the first, both; strictly rising or falling all the same
        (0.0, TINY),
        (0.0, -TINY),
        (-0.0, TINY),
        (1.0, TINY),
        (1.0, -TINY),
        (0.5, TINY / 2.0),
        // some, half of them, all
        (-3.0, 1e-38),
        (0.2, TINY / 2.0),
        (0.2, -1e-40),
        (byte(128), SMALLEST),
        (1e4, 1e-35),
        (1e4, SMALLEST),
    ];
    let mut list = pairs
        .map(|(mean, deviation)| channel(mean, deviation))
        .to_vec();
    // 0 and 1 alone fall together.
    list.push([0xC760_6168, 0x3F80_6B4C]);
    // NaNs and infinities, as the mean, as the deviation and as both.
    let odd = [
        0x7FC0_0000,
        0xFFC0_0000,
        0x7F80_0001,
        0xFFFF_FFFF,
        0x7F80_0000,
        0xFF80_0000,
    ];
    for bits in odd {
        let [mean, deviation] = channel(0.2, 0.25);
        list.extend([[bits, deviation], [mean, bits], [bits, bits]]);
    }
    list
}

/// Choices whose channels differ, and those that are almost 01's: with one bit pattern a step away, with
/// channels exchanged, and with means for deviations.
pub fn several() -> Vec<Choice> {
    let [red, green, blue] = own();
    let mut list = vec![
        choice([channel(0.1, 0.3), channel(0.2, 0.25), channel(0.3, 0.2)]),
        choice([channel(0.1, 0.3), channel(0.2, -0.25), channel(0.3, 0.2)]),
        choice([channel(0.1, -0.3), channel(0.2, 0.25), channel(0.3, -0.2)]),
        choice([channel(0.2, 0.25), channel(0.2, 0.25), channel(0.2, 1e38)]),
        choice([channel(0.2, -1e38), channel(0.2, 0.25), channel(-3.0, 3e38)]),
        choice([
            channel(0.2, 3e-39),
            channel(1e4, 1.0),
            channel(byte(7), -2.0),
        ]),
        choice([green, red, blue]),
        choice([red, blue, green]),
        choice([blue, red, green]),
        choice([red; 3]),
        choice(own().map(|[mean, deviation]| [deviation, mean])),
        choice(own().map(|[mean, deviation]| [mean, deviation ^ 1 << 31])),
    ];
    for at in 0..3 {
        for more in [1, -1] {
            let mut six = OWN;
            six.mean[at] = six.mean[at].wrapping_add_signed(more);
            list.push(six);
            let mut six = OWN;
            six.deviation[at] = six.deviation[at].wrapping_add_signed(more);
            list.push(six);
        }
    }
    list
}
