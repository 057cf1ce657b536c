//! Means and deviations other than 01's: those that are compared, and those of the sample.

use super::edges::{byte, channel, choice, grey, odd_bits, own, several, sound, spread};
use super::edges::{step, unsound, wide, Channel, TINY};
use super::fewer::fewer;
use super::{accepted, differ, of, picture, Asked, Choice, Comparison, Fill, Random};
use super::{Settings, Source, Table, MAX, OWN, RULES, USUAL};

/// Random choices near 01's, of any bits, and where a choice begins to be refused.
const NEAR: usize = 4_000;
const ANY: usize = 10_000;
const LIMITS: usize = 4_000;
/// Random pictures, each with its own choice, and calls of which most are refused.
const PICTURES: usize = 250;
const MIXED: usize = 20_000;

impl Random {
    /// From 0 to 1.
    fn unit(&mut self) -> f32 {
        (self.next() >> 40) as f32 / 16_777_216.0
    }

    fn sign(&mut self) -> f32 {
        self.pick(&[1.0, -1.0])
    }

    /// Means from -1 to 2, deviations from 0.01 to 2 in size.
    fn near(&mut self) -> Choice {
        let mut one = || {
            channel(
                3.0 * self.unit() - 1.0,
                self.sign() * (0.01 + 1.99 * self.unit()),
            )
        };
        choice([one(), one(), one()])
    }

    fn any(&mut self) -> Choice {
        let mut one = || [self.next() as u32, self.next() as u32];
        choice([one(), one(), one()])
    }

    /// A mean at which bytes begin to fall together, or a deviation at which values begin to overflow.
    fn limit(&mut self) -> Channel {
        if self.below(2) == 0 {
            let mean = self.sign() * 16384.0 * (1.0 + 7.0 * self.unit());
            let other = 1.0 + self.unit();
            channel(mean, self.pick(&[1.0, -0.25, other, 1e38]))
        } else {
            let mean = self.pick(&[0.0, 0.2, 0.5, 1.0, -3.0, 1e4]);
            let most = f32::max(1.0 - mean, mean);
            let deviation = step(most / f32::MAX, self.below(400) as i32 - 200);
            channel(mean, self.sign() * deviation)
        }
    }
}

/// For 16 by 16 pixels, to which `Fill::Ramp` gives every byte in every channel, and patches of one.
fn square(six: Choice) -> Settings {
    of(1, 1, 16).with(six)
}

impl Comparison {
    pub(super) fn choices(&mut self) {
        self.settled();
        let (sound, unsound) = (sound(), unsound());
        for c in sound.iter().chain(&unsound) {
            spread(*c)
                .into_iter()
                .for_each(|six| self.small_pictures_of(six));
        }
        let several = several();
        several.iter().for_each(|six| self.small_pictures_of(*six));
        self.one_of_six();
        for six in sound.iter().map(|c| choice([*c; 3])).chain(several) {
            self.entries(six);
        }
        self.damaged_and_large();
        self.meetings();
        self.powers();
        self.random_choices();
        let both = unsound.iter().zip(sound.iter().cycle());
        let pool: Vec<_> = both
            .flat_map(|(bad, good)| [spread(*bad), spread(*good)].concat())
            .collect();
        self.mixed(fewer(MIXED), &pool);
    }

    /// 01's six numbers, and which channels of the lists are allowed.
    fn settled(&mut self) {
        let (mean, deviation) = (
            [0.48145466f32, 0.4578275, 0.40821073],
            [0.26862954f32, 0.26130258, 0.27577711],
        );
        for c in 0..3 {
            let found = [OWN.mean[c], OWN.deviation[c]].map(|bits| bits as usize);
            let right = channel(mean[c], deviation[c]).map(|bits| bits as usize);
            self.wrong
                .note(differ(["mean", "deviation"], found, right), || {
                    format!("01's channel {c}")
                });
        }
        for (list, right) in [(sound(), 1), (unsound(), 0)] {
            for c in list {
                let found = usize::from(Table::new(choice([c; 3])).allowed);
                self.wrong.note(differ(["allowed"], [found], [right]), || {
                    format!("settled channel {c:08x?}")
                });
            }
        }
    }

    /// Every byte there and back, and a picture that is resized, under both rules.
    fn small_pictures_of(&mut self, six: Choice) {
        for rule in RULES {
            self.there_and_back(square(six).rule(rule), [16, 16], Fill::Ramp);
            let fill = self.random.fill();
            self.there_and_back(of(3, 2, 20).with(six).rule(rule), [7, 33], fill);
        }
    }

    /// Every byte there and back once, under either rule.
    fn every_byte(&mut self, six: Choice) {
        let s = square(six).rule(self.random.pick(&RULES));
        self.preprocess(s, [16, 16], Fill::Ramp, 768, 768);
        self.restore(s, [16, 16], Source::Samples(Fill::Ramp), 768, 768, &[]);
    }

    /// Bits of any kind in each of the six places, beside 01's.
    fn one_of_six(&mut self) {
        let mut list = odd_bits();
        list.extend((0..32).map(|bit| 1 << bit));
        list.extend([1e4f32, 1e5, 1e8, -1e8, 1e-30, 1e38, -1e38].map(f32::to_bits));
        for bits in list {
            for c in 0..3 {
                let (mut first, mut second) = (OWN, OWN);
                first.mean[c] = bits;
                second.deviation[c] = bits;
                self.every_byte(first);
                self.every_byte(second);
            }
        }
    }

    /// One pixel: in each channel every sample, the bits beside it, with the other sign, and 01's of the
    /// same byte; each bit of some samples flipped; and odd bits.
    fn entries(&mut self, six: Choice) {
        let s = of(1, 1, 1).with(six);
        for channel in 0..3 {
            let mut list = odd_bits();
            for byte in 0..=255 {
                let bits = six.value(channel, byte);
                list.extend([
                    bits,
                    bits.wrapping_add(1),
                    bits.wrapping_sub(1),
                    bits ^ 1 << 31,
                ]);
                list.push(OWN.value(channel, byte));
            }
            for byte in [0, 1, 51, 128, 254, 255] {
                list.extend((0..31).map(|bit| six.value(channel, byte) ^ 1 << bit));
            }
            for bits in list {
                let mut set = [
                    (0, six.value(0, 9)),
                    (1, six.value(1, 99)),
                    (2, six.value(2, 199)),
                ];
                set[channel].1 = bits;
                self.restore(s, [1, 1], Source::Samples(Fill::Zero), 3, 3, &set);
            }
        }
    }

    /// Pictures with samples changed, and one of 1024 by 768.
    fn damaged_and_large(&mut self) {
        let several = [
            grey(),
            wide(),
            choice([channel(0.2, -0.25); 3]),
            choice([
                channel(byte(128), -0.3),
                channel(0.2, 3e-39),
                channel(0.0, -1e38),
            ]),
        ];
        for six in several {
            self.damaged_picture(of(1, 2, 3).with(six), [2, 3]);
            self.damaged_picture(of(5, 1, 23).rule(2).with(six), [7, 30]);
        }
        for six in [grey(), wide()] {
            let fill = self.random.fill();
            self.there_and_back(USUAL.with(six), [1024, 768], fill);
        }
    }

    /// Choices that are refused and one that is not, where every other number has its reason or not.
    fn meetings(&mut self) {
        let bad = |bits: u32, at: usize| {
            let mut six = grey();
            match at {
                0..=2 => six.mean[at] = bits,
                _ => six.deviation[at - 3] = bits,
            }
            six
        };
        let mut list = vec![
            grey(),
            choice([channel(1e8, 1.0); 3]),
            choice([channel(0.0, TINY); 3]),
        ];
        list.extend((0..6).map(|at| bad(0x7FC0_0000, at)));
        list.push(bad(0, 5));
        let settings = [
            of(1, 2, 2),
            of(0, 2, 2),
            of(1, 5, 2),
            of(1, 2, 2049),
            of(33, MAX, 0),
            of(1, 2, 1),
        ];
        for six in list {
            for (s, rule) in settings
                .into_iter()
                .flat_map(|s| [0, 1, 2, 3].map(|rule| (s, rule)))
            {
                let s = s.rule(rule).with(six);
                for sides in [[1, 2], [0, 2], [1, 8193], [MAX, 0]] {
                    for (rgb, out) in [(6, 12), (5, 12), (6, 11), (0, 0)] {
                        self.preprocess(s, sides, Fill::Ramp, rgb, out);
                    }
                }
                for grid in [[2, 2], [0, 2], [2, 3], [2, 4], [MAX, 2]] {
                    for (floats, out) in [(12, 12), (11, 12), (12, 11), (1, 0)] {
                        for set in [&[][..], &[(0, 0x7FC0_0000)]] {
                            let source = Source::Samples(Fill::Ramp);
                            self.restore(s, grid, source, floats, out, set);
                        }
                    }
                }
            }
        }
    }

    /// Means and deviations that are powers of two, from the smallest to the largest.
    fn powers(&mut self) {
        let small = (0..23).map(|bit| 1 << bit);
        let powers: Vec<u32> = small
            .chain((1..=255).map(|exponent| exponent << 23))
            .collect();
        for bits in powers.iter().flat_map(|bits| [*bits, bits | 1 << 31]) {
            for deviation in [1.0f32, -0.3, 1e-30, 3e38] {
                self.every_byte(choice([[bits, deviation.to_bits()]; 3]));
            }
            for mean in [0.0f32, 0.2, -3.0, 1e4] {
                self.every_byte(choice([[mean.to_bits(), bits]; 3]));
            }
        }
    }

    fn random_choices(&mut self) {
        for _ in 0..NEAR {
            let six = self.random.near();
            self.every_byte(six);
        }
        for _ in 0..ANY {
            let six = self.random.any();
            self.every_byte(six);
        }
        for k in 0..LIMITS {
            let mut channels = own();
            channels[k % 3] = self.random.limit();
            self.every_byte(choice(channels));
        }
        let mut random = Random(self.random.next());
        self.random_pictures(fewer(PICTURES), || match random.below(4) {
            0 => random.any(),
            _ => random.near(),
        });
    }
}

// --- The sample ---

/// A record that both calls accept if the choice is allowed, to be changed.
fn recorded(random: &mut Random, six: Choice) -> Asked {
    let rule = random.pick(&RULES);
    let mut a = accepted(random, rule);
    a.s.six = six;
    a
}

/// Choices that are accepted, with samples damaged too; and 19, alone and where it meets others.
pub fn sample(random: &mut Random, list: &mut Vec<Asked>) {
    for six in [
        grey(),
        wide(),
        choice([channel(0.2, -0.25); 3]),
        choice([channel(0.1, 0.3), channel(0.2, 0.25), channel(0.3, 0.2)]),
        choice([channel(0.1, -0.3), channel(0.2, 0.25), channel(0.3, -1e38)]),
        choice([
            channel(0.2, 3e-39),
            channel(1e4, 1.0),
            channel(-3.0, -1e-30),
        ]),
        choice([
            channel(1.0, f32::MIN_POSITIVE),
            channel(65536.0, 1.0),
            channel(0.0, 1.0),
        ]),
    ] {
        list.push(recorded(random, six));
        let mut a = recorded(random, six);
        (a.damage, a.place) = (1, a.floats / 64 * 32);
        list.push(a);
    }
    // -0 in the place of the first sample, where that is +0, and where it is -0.
    for deviation in [0.3f32, -0.3] {
        let mut a = recorded(random, grey());
        let made = picture(a.s, a.sides, Fill::Sample(a.seed));
        a.s.six.mean[0] = byte(made.resized[0]).to_bits();
        a.s.six.deviation[0] = deviation.to_bits();
        a.damage = 3;
        list.push(a);
    }
    let [mean, deviation] = channel(0.2, 0.25);
    for (k, c) in [
        [0x7FC0_0000, deviation],
        [0x7F80_0000, deviation],
        [0xFF80_0000, deviation],
        [mean, 0x7FC0_0000],
        [mean, 0x7F80_0000],
        [mean, 0xFF80_0000],
        [mean, 0],
        [mean, 1 << 31],
        channel(1e8, 1.0),
        channel(1e5, 1.0),
        channel(65536.007_812_5, 1.0),
        channel(-65535.003_906_25, -1.0),
        channel(0.0, TINY),
        channel(1.0, -TINY),
    ]
    .into_iter()
    .enumerate()
    {
        list.push(recorded(random, spread(c)[k % 4]));
    }
    let mut from = |change: &dyn Fn(&mut Asked)| {
        let mut a = recorded(random, choice([channel(0.2, 0.0); 3]));
        change(&mut a);
        list.push(a);
    };
    from(&|a| a.s.patch_size = 0);
    from(&|a| a.s.resize_rule = 3);
    from(&|a| a.sides[0] = 0);
    from(&|a| (a.rgb, a.floats) = (a.rgb + 1, a.floats - 1));
    from(&|a| a.grid[1] = 0);
    from(&|a| (a.out, a.bytes) = (0, 0));
}
