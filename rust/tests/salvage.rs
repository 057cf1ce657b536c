//! Damaged patches: which bytes come back, and which samples are listed.

mod common;

use common::{alike, allowed, sample, Random};
use kyzgultam::{restore, salvage, BadSample, Picture, PictureSettings, Refusal, Salvaged};

const MAX: usize = usize::MAX;

/// A call: the patches by their bits, and how long the outputs are.
#[derive(Clone)]
struct Call {
    settings: PictureSettings,
    bits: Vec<u32>,
    grid: (usize, usize),
    out: usize,
    list: usize,
}

/// The bits of a byte's sample in a channel.
fn bits_of(s: &PictureSettings, c: usize, byte: u8) -> u32 {
    sample(byte, s.mean[c], s.deviation[c]).to_bits()
}

/// The byte whose sample in a channel has these bits.
fn byte_of(s: &PictureSettings, c: usize, bits: u32) -> Option<u8> {
    (0..=255).find(|byte| bits_of(s, c, *byte) == bits)
}

impl Call {
    /// Patches of random bytes, with room for all of them and for no bad sample.
    fn new(random: &mut Random, settings: PictureSettings, grid: (usize, usize)) -> Call {
        let n = settings.patch_size.pow(2);
        let len = grid.0 * grid.1 * 3 * n;
        let bits = (0..len).map(|i| bits_of(&settings, i / n % 3, random.next() as u8)).collect();
        Call { settings, bits, grid, out: len, list: 0 }
    }

    /// One with all kinds of channels.
    fn any(random: &mut Random) -> Call {
        loop {
            let mut settings = PictureSettings { patch_size: random.from(1, 5), ..random.picture() };
            for c in 0..3 {
                (settings.mean[c], settings.deviation[c]) = random.allowed_channel();
            }
            let merge = settings.spatial_merge_size;
            let most = settings.image_size / settings.patch_size / merge;
            if most > 0 {
                let grid = (random.from(1, most.min(2)) * merge, random.from(1, most.min(2)) * merge);
                return Call::new(random, settings, grid);
            }
        }
    }

    /// What is answered and written, as the request reads.
    fn defined(&self) -> Result<(Salvaged, Vec<u8>, Vec<BadSample>), Refusal> {
        let (s, p, (grid_h, grid_w)) = (&self.settings, self.settings.patch_size, self.grid);
        let within = |value: usize, most: usize| 1 <= value && value <= most;
        let sizes = [(p, 32), (s.spatial_merge_size, 4), (s.image_size, 2048), (s.resize_rule, 2)];
        if !sizes.iter().all(|(value, most)| within(*value, *most)) {
            return Err(Refusal::Setting);
        }
        if !(0..3).all(|c| allowed(s.mean[c], s.deviation[c])) {
            return Err(Refusal::Channel);
        }
        if ![grid_h, grid_w].iter().all(|side| within(*side, s.image_size / p) && side % s.spatial_merge_size == 0) {
            return Err(Refusal::Grid);
        }
        let (height, width) = (grid_h * p, grid_w * p);
        if self.bits.len() != grid_h * grid_w * 3 * p * p {
            return Err(Refusal::PatchesLength);
        }
        if self.out < height * width * 3 {
            return Err(Refusal::Output);
        }
        let (mut rgb, mut list) = (vec![], vec![]);
        for (y, x, c) in (0..height * width * 3).map(|i| (i / 3 / width, i / 3 % width, i % 3)) {
            let (patch, place) = (y / p * grid_w + x / p, (c * p + y % p) * p + x % p);
            let bits = self.bits[patch * 3 * p * p + place];
            let byte = byte_of(s, c, bits);
            rgb.push(byte.unwrap_or(0));
            if byte.is_none() {
                list.push(BadSample { patch: patch as u32, place: place as u32, bits });
            }
        }
        list.sort_by_key(|bad| (bad.patch, bad.place));
        if list.len() > self.list {
            return Err(Refusal::List);
        }
        Ok((Salvaged { height, width, bad: list.len() }, rgb, list))
    }

    /// Runs the call on marked outputs. Answer, bytes, list and both tails are to be as defined, and restore of these
    /// patches is to accept exactly where nothing is listed, with the same bytes: how many samples are bad.
    fn check(&self) -> Result<usize, Refusal> {
        let patches: Vec<f32> = self.bits.iter().map(|bits| f32::from_bits(*bits)).collect();
        let (grid_h, grid_w) = self.grid;
        let marks = Random(7).bytes(self.out);
        let entry = |i: usize| BadSample { patch: !0 - i as u32, place: !0, bits: 0xA5A5_A5A5 };
        let marked: Vec<BadSample> = (0..self.list).map(entry).collect();
        let (mut out, mut list) = (marks.clone(), marked.clone());
        let found = salvage(&patches, grid_h, grid_w, &self.settings, &mut out, &mut list);
        let of = format!("{:?} {:?} {} {}", self.settings, self.grid, self.out, self.list);

        let defined = self.defined();
        assert_eq!(found, defined.as_ref().map(|(answer, ..)| *answer).map_err(|refusal| *refusal), "{of}");
        let (rgb, bad) = defined.as_ref().map_or((&[][..], &[][..]), |(_, rgb, list)| (rgb, list));
        assert!(out[..rgb.len()] == *rgb && out[rgb.len()..] == marks[rgb.len()..], "{of}");
        assert_eq!(list[..bad.len()], *bad, "{of}");
        assert_eq!(list[bad.len()..], marked[bad.len()..], "{of}");

        let mut restored = marks.clone();
        let right = match found {
            Ok(Salvaged { height, width, bad: 0 }) => Ok(Picture { height, width }),
            Ok(_) | Err(Refusal::List) => Err(Refusal::Sample),
            Err(refusal) => Err(refusal),
        };
        assert_eq!(restore(&patches, grid_h, grid_w, &self.settings, &mut restored), right, "{of}");
        assert!(restored == if right.is_ok() { out } else { marks }, "{of}");
        found.map(|salvaged| salvaged.bad)
    }

    /// The call with a list of its bad samples, of one less and of some more: how many they are.
    fn check_lists(&self) -> usize {
        let long = Call { list: self.bits.len(), ..self.clone() };
        let bad = long.check().unwrap();
        for list in [bad, bad + 1] {
            assert_eq!(Call { list, ..self.clone() }.check(), Ok(bad));
        }
        for list in [bad.saturating_sub(1), bad / 2, 0] {
            let right = if list < bad { Err(Refusal::List) } else { Ok(bad) };
            assert_eq!(Call { list, ..self.clone() }.check(), right);
        }
        bad
    }
}

/// Channels of many kinds: rising and falling, and those of which restore finds a byte by halving.
fn choices() -> Vec<PictureSettings> {
    let own = PictureSettings::new(16, 1, 32);
    let some = [(0.2, 0.25), (0.2, -0.25), (0.0, 1.0), (0.0, -1.0), (0.2, 1e38), (0.2, -1e38), (0.2, 3e-39)];
    let more = [(0.2, 1e-30), (-7.0, -1e-30), (65_536.0, 1.0), (0.5, 3e38), (1.0, f32::MIN_POSITIVE)];
    let mut choices: Vec<_> = some.iter().chain(&more).map(|(mean, deviation)| alike(*mean, *deviation, own)).collect();
    choices.push(own);
    choices.push(PictureSettings { mean: [0.2, 0.0, 0.7], deviation: [1e38, -0.25, 3e-39], ..own });
    assert!(choices.iter().all(|s| (0..3).all(|c| allowed(s.mean[c], s.deviation[c]))));
    choices
}

/// Each channel has each byte once, in one patch.
fn every_byte(settings: PictureSettings) -> Call {
    let bits = (0..768).map(|i| bits_of(&settings, i / 256, i as u8)).collect();
    Call { settings, bits, grid: (1, 1), out: 768, list: 0 }
}

#[test]
fn clean_patches_need_no_list() {
    let mut random = Random(20_261_001);
    for round in 0..200 {
        let call = Call::any(&mut random);
        let out = call.out + round % 7;
        assert_eq!(Call { out, ..call.clone() }.check(), Ok(0));
        assert_eq!(Call { list: 3, ..call }.check(), Ok(0));
    }
    for settings in choices() {
        assert_eq!(every_byte(settings).check(), Ok(0));
    }
}

/// What damage may make of a sample. By chance it is still a byte's.
fn damaged(random: &mut Random, good: u32) -> u32 {
    let any = random.next() as u32;
    match random.from(0, 9) {
        0 => any,
        1 => good ^ 1 << (any % 32),
        2 => good.wrapping_add(1),
        3 => good.wrapping_sub(1),
        4 => 0x7F80_0000 | any & 0x807F_FFFF,
        5 => 0x7F80_0000 | any & 0x8000_0000,
        6 => any & 0x8000_0000,
        7 => any & 0x807F_FFFF,
        8 => good ^ 0x8000_0000,
        _ => !0,
    }
}

#[test]
fn damaged_patches() {
    let mut random = Random(20_261_002);
    let (mut listed, mut spared) = (0, 0);
    for round in 0..300 {
        let mut call = Call::any(&mut random);
        call.out += round % 5;
        let len = call.bits.len();
        let times = [1, 2, 10, len][round % 4];
        for _ in 0..times {
            let at = random.from(0, len - 1);
            call.bits[at] = damaged(&mut random, call.bits[at]);
        }
        let bad = call.check_lists();
        listed += bad;
        spared += usize::from(bad < times);
    }
    assert!(listed > 10_000 && spared > 20, "{listed} {spared}");
}

/// Every pattern that one bit parts from a good one, and each next to it in number.
#[test]
fn near_to_every_byte() {
    let mut bad = 0;
    for settings in choices() {
        let good = every_byte(settings);
        let mut ways: Vec<Vec<u32>> =
            (0..32).map(|bit| good.bits.iter().map(|bits| bits ^ 1 << bit).collect()).collect();
        ways.push(good.bits.iter().map(|bits| bits.wrapping_add(1)).collect());
        ways.push(good.bits.iter().map(|bits| bits.wrapping_sub(1)).collect());
        for bits in ways {
            bad += Call { bits, list: 768, ..good.clone() }.check().unwrap();
        }
    }
    // Nearly all: some of 3e-39 and 1e38 are a byte's.
    assert!(bad > 14 * 34 * 768 * 9 / 10, "{bad}");
}

/// How many changes of one bit lead from a byte to another, so that they are not seen (README, 'Damaged patch files').
#[test]
fn one_bit_that_is_not_seen() {
    let own = PictureSettings::new(16, 1, 32);
    for (settings, unseen) in [(own, 0), (alike(0.2, 0.25, own), 312)] {
        let good = every_byte(settings);
        let changed =
            |bit: u32| Call { bits: good.bits.iter().map(|bits| bits ^ 1 << bit).collect(), list: 768, ..good.clone() };
        let seen: usize = (0..32).map(|bit| changed(bit).check().unwrap()).sum();
        assert_eq!(seen, 32 * 768 - unseen);
    }
    // As a changed sign makes byte 61 byte 41.
    let grey = alike(0.2, 0.25, own);
    assert_eq!(byte_of(&grey, 0, bits_of(&grey, 0, 61) ^ 0x8000_0000), Some(41));
}

/// NaNs of every payload that is one bit or all but one, quiet and signalling, of both signs; infinities, zeros.
#[test]
fn no_numbers() {
    let mut patterns = vec![];
    for sign in [0, 0x8000_0000] {
        patterns.extend([0x7F80_0000 | sign, 0x7FFF_FFFF | sign, sign]);
        for bit in 0..23 {
            patterns.extend([0x7F80_0000 | sign | 1 << bit, (0x7FFF_FFFF ^ 1 << bit) | sign]);
        }
    }
    let mut random = Random(20_261_003);
    for settings in choices() {
        let settings = PictureSettings { patch_size: 3, ..settings };
        for (i, pattern) in patterns.iter().enumerate() {
            let mut call = Call::new(&mut random, settings, (2, 3));
            let at = i * 7 % call.bits.len();
            call.bits[at] = *pattern;
            let bad = call.check_lists();
            // A zero may be a byte's, of one sign: 51 / 255 is 0.2.
            let zero = byte_of(&settings, at / 9 % 3, *pattern).is_some();
            assert_eq!(bad, usize::from(!zero), "{settings:?} {pattern:x}");
            assert!(!zero || pattern << 1 == 0, "{settings:?} {pattern:x}");
        }
        // All at once, each at a place of its own.
        let mut call = Call::new(&mut random, settings, (2, 3));
        call.bits[30..30 + patterns.len()].copy_from_slice(&patterns);
        assert!(call.check_lists() >= patterns.len() - 2);
    }
}

#[test]
fn every_sample_bad() {
    let mut random = Random(20_261_004);
    let mut settings = choices();
    settings.extend((0..40).map(|_| Call::any(&mut random).settings));
    for settings in settings {
        let merge = settings.spatial_merge_size;
        let settings = PictureSettings { image_size: 64, patch_size: settings.patch_size.min(8), ..settings };
        let mut call = Call::new(&mut random, settings, (merge, 2 * merge));
        for (i, bits) in call.bits.iter_mut().enumerate() {
            *bits = (0x7F80_0001 + i as u32) ^ (i as u32) << 31;
        }
        assert_eq!(call.check_lists(), call.bits.len());
    }
}

/// Damage that leaves another byte's bits is not seen: that byte comes back.
#[test]
fn another_byte_is_not_listed() {
    let mut random = Random(20_261_005);
    for _ in 0..100 {
        let mut call = Call::any(&mut random);
        let (at, byte) = (random.from(0, call.bits.len() - 1), random.next() as u8);
        let c = at / call.settings.patch_size.pow(2) % 3;
        let (_, before, _) = call.defined().unwrap();
        let was = byte_of(&call.settings, c, call.bits[at]).unwrap();
        call.bits[at] = bits_of(&call.settings, c, byte);
        assert_eq!(call.check(), Ok(0));
        let (_, after, _) = call.defined().unwrap();
        let changed: Vec<_> = before.iter().zip(&after).filter(|(a, b)| a != b).collect();
        assert_eq!(changed, if byte == was { vec![] } else { vec![(&was, &byte)] });
    }
    // In another channel the same bits are no byte's.
    let call = every_byte(PictureSettings::new(16, 1, 32));
    let bits = [&call.bits[256..], &call.bits[..256]].concat();
    assert_eq!(Call { bits, ..call }.check_lists(), 768);
}

/// Calls that are spoiled in any ways at once are answered as defined.
#[test]
fn any_call_is_as_defined() {
    let mut random = Random(20_261_006);
    let mut seen = [0; 22];
    for _ in 0..2000 {
        let mut call = Call::any(&mut random);
        call.out += random.from(0, 2);
        for _ in 0..random.from(0, 3) {
            let at = random.from(0, call.bits.len() - 1);
            call.bits[at] = damaged(&mut random, call.bits[at]);
        }
        call.list = random.from(0, 4);
        for _ in 0..random.from(0, 2) {
            let odd = [0, 1, 3, 5, 33, 2049, MAX][random.from(0, 6)];
            match random.from(0, 9) {
                0 => call.settings.patch_size = odd,
                1 => call.settings.spatial_merge_size = odd,
                2 => call.settings.image_size = odd,
                3 => call.settings.resize_rule = odd,
                4 => call.settings.mean[random.from(0, 2)] = [f32::NAN, 1e8][random.from(0, 1)],
                5 => call.settings.deviation[random.from(0, 2)] = [0.0, f32::INFINITY][random.from(0, 1)],
                6 => call.grid.0 = odd,
                7 => call.grid.1 = odd,
                8 => drop(call.bits.pop()),
                _ => call.out -= random.from(1, call.out),
            }
            if call.out == 0 || call.bits.is_empty() {
                break;
            }
        }
        seen[call.check().map_or_else(|refusal| refusal.number() as usize, |_| 0)] += 1;
    }
    for (number, count) in seen.iter().enumerate() {
        assert_eq!(*count > 50, [0, 1, 19, 6, 7, 5, 21].contains(&number), "{seen:?}");
    }
}

/// At the ends of what is allowed: the largest pictures of the smallest and of the largest patches.
#[test]
fn the_largest_pictures() {
    let side = 2048;
    let (mut out, mut list) = (vec![9; side * side * 3], [BadSample::default(); 4]);
    for (patch, merge) in [(1, 1), (32, 4)] {
        let settings = PictureSettings::new(patch, merge, side);
        let (n, grid) = (patch * patch, side / patch);
        let len = side * side * 3;
        let good: [f32; 3] = std::array::from_fn(|c| sample(200, settings.mean[c], settings.deviation[c]));
        let mut patches: Vec<f32> = (0..len).map(|i| good[i / n % 3]).collect();
        let places = [0, len / 2 + 1, len - 1];
        for (k, at) in places.iter().enumerate() {
            patches[*at] = f32::from_bits(0xFF80_0001 + k as u32);
        }
        assert_eq!(salvage(&patches, grid, grid, &settings, &mut out, &mut list[..2]), Err(Refusal::List));
        assert!(out.iter().all(|byte| *byte == 9) && list == [BadSample::default(); 4]);
        let right = Salvaged { height: side, width: side, bad: 3 };
        assert_eq!(salvage(&patches, grid, grid, &settings, &mut out, &mut list), Ok(right));
        for (k, at) in places.iter().enumerate() {
            let (patch, place) = ((at / (3 * n)) as u32, (at % (3 * n)) as u32);
            assert_eq!(list[k], BadSample { patch, place, bits: 0xFF80_0001 + k as u32 });
        }
        assert_eq!((list[2].patch as usize, list[2].place as usize), (grid * grid - 1, 3 * n - 1));
        assert_eq!(std::mem::take(&mut list[3]), BadSample::default());
        let zeros: Vec<usize> = (0..len).filter(|i| out[*i] != 200).collect();
        let mut bytes = [0, 1, 2].map(|k| {
            let bad: BadSample = list[k];
            (bad.row(settings.patch_size, grid) * side + bad.column(settings.patch_size, grid)) * 3
                + bad.channel(settings.patch_size)
        });
        bytes.sort();
        assert_eq!(zeros, bytes);
        assert!(zeros.iter().all(|i| out[*i] == 0));
        out.fill(9);
        list = Default::default();
    }
}

/// Three u32 and nothing else, since the list is lent as such.
#[test]
fn an_entry_is_three_numbers() {
    assert_eq!((size_of::<BadSample>(), align_of::<BadSample>()), (12, 4));
    let list = [BadSample { patch: 1, place: 2, bits: 3 }, BadSample { patch: 4, place: 5, bits: 6 }];
    let numbers: [u32; 6] = unsafe { std::mem::transmute(list) };
    assert_eq!(numbers, [1, 2, 3, 4, 5, 6]);
}

/// Channel, row and column are those of the sample that the byte is taken from.
#[test]
fn where_a_sample_lies() {
    for (patch, grid_w) in [(1, 1), (1, 5), (2, 4), (3, 2), (14, 3), (32, 1)] {
        let mut at = 0;
        for (grid_y, grid_x) in (0..3).flat_map(|y| (0..grid_w).map(move |x| (y, x))) {
            for (c, y) in (0..3).flat_map(|c| (0..patch).map(move |y| (c, y))) {
                for x in 0..patch {
                    let n = 3 * patch * patch;
                    let bad = BadSample { patch: (at / n) as u32, place: (at % n) as u32, bits: 0 };
                    assert_eq!(bad.channel(patch), c);
                    assert_eq!(bad.row(patch, grid_w), grid_y * patch + y);
                    assert_eq!(bad.column(patch, grid_w), grid_x * patch + x);
                    at += 1;
                }
            }
        }
    }
}

/// On a thread with 136 KiB of stack, as each picture call.
#[test]
fn on_a_small_stack() {
    let run = || {
        let settings = PictureSettings::new(14, 2, 1540);
        let patches = vec![f32::NAN; 1540 * 1540 * 3];
        let mut out = vec![9; patches.len()];
        let mut list = vec![BadSample::default(); patches.len()];
        let bad = salvage(&patches, 110, 110, &settings, &mut out, &mut list).unwrap().bad;
        let last = BadSample { patch: 110 * 110 - 1, place: 587, bits: f32::NAN.to_bits() };
        bad == patches.len() && list[bad - 1] == last && out.iter().all(|byte| *byte == 0)
    };
    assert!(std::thread::Builder::new().stack_size(136 << 10).spawn(run).unwrap().join().unwrap());
}
