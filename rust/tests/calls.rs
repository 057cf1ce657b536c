//! What accepted calls give, and that the lengths of a picture's buffers are those that the calls accept.

mod common;

use common::{alike, allowed, same, sample, Random};
use kyzgultam::{
    bf16, exp, forward, half_to_f32, patch, pixtral_preprocess, restore, root, tanh, EncoderSettings, Patches, Picture,
    PictureSettings, Refusal,
};

fn by_rule(resize_rule: usize, settings: PictureSettings) -> PictureSettings {
    PictureSettings { resize_rule, ..settings }
}

#[test]
fn settled_examples() {
    let s = PictureSettings::new;
    let long = |patch, merge, image| by_rule(2, s(patch, merge, image));
    let grids = [
        (s(14, 2, 1540), (1, 1), Ok((2, 2))),
        (s(14, 2, 1540), (29, 28), Ok((4, 2))),
        (s(14, 2, 1540), (28, 28), Ok((2, 2))),
        (s(14, 2, 1540), (1540, 1541), Ok((110, 110))),
        (s(14, 2, 100), (200, 200), Ok((6, 6))),
        (s(14, 2, 27), (200, 200), Err(Refusal::ImageSize)),
        (s(14, 2, 28), (200, 200), Ok((2, 2))),
        (s(14, 2, 1540), (0, 1), Err(Refusal::Side)),
        (s(14, 2, 1540), (1, 8193), Err(Refusal::Side)),
        (s(14, 2, 1540), (3080, 1540), Ok((110, 110))),
        (long(14, 2, 1540), (3080, 1540), Ok((110, 56))),
        (long(14, 2, 1540), (1540, 3080), Ok((56, 110))),
        (long(14, 2, 1540), (1540, 1541), Ok((110, 110))),
        (s(14, 2, 100), (200, 100), Ok((6, 6))),
        (long(14, 2, 100), (200, 100), Ok((6, 4))),
        (long(1, 1, 2), (8192, 1), Ok((2, 1))),
        (long(1, 1, 2), (1, 8192), Ok((1, 2))),
        (long(14, 2, 27), (200, 200), Err(Refusal::ImageSize)),
        (long(14, 2, 1540), (8193, 1), Err(Refusal::Side)),
    ];
    for (settings, (height, width), grid) in grids {
        assert_eq!(settings.grid(height, width), grid);
        let rgb = vec![1; if grid == Err(Refusal::Side) { 0 } else { height * width * 3 }];
        let mut out = vec![0.0; settings.patches_len(height, width).unwrap_or(0)];
        let found = pixtral_preprocess(&rgb, height, width, &settings, &mut out);
        assert_eq!(found.map(|p| (p.grid_h, p.grid_w)), grid);
        assert_eq!(found.map(|p| p.floats), settings.patches_len(height, width));
    }

    let row = |bytes: &[u8], merge: usize, image: usize| {
        let rgb: Vec<u8> = bytes.iter().flat_map(|b| [*b; 3]).collect();
        let settings = s(1, merge, image);
        let mut patches = vec![0.0; image * image * 3];
        let p = pixtral_preprocess(&rgb, 1, bytes.len(), &settings, &mut patches).unwrap();
        let mut back = vec![0; image * image * 3];
        restore(&patches, p.grid_h, p.grid_w, &settings, &mut back).unwrap();
        back.chunks(3).map(|pixel| pixel[0]).collect::<Vec<_>>()
    };
    assert_eq!(row(&[0, 255], 4, 4), [0, 128, 255, 255].repeat(4));
    assert_eq!(row(&[10, 20, 30, 40], 2, 2), [10, 30].repeat(2));
}

#[test]
fn patches_len_agrees_and_restore_undoes() {
    let mut random = Random(88_172_645_463_325_252);
    let (mut accepted, mut refused) = (0, 0);
    for _ in 0..2000 {
        let settings = random.picture();
        let (height, width) = (random.from(1, 60), random.from(1, 60));
        let rgb = random.bytes(height * width * 3);
        let mut out = vec![0.0; 90 * 90 * 3];
        let found = pixtral_preprocess(&rgb, height, width, &settings, &mut out);
        let n = settings.patches_len(height, width);
        assert_eq!(found.map(|p| p.floats), n);
        let Ok(p) = found else {
            refused += 1;
            continue;
        };
        accepted += 1;
        assert_eq!(settings.grid(height, width), Ok((p.grid_h, p.grid_w)));
        let n = n.unwrap();
        let mut exact = vec![0.0; n];
        assert_eq!(pixtral_preprocess(&rgb, height, width, &settings, &mut exact), found);
        assert!(same(&exact, &out[..n]));
        let short = pixtral_preprocess(&rgb, height, width, &settings, &mut exact[1..]);
        assert_eq!(short, Err(Refusal::Output));

        let bytes = settings.restored_len(p.grid_h, p.grid_w).unwrap();
        assert_eq!(bytes, n);
        let mut back = vec![0; bytes];
        let size = Picture { height: p.grid_h * settings.patch_size, width: p.grid_w * settings.patch_size };
        assert_eq!(restore(&exact, p.grid_h, p.grid_w, &settings, &mut back), Ok(size));
        assert_eq!(restore(&exact, p.grid_h, p.grid_w, &settings, &mut vec![0; bytes - 1]), Err(Refusal::Output));
        if (size.height, size.width) == (height, width) {
            assert_eq!(back, rgb);
        }
        // The resized picture gives the same patches again.
        let mut again = vec![0.0; n];
        let found = pixtral_preprocess(&back, size.height, size.width, &settings, &mut again);
        assert_eq!(found, Ok(Patches { floats: n, ..p }));
        assert!(same(&again, &exact));
    }
    assert!(accepted > 500 && refused > 100, "{accepted} {refused}");
}

/// The sides that a picture is resized to, as the definition of the resize rules reads.
fn sides(s: &PictureSettings, height: usize, width: usize) -> (usize, usize) {
    let (align, m) = (s.patch_size * s.spatial_merge_size, height.max(width));
    let side = |side: usize| {
        let replaced = if s.resize_rule == 2 && m > s.image_size { 1.max(side * s.image_size / m) } else { side };
        let up = (replaced..).find(|x| x % align == 0).unwrap();
        (1..=up.min(s.image_size)).rev().find(|x| x % align == 0).unwrap()
    };
    (side(height), side(width))
}

/// The Rust's resize.
fn resize(rgb: &[u8], (height, width): (usize, usize), (to_height, to_width): (usize, usize)) -> Vec<u8> {
    let near = |i: usize, source: usize, target: usize| {
        let place = i as f64 * (source as f64 / target as f64);
        let first = (place.floor() as usize).min(source - 1);
        (first, (first + 1).min(source - 1), place - first as f64)
    };
    let value = |k: usize| {
        let (y0, y1, v) = near(k / 3 / to_width, height, to_height);
        let (x0, x1, u) = near(k / 3 % to_width, width, to_width);
        let at = |y: usize, x: usize| f64::from(rgb[(y * width + x) * 3 + k % 3]);
        let upper = at(y0, x0) * (1.0 - u) * (1.0 - v) + at(y0, x1) * u * (1.0 - v);
        (upper + at(y1, x0) * (1.0 - u) * v + at(y1, x1) * u * v).round().clamp(0.0, 255.0) as u8
    };
    (0..to_height * to_width * 3).map(value).collect()
}

/// The patches of a picture, their grid, and what they bring back.
fn there_and_back(s: &PictureSettings, rgb: &[u8], height: usize, width: usize) -> (Patches, Vec<f32>, Vec<u8>) {
    let mut patches = vec![0.0; s.patches_len(height, width).unwrap()];
    let made = pixtral_preprocess(rgb, height, width, s, &mut patches).unwrap();
    let mut back = vec![0; patches.len()];
    restore(&patches, made.grid_h, made.grid_w, s, &mut back).unwrap();
    (made, patches, back)
}

#[test]
fn a_picture_is_resized_by_its_rule() {
    let mut random = Random(20_260_701);
    let (mut whole, mut squashed) = (0, 0);
    for _ in 0..1500 {
        let settings = random.picture();
        if settings.image_size < settings.patch_size * settings.spatial_merge_size {
            continue;
        }
        let (height, width) = (random.from(1, 200), random.from(1, 60));
        let rgb = random.bytes(height * width * 3);
        let [(one, first), (two, second)] = [1, 2].map(|rule| {
            let settings = by_rule(rule, settings);
            let (to_height, to_width) = sides(&settings, height, width);
            let (made, patches, back) = there_and_back(&settings, &rgb, height, width);
            assert_eq!((made.grid_h * settings.patch_size, made.grid_w * settings.patch_size), (to_height, to_width));
            assert_eq!(back, resize(&rgb, (height, width), (to_height, to_width)), "{settings:?} {height} {width}");
            // The grid says what restore needs of a rule.
            let mut other = vec![0; back.len()];
            restore(&patches, made.grid_h, made.grid_w, &by_rule(3 - rule, settings), &mut other).unwrap();
            assert_eq!(other, back);
            (made, patches)
        });
        if height.max(width) <= settings.image_size {
            assert!(one == two && same(&first, &second), "{settings:?} {height} {width}");
            whole += 1;
        } else {
            squashed += usize::from(one != two);
        }
    }
    assert!(whole > 100 && squashed > 100, "{whole} {squashed}");
}

/// One patch in which each channel has each byte once.
const WHOLE: PictureSettings = PictureSettings::new(16, 1, 16);

fn every_byte() -> Vec<u8> {
    (0..=255).flat_map(|k: u8| [k, 255 - k, k ^ 0x5A]).collect()
}

fn by_channel(channels: [(f32, f32); 3]) -> PictureSettings {
    PictureSettings { mean: channels.map(|c| c.0), deviation: channels.map(|c| c.1), ..WHOLE }
}

/// The one patch of a picture, as the definition of a sample reads.
fn samples(s: &PictureSettings, rgb: &[u8]) -> Vec<f32> {
    let of = |i: usize, c: usize| sample(rgb[i * 3 + c], s.mean[c], s.deviation[c]);
    (0..3).flat_map(|c| (0..256).map(move |i| of(i, c))).collect()
}

/// The byte that has these bits in a channel.
fn byte_of(s: &PictureSettings, channel: usize, bits: u32) -> Option<u8> {
    (0..=255).find(|byte| sample(*byte, s.mean[channel], s.deviation[channel]).to_bits() == bits)
}

/// Restores a patch with the sample at a place replaced: where it is a byte's, that byte comes back and the others
/// stay; where not, it is 8 and nothing is written. Whether it was a byte's.
fn replaced(s: &PictureSettings, rgb: &[u8], patch: &[f32], place: usize, bits: u32) -> bool {
    let mut patch = patch.to_vec();
    patch[place] = f32::from_bits(bits);
    let mut back = vec![0xA5; rgb.len()];
    let found = restore(&patch, 1, 1, s, &mut back);
    let byte = byte_of(s, place / 256, bits);
    match byte {
        Some(byte) => {
            let mut right = rgb.to_vec();
            right[place % 256 * 3 + place / 256] = byte;
            assert_eq!((found, back), (Ok(Picture { height: 16, width: 16 }), right), "{s:?} {place} {bits:x}");
        }
        None => {
            assert_eq!(found, Err(Refusal::Sample), "{s:?} {place} {bits:x}");
            assert!(back.iter().all(|b| *b == 0xA5));
        }
    }
    byte.is_some()
}

/// The Rust's, grey ultrasound's, falling samples, sizes near the ends, and channels that have little in common.
fn choices() -> Vec<PictureSettings> {
    let pairs = [
        (0.2, 0.25),
        (0.2, -0.25),
        (0.0, 1.0),
        (-0.0, -1.0),
        (0.5, 0.5),
        (0.2, 1e-30),
        (0.2, -1e-30),
        (0.2, 3e-39),
        (0.2, 1e38),
        (0.2, -1e38),
        (1e-45, f32::MAX),
        (1000.0, 0.25),
        (-65_000.0, 1.0),
        (65_536.0, 1.0),
    ];
    let all = pairs.map(|(mean, deviation)| alike(mean, deviation, WHOLE));
    let own = [[(0.2, 0.25), (0.5, -3.0), (-7.0, 1e38)], [(0.1, 1e-30), (0.0, 1.0), (0.4, 0.3)]].map(by_channel);
    [&[WHOLE][..], &all, &own].concat()
}

#[test]
fn the_default_has_the_rusts_six_numbers() {
    for s in [PictureSettings::new(1, 1, 1), PictureSettings::default(), EncoderSettings::default().picture] {
        assert_eq!(s.mean.map(f32::to_bits), [0x3EF6_813A, 0x3EEA_685E, 0x3ED1_00FF]);
        assert_eq!(s.deviation.map(f32::to_bits), [0x3E89_89D0, 0x3E85_C974, 0x3E8D_32A8]);
    }
}

#[test]
fn samples_are_the_formula_and_come_back() {
    let mut random = Random(20_260_801);
    let drawn: Vec<_> = (0..500).map(|_| by_channel([(); 3].map(|()| random.allowed_channel()))).collect();
    let rgb = every_byte();
    let (mut zeros, mut others, mut refused) = (0, 0, 0);
    for s in choices().into_iter().chain(drawn) {
        assert!(s.mean.into_iter().zip(s.deviation).all(|(mean, deviation)| allowed(mean, deviation)), "{s:?}");
        let (made, patch, back) = there_and_back(&s, &rgb, 16, 16);
        assert_eq!(made, Patches { grid_h: 1, grid_w: 1, floats: 768 });
        assert!(same(&patch, &samples(&s, &rgb)), "{s:?}");
        assert_eq!(back, rgb, "{s:?}");
        // Bits are compared, not numbers: of two zeros one is a byte's.
        for place in (0..768).filter(|place| patch[*place] == 0.0) {
            assert!(!replaced(&s, &rgb, &patch, place, patch[place].to_bits() ^ 1 << 31), "{s:?}");
            zeros += 1;
        }
        for _ in 0..40 {
            let (place, bit) = (random.from(0, 767), random.from(0, 31));
            match replaced(&s, &rgb, &patch, place, patch[place].to_bits() ^ 1 << bit) {
                true => others += 1,
                false => refused += 1,
            }
        }
    }
    // With a mean of 0 twice a sample is often another byte's.
    assert!(zeros > 20 && others > 20 && refused > 10_000, "{zeros} {others} {refused}");
}

#[test]
fn a_sample_of_another_choice_has_its_byte_or_none() {
    let rgb = every_byte();
    let choices = choices();
    let (mut others, mut refused) = (0, 0);
    for (from, to) in choices.iter().map(|s| (&WHOLE, s)).chain(choices.iter().map(|s| (s, &WHOLE))) {
        let (theirs, patch) = (samples(from, &rgb), samples(to, &rgb));
        for (place, sample) in theirs.iter().enumerate() {
            match replaced(to, &rgb, &patch, place, sample.to_bits()) {
                true => others += 1,
                false => refused += 1,
            }
        }
    }
    // The Rust's own, twice, and few others.
    assert!(others >= 2 * 768 && refused > 20_000, "{others} {refused}");
}

/// The tokens of one call, with these picture settings in it.
fn tokens(picture: PictureSettings) -> Vec<f32> {
    let mut random = Random(20_260_702);
    let settings = EncoderSettings { picture: PictureSettings::new(2, 2, 16), ..random.encoder() };
    let n = settings.lengths(4, 6).unwrap();
    let [patches, weights, cos, sin] = [n.patches, n.weights, n.tables, n.tables].map(|len| random.floats(len, 0.5));
    let settings = EncoderSettings { picture, ..settings };
    let (mut scratch, mut out) = (vec![0.0; n.scratch], vec![0.0; n.out]);
    forward(&settings, &patches, 4, 6, &weights, &cos, &sin, &mut scratch, &mut out).unwrap();
    assert_eq!(settings.lengths(4, 6), Ok(n));
    out
}

#[test]
fn forward_has_the_same_bits_by_both_rules() {
    let [one, two] = [1, 2].map(|rule| tokens(by_rule(rule, PictureSettings::new(2, 2, 16))));
    assert!(same(&one, &two) && one.iter().any(|x| *x != 0.0));
}

#[test]
fn forward_and_lengths_never_read_means_and_deviations() {
    let settings = PictureSettings::new(2, 2, 16);
    let right = tokens(settings);
    for odd in [f32::NAN, -f32::NAN, f32::INFINITY, f32::NEG_INFINITY, 0.0, 1e8, 0.25] {
        for s in [
            PictureSettings { mean: [odd; 3], ..settings },
            PictureSettings { deviation: [odd; 3], ..settings },
            alike(odd, odd, settings),
        ] {
            assert!(same(&tokens(s), &right), "{s:?}");
            assert_eq!(s.grid(9, 40), settings.grid(9, 40));
            assert_eq!(s.patches_len(9, 40), settings.patches_len(9, 40));
            assert_eq!(s.restored_len(4, 6), settings.restored_len(4, 6));
        }
    }
}

#[test]
fn patches_are_parts() {
    let patches = Random(5).floats(3 * 7 * 7 * 4 + 20, 1.0);
    for patch_size in [1, 2, 7] {
        let n = 3 * patch_size * patch_size;
        for i in 0..patches.len() / n {
            let part = patch(&patches, patch_size, i);
            assert_eq!(part.as_ptr_range(), patches[i * n..(i + 1) * n].as_ptr_range());
        }
        for i in [patches.len() / n, patches.len(), usize::MAX / n + 1, usize::MAX] {
            assert!(patch(&patches, patch_size, i).is_empty());
        }
    }
    for patch_size in [0, 15, 32, 33, usize::MAX] {
        assert!(patch(&patches, patch_size, 0).is_empty());
    }
    assert!(patch(&[], 1, 0).is_empty());
}

#[test]
fn number_rules() {
    let mut random = Random(99);
    let edges = [0, 1, 0x007F_FFFF, 0x0080_0000, 0x3F80_0000, 0x7F7F_FFFF, 0x7F80_0000, 0x7F80_0001, 0x7FFF_FFFF];
    let signs = edges.iter().flat_map(|x| [*x, *x | 1 << 31]);
    let patterns: Vec<u32> = signs.chain((0..100_000).map(|_| random.next() as u32)).collect();
    let nan = 0x7FC0_0000;
    for bits in patterns {
        let x = f32::from_bits(bits);
        let rounded = bits.wrapping_add(0x7FFF + (bits >> 16 & 1)) & 0xFFFF_0000;
        assert_eq!(bf16(x).to_bits(), rounded);
        if x.is_nan() || x < 0.0 {
            assert_eq!(root(x).to_bits(), nan, "{bits:x}");
        } else {
            assert_eq!(root(x).to_bits(), x.sqrt().to_bits(), "{bits:x}");
        }
        if x.is_nan() {
            assert_eq!(exp(x).to_bits(), nan);
            assert_eq!(tanh(x).to_bits(), nan);
        } else {
            let near = |found: f32, right: f64| (f64::from(found) - right).abs() <= 1e-7 * right.abs() + 2e-45;
            let e = f64::from(x).exp();
            assert!(if x >= 89.0 { exp(x) == f32::INFINITY } else { e > 3.4e38 || near(exp(x), e) }, "{x}");
            // T loses digits near zero, as its rule says.
            assert!((f64::from(tanh(x)) - f64::from(x).tanh()).abs() < 1e-7, "{x}");
        }
    }
    for bits in 0..=u16::MAX {
        let (sign, size, part) = (bits >> 15, i32::from(bits >> 10 & 31), f64::from(bits & 1023) / 1024.0);
        let value = match size {
            31 if part > 0.0 => f64::NAN,
            31 => f64::INFINITY,
            0 => part * 2f64.powi(-14),
            _ => (1.0 + part) * 2f64.powi(size - 15),
        };
        let found = half_to_f32(bits);
        if value.is_nan() {
            assert_eq!(found.to_bits(), u32::from(sign) << 31 | 0x7F80_0000 | u32::from(bits & 1023) << 13);
        } else {
            assert_eq!(f64::from(found.abs()), value);
            assert_eq!(found.is_sign_negative(), sign == 1);
        }
    }
}
