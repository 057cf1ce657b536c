//! PNG pictures as the tool reads them.

mod common;

use common::png::{chunk, head, mend, png, zlib, END};
use common::tool::{p6, sweep, Folder, LIST};
use common::Random;
use std::fs;

/// Made by Python's zlib at level 9, in three IDAT and with each filter in turn: 30x40, `compressed` its bytes.
const COMPRESSED: &[u8] = include_bytes!("compressed.png");

fn compressed() -> Vec<u8> {
    let byte = |k: usize| (k / 3 % 40 * (k / 3 % 40) + 3 * (k / 120) * (k / 120)) / 9 + 40 * (k % 3);
    (0..30 * 40 * 3).map(|k| byte(k) as u8 & 0x78).collect()
}

#[test]
fn a_png_gives_what_its_ppm_gives() {
    let folder = Folder::new("png");
    let rgb = Random(3).bytes(6 * 10 * 3);
    let grey: Vec<u8> = rgb.iter().step_by(3).copied().collect();
    let tripled: Vec<u8> = grey.iter().flat_map(|g| [*g; 3]).collect();
    let solid = |samples: &[u8], n: usize| samples.chunks(n).flat_map(|p| [p, &[255]].concat()).collect::<Vec<u8>>();
    for (name, colour, samples, right) in [
        ("grey", 0, grey.clone(), &tripled),
        ("rgb", 2, rgb.clone(), &rgb),
        ("grey_alpha", 4, solid(&grey, 1), &tripled),
        ("rgb_alpha", 6, solid(&rgb, 3), &rgb),
    ] {
        // By its first bytes, whatever its name is.
        folder.put(&format!("{name}.ppm"), &png(colour, 6, 10, &samples));
        fs::create_dir_all(folder.path("right")).unwrap();
        folder.put(&format!("right/{name}.png"), &p6(6, 10, right));
        for command in ["patches", "encode", "patches --tiles", "encode --tiles"] {
            let found = folder.done(&format!("{command} {name}.ppm -o out --force {LIST}"));
            let wanted = folder.done(&format!("{command} right/{name}.png -o out2 --force {LIST}"));
            assert_eq!(found, wanted.replace("out2/", "out/"));
        }
        assert!(folder.done(&format!("compare {name}.ppm right/{name}.png {LIST}")).starts_with("24 of 24 patches"));
    }
    assert_eq!(folder.names("out").len(), 4 * 4);
    for name in folder.names("out") {
        assert_eq!(folder.get(&format!("out/{name}")), folder.get(&format!("out2/{name}")), "{name}");
    }
}

#[test]
fn a_compressed_png() {
    let folder = Folder::new("png-compressed");
    folder.put("a.png", COMPRESSED);
    let list = "--settings patch=2,merge=1,image=40";
    folder.done(&format!("patches a.png -o out {list}"));
    folder.done(&format!("restore out/a.patches.npy -o back.ppm {list}"));
    assert_eq!(folder.get("back.ppm"), p6(30, 40, &compressed()));
}

/// What kz writes as PNG it reads again.
#[test]
fn its_own_pictures() {
    let folder = Folder::new("png-own");
    sweep(&folder, "a.ppm", 8, 12, 1);
    sweep(&folder, "b.ppm", 8, 12, 2);
    folder.put("grey.pgm", &[b"P5 12 8 255\n", &Random(3).bytes(96)[..]].concat());
    for (a, b) in [("a.ppm", "b.ppm"), ("grey.pgm", "grey.pgm")] {
        for end in ["png", "ppm"] {
            folder.kz(&format!("compare {a} {b} -o map.{end} --force {LIST}"));
        }
        assert!(folder.get("map.png").starts_with(b"\x89PNG"));
        let said = folder.done(&format!("compare map.png map.ppm {LIST}"));
        assert_eq!(said, "24 of 24 patches are equal\n");
    }
}

#[test]
fn what_is_not_read_is_refused_in_words() {
    let folder = Folder::new("png-refused");
    let whole = png(2, 2, 2, &[9; 12]);
    let mut flipped = whole.clone();
    flipped[45] ^= 1;
    let mut adler = whole.clone();
    let sum = whole.len() - 12 - 4 - 1;
    adler[sum] ^= 1;
    mend(&mut adler);
    let refused = |rest| head(2, 2, rest);
    let wide = [head(8192, 8192, [8, 2, 0, 0, 0]), chunk(b"IDAT", &zlib(&[0; 30])), END.to_vec()].concat();
    for (bytes, words) in [
        (&refused([8, 3, 0, 0, 0]), "is a PNG with a palette, and not grey or RGB; convert it, as with `magick"),
        (
            &refused([16, 2, 0, 0, 0]),
            "is a PNG with 16 bits a sample, and only 8 are read; convert it, as with `magick",
        ),
        (&refused([4, 0, 0, 0, 0]), "is a PNG with 4 bits a sample, and only 8 are read; convert it"),
        (&refused([8, 2, 0, 0, 1]), "is an interlaced PNG, which is not read; convert it"),
        (&png(6, 2, 2, &[8; 16]), "is transparent, first at row 0, column 0 (from 0); "),
        (
            &[head(2, 2, [8, 2, 0, 0, 0]), chunk(b"tRNS", &[0; 6])].concat(),
            "transparent colours (chunk tRNS at byte 33)",
        ),
        (&flipped, "is a damaged PNG: the CRC of chunk IDAT at byte 33 is not that of its bytes; get the whole file"),
        (&adler, "is a damaged PNG: its compressed pixels are wrong at byte 30 of 30: its Adler-32"),
        (&[&whole[..], b"\n"].concat(), "goes on after its picture, which ends at byte "),
        (
            &head(0, 2, [8, 2, 0, 0, 0]),
            "refused, number 2: height or width is not in 1..8192; it is 0x2, and has no pixel",
        ),
        (
            &head(9000, 2, [8, 2, 0, 0, 0]),
            "number 2: height or width is not in 1..8192; it is 9000x2: cut or shrink it",
        ),
        (&wide, "8192x8192 pixels are not in 46 compressed bytes"),
        (&b"\xFF\xD8\xFF\xE0".to_vec(), "is no PNG and no binary netpbm picture"),
    ] {
        folder.put("a.png", bytes);
        for command in ["patches", "encode", "encode --tiles"] {
            folder.fails(1, &format!("{command} a.png -o out {LIST}"), &["a.png: ", words]);
        }
        folder.fails(1, &format!("compare a.png a.png {LIST}"), &["a.png: ", words]);
    }
    for len in 0..whole.len() {
        folder.put("a.png", &whole[..len]);
        let words = if len > 0 { "is cut short: it ends after " } else { "is empty" };
        folder.fails(1, &format!("patches a.png -o out {LIST}"), &["a.png: ", words]);
    }
    assert!(folder.names("out").is_empty());
}

/// A log has the same bytes for pictures of the same sides, transparent or not.
#[test]
fn no_pixel_changes_the_log() {
    let folder = Folder::new("png-log");
    let mut samples = Random(5).bytes(6 * 10 * 4);
    samples.iter_mut().skip(3).step_by(4).for_each(|alpha| *alpha = 255);
    folder.put("solid.png", &png(6, 6, 10, &samples));
    samples[4 * 17 + 3] = 0;
    folder.put("clear.png", &png(6, 6, 10, &samples));
    for tiles in ["", "--tiles"] {
        folder.done(&format!("patches {tiles} solid.png -o out{tiles} --log solid{tiles}.log {LIST}"));
        let words = format!("patches {tiles} clear.png -o out{tiles} --log clear{tiles}.log {LIST}");
        folder.fails(1, &words, &["clear.png: is transparent, first at row 1, column 7 (from 0); "]);
        let log = folder.get(&format!("solid{tiles}.log"));
        assert!(String::from_utf8(log.clone()).unwrap().contains(" height=6 width=10 number=0 "));
        assert_eq!(folder.get(&format!("clear{tiles}.log")), log);
    }
}

const COUNT: usize = 1500;

/// Files changed at a few places, most of them with the chunks' sums made right again: each has its patches or a line
/// that names it, and none stops the others.
#[test]
fn changed_files_are_answered() {
    let folder = Folder::new("png-changed");
    let (mut random, mut words) = (Random(11), format!("patches -o out {LIST}"));
    for i in 0..COUNT {
        let mut file = COMPRESSED.to_vec();
        for _ in 0..random.from(1, 3) {
            let at = random.from(0, file.len() - 1);
            match random.from(0, 4) {
                0 => file[at] ^= 1 << random.from(0, 7),
                1 => file.truncate(at + 1),
                2 => file.insert(at, random.next() as u8),
                3 => drop(file.remove(at)),
                _ => file[at] = random.next() as u8,
            }
            if file.len() < 50 {
                break;
            }
        }
        if random.from(0, 5) > 0 {
            mend(&mut file);
        }
        folder.put(&format!("{i:04}.png"), &file);
        words += &format!(" {i:04}.png");
    }
    let output = folder.kz(&words);
    assert_eq!(output.status.code(), Some(1));
    let errors = String::from_utf8(output.stderr).unwrap();
    let written = folder.names("out");
    for i in 0..COUNT {
        let (file, line) = (format!("{i:04}.patches.npy"), format!("kz: {i:04}.png: "));
        let refused = errors.lines().filter(|l| l.starts_with(&line)).count();
        assert_eq!(refused, usize::from(!written.contains(&file)), "{i}: {errors}");
    }
    assert_eq!(errors.lines().count(), COUNT - written.len() + 1);
    assert!(written.len() > 10 && written.len() < COUNT / 2, "{}", written.len());
}
