//! The tool on damaged patches: the picture that is left, what is said of each bad sample, and the map.

mod common;

use common::tool::{npy, p6, plain, sweep, Folder, LIST, TINY};
use common::{alike, sample};
use kyzgultam::{pixtral_preprocess, PictureSettings};
use std::fs;
use std::process::Stdio;

/// Patches of a sweep of 8 × 12, 4 × 6 of 2 × 2, by their bits, and the sweep.
fn good(folder: &Folder) -> (Vec<u32>, Vec<u8>) {
    let rgb = sweep(folder, "a.ppm", 8, 12, 7);
    let mut patches = vec![0.0; rgb.len()];
    pixtral_preprocess(&rgb, 8, 12, &TINY, &mut patches).unwrap();
    (patches.iter().map(|x| x.to_bits()).collect(), rgb)
}

fn floats(bits: &[u32]) -> Vec<f32> {
    bits.iter().map(|bits| f32::from_bits(*bits)).collect()
}

/// Where a sample of patches of 2 × 2, six side by side, lies: patch row and column, channel, row and column.
fn place(i: usize) -> [usize; 5] {
    let (patch, within) = (i / 12, i % 12);
    let (row, column) = (patch / 6, patch % 6);
    [row, column, within / 4, 2 * row + within / 2 % 2, 2 * column + within % 2]
}

/// The line of a bad sample, blanks made one.
fn line(i: usize, bits: u32) -> String {
    let [grid_y, grid_x, c, y, x] = place(i);
    format!("{grid_y} {grid_x} {} {y} {x} {bits:#010x}", ["red", "green", "blue"][c])
}

/// Damages samples: what is left of the sweep, and the lines.
fn damage(bits: &mut [u32], rgb: &[u8], damaged: &[(usize, u32)]) -> (Vec<u8>, Vec<String>) {
    let (mut left, mut lines) = (rgb.to_vec(), vec![]);
    for (i, found) in damaged {
        let [_, _, c, y, x] = place(*i);
        bits[*i] = *found;
        left[(y * 12 + x) * 3 + c] = 0;
        lines.push(line(*i, *found));
    }
    (left, lines)
}

/// The lines behind the head of the table, blanks made one.
fn table(said: &str) -> Vec<String> {
    let head = "patch row  column  channel  pixel row  column  found bits";
    let rows = said.lines().skip_while(|line| *line != head).skip(1);
    rows.map(|row| row.split_whitespace().collect::<Vec<_>>().join(" ")).collect()
}

/// NaNs, quiet and signalling, of both signs and of many payloads, and others that no byte has.
const DAMAGE: [(usize, u32); 12] = [
    (0, 0x7F80_0001),
    (1, 0xFF80_0001),
    (14, 0x7FC0_0000),
    (15, 0xFFC0_0000),
    (40, 0x7FBF_FFFF),
    (77, 0xFFBF_FFFF),
    (78, 0x7FFF_FFFF),
    (79, 0xFFFF_FFFF),
    (150, 0x7F80_0000),
    (200, 0xFF80_0000),
    (240, 0x8000_0000),
    (287, 0x0000_0001),
];

#[test]
fn what_is_left_and_what_is_not() {
    let folder = Folder::new("salvage");
    let (mut bits, rgb) = good(&folder);
    let (left, lines) = damage(&mut bits, &rgb, &DAMAGE);
    folder.put("bad.npy", &npy([4, 6, 12], &floats(&bits)));
    folder.put("bad", &plain(&floats(&bits)));
    // What is in the files is what was put there.
    for (i, found) in DAMAGE {
        assert_eq!(folder.get("bad")[4 * i..4 * i + 4], found.to_le_bytes());
    }
    folder.fails(
        1,
        &format!("restore bad.npy -o no.ppm {LIST}"),
        &["number 8", "`kz salvage` brings back what is not"],
    );
    let sum = "8x12, 12 of 288 samples are bad, in 8 of 24 patches; byte 0 is in their place";
    for (i, words) in ["bad.npy", "bad.npy --grid 4x6", "bad --grid 4x6"].iter().enumerate() {
        let said = folder.done(&format!("salvage {words} -o {i}.ppm {LIST}"));
        assert!(said.starts_with(&format!("{i}.ppm: {sum}\npatch row ")), "{said}");
        assert_eq!(table(&said), lines);
        assert_eq!(folder.get(&format!("{i}.ppm")), p6(8, 12, &left));
    }
    // From a pipe, which has no length of its own.
    let output = folder.shell("cat bad.npy | \"$@\"", &format!("salvage /dev/stdin -o pipe.ppm {LIST}")).output();
    let output = output.unwrap();
    assert_eq!(output.status.code(), Some(0), "{}", String::from_utf8_lossy(&output.stderr));
    assert_eq!(folder.get("pipe.ppm"), p6(8, 12, &left));
    // The rule may be any, as for restore.
    for rule in [1, 2] {
        folder.done(&format!("salvage bad.npy -o rule.ppm --force {LIST},rule={rule}"));
        assert_eq!(folder.get("rule.ppm"), p6(8, 12, &left));
    }
}

#[test]
fn of_good_patches_it_is_restore() {
    let folder = Folder::new("salvage-good");
    let (bits, rgb) = good(&folder);
    folder.put("good.npy", &npy([4, 6, 12], &floats(&bits)));
    let said = folder.done(&format!("salvage good.npy -o saved.ppm --map map.ppm {LIST}"));
    let sum = "saved.ppm: 8x12, 0 of 288 samples are bad: it is what `kz restore` writes\n";
    assert_eq!(said, format!("{sum}map.ppm: 672x1008, nothing is marked\n"));
    folder.done(&format!("restore good.npy -o restored.ppm {LIST}"));
    assert_eq!(folder.get("saved.ppm"), folder.get("restored.ppm"));
    assert_eq!(folder.get("saved.ppm"), p6(8, 12, &rgb));
    // By other means and deviations too, falling ones and one of which a byte is found by halving.
    for (mean, deviation) in [(0.2, 0.25), (0.2, -0.25), (0.2, 1e38)] {
        let settings = alike(mean, deviation, TINY);
        let mut patches = vec![0.0; rgb.len()];
        pixtral_preprocess(&rgb, 8, 12, &settings, &mut patches).unwrap();
        patches[100] = f32::from_bits(0xFFC1_2345);
        folder.put("own.npy", &npy([4, 6, 12], &patches));
        let list = format!("{LIST},mean={mean:?},deviation={deviation:?}");
        let said = folder.done(&format!("salvage own.npy -o own.ppm --force {list}"));
        assert_eq!(table(&said), [line(100, 0xFFC1_2345)]);
    }
    // With others than its own most samples are bad, and a line says what that may be.
    let said = folder.done(&format!("salvage good.npy -o other.ppm {LIST},mean=0.2"));
    let part = "\nmore than half are bad: the file may have been cut with another mean= or deviation= than";
    assert!(said.contains(part), "{said}");
    assert!(!folder
        .done(&format!("salvage own.npy -o x.ppm {LIST},mean=0.2,deviation=1e38"))
        .contains("more than half"));
}

#[test]
fn a_hundred_lines_or_all() {
    let folder = Folder::new("salvage-all");
    let (good, _) = good(&folder);
    for (bad, said_of) in [(99, 99), (100, 100), (101, 100), (144, 100), (288, 100)] {
        let mut bits = good.clone();
        let right: Vec<String> = (0..bad).map(|i| line(288 - bad + i, 0x7F80_0001 + i as u32)).collect();
        (0..bad).for_each(|i| bits[288 - bad + i] = 0x7F80_0001 + i as u32);
        folder.put("bad.npy", &npy([4, 6, 12], &floats(&bits)));
        let said = folder.done(&format!("salvage bad.npy -o a.ppm --force {LIST}"));
        let mut lines = table(&said);
        if bad > 100 {
            assert_eq!(lines.pop().unwrap(), format!("and {} more; --all says every one", bad - 100));
        }
        assert_eq!(lines, right[..said_of]);
        let said = folder.done(&format!("salvage bad.npy -o a.ppm --force --all {LIST}"));
        assert_eq!(table(&said), right);
        assert_eq!(said.contains("\nmore than half are bad: "), bad > 144, "{said}");
    }
}

/// More bad samples than the first list has entries: the list grows.
#[test]
fn many_bad_samples() {
    let folder = Folder::new("salvage-many");
    let settings = "--settings patch=4,merge=1,image=128";
    let patches: Vec<f32> = (0..128 * 128 * 3).map(|i| f32::from_bits(0xFF80_0001 + i)).collect();
    let mut some = vec![sample(9, TINY.mean[0], TINY.deviation[0]); patches.len()];
    for (i, x) in some.iter_mut().enumerate() {
        *x = sample(9, TINY.mean[i / 16 % 3], TINY.deviation[i / 16 % 3]);
    }
    for bad in [4096, 4097, 32_768, 32_769, patches.len()] {
        some[..bad].copy_from_slice(&patches[..bad]);
        folder.put("bad.npy", &npy([32, 32, 48], &some));
        let said = folder.done(&format!("salvage bad.npy -o a.ppm --force --all {settings}"));
        assert!(said.starts_with(&format!("a.ppm: 128x128, {bad} of 49152 samples are bad, in ")), "{said}");
        let lines = table(&said);
        assert_eq!(lines.len(), bad);
        for (i, line) in lines.iter().enumerate() {
            assert!(line.ends_with(&format!(" {:#010x}", 0xFF80_0001 + i as u32)), "{line}");
        }
        let picture = folder.get("a.ppm");
        assert_eq!(picture.iter().rev().take(128 * 128 * 3).filter(|byte| **byte == 0).count(), bad);
    }
}

/// The pixels of a PPM, and its sides.
fn pixels(file: &[u8]) -> (usize, usize, Vec<[u8; 3]>) {
    let head = file.split(|b| *b == b'\n').take(3).map(|line| std::str::from_utf8(line).unwrap());
    let head: Vec<&str> = head.collect();
    let (width, height) = head[1].split_once(' ').unwrap();
    let (height, width): (usize, usize) = (height.parse().unwrap(), width.parse().unwrap());
    let rgb = &file[file.len() - height * width * 3..];
    (height, width, rgb.chunks_exact(3).map(|pixel| pixel.try_into().unwrap()).collect())
}

#[test]
fn the_map_shows_where() {
    let folder = Folder::new("salvage-map");
    let (mut bits, rgb) = good(&folder);
    let (left, _) = damage(&mut bits, &rgb, &DAMAGE);
    folder.put("bad.npy", &npy([4, 6, 12], &floats(&bits)));
    let said = folder.done(&format!("salvage bad.npy -o saved.ppm --map map.ppm {LIST}"));
    assert!(said.contains("\nmap.ppm: 672x1008, bad pixels are magenta, and their patches framed\n"), "{said}");
    assert_eq!(folder.get("saved.ppm"), p6(8, 12, &left));
    // Each pixel is 84 × 84. In its middle it is magenta, or as it is in a framed patch, or darker in another.
    let (height, width, map) = pixels(&folder.get("map.ppm"));
    assert_eq!((height, width), (8 * 84, 12 * 84));
    let framed: Vec<usize> = DAMAGE.iter().map(|(i, _)| i / 12).collect();
    let bad: Vec<[usize; 2]> = DAMAGE.iter().map(|(i, _)| place(*i)).map(|[.., y, x]| [y, x]).collect();
    let dimmed = |pixel: [u8; 3]| pixel.map(|byte| (usize::from(byte) * 5 / 9) as u8);
    for (y, x) in (0..8).flat_map(|y| (0..12).map(move |x| (y, x))) {
        let own: [u8; 3] = left[(y * 12 + x) * 3..][..3].try_into().unwrap();
        let middle = map[(84 * y + 42) * width + 84 * x + 42];
        let patch = y / 2 * 6 + x / 2;
        let corner = map[84 * (y - y % 2) * width + 84 * (x - x % 2)];
        if bad.contains(&[y, x]) {
            assert_eq!(middle, [255, 0, 255], "{y} {x}");
        } else if framed.contains(&patch) {
            assert_eq!(middle, own, "{y} {x}");
            let marked = bad.contains(&[y - y % 2, x - x % 2]);
            assert_eq!(corner, if marked { [255, 0, 255] } else { [249, 188, 40] }, "{y} {x}");
        } else {
            assert_eq!(middle, dimmed(own), "{y} {x}");
        }
    }
    // As a PNG it has the same sides.
    folder.done(&format!("salvage bad.npy -o saved.ppm --map map.png --force {LIST}"));
    let png = folder.get("map.png");
    assert_eq!(png[..8], *b"\x89PNG\r\n\x1a\n");
    assert_eq!(png[16..26], [&1008u32.to_be_bytes()[..], &672u32.to_be_bytes(), &[8, 2]].concat());
}

/// A picture of a thousand pixels is as large on its map, where a bad pixel is marked by 5 × 5, and less at the edge.
#[test]
fn a_large_picture_is_not_enlarged() {
    let folder = Folder::new("salvage-large");
    let settings = PictureSettings::new(8, 1, 1000);
    let of = |i: usize| sample(90, settings.mean[i / 64 % 3], settings.deviation[i / 64 % 3]);
    let mut patches: Vec<f32> = (0..8 * 1000 * 3).map(of).collect();
    // Red of row 0, column 0; blue of row 4, column 500, in patch 62.
    (patches[0], patches[62 * 192 + 128 + 4 * 8 + 4]) = (f32::NAN, f32::INFINITY);
    folder.put("bad.npy", &npy([1, 125, 192], &patches));
    folder.done("salvage bad.npy -o a.ppm --map map.ppm --settings patch=8,merge=1,image=1000");
    let (height, width, map) = pixels(&folder.get("map.ppm"));
    assert_eq!((height, width), (8, 1000));
    let magenta: Vec<(usize, usize)> =
        (0..8000).filter(|k| map[*k] == [255, 0, 255]).map(|k| (k / 1000, k % 1000)).collect();
    let square = |y: std::ops::Range<usize>, x: std::ops::Range<usize>| {
        y.flat_map(move |y| x.clone().map(move |x| (y, x))).collect::<Vec<_>>()
    };
    let mut right = [square(0..3, 0..3), square(2..7, 498..503)].concat();
    right.sort();
    assert_eq!(magenta, right);
    assert_eq!(map[7 * 1000 + 496 + 7], [249, 188, 40]);
    assert_eq!(map[7 * 1000 + 504], [50; 3]);
}

#[test]
fn nothing_is_overwritten() {
    let folder = Folder::new("salvage-force");
    let (mut bits, rgb) = good(&folder);
    let (left, _) = damage(&mut bits, &rgb, &DAMAGE);
    folder.put("bad.npy", &npy([4, 6, 12], &floats(&bits)));
    let before = folder.get("bad.npy");
    let words = format!("salvage bad.npy -o out.ppm --map map.ppm {LIST}");
    // Where one of the two is there, neither is written.
    for (there, other) in [("out.ppm", "map.ppm"), ("map.ppm", "out.ppm")] {
        folder.put(there, b"precious");
        folder.fails(1, &words, &[&format!("{there}: is there already and was left as it is; --force writes over it")]);
        assert_eq!(folder.get(there), b"precious");
        assert!(!folder.path(other).exists());
        folder.done(&format!("{words} --force"));
        assert_eq!(folder.get("out.ppm"), p6(8, 12, &left));
        assert!(folder.get("map.ppm").starts_with(b"P6\n1008 672\n"));
        fs::remove_file(folder.path("out.ppm")).unwrap();
        fs::remove_file(folder.path("map.ppm")).unwrap();
    }
    // A folder in the way stays, forced or not; again neither is written.
    fs::create_dir(folder.path("taken")).unwrap();
    for force in ["", "--force"] {
        folder.fails(1, &format!("salvage bad.npy -o taken --map m.ppm {LIST} {force}"), &["taken: is a folder"]);
        folder.fails(1, &format!("salvage bad.npy -o o.ppm --map taken {LIST} {force}"), &["taken: is a folder"]);
    }
    // Two names of one file, and the file that is read, by any name.
    std::os::unix::fs::symlink("bad.npy", folder.path("link.npy")).unwrap();
    for (outputs, part) in [
        ("-o x.ppm --map x.ppm", "-o and --map are both x.ppm"),
        ("-o x.ppm --map ./x.ppm", "-o and --map are both x.ppm"),
        ("-o taken/../x.ppm --map x.ppm", "-o and --map are both taken/../x.ppm"),
        ("-o no/x.ppm --map no/x.ppm", "-o and --map are both no/x.ppm"),
        ("-o bad.npy", "-o bad.npy is the file that is read"),
        ("-o ./bad.npy", "-o ./bad.npy is the file that is read"),
        ("-o x.ppm --map taken/../bad.npy", "--map taken/../bad.npy is the file that is read"),
    ] {
        for file in ["bad.npy", "link.npy"] {
            folder.fails(2, &format!("salvage {file} {outputs} {LIST} --force"), &[part, "give"]);
        }
    }
    assert_eq!(folder.get("bad.npy"), before);
    assert_eq!(folder.names("."), ["a.ppm", "bad.npy", "link.npy", "taken"]);
    // A map that cannot be written: the picture is there, and what is bad is said.
    let output = folder.kz(&format!("salvage bad.npy -o out.ppm --map no/such/map.png {LIST}"));
    assert_eq!(output.status.code(), Some(1));
    let errors = String::from_utf8(output.stderr).unwrap();
    assert!(errors.starts_with("kz: no/such/map.png: cannot be written: ") && errors.lines().count() == 1, "{errors}");
    let said = String::from_utf8(output.stdout).unwrap();
    assert!(said.starts_with("out.ppm: 8x12, 12 of 288") && table(&said).len() == 12, "{said}");
    assert_eq!(folder.get("out.ppm"), p6(8, 12, &left));
    // A picture that cannot be written: no map either.
    folder.fails(1, &format!("salvage bad.npy -o no/out.ppm --map map.ppm {LIST}"), &["no/out.ppm: cannot be written"]);
    assert!(!folder.path("map.ppm").exists());
}

#[test]
fn refused() {
    let folder = Folder::new("salvage-refused");
    let (mut bits, rgb) = good(&folder);
    damage(&mut bits, &rgb, &DAMAGE);
    let whole = npy([4, 6, 12], &floats(&bits));
    folder.put("bad.npy", &whole);
    folder.put("bad", &plain(&floats(&bits)));
    folder.put("cut.npy", &whole[..whole.len() - 4]);
    folder.put("torn", &folder.get("bad")[1..]);
    folder.put("shape.npy", &npy([6, 4, 11], &floats(&bits[..264])));
    for (words, parts) in [
        ("bad.npy --settings patch=33", &["--settings: refused, number 1: "][..]),
        (&format!("bad.npy {LIST},rule=0"), &["--settings: refused, number 1: "]),
        (&format!("bad.npy {LIST},mean=nan"), &["--settings: refused, number 19: "]),
        (&format!("bad --grid 3x8 {LIST}"), &["bad: refused, number 6: ", "3x8"]),
        (&format!("bad --grid 4x10 {LIST}"), &["bad: refused, number 6: "]),
        (&format!("bad --grid 4x4 {LIST}"), &["bad: refused, number 7: ", "4x4", "--grid"]),
        (&format!("torn --grid 4x6 {LIST}"), &["torn: refused, number 7: "]),
        (&format!("shape.npy {LIST}"), &["shape.npy: refused, number 7: ", "6x4 patches of 11 floats"]),
        (&format!("bad.npy --grid 6x4 {LIST}"), &["bad.npy: has a grid of 4x6, and --grid says 6x4"]),
        (&format!("cut.npy {LIST}"), &["cut.npy: is damaged: its shape 4x6x12"]),
        (&format!("a.ppm --grid 4x6 {LIST}"), &["a.ppm: refused, number 7: "]),
        (&format!("none.npy {LIST}"), &["none.npy: cannot be read"]),
    ] {
        folder.fails(1, &format!("salvage {words} -o out.ppm --map out.png"), parts);
    }
    assert_eq!(folder.names("."), ["a.ppm", "bad", "bad.npy", "cut.npy", "shape.npy", "torn"]);
}

/// A tile by itself is salvaged as a picture with its padding.
#[test]
fn a_tile_is_salvaged_by_itself() {
    let folder = Folder::new("salvage-tile");
    let rgb = sweep(&folder, "a.ppm", 20, 37, 5);
    folder.done(&format!("patches --tiles a.ppm -o out {LIST}"));
    let name = "out/a.20x37.r01c02.patches.npy";
    let mut bytes = folder.get(name);
    let first = bytes.len() - 4 * 4 * 8 * 3;
    bytes[first..first + 4].copy_from_slice(&0xFFC0_0001u32.to_le_bytes());
    folder.put(name, &bytes);
    let names: Vec<String> = folder.names("out").iter().map(|name| format!("out/{name}")).collect();
    let words = format!("restore --tiles {} -o no.ppm {LIST}", names.join(" "));
    folder.fails(1, &words, &[name, "number 8", "`kz salvage`"]);
    let said = folder.done(&format!("salvage {name} -o tile.ppm {LIST}"));
    assert_eq!(table(&said), ["0 0 red 0 0 0xffc00001"]);
    let (height, width, tile) = pixels(&folder.get("tile.ppm"));
    assert_eq!((height, width), (4, 8));
    let from = (16 * 37 + 32) * 3;
    assert_eq!(tile[0], [0, rgb[from + 1], rgb[from + 2]]);
    assert_eq!(tile[1], rgb[from + 3..from + 6]);
    assert_eq!(tile[31], [0; 3]);
}

/// What cannot be said is no success, though the picture is there.
#[test]
fn nobody_is_told() {
    let folder = Folder::new("salvage-full");
    let (mut bits, rgb) = good(&folder);
    let (left, _) = damage(&mut bits, &rgb, &DAMAGE);
    folder.put("bad.npy", &npy([4, 6, 12], &floats(&bits)));
    let full = fs::File::options().write(true).open("/dev/full").unwrap();
    let words = format!("salvage bad.npy -o saved.ppm --map map.ppm {LIST}");
    let output = folder.command(&words).stdout(Stdio::from(full)).output().unwrap();
    assert_eq!(output.status.code(), Some(1));
    let errors = String::from_utf8(output.stderr).unwrap();
    assert!(errors.starts_with("kz: standard output cannot be written: "), "{errors}");
    assert_eq!(folder.get("saved.ppm"), p6(8, 12, &left));
    assert!(folder.path("map.ppm").exists());
}

#[test]
fn memory_is_asked_for_first() {
    // An emulator needs more.
    if std::env::var_os("KZ_EMULATOR").is_some() {
        return;
    }
    let folder = Folder::new("salvage-memory");
    // Zeros are no byte's samples: all of them are bad, and a list of them takes three times the memory of the patches.
    let samples = 1024 * 1024 * 3;
    folder.put("bad", &[]);
    fs::File::options().write(true).open(folder.path("bad")).unwrap().set_len(4 * samples).unwrap();
    let words = "salvage bad --grid 1024x1024 -o a.ppm --settings patch=1,merge=1,image=1024";
    let output = folder.shell("ulimit -v 50000; exec \"$@\"", words).output().unwrap();
    let said = String::from_utf8(output.stderr).unwrap();
    assert_eq!(output.status.code(), Some(1), "{said}");
    assert!(said.starts_with("kz: bad: there is no memory for a list of "), "{said}");
    assert_eq!(folder.names("."), ["bad"]);
}
