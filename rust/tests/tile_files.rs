//! The tool on sweeps larger than the image size: a file for each tile, and the sweep from all of them.

mod common;

use common::tool::{list_with, npy, p6, plain, sweep, Folder, LIST, TABLE, TINY, WEIGHTS};
use common::Random;
use kyzgultam::{cut, forward, preprocess_tile, EncoderSettings, PictureSettings, Tile};
use std::ffi::OsStr;
use std::fs;
use std::os::unix::ffi::OsStrExt;
use std::os::unix::fs::MetadataExt;
use std::process::Stdio;
use std::slice::from_ref;

/// The tiles of a sweep: label, report and patches of each.
fn tiles(rgb: &[u8], height: usize, width: usize, settings: &PictureSettings) -> Vec<(String, Tile, Vec<f32>)> {
    let cut = cut(height, width, settings).unwrap();
    let tile = |index: usize| {
        let mut patches = vec![0.0; settings.tile_len(height, width, index).unwrap()];
        let tile = preprocess_tile(rgb, height, width, index, settings, &mut patches).unwrap();
        (format!("r{:02}c{:02}", index / cut.columns, index % cut.columns), tile, patches)
    };
    (0..cut.rows * cut.columns).map(tile).collect()
}

#[test]
fn tiles_and_back() {
    let folder = Folder::new("tiles");
    for (height, width, name, count) in
        [(16, 16, "whole", 1), (17, 50, "wide", 8), (33, 5, "tall", 3), (1, 1, "dot", 1)]
    {
        let rgb = sweep(&folder, &format!("{name}.ppm"), height, width, 7);
        let mut right = String::new();
        let mut files = vec![];
        for (label, tile, patches) in tiles(&rgb, height, width, &TINY) {
            let file = format!("out/{name}.{height}x{width}.{label}.patches.npy");
            let Tile { grid_h, grid_w, top, left, height, width, .. } = tile;
            let own = format!("{height}x{width} pixels from row {top}, column {left}");
            right.push_str(&format!("{file}: {grid_h}x{grid_w} patches of 12 floats; {own}\n"));
            files.push((file, npy([grid_h, grid_w, 12], &patches)));
        }
        assert_eq!(files.len(), count);
        // The rule says nothing here.
        for (rule, force) in [("", ""), (",rule=1", "--force"), (",rule=2", "--force")] {
            assert_eq!(folder.done(&format!("patches --tiles {name}.ppm -o out {force} {LIST}{rule}")), right);
            for (file, bytes) in &files {
                assert_eq!(folder.get(file), *bytes, "{file}");
            }
        }
        // In their order, backwards, and from two folders.
        let mut names: Vec<String> = files.into_iter().map(|(file, _)| file).collect();
        for round in 0..3 {
            let words = format!("restore --tiles {} -o {name}{round}.ppm {LIST}", names.join(" "));
            let said = folder.done(&words);
            let cut = cut(height, width, &TINY).unwrap();
            let from = format!("joined from {}x{} tiles", cut.rows, cut.columns);
            assert_eq!(said, format!("{name}{round}.ppm: {height}x{width}, {from}\n"));
            assert_eq!(folder.get(&format!("{name}{round}.ppm")), p6(height, width, &rgb));
            names.reverse();
            if round == 1 {
                fs::create_dir_all(folder.path("other")).unwrap();
                let moved = names[0].replace("out/", "other/");
                fs::rename(folder.path(&names[0]), folder.path(&moved)).unwrap();
                names[0] = moved;
            }
        }
    }
}

/// Rows and columns have as many digits as they need, so that the names sort.
#[test]
fn names_sort() {
    let folder = Folder::new("sort");
    let rgb = sweep(&folder, "a.ppm", 2, 101, 3);
    folder.done("patches --tiles a.ppm -o out --settings patch=1,merge=1,image=1");
    let names = folder.names("out");
    assert_eq!(names.len(), 202);
    assert_eq!((&names[0][..], &names[201][..]), ("a.2x101.r000c000.patches.npy", "a.2x101.r001c100.patches.npy"));
    let files: Vec<String> = names.iter().map(|name| format!("out/{name}")).collect();
    folder.done(&format!("restore --tiles {} -o back.ppm --settings patch=1,merge=1,image=1", files.join(" ")));
    assert_eq!(folder.get("back.ppm"), p6(2, 101, &rgb));
    for (i, name) in names.iter().enumerate() {
        assert_eq!(*name, format!("a.2x101.r{:03}c{:03}.patches.npy", i / 101, i % 101));
    }
}

#[test]
fn a_sweep_may_have_any_name() {
    let folder = Folder::new("any");
    for (name, seed) in [(&b"a.30x20.r00c00"[..], 1), (b"x\xff\n.1", 2), (b"-r", 3)] {
        let rgb = sweep(&folder, "plain.ppm", 20, 18, seed);
        let file = folder.path(".").join(OsStr::from_bytes(&[name, b".ppm"].concat()));
        fs::rename(folder.path("plain.ppm"), &file).unwrap();
        let out = format!("out{seed}");
        let words = format!("patches --tiles -o {out} {LIST} --");
        let output = folder.command(&words).arg(file.file_name().unwrap()).output().unwrap();
        assert_eq!(output.status.code(), Some(0), "{}", String::from_utf8_lossy(&output.stderr));
        assert_eq!(String::from_utf8(output.stdout).unwrap().lines().count(), 4);
        let entries: Vec<_> = fs::read_dir(folder.path(&out)).unwrap().map(|entry| entry.unwrap().path()).collect();
        let output = folder.command(&format!("restore --tiles -o back{seed}.ppm {LIST} --")).args(&entries).output();
        assert_eq!(output.unwrap().status.code(), Some(0));
        assert_eq!(folder.get(&format!("back{seed}.ppm")), p6(20, 18, &rgb));
    }
}

#[test]
fn tokens_are_those_of_each_tile() {
    let folder = Folder::new("tokens");
    let rgb = sweep(&folder, "a.ppm", 20, 37, 5);
    let mut random = Random(6);
    let (weights, tables) = (random.floats(WEIGHTS, 0.3), random.floats(2 * TABLE, 1.0));
    folder.put("w", &plain(&weights));
    folder.put("t", &plain(&tables));
    let said = folder.done(&format!("encode --tiles a.ppm -o out --weights w --tables t {LIST}"));
    let settings = EncoderSettings {
        picture: TINY,
        hidden_size: 8,
        num_heads: 2,
        head_dim: 4,
        num_layers: 1,
        intermediate_size: 5,
        text_hidden_size: 3,
        projector_bias: false,
        scaling: 0.5,
    };
    let (cos, sin) = tables.split_at(TABLE);
    let all = tiles(&rgb, 20, 37, &TINY);
    assert_eq!(said.lines().count(), all.len());
    for ((label, tile, patches), line) in all.iter().zip(said.lines()) {
        let (h, w) = (tile.grid_h, tile.grid_w);
        let mut scratch = vec![0.0; settings.scratch_len(h, w).unwrap()];
        let mut out = vec![0.0; settings.tokens_len(h, w).unwrap()];
        forward(&settings, patches, h, w, &weights, cos, sin, &mut scratch, &mut out).unwrap();
        let file = format!("out/a.20x37.{label}.tokens.npy");
        assert_eq!(folder.get(&file), npy([h / 2, w / 2, 3], &out), "{file}");
        assert!(line.starts_with(&format!("{file}: {}x{} tokens of 3 floats; ", h / 2, w / 2)), "{line}");
    }
    assert_eq!(folder.names("out").len(), all.len());

    // A refusal names the sweep, the tile and what to do; what was written before stays whole.
    let mut nan = plain(&weights);
    nan[4 * 7..4 * 8].copy_from_slice(&f32::NAN.to_le_bytes());
    folder.put("nan.w", &nan);
    let words = format!("encode --tiles a.ppm -o new --weights nan.w {LIST}");
    folder.fails(1, &words, &["a.ppm: tile r00c00: refused, number 12: ", "float 7 of nan.w"]);
    assert!(folder.names("new").is_empty());
    folder.fails(1, "patches --tiles a.ppm -o new --settings image=27", &["a.ppm: refused, number 4: ", "image="]);
    folder.fails(1, "encode --tiles a.ppm -o new --settings image=27", &["a.ppm: refused, number 4: ", "image="]);
    folder.fails(1, "patches --tiles a.ppm -o new --settings rule=3", &["--settings: refused, number 1: "]);
    folder.fails(1, "patches --tiles a.ppm -o new --settings mean=nan", &["--settings: refused, number 19: "]);
    folder.put("wide.ppm", b"P6 8193 1 255 ");
    folder.fails(1, "patches --tiles wide.ppm -o new", &["wide.ppm: refused, number 2: ", "1x8193"]);
}

#[test]
fn usage() {
    let folder = Folder::new("tile-usage");
    sweep(&folder, "a.ppm", 8, 8, 1);
    for (words, part) in [
        ("patches --tiles -o out", "no SWEEP.ppm"),
        ("patches --tiles a.ppm", "-o DIR is missing"),
        ("patches --tiles=yes a.ppm -o out", "no option --tiles=yes"),
        ("patches --tiles a.ppm ./a.ppm -o out", "same file"),
        ("compare --tiles a.ppm a.ppm", "no option --tiles"),
        ("demo --tiles", "no option --tiles"),
        ("bench --tiles", "no option --tiles"),
        ("restore --tiles -o out.ppm", "no SWEEP.HxW.rRcC.patches.npy is given"),
        ("restore --tiles a.8x8.r00c00.patches.npy", "-o OUT.ppm is missing"),
        ("restore --tiles a.8x8.r00c00.patches.npy -o out.ppm --grid 4x4", "--grid is for plain floats"),
        ("restore a.8x8.r00c00.patches.npy a.8x8.r00c01.patches.npy -o out.ppm", "or --tiles and all tiles of a sweep"),
    ] {
        folder.fails(2, words, &[part, "`kz --help`"]);
    }
    assert_eq!(folder.names("."), ["a.ppm"]);
    for words in ["--help", "patches --help", "encode --help", "restore --help"] {
        assert!(folder.done(words).contains("--tiles"), "{words}");
    }
}

/// A sweep of 20 × 37, whose six tiles are in `out`.
fn six(folder: &Folder) -> (Vec<u8>, Vec<String>) {
    let rgb = sweep(folder, "a.ppm", 20, 37, 5);
    folder.done(&format!("patches --tiles a.ppm -o out {LIST}"));
    let names: Vec<String> = folder.names("out").iter().map(|name| format!("out/{name}")).collect();
    assert_eq!(names.len(), 6);
    (rgb, names)
}

#[test]
fn a_sweep_is_joined_from_all_of_its_tiles() {
    let folder = Folder::new("join");
    let (_, names) = six(&folder);
    let fails = |files: &[String], list: &str, parts: &[&str]| {
        let words = format!("restore --tiles {} -o back.ppm {}", files.join(" "), list_with(list));
        folder.fails(1, &words, parts);
        assert!(!folder.path("back.ppm").exists());
    };
    let into = "these --settings cut 20x37 into 2x3 tiles";
    // One missing, each; and more of them.
    for (i, label) in ["r00c00", "r00c01", "r00c02", "r01c00", "r01c01", "r01c02"].iter().enumerate() {
        let mut some = names.clone();
        some.remove(i);
        fails(&some, "", &[&format!("a: tile {label} is missing: {into}; give all of them")]);
    }
    fails(&names[2..4], "", &[&format!("a: tile r00c00 is missing, and 3 more: {into}")]);
    // One given twice: by one name, and from another folder.
    let twice = [&names[..], &names[4..5]].concat();
    let both = |a: &str, b: &str| format!("{a} and {b} are both tile r01c01 of the sweep; give one of them");
    fails(&twice, "", &[&both(&names[4], &names[4])]);
    fs::create_dir(folder.path("copy")).unwrap();
    let copy = names[4].replace("out/", "copy/");
    fs::copy(folder.path(&names[4]), folder.path(&copy)).unwrap();
    fails(&[&names[..], from_ref(&copy)].concat(), "", &[&both(&names[4], &copy)]);
    // Twice and another missing: what is given is named first.
    fails(&[&names[1..], &[copy]].concat(), "", &["are both tile r01c01"]);
    // Of another sweep: by its name, and by its sides.
    for other in ["b.20x37.r00c00", "a.20x38.r00c00", "a.37x20.r00c00"] {
        let other = format!("out/{other}.patches.npy");
        let files = [&names[1..], from_ref(&other)].concat();
        let parts = [&format!("{other}: is no tile of a of 20x37")[..], &names[1], "the tiles of one sweep"];
        fails(&files, "", &parts);
    }
    // A name that is none of a tile's patches.
    for other in
        ["out/a.patches.npy", "a.20x37.r00c00.tokens.npy", "a.20x37.r00c00.npy", "a.ppm", "a.20x37.c00r00.patches.npy"]
    {
        let files = [&names[..], &[other.to_string()]].concat();
        fails(&files, "", &[&format!("{other}: has no name of a tile's patches"), "`kz patches --tiles`"]);
    }
    // By other settings the sweep is cut in another way.
    let number =
        "refused, number 20: the tile's index is outside the cut of the sweep; these --settings cut 20x37 into";
    fails(&names, ",image=20", &[&names[2], &format!("{number} 1x2 tiles: give the --settings")]);
    fails(&names, ",image=15", &["a: tile r00c03 is missing, and 1 more: these --settings cut 20x37 into 2x4 tiles"]);
    let own = "tile r00c00 of a sweep of 20x37 has 16x16 patches of 3 floats by these --settings";
    fails(&names, ",patch=1", &[&format!("{}: it has 8x8 patches of 12 floats: {own}", names[0])]);
    fails(&names, ",image=3", &["number 4", "image="]);
    fails(&names, ",rule=0", &["--settings: refused, number 1"]);
    fails(&names, ",mean=nan", &["--settings: refused, number 19"]);
    fails(&names, ",mean=0.2", &[&names[0], "number 8", "another mean= or deviation="]);
    // Sides that no sweep has.
    for sides in ["0x37", "20x8193", "18446744073709551615x1"] {
        let file = format!("a.{sides}.r00c00.patches.npy");
        fails(from_ref(&file), "", &[&format!("{file}: refused, number 2: "), &format!("a sweep of {sides}")]);
    }
    fails(&["a.20x37.r18446744073709551615c0.patches.npy".into()], "", &["number 20"]);
    fails(&["a.20x37.r0c18446744073709551615.patches.npy".into()], "", &["number 20"]);
    // A file that is not there.
    fs::rename(folder.path(&names[5]), folder.path("away")).unwrap();
    fails(&names, "", &[&format!("{}: cannot be read", names[5])]);
    fs::rename(folder.path("away"), folder.path(&names[5])).unwrap();
    folder.done(&format!("restore --tiles {} -o back.ppm {LIST}", names.join(" ")));
    assert_eq!(folder.get("back.ppm"), folder.get("a.ppm"));
}

#[test]
fn damaged_tiles() {
    let folder = Folder::new("damage");
    let (rgb, names) = six(&folder);
    let last = &names[5];
    let whole = folder.get(last);
    let words = format!("restore --tiles {} -o back.ppm {LIST}", names.join(" "));
    let fails = |bytes: &[u8], parts: &[&str]| {
        folder.put(last, bytes);
        folder.fails(1, &words, parts);
        assert!(!folder.path("back.ppm").exists());
    };
    // The last tile has 4 × 5 pixels, padded to 4 × 8: its last sample is the padding's, its first is not.
    let floats = whole.len() - 4 * 4 * 8 * 3;
    let one = common::sample(1, TINY.mean[2], TINY.deviation[2]).to_le_bytes();
    let mut padding = whole.clone();
    let end = padding.len() - 4;
    padding[end..].copy_from_slice(&one);
    fails(&padding, &[last, "number 8", "or is not tile r01c02 of its sweep"]);
    let mut sample = whole.clone();
    sample[floats + 1] ^= 1;
    fails(&sample, &[last, "number 8", "damaged"]);
    fails(&whole[..whole.len() - 4], &[last, "is damaged: its shape 2x4x12"]);
    fails(&[&whole[..], b"1234"].concat(), &[last, "is damaged"]);
    fails(&whole[..20], &[last, "ends inside its .npy header"]);
    fails(b"", &[last, "is no .npy file"]);
    // Another tile under this name.
    fails(&folder.get(&names[0]), &[last, "refused, number 7: ", "it has 8x8 patches of 12 floats: tile r01c02"]);
    fails(&folder.get(&names[3]), &[last, "refused, number 7: ", "it has 2x8 patches of 12 floats: tile r01c02"]);
    let turned = npy([4, 2, 12], &[0.0; 96]);
    fails(&turned, &[last, "it has 4x2 patches of 12 floats: tile r01c02 of a sweep of 20x37 has 2x4 patches of 12"]);
    // One that is there stays, unless forced; and is then whole.
    folder.put(last, &whole);
    folder.put("back.ppm", b"precious");
    folder.fails(1, &words, &["back.ppm: is there already", "--force"]);
    assert_eq!(folder.get("back.ppm"), b"precious");
    folder.put(last, &padding);
    folder.fails(1, &format!("{words} --force"), &["number 8"]);
    assert_eq!(folder.get("back.ppm"), b"precious");
    folder.put(last, &whole);
    folder.done(&format!("{words} --force"));
    assert_eq!(folder.get("back.ppm"), p6(20, 37, &rgb));
    assert!(folder.names(".").iter().all(|name| !name.starts_with('.')));
    // A tile by itself is a picture with its padding.
    folder.done(&format!("restore {last} -o tile.ppm {LIST}"));
    let tile = folder.get("tile.ppm");
    assert!(tile.starts_with(b"P6\n8 4\n") && tile.ends_with(&[0; 9]));
    assert_eq!(tile[tile.len() - 24..tile.len() - 9], rgb[rgb.len() - 15..]);
}

#[test]
fn nothing_is_overwritten() {
    let folder = Folder::new("tile-force");
    let (_, names) = six(&folder);
    let before: Vec<Vec<u8>> = names.iter().map(|name| folder.get(name)).collect();
    let words = format!("patches --tiles a.ppm -o out {LIST}");
    // Where one is there, none of the sweep is written.
    for name in &names[1..] {
        fs::remove_file(folder.path(name)).unwrap();
    }
    folder.put(&names[4], b"precious");
    fs::remove_file(folder.path(&names[0])).unwrap();
    folder.fails(1, &words, &[&format!("{}: is there already and was left as it is; --force", names[4])]);
    assert_eq!(folder.names("out").len(), 1);
    assert_eq!(folder.get(&names[4]), b"precious");
    // In a list the others are done.
    sweep(&folder, "b.ppm", 8, 18, 2);
    let output = folder.kz(&format!("patches --tiles a.ppm b.ppm -o out {LIST}"));
    let errors = String::from_utf8(output.stderr).unwrap();
    assert_eq!(output.status.code(), Some(1));
    assert_eq!(String::from_utf8(output.stdout).unwrap().lines().count(), 2);
    assert!(errors.ends_with("kz: 1 of 2 sweeps had their file already; --skip-existing takes such files for done\n"));
    // What is no file of patches is not taken for done.
    folder.fails(1, &format!("{words} --skip-existing"), &[&names[4], "was not skipped: it is no .npy file"]);
    assert_eq!(folder.get(&names[4]), b"precious");
    folder.done(&format!("{words} --force"));
    for (name, bytes) in names.iter().zip(&before) {
        assert_eq!(folder.get(name), *bytes);
    }
}

#[test]
fn a_sweep_goes_on_after_a_crash() {
    let folder = Folder::new("tile-crash");
    for (command, kind) in [("patches", "patches"), ("encode", "tokens")] {
        sweep(&folder, "a.ppm", 20, 37, 5);
        sweep(&folder, "b.ppm", 20, 16, 6);
        let words = format!("{command} --tiles a.ppm b.ppm -o {kind} {LIST}");
        folder.done(&words);
        let names: Vec<String> = folder.names(kind).iter().map(|name| format!("{kind}/{name}")).collect();
        assert_eq!(names.len(), 8);
        let before: Vec<Vec<u8>> = names.iter().map(|name| folder.get(name)).collect();
        let places = || [0, 5].map(|i| folder.path(&names[i]).metadata().unwrap().ino());
        let kept = places();
        for gone in [1, 3, 7] {
            fs::remove_file(folder.path(&names[gone])).unwrap();
        }
        let said = folder.done(&format!("{words} --skip-existing"));
        for (i, (line, name)) in said.lines().zip(&names).enumerate() {
            let skipped = line == format!("{name}: is there already, skipped");
            assert_eq!(skipped, ![1, 3, 7].contains(&i), "{line}");
            assert!(line.starts_with(&format!("{name}: ")), "{line}");
        }
        assert_eq!(said.lines().count(), 8);
        assert_eq!(names.iter().map(|name| folder.get(name)).collect::<Vec<_>>(), before);
        assert_eq!(places(), kept);
        // A tile of another cut has the same name and another grid.
        let list = list_with(",image=12");
        let output = folder.kz(&format!("{command} --tiles a.ppm b.ppm -o {kind} {list} --skip-existing"));
        let errors = String::from_utf8(output.stderr).unwrap();
        assert_eq!(output.status.code(), Some(1), "{errors}");
        let (was, is) = if kind == "patches" { ("8x8", "6x6") } else { ("4x4", "3x3") };
        let part =
            format!("{}: was not skipped: it has {was} vectors, and these --settings give its tile {is}", names[0]);
        assert!(errors.contains(&part), "{errors}");
    }
}

#[test]
fn a_list_stops_where_nothing_can_be_written() {
    let folder = Folder::new("tile-stop");
    sweep(&folder, "a.ppm", 2, 17, 1);
    sweep(&folder, "b.ppm", 16, 17, 2);
    // Files of two blocks at most, as on a disk that is full: the tiles of a fit, the first of b does not.
    let full = "trap '' XFSZ; ulimit -f 2; exec \"$@\"";
    let output = folder.shell(full, &format!("patches --tiles a.ppm b.ppm -o out {LIST}")).output().unwrap();
    let errors = String::from_utf8(output.stderr).unwrap();
    assert_eq!(output.status.code(), Some(1), "{errors}");
    assert!(errors.contains("kz: out/b.16x17.r00c00.patches.npy: cannot be written: "), "{errors}");
    assert!(errors.contains("kz: stopped, with 1 of 2 sweeps still to do; "), "{errors}");
    assert_eq!(folder.names("out"), ["a.2x17.r00c00.patches.npy", "a.2x17.r00c01.patches.npy"]);
    let said = folder.done(&format!("patches --tiles a.ppm b.ppm -o out --skip-existing {LIST}"));
    assert_eq!(said.lines().filter(|line| line.ends_with("skipped")).count(), 2, "{said}");
    assert_eq!(folder.names("out").len(), 4);
}

#[test]
fn of_two_runs_that_skip_both_are_done() {
    let folder = Folder::new("tile-both");
    sweep(&folder, "a.ppm", 64, 64, 1);
    folder.done(&format!("patches --tiles a.ppm -o right {LIST}"));
    for round in 0..4 {
        let words = format!("patches --tiles a.ppm -o out{round} --skip-existing {LIST}");
        let start = || folder.command(&words).stdout(Stdio::piped()).stderr(Stdio::piped()).spawn().unwrap();
        let outputs = [start(), start()].map(|run| run.wait_with_output().unwrap());
        assert!(outputs.iter().all(|output| output.status.code() == Some(0)));
        let said = outputs.each_ref().map(|output| String::from_utf8_lossy(&output.stdout).into_owned()).concat();
        assert_eq!(said.lines().filter(|line| line.ends_with(": is there already, skipped")).count(), 16, "{said}");
        assert_eq!(folder.names(&format!("out{round}")), folder.names("right"));
        for name in folder.names("right") {
            assert_eq!(folder.get(&format!("out{round}/{name}")), folder.get(&format!("right/{name}")));
        }
    }
}

#[test]
fn memory_is_asked_for_first() {
    // An emulator needs more.
    if std::env::var_os("KZ_EMULATOR").is_some() {
        return;
    }
    let folder = Folder::new("tile-memory");
    folder.put("large.pgm", b"P5 2048 2048 255\n");
    fs::File::options().write(true).open(folder.path("large.pgm")).unwrap().set_len(17 + 2048 * 2048).unwrap();
    let limited = |words: &str, parts: [&str; 2]| {
        let output = folder.shell("ulimit -v 50000; exec \"$@\"", words).output().unwrap();
        let said = String::from_utf8(output.stderr).unwrap();
        assert_eq!(output.status.code(), Some(1), "{said}");
        assert!(parts.iter().all(|part| said.contains(part)), "{said}");
    };
    limited(
        "patches --tiles large.pgm -o out --settings patch=1,merge=1,image=2048",
        ["large.pgm: there is no memory for the patches of a tile (image=2048)", "50331648 bytes"],
    );
    let names: Vec<String> = (0..16).map(|i| format!("a.8192x8192.r0{}c0{}.patches.npy", i / 4, i % 4)).collect();
    limited(
        &format!("restore --tiles {} -o out.ppm --settings patch=1,merge=1,image=2048", names.join(" ")),
        ["r00c00.patches.npy: there is no memory for the sweep of 8192x8192 pixels", "201326592 bytes"],
    );
}
