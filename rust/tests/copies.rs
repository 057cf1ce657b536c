//! `kz copies`: what is a copy, what is none though it is nearly one, and what is said where something cannot be read.

mod common;

use common::png::png;
use common::tool::{list_with, npy, p6, sweep, Folder, LIST, TINY};
use common::Random;
use kyzgultam::{config, pixtral_preprocess, EncoderSettings, Refusal};
use std::ffi::OsStr;
use std::fs;
use std::os::unix::ffi::OsStrExt;
use std::os::unix::fs::symlink;

/// What is said, where the status is as it should be and nothing else is said.
fn said(folder: &Folder, status: i32, words: &str) -> String {
    let output = folder.kz(&format!("copies {words}"));
    let errors = String::from_utf8(output.stderr).unwrap();
    assert_eq!((output.status.code(), &errors[..]), (Some(status), ""), "{words}");
    String::from_utf8(output.stdout).unwrap()
}

/// The same where names are refused: what is said of errors.
fn refused(folder: &Folder, words: &str) -> (String, String) {
    let output = folder.kz(&format!("copies {words}"));
    assert_eq!(output.status.code(), Some(1), "{words}");
    (String::from_utf8(output.stdout).unwrap(), String::from_utf8(output.stderr).unwrap())
}

/// The rows below a head, until an empty line or the end.
fn rows(said: &str, head: &str) -> Vec<Vec<String>> {
    let lines = said.lines().skip_while(|line| !line.starts_with(head)).skip(1);
    let rows = lines.take_while(|line| !line.is_empty() && !line.starts_with("and "));
    rows.map(|line| line.split_whitespace().map(String::from).collect()).collect()
}

fn is_json(text: &str) -> bool {
    // The reader of config.json is proved: it misses a key in what is JSON, and stops in what is none.
    config(&EncoderSettings::default(), text.as_bytes()).unwrap_err().refusal == Refusal::ConfigVision
}

#[test]
fn copies_and_second_views() {
    let folder = Folder::new("copies");
    fs::create_dir(folder.path("d")).unwrap();
    let rgb = sweep(&folder, "d/a.ppm", 8, 12, 7);
    folder.put("d/c.pnm", &[b"P6 # another header\n12 8\n255\n", &rgb[..]].concat());
    folder.put("d/d.PNG", &png(2, 8, 12, &rgb));
    // A second view: two patches of two by two pixels are others, the first at row 1, column 4.
    let mut other = rgb.clone();
    other[(2 * 12 + 9) * 3] ^= 1;
    other[(7 * 12 + 11) * 3 + 2] ^= 128;
    folder.put("d/b.ppm", &p6(8, 12, &other));
    // The same patches in a file, and one sweep that is another altogether.
    folder.done(&format!("patches d/a.ppm -o d {LIST}"));
    sweep(&folder, "d/z.ppm", 8, 12, 8);
    folder.put("d/notes.txt", b"no sweep");
    fs::create_dir(folder.path("d/older.ppm")).unwrap();

    let answer = said(&folder, 3, &format!("d {LIST}"));
    let copies = ["d/a.ppm", "d/c.pnm", "d/d.PNG"].map(|copy| [copy, "d/a.patches.npy"]);
    assert_eq!(rows(&answer, "copy"), copies);
    assert_eq!(rows(&answer, "differ"), [["2", "24", "1", "4", "d/a.patches.npy", "d/b.ppm"]]);
    let summary = "6 sweeps, 3 are copies; 1 pair shares most patches; 2 other entries of the folders not looked at\n";
    assert!(answer.ends_with(&format!("\n\n{summary}")), "{answer}");

    // A second view alone is no copy.
    let answer = said(&folder, 0, &format!("d/a.ppm d/b.ppm d/z.ppm {LIST}"));
    assert!(answer.ends_with("3 sweeps, no copies; 1 pair shares most patches\n"), "{answer}");
    assert!(rows(&answer, "copy").is_empty());

    // As compare paints it.
    let answer = said(&folder, 0, &format!("d/a.ppm d/b.ppm -o pictures {LIST}"));
    assert_eq!(rows(&answer, "differ")[0][6], "pictures/pair-001.png");
    folder.kz(&format!("compare d/a.ppm d/b.ppm -o map.png {LIST}"));
    assert_eq!(folder.get("pictures/pair-001.png"), folder.get("map.png"));
    // Where it cannot be written, that is said behind the answer.
    for (out, part) in
        [("pictures", "pair-001.png: is there already"), ("map.png", "map.png: this folder cannot be made")]
    {
        let (answer, errors) = refused(&folder, &format!("d/a.ppm d/c.pnm d/b.ppm -o {out} {LIST}"));
        assert_eq!((rows(&answer, "copy").len(), rows(&answer, "differ")[0].len()), (1, 6), "{answer}");
        assert!(errors.contains(part) && errors.lines().count() == 1, "{errors}");
    }
    said(&folder, 0, &format!("d/a.ppm d/b.ppm -o pictures --force {LIST}"));
}

/// The answer does not say which of many was read first: each is a copy of the first of its names.
#[test]
fn more_than_two_and_their_order() {
    let folder = Folder::new("copies-many");
    for (name, seed) in [("e", 1), ("a", 2), ("c", 1), ("b", 2), ("d", 1), ("f", 3)] {
        sweep(&folder, &format!("{name}.ppm"), 8, 8, seed);
    }
    let answer = said(&folder, 3, &format!(". {LIST}"));
    let right = [["./b.ppm", "./a.ppm"], ["./d.ppm", "./c.ppm"], ["./e.ppm", "./c.ppm"]];
    assert_eq!(rows(&answer, "copy"), right);
    let answer = said(&folder, 3, &format!("e.ppm d.ppm c.ppm {LIST}"));
    assert_eq!(rows(&answer, "copy"), [["d.ppm", "e.ppm"], ["c.ppm", "e.ppm"]]);
}

/// Patches in files are compared as they are, whatever floats they hold.
#[test]
fn near_misses_of_patch_files() {
    let folder = Folder::new("copies-near");
    let base: Vec<f32> = (0..24).map(|i| i as f32).collect();
    let with = |at: usize, bits: u32| {
        let mut floats = base.clone();
        floats[at] = f32::from_bits(bits);
        floats
    };
    let (zero, nan) = (0x8000_0000, 0x7FC0_0000);
    for (name, shape, floats) in [
        ("base", [2, 3, 4], base.clone()),
        ("minus", [2, 3, 4], with(0, zero)),
        ("nan", [2, 3, 4], with(9, nan)),
        ("nan2", [2, 3, 4], with(9, nan)),
        ("quiet", [2, 3, 4], with(9, nan | 1)),
        ("loud", [2, 3, 4], with(9, 0x7F80_0001)),
        ("loud2", [2, 3, 4], with(9, 0x7F80_0001)),
        ("tall", [3, 2, 4], base.clone()),
        ("row", [1, 6, 4], base.clone()),
        ("small", [2, 4, 3], base.clone()),
        ("last", [2, 3, 4], with(23, 1)),
    ] {
        folder.put(&format!("{name}.patches.npy"), &npy(shape, &floats));
    }
    let answer = said(&folder, 3, ".");
    let named = |name: &str| format!("./{name}.patches.npy");
    let right = [["loud2", "loud"], ["nan2", "nan"]].map(|two| two.map(named));
    assert_eq!(rows(&answer, "copy"), right);
    let pairs = rows(&answer, "differ");
    // One patch differs between base and each of the five others of its grid, two between any two that change two.
    let of = |a: &str, b: &str| {
        pairs.iter().find(|row| row[4] == named(a) && row[5] == named(b)).map(|row| row[..4].join(" "))
    };
    assert_eq!(of("base", "minus"), Some("1 6 0 0".into()));
    assert_eq!(of("base", "last"), Some("1 6 1 2".into()));
    assert_eq!(of("nan", "quiet"), Some("1 6 0 2".into()));
    assert_eq!(of("loud", "nan"), Some("1 6 0 2".into()));
    assert_eq!(of("last", "minus"), Some("2 6 0 0".into()));
    assert_eq!(pairs.len(), 15, "{answer}");
    for other in ["tall", "row", "small"] {
        assert!(!pairs.iter().flatten().any(|word| *word == named(other)), "{answer}");
    }
    // What is no picture by the settings is painted on grey, with a patch's own side where it has one.
    folder.put("x.patches.npy", &npy([1, 3, 12], &[0.5; 36]));
    let mut other = [0.5; 36];
    other[35] = 0.25;
    folder.put("y.patches.npy", &npy([1, 3, 12], &other));
    said(&folder, 0, "x.patches.npy y.patches.npy -o grey");
    let png = folder.get("grey/pair-001.png");
    assert_eq!((&png[16..24], png[25]), (&[0, 0, 0, 6, 0, 0, 0, 2][..], 2));
}

/// Half of the patches are not most of them.
#[test]
fn most_is_more_than_half() {
    let folder = Folder::new("copies-half");
    let base: Vec<f32> = (0..10).map(|i| i as f32).collect();
    for (name, differ) in [("base", 0), ("four", 4), ("five", 5)] {
        let floats: Vec<f32> = base.iter().map(|x| if *x < differ as f32 { x + 50.0 } else { *x }).collect();
        folder.put(&format!("{name}.npy"), &npy([2, 5, 1], &floats));
    }
    let answer = said(&folder, 0, "base.npy four.npy");
    assert_eq!(rows(&answer, "differ"), [["4", "10", "0", "0", "base.npy", "four.npy"]]);
    let answer = said(&folder, 0, "base.npy five.npy");
    assert_eq!(answer, "2 sweeps, no copies\n");
}

/// By other settings the same sweep has other patches, or another grid.
#[test]
fn other_settings_are_no_copies() {
    let folder = Folder::new("copies-settings");
    let rgb = sweep(&folder, "a.ppm", 8, 12, 7);
    for (name, list) in [("own", ""), ("again", ""), ("mean", ",mean=0.2"), ("patch", ",patch=1"), ("tall", ",merge=1")]
    {
        folder.done(&format!("patches a.ppm -o {name} {}", list_with(list)));
        fs::rename(folder.path(&format!("{name}/a.patches.npy")), folder.path(&format!("{name}.patches.npy"))).unwrap();
    }
    let answer = said(&folder, 3, "own.patches.npy again.patches.npy mean.patches.npy patch.patches.npy");
    assert_eq!(rows(&answer, "copy"), [["again.patches.npy", "own.patches.npy"]]);
    assert!(answer.ends_with("\n4 sweeps, 1 is a copy\n"), "{answer}");
    // Merge is not in the patches.
    said(&folder, 3, "own.patches.npy tall.patches.npy");
    // A sweep beside its patches, by its own settings and by others.
    let mut patches = vec![0.0; rgb.len()];
    pixtral_preprocess(&rgb, 8, 12, &TINY, &mut patches).unwrap();
    assert_eq!(folder.get("own.patches.npy"), npy([4, 6, 12], &patches));
    said(&folder, 3, &format!("own.patches.npy a.ppm {LIST}"));
    said(&folder, 0, &format!("own.patches.npy a.ppm {LIST},deviation=0.5"));
    said(&folder, 0, "own.patches.npy a.ppm");
    folder.fails(1, &format!("copies a.ppm {LIST},rule=3"), &["--settings: refused, number 1"]);
    // What resizing takes away is counted.
    sweep(&folder, "long.ppm", 8, 48, 7);
    let answer = said(&folder, 0, &format!("a.ppm long.ppm {LIST},rule=2"));
    assert_eq!(answer, "2 sweeps, no copies; 1 sweep resized by rule 2 before\n");
}

#[test]
fn a_file_is_taken_once() {
    let folder = Folder::new("copies-links");
    fs::create_dir(folder.path("d")).unwrap();
    sweep(&folder, "d/a.ppm", 8, 8, 1);
    fs::hard_link(folder.path("d/a.ppm"), folder.path("d/hard.ppm")).unwrap();
    symlink("a.ppm", folder.path("d/soft.ppm")).unwrap();
    symlink("d", folder.path("e")).unwrap();
    let answer = said(&folder, 0, &format!("d d/a.ppm ./d/../d/a.ppm e {LIST}"));
    let lines: Vec<&str> = answer.lines().collect();
    assert_eq!(lines.len(), 8, "{answer}");
    for (line, name) in lines.iter().zip(["d/hard.ppm", "d/soft.ppm", "d/a.ppm", "./d/../d/a.ppm", "e/a.ppm"]) {
        assert_eq!(*line, format!("{name}: is the same file as d/a.ppm, and was taken once"));
    }
    assert_eq!(lines[7], "1 sweep, no copies");
    // A true copy of it is one, and of one file only.
    fs::copy(folder.path("d/a.ppm"), folder.path("d/true.ppm")).unwrap();
    let answer = said(&folder, 3, &format!("d {LIST}"));
    assert_eq!(rows(&answer, "copy"), [["d/true.ppm", "d/a.ppm"]]);
}

#[test]
fn what_cannot_be_read_is_named() {
    let folder = Folder::new("copies-refused");
    for (name, seed) in [("a", 1), ("b", 1), ("c", 2)] {
        sweep(&folder, &format!("{name}.ppm"), 8, 8, seed);
    }
    folder.put("cut.ppm", &folder.get("a.ppm")[..50]);
    folder.put("text.patches.npy", b"no array");
    folder.put("empty.patches.npy", &npy([0, 4, 12], &[]));
    folder.put("short.patches.npy", &npy([1, 4, 12], &[0.0; 48])[..200]);
    symlink("gone.ppm", folder.path("broken.ppm")).unwrap();
    let (answer, errors) = refused(&folder, &format!(". {LIST}"));
    assert_eq!(rows(&answer, "copy"), [["./b.ppm", "./a.ppm"]]);
    for part in [
        "kz: ./broken.ppm: cannot be read",
        "kz: ./cut.ppm: is cut short",
        "kz: ./empty.patches.npy: holds no patches",
        "kz: ./short.patches.npy: is damaged",
        "kz: ./text.patches.npy: is no .npy file",
    ] {
        assert!(errors.contains(part), "{part:?} is not in {errors}");
    }
    assert!(errors.ends_with("\nkz: 5 names could not be read: the answer is not whole\n"), "{errors}");
    assert_eq!(errors.lines().count(), 6);

    // Names, folders and pipes.
    fs::create_dir(folder.path("none")).unwrap();
    folder.put("none/a.tokens.npy", &npy([1, 1, 1], &[0.0]));
    let (_, errors) = refused(&folder, "none");
    assert!(errors.starts_with("kz: none: has no file that ends in .patches.npy, .png, .ppm"), "{errors}");
    let (answer, errors) = refused(&folder, &format!("a.ppm away.ppm c.ppm {LIST}"));
    assert!(errors.starts_with("kz: away.ppm: cannot be read"), "{errors}");
    assert_eq!(answer, "2 sweeps, no copies\n");
    assert!(std::process::Command::new("mkfifo").arg(folder.path("pipe.ppm")).status().unwrap().success());
    let (_, errors) = refused(&folder, &format!("pipe.ppm a.ppm {LIST}"));
    assert!(errors.starts_with("kz: pipe.ppm: is no plain file"), "{errors}");
    let (_, errors) = refused(&folder, &format!("- a.ppm {LIST}"));
    assert!(errors.starts_with("kz: -: is no plain file, and is to be read twice"), "{errors}");
    // In a folder it is passed over: nobody waits for it.
    let (answer, _) = refused(&folder, &format!(". {LIST}"));
    assert!(answer.ends_with("; 2 other entries of the folders not looked at\n"), "{answer}");
    folder.fails(2, "copies", &["copies takes folders or files"]);
    folder.fails(2, "copies . --tokens", &["no option --tokens"]);
}

#[test]
fn as_json() {
    let folder = Folder::new("copies-json");
    let names: [&[u8]; 5] = [b"a \"quoted\".ppm", b"b\n\x1b.ppm", b"c\xff.ppm", "d\u{85}心.ppm".as_bytes(), b"e\\.ppm"];
    fs::create_dir(folder.path("d")).unwrap();
    for (name, seed) in names.iter().zip([1, 1, 1, 2, 1]) {
        sweep(&folder, "plain.ppm", 8, 8, seed);
        fs::rename(folder.path("plain.ppm"), folder.path("d").join(OsStr::from_bytes(name))).unwrap();
    }
    let answer = said(&folder, 3, &format!("d --json {LIST}"));
    assert!(is_json(&answer), "{answer}");
    for part in [
        r#"{"file": "d/b\u000a\u001b.ppm", "of": "d/a \"quoted\".ppm"}"#,
        r#"{"file": "d/c\udcff.ppm", "of": "d/a \"quoted\".ppm"}"#,
        r#"{"file": "d/e\\.ppm", "of": "d/a \"quoted\".ppm"}"#,
        "{\"file\": \"d/d\\u0085心.ppm\", \"grid\": [4, 4], \"floats\": 12, \"rule\": null}",
        "\"pairs\": [],\n  \"more_pairs\": 0,\n  \"same_file\": [],\n  \"refused\": [],\n  \"passed_over\": 0\n}\n",
    ] {
        assert!(answer.contains(part), "{part} is not in {answer}");
    }
    // With everything that can be said.
    let mut rgb = sweep(&folder, "x.ppm", 8, 8, 3);
    rgb[0] ^= 1;
    folder.put("y.ppm", &p6(8, 8, &rgb));
    symlink("x.ppm", folder.path("z.ppm")).unwrap();
    let (answer, _) = refused(&folder, &format!("x.ppm y.ppm z.ppm gone.ppm -o p --json {LIST}"));
    assert!(is_json(&answer), "{answer}");
    for part in [
        r#"{"files": ["x.ppm", "y.ppm"], "differ": 1, "patches": 16, "row": 0, "column": 0, "#,
        r#" "picture": "p/pair-001.png"}"#,
        r#""same_file": [
    {"file": "z.ppm", "of": "x.ppm"}
  ]"#,
        r#""refused": [
    "gone.ppm: cannot be read: "#,
    ] {
        assert!(answer.contains(part), "{part} is not in {answer}");
    }
}

/// A hundred pairs are said and the rest is counted; with --all every one is.
#[test]
fn many_pairs() {
    let folder = Folder::new("copies-pairs");
    fs::create_dir(folder.path("d")).unwrap();
    let base = Random(5).floats(64, 1.0);
    for i in 0..16 {
        let mut floats = base.clone();
        floats[4 * i] += 1.0;
        folder.put(&format!("d/{i:02}.patches.npy"), &npy([4, 4, 4], &floats));
    }
    let answer = said(&folder, 0, "d");
    assert_eq!(rows(&answer, "differ").len(), 100);
    assert!(answer.contains("\nand 20 more by their hashes; --all compares and says every one\n"), "{answer}");
    assert!(answer.ends_with("\n16 sweeps, no copies; 120 pairs share most patches\n"), "{answer}");
    let answer = said(&folder, 0, "d --all");
    let pairs = rows(&answer, "differ");
    assert_eq!(pairs.len(), 120);
    assert!(pairs.iter().all(|row| row[..2] == ["2", "16"]), "{answer}");
    assert_eq!(pairs[119][2..], ["3", "2", "d/14.patches.npy", "d/15.patches.npy"]);
    let answer = said(&folder, 0, "d --json");
    assert!(answer.contains("\"more_pairs\": 20,") && is_json(&answer));
}

/// A thousand sweeps: 50 of the last hundred are copies of the first, the other 50 second views of them, with another
/// last pixel.
#[test]
fn a_thousand_sweeps() {
    let folder = Folder::new("copies-thousand");
    fs::create_dir(folder.path("d")).unwrap();
    for i in 0..1000 {
        let mut rgb = Random(1 + if i < 900 { i } else { i % 50 }).bytes(16 * 16 * 3);
        if i >= 950 {
            rgb[16 * 16 * 3 - 1] ^= 1;
        }
        folder.put(&format!("d/{i:03}.ppm"), &p6(16, 16, &rgb));
    }
    let named = |i: usize| format!("d/{i:03}.ppm");
    let answer = said(&folder, 3, &format!("d {LIST}"));
    let right: Vec<_> = (0..50).map(|i| [named(900 + i), named(i)]).collect();
    assert_eq!(rows(&answer, "copy"), right);
    let right: Vec<_> = (0..50).map(|i| ["1", "64", "7", "7", &named(i), &named(950 + i)].map(String::from)).collect();
    assert_eq!(rows(&answer, "differ"), right);
    assert!(answer.ends_with("\n1000 sweeps, 50 are copies; 50 pairs share most patches\n"), "{answer}");
}
