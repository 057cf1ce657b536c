//! `kz nearest`: the most alike of many sweeps, by their token vectors.

mod common;

use common::tool::{npy, npy_head, sweep, Folder, LIST};
use common::Random;
use kyzgultam::{bf16_pack, config, EncoderSettings, Refusal};
use std::fs;
use std::os::unix::fs::symlink;

/// The rows of the table, and the last line.
fn listed(said: &str) -> (Vec<[String; 2]>, String) {
    let lines: Vec<&str> = said.lines().collect();
    let Some(end) = lines.iter().position(|line| line.is_empty()) else { return (vec![], lines.join("\n")) };
    let row = |line: &&str| {
        let (number, file) = line.trim_start().split_once("  ").unwrap();
        [number.to_string(), file.to_string()]
    };
    assert_eq!(lines[0], "mean cosine  sweep");
    (lines[1..end].iter().map(row).collect(), lines[end + 1..].join("\n"))
}

fn put(folder: &Folder, name: &str, shape: [usize; 3], floats: &[f32]) {
    folder.put(&format!("d/{name}.tokens.npy"), &npy(shape, floats));
}

/// Two vectors of three floats: `one`, and sweeps whose mean cosines to it are known.
fn known(folder: &Folder) -> [f32; 6] {
    fs::create_dir(folder.path("d")).unwrap();
    let one = [3.0, 0.0, 0.0, 0.0, 0.5, 0.0];
    put(folder, "half", [1, 2, 3], &[1.0, 0.0, 0.0, 0.0, 0.0, -7.0]);
    put(folder, "longer", [1, 2, 3], &one.map(|x| x * 4.0));
    put(folder, "same", [1, 2, 3], &one);
    put(folder, "against", [1, 2, 3], &one.map(|x| -x));
    put(folder, "nothing", [1, 2, 3], &[-0.0; 6]);
    put(folder, "nan", [1, 2, 3], &[1.0, 0.0, 0.0, 0.0, 1.0, f32::NAN]);
    put(folder, "infinite", [1, 2, 3], &[1.0, 0.0, 0.0, 0.0, f32::INFINITY, 1.0]);
    put(folder, "tall", [2, 1, 3], &one);
    put(folder, "text", [1, 3, 2], &one);
    folder.put("one.tokens.npy", &npy([1, 2, 3], &one));
    one
}

#[test]
fn the_most_alike_come_first() {
    let folder = Folder::new("near");
    known(&folder);
    let (rows, last) = listed(&folder.done("nearest one.tokens.npy d"));
    let right = [
        ["1.000000", "longer"],
        ["1.000000", "same"],
        ["0.500000", "half"],
        ["0.500000", "infinite"],
        ["0.500000", "nan"],
        ["0.000000", "nothing"],
        ["-1.000000", "against"],
    ];
    assert_eq!(rows, right.map(|[number, name]| [number.into(), format!("d/{name}.tokens.npy")]));
    assert_eq!(last, "7 compared; 2 of another shape than 1x2x3, not compared");
    let (rows, _) = listed(&folder.done("nearest one.tokens.npy d --count 2"));
    assert_eq!(rows.len(), 2);
    // Equal ones stand in the order of the names that were given.
    let (rows, _) = listed(&folder.done("nearest one.tokens.npy d/same.tokens.npy d/longer.tokens.npy"));
    assert_eq!([&rows[0][1], &rows[1][1]], ["d/same.tokens.npy", "d/longer.tokens.npy"]);
    // Where none has its shape, none is listed.
    let (rows, last) = listed(&folder.done("nearest one.tokens.npy d/tall.tokens.npy"));
    assert!(rows.is_empty() && last == "0 compared; 1 of another shape than 1x2x3, not compared", "{last}");
}

#[test]
fn the_sweep_itself_is_left_out() {
    let folder = Folder::new("near-itself");
    known(&folder);
    symlink("same.tokens.npy", folder.path("d/soft.tokens.npy")).unwrap();
    fs::hard_link(folder.path("d/same.tokens.npy"), folder.path("d/zhard.tokens.npy")).unwrap();
    let (rows, last) = listed(&folder.done("nearest d/same.tokens.npy d --count 1"));
    assert_eq!(rows, [["1.000000", "d/longer.tokens.npy"]]);
    assert_eq!(last, "6 compared; 2 of another shape than 1x2x3, not compared; the sweep itself is left out");
}

/// More sweeps than a pool holds, with the numbers of `compare --tokens`; some in bf16.
#[test]
fn as_compare_says() {
    let folder = Folder::new("near-compare");
    fs::create_dir(folder.path("d")).unwrap();
    let floats = |seed: u64| Random(seed).floats(2 * 3 * 5, 1.0);
    folder.put("one.tokens.npy", &npy([2, 3, 5], &floats(1000)));
    for i in 0..90 {
        let name = format!("d/{i:02}.tokens.npy");
        if i % 3 == 0 {
            let head = npy_head("{'descr': '<u2', 'fortran_order': False, 'shape': (2, 3, 5), }");
            let packed: Vec<u8> = floats(1 + i).iter().flat_map(|x| bf16_pack(*x).to_le_bytes()).collect();
            folder.put(&name, &[head, packed].concat());
        } else {
            folder.put(&name, &npy([2, 3, 5], &floats(1 + i)));
        }
    }
    let (rows, last) = listed(&folder.done("nearest one.tokens.npy d --count 500"));
    assert_eq!((rows.len(), &last[..]), (90, "90 compared"));
    let numbers: Vec<f64> = rows.iter().map(|row| row[0].parse().unwrap()).collect();
    assert!(numbers.windows(2).all(|two| two[0] >= two[1]));
    for [number, file] in &rows {
        let said = folder.done(&format!("compare --tokens {file} one.tokens.npy"));
        assert!(said.lines().last().unwrap().ends_with(&format!(" {number}")), "{said}");
    }
}

#[test]
fn as_json_and_refused() {
    let folder = Folder::new("near-json");
    known(&folder);
    let is_json =
        |text: &str| config(&EncoderSettings::default(), text.as_bytes()).unwrap_err().refusal == Refusal::ConfigVision;
    let text = folder.done("nearest one.tokens.npy d --json --count 3");
    assert!(is_json(&text), "{text}");
    for part in [
        "{\n  \"sweep\": \"one.tokens.npy\",\n  \"shape\": [1, 2, 3],\n",
        "{\"file\": \"d/longer.tokens.npy\", \"mean_cosine\": 1},",
        "{\"file\": \"d/half.tokens.npy\", \"mean_cosine\": 0.5}\n",
        "\"compared\": 7,\n  \"other_shape\": 2,\n  \"refused\": []\n}\n",
    ] {
        assert!(text.contains(part), "{part} is not in {text}");
    }
    folder.put("d/cut.tokens.npy", &npy([1, 2, 3], &[0.0; 6])[..140]);
    folder.put("d/empty.tokens.npy", &npy([0, 2, 3], &[]));
    let output = folder.kz("nearest one.tokens.npy d --json");
    let text = String::from_utf8(output.stdout).unwrap();
    assert!(output.status.code() == Some(1) && is_json(&text) && text.contains("\"compared\": 7,"), "{text}");
    let errors = String::from_utf8(output.stderr).unwrap();
    for part in [
        "kz: d/cut.tokens.npy: is damaged",
        "kz: d/empty.tokens.npy: holds no token vectors",
        "kz: 2 names could not be read",
    ] {
        assert!(errors.contains(part), "{part} is not in {errors}");
    }
    for (words, status, part) in [
        ("nearest", 2, "nearest takes SWEEP.tokens.npy"),
        ("nearest one.tokens.npy", 2, "beside its sweep"),
        ("nearest one.tokens.npy d --count 0", 2, "--count takes a number from 1 on, not 0"),
        ("nearest one.tokens.npy d --count few", 2, "not few"),
        ("nearest one.tokens.npy d --settings patch=2", 2, "no option --settings"),
        ("nearest none.tokens.npy d", 1, "none.tokens.npy: cannot be read"),
        ("nearest d/cut.tokens.npy d", 1, "d/cut.tokens.npy: is damaged"),
        ("nearest one.tokens.npy away", 1, "away: cannot be read"),
    ] {
        folder.fails(status, words, &[part]);
    }
}

/// As it is used: sweeps are encoded, and a second view of one is the nearest to it.
#[test]
fn a_second_view_is_nearest() {
    let folder = Folder::new("near-views");
    for i in 0..5 {
        sweep(&folder, &format!("s{i}.ppm"), 8, 12, 20 + i);
    }
    let mut view = folder.get("s3.ppm");
    let last = view.len() - 1;
    view[last] ^= 3;
    folder.put("view.ppm", &view);
    folder.done(&format!("encode s0.ppm s1.ppm s2.ppm s3.ppm s4.ppm -o out {LIST}"));
    folder.done(&format!("encode view.ppm -o new {LIST}"));
    let (rows, _) = listed(&folder.done("nearest new/view.tokens.npy out --count 1"));
    assert_eq!(rows[0][1], "out/s3.tokens.npy");
}
