//! Standard input and output, where - is given for a file.

mod common;

use common::png::png;
use common::tensors::Tensors;
use common::tool::{list_with, npy, p6, plain, sweep, Folder, CONFIG, LIST, TABLE, WEIGHTS};
use common::Random;
use std::fs;

/// What a script gives in which "$@" is kz with the words: status, output and errors.
fn run(folder: &Folder, script: &str, words: &str) -> (Option<i32>, Vec<u8>, String) {
    let output = folder.shell(script, words).output().unwrap();
    (output.status.code(), output.stdout, String::from_utf8(output.stderr).unwrap())
}

/// The output of a script that is done; nothing is said beside it.
fn said(folder: &Folder, script: &str, words: &str) -> String {
    let (status, said, errors) = run(folder, script, words);
    assert_eq!((status, &errors[..]), (Some(0), ""), "{script} {words}");
    String::from_utf8(said).unwrap()
}

/// From a pipe, whose length is not known, and from a plain file, of which a part may be read already.
#[test]
fn a_sweep_from_standard_input() {
    let folder = Folder::new("standard-in");
    let rgb = sweep(&folder, "a.ppm", 8, 12, 1);
    folder.put("a.png", &png(2, 8, 12, &rgb));
    folder.put("later", &[b"four".to_vec(), folder.get("a.ppm")].concat());
    folder.done(&format!("patches a.ppm -o right {LIST}"));
    let small = list_with(",image=8");
    folder.done(&format!("patches --tiles a.ppm -o right {small}"));
    let later = "(dd bs=4 count=1 2>/dev/null >/dev/null; exec \"$@\") < later";
    for script in ["cat a.ppm | \"$@\"", "exec \"$@\" < a.ppm", "cat a.png | \"$@\"", "exec \"$@\" < a.png", later] {
        let words = said(&folder, script, &format!("patches - -o out --force {LIST}"));
        assert_eq!(words, "out/stdin.patches.npy: 4x6 patches of 12 floats\n");
        assert_eq!(folder.get("out/stdin.patches.npy"), folder.get("right/a.patches.npy"), "{script}");
        said(&folder, script, &format!("patches --tiles - -o out --force {small}"));
        for name in ["8x12.r00c00.patches.npy", "8x12.r00c01.patches.npy"] {
            assert_eq!(folder.get(&format!("out/stdin.{name}")), folder.get(&format!("right/a.{name}")));
        }
        for words in ["compare - a.ppm", "compare a.ppm -"] {
            assert_eq!(said(&folder, script, &format!("{words} {LIST}")), "24 of 24 patches are equal\n");
        }
    }
    // In a list it is one sweep, and ./- is a file.
    sweep(&folder, "-", 4, 4, 2);
    let words = said(&folder, "exec \"$@\" < a.ppm", &format!("patches a.ppm - ./- -o list {LIST}"));
    assert_eq!(words.lines().count(), 3);
    assert_eq!(folder.names("list"), ["-.patches.npy", "a.patches.npy", "stdin.patches.npy"]);
    assert_eq!(folder.get("list/stdin.patches.npy"), folder.get("list/a.patches.npy"));
}

#[test]
fn other_files_from_standard_input() {
    let folder = Folder::new("standard-others");
    sweep(&folder, "a.ppm", 8, 12, 1);
    folder.done(&format!("patches a.ppm -o . {LIST}"));
    said(&folder, "cat a.patches.npy | \"$@\"", &format!("restore - -o back.ppm {LIST}"));
    assert_eq!(folder.get("back.ppm"), folder.get("a.ppm"));
    said(&folder, "exec \"$@\" < a.patches.npy", &format!("salvage - -o saved.ppm {LIST}"));
    assert_eq!(folder.get("saved.ppm"), folder.get("a.ppm"));
    let whole = folder.get("a.patches.npy");
    folder.put("plain", &whole[whole.len() - 4 * 8 * 12 * 3..]);
    said(&folder, "exec \"$@\" < plain", &format!("restore - -o plain.ppm --grid 4x6 {LIST}"));
    assert_eq!(folder.get("plain.ppm"), folder.get("a.ppm"));

    folder.put("config.json", CONFIG.as_bytes());
    assert_eq!(said(&folder, "cat config.json | \"$@\"", "config -"), folder.done("config config.json"));
    let mut random = Random(6);
    folder.put("w", &plain(&random.floats(WEIGHTS, 0.3)));
    folder.put("t", &plain(&random.floats(2 * TABLE, 1.0)));
    folder.done(&format!("encode a.ppm -o right --weights w --tables t {LIST}"));
    for (i, (script, words)) in [
        ("cat config.json | \"$@\"", "a.ppm --config - --weights w --tables t"),
        ("cat w | \"$@\"", "a.ppm --config config.json --weights - --tables t"),
        ("cat t | \"$@\"", "a.ppm --config config.json --weights w --tables -"),
        ("cat a.ppm | \"$@\"", "- --config config.json --weights w --tables t"),
    ]
    .into_iter()
    .enumerate()
    {
        let words = said(&folder, script, &format!("encode -o {i} {words}"));
        let file = words.split(':').next().unwrap();
        assert_eq!(folder.get(file), folder.get("right/a.tokens.npy"), "{script}");
    }
    let tensors = Tensors::new(&common::Random(1).encoder(), "F32", |n| vec![0; n]).bytes();
    folder.put("m.safetensors", &tensors);
    let (known, unknown) = (
        run(&folder, "exec \"$@\"", &format!("weights m.safetensors -o w1 {LIST}")),
        run(&folder, "cat m.safetensors | \"$@\"", &format!("weights - -o w2 {LIST}")),
    );
    assert_eq!((known.0, known.2.replace("m.safetensors: ", "-: ")), (Some(1), unknown.2));
}

/// The file alone is on standard output, and what is said of it on standard error.
#[test]
fn one_file_to_standard_output() {
    let folder = Folder::new("standard-out");
    let mut rgb = sweep(&folder, "a.ppm", 8, 12, 1);
    rgb[7] ^= 1;
    folder.put("b.ppm", &p6(8, 12, &rgb));
    folder.done(&format!("patches a.ppm -o . {LIST}"));
    let mut bad = folder.get("a.patches.npy");
    *bad.last_mut().unwrap() ^= 1;
    folder.put("bad.npy", &bad);
    folder.kz(&format!("compare a.ppm b.ppm -o map.png {LIST}"));
    folder.done(&format!("encode a.ppm -o . {LIST}"));
    folder.done(&format!("salvage bad.npy -o saved.ppm --map saved.png {LIST}"));
    let before = folder.names(".");
    for (words, file, line) in [
        ("patches a.ppm -o -", "a.patches.npy", "-: 4x6 patches of 12 floats\n"),
        ("patches a.ppm --out=- --force", "a.patches.npy", "-: 4x6 patches of 12 floats\n"),
        ("encode a.ppm -o -", "a.tokens.npy", "-: 2x3 tokens of 3 floats\n"),
        ("restore a.patches.npy -o -", "a.ppm", "-: 8x12\n"),
        ("salvage bad.npy -o -", "saved.ppm", "-: 8x12, 1 of 288 samples are bad"),
        ("salvage bad.npy -o - --map again.png", "saved.ppm", "-: 8x12, 1 of 288 samples are bad"),
        ("salvage bad.npy -o again.ppm --map -", "saved.png", "again.ppm: 8x12, 1 of 288 samples are bad"),
        ("compare a.ppm b.ppm -o -", "map.png", "23 of 24 patches are equal; the first that differs is at row 0"),
    ] {
        let (_, found, errors) = run(&folder, "exec \"$@\"", &format!("{words} {LIST}"));
        assert_eq!(found, folder.get(file), "{words}");
        assert!(errors.starts_with(line), "{words}: {errors}");
        for name in ["again.png", "again.ppm"] {
            let _ = fs::remove_file(folder.path(name));
        }
    }
    assert_eq!(folder.names("."), before);
    // From one to the next, and back.
    let back = "cat a.ppm | \"$1\" patches - -o - $2 $3 2>/dev/null | \"$1\" restore - -o - $2 $3";
    if std::env::var_os("KZ_EMULATOR").is_none() {
        let (status, found, _) = run(&folder, back, "--settings patch=2,merge=2,image=16");
        assert_eq!((status, found), (Some(0), folder.get("a.ppm")));
    }
    // Where standard output takes nothing, that is said.
    for words in ["patches a.ppm -o -", "restore a.patches.npy -o -", "compare a.ppm b.ppm -o -"] {
        let (status, _, errors) = run(&folder, "exec \"$@\" > /dev/full", &format!("{words} {LIST}"));
        assert_eq!(status, Some(1), "{words}: {errors}");
        assert!(errors.contains("kz: standard output cannot be written: "), "{errors}");
    }
}

/// Netpbm pictures one behind the other, as a converter of many frames gives them, are as many sweeps.
#[test]
fn several_pictures() {
    let folder = Folder::new("standard-several");
    sweep(&folder, "a.ppm", 8, 12, 1);
    sweep(&folder, "b.ppm", 4, 4, 2);
    folder.put("c.pgm", &[b"P5#grey\n6 4 255\n", &Random(3).bytes(24)[..]].concat());
    // For a sample above its maxval a picture is refused, and its length is known all the same.
    folder.put("above.pgm", b"P5 2 2 100\n\x01\x02\x65\x04");
    folder.put("cut.pgm", b"P5 2 2 255\nabc");
    folder.put("text", b"\nno picture");
    folder.done(&format!("patches a.ppm b.ppm c.pgm -o right {LIST} --log right.log"));
    let all = "cat a.ppm b.ppm c.pgm | \"$@\"";
    for script in [all, "cat a.ppm b.ppm c.pgm > all; exec \"$@\" < all"] {
        let words = said(&folder, script, &format!("patches - -o out --force --log a.log {LIST}"));
        assert!(
            words.starts_with("out/stdin.f0000.patches.npy: 4x6 patches of 12 floats\nout/stdin.f0001."),
            "{words}"
        );
        for (found, right) in [("f0000", "a"), ("f0001", "b"), ("f0002", "c")] {
            let found = folder.get(&format!("out/stdin.{found}.patches.npy"));
            assert_eq!(found, folder.get(&format!("right/{right}.patches.npy")));
        }
        assert_eq!(folder.get("a.log"), folder.get("right.log"));
        assert_eq!(folder.names("out").len(), 3);
    }
    for (script, done, lines) in [
        (
            "cat a.ppm above.pgm b.ppm | \"$@\"",
            2,
            &["-, picture 1: has a sample of 101", "1 of 3 sweeps were refused"][..],
        ),
        ("cat a.ppm b.ppm cut.pgm | \"$@\"", 2, &["-, picture 2: is cut short: 3 bytes of samples where 4", "1 of 3 "]),
        (
            "cat a.ppm b.ppm text | \"$@\"",
            1,
            &["-, picture 1: goes on after its picture; ", "1 of 2 sweeps were refused"],
        ),
        ("cat a.ppm text | \"$@\"", 0, &["-: goes on after its picture; "]),
        ("cat text | \"$@\"", 0, &["-: is no PNG and no binary netpbm picture"]),
        ("exec \"$@\" < /dev/null", 0, &["-: is empty; look at what was to write it"]),
        ("exec \"$@\" < /dev/zero", 0, &["-: is no PNG and no binary netpbm picture"]),
    ] {
        let _ = fs::remove_dir_all(folder.path("some"));
        let (status, _, errors) = run(&folder, script, &format!("patches - -o some {LIST}"));
        let found: Vec<&str> = errors.lines().collect();
        assert_eq!((status, found.len()), (Some(1), lines.len()), "{script}: {errors}");
        for (found, line) in found.iter().zip(lines) {
            assert!(found.starts_with(&format!("kz: {line}")), "{script}: {errors}");
        }
        assert_eq!(folder.names("some").len(), done, "{script}");
    }
    // Two pictures are compared by two names.
    let (status, _, errors) = run(&folder, all, &format!("compare - a.ppm {LIST}"));
    assert!(status == Some(1) && errors.starts_with("kz: -: goes on after its picture"), "{errors}");
    let (status, _, errors) = run(&folder, all, &format!("patches - -o - {LIST}"));
    assert!(status == Some(2) && errors.contains("-o - is for one file, and there are 3 sweeps"), "{errors}");
}

#[test]
fn where_standard_input_and_output_are_no_use() {
    let folder = Folder::new("standard-usage");
    sweep(&folder, "a.ppm", 8, 12, 1);
    folder.put("b.npy", b"");
    let before = folder.names(".");
    for (words, part) in [
        ("patches - - -o out", "- is standard input, which is read once"),
        ("compare - -", "- is standard input, which is read once"),
        ("encode - -o out --weights -", "- is standard input, which is read once"),
        ("encode a.ppm -o out --config - --tables -", "- is standard input, which is read once"),
        ("salvage b.npy -o - --map -", "- is standard output, which takes one file"),
        ("patches a.ppm -o out --log -", "--log is to be a file"),
        ("patches a.ppm b.npy -o -", "-o - is for one file, and there are 2 sweeps"),
        ("encode --tiles a.ppm -o -", "-o - is for one file, and each tile has one"),
        ("encode a.ppm -o - --skip-existing", "-o - has no file that --skip-existing could find"),
        ("demo -o -", "demo writes many files; give a folder"),
    ] {
        folder.fails(2, words, &[part]);
    }
    folder.put("b.npy", &npy([1, 1, 2], &[1.0, 2.0]));
    let (status, _, errors) = run(&folder, "exec \"$@\" < b.npy", "compare --tokens b.npy -");
    assert!(status == Some(1) && errors.starts_with("kz: -: is no plain file, and is to be read twice"), "{errors}");
    assert_eq!(folder.names("."), before);
}
