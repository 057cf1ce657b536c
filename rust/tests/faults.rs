//! The tool where something is wrong: names, files that are there already, disks, memory.

mod common;

use common::tool::{npy, npy_head, plain, sweep, Folder, LIST, TINY};
use common::Random;
use kyzgultam::pixtral_preprocess;
use std::ffi::{OsStr, OsString};
use std::fs::{self, Permissions};
use std::io::{self, Write};
use std::os::unix::ffi::OsStrExt;
use std::os::unix::fs::{symlink, FileTypeExt, MetadataExt, PermissionsExt};
use std::process::{Command, Stdio};

#[test]
fn a_value_that_looks_like_an_option_is_refused() {
    let folder = Folder::new("values");
    sweep(&folder, "a.ppm", 8, 8, 1);
    for (words, parts) in [
        (
            "patches a.ppm -o --force",
            ["-o needs a value", "--force looks like an option; a name is given as ./--force"],
        ),
        ("patches a.ppm --out=--force", ["-o needs a value", "./--force"]),
        ("patches a.ppm -o -x", ["-o needs a value", "./-x"]),
        ("patches a.ppm --settings --force -o out", ["--settings needs a value", "--force looks like"]),
        ("encode a.ppm -o out --weights --tables t", ["--weights needs a value", "--tables looks like"]),
        ("patches a.ppm -o=", ["-o needs a value", "empty"]),
        ("encode a.ppm -o out --weights=", ["--weights needs a value", "empty"]),
    ] {
        folder.fails(2, words, &parts);
    }
    let output = folder.command("patches a.ppm -o").arg("").output().unwrap();
    assert_eq!(output.status.code(), Some(2));
    let output = folder.command("demo --out").arg(OsStr::from_bytes(b"-\xff\x1b")).output().unwrap();
    assert_eq!(output.status.code(), Some(2));
    assert!(String::from_utf8(output.stderr).unwrap().contains("-\\xff\\u{1b} looks like an option"));
    assert_eq!(folder.names("."), ["a.ppm"]);
    // With its folder before it a name may begin with a dash.
    folder.done(&format!("patches a.ppm -o ./--force {LIST}"));
    assert_eq!(folder.names("--force").len(), 1);
}

#[test]
fn names_are_bytes() {
    let folder = Folder::new("bytes");
    let (a, b) = (OsStr::from_bytes(b"x\xff.ppm"), OsStr::from_bytes(b"x\xfe.ppm"));
    for (name, seed) in [(a, 1), (b, 2)] {
        sweep(&folder, "plain.ppm", 8, 8, seed);
        fs::rename(folder.path("plain.ppm"), folder.path(".").join(name)).unwrap();
    }
    let mut out = OsString::from("--out=");
    out.push(OsStr::from_bytes(b"out\xfd"));
    let output =
        folder.command("patches").args([a, b, &out]).args(["--settings", "patch=2,merge=2,image=16"]).output().unwrap();
    let said = String::from_utf8(output.stdout).unwrap();
    assert_eq!(output.status.code(), Some(0), "{}", String::from_utf8_lossy(&output.stderr));
    assert!(said.contains("out\\xfd/x\\xff.") && said.contains("out\\xfd/x\\xfe."), "{said}");
    let entries = fs::read_dir(folder.path(".").join(OsStr::from_bytes(b"out\xfd"))).unwrap();
    let mut names: Vec<Vec<u8>> = entries.map(|e| e.unwrap().file_name().as_bytes().to_vec()).collect();
    names.sort();
    assert!(names.len() == 2 && names[0].starts_with(b"x\xfe.") && names[1].starts_with(b"x\xff."), "{names:?}");
}

#[test]
fn control_characters_are_escaped() {
    let folder = Folder::new("control");
    let name = "a\x1b[2J\nkz: all is well.ppm";
    sweep(&folder, name, 8, 8, 1);
    let escaped = "a\\u{1b}[2J\\nkz: all is well";
    let run = |words: &str, rest: &[&str]| {
        let output = folder.command(words).args(rest).output().unwrap();
        let said = [output.stdout, output.stderr].concat();
        assert!(said.iter().filter(|b| b.is_ascii_control()).all(|b| *b == b'\n'), "{words}");
        String::from_utf8(said).unwrap()
    };
    // Written, there already, unreadable, two alike, and as options.
    let (other, none, option) = (name.replace("ppm", "pgm"), name.replace("ppm", "none"), format!("-{name}"));
    for (words, rest) in [
        ("patches -o out", &[name][..]),
        ("patches -o out", &[name]),
        ("patches -o out", &[&none]),
        ("encode -o out", &[name, &other]),
        ("compare", &[&none, "x.ppm"]),
        ("restore -o out.ppm --grid 4x6", &[name]),
        ("patches -o out", &[name, &option]),
    ] {
        let said = run(words, rest);
        assert!(said.contains(escaped), "{words}: {said:?}");
        assert_eq!(said.lines().count(), 1, "{words}: {said:?}");
    }
    assert!(run("", &[name]).contains(&format!("no command {escaped}")));
}

#[test]
fn a_run_removes_only_what_it_made() {
    let folder = Folder::new("own");
    sweep(&folder, "a.ppm", 8, 8, 1);
    // A file of another run whose process has the same number, as in another container: exec keeps the number.
    let words = format!("patches a.ppm -o out {LIST}");
    let script = "mkdir out; echo theirs > out/.a.patches.npy.$$.part; exec \"$@\"";
    let output = folder.shell(script, &words).output().unwrap();
    let said = String::from_utf8(output.stderr).unwrap();
    assert_eq!(output.status.code(), Some(0), "{said}");
    assert!(said.starts_with("kz: out/.a.patches.npy.") && said.contains(".part: was begun by a run"), "{said}");
    assert_eq!(folder.get("out/a.patches.npy").len(), 128 + 4 * 8 * 8 * 3);
    let names = folder.names("out");
    assert!(names.len() == 2 && names[0].ends_with(".part"), "{names:?}");
    assert_eq!(folder.get(&format!("out/{}", names[0])), b"theirs\n");
}

#[test]
fn of_two_runs_at_once_one_writes_each_file() {
    let folder = Folder::new("both");
    let names: Vec<String> = (0..16).map(|i| format!("s{i}")).collect();
    let sweeps: Vec<String> = names.iter().map(|name| format!("{name}.ppm")).collect();
    for (sweep, seed) in sweeps.iter().zip(1..) {
        common::tool::sweep(&folder, sweep, 16, 16, seed);
    }
    let sweeps = sweeps.join(" ");
    folder.done(&format!("patches {sweeps} -o right {LIST}"));
    for round in 0..4 {
        let out = format!("out{round}");
        let words = format!("patches {sweeps} -o {out} {LIST}");
        let start = || folder.command(&words).stdout(Stdio::piped()).stderr(Stdio::piped()).spawn().unwrap();
        let outputs = [start(), start()].map(|run| run.wait_with_output().unwrap());
        for name in &names {
            let file = format!("{name}.patches.npy");
            assert_eq!(folder.get(&format!("{out}/{file}")), folder.get(&format!("right/{file}")), "{file}");
            // One says that it wrote the file, and the other that it is there.
            let [one, two] = outputs.each_ref().map(|output| {
                let (said, errors) = (String::from_utf8_lossy(&output.stdout), String::from_utf8_lossy(&output.stderr));
                let wrote = said.contains(&format!("{out}/{file}: 8x8 patches of 12 floats\n"));
                let there = errors.contains(&format!("kz: {out}/{file}: is there already"));
                assert!(wrote != there, "{file}: {said}{errors}");
                wrote
            });
            assert!(one != two, "{file}");
        }
        assert_eq!(folder.names(&out), folder.names("right"));
    }
}

#[test]
fn only_plain_files_are_replaced() {
    let folder = Folder::new("plain");
    sweep(&folder, "a.ppm", 8, 8, 1);
    assert!(Command::new("mkfifo").arg(folder.path("pipe.png")).status().unwrap().success());
    symlink("a.ppm", folder.path("link.png")).unwrap();
    symlink("nowhere", folder.path("loose.png")).unwrap();
    fs::create_dir(folder.path("folder.png")).unwrap();
    let before = folder.get("a.ppm");
    for force in ["", "--force"] {
        for (name, kind) in [
            ("pipe.png", "is a named pipe"),
            ("link.png", "is a symbolic link"),
            ("loose.png", "is a symbolic link"),
            ("folder.png", "is a folder"),
        ] {
            let output = folder.kz(&format!("compare a.ppm a.ppm -o {name} {LIST} {force}"));
            let said = String::from_utf8(output.stderr).unwrap();
            assert_eq!(output.status.code(), Some(1), "{said}");
            let words = format!("kz: {name}: {kind}, no plain file, and was left as it is; give another name\n");
            assert_eq!(said, words);
        }
    }
    // Not forced: a kz that replaces devices would do so here.
    let said = folder.kz(&format!("compare a.ppm a.ppm -o /dev/null {LIST}")).stderr;
    assert!(String::from_utf8(said).unwrap().starts_with("kz: /dev/null: is a device, no plain file"));
    let kind = |name: &str| folder.path(name).symlink_metadata().unwrap().file_type();
    assert!(kind("pipe.png").is_fifo() && kind("link.png").is_symlink() && kind("loose.png").is_symlink());
    assert!(kind("folder.png").is_dir());
    assert!(folder.get("a.ppm") == before && !folder.path("nowhere").exists());
    assert_eq!(folder.names("."), ["a.ppm", "folder.png", "link.png", "loose.png", "pipe.png"]);
}

#[test]
fn a_replaced_file_keeps_its_mode() {
    let folder = Folder::new("mode");
    sweep(&folder, "a.ppm", 8, 8, 1);
    let mode = |name: &str| folder.path(name).metadata().unwrap().permissions().mode() & 0o7777;
    for (umask, old) in [("022", 0o600), ("022", 0o640), ("022", 0o444), ("077", 0o664)] {
        folder.put("map.png", b"old");
        fs::set_permissions(folder.path("map.png"), Permissions::from_mode(old)).unwrap();
        let words = format!("compare a.ppm a.ppm -o map.png --force {LIST}");
        let output = folder.shell(&format!("umask {umask}; exec \"$@\""), &words).output().unwrap();
        assert_eq!(output.status.code(), Some(0), "{}", String::from_utf8_lossy(&output.stderr));
        assert_eq!(mode("map.png"), old, "{old:o}");
        assert_ne!(folder.get("map.png"), b"old");
        fs::remove_file(folder.path("map.png")).unwrap();
    }
    // A new one has what the umask leaves.
    let output = folder.shell("umask 027; exec \"$@\"", &format!("compare a.ppm a.ppm -o map.png {LIST}")).output();
    assert_eq!(output.unwrap().status.code(), Some(0));
    assert_eq!(mode("map.png"), 0o640);
}

#[test]
fn a_long_name_is_a_name() {
    let folder = Folder::new("long");
    sweep(&folder, "a.ppm", 8, 8, 1);
    let name = format!("{}.png", "n".repeat(251));
    folder.done(&format!("compare a.ppm a.ppm -o {name} {LIST}"));
    assert!(folder.path(&name).exists());
    folder.fails(1, &format!("compare a.ppm a.ppm -o n{name} {LIST}"), &["cannot be written: File name too long"]);
    assert_eq!(folder.names(".").len(), 2);
}

/// What kz says with so many KiB of memory, and its status; None where an emulator, which needs more, runs it.
fn limited(folder: &Folder, kib: usize, words: &str) -> Option<(Option<i32>, String)> {
    if std::env::var_os("KZ_EMULATOR").is_some() {
        return None;
    }
    let output = folder.shell(&format!("ulimit -v {kib}; exec \"$@\""), words).output().unwrap();
    let said = [output.stdout, output.stderr].concat();
    Some((output.status.code(), String::from_utf8(said).unwrap()))
}

/// A file of zeros after its beginning, of which the disk has nothing.
fn sparse(folder: &Folder, name: &str, beginning: &[u8], len: u64) {
    folder.put(name, beginning);
    fs::File::options().write(true).open(folder.path(name)).unwrap().set_len(len).unwrap();
}

#[test]
fn memory_is_asked_for_first() {
    let folder = Folder::new("memory");
    sparse(&folder, "large.pgm", b"P5 2048 2048 255\n", 17 + 2048 * 2048);
    sparse(&folder, "largest.ppm", b"P6 8192 8192 255\n", 17 + 3 * 8192 * 8192);
    sparse(&folder, "large.patches", b"", 4 * 3 * 2048 * 2048);
    sparse(&folder, "large.tables", b"", 4 * 2 * 2048 * 2048 * 256);
    sparse(&folder, "large.safetensors", b"", 100_000_000);
    sweep(&folder, "a.ppm", 8, 8, 1);
    let fine = "patch=1,merge=1,image=2048";
    for (kib, words, parts) in [
        (
            900_000,
            format!("encode a.ppm -o out --tables large.tables --settings {fine},hidden=256,heads=1"),
            ["--settings: there is no memory for a rotary table (image=2048, patch=1, head=256)", "4294967296 bytes"],
        ),
        (
            900_000,
            format!("encode large.pgm -o out --settings {fine},hidden=4,heads=1,layers=0,intermediate=8192,text=1"),
            ["large.pgm: there is no memory for the scratch of its grid of 2048x2048 patches (hidden=4, intermediate=8192, text=1, image=2048)", "275398000640 bytes"],
        ),
        (
            900_000,
            format!("encode large.pgm -o out --settings {fine},hidden=4,heads=1,layers=0,text=4096"),
            ["large.pgm: there is no memory for the token vectors of its grid of 2048x2048 patches (text=4096, image=2048)", "68719476736 bytes"],
        ),
        (
            900_000,
            "encode a.ppm -o out --settings hidden=2048,heads=8,layers=48,intermediate=8192".into(),
            ["--settings: there is no memory for the weights (hidden=2048, layers=48, intermediate=8192, text=64)", "12"],
        ),
        (
            50_000,
            format!("patches large.pgm -o out --settings {fine}"),
            ["large.pgm: there is no memory for its patches (image=2048)", "50331648 bytes"],
        ),
        (
            50_000,
            format!("compare large.pgm large.pgm --settings {fine}"),
            ["large.pgm: there is no memory for its patches (image=2048)", "50331648 bytes"],
        ),
        (
            50_000,
            format!("restore large.patches --grid 2048x2048 -o out.ppm --settings {fine}"),
            ["large.patches: there is no memory for the patches of its grid of 2048x2048 (patch=1)", "50331648 bytes"],
        ),
        (
            50_000,
            "patches largest.ppm -o out".into(),
            ["largest.ppm: there is no memory for its 8192x8192 pixels", "201326592 bytes"],
        ),
        (
            50_000,
            "weights large.safetensors -o out.f32".into(),
            ["large.safetensors: there is no memory for its bytes", "100000000 bytes"],
        ),
        (
            50_000,
            "bench --size 8192x8192".into(),
            ["there is no memory for a picture of 8192x8192 pixels (image=1540)", "201326592 bytes"],
        ),
    ] {
        let Some((status, said)) = limited(&folder, kib, &words) else { return };
        assert_eq!(status, Some(1), "{words}: {said}");
        for part in parts {
            assert!(said.contains(part), "{words}: {part:?} is not in {said:?}");
        }
    }
}

#[test]
fn weights_are_held_once() {
    let folder = Folder::new("once");
    sweep(&folder, "a.ppm", 2, 2, 1);
    // 8192 x 8192 floats of linear_2, and little else: 270 MB of weights in 420 MB.
    let settings = "--settings patch=2,merge=1,image=2,hidden=4,heads=1,layers=0,intermediate=1,text=8192";
    let weights = 4 * 12 + 4 + 4 + 16 + 8192 * 4 + 8192 * 8192;
    sparse(&folder, "w", b"", 4 * weights);
    let Some((status, said)) = limited(&folder, 420_000, &format!("encode a.ppm -o out --weights w {settings}")) else {
        return;
    };
    assert_eq!(status, Some(0), "{said}");
    // The tables too: 2 x 67 MB in 190 MB. Without, the built-in ones are small.
    let settings = "--settings patch=1,merge=1,image=1024,hidden=16,heads=1,layers=0,intermediate=1,text=1";
    sparse(&folder, "t", b"", 4 * 2 * 1024 * 1024 * 16);
    for (kib, tables) in [(190_000, "--tables t"), (20_000, "")] {
        let words = format!("encode a.ppm -o out {tables} --force {settings}");
        let (status, said) = limited(&folder, kib, &words).unwrap();
        assert_eq!(status, Some(0), "{said}");
    }
}

#[test]
fn a_length_is_tested_before_it_is_read() {
    let folder = Folder::new("length");
    sweep(&folder, "a.ppm", 8, 8, 1);
    let tib = 1 << 40;
    sparse(&folder, "long.ppm", b"P6 8 8 255\n", tib);
    sparse(&folder, "comment.ppm", b"P6 #", tib);
    sparse(&folder, "long", b"", tib);
    for (words, part) in [
        ("patches long.ppm -o out", "long.ppm: goes on for 1099511627573 bytes after its picture"),
        ("compare a.ppm long.ppm", "long.ppm: goes on for 1099511627573 bytes"),
        ("patches comment.ppm -o out", "comment.ppm: is no netpbm picture: its header is longer than 65536 bytes"),
        ("patches long -o out", "long: is no PNG and no binary netpbm picture"),
        ("encode a.ppm -o out --weights long", "long: refused, number 9: "),
        (
            "encode a.ppm -o out --tables long",
            "it has 1099511627776 bytes, and these settings ask for 2048 (512 floats",
        ),
        ("restore long --grid 4x4 -o out.ppm", "long: refused, number 7: "),
    ] {
        folder.fails(1, &format!("{words} {LIST}"), &[part]);
    }
    // What has no length is read as far as it may go.
    for (words, part) in [
        ("patches /dev/zero -o out", "/dev/zero: is no PNG and no binary netpbm picture"),
        ("encode a.ppm -o out --weights /dev/zero", "it has more than "),
        ("encode a.ppm -o out --tables /dev/zero", "it has more than 2048 bytes"),
        ("restore /dev/zero --grid 4x4 -o out.ppm", "/dev/zero: refused, number 7: "),
        ("encode a.ppm -o out --weights /dev/null", "it has 0 bytes"),
        ("restore /dev/null --grid 4x4 -o out.ppm", "/dev/null: refused, number 7: "),
    ] {
        let Some((status, said)) = limited(&folder, 500_000, &format!("{words} {LIST}")) else { return };
        assert!(status == Some(1) && said.contains(part), "{words}: {said}");
    }
    let pipe = |script: &str, words: &str| {
        let output = folder.shell(&format!("{script} | \"$@\""), &format!("{words} {LIST}")).output().unwrap();
        (output.status.code(), String::from_utf8(output.stderr).unwrap())
    };
    assert_eq!(pipe("cat a.ppm", "patches /dev/stdin -o out"), (Some(0), String::new()));
    let (status, said) = pipe("cat a.ppm a.ppm", "patches /dev/stdin -o out --force");
    assert!(status == Some(1) && said.contains("/dev/stdin: goes on after its picture"), "{said}");
    let (status, said) = pipe("head -c 100 a.ppm", "patches /dev/stdin -o out --force");
    assert!(status == Some(1) && said.contains("is cut short: 89 bytes of samples where 192 belong"), "{said}");
}

#[test]
fn a_patches_file_says_its_shape() {
    let folder = Folder::new("shape");
    let rgb = sweep(&folder, "a.ppm", 8, 12, 1);
    let mut patches = vec![0.0; rgb.len()];
    pixtral_preprocess(&rgb, 8, 12, &TINY, &mut patches).unwrap();
    folder.done(&format!("patches a.ppm -o . {LIST}"));
    // A name says nothing.
    fs::rename(folder.path("a.patches.npy"), folder.path("a.6x4.patches")).unwrap();
    folder.done(&format!("restore a.6x4.patches -o back.ppm {LIST}"));
    assert_eq!(folder.get("back.ppm"), folder.get("a.ppm"));
    folder.put("old.6x4.patches", &plain(&patches));
    folder.fails(2, &format!("restore old.6x4.patches -o out.ppm {LIST}"), &["old.6x4.patches: ", "give --grid HxW"]);

    let fails = |name: &str, words: &str, parts: &[&str]| {
        folder.fails(1, &format!("restore {name} -o out.ppm {words} {LIST}"), parts);
    };
    fails("a.6x4.patches", "--grid 6x4", &["a.6x4.patches: has a grid of 4x6, and --grid says 6x4; leave --grid out"]);
    for (shape, part) in [
        ([4, 6, 11], "damaged: its shape 4x6x11 asks for 1056 bytes, and 1152 stand behind its header"),
        ([4, 4, 12], "damaged: its shape 4x4x12"),
        ([6, 6, 8], "number 7: "),
        ([24, 1, 12], "number 6: "),
        ([3, 8, 12], "number 6: "),
        ([0, 0, 0], "damaged"),
    ] {
        folder.put("wrong.npy", &npy(shape, &patches));
        fails("wrong.npy", "", &["wrong.npy: ", part]);
    }
    let whole = npy([4, 6, 12], &patches);
    folder.put("cut.npy", &whole[..whole.len() - 4]);
    fails("cut.npy", "", &["cut.npy: is damaged"]);
    folder.put("more.npy", &[&whole[..], b"1234"].concat());
    fails("more.npy", "", &["more.npy: is damaged"]);
    folder.put("plain.npy", &plain(&patches));
    fails("plain.npy", "--grid 4x6", &["plain.npy: is no .npy file"]);
    // From a pipe its length shows at its end.
    for (script, part) in [("head -c 1200 cut.npy", "number 7"), ("cat more.npy", "number 7")] {
        let words = format!("restore /dev/stdin -o out.ppm {LIST}");
        let output = folder.shell(&format!("{script} | \"$@\""), &words).output().unwrap();
        assert!(String::from_utf8(output.stderr).unwrap().contains(part));
    }
    // Another patch size, and token vectors: not the patches of these settings.
    folder.fails(1, "restore a.6x4.patches -o out.ppm", &["number 7", "4x6 patches of 12 floats", "--settings"]);
    folder.done(&format!("encode a.ppm -o . {LIST}"));
    folder.fails(1, "restore a.tokens.npy -o out.ppm --settings patch=2,merge=1,image=16", &["number 7"]);
    assert!(!folder.path("out.ppm").exists());
}

#[test]
fn hostile_npy_headers_are_refused() {
    let folder = Folder::new("hostile");
    let dict = |descr: &str, order: &str, shape: &str| {
        npy_head(&format!("{{'descr': {descr}, 'fortran_order': {order}, 'shape': {shape}, }}"))
    };
    let nines = "9".repeat(400);
    let mut random = Random(9);
    let mut heads = vec![
        dict("'<f8'", "False", "(4, 4, 12)"),
        dict("'>f4'", "False", "(4, 4, 12)"),
        dict("'<f4'", "True", "(4, 4, 12)"),
        dict("'<f4'", "False", "(16, 12)"),
        dict("'<f4'", "False", &format!("({nines}, 4, 12)")),
        dict("'<f4'", "False", "(18446744073709551615, 18446744073709551615, 18446744073709551615)"),
        dict("'<f4'", "False", "(4611686018427387904, 1, 1)"),
        dict("'<f4'", "False", "(-4, -4, 12)"),
        dict("'\u{1b}[2J'", "False", "(4, 4, 12)"),
        npy_head(&"{".repeat(60_000)),
        npy_head(&"'".repeat(60_000)),
        npy_head("__import__('os').system('true')"),
        b"\x93NUMPY".to_vec(),
        b"\x93NUMPY\x01\x00\xff\xff".to_vec(),
        b"\x93NUMPY\x02\x00\xff\xff\xff\xff".to_vec(),
        b"\x93NUMPY\x01\x00\x00\x00".to_vec(),
    ];
    heads.extend((0..40).map(|_| [&b"\x93NUMPY\x01\x00\x40\x00"[..], &random.bytes(64)].concat()));
    for head in heads {
        folder.put("hostile.npy", &[&head[..], &[0; 4 * 4 * 12 * 4]].concat());
        let output = folder.kz(&format!("restore hostile.npy -o out.ppm {LIST}"));
        let said = String::from_utf8(output.stderr).unwrap();
        assert_eq!(output.status.code(), Some(1), "{said}");
        assert!(said.starts_with("kz: hostile.npy: ") && said.lines().count() == 1, "{said}");
        assert!(!said.contains('\u{1b}'));
    }
}

/// Whether there is a NumPy. Where there is none, the test that asks says so past the harness, which hides it.
fn numpy(test: &str) -> bool {
    let there = Command::new("python3").args(["-c", "import numpy"]).stderr(Stdio::null()).status();
    let there = there.is_ok_and(|status| status.success());
    if !there {
        let _ = writeln!(io::stderr(), "{test}: skipped: python3 with numpy is not installed");
    }
    there
}

#[test]
fn numpy_reads_what_is_written_and_writes_what_is_read() {
    if !numpy("numpy_reads_what_is_written_and_writes_what_is_read") {
        return;
    }
    let folder = Folder::new("numpy");
    let rgb = sweep(&folder, "a.ppm", 8, 12, 1);
    folder.done(&format!("patches a.ppm -o . {LIST}"));
    folder.done(&format!("encode a.ppm -o . {LIST}"));
    folder.done(&format!("encode a.ppm -o half --bf16 {LIST}"));
    let script = "\
import numpy, sys
patches, tokens = numpy.load('a.patches.npy'), numpy.load('a.tokens.npy')
assert patches.shape == (4, 6, 12) and tokens.shape == (2, 3, 3), (patches.shape, tokens.shape)
for array in (patches, tokens):
    assert array.dtype == numpy.dtype('<f4') and array.flags['C_CONTIGUOUS'] and not numpy.isfortran(array)
assert patches.tobytes() == open('a.patches.npy', 'rb').read()[128:]
# A patch's samples by channel, row and column: the pixel at row 3, column 8, from its place and back to its byte.
rgb = numpy.frombuffer(open('a.ppm', 'rb').read()[-8 * 12 * 3:], 'u1').reshape(8, 12, 3)
mean, std = (0.48145466, 0.4578275, 0.40821073), (0.26862954, 0.26130258, 0.27577711)
for c in range(3):
    value = patches[1, 4].reshape(3, 2, 2)[c, 1, 0] * std[c] + mean[c]
    assert round(float(value) * 255) == rgb[3, 8, c], (c, value)
# The bits are bf16's, and README's line reads them as floats.
packed = numpy.load('half/a.tokens.npy')
assert packed.dtype == numpy.dtype('<u2') and packed.shape == tokens.shape
bits = tokens.view('<u4')
assert ((packed.astype('<u4') << 16) == ((bits + 0x7FFF + (bits >> 16 & 1)) & 0xFFFF0000)).all()
wide = (numpy.load('half/a.tokens.npy').astype('<u4') << 16).view('<f4')
assert wide.dtype == numpy.dtype('<f4') and numpy.allclose(wide, tokens, rtol=1 / 256)
numpy.save('same.npy', patches)
numpy.save('wide.npy', patches.astype('<f8'))
numpy.save('big.npy', patches.astype('>f4'))
numpy.save('fortran.npy', numpy.asfortranarray(patches))
numpy.save('flat.npy', patches.reshape(24, 12))
numpy.save('turned.npy', numpy.ascontiguousarray(patches.transpose(1, 0, 2)))
with open('second.npy', 'wb') as f:
    numpy.lib.format.write_array(f, patches, version=(2, 0))
";
    let output = Command::new("python3").args(["-c", script]).current_dir(folder.path(".")).output().unwrap();
    assert!(output.status.success(), "{}", String::from_utf8_lossy(&output.stderr));
    assert_eq!(folder.get("same.npy"), folder.get("a.patches.npy"));
    folder.done(&format!("restore same.npy -o same.ppm {LIST}"));
    assert_eq!(folder.get("same.ppm"), common::tool::p6(8, 12, &rgb));
    folder.done(&format!("restore turned.npy -o turned.ppm {LIST}"));
    assert!(folder.get("turned.ppm").starts_with(b"P6\n8 12\n"));
    for (name, part) in [
        ("wide", "descr is not '<f4'"),
        ("big", "descr is not '<f4'"),
        ("fortran", "fortran_order is not False"),
        ("flat", "not of three sizes"),
        ("second", "version 2.0"),
    ] {
        folder.fails(1, &format!("restore {name}.npy -o out.ppm {LIST}"), &[&format!("{name}.npy: "), part]);
    }
}

/// Status, what is said, and what is said of errors.
fn outcome(mut command: Command) -> (Option<i32>, String, String) {
    let output = command.output().unwrap();
    let text = |bytes| String::from_utf8(bytes).unwrap();
    (output.status.code(), text(output.stdout), text(output.stderr))
}

#[test]
fn a_list_goes_on_after_a_crash() {
    let folder = Folder::new("crash");
    for (name, seed) in [("a", 1), ("b", 2), ("c", 3)] {
        sweep(&folder, &format!("{name}.ppm"), 8, 8, seed);
    }
    for (command, kind) in [("patches", "patches"), ("encode", "tokens")] {
        let words = format!("{command} a.ppm b.ppm c.ppm -o {kind} {LIST}");
        let file = |name: &str| format!("{kind}/{name}.{kind}.npy");
        folder.done(&words);
        let whole = ["a", "b", "c"].map(|name| folder.get(&file(name)));
        // b was not written when the run was killed, and something that was begun is left.
        fs::remove_file(folder.path(&file("b"))).unwrap();
        let left = format!("{kind}/.kz-0123456789abcdef.part");
        folder.put(&left, b"half");
        let place = |name: &str| folder.path(&file(name)).metadata().unwrap().ino();
        let before = (place("a"), place("c"));

        let (status, said, errors) = outcome(folder.command(&format!("{words} --skip-existing")));
        assert_eq!(status, Some(0), "{errors}");
        let lines: Vec<&str> = said.lines().collect();
        assert_eq!(lines[0], format!("{}: is there already, skipped", file("a")));
        assert!(lines[1].starts_with(&format!("{}: ", file("b"))) && !lines[1].contains("skipped"), "{said}");
        assert_eq!(lines[2], format!("{}: is there already, skipped", file("c")));
        let words_of_part = "was begun by a run that is at work now, or was killed; if none is at work here, remove it";
        assert_eq!(errors, format!("kz: {left}: {words_of_part}\n"));
        assert_eq!(folder.get(&left), b"half");
        assert_eq!((place("a"), place("c")), before);
        assert_eq!(["a", "b", "c"].map(|name| folder.get(&file(name))), whole);
        fs::remove_file(folder.path(&left)).unwrap();

        // Without it they are there already, and are not called refused.
        let (status, said, errors) = outcome(folder.command(&words));
        assert_eq!((status, &said[..]), (Some(1), ""), "{errors}");
        let last = "kz: 3 of 3 sweeps had their file already; --skip-existing takes such files for done\n";
        assert!(errors.ends_with(last) && !errors.contains("refused"), "{errors}");
        folder.put("d.ppm", b"P6 no");
        let (_, _, errors) = outcome(folder.command(&format!("{words} d.ppm")));
        assert!(errors.contains("kz: 1 of 4 sweeps were refused, 3 had their file already; "), "{errors}");
        // One sweep alone.
        let said = folder.done(&format!("{command} a.ppm -o {kind} --skip-existing {LIST}"));
        assert_eq!(said, format!("{}: is there already, skipped\n", file("a")));
    }
}

#[test]
fn only_whole_files_are_skipped() {
    let folder = Folder::new("whole");
    sweep(&folder, "a.ppm", 8, 8, 1);
    sweep(&folder, "b.ppm", 8, 8, 1);
    let words = format!("patches a.ppm b.ppm -o out --skip-existing {LIST}");
    folder.done(&words);
    let whole = folder.get("out/a.patches.npy");
    for (bytes, part) in [
        (&b""[..], "is no .npy file"),
        (b"precious", "is no .npy file"),
        (&whole[..100], "ends inside its .npy header"),
        (&whole[..whole.len() - 1], "is damaged"),
        (&npy([4, 4, 3], &[0.0; 48]), "has vectors of 3 floats, and these --settings give 12"),
    ] {
        folder.put("out/a.patches.npy", bytes);
        let (status, said, errors) = outcome(folder.command(&words));
        assert_eq!(status, Some(1));
        assert!(said.contains("out/b.patches.npy: is there already, skipped"), "{said}");
        assert!(errors.contains(&format!("kz: out/a.patches.npy: was not skipped: it {part}")), "{errors}");
        assert_eq!(folder.get("out/a.patches.npy"), bytes);
    }
    fs::remove_file(folder.path("out/a.patches.npy")).unwrap();
    fs::create_dir(folder.path("out/a.patches.npy")).unwrap();
    folder.fails(1, &words, &["out/a.patches.npy: is a folder", "1 of 2 sweeps were refused"]);
}

#[test]
fn a_list_stops_where_nothing_can_be_written() {
    let folder = Folder::new("stop");
    sweep(&folder, "a.ppm", 2, 2, 1);
    for (name, seed) in [("b", 2), ("c", 3), ("d", 4)] {
        sweep(&folder, &format!("{name}.ppm"), 16, 16, seed);
    }
    // Files of one block at most, as on a disk that is full: a fits.
    let words = format!("patches a.ppm b.ppm c.ppm d.ppm -o out {LIST}");
    let full = "trap '' XFSZ; ulimit -f 1; exec \"$@\"";
    let (status, said, errors) = outcome(folder.shell(full, &words));
    assert_eq!(status, Some(1), "{errors}");
    assert_eq!(said, "out/a.patches.npy: 2x2 patches of 12 floats\n");
    let lines: Vec<&str> = errors.lines().collect();
    assert!(lines.len() == 2 && lines[0].starts_with("kz: out/b.patches.npy: cannot be written: "), "{errors}");
    assert!(lines[1].starts_with("kz: stopped, with 3 of 4 sweeps still to do; "), "{errors}");
    assert_eq!(folder.names("out"), ["a.patches.npy"]);
    // With room it goes on from there.
    let said = folder.done(&format!("{words} --skip-existing"));
    assert!(said.starts_with("out/a.patches.npy: is there already, skipped\n") && said.lines().count() == 4, "{said}");

    // A folder in which nobody may write; root may in one of the first kind.
    fs::create_dir(folder.path("locked")).unwrap();
    fs::set_permissions(folder.path("locked"), Permissions::from_mode(0o555)).unwrap();
    let root = fs::write(folder.path("locked/probe"), b"").is_ok();
    let out = if root { "/proc" } else { "locked" };
    let (status, said, errors) = outcome(folder.command(&format!("patches a.ppm b.ppm c.ppm -o {out} {LIST}")));
    assert_eq!((status, &said[..]), (Some(1), ""));
    let lines: Vec<&str> = errors.lines().collect();
    assert!(lines[0].starts_with(&format!("kz: {out}/a.patches.npy: cannot be written: ")), "{errors}");
    assert!(lines.len() == 2 && lines[1].starts_with("kz: stopped, with 3 of 3 sweeps still to do; "), "{errors}");

    // A name that is too long is that sweep's own fault.
    let long = format!("{}.ppm", "n".repeat(250));
    sweep(&folder, &long, 8, 8, 5);
    let (status, said, errors) = outcome(folder.command(&format!("patches {long} c.ppm -o new {LIST}")));
    assert_eq!(status, Some(1));
    assert!(said.starts_with("new/c.patches.npy: "), "{said}");
    assert!(errors.ends_with("kz: 1 of 2 sweeps were refused\n"), "{errors}");
}

#[test]
fn of_two_runs_that_skip_both_are_done() {
    let folder = Folder::new("skip");
    let sweeps: Vec<String> = (0..16).map(|i| format!("s{i}.ppm")).collect();
    for (name, seed) in sweeps.iter().zip(1..) {
        sweep(&folder, name, 16, 16, seed);
    }
    let words = format!("patches {} -o out --skip-existing {LIST}", sweeps.join(" "));
    let start = || folder.command(&words).stdout(Stdio::piped()).stderr(Stdio::piped()).spawn().unwrap();
    let outputs = [start(), start()].map(|run| run.wait_with_output().unwrap());
    let said = outputs.each_ref().map(|output| String::from_utf8_lossy(&output.stdout).into_owned()).concat();
    assert!(outputs.iter().all(|output| output.status.code() == Some(0)));
    assert_eq!(said.lines().filter(|line| line.ends_with(": is there already, skipped")).count(), 16, "{said}");
    assert_eq!(said.lines().count(), 32);
    assert_eq!(folder.names("out").len(), 16);
}

#[test]
fn an_answer_that_cannot_be_said_is_an_error() {
    let folder = Folder::new("full");
    sweep(&folder, "a.ppm", 8, 8, 1);
    let full = || fs::File::options().write(true).open("/dev/full").unwrap();
    let output = folder.command(&format!("compare a.ppm a.ppm {LIST}")).stdout(full()).output().unwrap();
    let said = String::from_utf8(output.stderr).unwrap();
    assert_eq!(output.status.code(), Some(1), "{said}");
    assert!(said.starts_with("kz: standard output cannot be written: "), "{said}");
    // What a list says besides its files is no answer.
    let output = folder.command(&format!("patches a.ppm -o out {LIST}")).stdout(full()).output().unwrap();
    assert_eq!(output.status.code(), Some(0));
}
