//! Sweeps by a list, and shards of it.

mod common;

use common::tool::{sweep, Folder, LIST};
use std::ffi::OsStr;
use std::fs;
use std::os::unix::ffi::OsStrExt;
use std::process::{Command, Stdio};
use std::thread::sleep;
use std::time::Duration;

/// Nine sweeps of several sizes, their names as a list, and the same on a command line.
fn nine(folder: &Folder) -> (String, String) {
    let names: Vec<String> = (0..9).map(|i| format!("s{i}.ppm")).collect();
    for (i, name) in names.iter().enumerate() {
        sweep(folder, name, 4 + 3 * i, 20 - i, 1 + i as u64);
    }
    folder.put("list", format!("{}\n", names.join("\n")).as_bytes());
    (names.join("\n"), names.join(" "))
}

fn files(folder: &Folder, out: &str) -> Vec<(String, Vec<u8>)> {
    folder.names(out).into_iter().map(|name| (name.clone(), folder.get(&format!("{out}/{name}")))).collect()
}

#[test]
fn names_of_a_list() {
    let folder = Folder::new("lists");
    let (lines, names) = nine(&folder);
    let said = folder.done(&format!("encode {names} -o out --log names.log {LIST}"));
    let right = files(&folder, "out");
    folder.put("null", lines.replace('\n', "\0").as_bytes());
    folder.put("blank", format!("\n\n{}", lines.replace('\n', "\n\n")).as_bytes());
    for (i, words) in ["--list list", "--list=blank", "--list null --null", "--list - --jobs 3"].into_iter().enumerate()
    {
        fs::remove_dir_all(folder.path("out")).unwrap();
        let log = format!("job{i}.log");
        let words = format!("encode -o out --log {log} {words} {LIST}");
        let output = folder.shell("exec \"$@\" < list", &words).output().unwrap();
        assert_eq!((output.status.code(), output.stdout), (Some(0), said.clone().into_bytes()), "{words}");
        assert_eq!(files(&folder, "out"), right, "{words}");
        assert_eq!(folder.get(&log), folder.get("names.log"));
    }
    // Names are bytes.
    let name = OsStr::from_bytes(b" x\ny\xff .ppm");
    fs::copy(folder.path("s0.ppm"), folder.path(".").join(name)).unwrap();
    folder.put("odd", &[name.as_bytes(), b"\0s1.ppm\0"].concat());
    let said = folder.done(&format!("patches -o odd_out --list odd --null {LIST}"));
    assert!(said.starts_with("odd_out/ x\\ny\\xff .patches.npy: "), "{said}");
}

/// All shards together do the list, each sweep once, with the lines of the whole log.
#[test]
fn shards_are_the_list() {
    let folder = Folder::new("shards");
    nine(&folder);
    let whole = folder.done(&format!("patches --list list -o whole --log whole.log {LIST}"));
    let whole_log = String::from_utf8(folder.get("whole.log")).unwrap();
    for count in [1, 2, 4, 9, 12] {
        let out = format!("out{count}");
        let (mut said, mut lines): (Vec<String>, Vec<String>) = (vec![], vec![]);
        for index in 1..=count {
            let log = format!("{count}-{index}.log");
            let words = format!("patches --list list --shard {index}/{count} -o {out} --log {log} {LIST}");
            let words = folder.done(&words);
            if index > 9 {
                assert_eq!(words, format!("no sweep of 9 is in shard {index}/{count}\n"));
            } else {
                said.extend(words.lines().map(|line| line.replace(&out, "whole")));
            }
            lines.extend(String::from_utf8(folder.get(&log)).unwrap().lines().map(String::from));
        }
        assert_eq!(files(&folder, &out), files(&folder, "whole"), "{count}");
        said.sort();
        lines.sort();
        assert_eq!(said, whole.lines().collect::<Vec<_>>());
        assert_eq!(lines, whole_log.lines().collect::<Vec<_>>());
    }
    // Every fourth from the second on.
    let said = folder.done(&format!("patches --list list --shard 2/4 -o second {LIST}"));
    assert_eq!(folder.names("second"), ["s1.patches.npy", "s5.patches.npy"], "{said}");
    // Names on the command line have shards too.
    folder.done(&format!("patches s0.ppm s1.ppm s2.ppm --shard 3/3 -o third {LIST}"));
    assert_eq!(folder.names("third"), ["s2.patches.npy"]);
}

/// Equal names get their folders' out of the whole list, whatever the shard has of it, and places are the whole list's.
#[test]
fn names_do_not_hang_on_the_shard() {
    let folder = Folder::new("shards-names");
    fs::create_dir(folder.path("d")).unwrap();
    for name in ["a.ppm", "d/a.ppm", "b.ppm"] {
        sweep(&folder, name, 8, 8, 1);
    }
    folder.put("list", b"b.ppm\na.ppm\nd/a.ppm\n");
    for index in 1..=3 {
        folder.done(&format!("patches --list list --shard {index}/3 -o out --log {index}.log {LIST}"));
        assert!(folder.get(&format!("{index}.log")).starts_with(format!("sweep={} ", index - 1).as_bytes()));
    }
    assert_eq!(folder.names("out"), ["a.patches.npy", "b.patches.npy", "d.a.patches.npy"]);
}

/// Pictures of standard input are sweeps of the list, and those of the shard are done.
#[test]
fn a_shard_of_standard_input() {
    let folder = Folder::new("shards-stdin");
    for i in 0..4 {
        sweep(&folder, &format!("s{i}.ppm"), 4, 4 + 4 * i, 1 + i as u64);
    }
    let run = |words: &str| {
        let words = format!("patches {words} {LIST}");
        let output = folder.shell("cat s1.ppm s2.ppm s3.ppm | \"$@\"", &words).output().unwrap();
        assert_eq!(output.status.code(), Some(0), "{words}");
        output
    };
    run("s0.ppm - -o whole --jobs 3 --log whole.log");
    let whole = String::from_utf8(folder.get("whole.log")).unwrap();
    let places: Vec<&str> = whole.lines().map(|line| line.split(' ').next().unwrap()).collect();
    assert_eq!(places, ["sweep=0", "sweep=1", "sweep=2", "sweep=3"]);
    for index in 1..=5 {
        run(&format!("s0.ppm - -o out --jobs 2 --shard {index}/5 --log {index}.log"));
    }
    assert_eq!(
        folder.names("out"),
        ["s0", "stdin.f0000", "stdin.f0001", "stdin.f0002"].map(|s| format!("{s}.patches.npy"))
    );
    assert_eq!(files(&folder, "out"), files(&folder, "whole"));
    let logs: Vec<u8> = (1..=5).flat_map(|index| folder.get(&format!("{index}.log"))).collect();
    assert_eq!(logs, folder.get("whole.log"));
    // One file of several sweeps, or none, is no more than standard output takes.
    assert_eq!(run("- -o - --shard 2/3").stdout, folder.get("whole/stdin.f0001.patches.npy"));
    let none = run("- -o - --shard 4/4");
    assert_eq!((none.stdout, none.stderr), (vec![], b"no sweep of 3 is in shard 4/4\n".to_vec()));
}

#[test]
fn lists_that_are_refused() {
    let folder = Folder::new("lists-refused");
    nine(&folder);
    fs::create_dir(folder.path("d")).unwrap();
    sweep(&folder, "d/s0.ppm", 8, 8, 1);
    folder.put("empty", b"\n\n");
    folder.put("windows", b"s0.ppm\r\ns1.ppm\r\n");
    folder.put("zeros", b"s0.ppm\0s1.ppm\0");
    folder.put("twice", b"s0.ppm\ns1.ppm\n./s0.ppm\n");
    folder.put("dash", b"s0.ppm\n-\n");
    for (words, status, parts) in [
        ("--list", 2, &["--list needs a value"][..]),
        ("--list none", 1, &["none: cannot be read"]),
        ("--list d", 1, &["d: cannot be read"]),
        ("--list empty", 1, &["empty: names no sweep"]),
        ("--list windows", 1, &["windows: line 1 ends in a carriage return", "newlines alone"]),
        ("--list zeros", 1, &["zeros: line 1 has a byte 0", "--null"]),
        ("--list list s0.ppm", 2, &["by their names or by --list, not both"]),
        ("--null s0.ppm", 2, &["--null says how the names of --list end"]),
        // One file for two sweeps, though each is in a shard of its own.
        ("--list twice --shard 1/2", 2, &["s0.ppm and ./s0.ppm would be written to the same file"]),
        ("--list dash", 1, &["dash: names -, and standard input is no part of a list", "./-"]),
        ("--list - -", 2, &["- is standard input, which is read once"]),
        ("--list list --shard 0/4", 2, &["--shard takes I/N, as 2/8, with I from 1 to N; 0/4 is none"]),
        ("--list list --shard 5/4", 2, &["5/4 is none"]),
        ("--list list --shard 1/0", 2, &["1/0 is none"]),
        ("--list list --shard 1", 2, &["; 1 is none"]),
        ("--list list --shard 1/2/3", 2, &["1/2/3 is none"]),
        ("--list list --shard a/b", 2, &["a/b is none"]),
        ("--list list --shard +1/2", 2, &["+1/2 is none"]),
        ("--list list --shard 1/99999999999999999999", 2, &["is none"]),
        ("--list list --shard -1/4", 2, &["--shard needs a value"]),
        ("--list list --shard 1/2 --shard 2/2", 2, &["--shard is given twice"]),
    ] {
        for command in ["patches", "encode"] {
            folder.fails(status, &format!("{command} -o out {words} {LIST}"), parts);
        }
    }
    folder.fails(2, "patches --list list", &["-o DIR is missing"]);
    assert!(!folder.path("out").exists());
}

/// A shard that was killed goes on where it was; what is left is the sweeps without a file, and those alone are done.
#[test]
fn a_killed_shard_goes_on() {
    let folder = Folder::new("lists-killed");
    nine(&folder);
    folder.done(&format!("encode --list list -o right {LIST}"));
    // The run waits at the fifth sweep, the third of its shard, since nobody writes there.
    let bytes = folder.get("s4.ppm");
    fs::remove_file(folder.path("s4.ppm")).unwrap();
    assert!(Command::new("mkfifo").arg(folder.path("s4.ppm")).status().unwrap().success());
    let words = format!("encode --list list --shard 1/2 -o out {LIST}");
    let mut run = folder.command(&words).stdout(Stdio::null()).spawn().unwrap();
    for _ in 0..3000 {
        if folder.path("out/s2.tokens.npy").exists() {
            break;
        }
        sleep(Duration::from_millis(10));
    }
    run.kill().unwrap();
    run.wait().unwrap();
    assert_eq!(folder.names("out"), ["s0.tokens.npy", "s2.tokens.npy"]);
    fs::remove_file(folder.path("s4.ppm")).unwrap();
    folder.put("s4.ppm", &bytes);
    let said = folder.done(&format!("{words} --skip-existing"));
    assert_eq!(said.matches("is there already, skipped").count(), 2, "{said}");
    folder.done(&format!("encode --list list --shard 2/2 -o out {LIST}"));
    assert_eq!(files(&folder, "out"), files(&folder, "right"));
}
