//! `kz bench --peer`, with other programs in PyTorch's place: what it asks, what it compares, and where it is skipped.

mod common;

use common::tool::{plain, Folder};
use kyzgultam::{forward, EncoderSettings, PictureSettings};
use std::env;
use std::fs::{self, File};
use std::io::{stdin, BufRead, Read, Write};
use std::os::unix::fs::PermissionsExt;
use std::process::Command;
use std::sync::{Mutex, PoisonError};

/// One test at a time: a program cannot be run while a process that another thread started has it open for writing.
static ALONE: Mutex<()> = Mutex::new(());

/// A program in the folder.
fn program(folder: &Folder, name: &str, lines: &str) {
    folder.put(name, format!("#!/bin/sh\n{lines}\n").as_bytes());
    fs::set_permissions(folder.path(name), fs::Permissions::from_mode(0o755)).unwrap();
}

/// A Python that is none: `a_fake_peer` below, which answers in its own way.
fn fake(folder: &Folder, name: &str, way: &str) {
    let test = env::current_exe().unwrap();
    let words = "--exact a_fake_peer --ignored --nocapture";
    let lines = format!("exec 3>&1 >/dev/null\nKZ_FAKE='{way}' KZ_SCRIPT=$1 exec '{}' {words}", test.display());
    program(folder, name, &lines);
}

fn peer(folder: &Folder) -> Command {
    let mut command = folder.command("bench --peer --quick");
    command.env_remove("KZ_PYTHON");
    command
}

/// Status, output and errors.
fn ran(mut command: Command) -> (Option<i32>, String, String) {
    let output = command.output().unwrap();
    let text = |bytes| String::from_utf8(bytes).unwrap();
    (output.status.code(), text(output.stdout), text(output.stderr))
}

/// With a program of the folder in the place of Python.
fn ran_with(folder: &Folder, python: &str) -> (Option<i32>, String, String) {
    let mut command = peer(folder);
    command.env("KZ_PYTHON", folder.path(python));
    ran(command)
}

fn read_floats(len: usize) -> Vec<f32> {
    let mut bytes = vec![0; 4 * len];
    stdin().lock().read_exact(&mut bytes).unwrap();
    bytes.chunks_exact(4).map(|four| f32::from_le_bytes(four.try_into().unwrap())).collect()
}

fn read_line() -> String {
    let mut line = String::new();
    stdin().lock().read_line(&mut line).unwrap();
    line.trim_end().into()
}

/// The settings of a list with every key.
fn settings(list: &str) -> EncoderSettings {
    let pairs: Vec<(&str, &str)> = list.split(',').map(|pair| pair.split_once('=').unwrap()).collect();
    let value = |key: &str| pairs.iter().find(|(other, _)| key == *other).unwrap().1;
    let number = |key: &str| value(key).parse().unwrap();
    EncoderSettings {
        picture: PictureSettings::new(number("patch"), number("merge"), number("image")),
        hidden_size: number("hidden"),
        num_heads: number("heads"),
        head_dim: number("head"),
        num_layers: number("layers"),
        intermediate_size: number("intermediate"),
        text_hidden_size: number("text"),
        projector_bias: false,
        scaling: value("scale").parse().unwrap(),
    }
}

/// A peer that answers with the crate's own forward, on what it was sent, or in another way.
#[test]
#[ignore = "the other tests run it in PyTorch's place"]
fn a_fake_peer() {
    let Ok(way) = env::var("KZ_FAKE") else { return };
    assert!(env::var("KZ_SCRIPT").unwrap().ends_with("/oracle/peer.py"));
    // Standard output has the words of the tests' harness.
    let mut out = File::options().write(true).open("/proc/self/fd/3").unwrap();
    out.write_all(b"peer a fake, no BLAS\n").unwrap();
    let s = settings(&read_line());
    let lengths = s.lengths(s.picture.spatial_merge_size, s.picture.spatial_merge_size).unwrap();
    let weights = read_floats(lengths.weights);
    let (cos, sin) = (read_floats(lengths.tables), read_floats(lengths.tables));
    let (mut tokens, mut runs) = (vec![], 0);
    loop {
        let line = read_line();
        match line.split(' ').collect::<Vec<_>>()[..] {
            ["grid", h, w] => {
                let (h, w) = (h.parse().unwrap(), w.parse().unwrap());
                let lengths = s.lengths(h, w).unwrap();
                let patches = read_floats(lengths.patches);
                tokens = vec![0.0; lengths.out];
                let mut scratch = vec![0.0; lengths.scratch];
                forward(&s, &patches, h, w, &weights, &cos, &sin, &mut scratch, &mut tokens).unwrap();
                writeln!(out, "ready").unwrap();
            }
            ["run"] => {
                runs += 1;
                match way.as_str() {
                    "gone" => return,
                    "word" => writeln!(out, "soon").unwrap(),
                    "never" => writeln!(out, "0").unwrap(),
                    _ => writeln!(out, "{}", if runs % 3 == 2 { "0.25" } else { "0.5" }).unwrap(),
                }
            }
            ["tokens"] => {
                let most = tokens.iter().fold(0.0, |most: f32, x| most.max(x.abs()));
                match way.as_str() {
                    "near" => tokens[7] -= 0.004 * most,
                    "far" => tokens[7] += 0.006 * most,
                    "nan" => tokens[7] = f32::NAN,
                    "turned" => tokens.reverse(),
                    "short" => {
                        out.write_all(&plain(&tokens[1..])).unwrap();
                        return;
                    }
                    _ => {}
                }
                out.write_all(&plain(&tokens)).unwrap();
            }
            _ => return,
        }
    }
}

/// The line of a grid: ours, PyTorch's, the ratio, and how far the vectors are apart.
fn line(said: &str, name: &str) -> [f64; 4] {
    let line = said.lines().find_map(|line| line.strip_prefix(name)).unwrap_or_else(|| panic!("{said}"));
    let words: Vec<&str> = line.split_whitespace().collect();
    let [ours, other, ratio, "of", "PyTorch's", "speed,", "vectors", apart, "apart"] = words[..] else {
        panic!("{said}")
    };
    [ours, other, ratio, apart].map(|number| number.parse().unwrap())
}

#[test]
fn beside_a_peer() {
    // An emulator's times say nothing (tests/rust says that this is skipped).
    if env::var_os("KZ_EMULATOR").is_some() {
        return;
    }
    let _alone = ALONE.lock().unwrap_or_else(PoisonError::into_inner);
    let folder = Folder::new("peer");
    // One that is the same model, as python3 of the PATH.
    fake(&folder, "python3", "right");
    let mut command = peer(&folder);
    command.env("PATH", folder.path("."));
    let (status, said, errors) = ran(command);
    assert_eq!((status, errors.as_str()), (Some(0), ""), "{said}");
    assert!(said.starts_with("ours") && said.contains(", and a fake, no BLAS; one thread each"), "{said}");
    assert!(said.contains("\nPyTorch fuses and sums in another order, and so has other bits"), "{said}");
    for name in ["forward 4x4 ", "forward 8x8 "] {
        let [ours, other, ratio, apart] = line(&said, name);
        // The least of its times. What it was sent is what ours was run on: the same bits.
        assert_eq!((other, apart), (0.25, 0.0), "{said}");
        // Of a rounded time: half of a ten-thousandth, and half of a hundredth.
        assert!(ours > 0.0 && (other / ours - ratio).abs() < ratio * 1e-4 / ours + 0.01, "{said}");
    }
    assert!(!said.contains("forward 16x16"), "{said}");

    fake(&folder, "near", "near");
    let (status, said, errors) = ran_with(&folder, "near");
    assert_eq!((status, errors.as_str()), (Some(0), ""), "{said}");
    assert_eq!(line(&said, "forward 8x8 ")[3], 4.0e-3, "{said}");

    let model = "another model's answer";
    for (way, part) in [
        ("far", model),
        ("nan", model),
        ("turned", model),
        ("gone", "oracle/peer.py: ended with exit status: 0"),
        ("short", "oracle/peer.py: ended with exit status: 0"),
        ("word", "oracle/peer.py: said \"soon\""),
        ("never", "oracle/peer.py: said \"0\""),
    ] {
        fake(&folder, way, way);
        let (status, said, errors) = ran_with(&folder, way);
        assert_eq!(status, Some(1), "{way}: {said}{errors}");
        assert!(errors.starts_with("kz: ") && errors.contains(part), "{way}: {errors}");
        // What was measured is said, also of a wrong answer.
        assert_eq!(said.contains("forward 4x4"), part == model, "{way}: {said}");
        assert!(!said.contains("forward 8x8"), "{way}: {said}");
    }
}

#[test]
fn without_pytorch() {
    let _alone = ALONE.lock().unwrap_or_else(PoisonError::into_inner);
    let folder = Folder::new("no-peer");
    program(&folder, "none", "echo \"none No module named 'torch'\"; exit 3");
    program(&folder, "fails", "exit 7");
    // It has said what it has, and is not done yet.
    program(&folder, "slow", "exec >&-; i=0; while [ $i -lt 30000 ]; do i=$((i + 1)); done; exit 8");
    program(&folder, "hangs", "exec >&-; read -r line; exit 9");
    program(&folder, "talks", "echo hello; read -r line");
    // KZ_PYTHON alone is asked, also where python3 has it.
    program(&folder, "python3", "echo peer PyTorch");
    for (python, why) in [
        ("none", ": No module named 'torch'; "),
        ("fails", ": ended with exit status: 7; "),
        ("slow", ": ended with exit status: 8; "),
        ("hangs", ": said no more and did not end; "),
        ("talks", ": said \"hello\", which was not asked for; "),
        ("nowhere", ": cannot be run: "),
    ] {
        let mut command = peer(&folder);
        command.env("KZ_PYTHON", folder.path(python)).env("PATH", folder.path("."));
        let (status, said, errors) = ran(command);
        assert_eq!((status, said.as_str()), (Some(0), ""), "{python}: {errors}");
        let first = format!("kz: comparison with PyTorch skipped: {}{why}", folder.path(python).display());
        assert!(errors.starts_with(&first) && errors.lines().count() == 1, "{python}: {errors}");
        assert!(errors.contains("apt-get install python3-torch ") && errors.contains("KZ_PYTHON"), "{errors}");
    }
}
