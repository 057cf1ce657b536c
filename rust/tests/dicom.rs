//! Frames of a DICOM file, made by dcmtk's img2dcm, through a pipe from its dcm2pnm, as README has it. Where dcmtk is
//! not installed nothing is tried, which tests/rust says.

mod common;

use common::tool::{p6, Folder, LIST};
use common::Random;
use std::process::{Command, Stdio};

/// Whether a program of dcmtk is there.
fn there(program: &str) -> bool {
    let found = Command::new(program).arg("--version").stdout(Stdio::null()).stderr(Stdio::null()).status();
    found.is_ok_and(|status| status.success())
}

/// Whether all of these are there; a line says which is not.
fn dcmtk(programs: &[&str]) -> bool {
    let missing = programs.iter().find(|program| !there(program));
    missing.iter().for_each(|program| eprintln!("dicom: skipped: {program} of dcmtk is not installed"));
    missing.is_none()
}

/// A BMP: rows from the last to the first, each filled up to four bytes, pixels as blue, green, red.
fn bmp(height: usize, width: usize, rgb: &[u8]) -> Vec<u8> {
    let mut rows = Vec::new();
    for row in rgb.chunks(width * 3).rev() {
        rows.extend(row.chunks(3).flat_map(|pixel| [pixel[2], pixel[1], pixel[0]]));
        rows.resize(rows.len().next_multiple_of(4), 0);
    }
    let number = |n: usize| (n as u32).to_le_bytes();
    let head = [number(54 + rows.len()), [0; 4], number(54), number(40), number(width), number(height)];
    let rest = [number(rows.len()), [0; 4], [0; 4], [0; 4], [0; 4]];
    [b"BM", head.concat().as_slice(), &[1, 0, 24, 0, 0, 0, 0, 0], &rest.concat(), &rows].concat()
}

/// Makes `scan.dcm` of frames, and the sweeps that it is to give.
fn scan(folder: &Folder, height: usize, width: usize, frames: usize) {
    let mut words = vec!["--input-format".to_string(), "BMP".into(), "--new-sc".into()];
    for i in 0..frames {
        let rgb = Random(i as u64 + 1).bytes(height * width * 3);
        folder.put(&format!("{i}.bmp"), &bmp(height, width, &rgb));
        folder.put(&format!("stdin.f{i:04}.ppm"), &p6(height, width, &rgb));
        words.push(format!("{i}.bmp"));
    }
    words.push("scan.dcm".into());
    let made = Command::new("img2dcm").args(words).current_dir(folder.path(".")).output().unwrap();
    assert!(made.status.success(), "{}", String::from_utf8_lossy(&made.stderr));
}

/// README's words, with a program in the place of dcm2pnm.
fn piped(folder: &Folder, program: &str, words: &str) -> String {
    let readme = include_str!("../../README.md");
    let recipe = "dcm2pnm --all-frames --no-overlays --write-raw-pnm scan.dcm | kz patches - -o out/scan\n";
    assert!(readme.contains(recipe));
    let (front, _) = recipe.split_once(" kz ").unwrap();
    let script = format!("{} \"$@\"", front.replacen("dcm2pnm", program, 1));
    let output = folder.shell(&script, words).output().unwrap();
    assert_eq!(String::from_utf8(output.stderr).unwrap(), "");
    assert_eq!(output.status.code(), Some(0));
    String::from_utf8(output.stdout).unwrap()
}

#[test]
fn all_frames_through_a_pipe() {
    if !dcmtk(&["img2dcm", "dcm2pnm"]) {
        return;
    }
    let folder = Folder::new("dicom");
    scan(&folder, 9, 13, 3);
    let files = "stdin.f0000.ppm stdin.f0001.ppm stdin.f0002.ppm";
    folder.done(&format!("patches --tiles {files} -o right {LIST}"));
    let said = piped(&folder, "dcm2pnm", &format!("patches --tiles - -o out/scan {LIST}"));
    assert!(said.starts_with("out/scan/stdin.f0000.9x13.r00c00.patches.npy: 6x8 patches of 12 floats; "), "{said}");
    let names = folder.names("right");
    assert_eq!((folder.names("out/scan"), names.len()), (names.clone(), 3));
    for name in names {
        assert_eq!(folder.get(&format!("out/scan/{name}")), folder.get(&format!("right/{name}")), "{name}");
    }
    folder.done(&format!("restore --tiles out/scan/stdin.f0001.9x13.r00c00.patches.npy -o back.ppm {LIST}"));
    assert_eq!(folder.get("back.ppm"), folder.get("stdin.f0001.ppm"));
    // The file itself is named for what it is.
    let words = ["scan.dcm: is a DICOM file; ", "dcm2pnm --all-frames --no-overlays --write-raw-pnm"];
    folder.fails(1, &format!("patches scan.dcm -o out {LIST}"), &words);
    let output = folder.shell("exec \"$@\" < scan.dcm", &format!("patches - -o out {LIST}")).output().unwrap();
    assert!(String::from_utf8(output.stderr).unwrap().starts_with("kz: -: is a DICOM file; "));
}

/// A picture may have any samples, those too that stand where a DICOM file says what it is.
#[test]
fn a_picture_is_no_dicom_file() {
    let folder = Folder::new("dicom-not");
    let front = b"P5 16 16 255\n";
    let mut file = [&front[..], &[7; 256]].concat();
    file[128..132].copy_from_slice(b"DICM");
    folder.put("a.pgm", &file);
    assert_eq!(folder.done(&format!("patches a.pgm -o out {LIST}")), "out/a.patches.npy: 8x8 patches of 12 floats\n");
    file[0] = 0;
    folder.put("a.pgm", &file);
    folder.fails(1, &format!("patches a.pgm -o out --force {LIST}"), &["a.pgm: is a DICOM file; "]);
}

/// A single frame, and one that is compressed without loss.
#[test]
fn one_frame_and_a_compressed_one() {
    if !dcmtk(&["img2dcm", "dcmcjpeg", "dcmj2pnm"]) {
        return;
    }
    let folder = Folder::new("dicom-jpeg");
    scan(&folder, 16, 16, 1);
    let command = Command::new("dcmcjpeg").args(["scan.dcm", "packed.dcm"]).current_dir(folder.path(".")).status();
    assert!(command.unwrap().success());
    std::fs::rename(folder.path("packed.dcm"), folder.path("scan.dcm")).unwrap();
    let said = piped(&folder, "dcmj2pnm", &format!("patches - -o out/scan {LIST}"));
    assert_eq!(said, "out/scan/stdin.patches.npy: 8x8 patches of 12 floats\n");
    folder.done(&format!("restore out/scan/stdin.patches.npy -o back.ppm {LIST}"));
    assert_eq!(folder.get("back.ppm"), folder.get("stdin.f0000.ppm"));
}
