//! docs/GUIDE.md: every command is run, in its order and in one folder, and is to print what the guide shows, but for
//! what a … at the end of a line stands for. Where dcmtk is not installed the DICOM file is not made, and a stand-in
//! gives the frames that dcm2pnm would have given; tests/rust says so.

mod common;

use common::tool::Folder;
use std::fs::{self, Permissions};
use std::os::unix::fs::PermissionsExt;
use std::process::{Command, Stdio};

/// A command, and what it prints.
struct Step {
    command: String,
    prints: String,
}

/// The steps of all blocks that are marked `console`: `$ ` begins a command, `> ` goes on with it.
fn steps(guide: &str) -> Vec<Step> {
    let mut steps: Vec<Step> = vec![];
    let mut inside = false;
    for line in guide.lines() {
        if line.starts_with("```") {
            inside = line == "```console";
        } else if let Some(command) = line.strip_prefix("$ ").filter(|_| inside) {
            steps.push(Step { command: command.into(), prints: String::new() });
        } else if let Some(step) = steps.last_mut().filter(|_| inside) {
            match line.strip_prefix("> ") {
                Some(more) => step.command += &format!("\n{more}"),
                None => step.prints += &format!("{line}\n"),
            }
        }
    }
    steps
}

/// Whether a command printed what is shown, line for line.
fn as_shown(printed: &str, shown: &str) -> bool {
    let like = |(line, right): (&str, &str)| match right.strip_suffix('…') {
        Some(front) => line.starts_with(front),
        None => line == right,
    };
    printed.lines().count() == shown.lines().count() && printed.lines().zip(shown.lines()).all(like)
}

fn script(folder: &Folder, name: &str, text: &str) {
    folder.put(name, format!("#!/bin/sh\n{text}\n").as_bytes());
    fs::set_permissions(folder.path(name), Permissions::from_mode(0o755)).unwrap();
}

fn there(program: &str) -> bool {
    Command::new(program).arg("--version").stdout(Stdio::null()).stderr(Stdio::null()).status().is_ok()
}

/// The frames that the guide's DICOM file has: all of them, or one.
const STAND_IN: &str = "frame() { printf 'P6\\n650 490\\n255\\n'; cat $1; }
case $1 in --all-frames) frame first; frame second; frame first ;; *) frame first ;; esac";

#[test]
fn the_guide_prints_what_it_shows() {
    let folder = Folder::new("guide");
    fs::create_dir(folder.path("bin")).unwrap();
    let emulator = std::env::var("KZ_EMULATOR").unwrap_or_default();
    script(&folder, "bin/kz", &format!("exec {emulator} '{}' \"$@\"", env!("CARGO_BIN_EXE_kz")));
    let dcmtk = there("dump2dcm") && there("dcm2pnm");
    if !dcmtk {
        eprintln!("guide: no DICOM file is made: dcmtk is not installed");
        script(&folder, "bin/dcm2pnm", STAND_IN);
    }
    let path = format!("{}:{}", folder.path("bin").display(), std::env::var("PATH").unwrap());
    let steps = steps(include_str!("../../docs/GUIDE.md"));
    assert!(steps.len() > 20);
    for Step { command, prints } in steps.iter().filter(|step| dcmtk || !step.command.starts_with("dump2dcm ")) {
        let mut shell = Command::new("sh");
        shell.args(["-c", &format!("exec 2>&1\n{command}")]).env("PATH", &path).current_dir(folder.path("."));
        let output = shell.stdin(Stdio::null()).output().unwrap();
        let printed = String::from_utf8(output.stdout).unwrap();
        assert!(as_shown(&printed, prints), "$ {command}\nprinted\n{printed}and the guide shows\n{prints}");
        assert!(output.status.success(), "$ {command}");
    }
}
