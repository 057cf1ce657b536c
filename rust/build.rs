//! Links libkyzgultam.a and libnumber.a for all levels of processors, which `archives` makes in the repository around
//! this crate. With KZ_ARCHIVES set the two are taken from that folder as they are, and nothing is made: those in its
//! `all`, with all levels, or else its own, of one level. A relative folder is one of the directory in which cargo was
//! called.

use std::env;
use std::fs;
use std::io;
use std::os::unix::process::parent_id;
use std::path::{Path, PathBuf};
use std::process::{exit, Command, Stdio};
use std::time::SystemTime;

const ARCHIVES: [&str; 2] = ["kyzgultam", "number"];

const INSTALL: &str = "  \
  Install the Rattle kit and put its `rt` on the PATH (it needs Linux with glibc 2.34 or newer),
  or set KZ_ARCHIVES to a folder that holds libkyzgultam.a and libnumber.a, or to one like target/archives.";

fn main() {
    println!("cargo:rerun-if-env-changed=KZ_ARCHIVES");
    println!("cargo::rustc-check-cfg=cfg(kz_levels)");
    let target = |what: &str| env::var(format!("CARGO_CFG_TARGET_{what}")).unwrap_or_default();
    if (target("ARCH").as_str(), target("OS").as_str()) != ("x86_64", "linux") {
        stop("the archives are made for x86-64 Linux: build for that target");
    }
    let archives = match env::var_os("KZ_ARCHIVES") {
        Some(folder) => given(PathBuf::from(folder)),
        None => made(),
    };
    if archives.levels {
        println!("cargo:rustc-cfg=kz_levels");
    }
    println!("cargo:rustc-link-search=native={}", archives.folder.display());
    for name in ARCHIVES {
        println!("cargo:rustc-link-lib=static={name}");
    }
    // `kz bench` hands oracle/run the archives that it was linked with, or those of the running level beside them.
    println!("cargo:rustc-env=KZ_LINKED={}", archives.folder.display());
    // `kz --version` names the kit that proved them, where that is known: `archives` writes it beside them.
    let kit = archives.folder.join("kit");
    println!("cargo:rustc-env=KZ_KIT={}", fs::read_to_string(kit).unwrap_or_default().trim());
}

/// Where the archives are, and whether they have all levels.
struct Archives {
    folder: PathBuf,
    levels: bool,
}

fn stop(message: &str) -> ! {
    eprintln!("kyzgultam: {message}");
    exit(1)
}

fn archive(folder: &Path, name: &str) -> PathBuf {
    folder.join(format!("lib{name}.a"))
}

/// The folder of KZ_ARCHIVES, or `all` in it, with both archives.
fn given(folder: PathBuf) -> Archives {
    if folder.as_os_str().is_empty() {
        stop("KZ_ARCHIVES is empty: set it to a folder, or unset it");
    }
    let folder = if folder.is_relative() { caller().join(folder) } else { folder };
    let all = folder.join("all");
    println!("cargo:rerun-if-changed={}", all.display());
    let levels = all.is_dir();
    let folder = if levels { all } else { folder };
    for name in ARCHIVES {
        let file = archive(&folder, name);
        println!("cargo:rerun-if-changed={}", file.display());
        if !file.is_file() {
            stop(&format!("KZ_ARCHIVES is set, but there is no {}", file.display()));
        }
    }
    Archives { folder: fs::canonicalize(&folder).unwrap_or(folder), levels }
}

/// The directory in which cargo was called. This script runs in the package's, so it is asked of the process that
/// started it, which is cargo; PWD is a shell's word, and a program that starts cargo elsewhere may not change it.
fn caller() -> PathBuf {
    // Where a shell says another directory, the same words may name another folder.
    println!("cargo:rerun-if-env-changed=PWD");
    fs::read_link(format!("/proc/{}/cwd", parent_id())).unwrap_or_else(|e| {
        stop(&format!("KZ_ARCHIVES is relative, and cargo's directory is not known ({e}); {WHOLE}"))
    })
}

const WHOLE: &str = "give the whole path, from / on";

/// The repository's target/archives/all, with both archives in it and none older than what it is made from.
fn made() -> Archives {
    let root = Path::new(env!("CARGO_MANIFEST_DIR")).join("..");
    let root = fs::canonicalize(&root).unwrap_or(root);
    let folder = root.join("target/archives/all");
    let (newest, time) = newest_source(&root)
        .unwrap_or_else(|e| stop(&format!("the sources under {} cannot be read: {e}", root.display())));
    for name in ARCHIVES {
        let file = archive(&folder, name);
        println!("cargo:rerun-if-changed={}", file.display());
        let why = match fs::metadata(&file).and_then(|m| m.modified()) {
            Err(_) => format!("{} is missing", file.display()),
            Ok(at) if at < time => format!("{} is older than {}", file.display(), newest.display()),
            Ok(_) => continue,
        };
        make(&root, &why);
        if !file.is_file() {
            stop(&format!("`archives all` wrote no {}", file.display()));
        }
    }
    Archives { folder, levels: true }
}

/// Runs `archives all`, which proves what has changed and writes the archives.
fn make(root: &Path, why: &str) {
    match Command::new("rt").arg("version").stdout(Stdio::null()).status() {
        Ok(_) => {}
        Err(e) if e.kind() == io::ErrorKind::NotFound => {
            stop(&format!("{why}, and there is no `rt` on the PATH to make it.\n{INSTALL}"))
        }
        Err(e) => stop(&format!("{why}, and `rt` cannot be run: {e}\n{INSTALL}")),
    }
    match Command::new("./archives").arg("all").current_dir(root).status() {
        Ok(status) if status.success() => {}
        Ok(status) => stop(&format!("{why}, and `archives all` failed ({status})")),
        Err(e) => stop(&format!("{why}, and {} cannot be run: {e}", root.join("archives").display())),
    }
}

/// The file changed last of those that an archive is made from: crates.txt, each crate's src, specs and proofs, and the
/// script `archives`.
fn newest_source(root: &Path) -> io::Result<(PathBuf, SystemTime)> {
    let (list, script, crates) = (root.join("crates.txt"), root.join("archives"), root.join("crates"));
    let mut newest = (list.clone(), SystemTime::UNIX_EPOCH);
    for file in [list, script] {
        println!("cargo:rerun-if-changed={}", file.display());
        let time = fs::metadata(&file)?.modified()?;
        if newest.1 < time {
            newest = (file, time);
        }
    }
    println!("cargo:rerun-if-changed={}", crates.display());
    for entry in fs::read_dir(&crates)? {
        let entry = entry?.path();
        for part in ["src", "specs", "proofs"] {
            let folder = entry.join(part);
            if folder.is_dir() {
                look(&folder, &mut newest)?;
            }
        }
    }
    Ok(newest)
}

fn look(folder: &Path, newest: &mut (PathBuf, SystemTime)) -> io::Result<()> {
    for entry in fs::read_dir(folder)? {
        let path = entry?.path();
        if path.is_dir() {
            look(&path, newest)?;
        } else {
            let time = fs::metadata(&path)?.modified()?;
            if newest.1 < time {
                *newest = (path, time);
            }
        }
    }
    Ok(())
}
