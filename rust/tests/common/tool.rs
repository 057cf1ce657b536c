//! Runs the tool on files in a folder of its own.

use super::Random;
use kyzgultam::PictureSettings;
use std::ffi::OsString;
use std::fs;
use std::path::PathBuf;
use std::process::{Command, Output};

/// A folder that is removed at the end of its test.
pub struct Folder(PathBuf);

impl Folder {
    pub fn new(name: &str) -> Folder {
        let path = std::env::temp_dir().join(format!("kz-{name}-{}", std::process::id()));
        let _ = fs::remove_dir_all(&path);
        fs::create_dir_all(&path).unwrap();
        Folder(path)
    }

    pub fn path(&self, name: &str) -> PathBuf {
        self.0.join(name)
    }

    pub fn put(&self, name: &str, bytes: &[u8]) {
        fs::write(self.path(name), bytes).unwrap();
    }

    pub fn get(&self, name: &str) -> Vec<u8> {
        fs::read(self.path(name)).unwrap_or_else(|e| panic!("{name}: {e}"))
    }

    pub fn names(&self, folder: &str) -> Vec<String> {
        let entries = fs::read_dir(self.path(folder)).unwrap();
        let mut names: Vec<_> = entries.map(|e| e.unwrap().file_name().into_string().unwrap()).collect();
        names.sort();
        names
    }

    /// kz with words parted by spaces.
    pub fn command(&self, words: &str) -> Command {
        let kz = kz();
        let mut command = Command::new(&kz[0]);
        command.args(&kz[1..]).args(used(words).split_whitespace()).current_dir(&self.0);
        command
    }

    /// A script of the shell, in which `exec "$@"` runs kz with the words in the shell's place.
    pub fn shell(&self, script: &str, words: &str) -> Command {
        let mut command = Command::new("sh");
        command.args(["-c", script, "sh"]).args(kz()).args(used(words).split_whitespace()).current_dir(&self.0);
        command
    }

    pub fn kz(&self, words: &str) -> Output {
        self.command(words).output().unwrap()
    }

    /// What is said where the command is done.
    pub fn done(&self, words: &str) -> String {
        let output = self.kz(words);
        assert_eq!(output.status.code(), Some(0), "{words}: {}", String::from_utf8_lossy(&output.stderr));
        assert!(output.stderr.is_empty(), "{words}");
        String::from_utf8(output.stdout).unwrap()
    }

    /// What `kz compare` says where not all is equal.
    pub fn differ(&self, words: &str) -> String {
        let output = self.kz(words);
        assert_eq!(output.status.code(), Some(3), "{words}: {}", String::from_utf8_lossy(&output.stderr));
        assert!(output.stderr.is_empty(), "{words}");
        String::from_utf8(output.stdout).unwrap()
    }

    /// What is said where the command ends with a status; every part of the words is to be in it.
    pub fn fails(&self, status: i32, words: &str, parts: &[&str]) {
        let output = self.kz(words);
        let said = String::from_utf8(output.stderr).unwrap();
        assert_eq!(output.status.code(), Some(status), "{words}: {said}");
        assert!(said.starts_with("kz: ") && said.ends_with('\n'), "{said}");
        for part in parts {
            assert!(said.contains(part), "{words}: {part:?} is not in {said:?}");
        }
    }
}

/// The words, but for the sizes of `LIST` where the command uses a picture's settings alone.
fn used(words: &str) -> String {
    let picture =
        ["patches", "restore", "salvage", "compare", "copies"].iter().any(|command| words.starts_with(command));
    if picture {
        words.replace(SIZES, "")
    } else {
        words.into()
    }
}

/// What runs kz. Where the tests are run by an emulator (tests/x86), so is kz.
fn kz() -> Vec<OsString> {
    std::env::var_os("KZ_EMULATOR").into_iter().chain([env!("CARGO_BIN_EXE_kz").into()]).collect()
}

impl Drop for Folder {
    fn drop(&mut self) {
        let _ = fs::remove_dir_all(&self.0);
    }
}

pub fn p6(height: usize, width: usize, rgb: &[u8]) -> Vec<u8> {
    [format!("P6\n{width} {height}\n255\n").as_bytes(), rgb].concat()
}

/// A P6 of random bytes, and its bytes.
pub fn sweep(folder: &Folder, name: &str, height: usize, width: usize, seed: u64) -> Vec<u8> {
    let rgb = Random(seed).bytes(height * width * 3);
    folder.put(name, &p6(height, width, &rgb));
    rgb
}

/// What stands before the floats of a .npy file, with a dict as it is given.
pub fn npy_head(dict: &str) -> Vec<u8> {
    let pad = 63 - (10 + dict.len()) % 64;
    let header = format!("{dict}{}\n", " ".repeat(pad));
    [&b"\x93NUMPY\x01\x00"[..], &(header.len() as u16).to_le_bytes(), header.as_bytes()].concat()
}

/// A .npy file as NumPy writes it.
pub fn npy(shape: [usize; 3], floats: &[f32]) -> Vec<u8> {
    let [a, b, c] = shape;
    let head = npy_head(&format!("{{'descr': '<f4', 'fortran_order': False, 'shape': ({a}, {b}, {c}), }}"));
    [head, plain(floats)].concat()
}

/// Floats as a plain file has them.
pub fn plain(floats: &[f32]) -> Vec<u8> {
    floats.iter().flat_map(|f| f.to_le_bytes()).collect()
}

/// The tests' model: small in everything.
pub const LIST: &str = "--settings patch=2,merge=2,image=16,hidden=8,heads=2,layers=1,intermediate=5,text=3";
/// `LIST` with other pairs behind it, as `,image=20`, and without its own of their keys.
pub fn list_with(pairs: &str) -> String {
    let keys: Vec<&str> = pairs.split(',').filter_map(|pair| pair.split_once('=')).map(|(key, _)| key).collect();
    let (option, list) = LIST.split_once(' ').unwrap();
    let kept = list.split(',').filter(|pair| !keys.contains(&pair.split_once('=').unwrap().0));
    format!("{option} {}{pairs}", kept.collect::<Vec<_>>().join(","))
}

/// The end of `LIST`: what it says of a model.
const SIZES: &str = ",hidden=8,heads=2,layers=1,intermediate=5,text=3";
pub const TINY: PictureSettings = PictureSettings::new(2, 2, 16);
pub const WEIGHTS: usize = 8 * 12 + 8 + (2 * 8 + 4 * 64 + 3 * 8 * 5) + 8 + 8 * 32 + 3 * 8 + 9;
pub const TABLE: usize = 8 * 8 * 4;
/// A config.json of the settings of `LIST`, but for the lent ones.
pub const CONFIG: &str = r#"{"vision_config": {"patch_size": 2, "spatial_merge_size": 2, "image_size": 16, "hidden_size": 8,
    "num_attention_heads": 2, "num_hidden_layers": 1, "intermediate_size": 5}, "text_config": {"hidden_size": 3}}"#;
