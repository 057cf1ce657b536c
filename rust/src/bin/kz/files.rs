//! Files are written whole or not at all, a log alone line by line, and none is overwritten unless that was asked for.

use crate::fail::Fail;
use crate::shown::shown;
use crate::unsaid;
use std::collections::hash_map::RandomState;
use std::fs::{self, File, FileType, Metadata, OpenOptions, Permissions};
use std::hash::{BuildHasher, Hasher};
use std::io::{self, stdout, BufWriter, IsTerminal, Write};
use std::os::unix::ffi::OsStrExt;
use std::os::unix::fs::{FileTypeExt, MetadataExt, OpenOptionsExt, PermissionsExt};
use std::path::{Path, PathBuf};

/// Writes floats as little-endian f32.
pub fn put(to: &mut dyn Write, floats: &[f32]) -> io::Result<()> {
    let mut bytes = [0; 4096];
    for some in floats.chunks(1024) {
        for (four, float) in bytes.chunks_exact_mut(4).zip(some) {
            four.copy_from_slice(&float.to_le_bytes());
        }
        to.write_all(&bytes[..4 * some.len()])?;
    }
    Ok(())
}

/// Writes floats as bf16, packed to little-endian u16.
pub fn put_bf16(to: &mut dyn Write, floats: &[f32]) -> io::Result<()> {
    let mut packed = [0; 1024];
    let mut bytes = [0; 2048];
    for some in floats.chunks(1024) {
        let count = kyzgultam::bf16_pack_all(some, &mut packed);
        for (two, value) in bytes.chunks_exact_mut(2).zip(&packed[..count]) {
            two.copy_from_slice(&value.to_le_bytes());
        }
        to.write_all(&bytes[..2 * count])?;
    }
    Ok(())
}

/// Whether a name is that of standard input or output.
pub fn standard(file: &Path) -> bool {
    file == Path::new("-")
}

pub fn folder(folder: &Path) -> Result<(), Fail> {
    fs::create_dir_all(folder).map_err(|e| Fail::file(folder, format!("this folder cannot be made: {e}")))
}

/// Refuses a place where something stands, unless it is a plain file and forced. Asked before long work; `write` asks
/// again.
pub fn vacant(file: &Path, force: bool) -> Result<(), Fail> {
    if !standard(file) {
        return replaced(file, force).map(drop);
    }
    match stdout().is_terminal() {
        true => Err(Fail::usage("standard output is a terminal, for which no file is; send it on by > or |")),
        false => Ok(()),
    }
}

/// The plain file that is to be replaced, if there is one. Nothing else is: a device, a pipe or a link would be lost.
fn replaced(file: &Path, force: bool) -> Result<Option<Metadata>, Fail> {
    let found = match file.symlink_metadata() {
        Ok(found) => found,
        Err(e) if e.kind() == io::ErrorKind::NotFound => return Ok(None),
        Err(e) => return Err(unwritten(file, e)),
    };
    if let Some(kind) = no_plain_file(found.file_type()) {
        return Err(Fail::file(file, format!("is {kind}, no plain file, and was left as it is; give another name")));
    }
    if force {
        Ok(Some(found))
    } else {
        Err(occupied(file))
    }
}

fn no_plain_file(kind: FileType) -> Option<&'static str> {
    let kinds = [
        (kind.is_dir(), "a folder"),
        (kind.is_symlink(), "a symbolic link"),
        (kind.is_fifo(), "a named pipe"),
        (kind.is_socket(), "a socket"),
        (!kind.is_file(), "a device"),
    ];
    kinds.iter().find(|(is, _)| *is).map(|(_, words)| *words)
}

fn occupied(file: &Path) -> Fail {
    Fail::Taken(format!("{}: is there already and was left as it is; --force writes over it", shown(file)))
}

/// What Linux says of a name that a file system does not take: EINVAL, ENAMETOOLONG, EILSEQ.
const NAME: [i32; 3] = [22, 36, 84];

/// Another name may be written where this one is not taken; any other failure would meet the next file too.
fn unwritten(file: &Path, e: io::Error) -> Fail {
    let words = format!("{}: cannot be written: {e}", shown(file));
    if e.raw_os_error().is_some_and(|number| NAME.contains(&number)) {
        Fail::Refused(words)
    } else {
        Fail::Stopped(words)
    }
}

/// Writes beside the file and then gives what was written its name. A file that is replaced keeps its mode. What goes
/// to standard output is there as far as it came.
pub fn write(file: &Path, force: bool, fill: impl FnOnce(&mut dyn Write) -> io::Result<()>) -> Result<(), Fail> {
    if standard(file) {
        let mut to = BufWriter::new(stdout().lock());
        return fill(&mut to).and_then(|()| to.flush()).map_err(unsaid);
    }
    written(file, force, fill).map(drop)
}

/// An empty file that has its name from the beginning, for what is to be there as far as it is written.
pub fn begin(file: &Path, force: bool) -> Result<File, Fail> {
    written(file, force, |_| Ok(()))
}

fn written(file: &Path, force: bool, fill: impl FnOnce(&mut dyn Write) -> io::Result<()>) -> Result<File, Fail> {
    let unwritten = |e| unwritten(file, e);
    let hidden = replaced(file, force)?.is_some();
    let part = Part::beside(file, if hidden { 0o600 } else { 0o666 }).map_err(unwritten)?;
    part.fill(fill).map_err(unwritten)?;
    if let Some(old) = replaced(file, force)? {
        part.allow(old.mode() & 0o7777).map_err(unwritten)?;
    }
    let open = part.open.try_clone().map_err(unwritten)?;
    part.place(file, force).map_err(|e| match e.kind() {
        io::ErrorKind::AlreadyExists => occupied(file),
        _ => unwritten(e),
    })?;
    Ok(open)
}

/// A file under a temporary name. This run made it, so this run may remove it.
struct Part {
    path: PathBuf,
    open: File,
    moved: bool,
}

impl Part {
    fn beside(file: &Path, mode: u32) -> io::Result<Part> {
        file.file_name().ok_or(io::Error::other("it is no name for a file"))?;
        loop {
            let path = file.with_file_name(part_name());
            match OpenOptions::new().write(true).create_new(true).mode(mode).open(&path) {
                Ok(open) => return Ok(Part { path, open, moved: false }),
                // The name is another run's, and so is what stands there.
                Err(e) if e.kind() == io::ErrorKind::AlreadyExists => {}
                Err(e) => return Err(e),
            }
        }
    }

    fn fill(&self, fill: impl FnOnce(&mut dyn Write) -> io::Result<()>) -> io::Result<()> {
        let mut to = BufWriter::new(&self.open);
        fill(&mut to)?;
        to.flush()?;
        self.open.sync_all()
    }

    fn allow(&self, mode: u32) -> io::Result<()> {
        if self.open.metadata()?.mode() & 0o7777 != mode {
            self.open.set_permissions(Permissions::from_mode(mode))?;
        }
        Ok(())
    }

    /// Gives it the file's name, which is refused where that is taken, even if it was taken just now; or, forced,
    /// replaces the file.
    fn place(mut self, file: &Path, force: bool) -> io::Result<()> {
        if force {
            return self.rename(file);
        }
        match fs::hard_link(&self.path, file) {
            Ok(()) => Ok(()),
            Err(e) if e.kind() == io::ErrorKind::AlreadyExists => Err(e),
            // Some file systems have no links.
            Err(_) => self.claim(file),
        }
    }

    /// Takes the file's name by an empty file, which is then replaced.
    fn claim(&mut self, file: &Path) -> io::Result<()> {
        OpenOptions::new().write(true).create_new(true).open(file)?;
        self.rename(file).inspect_err(|_| drop(fs::remove_file(file)))
    }

    fn rename(&mut self, file: &Path) -> io::Result<()> {
        fs::rename(&self.path, file)?;
        self.moved = true;
        Ok(())
    }
}

impl Drop for Part {
    fn drop(&mut self) {
        if !self.moved {
            let _ = fs::remove_file(&self.path);
        }
    }
}

/// Short whatever the file's name is, and of 64 random bits: runs in two containers may have one process number.
fn part_name() -> String {
    format!(".kz-{:016x}.part", RandomState::new().build_hasher().finish())
}

/// The temporary files in a folder: of a run that is at work, or of one that was killed. Which, a name cannot say.
pub fn parts(folder: &Path) -> Vec<PathBuf> {
    let entries = fs::read_dir(folder).into_iter().flatten().flatten();
    let mut parts: Vec<_> = entries.filter(|e| is_part(e.file_name().as_bytes())).map(|e| e.path()).collect();
    parts.sort();
    parts
}

/// `.kz-` and 16 digits, or, of earlier versions, the file's name and a process number.
fn is_part(name: &[u8]) -> bool {
    let Some(name) = name.strip_prefix(b".").and_then(|name| name.strip_suffix(b".part")) else { return false };
    let number = name.rsplit(|b| *b == b'.').next().unwrap_or(b"");
    let old = number.len() < name.len() && !number.is_empty() && number.iter().all(u8::is_ascii_digit);
    old || name.strip_prefix(b"kz-").is_some_and(|rest| rest.len() == 16 && rest.iter().all(u8::is_ascii_hexdigit))
}

#[cfg(test)]
mod tests {
    use super::*;

    #[test]
    fn names_of_parts() {
        assert!(is_part(part_name().as_bytes()));
        assert!(is_part(b".a.36x48.patches.4711.part") && is_part(b".\xff.1.part"));
        for name in ["a.part", ".a.part", ".part", "..part", ".1.part", ".a..part", ".a.1x.part", ".kz-12.part"] {
            assert!(!is_part(name.as_bytes()), "{name}");
        }
    }

    #[test]
    fn a_name_is_claimed_once() {
        let folder = std::env::temp_dir().join(part_name());
        fs::create_dir(&folder).unwrap();
        let file = folder.join("a");
        let claim = |word: &[u8]| {
            let mut part = Part::beside(&file, 0o666).unwrap();
            part.fill(|to| to.write_all(word)).unwrap();
            part.claim(&file).map_err(|e| e.kind())
        };
        assert_eq!(claim(b"one"), Ok(()));
        assert_eq!(claim(b"two"), Err(io::ErrorKind::AlreadyExists));
        assert_eq!(fs::read(&file).unwrap(), b"one");
        assert_eq!(fs::read_dir(&folder).unwrap().count(), 1);
        fs::remove_dir_all(&folder).unwrap();
    }
}
