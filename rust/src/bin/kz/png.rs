//! PNG pictures, as they are written: stored without compression.

use crate::fail::Fail;
use crate::files;
use crate::netpbm::{ppm, Picture};
use crate::shown::shown;
use crate::sums::{adler32, crc32};
use std::io::{self, Write};
use std::iter::once;
use std::path::Path;

/// Bytes of a stored block.
const BLOCK: usize = 0xFFFF;

fn ends(file: &Path, right: &str) -> bool {
    file.extension().is_some_and(|ending| ending.eq_ignore_ascii_case(right))
}

/// Refuses the name of an option's picture that says neither of the two forms.
pub fn says(option: &str, file: &Path) -> Result<(), Fail> {
    if ends(file, "png") || ends(file, "ppm") || files::standard(file) {
        return Ok(());
    }
    Err(Fail::usage(format!("{option} {}: a picture is written as its name says, .png or .ppm", shown(file))))
}

/// Writes a picture as a PPM where its file's name ends so, and else as a PNG.
pub fn named(to: &mut dyn Write, file: &Path, picture: &Picture) -> io::Result<()> {
    if ends(file, "ppm") {
        ppm(to, picture)
    } else {
        png(to, picture)
    }
}

/// Writes a picture as a PNG where its file's name ends so, and else as a PPM.
pub fn or_ppm(to: &mut dyn Write, file: &Path, picture: &Picture) -> io::Result<()> {
    if ends(file, "png") {
        png(to, picture)
    } else {
        ppm(to, picture)
    }
}

/// Writes a picture, three bytes a pixel; one of a grey picture.
pub fn png(to: &mut dyn Write, picture: &Picture) -> io::Result<()> {
    let Picture { height, width, rgb } = picture;
    let grey = rgb.chunks_exact(3).all(|p| p[0] == p[1] && p[1] == p[2]);
    let (colour, step) = if grey { (0, 3) } else { (2, 1) };
    let mut head = Vec::new();
    head.extend((*width as u32).to_be_bytes());
    head.extend((*height as u32).to_be_bytes());
    head.extend([8, colour, 0, 0, 0]); // depth, colour, and the only methods there are
    to.write_all(b"\x89PNG\r\n\x1a\n")?;
    chunk(to, b"IHDR", head.len(), |to| to.put(&head))?;
    let len = height * (1 + width * 3 / step);
    // Each row after a byte that says: no filter.
    let rows = rgb.chunks_exact(width * 3).flat_map(|row| once(0).chain(row.iter().step_by(step).copied()));
    chunk(to, b"IDAT", 2 + len + 5 * len.div_ceil(BLOCK) + 4, |to| zlib(to, rows, len))?;
    chunk(to, b"IEND", 0, |_| Ok(()))
}

/// What is written into a chunk, and the sum of it.
struct Chunk<'a> {
    to: &'a mut dyn Write,
    crc: u32,
}

impl Chunk<'_> {
    fn put(&mut self, bytes: &[u8]) -> io::Result<()> {
        self.crc = crc32(self.crc, bytes);
        self.to.write_all(bytes)
    }
}

fn chunk(
    to: &mut dyn Write,
    name: &[u8; 4],
    len: usize,
    fill: impl FnOnce(&mut Chunk) -> io::Result<()>,
) -> io::Result<()> {
    to.write_all(&(len as u32).to_be_bytes())?;
    let mut chunk = Chunk { to, crc: 0 };
    chunk.put(name)?;
    fill(&mut chunk)?;
    let sum = chunk.crc;
    to.write_all(&sum.to_be_bytes())
}

/// A zlib stream of stored blocks.
fn zlib(to: &mut Chunk, mut bytes: impl Iterator<Item = u8>, len: usize) -> io::Result<()> {
    to.put(&[0x78, 0x01])?;
    let (mut left, mut sums, mut block) = (len, (1, 0), Vec::with_capacity(BLOCK));
    while left > 0 {
        block.clear();
        block.extend(bytes.by_ref().take(BLOCK));
        left -= block.len();
        let len = block.len() as u16;
        to.put(&[u8::from(left == 0)])?;
        to.put(&len.to_le_bytes())?;
        to.put(&(!len).to_le_bytes())?;
        to.put(&block)?;
        sums = adler32(sums, &block);
    }
    to.put(&(sums.1 << 16 | sums.0).to_be_bytes())
}

#[cfg(test)]
mod tests {
    use super::*;

    fn file(height: usize, width: usize, rgb: &[u8]) -> Vec<u8> {
        let mut file = Vec::new();
        png(&mut file, &Picture { height, width, rgb: rgb.to_vec() }).unwrap();
        file
    }

    #[test]
    fn one_pixel() {
        let one = file(1, 1, &[1, 2, 3]);
        assert_eq!(one[16..29], [0, 0, 0, 1, 0, 0, 0, 1, 8, 2, 0, 0, 0]);
        assert_eq!(one[41..52], [0x78, 1, 1, 4, 0, 251, 255, 0, 1, 2, 3]);
        assert_eq!(file(1, 1, &[9, 9, 9])[25], 0);
    }

    #[test]
    fn two_blocks() {
        let rgb: Vec<u8> = (0..3 * 150 * 150).map(|i| i as u8).collect();
        let many = file(150, 150, &rgb);
        let len = 150 * 451;
        assert_eq!(many[33..37], (2 + len + 10 + 4u32).to_be_bytes());
        assert_eq!(many[43..48], [0, 255, 255, 0, 0]);
        let rest = (len as u16).wrapping_sub(65535);
        assert_eq!(many[48 + 65535..48 + 65538], [&[1][..], &rest.to_le_bytes()].concat());
        assert_eq!(many.len(), 33 + 12 + 2 + len as usize + 10 + 4 + 12);
    }
}
