//! Binary netpbm pictures: P5 (grey) and P6 (RGB), samples of one byte.

use crate::fail::numbered;
use crate::room;
use crate::source::Source;
use kyzgultam::Refusal;
use std::io::{self, Read, Write};

/// Three bytes a pixel, by row.
#[derive(Clone)]
pub struct Picture {
    pub height: usize,
    pub width: usize,
    pub rgb: Vec<u8>,
}

/// A header with its comments is not longer than this.
const HEADER: usize = 1 << 16;

/// Writes a P6.
pub fn ppm(to: &mut dyn Write, picture: &Picture) -> io::Result<()> {
    write!(to, "P6\n{} {}\n255\n", picture.width, picture.height)?;
    to.write_all(&picture.rgb)
}

/// The header's bytes. A comment runs from # to the end of its line and counts as that end.
struct Header<'a> {
    bytes: &'a [u8],
    at: usize,
}

impl Header<'_> {
    fn next(&mut self) -> Option<u8> {
        let mut byte = *self.bytes.get(self.at)?;
        self.at += 1;
        if byte == b'#' {
            while !matches!(byte, b'\n' | b'\r') {
                byte = *self.bytes.get(self.at)?;
                self.at += 1;
            }
        }
        Some(byte)
    }

    /// A decimal after any white space, and the one white space after it.
    fn decimal(&mut self, what: &str) -> Result<usize, String> {
        let mut byte = self.next();
        while byte.is_some_and(white) {
            byte = self.next();
        }
        let mut number = None;
        while let Some(digit) = byte.filter(u8::is_ascii_digit) {
            let sum = number.unwrap_or(0usize).saturating_mul(10).saturating_add(usize::from(digit - b'0'));
            number = Some(sum);
            byte = self.next();
        }
        match (number, byte) {
            (Some(number), Some(byte)) if white(byte) => Ok(number),
            (_, None) if self.bytes.len() == HEADER => {
                Err(format!("is no netpbm picture: its header is longer than {HEADER} bytes; write it again"))
            }
            (_, None) => Err(format!("ends inside its header, at its {what}; get the whole file")),
            _ => Err(format!("is no netpbm picture: its {what} is no decimal; write it again as P5 or P6")),
        }
    }
}

fn white(byte: u8) -> bool {
    matches!(byte, b' ' | b'\t' | b'\n' | b'\r' | 0x0B | 0x0C)
}

/// What a header says: channels, sides, the highest sample, and its own length.
struct Head {
    channels: usize,
    height: usize,
    width: usize,
    most: usize,
    len: usize,
    /// What to do where more bytes follow than it asks for.
    advice: &'static str,
}

impl Head {
    fn of(bytes: &[u8]) -> Result<Head, String> {
        let channels = channels(bytes)?;
        let mut header = Header { bytes, at: 2 };
        let width = header.decimal("width")?;
        let height = header.decimal("height")?;
        let most = header.decimal("maxval")?;
        if !(1..=65535).contains(&most) {
            return Err(format!("is no netpbm picture: its maxval is {most}; it is to be in 1..255"));
        }
        if most > 255 {
            return Err(format!("has samples of two bytes (maxval {most}); convert it, as with `pamdepth 255`"));
        }
        // One white space ends the header: what is meant to belong to it is read as samples.
        let advice = match &bytes[header.at - 1..] {
            [b'\r', b'\n', ..] => LINES,
            [_, b'#', ..] => COMMENT,
            _ => ONE,
        };
        Ok(Head { channels, height, width, most, len: header.at, advice })
    }

    /// How many samples there are.
    fn samples(&self) -> usize {
        self.height * self.width * self.channels
    }

    /// That no side is 0 or too large.
    fn sides(&self) -> Result<(), String> {
        let Head { height, width, .. } = *self;
        match (height.min(width), height.max(width)) {
            (0, _) => Err(numbered(Refusal::Side, format!("it is {height}x{width}, and has no pixel; write it again"))),
            (_, 8193..) => Err(numbered(Refusal::Side, format!("it is {height}x{width}: cut or shrink it"))),
            _ => Ok(()),
        }
    }

    /// That so many bytes of samples are there, or that others may follow.
    fn length(&self, found: u64, others: bool) -> Result<(), String> {
        let needed = self.samples();
        match found.checked_sub(needed as u64) {
            None => Err(format!("is cut short: {found} bytes of samples where {needed} belong; get the whole file")),
            Some(more @ 1..) if !others => Err(format!("goes on for {more} bytes after its picture; {}", self.advice)),
            _ => Ok(()),
        }
    }
}

const ONE: &str = "give one picture a file (`pamsplit`), or all on standard input (-) to encode or patches";
const LINES: &str = "the lines of its header end in CR LF, and the last LF is read as a sample: write it again with LF";
const COMMENT: &str = "a comment stands behind its maxval, where the samples begin: put it before the maxval";

/// How many samples a pixel has, by the first two bytes.
fn channels(bytes: &[u8]) -> Result<usize, String> {
    match bytes.get(..2) {
        Some(b"P5") => Ok(1),
        Some(b"P6") => Ok(3),
        Some([b'P', b'1'..=b'7']) => {
            Err("is a netpbm picture, but not P5 or P6; convert it, as with `magick IN OUT.ppm`".into())
        }
        _ => Err("is no PNG and no binary netpbm picture (P5 or P6); convert it, as with `magick IN OUT.ppm`".into()),
    }
}

/// Fills an empty picture: its sides, and then its bytes, when the last of them is read. Its header is tested first,
/// and then its length, where it has one.
pub fn parse(source: &mut Source<impl Read>, picture: &mut Picture) -> Result<(), String> {
    fill(source, picture, false)
}

/// The same of a picture behind which others may stand.
pub fn first(source: &mut Source<impl Read>, picture: &mut Picture) -> Result<(), String> {
    fill(source, picture, true)
}

fn fill(source: &mut Source<impl Read>, picture: &mut Picture, others: bool) -> Result<(), String> {
    let head = Head::of(source.look(HEADER).map_err(unread)?)?;
    let Head { height, width, most, .. } = head;
    (picture.height, picture.width) = (height, width);
    head.sides()?;
    source.take(&mut vec![0; head.len]).map_err(unread)?;
    source.left().map_or(Ok(()), |left| head.length(left, others))?;
    let what = format!("its {height}x{width} pixels");
    let mut rgb = room::zeros(height * width * 3, &what, "cut or shrink the picture")?;
    // Grey samples go to the end, and are then spread from the front on.
    let start = rgb.len() - head.samples();
    let found = source.take(&mut rgb[start..]).map_err(unread)?;
    head.length(found as u64, others)?;
    if !(source.ended().map_err(unread)? || others && begins(source).map_err(unread)?) {
        return Err(format!("goes on after its picture; {}", head.advice));
    }
    let above = rgb[start..].iter().find(|v| usize::from(**v) > most).copied();
    spread(&mut rgb, start);
    scale(&mut rgb, most);
    picture.rgb = rgb;
    match above {
        Some(value) => Err(format!("has a sample of {value}, above its maxval {most}; write it again")),
        None => Ok(()),
    }
}

fn unread(e: io::Error) -> String {
    format!("cannot be read: {e}")
}

/// Whether a picture that is read begins here.
pub fn begins(source: &mut Source<impl Read>) -> io::Result<bool> {
    Ok(matches!(source.look(3)?, [b'P', b'5' | b'6', next] if white(*next) || *next == b'#'))
}

/// Makes three of each grey sample that stands at the end, from a place on; RGB begins at 0.
fn spread(rgb: &mut [u8], start: usize) {
    if start > 0 {
        for i in 0..rgb.len() / 3 {
            let grey = rgb[start + i];
            rgb[3 * i..3 * i + 3].fill(grey);
        }
    }
}

/// Brings samples of another maxval to 255, rounded to the nearest.
fn scale(rgb: &mut [u8], most: usize) {
    let mut table = [0; 256];
    for (value, byte) in table.iter_mut().enumerate().take(most + 1) {
        *byte = ((value * 255 + most / 2) / most) as u8;
    }
    for byte in rgb {
        *byte = table[usize::from(*byte)];
    }
}

#[cfg(test)]
mod tests {
    use super::*;

    type Found = (usize, usize, Vec<u8>);

    /// What is found, and why it is not taken.
    fn find(head: &str, raster: &[u8]) -> (Found, Result<(), String>) {
        let bytes = [head.as_bytes(), raster].concat();
        let find = |left| {
            let mut p = Picture { height: 0, width: 0, rgb: vec![] };
            let taken = parse(&mut Source::new(&bytes[..], left), &mut p);
            ((p.height, p.width, p.rgb), taken)
        };
        // From a file, and from a pipe, whose length is not known.
        let (known, unknown) = (find(Some(bytes.len() as u64)), find(None));
        assert_eq!(known.0, unknown.0, "{head:?}");
        assert!(known.1 == unknown.1 || known.1.as_ref().is_err_and(|e| e.contains("bytes after")), "{head:?}");
        known
    }

    fn read(head: &str, raster: &[u8]) -> Result<Found, String> {
        let (found, taken) = find(head, raster);
        taken.map(|()| found)
    }

    #[test]
    fn legal_forms() {
        let two = vec![1, 2, 3, 4, 5, 6];
        for head in [
            "P6\n2 1\n255\n",
            "P6 2 1 255 ",
            "P6\t2\r\n1\x0B\x0C255\r",
            "P6\n# made by hand\n2 1\n255\n",
            "P6#a\n#b\n  2#c\r 1 # d 9 9\n\n\n255\n",
            "P6\n002 0001 255\n",
            "P6\n2 1\n255#no white space before it\n",
        ] {
            assert_eq!(read(head, &two), Ok((1, 2, two.clone())), "{head:?}");
        }
        assert_eq!(read("P5\n1 2\n255\n", &[7, 9]), Ok((2, 1, vec![7, 7, 7, 9, 9, 9])));
        // White space and # belong to the samples once the header is over.
        assert_eq!(read("P5 2 1 255 ", b" #"), Ok((1, 2, vec![32, 32, 32, 35, 35, 35])));
        assert_eq!(read("P5 2 1 255 ", b"# "), Ok((1, 2, vec![35, 35, 35, 32, 32, 32])));
        // Where the count is right, a LF is a sample, whatever stood before it.
        assert_eq!(read("P5\r\n2 1\r\n255\r", b"\n "), Ok((1, 2, vec![10, 10, 10, 32, 32, 32])));
    }

    #[test]
    fn smaller_maxval() {
        assert_eq!(read("P5 2 1 1\n", &[0, 1]), Ok((1, 2, vec![0, 0, 0, 255, 255, 255])));
        assert_eq!(read("P6 1 1 100\n", &[0, 50, 100]), Ok((1, 1, vec![0, 128, 255])));
        assert!(read("P5 1 1 100\n", &[101]).unwrap_err().contains("above its maxval"));
    }

    #[test]
    fn refused_forms() {
        let six = [0; 6];
        for (head, raster, why) in [
            ("", &six[..0], "no binary netpbm"),
            ("P", &six[..0], "no binary netpbm"),
            ("\u{89}PNG", &six, "no binary netpbm"),
            ("P3\n1 1\n255\n", &six, "not P5 or P6"),
            ("P6", &six[..0], "header, at its width"),
            ("P6\n2", &six[..0], "header, at its width"),
            ("P6\n2 1\n255", &six[..0], "header, at its maxval"),
            ("P6\n2 1 # no end", &six[..0], "header, at its"),
            ("P6\n-2 1\n255\n", &six, "width is no decimal"),
            ("P6\n2x 1\n255\n", &six, "width is no decimal"),
            ("P6\n2 1\n0\n", &six, "maxval is 0"),
            ("P6\n2 1\n65536\n", &six, "maxval is 65536"),
            ("P6\n2 1\n65535\n", &six, "two bytes"),
            ("P6\n2 1\n255\n", &six[..5], "cut short: 5 bytes of samples where 6 belong"),
            ("P6\n1 1\n255\n", &six, "3 bytes after"),
            ("P6\n0 1\n255\n", &six[..0], "number 2: height or width is not in 1..8192; it is 1x0, and has no pixel"),
            ("P5\n1 0\n255\n", &six[..0], "it is 0x1, and has no pixel; write it again"),
            ("P6\r\n1 1\r\n255\r\n", &six[..3], "1 bytes after its picture; the lines of its header end in CR LF"),
            ("P6\r\n1 1\r\n255\r\n", &six, "4 bytes after its picture; the lines of its header end in CR LF"),
            (
                "P6\n1 1\n255\n# a comment\n",
                &six[..3],
                "12 bytes after its picture; a comment stands behind its maxval",
            ),
            ("P6\n1 1\n255 # a comment\n", &six[..3], "a comment stands behind its maxval, where the samples begin"),
            ("P6\r\n1 1\r\n255\r\n", &six[..1], "cut short: 2 bytes of samples where 3 belong"),
            ("P6\n1 8193\n255\n", &six, "number 2"),
            (&format!("P6\n#{}\n1 1 255\n", " ".repeat(HEADER)), &six[..3], "header is longer than 65536 bytes"),
            ("P6\n99999999999999999999999 99999999999999999999999\n255\n", &six, "number 2"),
        ] {
            let found = read(head, raster).unwrap_err();
            assert!(found.contains(why), "{head:?}: {found}");
        }
    }

    /// Of what is not taken the header's sides are still found, and the bytes where only the value of one is wrong.
    #[test]
    fn found_where_it_is_not_taken() {
        for (head, raster, sides, bytes) in [
            ("P3\n2 1\n255\n", &[0; 6][..], (0, 0), 0),
            ("P6\n2 1\n65535\n", &[0; 12], (0, 0), 0),
            ("P6\n2 1\n255", &[], (0, 0), 0),
            ("P6\n2 0\n255\n", &[0; 6], (0, 2), 0),
            ("P6\n8193 1\n255\n", &[0; 6], (1, 8193), 0),
            ("P6\n2 1\n255\n", &[0; 5], (1, 2), 0),
            ("P6\n2 1\n255\n", &[0; 7], (1, 2), 0),
            ("P6\n2 1\n100\n", &[0, 0, 0, 0, 0, 101], (1, 2), 6),
            ("P5\n1 2\n100\n", &[101, 0], (2, 1), 6),
        ] {
            let ((height, width, rgb), taken) = find(head, raster);
            assert!(taken.is_err(), "{head:?}");
            assert_eq!(((height, width), rgb.len()), (sides, bytes), "{head:?}");
        }
    }
}
