//! PNG pictures, as they are read: 8 bits a sample, grey or RGB, not interlaced. What says how colours are meant (gAMA,
//! iCCP, sRGB) is skipped: a sample is its byte.

use crate::fail::numbered;
use crate::inflate::{self, Wrong};
use crate::netpbm::Picture;
use crate::room;
use crate::source::Source;
use crate::sums::crc32;
use kyzgultam::Refusal;
use std::io::{self, Read};

const SIGNATURE: &[u8] = b"\x89PNG\r\n\x1a\n";

/// Whether a file begins as a PNG, or as one that is cut off or was copied as a text.
pub fn begins(source: &mut Source<impl Read>) -> io::Result<bool> {
    let front = source.look(4)?;
    Ok(!front.is_empty() && SIGNATURE.starts_with(front))
}

/// Fills an empty picture: its sides, and then its bytes, when the last of them is known to be right. Where a pixel is
/// transparent, they are there, and the picture is refused.
pub fn parse(source: &mut Source<impl Read>, picture: &mut Picture) -> Result<(), String> {
    let mut file = Chunks { source, at: 0 };
    file.signature()?;
    let head = file.head()?;
    (picture.height, picture.width) = (head.height, head.width);
    head.sides()?;
    let stream = file.stream(&head)?;
    file.end()?;
    let rows = head.rows(&stream)?;
    drop(stream);
    picture.rgb = head.rgb(&rows)?;
    match head.transparent(&rows) {
        None => Ok(()),
        Some((y, x)) => Err(format!("is transparent, first at row {y}, column {x} (from 0); {FLATTEN}")),
    }
}

const WHOLE: &str = "get the whole file";
const FLATTEN: &str =
    "a colour that is not seen says nothing: lay it on a ground, as with `magick IN -background black \
                       -flatten OUT.ppm`";
const EIGHT: &str = "convert it, as with `magick IN -depth 8 OUT.ppm`";

fn damaged(words: impl std::fmt::Display) -> String {
    format!("is a damaged PNG: {words}; {WHOLE}")
}

/// A chunk before its data.
struct Chunk {
    name: [u8; 4],
    len: usize,
    /// The chunk's first byte in the file.
    at: u64,
}

impl Chunk {
    fn is(&self, name: &[u8; 4]) -> bool {
        self.name == *name
    }

    /// Its name and its place.
    fn shown(&self) -> String {
        format!("chunk {} at byte {}", self.name.escape_ascii(), self.at)
    }

    /// That there are more of these, or at another place, than a PNG may have.
    fn misplaced(&self) -> String {
        damaged(format!("{} is not to stand there", self.shown()))
    }
}

/// A file's chunks, one after another.
struct Chunks<'a, R> {
    source: &'a mut Source<R>,
    /// The next byte.
    at: u64,
}

impl<R: Read> Chunks<'_, R> {
    /// So many bytes, or that the file ends.
    fn take(&mut self, bytes: &mut [u8]) -> Result<(), String> {
        let found = self.source.take(bytes).map_err(|e| format!("cannot be read: {e}"))?;
        self.at += found as u64;
        if found < bytes.len() {
            return Err(format!("is cut short: it ends after {} bytes; {WHOLE}", self.at));
        }
        Ok(())
    }

    fn signature(&mut self) -> Result<(), String> {
        let mut found = [0; 8];
        self.take(&mut found)?;
        if found != SIGNATURE {
            return Err(damaged("its first 8 bytes are not a PNG's, as after a copy as a text"));
        }
        Ok(())
    }

    /// Length and name of the next chunk.
    fn next(&mut self) -> Result<Chunk, String> {
        let at = self.at;
        let mut front = [0; 8];
        self.take(&mut front)?;
        let [a, b, c, d, name @ ..] = front;
        let len = u32::from_be_bytes([a, b, c, d]);
        if !name.iter().all(u8::is_ascii_alphabetic) || len > i32::MAX as u32 {
            return Err(damaged(format!("no chunk begins at byte {at}")));
        }
        Ok(Chunk { name, len: len as usize, at })
    }

    /// The data of a chunk, some at a time, so that a length that is not true takes no memory; then its CRC.
    fn data(&mut self, chunk: &Chunk, mut each: impl FnMut(&[u8]) -> Result<(), String>) -> Result<(), String> {
        let mut bytes = [0; 1 << 14];
        let (mut left, mut sum) = (chunk.len, crc32(0, &chunk.name));
        while left > 0 {
            let some = &mut bytes[..left.min(1 << 14)];
            self.take(some)?;
            sum = crc32(sum, some);
            left -= some.len();
            each(some)?;
        }
        let mut found = [0; 4];
        self.take(&mut found)?;
        if found != sum.to_be_bytes() {
            return Err(damaged(format!("the CRC of {} is not that of its bytes", chunk.shown())));
        }
        Ok(())
    }

    fn head(&mut self) -> Result<Head, String> {
        let chunk = self.next()?;
        if !chunk.is(b"IHDR") || chunk.len != 13 {
            return Err(damaged(format!("{} is not the IHDR of 13 bytes that a PNG begins with", chunk.shown())));
        }
        let mut bytes = Vec::new();
        self.data(&chunk, |some| {
            bytes.extend_from_slice(some);
            Ok(())
        })?;
        Head::of(&bytes)
    }

    /// The compressed pixels: the data of all IDAT, which stand behind one another. What stands before them is skipped.
    fn stream(&mut self, head: &Head) -> Result<Vec<u8>, String> {
        let mut palette = false;
        loop {
            let chunk = self.next()?;
            match &chunk.name {
                b"IDAT" => return self.pixels(chunk, head),
                b"PLTE" => {
                    // Beside RGB it is only a hint for screens of few colours.
                    if palette || !head.colours() || chunk.len % 3 != 0 || !(1..=256).contains(&(chunk.len / 3)) {
                        return Err(chunk.misplaced());
                    }
                    palette = true;
                }
                _ => skipped(&chunk)?,
            }
            self.data(&chunk, |_| Ok(()))?;
        }
    }

    /// The data of an IDAT and of those that follow it; then what follows these is skipped, to the end.
    fn pixels(&mut self, first: Chunk, head: &Head) -> Result<Vec<u8>, String> {
        let most = 2 * head.len() + (1 << 16);
        let mut stream = Vec::new();
        let mut chunk = first;
        while chunk.is(b"IDAT") {
            self.data(&chunk, |some| {
                if some.len() > most - stream.len() {
                    return Err(damaged(format!(
                        "its compressed pixels are more than {most} bytes, twice as many as \
                                                its sides ask for"
                    )));
                }
                stream.extend_from_slice(some);
                Ok(())
            })?;
            chunk = self.next()?;
        }
        while !chunk.is(b"IEND") {
            if chunk.is(b"IDAT") || chunk.is(b"PLTE") {
                return Err(chunk.misplaced());
            }
            skipped(&chunk)?;
            self.data(&chunk, |_| Ok(()))?;
            chunk = self.next()?;
        }
        if chunk.len > 0 {
            return Err(damaged(format!("{} has {} bytes and is to have none", chunk.shown(), chunk.len)));
        }
        self.data(&chunk, |_| Ok(()))?;
        Ok(stream)
    }

    fn end(&mut self) -> Result<(), String> {
        match self.source.ended().map_err(|e| format!("cannot be read: {e}"))? {
            true => Ok(()),
            false => Err(format!("goes on after its picture, which ends at byte {}; give one picture a file", self.at)),
        }
    }
}

/// Whether a chunk that is not known may be skipped: by its name, whose first letter is small.
fn skipped(chunk: &Chunk) -> Result<(), String> {
    match &chunk.name {
        b"tRNS" => Err(format!("has transparent colours ({}); {FLATTEN}", chunk.shown())),
        b"acTL" => Err(format!("is animated ({}); give one picture a file", chunk.shown())),
        b"IHDR" | b"IEND" => Err(chunk.misplaced()),
        name if name[0].is_ascii_uppercase() => {
            Err(format!("has a part that is needed to read it and is not known, {}; {EIGHT}", chunk.shown()))
        }
        _ => Ok(()),
    }
}

/// What IHDR says, of pictures that are read.
struct Head {
    height: usize,
    width: usize,
    /// Bytes a pixel: grey, grey and alpha, RGB, RGB and alpha.
    depth: usize,
}

impl Head {
    fn of(bytes: &[u8]) -> Result<Head, String> {
        let side = |at: usize| u32::from_be_bytes([bytes[at], bytes[at + 1], bytes[at + 2], bytes[at + 3]]) as usize;
        let (width, height) = (side(0), side(4));
        let [bits, colour, packing, filter, interlace] = [8, 9, 10, 11, 12].map(|at| bytes[at]);
        let depth = match (colour, bits) {
            (0, 1 | 2 | 4 | 8 | 16) => 1,
            (2, 8 | 16) => 3,
            (3, 1 | 2 | 4 | 8) => return Err(format!("is a PNG with a palette, and not grey or RGB; {EIGHT}")),
            (4, 8 | 16) => 2,
            (6, 8 | 16) => 4,
            _ => return Err(damaged(format!("its IHDR says colour type {colour} of {bits} bits, which there is not"))),
        };
        if packing != 0 || filter != 0 || interlace > 1 {
            return Err(damaged(format!(
                "its IHDR says methods {packing}, {filter}, {interlace}, which there are not"
            )));
        }
        if bits != 8 {
            return Err(format!("is a PNG with {bits} bits a sample, and only 8 are read; {EIGHT}"));
        }
        if interlace == 1 {
            return Err(format!("is an interlaced PNG, which is not read; {EIGHT}"));
        }
        Ok(Head { height, width, depth })
    }

    /// That no side is 0 or too large.
    fn sides(&self) -> Result<(), String> {
        let Head { height, width, .. } = self;
        match (height * width, *height.max(width)) {
            (0, _) => Err(numbered(Refusal::Side, format!("it is {height}x{width}, and has no pixel; write it again"))),
            (_, 8193..) => Err(numbered(Refusal::Side, format!("it is {height}x{width}: cut or shrink it"))),
            _ => Ok(()),
        }
    }

    fn colours(&self) -> bool {
        self.depth > 2
    }

    /// Bytes of a row, behind the one that says its filter.
    fn row(&self) -> usize {
        self.width * self.depth
    }

    /// Bytes of all rows, with their filters.
    fn len(&self) -> usize {
        self.height * (1 + self.row())
    }

    /// All rows, unpacked and without their filters' doing. The memory for them is asked for where they may be there.
    fn rows(&self, stream: &[u8]) -> Result<Vec<u8>, String> {
        let Head { height, width, .. } = self;
        if self.len() / inflate::MOST > stream.len() {
            let words = format!("{height}x{width} pixels are not in {} compressed bytes", stream.len());
            return Err(damaged(words));
        }
        let mut rows = room::empty(self.len(), &format!("the rows of its {height}x{width} pixels"), SHRINK)?;
        inflate::zlib(stream, self.len(), &mut rows).map_err(|Wrong { place, why }| {
            damaged(format!("its compressed pixels are wrong at byte {place} of {}: {why}", stream.len()))
        })?;
        let mut above = vec![0; self.row()];
        for (y, row) in rows.chunks_exact_mut(1 + self.row()).enumerate() {
            let (filter, row) = row.split_first_mut().expect("a row has a filter");
            if !unfilter(*filter, row, &above, self.depth) {
                return Err(damaged(format!("row {y} has filter {filter}, and there are 0 to 4")));
            }
            above.copy_from_slice(row);
        }
        Ok(rows)
    }

    /// The bytes of each pixel, row by row.
    fn pixels<'a>(&self, rows: &'a [u8]) -> impl Iterator<Item = &'a [u8]> {
        let depth = self.depth;
        rows.chunks_exact(1 + self.row()).flat_map(move |row| row[1..].chunks_exact(depth))
    }

    /// Three bytes a pixel, whatever its alpha is.
    fn rgb(&self, rows: &[u8]) -> Result<Vec<u8>, String> {
        let Head { height, width, .. } = self;
        let mut rgb = room::empty(height * width * 3, &format!("its {height}x{width} pixels"), SHRINK)?;
        for pixel in self.pixels(rows) {
            rgb.extend(if self.colours() { [pixel[0], pixel[1], pixel[2]] } else { [pixel[0]; 3] });
        }
        Ok(rgb)
    }

    /// The first pixel whose alpha is not 255.
    fn transparent(&self, rows: &[u8]) -> Option<(usize, usize)> {
        let alpha = self.depth % 2 == 0;
        let at = self.pixels(rows).position(|pixel| alpha && pixel[self.depth - 1] != 255)?;
        Some((at / self.width, at % self.width))
    }
}

const SHRINK: &str = "cut or shrink the picture";

/// Takes a filter's doing from a row, whose pixels have so many bytes; false where there is no such filter.
fn unfilter(filter: u8, row: &mut [u8], above: &[u8], depth: usize) -> bool {
    for at in 0..row.len() {
        let left = at.checked_sub(depth).map(|at| (row[at], above[at]));
        let (left, corner) = left.unwrap_or((0, 0));
        let guess = match filter {
            0 => 0,
            1 => left,
            2 => above[at],
            3 => ((u16::from(left) + u16::from(above[at])) / 2) as u8,
            4 => paeth(left, above[at], corner),
            _ => return false,
        };
        row[at] = row[at].wrapping_add(guess);
    }
    true
}

/// Of the three bytes that which is nearest to left + above - corner; of equally near ones the first.
fn paeth(left: u8, above: u8, corner: u8) -> u8 {
    let [a, b, c] = [left, above, corner].map(i16::from);
    let [from_left, from_above, from_corner] = [b - c, a - c, a + b - 2 * c].map(i16::abs);
    if from_left <= from_above && from_left <= from_corner {
        left
    } else if from_above <= from_corner {
        above
    } else {
        corner
    }
}

#[cfg(test)]
mod tests {
    use super::*;

    /// A chunk with its sum, which is worked out bit by bit.
    fn chunk(name: &[u8], data: &[u8]) -> Vec<u8> {
        let body = [name, data].concat();
        let crc = !body.iter().fold(u32::MAX, |crc, byte| {
            (0..8).fold(crc ^ u32::from(*byte), |c, _| if c & 1 == 1 { c >> 1 ^ 0xEDB8_8320 } else { c >> 1 })
        });
        [&(data.len() as u32).to_be_bytes()[..], &body, &crc.to_be_bytes()].concat()
    }

    /// A zlib stream of one stored block.
    fn zlib(bytes: &[u8]) -> Vec<u8> {
        let (a, b) = bytes.iter().fold((1u32, 0), |(a, b), byte| {
            let a = (a + u32::from(*byte)) % 65521;
            (a, (b + a) % 65521)
        });
        let len = bytes.len() as u16;
        let (sum, sizes) = ((b << 16 | a).to_be_bytes(), [len.to_le_bytes(), (!len).to_le_bytes()].concat());
        [&[0x78, 1, 1], &sizes[..], bytes, &sum].concat()
    }

    fn ihdr(height: u32, width: u32, rest: [u8; 5]) -> Vec<u8> {
        chunk(b"IHDR", &[&width.to_be_bytes()[..], &height.to_be_bytes(), &rest].concat())
    }

    fn file(chunks: &[Vec<u8>]) -> Vec<u8> {
        [SIGNATURE, &chunks.concat()].concat()
    }

    /// A file of rows, each with the byte of its filter, of a colour type with so many bytes a pixel.
    fn png(colour: u8, height: u32, width: u32, rows: &[u8]) -> Vec<u8> {
        let stream = zlib(rows);
        file(&[ihdr(height, width, [8, colour, 0, 0, 0]), chunk(b"IDAT", &stream), chunk(b"IEND", b"")])
    }

    type Found = (usize, usize, Vec<u8>);

    /// What is found, and why it is not taken: from a file, and from a pipe, whose length is not known.
    fn find(bytes: &[u8]) -> (Found, Result<(), String>) {
        let find = |left| {
            let mut p = Picture { height: 0, width: 0, rgb: vec![] };
            let mut source = Source::new(bytes, left);
            assert_eq!(begins(&mut source).unwrap(), !bytes.is_empty());
            let taken = parse(&mut source, &mut p);
            ((p.height, p.width, p.rgb), taken)
        };
        let (known, unknown) = (find(Some(bytes.len() as u64)), find(None));
        assert_eq!(known, unknown);
        known
    }

    fn read(bytes: &[u8]) -> Result<Found, String> {
        let (found, taken) = find(bytes);
        taken.map(|()| found)
    }

    #[test]
    fn colour_types() {
        assert_eq!(read(&png(0, 2, 1, &[0, 7, 0, 9])), Ok((2, 1, vec![7, 7, 7, 9, 9, 9])));
        assert_eq!(read(&png(2, 1, 2, &[0, 1, 2, 3, 4, 5, 6])), Ok((1, 2, vec![1, 2, 3, 4, 5, 6])));
        assert_eq!(read(&png(4, 1, 2, &[0, 7, 255, 9, 255])), Ok((1, 2, vec![7, 7, 7, 9, 9, 9])));
        assert_eq!(read(&png(6, 1, 2, &[0, 1, 2, 3, 255, 4, 5, 6, 255])), Ok((1, 2, vec![1, 2, 3, 4, 5, 6])));
    }

    /// Of a transparent picture all bytes are found, and it is not taken.
    #[test]
    fn transparent_pixels() {
        let (found, taken) = find(&png(4, 1, 2, &[0, 7, 255, 9, 254]));
        assert_eq!(found, (1, 2, vec![7, 7, 7, 9, 9, 9]));
        assert!(taken.unwrap_err().starts_with("is transparent, first at row 0, column 1 (from 0); "));
        let (found, taken) = find(&png(6, 2, 1, &[0, 1, 2, 3, 255, 0, 4, 5, 6, 0]));
        assert_eq!(found, (2, 1, vec![1, 2, 3, 4, 5, 6]));
        assert!(taken.unwrap_err().starts_with("is transparent, first at row 1, column 0 (from 0); "));
    }

    /// Each filter, on bytes worked out by hand: grey pixels 11 251 31 below 101 21 201, and RGB, whose left neighbour
    /// is three bytes away.
    #[test]
    fn filters() {
        for (filter, bytes) in
            [(0, [11, 251, 31]), (1, [11, 240, 36]), (2, [166, 230, 86]), (3, [217, 235, 61]), (4, [166, 240, 36])]
        {
            let rows = [&[0, 101, 21, 201, filter][..], &bytes].concat();
            let right: Vec<u8> = [101, 21, 201, 11, 251, 31].iter().flat_map(|grey| [*grey; 3]).collect();
            assert_eq!(read(&png(0, 2, 3, &rows)), Ok((2, 3, right)), "{filter}");
        }
        let rows = [1, 1, 2, 3, 1, 1, 1, 4, 0, 0, 0, 0, 0, 0];
        assert_eq!(read(&png(2, 2, 2, &rows)), Ok((2, 2, vec![1, 2, 3, 2, 3, 4, 1, 2, 3, 2, 3, 4])));
        // Above the first row and left of it there is 0.
        for filter in 0..=4 {
            assert_eq!(read(&png(0, 1, 1, &[filter, 9])), Ok((1, 1, vec![9; 3])), "{filter}");
        }
    }

    /// The nearest of three, in the order left, above, corner, for every three of them.
    #[test]
    fn paeth_is_the_nearest() {
        for (left, above, corner) in (0..=255)
            .step_by(5)
            .flat_map(|a| (0..=255).step_by(3).map(move |b| (a, b)))
            .flat_map(|(a, b)| (0..=255).step_by(7).map(move |c| (a, b, c)))
        {
            let aim = i32::from(left) + i32::from(above) - i32::from(corner);
            let right = [left, above, corner].into_iter().min_by_key(|byte| (aim - i32::from(*byte)).abs());
            assert_eq!(Some(paeth(left, above, corner)), right, "{left} {above} {corner}");
        }
    }

    /// Chunks that say how colours are meant, text and the like change nothing; nor does where the stream is cut.
    #[test]
    fn what_is_skipped() {
        let (head, end) = (ihdr(1, 1, [8, 2, 0, 0, 0]), chunk(b"IEND", b""));
        let stream = zlib(&[0, 1, 2, 3]);
        let (front, back) = stream.split_at(5);
        let idat = |data: &[u8]| chunk(b"IDAT", data);
        for chunks in [
            vec![chunk(b"gAMA", &[0, 0, 0, 1]), chunk(b"sRGB", &[0]), chunk(b"iCCP", b"a\0\0x"), idat(&stream)],
            vec![chunk(b"PLTE", &[1, 2, 3]), idat(&stream), chunk(b"tEXt", b"a\0b"), chunk(b"zzzz", b"")],
            vec![idat(b""), idat(front), idat(b""), idat(back)],
        ] {
            let file = file(&[vec![head.clone()], chunks, vec![end.clone()]].concat());
            assert_eq!(read(&file), Ok((1, 1, vec![1, 2, 3])));
        }
    }

    #[test]
    fn refused_forms() {
        let head = |rest| file(&[ihdr(1, 1, rest)]);
        for (rest, why) in [
            ([8, 3, 0, 0, 0], "a PNG with a palette"),
            ([1, 3, 0, 0, 0], "a PNG with a palette"),
            ([16, 0, 0, 0, 0], "with 16 bits a sample"),
            ([16, 6, 0, 0, 0], "with 16 bits a sample"),
            ([1, 0, 0, 0, 0], "with 1 bits a sample"),
            ([2, 0, 0, 0, 0], "with 2 bits a sample"),
            ([4, 0, 0, 0, 0], "with 4 bits a sample"),
            ([8, 2, 0, 0, 1], "an interlaced PNG"),
            ([8, 1, 0, 0, 0], "colour type 1 of 8 bits, which there is not"),
            ([8, 7, 0, 0, 0], "colour type 7 of 8 bits"),
            ([4, 2, 0, 0, 0], "colour type 2 of 4 bits"),
            ([16, 3, 0, 0, 0], "colour type 3 of 16 bits"),
            ([8, 2, 1, 0, 0], "methods 1, 0, 0"),
            ([8, 2, 0, 1, 0], "methods 0, 1, 0"),
            ([8, 2, 0, 0, 2], "methods 0, 0, 2"),
        ] {
            let (found, taken) = find(&head(rest));
            assert_eq!(found, (0, 0, vec![]), "{rest:?}");
            let words = taken.unwrap_err();
            assert!(words.contains(why) && words.contains("; "), "{rest:?}: {words}");
        }
    }

    #[test]
    fn refused_sides() {
        for (height, width, why) in [
            (0, 1, "it is 0x1, and has no pixel"),
            (1, 0, "it is 1x0, and has no pixel"),
            (8193, 1, "it is 8193x1: cut or shrink it"),
            (1, u32::MAX, "it is 1x4294967295: cut or shrink it"),
        ] {
            let ((h, w, rgb), taken) = find(&file(&[ihdr(height, width, [8, 2, 0, 0, 0])]));
            assert_eq!((h, w, rgb.len()), (height as usize, width as usize, 0));
            let words = taken.unwrap_err();
            assert!(words.starts_with("refused, number 2: ") && words.contains(why), "{words}");
        }
    }

    #[test]
    fn refused_chunks() {
        let (head, grey) = (ihdr(1, 1, [8, 2, 0, 0, 0]), ihdr(1, 1, [8, 0, 0, 0, 0]));
        let (idat, end) = (chunk(b"IDAT", &zlib(&[0, 1, 2, 3])), chunk(b"IEND", b""));
        let [text, palette] = [chunk(b"tEXt", b""), chunk(b"PLTE", &[0; 3])];
        let other = |name: &[u8]| chunk(name, b"");
        let mut changed = idat.clone();
        changed[9] ^= 1;
        for (chunks, why) in [
            (vec![&idat], "chunk IDAT at byte 8 is not the IHDR"),
            (vec![&chunk(b"IHDR", &[0; 12])], "chunk IHDR at byte 8 is not the IHDR of 13 bytes"),
            (vec![&head, &head], "chunk IHDR at byte 33 is not to stand there"),
            (vec![&head, &end], "chunk IEND at byte 33 is not to stand there"),
            (vec![&head, &idat, &text, &idat], "chunk IDAT at byte 72 is not to stand there"),
            (vec![&head, &idat, &palette], "chunk PLTE at byte 60 is not to stand there"),
            (vec![&head, &palette, &palette], "chunk PLTE at byte 48 is not to stand there"),
            (vec![&head, &other(b"PLTE")], "chunk PLTE at byte 33 is not to stand there"),
            (vec![&head, &chunk(b"PLTE", &[0; 4])], "chunk PLTE at byte 33 is not to stand there"),
            (vec![&head, &chunk(b"PLTE", &[0; 771])], "chunk PLTE at byte 33 is not to stand there"),
            (vec![&grey, &palette], "chunk PLTE at byte 33 is not to stand there"),
            (vec![&head, &other(b"tRNS")], "has transparent colours (chunk tRNS at byte 33)"),
            (vec![&head, &idat, &other(b"tRNS")], "has transparent colours (chunk tRNS at byte 60)"),
            (vec![&head, &other(b"acTL")], "is animated (chunk acTL at byte 33)"),
            (vec![&head, &other(b"CgBI")], "is not known, chunk CgBI at byte 33"),
            (vec![&head, &idat, &other(b"XXXX")], "is not known, chunk XXXX at byte 60"),
            (vec![&head, &other(b"a\x1bcd")], "no chunk begins at byte 33"),
            (vec![&head, &b"\x80\0\0\0IDAT".to_vec()], "no chunk begins at byte 33"),
            (vec![&head, &changed, &end], "the CRC of chunk IDAT at byte 33 is not that of its bytes"),
            (vec![&head, &idat, &chunk(b"IEND", b"x")], "chunk IEND at byte 60 has 1 bytes and is to have none"),
            (vec![&head, &idat, &end, &vec![0]], "goes on after its picture, which ends at byte 72"),
            (vec![&head, &idat, &end, &SIGNATURE.to_vec()], "goes on after its picture, which ends at byte 72"),
        ] {
            let file = file(&chunks.into_iter().cloned().collect::<Vec<_>>());
            let words = read(&file).unwrap_err();
            assert!(words.contains(why) && words.contains("; "), "{why}: {words}");
        }
        let words = read(b"\x89PNG\n\x1a\n\0\0").unwrap_err();
        assert!(words.contains("as after a copy as a text"), "{words}");
    }

    #[test]
    fn refused_pixels() {
        for (rows, why) in [
            (&[0, 1, 2][..], "wrong at byte 14 of 14: it has fewer bytes than the picture's sides ask for"),
            (&[0, 1, 2, 3, 4], "wrong at byte 7 of 16: it has more bytes than the picture's sides ask for"),
            (&[5, 1, 2, 3], "row 0 has filter 5, and there are 0 to 4"),
        ] {
            let words = read(&png(2, 1, 1, rows)).unwrap_err();
            assert!(words.contains(why), "{words}");
        }
        let with = |stream: &[u8]| file(&[ihdr(1, 1, [8, 2, 0, 0, 0]), chunk(b"IDAT", stream), chunk(b"IEND", b"")]);
        let mut stream = zlib(&[0, 1, 2, 3]);
        stream[14] ^= 1;
        assert!(read(&with(&stream)).unwrap_err().contains("its Adler-32 is another"));
        // More compressed bytes than a picture of these sides can need: empty blocks, as many as there are.
        let many = [&[0x78, 1][..], &[0, 0, 0, 255, 255].repeat(20_000)].concat();
        assert!(read(&with(&many)).unwrap_err().contains("more than 65544 bytes"));
    }

    /// Sides that are not true take no memory: 200 MB of pixels are not in ten bytes, nor in a chunk that says it is
    /// long and is not.
    #[test]
    fn sides_and_lengths_that_lie() {
        let head = ihdr(8192, 8192, [8, 2, 0, 0, 0]);
        let words = read(&file(&[head.clone(), chunk(b"IDAT", &zlib(&[0])), chunk(b"IEND", b"")])).unwrap_err();
        assert!(words.contains("8192x8192 pixels are not in 12 compressed bytes"), "{words}");
        let words = read(&file(&[head, b"\x7f\xff\xff\xffIDATabc".to_vec()])).unwrap_err();
        assert!(words.contains("is cut short: it ends after 44 bytes"), "{words}");
    }

    /// Every cut and every byte changed, with the chunks' sums made right again too: an answer, and never a picture
    /// whose bytes are not as many as its sides ask for.
    #[test]
    fn hostile_files() {
        let chunks = [ihdr(2, 2, [8, 2, 0, 0, 0]), chunk(b"tEXt", b"a\0b"), chunk(b"IDAT", &zlib(&[4; 14]))];
        let whole = file(&[&chunks[..], &[chunk(b"IEND", b"")]].concat());
        assert!(read(&whole).is_ok());
        for len in 1..whole.len() {
            let words = read(&whole[..len]).unwrap_err();
            assert!(words.starts_with(&format!("is cut short: it ends after {len} bytes; ")), "{len}: {words}");
        }
        let (mut refused, mut taken) = (0, 0);
        for (at, byte) in (4..whole.len()).flat_map(|at| (0..=255).map(move |byte| (at, byte))) {
            let mut changed = whole.clone();
            changed[at] = byte;
            assert!(changed == whole || read(&changed).is_err(), "{at} {byte}");
            mend(&mut changed);
            let ((height, width, rgb), result) = find(&changed);
            assert!(rgb.len() == height * width * 3 || rgb.is_empty());
            *(if result.is_ok() { &mut taken } else { &mut refused }) += 1;
        }
        assert!(taken > 256 && refused > 10_000, "{taken} {refused}");
    }

    /// Makes the sums of chunks right, as far as there are chunks.
    fn mend(file: &mut [u8]) {
        let mut at = 8;
        while let Some(front) = file.get(at..at + 8) {
            let len = u32::from_be_bytes([front[0], front[1], front[2], front[3]]) as usize;
            let Some(data) = file.get(at + 4..at + 8 + len) else { return };
            let right = chunk(&data[..4], &data[4..]);
            let Some(place) = file.get_mut(at..at + right.len()) else { return };
            place.copy_from_slice(&right);
            at += right.len();
        }
    }
}
