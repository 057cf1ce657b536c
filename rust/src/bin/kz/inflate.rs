//! Inflate (RFC 1951) inside zlib's form (RFC 1950): the bytes of a stream, of which it is known how many there are.

use crate::sums::adler32;

/// No stream gives more bytes for each of its own: two bits can stand for 258.
pub const MOST: usize = 1032;

/// Why a stream is refused, and which of its bytes was being read.
#[derive(Debug, PartialEq, Eq)]
pub struct Wrong {
    pub place: usize,
    pub why: &'static str,
}

/// Appends the bytes of a whole stream to an empty buffer that has room for as many as there are to be.
pub fn zlib(stream: &[u8], len: usize, out: &mut Vec<u8>) -> Result<(), Wrong> {
    let mut bits = Bits { stream, at: 0, held: 0, count: 0 };
    bits.head()?;
    while !block(&mut bits, len, out)? {}
    bits.align();
    let found = bits.bytes(4)?;
    let (a, b) = adler32((1, 0), out);
    if found != (b << 16 | a).to_be_bytes() {
        return bits.wrong("its Adler-32 is another than that of its bytes");
    }
    match (out.len() == len, bits.at == stream.len()) {
        (false, _) => bits.wrong(FEW),
        (true, false) => bits.wrong("something stands behind its end"),
        (true, true) => Ok(()),
    }
}

const SHORT: &str = "it ends too early";
const FEW: &str = "it has fewer bytes than the picture's sides ask for";
const MANY: &str = "it has more bytes than the picture's sides ask for";

/// The bits of a stream, the lowest of a byte first.
struct Bits<'a> {
    stream: &'a [u8],
    /// The next byte that is not held.
    at: usize,
    held: u64,
    count: u32,
}

impl<'a> Bits<'a> {
    fn wrong<T>(&self, why: &'static str) -> Result<T, Wrong> {
        Err(Wrong { place: self.at - (self.count / 8) as usize, why })
    }

    /// Holds more than 48 bits, where there are so many.
    fn fill(&mut self) {
        while self.count <= 56 && self.at < self.stream.len() {
            self.held |= u64::from(self.stream[self.at]) << self.count;
            self.at += 1;
            self.count += 8;
        }
    }

    fn skip(&mut self, count: u32) {
        self.held >>= count;
        self.count -= count;
    }

    /// At most 16 bits, as a number.
    fn take(&mut self, count: u32) -> Result<usize, Wrong> {
        self.fill();
        if self.count < count {
            return self.wrong(SHORT);
        }
        let value = self.held & ((1 << count) - 1);
        self.skip(count);
        Ok(value as usize)
    }

    /// Goes to the next byte, and holds none.
    fn align(&mut self) {
        self.at -= (self.count / 8) as usize;
        (self.held, self.count) = (0, 0);
    }

    /// The next bytes of an aligned stream.
    fn bytes(&mut self, count: usize) -> Result<&'a [u8], Wrong> {
        let Some(bytes) = self.stream.get(self.at..self.at + count) else { return self.wrong(SHORT) };
        self.at += count;
        Ok(bytes)
    }

    /// What stands before the blocks.
    fn head(&mut self) -> Result<(), Wrong> {
        let [method, flags] = [self.take(8)?, self.take(8)?];
        if method & 15 != 8 || method >> 4 > 7 || (method << 8 | flags) % 31 != 0 {
            return self.wrong("it does not begin as a zlib stream");
        }
        if flags & 32 != 0 {
            return self.wrong("it asks for a preset dictionary, which no PNG has");
        }
        Ok(())
    }

    fn symbol(&mut self, code: &Code) -> Result<usize, Wrong> {
        self.fill();
        let (symbol, bits) = code.table[(self.held & code.mask) as usize];
        if bits == 0 || u32::from(bits) > self.count {
            // Where bits are missing, those that are there may be the front of any code.
            return self.wrong(if self.count < 15 { SHORT } else { "no symbol has this code" });
        }
        self.skip(bits.into());
        Ok(symbol.into())
    }
}

/// A block: whether it was the last.
fn block(bits: &mut Bits, len: usize, out: &mut Vec<u8>) -> Result<bool, Wrong> {
    let last = bits.take(1)? == 1;
    match bits.take(2)? {
        0 => stored(bits, len, out)?,
        1 => {
            let (symbols, distances) = fixed();
            coded(bits, &symbols, &distances, len, out)?;
        }
        2 => {
            let (symbols, distances) = dynamic(bits)?;
            coded(bits, &symbols, &distances, len, out)?;
        }
        _ => return bits.wrong("a block has type 3, which there is not"),
    }
    Ok(last)
}

fn stored(bits: &mut Bits, len: usize, out: &mut Vec<u8>) -> Result<(), Wrong> {
    bits.align();
    let sizes = bits.bytes(4)?;
    let [count, inverse] = [0, 2].map(|i| u16::from_le_bytes([sizes[i], sizes[i + 1]]));
    if count != !inverse {
        return bits.wrong("the length of a stored block is not said twice alike");
    }
    if usize::from(count) > len - out.len() {
        return bits.wrong(MANY);
    }
    out.extend_from_slice(bits.bytes(count.into())?);
    Ok(())
}

/// Symbols by the next bits of a stream, with how many bits each takes; 0 where no symbol has that code.
struct Code {
    table: Vec<(u16, u8)>,
    mask: u64,
}

impl Code {
    /// By the lengths of the symbols' codes, at most 15. There is none of too many, nor of too few; but where the code
    /// need not be whole, a single one of one bit and none at all are enough, as for a block without a repeat.
    fn of(lengths: &[u8], whole: bool) -> Option<Code> {
        let longest = lengths.iter().copied().max().unwrap_or(0);
        let mut counts = [0; 16];
        lengths.iter().for_each(|length| counts[usize::from(*length)] += 1);
        counts[0] = 0;
        // How many codes of each length are left for longer ones.
        let mut left = 1i32;
        let mut next = [0u16; 17];
        for length in 1..=usize::from(longest) {
            left = 2 * left - counts[length];
            next[length + 1] = next[length].wrapping_add(counts[length] as u16) << 1;
            if left < 0 {
                return None;
            }
        }
        if left > 0 && (whole || longest > 1) {
            return None;
        }
        let mut table = vec![(0, 0); 1 << longest];
        for (symbol, length) in lengths.iter().enumerate().filter(|(_, length)| **length > 0) {
            let code = &mut next[usize::from(*length)];
            // A code's first bit is its highest, and a stream's the lowest.
            let front = usize::from(code.reverse_bits() >> (16 - length));
            *code += 1;
            table[front..].iter_mut().step_by(1 << length).for_each(|entry| *entry = (symbol as u16, *length));
        }
        Some(Code { table, mask: (1 << longest) - 1 })
    }
}

/// The codes of a block that says none.
fn fixed() -> (Code, Code) {
    let mut lengths = [8; 288];
    lengths[144..256].fill(9);
    lengths[256..280].fill(7);
    let whole = |lengths: &[u8]| Code::of(lengths, true).expect("it has as many codes as there are");
    (whole(&lengths), whole(&[5; 32]))
}

/// The order in which the lengths of the lengths' codes are said.
const ORDER: [usize; 19] = [16, 17, 18, 0, 8, 7, 9, 6, 10, 5, 11, 4, 12, 3, 13, 2, 14, 1, 15];

/// The codes that a block says.
fn dynamic(bits: &mut Bits) -> Result<(Code, Code), Wrong> {
    let [symbols, distances] = [bits.take(5)? + 257, bits.take(5)? + 1];
    if symbols > 286 || distances > 30 {
        return bits.wrong("a block has codes for more symbols than there are");
    }
    let mut short = [0; 19];
    for place in ORDER.iter().take(bits.take(4)? + 4) {
        short[*place] = bits.take(3)? as u8;
    }
    let Some(code) = Code::of(&short, true) else { return bits.wrong(UNEVEN) };
    let lengths = lengths(bits, &code, symbols + distances)?;
    let (of_symbols, of_distances) = lengths.split_at(symbols);
    if of_symbols[256] == 0 {
        return bits.wrong("a block has no code for its end");
    }
    match (Code::of(of_symbols, false), Code::of(of_distances, false)) {
        (Some(symbols), Some(distances)) => Ok((symbols, distances)),
        _ => bits.wrong(UNEVEN),
    }
}

const UNEVEN: &str = "the code lengths of a block are those of no code";

/// So many lengths, of which some are said as repeats.
fn lengths(bits: &mut Bits, code: &Code, count: usize) -> Result<Vec<u8>, Wrong> {
    let mut lengths = Vec::with_capacity(count);
    while lengths.len() < count {
        let symbol = bits.symbol(code)?;
        let (length, times) = match symbol {
            16 => match lengths.last() {
                Some(length) => (*length, 3 + bits.take(2)?),
                None => return bits.wrong("a block repeats a code length before its first"),
            },
            17 => (0, 3 + bits.take(3)?),
            18 => (0, 11 + bits.take(7)?),
            _ => (symbol as u8, 1),
        };
        if times > count - lengths.len() {
            return bits.wrong("a block has more code lengths than it says");
        }
        lengths.extend(std::iter::repeat_n(length, times));
    }
    Ok(lengths)
}

/// The symbols of a block to its end.
fn coded(bits: &mut Bits, symbols: &Code, distances: &Code, len: usize, out: &mut Vec<u8>) -> Result<(), Wrong> {
    loop {
        match bits.symbol(symbols)? {
            256 => return Ok(()),
            _ if out.len() == len => return bits.wrong(MANY),
            symbol @ 0..=255 => out.push(symbol as u8),
            symbol => again(bits, symbol - 257, distances, len, out)?,
        }
    }
}

/// The least length of each symbol, and how many bits say what is more.
const LENGTHS: [(u16, u8); 29] = {
    let mut table = [(0, 0); 29];
    let (mut least, mut symbol) = (3, 0);
    while symbol < 28 {
        let more = if symbol < 8 { 0 } else { symbol as u8 / 4 - 1 };
        table[symbol] = (least, more);
        least += 1 << more;
        symbol += 1;
    }
    table[28] = (258, 0);
    table
};

/// The same of distances.
const DISTANCES: [(u16, u8); 30] = {
    let mut table = [(0, 0); 30];
    let (mut least, mut symbol) = (1, 0);
    while symbol < 30 {
        let more = if symbol < 4 { 0 } else { symbol as u8 / 2 - 1 };
        table[symbol] = (least, more);
        least += 1 << more;
        symbol += 1;
    }
    table
};

/// Bytes that stood there before, once more.
fn again(bits: &mut Bits, symbol: usize, distances: &Code, len: usize, out: &mut Vec<u8>) -> Result<(), Wrong> {
    let Some((least, more)) = LENGTHS.get(symbol) else { return bits.wrong("no length has this symbol") };
    let count = usize::from(*least) + bits.take((*more).into())?;
    let symbol = bits.symbol(distances)?;
    let Some((least, more)) = DISTANCES.get(symbol) else { return bits.wrong("no distance has this symbol") };
    let distance = usize::from(*least) + bits.take((*more).into())?;
    if distance > out.len() {
        return bits.wrong("it repeats bytes from before its first");
    }
    if count > len - out.len() {
        return bits.wrong(MANY);
    }
    let start = out.len() - distance;
    if distance >= count {
        out.extend_from_within(start..start + count);
    } else {
        // What is repeated is not all there yet.
        (start..start + count).for_each(|at| out.push(out[at]));
    }
    Ok(())
}

#[cfg(test)]
mod tests {
    use super::*;

    /// A stream as it is written, bit by bit.
    struct Writer {
        bytes: Vec<u8>,
        /// Bits of the last byte that are taken.
        taken: usize,
    }

    impl Writer {
        fn new() -> Writer {
            Writer { bytes: vec![0x78, 0x01], taken: 8 }
        }

        /// The lowest bit first, as numbers are.
        fn number(mut self, value: usize, bits: usize) -> Writer {
            for bit in 0..bits {
                if self.taken == 8 {
                    self.bytes.push(0);
                    self.taken = 0;
                }
                *self.bytes.last_mut().unwrap() |= ((value >> bit & 1) as u8) << self.taken;
                self.taken += 1;
            }
            self
        }

        /// The highest bit first, as codes are.
        fn code(self, value: usize, bits: usize) -> Writer {
            (0..bits).rev().fold(self, |writer, bit| writer.number(value >> bit & 1, 1))
        }

        /// A symbol of the fixed code.
        fn fixed(self, symbol: usize) -> Writer {
            match symbol {
                0..=143 => self.code(0x30 + symbol, 8),
                144..=255 => self.code(0x190 + symbol - 144, 9),
                256..=279 => self.code(symbol - 256, 7),
                _ => self.code(0xC0 + symbol - 280, 8),
            }
        }

        fn put(mut self, bytes: &[u8]) -> Writer {
            self.bytes.extend(bytes);
            self.taken = 8;
            self
        }

        /// A stored block, the last or not.
        fn stored(self, last: usize, bytes: &[u8]) -> Writer {
            let len = bytes.len() as u16;
            self.number(last, 3).put(&len.to_le_bytes()).put(&(!len).to_le_bytes()).put(bytes)
        }

        /// The sum of the bytes that the stream stands for.
        fn end(self, bytes: &[u8]) -> Vec<u8> {
            self.put(&adler(bytes)).bytes
        }
    }

    /// The sum, byte by byte.
    fn adler(bytes: &[u8]) -> [u8; 4] {
        let (a, b) = bytes.iter().fold((1u32, 0), |(a, b), byte| {
            let a = (a + u32::from(*byte)) % 65521;
            (a, (b + a) % 65521)
        });
        (b << 16 | a).to_be_bytes()
    }

    fn inflated(stream: &[u8], len: usize) -> Result<Vec<u8>, &'static str> {
        let mut out = Vec::with_capacity(len);
        let done = zlib(stream, len, &mut out);
        assert!(out.len() <= len);
        if let Err(Wrong { place, .. }) = &done {
            assert!(*place <= stream.len());
        }
        done.map(|()| out).map_err(|wrong| wrong.why)
    }

    #[test]
    fn stored_blocks() {
        let some: Vec<u8> = (0..70_000).map(|i| (i * i) as u8).collect();
        let stream = Writer::new().stored(0, &some[..65535]).stored(0, b"").stored(1, &some[65535..]).end(&some);
        assert_eq!(inflated(&stream, some.len()), Ok(some));
        assert_eq!(inflated(&Writer::new().stored(1, b"").end(b""), 0), Ok(vec![]));
    }

    #[test]
    fn the_fixed_code() {
        let all: Vec<u8> = (0..=255).collect();
        let literals = all.iter().fold(Writer::new().number(3, 3), |writer, byte| writer.fixed((*byte).into()));
        assert_eq!(inflated(&literals.fixed(256).end(&all), 256), Ok(all));
        // A byte that is repeated 258 times, from one back; and two that are repeated three times, from two back.
        let right = [&[7; 259][..], &[9, 7, 9, 7]].concat();
        let stream = Writer::new().number(3, 3).fixed(7).fixed(285).code(0, 5).fixed(9).fixed(257).code(1, 5);
        assert_eq!(inflated(&stream.fixed(256).end(&right), right.len()), Ok(right));
    }

    /// The tables, written down as RFC 1951 has them.
    #[test]
    fn lengths_and_distances() {
        let lengths = [
            3, 4, 5, 6, 7, 8, 9, 10, 11, 13, 15, 17, 19, 23, 27, 31, 35, 43, 51, 59, 67, 83, 99, 115, 131, 163, 195,
            227, 258,
        ];
        let distances = [
            1, 2, 3, 4, 5, 7, 9, 13, 17, 25, 33, 49, 65, 97, 129, 193, 257, 385, 513, 769, 1025, 1537, 2049, 3073,
            4097, 6145, 8193, 12289, 16385, 24577,
        ];
        let random: Vec<u8> = (0..40_000u32).map(|i| (i.wrapping_mul(2_654_435_761) >> 23) as u8).collect();
        for (i, least) in lengths.iter().enumerate() {
            let more = [0, 0, 0, 0, 0, 0, 0, 0, 1, 1, 1, 1, 2, 2, 2, 2, 3, 3, 3, 3, 4, 4, 4, 4, 5, 5, 5, 5, 0][i];
            for (j, near) in distances.iter().enumerate() {
                let far = (j / 2).saturating_sub(1);
                for (of_length, of_distance) in [(0, 0), ((1 << more) - 1, (1 << far) - 1)] {
                    let (len, back) = (least + of_length, near + of_distance);
                    let front = &random[..back];
                    let stream = Writer::new().stored(0, front).number(3, 3).fixed(257 + i).number(of_length, more);
                    let stream = stream.code(j, 5).number(of_distance, far).fixed(256);
                    let right: Vec<u8> = front.iter().chain(front.iter().cycle().take(len)).copied().collect();
                    assert_eq!(inflated(&stream.end(&right), right.len()).as_ref(), Ok(&right), "{len} {back}");
                }
            }
        }
    }

    /// A block by its own codes, as zlib makes one at level 9 of `text`.
    const DYNAMIC: [u8; 44] = [
        0x78, 0xda, 0xed, 0xca, 0xb1, 0x11, 0x00, 0x30, 0x08, 0x02, 0xc0, 0x59, 0xf1, 0x50, 0x51, 0xf6, 0xef, 0xad,
        0xb2, 0x45, 0xbe, 0x7e, 0xa8, 0x97, 0x88, 0xf4, 0x9a, 0x70, 0x28, 0x73, 0x18, 0x14, 0x59, 0x9e, 0x81, 0xaa,
        0xf1, 0xc3, 0x0b, 0x07, 0x47, 0x98, 0x77, 0x87,
    ];

    fn text() -> Vec<u8> {
        (0..300u32).map(|i| b'a' + ((i * i * 7 + i / 3) % 11) as u8).collect()
    }

    #[test]
    fn codes_of_its_own() {
        assert_eq!(DYNAMIC[2] >> 1 & 3, 2);
        assert_eq!(inflated(&DYNAMIC, 300), Ok(text()));
    }

    /// Every cut and every byte changed: an answer, and never bytes that have not the sum and the count that are said.
    #[test]
    fn hostile_streams() {
        for len in 0..DYNAMIC.len() {
            assert!(inflated(&DYNAMIC[..len], 300).is_err(), "{len}");
        }
        for (at, byte) in (0..DYNAMIC.len()).flat_map(|at| (0..=255).map(move |byte| (at, byte))) {
            let mut changed = DYNAMIC;
            changed[at] = byte;
            if let Ok(out) = inflated(&changed, 300) {
                assert_eq!((out.len(), &adler(&out)[..]), (300, &changed[DYNAMIC.len() - 4..]), "{at} {byte}");
            }
        }
    }

    /// A dynamic block up to the code lengths: counts of symbols and distances, and the lengths of the lengths' codes.
    fn lengths_of(symbols: usize, distances: usize, short: &[(usize, usize)]) -> Writer {
        let front = Writer::new().number(5, 3).number(symbols - 257, 5).number(distances - 1, 5).number(15, 4);
        ORDER.iter().fold(front, |writer, place| {
            let found = short.iter().find(|(symbol, _)| symbol == place);
            writer.number(found.map_or(0, |(_, length)| *length), 3)
        })
    }

    #[test]
    fn wrong_streams() {
        let new = Writer::new;
        let fixed = || new().number(3, 3);
        // Codes 0 for a length of 1, 1 for eleven zeros and more.
        let two = |symbols, distances| lengths_of(symbols, distances, &[(1, 1), (18, 1)]);
        let zeros = |writer: Writer, times: usize| writer.code(1, 1).number(times - 11, 7);
        // The symbols 0 and 256 have one bit each, and so has the one distance; but then a third symbol too.
        let good = || zeros(zeros(two(257, 1).code(0, 1), 138), 117).code(0, 1).code(0, 1);
        let third = zeros(zeros(two(257, 1).code(0, 1).code(0, 1), 138), 116).code(0, 1).code(0, 1);
        let no_end = zeros(zeros(two(257, 1).code(0, 1).code(0, 1), 138), 117).code(0, 1);
        for (stream, len, why) in [
            (vec![], 0, SHORT),
            (vec![0x78], 0, SHORT),
            (vec![0x79, 0x00], 0, "it does not begin as a zlib stream"),
            (vec![0x88, 0x1C], 0, "it does not begin as a zlib stream"),
            (vec![0x78, 0x02], 0, "it does not begin as a zlib stream"),
            (vec![0x78, 0x20], 0, "it asks for a preset dictionary, which no PNG has"),
            (new().number(7, 3).end(b""), 0, "a block has type 3, which there is not"),
            (
                new().number(1, 3).put(&[1, 0, 255, 255, 9]).bytes,
                1,
                "the length of a stored block is not said twice alike",
            ),
            (new().number(1, 3).put(&[2, 0, 253, 255, 9]).bytes, 2, SHORT),
            (new().stored(1, b"ab").end(b"ab"), 1, MANY),
            (new().stored(1, b"ab").end(b"ab"), 3, FEW),
            (new().stored(1, b"ab").end(b"ba"), 2, "its Adler-32 is another than that of its bytes"),
            (new().stored(1, b"ab").end(b"ab")[..12].to_vec(), 2, SHORT),
            (
                new().stored(1, b"ab").put(b"").end(b"ab").into_iter().chain([0]).collect(),
                2,
                "something stands behind its end",
            ),
            (fixed().fixed(7).fixed(8).fixed(256).end(&[7, 8]), 1, MANY),
            (fixed().fixed(7).fixed(257).code(0, 5).fixed(256).end(&[7; 4]), 3, MANY),
            (
                fixed().fixed(7).fixed(257).code(1, 5).fixed(256).end(&[7; 4]),
                4,
                "it repeats bytes from before its first",
            ),
            (fixed().fixed(7).fixed(286).code(0, 5).bytes, 9, "no length has this symbol"),
            (fixed().fixed(7).fixed(257).code(30, 5).bytes, 9, "no distance has this symbol"),
            (lengths_of(287, 1, &[]).bytes, 9, "a block has codes for more symbols than there are"),
            (lengths_of(257, 31, &[]).bytes, 9, "a block has codes for more symbols than there are"),
            (lengths_of(257, 1, &[]).bytes, 9, UNEVEN),
            (lengths_of(257, 1, &[(1, 1)]).bytes, 9, UNEVEN),
            (lengths_of(257, 1, &[(1, 1), (2, 1), (3, 1)]).bytes, 9, UNEVEN),
            (
                lengths_of(257, 1, &[(1, 1), (16, 1)]).code(1, 1).number(0, 9).bytes,
                9,
                "a block repeats a code length before its first",
            ),
            (zeros(zeros(two(257, 1), 138), 138).bytes, 9, "a block has more code lengths than it says"),
            (third.bytes, 9, UNEVEN),
            (no_end.bytes, 9, "a block has no code for its end"),
            (good().code(1, 1).end(b"x"), 0, "its Adler-32 is another than that of its bytes"),
        ] {
            assert_eq!(inflated(&stream, len), Err(why), "{stream:02x?}");
        }
        // A single distance of one bit is a code, and its other bit is none.
        assert_eq!(inflated(&good().code(0, 1).code(1, 1).end(&[0]), 1), Ok(vec![0]));
    }
}
