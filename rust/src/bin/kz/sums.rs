//! The two sums of a PNG: CRC-32 of its chunks, Adler-32 of its pixels.

/// What eight shifts make of a byte.
const CRC: [u32; 256] = {
    let mut table = [0; 256];
    let mut byte = 0;
    while byte < 256 {
        let (mut crc, mut bit) = (byte as u32, 0);
        while bit < 8 {
            crc = if crc & 1 == 1 { crc >> 1 ^ 0xEDB8_8320 } else { crc >> 1 };
            bit += 1;
        }
        table[byte] = crc;
        byte += 1;
    }
    table
};

/// The sum of more bytes, after those of a sum that begins with 0.
pub fn crc32(sum: u32, bytes: &[u8]) -> u32 {
    !bytes.iter().fold(!sum, |crc, byte| crc >> 8 ^ CRC[usize::from(crc as u8 ^ byte)])
}

/// So many bytes of 255 keep the second sum below 2^32.
const MOST: usize = 5552;

/// The two sums of more bytes, after those that begin with 1 and 0.
pub fn adler32(sums: (u32, u32), bytes: &[u8]) -> (u32, u32) {
    bytes.chunks(MOST).fold(sums, |sums, some| {
        let (a, b) = some.iter().fold(sums, |(a, b), byte| (a + u32::from(*byte), b + a + u32::from(*byte)));
        (a % 65521, b % 65521)
    })
}

#[cfg(test)]
mod tests {
    use super::*;

    #[test]
    fn check_values() {
        assert_eq!(crc32(crc32(0, b"12345"), b"6789"), 0xCBF4_3926);
        assert_eq!(adler32(adler32((1, 0), b"Wiki"), b"pedia"), (0x0398, 0x11E6));
    }

    /// The largest sums there are, from the largest that may stand before them.
    #[test]
    fn sums_do_not_overflow() {
        let bytes = [255; 3 * MOST + 7];
        let slow = bytes.iter().fold((65520, 65520), |(a, b), byte| {
            let a = (a + u32::from(*byte)) % 65521;
            (a, (b + a) % 65521)
        });
        assert_eq!(adler32((65520, 65520), &bytes), slow);
    }
}
