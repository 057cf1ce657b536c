//! A writer of PNG files, from the public layout: stored without compression, the chunks in any order.

/// The sum of a chunk, bit by bit.
pub fn crc(bytes: &[u8]) -> [u8; 4] {
    let sum = bytes.iter().fold(u32::MAX, |crc, byte| {
        (0..8).fold(crc ^ u32::from(*byte), |c, _| if c & 1 == 1 { c >> 1 ^ 0xEDB8_8320 } else { c >> 1 })
    });
    (!sum).to_be_bytes()
}

pub fn chunk(name: &[u8], data: &[u8]) -> Vec<u8> {
    let body = [name, data].concat();
    [&(data.len() as u32).to_be_bytes()[..], &body, &crc(&body)].concat()
}

/// A zlib stream of stored blocks.
pub fn zlib(bytes: &[u8]) -> Vec<u8> {
    let (a, b) = bytes.iter().fold((1u32, 0), |(a, b), byte| {
        let a = (a + u32::from(*byte)) % 65521;
        (a, (b + a) % 65521)
    });
    let mut stream = vec![0x78, 0x01];
    for block in bytes.chunks(1000) {
        let len = block.len() as u16;
        stream.extend([&[0][..], &len.to_le_bytes(), &(!len).to_le_bytes(), block].concat());
    }
    stream.extend([1, 0, 0, 0xFF, 0xFF]);
    stream.extend((b << 16 | a).to_be_bytes());
    stream
}

pub const END: [u8; 12] = *b"\0\0\0\0IEND\xAE\x42\x60\x82";

/// The signature and IHDR: bits, colour type, methods and whether it is interlaced.
pub fn head(height: usize, width: usize, rest: [u8; 5]) -> Vec<u8> {
    let sides = [(width as u32).to_be_bytes(), (height as u32).to_be_bytes()].concat();
    [&b"\x89PNG\r\n\x1a\n"[..], &chunk(b"IHDR", &[&sides[..], &rest].concat())].concat()
}

/// A file of samples of a colour type, row by row without a filter.
pub fn png(colour: u8, height: usize, width: usize, samples: &[u8]) -> Vec<u8> {
    let rows = samples.chunks(samples.len() / height).flat_map(|row| [&[0], row].concat());
    let stream = zlib(&rows.collect::<Vec<u8>>());
    [head(height, width, [8, colour, 0, 0, 0]), chunk(b"IDAT", &stream), END.to_vec()].concat()
}

/// Makes the sums of a file's chunks right, as far as there are chunks.
pub fn mend(file: &mut [u8]) {
    let mut at = 8;
    while let Some(front) = file.get(at..at + 4) {
        let end = at + 8 + u32::from_be_bytes([front[0], front[1], front[2], front[3]]) as usize;
        let Some(sum) = file.get(at + 4..end).map(crc) else { return };
        let Some(place) = file.get_mut(end..end + 4) else { return };
        place.copy_from_slice(&sum);
        at = end + 4;
    }
}
