//! Captions of pictures: black on white, in letters of five by nine dots.

use crate::netpbm::Picture;

/// Letters, digits and what parts them: a number a row, its highest bit at the left. Two rows are below the line.
const SIGNS: [(char, [u8; 9]); 40] = [
    (',', [0, 0, 0, 0, 0, 0b01100, 0b00100, 0b01000, 0]),
    ('-', [0, 0, 0, 0b01110, 0, 0, 0, 0, 0]),
    ('.', [0, 0, 0, 0, 0, 0b01100, 0b01100, 0, 0]),
    ('0', [0b01110, 0b10001, 0b10011, 0b10101, 0b11001, 0b10001, 0b01110, 0, 0]),
    ('1', [0b00100, 0b01100, 0b00100, 0b00100, 0b00100, 0b00100, 0b01110, 0, 0]),
    ('2', [0b01110, 0b10001, 0b00001, 0b00110, 0b01000, 0b10000, 0b11111, 0, 0]),
    ('3', [0b01110, 0b10001, 0b00001, 0b00110, 0b00001, 0b10001, 0b01110, 0, 0]),
    ('4', [0b00010, 0b00110, 0b01010, 0b10010, 0b11111, 0b00010, 0b00010, 0, 0]),
    ('5', [0b11111, 0b10000, 0b11110, 0b00001, 0b00001, 0b10001, 0b01110, 0, 0]),
    ('6', [0b01110, 0b10000, 0b10000, 0b11110, 0b10001, 0b10001, 0b01110, 0, 0]),
    ('7', [0b11111, 0b00001, 0b00010, 0b00100, 0b00100, 0b00100, 0b00100, 0, 0]),
    ('8', [0b01110, 0b10001, 0b10001, 0b01110, 0b10001, 0b10001, 0b01110, 0, 0]),
    ('9', [0b01110, 0b10001, 0b10001, 0b01111, 0b00001, 0b00001, 0b01110, 0, 0]),
    (':', [0, 0, 0b01100, 0b01100, 0, 0b01100, 0b01100, 0, 0]),
    ('a', [0, 0, 0b01110, 0b00001, 0b01111, 0b10001, 0b01111, 0, 0]),
    ('b', [0b10000, 0b10000, 0b10110, 0b11001, 0b10001, 0b10001, 0b11110, 0, 0]),
    ('c', [0, 0, 0b01110, 0b10001, 0b10000, 0b10001, 0b01110, 0, 0]),
    ('d', [0b00001, 0b00001, 0b01101, 0b10011, 0b10001, 0b10001, 0b01111, 0, 0]),
    ('e', [0, 0, 0b01110, 0b10001, 0b11111, 0b10000, 0b01110, 0, 0]),
    ('f', [0b00110, 0b01001, 0b01000, 0b11100, 0b01000, 0b01000, 0b01000, 0, 0]),
    ('g', [0, 0, 0b01101, 0b10011, 0b10001, 0b10001, 0b01111, 0b00001, 0b01110]),
    ('h', [0b10000, 0b10000, 0b10110, 0b11001, 0b10001, 0b10001, 0b10001, 0, 0]),
    ('i', [0b00100, 0, 0b01100, 0b00100, 0b00100, 0b00100, 0b01110, 0, 0]),
    ('j', [0b00010, 0, 0b00110, 0b00010, 0b00010, 0b00010, 0b00010, 0b10010, 0b01100]),
    ('k', [0b10000, 0b10000, 0b10010, 0b10100, 0b11000, 0b10100, 0b10010, 0, 0]),
    ('l', [0b01100, 0b00100, 0b00100, 0b00100, 0b00100, 0b00100, 0b01110, 0, 0]),
    ('m', [0, 0, 0b11010, 0b10101, 0b10101, 0b10101, 0b10101, 0, 0]),
    ('n', [0, 0, 0b10110, 0b11001, 0b10001, 0b10001, 0b10001, 0, 0]),
    ('o', [0, 0, 0b01110, 0b10001, 0b10001, 0b10001, 0b01110, 0, 0]),
    ('p', [0, 0, 0b11110, 0b10001, 0b10001, 0b11001, 0b10110, 0b10000, 0b10000]),
    ('q', [0, 0, 0b01101, 0b10011, 0b10001, 0b10001, 0b01111, 0b00001, 0b00001]),
    ('r', [0, 0, 0b10110, 0b11001, 0b10000, 0b10000, 0b10000, 0, 0]),
    ('s', [0, 0, 0b01111, 0b10000, 0b01110, 0b00001, 0b11110, 0, 0]),
    ('t', [0b01000, 0b01000, 0b11100, 0b01000, 0b01000, 0b01001, 0b00110, 0, 0]),
    ('u', [0, 0, 0b10001, 0b10001, 0b10001, 0b10011, 0b01101, 0, 0]),
    ('v', [0, 0, 0b10001, 0b10001, 0b10001, 0b01010, 0b00100, 0, 0]),
    ('w', [0, 0, 0b10001, 0b10001, 0b10101, 0b10101, 0b01010, 0, 0]),
    ('x', [0, 0, 0b10001, 0b01010, 0b00100, 0b01010, 0b10001, 0, 0]),
    ('y', [0, 0, 0b10001, 0b10001, 0b10001, 0b01111, 0b00001, 0b10001, 0b01110]),
    ('z', [0, 0, 0b11111, 0b00010, 0b00100, 0b01000, 0b11111, 0, 0]),
];

/// Pixels of a dot, down and across.
const DOT: usize = 2;
/// From one sign to the next, and from one line to the next.
const STEP: usize = 6 * DOT;
const LINE: usize = 11 * DOT;
/// Above the first line, and left of it.
pub const MARGIN: usize = 5;
/// Of a digit.
pub const HEIGHT: usize = 7 * DOT;

/// How many pixels a line of text needs.
pub fn width(text: &str) -> usize {
    2 * MARGIN + text.chars().count() * STEP
}

/// The lines of a text. One that is longer than a width goes on in the next, as full as whole words make it.
pub fn lines(text: &str, across: usize) -> Vec<String> {
    text.lines().flat_map(|line| wrapped(line, across)).collect()
}

fn wrapped(text: &str, across: usize) -> Vec<String> {
    let mut lines: Vec<String> = vec![];
    for word in text.split(' ') {
        match lines.last_mut() {
            Some(line) if width(line) + width(word) + STEP <= across + 2 * MARGIN => *line = format!("{line} {word}"),
            _ => lines.push(word.into()),
        }
    }
    lines
}

/// A white band with lines of text, and room for so many.
pub fn band(across: usize, text: &str, room: usize) -> Picture {
    let lines = lines(text, across);
    let height = MARGIN + LINE * room.max(lines.len());
    let mut picture = Picture { height, width: across, rgb: vec![255; height * across * 3] };
    for (i, line) in lines.iter().enumerate() {
        write(&mut picture, (MARGIN + i * LINE, MARGIN), line);
    }
    picture
}

/// Writes a line of text on a picture. A sign that is not in the table, or outside the picture, is left out.
pub fn write(picture: &mut Picture, (top, left): (usize, usize), text: &str) {
    for (i, sign) in text.chars().enumerate() {
        let rows = SIGNS.iter().find(|(other, _)| *other == sign).map_or([0; 9], |(_, rows)| *rows);
        for k in 0..9 * DOT * 5 * DOT {
            let (y, x) = (k / (5 * DOT), k % (5 * DOT));
            let (down, across) = (top + y, left + i * STEP + x);
            if rows[y / DOT] << (x / DOT) & 0b10000 != 0 && down < picture.height && across < picture.width {
                picture.rgb[(down * picture.width + across) * 3..][..3].fill(0);
            }
        }
    }
}

#[cfg(test)]
mod tests {
    use super::*;

    #[test]
    fn words_are_put_in_lines_that_fit() {
        let text = "back from 1,728 patches, 0 bytes differ";
        assert_eq!(lines(text, width("back from 1,728 patches,")), ["back from 1,728 patches,", "0 bytes differ"]);
        assert_eq!(lines(text, width("back from 1,728 patches,") - 1), ["back from 1,728", "patches, 0 bytes differ"]);
        assert_eq!(lines(text, width(text)), [text]);
        assert_eq!(lines("aa bb", 0), ["aa", "bb"]);
        assert_eq!(lines("a sweep of 490 x 650,\nresized", 500), ["a sweep of 490 x 650,", "resized"]);
    }

    #[test]
    fn every_sign_is_there_and_no_two_are_alike() {
        let text: String = ('a'..='z').chain('0'..='9').chain(",.:-".chars()).collect();
        assert_eq!(text.chars().count(), SIGNS.len());
        let ink = |c: char| band(width("a"), &c.to_string(), 1).rgb;
        let drawn: std::collections::BTreeSet<Vec<u8>> = text.chars().map(ink).collect();
        assert!(drawn.len() == SIGNS.len() && !drawn.contains(&ink('?')));
    }

    #[test]
    fn what_is_outside_is_left_out() {
        let mut picture = Picture { height: 3, width: 4, rgb: vec![255; 36] };
        write(&mut picture, (0, 0), "long");
        write(&mut picture, (9, 9), "l");
        // Of the l the second and the third of five dots of the first two rows.
        let ink: Vec<usize> = (0..12).filter(|k| picture.rgb[3 * k] == 0).collect();
        assert_eq!(ink, [2, 3, 6, 7]);
    }
}
