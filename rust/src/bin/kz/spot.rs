//! A byte of a text for people: its line, with a caret under it, and what may stand there.

use crate::shown::shown;
use std::ffi::OsStr;
use std::fmt;
use std::os::unix::ffi::OsStrExt;

/// Where a byte stands: its line and column, counted from 1, the line, and how far along a caret goes.
pub struct Spot {
    pub line: usize,
    pub column: usize,
    shown: String,
    caret: usize,
}

/// The most characters of a line that are shown before the byte, and behind it.
const AROUND: usize = 50;

impl Spot {
    pub fn of(text: &[u8], place: usize) -> Spot {
        let start = text[..place].iter().rposition(|b| *b == b'\n').map_or(0, |i| i + 1);
        let end = text[place..].iter().position(|b| *b == b'\n').map_or(text.len(), |i| place + i);
        let characters = |bytes: &[u8]| String::from_utf8_lossy(bytes).chars().collect::<Vec<_>>();
        let (before, behind) = (characters(&text[start..place]), characters(&text[place..end]));
        let cut = before.len().saturating_sub(AROUND);
        let words = |characters: &[char]| {
            let text: String = characters.iter().collect();
            // No text is printed as no text, where a name would be ''.
            if text.is_empty() {
                text
            } else {
                shown(OsStr::from_bytes(text.as_bytes())).to_string()
            }
        };
        let front = format!("{}{}", if cut > 0 { "…" } else { "" }, words(&before[cut..]));
        let back = words(&behind[..behind.len().min(AROUND)]);
        Spot {
            line: 1 + text[..start].iter().filter(|b| **b == b'\n').count(),
            column: 1 + before.len(),
            caret: front.chars().count(),
            shown: front + &back + if behind.len() > AROUND { "…" } else { "" },
        }
    }

    /// Two lines more: the line, and a caret under the byte with words behind it.
    pub fn pointed(&self, words: &str) -> String {
        format!("\n  {}\n  {}^ {words}", self.shown, " ".repeat(self.caret))
    }
}

/// What may stand behind the front of a text: which bytes, and whether the end.
pub struct Followers {
    pub bytes: [bool; 256],
    pub end: bool,
}

/// The reader itself is asked: a byte is expected where it does not stop.
pub fn followers(front: &[u8], stops: impl Fn(&[u8]) -> bool) -> Followers {
    let mut text = front.to_vec();
    let mut bytes = [false; 256];
    for byte in 0..=255 {
        text.push(byte);
        bytes[usize::from(byte)] = !stops(&text);
        text.pop();
    }
    Followers { bytes, end: !stops(front) }
}

impl fmt::Display for Followers {
    fn fmt(&self, f: &mut fmt::Formatter) -> fmt::Result {
        let mut rest = self.bytes;
        if rest[usize::from(b'~')] {
            return f.write_str("a character of the string is expected");
        }
        if rest[0x80..0xC0].contains(&true) {
            return f.write_str("the next byte of a character in UTF-8 is expected");
        }
        let mut words: Vec<String> = vec![];
        let mut take = |bytes: &[u8], word: &str| {
            if bytes.iter().all(|b| rest[usize::from(*b)]) {
                words.push(word.into());
                bytes.iter().for_each(|b| rest[usize::from(*b)] = false);
            }
        };
        take(b"\"[{-0123456789tfn", "a value");
        take(b"0123456789abcdefABCDEF", "a hex digit");
        take(b"0123456789", "a digit");
        // Blanks are expected nearly everywhere, and nobody waits for them.
        b" \t\n\r".iter().for_each(|b| rest[usize::from(*b)] = false);
        words.extend((0..=255u8).filter(|b| rest[usize::from(*b)]).map(|b| format!("'{}'", char::from(b))));
        if self.end {
            words.push("the end".into());
        }
        match words.split_last() {
            None => f.write_str("nothing is expected"),
            Some((last, [])) => write!(f, "{last} is expected"),
            Some((last, others)) => write!(f, "{} or {last} is expected", others.join(", ")),
        }
    }
}
