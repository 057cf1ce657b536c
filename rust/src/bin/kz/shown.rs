//! Names and words of the command line as they are printed: what could steer a terminal is escaped.

use std::ffi::OsStr;
use std::fmt::{self, Write};
use std::os::unix::ffi::OsStrExt;

/// A name for people: control characters as `\n` or `\u{1b}`, bytes that are not UTF-8 as `\xff`, a backslash doubled,
/// so that no two names are printed alike; an empty one as `''`.
pub fn shown<T: AsRef<OsStr> + ?Sized>(name: &T) -> Shown<'_> {
    Shown(name.as_ref())
}

pub struct Shown<'a>(&'a OsStr);

impl fmt::Display for Shown<'_> {
    fn fmt(&self, f: &mut fmt::Formatter) -> fmt::Result {
        let mut text = String::new();
        for chunk in self.0.as_bytes().utf8_chunks() {
            for c in chunk.valid().chars() {
                if steers(c) || c == '\\' {
                    text.extend(c.escape_default());
                } else {
                    text.push(c);
                }
            }
            for byte in chunk.invalid() {
                write!(text, "\\x{byte:02x}")?;
            }
        }
        f.pad(if text.is_empty() { "''" } else { &text })
    }
}

/// Control characters, and those that part lines or turn the direction of what follows.
fn steers(c: char) -> bool {
    c.is_control()
        || matches!(c, '\u{61c}' | '\u{200e}' | '\u{200f}' | '\u{2028}'..='\u{202e}' | '\u{2066}'..='\u{2069}')
}

#[cfg(test)]
mod tests {
    use super::*;

    #[test]
    fn escaped() {
        for (name, text) in [
            (&b"out/sweep 1.ppm"[..], "out/sweep 1.ppm"),
            ("Düşünce 心.ppm".as_bytes(), "Düşünce 心.ppm"),
            (b"", "''"),
            (b"a\nb\tc\r", "a\\nb\\tc\\r"),
            (b"\x1b[31mred\x7f", "\\u{1b}[31mred\\u{7f}"),
            ("\u{85}\u{202e}gpp".as_bytes(), "\\u{85}\\u{202e}gpp"),
            (b"a\xffb\xc3", "a\\xffb\\xc3"),
            (b"a\\xffb", "a\\\\xffb"),
        ] {
            assert_eq!(shown(OsStr::from_bytes(name)).to_string(), text);
        }
    }
}
