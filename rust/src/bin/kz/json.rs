//! JSON as it is written.

use std::ffi::OsStr;
use std::fmt::Write;
use std::os::unix::ffi::OsStrExt;

/// A name as a string of JSON. A byte that is not UTF-8 is written as \udc80 to \udcff, as Python's `os.fsencode` takes
/// it back, so that no two names are written alike.
pub fn string<T: AsRef<OsStr> + ?Sized>(name: &T) -> String {
    let mut text = String::from("\"");
    for chunk in name.as_ref().as_bytes().utf8_chunks() {
        for c in chunk.valid().chars() {
            match c {
                '"' | '\\' => text.extend(['\\', c]),
                // Control characters, also those above ASCII, which a terminal would take for commands.
                c if c.is_control() => text.push_str(&format!("\\u{:04x}", u32::from(c))),
                c => text.push(c),
            }
        }
        for byte in chunk.invalid() {
            // Writing to a string does not fail.
            let _ = write!(text, "\\udc{byte:02x}");
        }
    }
    text.push('"');
    text
}

/// A list, an item a line.
pub fn list(items: impl IntoIterator<Item = String>) -> String {
    let items: Vec<String> = items.into_iter().collect();
    if items.is_empty() {
        "[]".into()
    } else {
        format!("[\n    {}\n  ]", items.join(",\n    "))
    }
}

/// An object, a key a line.
pub fn object(parts: &[(&str, String)]) -> String {
    let parts: Vec<String> = parts.iter().map(|(key, value)| format!("  \"{key}\": {value}")).collect();
    format!("{{\n{}\n}}", parts.join(",\n"))
}

#[cfg(test)]
mod tests {
    use super::*;
    use kyzgultam::{config, EncoderSettings, Refusal};

    #[test]
    fn strings() {
        for (name, text) in [
            (&b"a b.ppm"[..], "\"a b.ppm\""),
            ("Düşünce 心.ppm".as_bytes(), "\"Düşünce 心.ppm\""),
            (b"", "\"\""),
            (b"a\"b\\c/", "\"a\\\"b\\\\c/\""),
            (b"a\nb\tc\x1b\x7f", "\"a\\u000ab\\u0009c\\u001b\\u007f\""),
            ("\u{85}".as_bytes(), "\"\\u0085\""),
            (b"a\xffb\xc3", "\"a\\udcffb\\udcc3\""),
        ] {
            assert_eq!(string(OsStr::from_bytes(name)), text);
        }
    }

    /// The reader of config.json, which is proved, takes what is written for a text of JSON: it misses a key there, and
    /// finds nothing else wrong.
    #[test]
    fn texts() {
        for byte in 0..=255u8 {
            let name = string(OsStr::from_bytes(&[b'a', byte, b'"', byte, b'\\']));
            for text in [format!("[{name}]"), format!("{{{name}: {}}}", list([name.clone(), name.clone()]))] {
                let refused = config(&EncoderSettings::default(), text.as_bytes()).unwrap_err();
                assert_eq!(refused.refusal, Refusal::ConfigVision, "{text}");
            }
        }
        let object = object(&[("a", list([])), ("b", "1".into())]);
        assert_eq!(object, "{\n  \"a\": [],\n  \"b\": 1\n}");
    }
}
