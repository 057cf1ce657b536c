//! NumPy's .npy, version 1.0: little-endian f32, or bf16 as u16, in C order, of three sizes. It says which, and its shape.

use crate::source::Source;
use std::io::{self, Read, Write};

pub type Shape = [usize; 3];

/// What a file holds.
#[derive(Clone, Copy, Debug, PartialEq, Eq)]
pub enum Element {
    Float,
    /// bf16 packed to 16 bits, for which NumPy has no type of its own.
    Bf16,
}

impl Element {
    const ALL: [Element; 2] = [Element::Float, Element::Bf16];

    fn descr(self) -> &'static str {
        match self {
            Element::Float => "<f4",
            Element::Bf16 => "<u2",
        }
    }

    fn bytes(self) -> usize {
        match self {
            Element::Float => 4,
            Element::Bf16 => 2,
        }
    }

    pub fn name(self) -> &'static str {
        match self {
            Element::Float => "floats",
            Element::Bf16 => "bf16 values",
        }
    }
}

const MAGIC: &[u8] = b"\x93NUMPY";
/// What stands before the header: the magic, the version and the header's length.
const FRONT: usize = MAGIC.len() + 4;

/// Writes what stands before the elements. As NumPy does, it fills up to a multiple of 64 bytes.
pub fn head(to: &mut dyn Write, element: Element, [a, b, c]: Shape) -> io::Result<()> {
    let descr = element.descr();
    let mut text = format!("{{'descr': '{descr}', 'fortran_order': False, 'shape': ({a}, {b}, {c}), }}");
    let full = (FRONT + text.len() + 1).next_multiple_of(64);
    text.extend(std::iter::repeat_n(' ', full - FRONT - text.len() - 1));
    text.push('\n');
    to.write_all(MAGIC)?;
    to.write_all(&[1, 0])?;
    to.write_all(&(text.len() as u16).to_le_bytes())?;
    to.write_all(text.as_bytes())
}

/// Whether a file begins as .npy files do.
pub fn begins(source: &mut Source<impl Read>) -> io::Result<bool> {
    Ok(source.look(MAGIC.len())? == MAGIC)
}

/// Takes what stands before the elements, which are to be of one kind: their shape, which fits the bytes that are left,
/// where these are known.
pub fn shape(source: &mut Source<impl Read>, wanted: Element) -> Result<Shape, String> {
    match any(source)? {
        (element, shape) if element == wanted => Ok(shape),
        (element, _) => {
            Err(format!("holds {} ({}), and is to hold {}", element.name(), element.descr(), wanted.name()))
        }
    }
}

/// The same of elements of either kind.
pub fn any(source: &mut Source<impl Read>) -> Result<(Element, Shape), String> {
    let unread = |e: io::Error| format!("cannot be read: {e}");
    let short = || "ends inside its .npy header; get the whole file".to_string();
    let mut front = [0; FRONT];
    let found = source.take(&mut front).map_err(unread)?;
    if !front[..found].starts_with(MAGIC) {
        return Err("is no .npy file: it does not begin as one".into());
    }
    if found < FRONT {
        return Err(short());
    }
    let [.., major, minor, low, high] = front;
    if (major, minor) != (1, 0) {
        return Err(format!("is of .npy version {major}.{minor}, and only 1.0 is read; write it again as 1.0"));
    }
    let mut header = vec![0; usize::from(u16::from_le_bytes([low, high]))];
    if source.take(&mut header).map_err(unread)? < header.len() {
        return Err(short());
    }
    let (element, shape) =
        parse(&header).map_err(|why| format!("has a .npy header that is not read: {why}; {WANTED}"))?;
    let [a, b, c] = shape;
    let len = a.checked_mul(b).and_then(|ab| ab.checked_mul(c)).and_then(|count| count.checked_mul(element.bytes()));
    match (len, source.left()) {
        (None, _) => Err(format!("says a shape that no file has, {a}x{b}x{c}; write it again")),
        (Some(len), Some(left)) if len as u64 != left => Err(format!(
            "is damaged: its shape {a}x{b}x{c} asks for {len} bytes, and {left} stand behind its header; write it again"
        )),
        _ => Ok((element, shape)),
    }
}

const WANTED: &str = "it is to have '<f4', fortran_order False and a shape of three sizes, as numpy.save writes them";

/// A header's text: a dict of Python with three keys in any order, spaces and one newline.
fn parse(header: &[u8]) -> Result<(Element, Shape), String> {
    let text = std::str::from_utf8(header).ok().filter(|text| text.is_ascii()).ok_or("it is no ASCII")?;
    let text = text.strip_suffix('\n').ok_or("it does not end in a newline")?;
    let mut words = Words { text };
    let (mut descr, mut order, mut shape) = (None, None, None);
    words.sign('{')?;
    while !words.is('}') {
        let key = words.quoted()?;
        words.sign(':')?;
        let new = match key {
            "descr" => descr.replace(words.quoted()?).is_none(),
            "fortran_order" => order.replace(words.name()).is_none(),
            "shape" => shape.replace(words.sizes()?).is_none(),
            _ => return Err("it has a key that is none of descr, fortran_order and shape".into()),
        };
        if !new {
            return Err(format!("it has {key} twice"));
        }
        if !words.is(',') {
            words.sign('}')?;
            break;
        }
    }
    if !words.rest().is_empty() {
        return Err("something stands behind its dict".into());
    }
    let (descr, order) = (descr.ok_or("it has no descr")?, order.ok_or("it has no fortran_order")?);
    let element = Element::ALL.into_iter().find(|e| e.descr() == descr).ok_or("its descr is not '<f4'")?;
    if order != "False" {
        return Err("its fortran_order is not False".into());
    }
    Ok((element, shape.ok_or("it has no shape")?))
}

const THREE: &str = "its shape is not of three sizes";

/// The text that is not yet read, from its front on.
struct Words<'a> {
    text: &'a str,
}

impl<'a> Words<'a> {
    fn rest(&mut self) -> &'a str {
        self.text = self.text.trim_start_matches(' ');
        self.text
    }

    /// Takes a sign, if it comes next.
    fn is(&mut self, sign: char) -> bool {
        let rest = self.rest().strip_prefix(sign);
        self.text = rest.unwrap_or(self.text);
        rest.is_some()
    }

    fn sign(&mut self, sign: char) -> Result<(), String> {
        self.is(sign).then_some(()).ok_or_else(|| format!("a {sign} is missing"))
    }

    fn quoted(&mut self) -> Result<&'a str, String> {
        let rest = self.rest();
        let quote = rest.chars().next().filter(|c| matches!(c, '\'' | '"')).ok_or("a quoted word is missing")?;
        let (word, rest) = rest[1..].split_once(quote).ok_or("a quote is not closed")?;
        self.text = rest;
        Ok(word)
    }

    /// Letters and digits, as many as come next.
    fn name(&mut self) -> &'a str {
        let rest = self.rest();
        let (name, rest) = rest.split_at(rest.find(|c: char| !c.is_ascii_alphanumeric()).unwrap_or(rest.len()));
        self.text = rest;
        name
    }

    /// A tuple of three decimals.
    fn sizes(&mut self) -> Result<Shape, String> {
        let mut sizes = [0; 3];
        let mut more = self.is('(');
        for size in &mut sizes {
            let name = self.name();
            let decimal = more && name.bytes().all(|b| b.is_ascii_digit());
            *size = decimal.then(|| name.parse().ok()).flatten().ok_or(THREE)?;
            more = self.is(',');
        }
        self.is(')').then_some(sizes).ok_or(THREE.into())
    }
}

#[cfg(test)]
mod tests {
    use super::*;

    /// A file with this header, and so many bytes of floats.
    fn file(header: &str, bytes: usize) -> Vec<u8> {
        let len = (header.len() as u16).to_le_bytes();
        [MAGIC, &[1, 0], &len, header.as_bytes(), &vec![0; bytes]].concat()
    }

    /// The shape, with the length known and not.
    fn read(bytes: &[u8]) -> Result<Shape, String> {
        let known = shape(&mut Source::new(bytes, Some(bytes.len() as u64)), Element::Float);
        let unknown = shape(&mut Source::new(bytes, None), Element::Float);
        assert!(known == unknown || known.as_ref().is_err_and(|e| e.contains("stand behind its header")));
        known
    }

    #[test]
    fn written_as_numpy_writes() {
        let mut bytes = Vec::new();
        head(&mut bytes, Element::Float, [36, 48, 588]).unwrap();
        let text = b"{'descr': '<f4', 'fortran_order': False, 'shape': (36, 48, 588), }";
        assert_eq!(bytes[..10], *b"\x93NUMPY\x01\x00\x76\x00");
        assert_eq!(bytes[10..10 + text.len()], *text);
        assert!(bytes.len() == 128 && bytes.ends_with(b"  \n"));
        let mut bytes = Vec::new();
        head(&mut bytes, Element::Bf16, [usize::MAX; 3]).unwrap();
        assert_eq!(bytes.len() % 64, 0);
    }

    #[test]
    fn legal_forms() {
        for header in [
            "{'descr': '<f4', 'fortran_order': False, 'shape': (1, 2, 3), }   \n",
            "{'descr': '<f4', 'fortran_order': False, 'shape': (1, 2, 3)}\n",
            "{'shape': (1, 2, 3,), 'descr': '<f4', 'fortran_order': False, }\n",
            "{\"shape\":(1,2,3),\"fortran_order\":False,\"descr\":\"<f4\"}\n",
            " { 'shape' : ( 1 , 2 , 3 ) , 'fortran_order' : False , 'descr' : '<f4' , } \n",
        ] {
            assert_eq!(read(&file(header, 24)), Ok([1, 2, 3]), "{header:?}");
        }
        let mut empty = Vec::new();
        head(&mut empty, Element::Float, [0, 7, 9]).unwrap();
        assert_eq!(read(&empty), Ok([0, 7, 9]));
    }

    #[test]
    fn elements_are_told_apart() {
        let of = |bytes: &[u8], wanted| shape(&mut Source::new(bytes, Some(bytes.len() as u64)), wanted);
        for (element, other, words) in [
            (Element::Float, Element::Bf16, "holds floats (<f4), and is to hold bf16 values"),
            (Element::Bf16, Element::Float, "holds bf16 values (<u2), and is to hold floats"),
        ] {
            let mut bytes = Vec::new();
            head(&mut bytes, element, [1, 2, 3]).unwrap();
            bytes.extend(vec![0; 6 * element.bytes()]);
            assert_eq!(of(&bytes, element), Ok([1, 2, 3]));
            assert_eq!(of(&bytes, other), Err(words.into()));
            bytes.pop();
            assert!(of(&bytes, element).unwrap_err().contains("is damaged"));
        }
    }

    #[test]
    fn refused_forms() {
        let full = |descr: &str, order: &str, shape: &str| {
            file(&format!("{{'descr': {descr}, 'fortran_order': {order}, 'shape': {shape}, }}\n"), 24)
        };
        let three = "not of three sizes";
        let huge = "9".repeat(30);
        let large = format!("({0}, {0}, {0})", usize::MAX);
        for (bytes, why) in [
            (full("'<f8'", "False", "(1, 2, 3)"), "not '<f4'"),
            (full("'>f4'", "False", "(1, 2, 3)"), "not '<f4'"),
            (full("'|u1'", "False", "(1, 2, 3)"), "not '<f4'"),
            (full("'>u2'", "False", "(1, 2, 6)"), "not '<f4'"),
            (full("'<u2'", "False", "(1, 2, 6)"), "holds bf16 values (<u2)"),
            (full("'<u2'", "False", "(1, 2, 3)"), "asks for 12 bytes, and 24 stand"),
            (full("[('a', '<f4')]", "False", "(1, 2, 3)"), "quoted word"),
            (full("'<f4'", "True", "(1, 2, 3)"), "not False"),
            (full("'<f4'", "0", "(1, 2, 3)"), "not False"),
            (full("'<f4'", "", "(1, 2, 3)"), "not False"),
            (full("'<f4'", "False", "(6,)"), three),
            (full("'<f4'", "False", "(2, 3)"), three),
            (full("'<f4'", "False", "(1, 1, 2, 3)"), three),
            (full("'<f4'", "False", "()"), three),
            (full("'<f4'", "False", "6"), three),
            (full("'<f4'", "False", "[1, 2, 3]"), three),
            (full("'<f4'", "False", "(1, 2, -3)"), three),
            (full("'<f4'", "False", "(1, 2, +3)"), three),
            (full("'<f4'", "False", "(1, 2, 3L)"), three),
            (full("'<f4'", "False", "(1, 2, 0x3)"), three),
            (full("'<f4'", "False", "(1, 2, 3"), three),
            (full("'<f4'", "False", &format!("(1, 2, {huge})")), three),
            (full("'<f4'", "False", &large), "shape that no file has"),
            (full("'<f4'", "False", "(3, 2, 3)"), "asks for 72 bytes, and 24 stand"),
            (full("'<f4'", "False", "(1, 2, 2)"), "asks for 16 bytes, and 24 stand"),
            (file("{'descr': '<f4', 'fortran_order': False, }\n", 24), "no shape"),
            (file("{'descr': '<f4', 'shape': (1, 2, 3), }\n", 24), "no fortran_order"),
            (file("{'fortran_order': False, 'shape': (1, 2, 3), }\n", 24), "no descr"),
            (file("{'descr': '<f4', 'descr': '<f4', }\n", 24), "descr twice"),
            (file("{'descr': '<f4', 'more': 1, }\n", 24), "none of descr"),
            (file("{}\n", 24), "no descr"),
            (file("{'descr': '<f4', 'fortran_order': False, 'shape': (1, 2, 3), } x\n", 24), "behind its dict"),
            (file("{'descr': '<f4', 'fortran_order': False, 'shape': (1, 2, 3), }", 24), "newline"),
            (file("{'descr' '<f4'}\n", 24), "a : is missing"),
            (file("{'descr': '<f4}\n", 24), "quote is not closed"),
            (file("\n", 24), "a { is missing"),
            (file("{'é': 1}\n", 24), "no ASCII"),
            (file("", 0), "newline"),
        ] {
            let found = read(&bytes).unwrap_err();
            assert!(found.contains(why), "{:?}: {found}", String::from_utf8_lossy(&bytes));
        }
        for (version, text) in [([0, 9], "0.9"), ([1, 1], "1.1"), ([2, 0], "2.0"), ([3, 0], "3.0")] {
            let mut bytes = full("'<f4'", "False", "(1, 2, 3)");
            bytes[6..8].copy_from_slice(&version);
            assert!(read(&bytes).unwrap_err().contains(text));
        }
    }

    /// Every cut and every byte changed: an answer, and never a shape that the file does not hold.
    #[test]
    fn hostile_files() {
        let mut whole = Vec::new();
        head(&mut whole, Element::Float, [1, 2, 3]).unwrap();
        whole.extend([0; 24]);
        for len in 0..whole.len() {
            assert!(read(&whole[..len]).is_err(), "{len}");
        }
        for at in 0..whole.len() {
            for byte in 0..=255 {
                let mut changed = whole.clone();
                changed[at] = byte;
                if let Ok(shape) = read(&changed) {
                    assert_eq!(shape.iter().product::<usize>(), 6, "{at} {byte}");
                }
            }
        }
    }
}
