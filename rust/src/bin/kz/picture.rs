//! A sweep's picture out of a file, which is a PNG or a binary netpbm by its first bytes, whatever its name is.

use crate::fail::Fail;
use crate::netpbm::{self, Picture};
use crate::png_read;
use crate::source::{self, Source};
use std::io::{self, Read};
use std::ops::Range;
use std::path::Path;

/// Reads a picture. Its header is tested before its samples are read.
pub fn read(file: &Path) -> Result<Picture, Fail> {
    let (picture, taken) = find(file);
    taken.map(|()| picture)
}

/// What a file has of a picture, and whether that is taken. The sides are the header's, 0 and 0 where there is none.
/// The bytes are all there or none are; where a picture is not taken for the value of a sample, all are.
pub fn find(file: &Path) -> (Picture, Result<(), Fail>) {
    let mut picture = Picture { height: 0, width: 0, rgb: vec![] };
    let parsed = |mut source| parse(&mut source, &mut picture).map_err(|why| Fail::file(file, why));
    let taken = Source::open(file).and_then(parsed);
    (picture, taken)
}

fn parse(source: &mut Source<impl Read>, picture: &mut Picture) -> Result<(), String> {
    if png_read::begins(source).map_err(unread)? {
        return png_read::parse(source, picture);
    }
    match source.look(DICOM.end).map_err(unread)? {
        [] => Err("is empty; look at what was to write it".into()),
        // A netpbm may have any bytes where a DICOM file says what it is.
        [b'P', ..] => netpbm::parse(source, picture),
        front if front.get(DICOM) == Some(b"DICM") => Err(format!("is a DICOM file; {FRAMES}")),
        _ => netpbm::parse(source, picture),
    }
}

/// Where a DICOM file says what it is.
const DICOM: Range<usize> = 128..132;
const FRAMES: &str =
    "send its frames to standard input (-), as with `dcm2pnm --all-frames --no-overlays --write-raw-pnm`";

/// A picture, and why it is not taken.
pub type Found = (Picture, Result<(), String>);

/// The pictures of a file, of which a netpbm may have several, one behind the other: each with why it is not taken. One
/// that is not taken may be the last, since nobody knows where it ends.
pub fn all(file: &Path) -> Result<Vec<Found>, Fail> {
    let mut source = Source::open(file)?;
    let mut pictures = Vec::new();
    loop {
        let mut picture = Picture { height: 0, width: 0, rgb: vec![] };
        let several = netpbm::begins(&mut source).map_err(source::unread(file))?;
        let taken = if several { netpbm::first(&mut source, &mut picture) } else { parse(&mut source, &mut picture) };
        // For its samples alone a picture is refused with its bytes, behind which the next one stands.
        let lost = taken.is_err() && picture.rgb.is_empty();
        pictures.push((picture, taken));
        if lost || source.ended().map_err(source::unread(file))? {
            return Ok(pictures);
        }
    }
}

fn unread(e: io::Error) -> String {
    format!("cannot be read: {e}")
}
