//! Pictures of answers.

use crate::caption;
use crate::netpbm::Picture;
use kyzgultam::{BadSample, Tile};
use std::iter::repeat_n;

const MAP: [[f32; 3]; 7] = [
    [2.0, 2.0, 12.0],
    [61.0, 9.0, 101.0],
    [135.0, 33.0, 107.0],
    [203.0, 65.0, 73.0],
    [243.0, 120.0, 25.0],
    [249.0, 188.0, 40.0],
    [252.0, 255.0, 164.0],
];

/// From dark to bright, 0 to 1.
fn colour(x: f32) -> [f32; 3] {
    let x = x.clamp(0.0, 1.0) * (MAP.len() - 1) as f32;
    let i = (x as usize).min(MAP.len() - 2);
    let part = x - i as f32;
    std::array::from_fn(|c| MAP[i][c] * (1.0 - part) + MAP[i + 1][c] * part)
}

/// A value for each cell of a grid over a picture, as colours through which the picture shows.
pub fn heat(picture: Picture, grid: (usize, usize), values: &[f32]) -> Picture {
    let (low, high) = values.iter().fold((f32::MAX, f32::MIN), |(l, h), v| (l.min(*v), h.max(*v)));
    cells(picture, grid, |i, grey| {
        let value = (values[i] - low) / (high - low).max(1e-9);
        shade(value, grey)
    })
}

/// A colour through which a grey shows.
fn shade(x: f32, grey: f32) -> [f32; 3] {
    colour(x).map(|x| 0.78 * x + 0.22 * grey)
}

/// The cells that are marked in red, over the picture, which is dimmed elsewhere.
pub fn marks(picture: Picture, grid: (usize, usize), marked: &[bool]) -> Picture {
    cells(
        picture,
        grid,
        |i, grey| if marked[i] { [140.0 + 0.45 * grey, 0.55 * grey, 0.5 * grey] } else { [0.5 * grey; 3] },
    )
}

/// Paints each pixel by its cell and its grey.
fn cells(mut picture: Picture, grid: (usize, usize), paint: impl Fn(usize, f32) -> [f32; 3]) -> Picture {
    let (height, width) = (picture.height, picture.width);
    let (rows, columns) = (height / grid.0, width / grid.1);
    for (k, pixel) in picture.rgb.chunks_exact_mut(3).enumerate() {
        let i = k / width / rows * grid.1 + k % width / columns;
        let grey = pixel.iter().map(|b| f32::from(*b)).sum::<f32>() / 3.0;
        pixel.copy_from_slice(&paint(i, grey).map(|x| x.round() as u8));
    }
    picture
}

/// A frame around a cell, white and, inside that, black.
pub fn frame(picture: &mut Picture, grid: (usize, usize), cell: (usize, usize)) {
    let (rows, columns) = (picture.height / grid.0, picture.width / grid.1);
    for y in 0..rows {
        for x in 0..columns {
            let edge = y.min(rows - 1 - y).min(x).min(columns - 1 - x);
            if edge < 4 {
                let k = (cell.0 * rows + y) * picture.width + cell.1 * columns + x;
                picture.rgb[3 * k..3 * k + 3].fill(if edge < 2 { 255 } else { 0 });
            }
        }
    }
}

/// A picture at half its size.
pub fn half(picture: &Picture) -> Picture {
    let (height, width) = (picture.height / 2, picture.width / 2);
    let mut rgb = Vec::with_capacity(height * width * 3);
    for (y, x) in (0..height).flat_map(|y| (0..width).map(move |x| (y, x))) {
        rgb.extend((0..3).map(|c| {
            let at = |dy, dx| u32::from(picture.rgb[((2 * y + dy) * picture.width + 2 * x + dx) * 3 + c]);
            ((at(0, 0) + at(0, 1) + at(1, 0) + at(1, 1) + 2) / 4) as u8
        }));
    }
    Picture { height, width, rgb }
}

/// Pictures of one height side by side, with a gap.
pub fn strip(pictures: &[Picture]) -> Picture {
    const GAP: usize = 6;
    let mut rgb = vec![];
    for y in 0..pictures[0].height {
        for (i, picture) in pictures.iter().enumerate() {
            rgb.resize(rgb.len() + if i > 0 { 3 * GAP } else { 0 }, 255);
            rgb.extend(&picture.rgb[3 * y * picture.width..][..3 * picture.width]);
        }
    }
    let width = pictures.iter().map(|picture| picture.width + GAP).sum::<usize>() - GAP;
    Picture { height: pictures[0].height, width, rgb }
}

/// Bad samples on the picture without them: their pixels magenta, which no ultrasound picture has, their patches framed
/// and all others dimmed. The buffer has the room of `damage_len`.
pub fn damage(picture: &Picture, patch: usize, list: &[BadSample], mut rgb: Vec<u8>) -> Picture {
    let (times, grid_w) = (enlarged(picture), picture.width / patch);
    let (height, width) = (times * picture.height, times * picture.width);
    rgb.clear();
    for y in 0..height {
        let row = &picture.rgb[y / times * picture.width * 3..][..picture.width * 3];
        let wide = row.chunks_exact(3).flat_map(|pixel| repeat_n(pixel, times)).flatten();
        rgb.extend(wide.map(|byte| (u16::from(*byte) * 5 / 9) as u8));
    }
    let mut map = Picture { height, width, rgb };
    for of_patch in list.chunk_by(|a, b| a.patch == b.patch) {
        let index = of_patch[0].patch as usize;
        framed(&mut map, picture, times, patch, (index / grid_w, index % grid_w));
    }
    for bad in list {
        marked(&mut map, times, (bad.row(patch, grid_w), bad.column(patch, grid_w)));
    }
    map
}

/// A patch at its place on the enlarged picture, with a frame inside.
fn framed(map: &mut Picture, picture: &Picture, times: usize, patch: usize, place: (usize, usize)) {
    let (side, line) = (times * patch, times.min(3));
    for (y, x) in (0..side).flat_map(|y| (0..side).map(move |x| (y, x))) {
        let edge = y.min(side - 1 - y).min(x).min(side - 1 - x);
        let (y, x) = (place.0 * side + y, place.1 * side + x);
        let own = &picture.rgb[(y / times * picture.width + x / times) * 3..][..3];
        map.rgb[(y * map.width + x) * 3..][..3].copy_from_slice(if edge < line { &LINE } else { own });
    }
}

/// The mark of a pixel. One that is too small to be seen has a larger mark, around its place.
fn marked(map: &mut Picture, times: usize, place: (usize, usize)) {
    let before = DOT.saturating_sub(times) / 2;
    let after = DOT.max(times) - before;
    let reach = |at: usize, end: usize| (times * at).saturating_sub(before)..(times * at + after).min(end);
    for y in reach(place.0, map.height) {
        for x in reach(place.1, map.width) {
            map.rgb[(y * map.width + x) * 3..][..3].copy_from_slice(&BAD);
        }
    }
}

/// How many bytes `damage` makes of a picture.
pub fn damage_len(picture: &Picture) -> usize {
    picture.rgb.len() * enlarged(picture).pow(2)
}

/// How many times a picture is enlarged, so that a person sees its pixels: those of a large one are as they are.
fn enlarged(picture: &Picture) -> usize {
    1000usize.div_ceil(picture.height.max(picture.width))
}

const BAD: [u8; 3] = [255, 0, 255];
/// The least side of a mark.
const DOT: usize = 5;

/// A sweep and its tiles, of patches of a side: a line around each, and the padding hatched.
pub fn tiles(sweep: &Picture, tiles: &[Tile], patch: usize) -> Picture {
    let end = |tile: &Tile| (tile.top + tile.grid_h * patch, tile.left + tile.grid_w * patch);
    let (height, width) = tiles.iter().map(end).fold((0, 0), |a, b| (a.0.max(b.0), a.1.max(b.1)));
    let mut rgb = vec![255; height * width * 3];
    for tile in tiles {
        let (bottom, right) = end(tile);
        for (y, x) in (tile.top..bottom).flat_map(|y| (tile.left..right).map(move |x| (y, x))) {
            let edge = (y - tile.top).min(bottom - 1 - y).min(x - tile.left).min(right - 1 - x);
            let own = y < sweep.height && x < sweep.width;
            let pixel = &mut rgb[(y * width + x) * 3..][..3];
            match (edge, own) {
                (0, _) => pixel.copy_from_slice(&LINE),
                (_, true) => pixel.copy_from_slice(&sweep.rgb[(y * sweep.width + x) * 3..][..3]),
                (_, false) => pixel.copy_from_slice(&HATCH[(y + x) / 3 % 2]),
            }
        }
    }
    Picture { height, width, rgb }
}

const LINE: [u8; 3] = [249, 188, 40];
const HATCH: [[u8; 3]; 2] = [[0; 3], [203, 65, 73]];

/// Pictures under each other. What is narrower leaves a white rest.
pub fn stack(pictures: &[&Picture]) -> Picture {
    let width = pictures.iter().map(|picture| picture.width).max().unwrap_or(0);
    let mut rgb = vec![];
    for picture in pictures {
        for row in picture.rgb.chunks_exact(3 * picture.width) {
            rgb.extend(row);
            rgb.resize(rgb.len() + 3 * (width - picture.width), 255);
        }
    }
    Picture { height: rgb.len() / 3 / width, width, rgb }
}

/// Thin lines over a picture, so many pixels apart, through which it shows.
pub fn lines(picture: &mut Picture, apart: usize) {
    let width = picture.width;
    for (k, pixel) in picture.rgb.chunks_exact_mut(3).enumerate() {
        if k / width % apart == 0 || k % width % apart == 0 {
            for (byte, line) in pixel.iter_mut().zip(LINE) {
                *byte = ((3 * u16::from(*byte) + u16::from(line)) / 4) as u8;
            }
        }
    }
}

/// The colours of `heat`, from the least value to the largest, between two texts that say them.
pub fn scale(width: usize, low: &str, high: &str) -> Picture {
    let mut band = caption::band(width, low, 1);
    let bar = caption::width(low)..width - caption::width(high);
    let (top, bottom) = (caption::MARGIN, caption::MARGIN + caption::HEIGHT);
    for (y, x) in (top..bottom).flat_map(|y| bar.clone().map(move |x| (y, x))) {
        let part = (x - bar.start) as f32 / (bar.len() - 1) as f32;
        let pixel = shade(part, 128.0).map(|x| x.round() as u8);
        band.rgb[(y * width + x) * 3..][..3].copy_from_slice(&pixel);
    }
    caption::write(&mut band, (top, bar.end + caption::MARGIN), high);
    band
}
