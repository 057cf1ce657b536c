//! `kz demo`: a synthetic sweep goes to patches and tokens, and comes back.

use crate::fail::Fail;
use crate::given::Given;
use crate::model::{refused_settings, Lent, Model};
use crate::netpbm::Picture;
use crate::shown::shown;
use crate::{caption, files, paint, png, room, say, sweep};
use kyzgultam::{Cut, PictureSettings, Tile};
use std::env;
use std::ffi::OsString;
use std::path::PathBuf;
use std::time::{Duration, Instant};

pub const HELP: &str = "\
kz demo [-o DIR] [--force]

Makes a synthetic ultrasound-like sweep, takes it to patches and to token
vectors with the built-in small model, and brings it back from its patches.
Writes to DIR (kz-demo, if -o is not given):

  sweep.png       the sweep, and sweep.ppm for `kz encode` and the others
  resized.png     the sweep as it is resized before it is cut into patches
  restored.png    what restore makes of the patches: identical, and checked
  similarity.png  how alike each token is to the centre token (cosine)
  overview.png    resized, restored and similarity, side by side, with what
                  each shows, the lines of the patches and a colour bar
  rules.png       a panoramic sweep as each resize rule has it: squashed by
                  rule 1, and below in its shape by rule 2
  panorama.ppm    that sweep, to try --settings image=560,rule=2 on
  tiles.png       a sweep above the image size, cut into tiles, their padding
                  hatched, and below joined again: identical, and checked
  oversize.ppm    that sweep, to try --tiles --settings image=170 on

The model's weights come from a seed and were never trained: what is alike
here is brightness and texture.
";

/// Sides of the panoramic sweep, and an image size that leaves a third of each where the shape is kept.
const PANORAMA: (usize, usize) = (420, 1680);
const THIRD: usize = 560;

/// Sides of the sweep that is cut into tiles, and an image size below both.
const OVERSIZE: (usize, usize) = (286, 538);
const TILED: usize = 170;

const NAMES: [&str; 10] = [
    "sweep.png",
    "sweep.ppm",
    "resized.png",
    "restored.png",
    "similarity.png",
    "overview.png",
    "panorama.ppm",
    "rules.png",
    "oversize.ppm",
    "tiles.png",
];

const AGAIN: &str = "try it again where there is more";

pub fn run(given: &Given) -> Result<(), Fail> {
    if !given.files.is_empty() {
        return Err(Fail::usage("demo takes no files"));
    }
    let folder = given.path("-o").unwrap_or(PathBuf::from("kz-demo"));
    if files::standard(&folder) {
        return Err(Fail::usage("-o - is for one file, and demo writes many files; give a folder"));
    }
    files::folder(&folder)?;
    for name in NAMES {
        files::vacant(&folder.join(name), given.force)?;
    }
    let demo = Demo { folder, force: given.force, model: Model::read(given)? };
    let fan = demo.fan()?;
    let faults = [
        ("restored.png", "is not as resized.png", demo.show(&fan)?),
        ("rules.png", "is not as plain Rust resizes", demo.rules()?),
        ("tiles.png", "is not joined to its sweep", demo.tiles()?),
    ];
    let [to_patches, to_tokens, back] = fan.times.map(|time| time.as_secs_f64() * 1e3);
    say(format_args!("preprocess {to_patches:.1} ms, forward {to_tokens:.0} ms, restore {back:.1} ms, on one core"));
    if let Some((name, what, _)) = faults.iter().find(|(_, _, differ)| *differ > 0) {
        return Err(Fail::file(&demo.folder.join(name), format!("{what}: this is a fault, report it")));
    }
    let (kz, sweep) = (called(), demo.folder.join("sweep.ppm"));
    let out = demo.folder.join("out");
    let next = format!("{} encode {} -o {}", shown(&kz), shown(&sweep), shown(&out));
    say(format_args!("look at {}; try next: {next}", shown(&demo.folder.join("overview.png"))));
    Ok(())
}

/// The words by which kz was called: those of ./kz, which says them.
fn called() -> OsString {
    env::var_os("KZ_CALLED").unwrap_or("kz".into())
}

/// Where pictures are written, and what makes token vectors.
struct Demo {
    folder: PathBuf,
    force: bool,
    model: Model,
}

/// A sweep on its way to patches and token vectors, and back, with the times of the three calls.
struct Fan {
    sweep: Picture,
    resized: Picture,
    restored: Picture,
    patches: usize,
    /// Rows and columns of token vectors, and the cosine of each to the one in the middle.
    grid: (usize, usize),
    alike: Vec<f32>,
    times: [Duration; 3],
}

impl Demo {
    fn write(&self, name: &str, picture: &Picture, words: String) -> Result<(), Fail> {
        let file = self.folder.join(name);
        files::write(&file, self.force, |to| png::named(to, &file, picture))?;
        say(format_args!("{:<24} {words}", shown(&file)));
        Ok(())
    }

    fn fan(&self) -> Result<Fan, Fail> {
        let settings = self.model.settings.picture;
        let sweep = sweep::sweep(490, 650, 20);
        let start = Instant::now();
        let floats = settings.patches_len(sweep.height, sweep.width).map_err(refused_settings)?;
        let mut patches = room::zeros(floats, "the patches", AGAIN).map_err(Fail::Refused)?;
        let cut = kyzgultam::pixtral_preprocess(&sweep.rgb, sweep.height, sweep.width, &settings, &mut patches);
        let cut = cut.map_err(refused_settings)?;
        let (to_patches, start) = (start.elapsed(), Instant::now());
        let (grid, mut lent) = ((cut.grid_h, cut.grid_w), Lent::default());
        self.model.lend(grid, &mut lent).map_err(Fail::Refused)?;
        self.model.forward(&patches, grid, &mut lent).map_err(refused_settings)?;
        let (to_tokens, start) = (start.elapsed(), Instant::now());
        let mut rgb = room::zeros(patches.len(), "the restored sweep", AGAIN).map_err(Fail::Refused)?;
        let size = kyzgultam::restore(&patches, grid.0, grid.1, &settings, &mut rgb).map_err(refused_settings)?;
        let times = [to_patches, to_tokens, start.elapsed()];
        let restored = Picture { height: size.height, width: size.width, rgb };
        let resized = resize(&sweep, restored.height, restored.width);
        let merge = settings.spatial_merge_size;
        let tokens = (grid.0 / merge, grid.1 / merge);
        let alike = similarity(&lent.tokens, self.model.settings.text_hidden_size, middle(tokens));
        Ok(Fan { sweep, resized, restored, patches: grid.0 * grid.1, grid: tokens, alike, times })
    }

    /// Writes the pictures of a sweep that came back: how many bytes did not.
    fn show(&self, fan: &Fan) -> Result<usize, Fail> {
        let Fan { sweep, resized, restored, patches, grid, alike, .. } = fan;
        self.write("sweep.png", sweep, format!("{}, made from a seed", sides(sweep)))?;
        self.write("sweep.ppm", sweep, "the same, to try the other commands on".into())?;
        self.write("resized.png", resized, format!("{}, resized by plain Rust", sides(resized)))?;
        let differ = differ(restored, resized);
        let same = if differ == 0 { "identical to resized.png" } else { "NOT as resized.png" };
        self.write("restored.png", restored, format!("{}, from {patches} patches: {same}", sides(restored)))?;
        let least = alike.iter().fold(1f32, |a, b| a.min(*b));
        let mut heat = paint::heat(restored.clone(), *grid, alike);
        paint::frame(&mut heat, *grid, (middle(*grid) / grid.1, middle(*grid) % grid.1));
        let words = format!("{}x{} tokens, each to the centre one: cosines {least:.2} to 1.00", grid.0, grid.1);
        self.write("similarity.png", &heat, words)?;
        let words = "resized, restored and similarity, side by side".into();
        self.write("overview.png", &self.overview(fan, &heat, differ), words)?;
        Ok(differ)
    }

    /// Three panels, each below what it shows.
    fn overview(&self, fan: &Fan, heat: &Picture, differ: usize) -> Picture {
        let patch = self.model.settings.picture.patch_size;
        let mut cut = paint::half(&fan.restored);
        paint::lines(&mut cut, patch / 2);
        let (least, most) = fan.alike.iter().fold((1f32, -1f32), |(l, m), x| (l.min(*x), m.max(*x)));
        let (width, grid) = (cut.width, (fan.resized.height / patch, fan.resized.width / patch));
        let foot = |text: &str| caption::band(width, text, 1);
        let resized = format!("a sweep of {},\nresized {}", by(&fan.sweep), by(&fan.resized));
        let back = format!("back from {} patches,\n{} bytes differ", thousands(fan.patches), thousands(differ));
        let panels = [
            (resized, paint::half(&fan.resized), foot(&format!("cut into {} x {} patches", grid.0, grid.1))),
            (back, cut, foot(&format!("lines: patches of {patch} x {patch}"))),
            (
                "cosine to the framed token,\nuntrained weights".into(),
                paint::half(heat),
                paint::scale(width, &format!("{least:.2}"), &format!("{most:.2}")),
            ),
        ];
        let room = panels.iter().map(|(text, ..)| caption::lines(text, width).len()).max().unwrap_or(1);
        let panel = |(text, picture, foot): &(String, Picture, Picture)| {
            paint::stack(&[&caption::band(width, text, room), picture, foot])
        };
        paint::strip(&panels.iter().map(panel).collect::<Vec<_>>())
    }

    /// Writes a long sweep by both resize rules: how many bytes are not as plain Rust resizes.
    fn rules(&self) -> Result<usize, Fail> {
        let settings = PictureSettings { image_size: THIRD, ..self.model.settings.picture };
        let panorama = sweep::panorama(PANORAMA.0, PANORAMA.1, 20);
        let words = format!("{}, a panoramic sweep, made from a seed", sides(&panorama));
        self.write("panorama.ppm", &panorama, words)?;
        let back = |resize_rule| back_again(&panorama, &PictureSettings { resize_rule, ..settings });
        let (squashed, kept) = (back(1)?, back(2)?);
        let (one, two) = (sides(&squashed), sides(&kept));
        let label = |rule: usize, picture: &Picture, what: &str| {
            let text = format!("rule {rule}: {} to {}, {what}", by(&panorama), by(picture));
            caption::band(picture.width, &text, 1)
        };
        let labels = (label(1, &squashed, "squashed"), label(2, &kept, "in its shape"));
        let rules = paint::stack(&[&labels.0, &squashed, &labels.1, &kept]);
        let words = format!("for image={THIRD}: by rule 1 {one}, squashed; by rule 2 {two}, in its shape");
        self.write("rules.png", &rules, words)?;
        let unlike = |by: &Picture| differ(by, &resize(&panorama, by.height, by.width));
        Ok(unlike(&squashed) + unlike(&kept))
    }

    /// Writes a sweep above the image size, its tiles, and what they join to: how many bytes differ.
    fn tiles(&self) -> Result<usize, Fail> {
        let settings = PictureSettings { image_size: TILED, ..self.model.settings.picture };
        let oversize = sweep::panorama(OVERSIZE.0, OVERSIZE.1, 20);
        let words = format!("{}, above image={TILED}, made from a seed", sides(&oversize));
        self.write("oversize.ppm", &oversize, words)?;
        let (cut, tiles, joined) = joined_again(&oversize, &settings)?;
        let differ = differ(&joined, &oversize);
        let (rows, columns, side) = (cut.rows, cut.columns, cut.side);
        let cut = paint::tiles(&oversize, &tiles, settings.patch_size);
        let text =
            format!("{} for an image size of {TILED}:\n{rows} x {columns} tiles, the padding hatched", by(&oversize));
        let above = caption::band(cut.width, &text, 1);
        let text = format!("joined from their patches: {} bytes differ", thousands(differ));
        let below = caption::band(cut.width, &text, 1);
        let same = if differ == 0 { "identical to oversize.ppm" } else { "NOT as oversize.ppm" };
        let words = format!("for image={TILED}: {rows}x{columns} tiles of at most {side}x{side}, joined again: {same}");
        self.write("tiles.png", &paint::stack(&[&above, &cut, &below, &joined]), words)?;
        Ok(differ)
    }
}

fn sides(picture: &Picture) -> String {
    format!("{}x{}", picture.height, picture.width)
}

/// Sides in a caption.
fn by(picture: &Picture) -> String {
    format!("{} x {}", picture.height, picture.width)
}

/// The token in the middle of a grid.
fn middle(grid: (usize, usize)) -> usize {
    grid.0 / 2 * grid.1 + grid.1 / 2
}

/// How many bytes of two pictures differ; those of pictures of other sides all do.
fn differ(a: &Picture, b: &Picture) -> usize {
    match (a.height, a.width) == (b.height, b.width) {
        true => a.rgb.iter().zip(&b.rgb).filter(|(x, y)| x != y).count(),
        false => a.rgb.len().max(b.rgb.len()),
    }
}

/// A count with a comma before each three digits.
fn thousands(count: usize) -> String {
    let digits = count.to_string();
    let parts: Vec<&str> =
        digits.as_bytes().rchunks(3).rev().filter_map(|part| std::str::from_utf8(part).ok()).collect();
    parts.join(",")
}

/// A sweep as it is resized by these settings: what its patches bring back.
fn back_again(sweep: &Picture, settings: &PictureSettings) -> Result<Picture, Fail> {
    let floats = settings.patches_len(sweep.height, sweep.width).map_err(refused_settings)?;
    let mut patches = room::zeros(floats, "the patches", AGAIN).map_err(Fail::Refused)?;
    let mut rgb = room::zeros(floats, "the restored sweep", AGAIN).map_err(Fail::Refused)?;
    let cut = kyzgultam::pixtral_preprocess(&sweep.rgb, sweep.height, sweep.width, settings, &mut patches);
    let cut = cut.map_err(refused_settings)?;
    let size = kyzgultam::restore(&patches, cut.grid_h, cut.grid_w, settings, &mut rgb).map_err(refused_settings)?;
    Ok(Picture { height: size.height, width: size.width, rgb })
}

/// A sweep cut into tiles, and what the patches of these bring back, tile by tile.
fn joined_again(sweep: &Picture, settings: &PictureSettings) -> Result<(Cut, Vec<Tile>, Picture), Fail> {
    let (height, width) = (sweep.height, sweep.width);
    let cut = kyzgultam::cut(height, width, settings).map_err(refused_settings)?;
    let mut rgb = room::zeros(sweep.rgb.len(), "the joined sweep", AGAIN).map_err(Fail::Refused)?;
    let mut tiles = vec![];
    for index in 0..cut.rows * cut.columns {
        let floats = settings.tile_len(height, width, index).map_err(refused_settings)?;
        let mut patches = room::zeros(floats, "the patches of a tile", AGAIN).map_err(Fail::Refused)?;
        let tile = kyzgultam::preprocess_tile(&sweep.rgb, height, width, index, settings, &mut patches);
        tiles.push(tile.map_err(refused_settings)?);
        kyzgultam::restore_tile(&patches, height, width, index, settings, &mut rgb).map_err(refused_settings)?;
    }
    Ok((cut, tiles, Picture { height, width, rgb }))
}

/// The cosine of each token to one of them.
fn similarity(tokens: &[f32], len: usize, centre: usize) -> Vec<f32> {
    let dot = |a: &[f32], b: &[f32]| a.iter().zip(b).map(|(x, y)| x * y).sum::<f32>();
    let c = &tokens[centre * len..(centre + 1) * len];
    tokens.chunks_exact(len).map(|t| dot(t, c) / (dot(t, t) * dot(c, c)).sqrt().max(f32::MIN_POSITIVE)).collect()
}

/// The resize as the Rust has it: what restore is held to here.
fn resize(from: &Picture, height: usize, width: usize) -> Picture {
    let near = |i: usize, source: usize, target: usize| {
        let place = i as f64 * (source as f64 / target as f64);
        let first = (place.floor() as usize).min(source - 1);
        (first, (first + 1).min(source - 1), place - first as f64)
    };
    let mut rgb = Vec::with_capacity(height * width * 3);
    for y in 0..height {
        let (y0, y1, v) = near(y, from.height, height);
        for x in 0..width {
            let (x0, x1, u) = near(x, from.width, width);
            for c in 0..3 {
                let at = |y: usize, x: usize| f64::from(from.rgb[(y * from.width + x) * 3 + c]);
                let value = at(y0, x0) * (1.0 - u) * (1.0 - v)
                    + at(y0, x1) * u * (1.0 - v)
                    + at(y1, x0) * (1.0 - u) * v
                    + at(y1, x1) * u * v;
                rgb.push(value.round().clamp(0.0, 255.0) as u8);
            }
        }
    }
    Picture { height, width, rgb }
}

#[cfg(test)]
mod tests {
    use super::*;

    #[test]
    fn counts() {
        let said: Vec<String> = [0, 12, 999, 1000, 1728, 1_016_064].into_iter().map(thousands).collect();
        assert_eq!(said, ["0", "12", "999", "1,000", "1,728", "1,016,064"]);
        let picture = |height, width, last| {
            let mut rgb = vec![7; height * width * 3];
            rgb[height * width * 3 - 1] = last;
            Picture { height, width, rgb }
        };
        assert_eq!(differ(&picture(2, 3, 7), &picture(2, 3, 7)), 0);
        assert_eq!(differ(&picture(2, 3, 7), &picture(2, 3, 8)), 1);
        assert_eq!(differ(&picture(2, 3, 7), &picture(3, 2, 7)), 18);
    }
}
