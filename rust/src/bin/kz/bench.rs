//! `kz bench`: how long each call takes, here and in the Rust.

use crate::fail::Fail;
use crate::given::{Given, SMALL};
use crate::model::{parts, refused_settings, Lent, Model, Origin, Random, Tables};
use crate::{peer, room, say};
use kyzgultam::{BadSample, EncoderSettings, PictureSettings, Pool, Refusal};
use std::fs;
use std::hint::black_box;
use std::io::{stderr, Write};
use std::path::{Path, PathBuf};
use std::process::Command;
use std::time::{Duration, Instant};

pub const HELP: &str = "\
kz bench [--quick | --large]
kz bench --peer [--quick]
kz bench [--size HxW] [--weights FILE] [--tables FILE] [--settings LIST]

The first form runs the Rust (on one thread, with E and T) and the port on
the same inputs in the same run: preprocess, restore, and forward of a model
of real width at grids from 4x4 to 32x32. It prints times, ratios, each stage's
share and products a second, and how the time grows; one bit that differs ends
it with status 1. That takes five minutes; --quick has small grids and takes
one, --large has these and 64x64, with one layer, and takes ten. The Rust's
source is ../shared/docs/src from the repository's root, or KZ_RUST_SRC. In
turn with what they are like it times tile, salvage, forward by small tables,
bf16, add to a pool and weights of a file, then find in a pool and a header.

--peer runs that forward and PyTorch's in turn, on one thread each. Its bits
are others; vectors too far from ours end it with status 1. Its Python is
KZ_PYTHON, python3 or /usr/bin/python3; with no PyTorch it says so, status 0.

The last form, and the first where the source or rustc is missing, times the
port alone on noise, on one core: the best of the runs that fit into half a
second, at least one. `share` is the part of a sweep's time. Without --size
three sizes are timed, the largest without forward. The model is as for
`kz encode`. Then come tile to header as above, and restore of the largest by
mean and deviation of the Rust, 0.2 and 0.25, and 0.2 and 1e38 (by halving).
";

const ORACLE: &str = concat!(env!("CARGO_MANIFEST_DIR"), "/../oracle/run");
const ARCHIVES: &str = concat!(env!("CARGO_MANIFEST_DIR"), "/../archives");
/// The archives that this program was linked with (build.rs). Beside those of all levels stand those of each.
const LINKED: &str = env!("KZ_LINKED");
/// What oracle/run ends with where it has no Rust to compare with.
const SKIPPED: i32 = 3;

/// More patches than this are not handed to forward unless they are asked for.
const MANY: usize = 2000;

pub fn run(given: &Given) -> Result<(), Fail> {
    if !given.files.is_empty() {
        return Err(Fail::usage("bench takes no files"));
    }
    let grids = match (given.quick, given.large) {
        (false, false) => None,
        (true, false) => Some("--quick"),
        (false, true) => Some("--large"),
        (true, true) => return Err(Fail::usage("--quick has small grids and --large a large one; give one")),
    };
    if let (Some(word), true) = (grids, given.has_options()) {
        return Err(Fail::usage(format!("{word} goes with no other option")));
    }
    if given.peer {
        if given.large || given.has_options() {
            return Err(Fail::usage("--peer goes with no other option but --quick"));
        }
        return peer::run(given.quick);
    }
    if !given.has_options() && beside_the_rust(grids)? {
        return Ok(());
    }
    alone(given)
}

/// Times the port and the Rust in turn, forward at the grids that a word picks; false where there is no Rust to time.
fn beside_the_rust(grids: Option<&str>) -> Result<bool, Fail> {
    let Ok(oracle) = fs::canonicalize(ORACLE) else {
        let _ = writeln!(stderr(), "kz: comparison with the Rust skipped: there is no {ORACLE}");
        return Ok(false);
    };
    let archives = running()?;
    for program in ["picture", "encoder"] {
        let mut words = vec![program, "--bench"];
        if program == "encoder" {
            words.extend(grids);
            tiles()?;
            say(format_args!(""));
            salvages()?;
            say(format_args!(""));
            tables()?;
            say(format_args!(""));
            packs()?;
            say(format_args!(""));
            pools()?;
            say(format_args!(""));
            loads()?;
            say(format_args!(""));
        }
        let status = Command::new(&oracle).arg(&archives).args(&words).status();
        let status = status.map_err(|e| Fail::file(&oracle, format!("cannot be run: {e}; check it out again")))?;
        match status.code() {
            Some(0) => {}
            Some(SKIPPED) => return Ok(false),
            _ => return Err(Fail::file(&oracle, format!("{program} ended with {status}; its own words are above"))),
        }
    }
    Ok(true)
}

/// The archives of the running level alone, with the names that oracle/run links; made where they are not there yet.
fn running() -> Result<PathBuf, Fail> {
    let linked = PathBuf::from(LINKED);
    let Ok(Some(level)) = kyzgultam::level() else { return Ok(linked) };
    let folder = linked.with_file_name(level.name());
    if !folder.join("libkyzgultam.a").is_file() && fs::canonicalize(ARCHIVES).is_ok() {
        let made = Command::new(ARCHIVES).arg(level.name()).status();
        let made =
            made.map_err(|e| Fail::file(Path::new(ARCHIVES), format!("cannot be run: {e}; check it out again")))?;
        if !made.success() {
            return Err(Fail::file(Path::new(ARCHIVES), format!("ended with {made}; its own words are above")));
        }
    }
    Ok(folder)
}

/// Times the port by itself.
fn alone(given: &Given) -> Result<(), Fail> {
    let asked = given.sides("--size")?;
    let model = Model::read(given)?;
    let s = model.settings;
    say(format_args!(
        "hidden {}, {} heads of {}, {} layers, intermediate {}, text {}{}, patch {}, merge {}, image {}, rule {}",
        s.hidden_size,
        s.num_heads,
        s.head_dim,
        s.num_layers,
        s.intermediate_size,
        s.text_hidden_size,
        if s.projector_bias { " with bias" } else { "" },
        s.picture.patch_size,
        s.picture.spatial_merge_size,
        s.picture.image_size,
        s.picture.resize_rule
    ));
    let PictureSettings { mean, deviation, .. } = PictureSettings::default();
    if (s.picture.mean, s.picture.deviation) == (mean, deviation) {
        say(format_args!("mean and deviation as in the Rust"));
    } else {
        let channels = |numbers: [f32; 3]| numbers.map(|number| format!("{number:?}")).join("/");
        say(format_args!("mean {}, deviation {}", channels(s.picture.mean), channels(s.picture.deviation)));
    }
    say(format_args!("{:<11} {:<9} {:<11} {:>11} {:>17} {:>7}", "picture", "patches", "call", "time", "rate", "share"));
    let sizes = asked.map_or(vec![(280, 280), (490, 650), (1540, 1540)], |size| vec![size]);
    for (height, width) in &sizes {
        sweep(&model, *height, *width, asked.is_some())?;
    }
    say(format_args!(""));
    tiles()?;
    say(format_args!(""));
    salvages()?;
    say(format_args!(""));
    tables()?;
    say(format_args!(""));
    packs()?;
    say(format_args!(""));
    pools()?;
    say(format_args!(""));
    loads()?;
    let (height, width) = sizes[sizes.len() - 1];
    choices(&s.picture, height, width)
}

/// A picture of noise, and room for its patches and for what they bring back.
struct Buffers {
    rgb: Vec<u8>,
    patches: Vec<f32>,
    back: Vec<u8>,
}

impl Buffers {
    fn new(settings: &PictureSettings, height: usize, width: usize) -> Result<Buffers, Fail> {
        let floats = settings.patches_len(height, width).map_err(refused_settings)?;
        let advice = "give a smaller --size or --settings";
        let of = |what: &str| format!("{what} of {height}x{width} pixels (image={})", settings.image_size);
        let patches = room::zeros(floats, &of("the patches"), advice).map_err(Fail::Refused)?;
        let back = room::zeros(floats, &of("the restored picture"), advice).map_err(Fail::Refused)?;
        let mut rgb: Vec<u8> = room::empty(height * width * 3, &of("a picture"), advice).map_err(Fail::Refused)?;
        let mut random = Random::new(1);
        rgb.extend((0..height * width * 3).map(|_| (random.float() * 127.0 + 128.0) as u8));
        Ok(Buffers { rgb, patches, back })
    }
}

/// Sides of a sweep whose first tile is as large as the default settings have them.
const OVERSIZE: (usize, usize) = (3000, 2000);

/// Times a tile, and in turn a picture of the same pixels, which is not resized either.
fn tiles() -> Result<(), Fail> {
    let (settings, (height, width)) = (PictureSettings::default(), OVERSIZE);
    let side = kyzgultam::cut(height, width, &settings).map_err(refused_settings)?.side;
    let advice = "try it again where there is more";
    let Buffers { rgb, .. } = Buffers::new(&settings, height, width)?;
    let floats = settings.tile_len(height, width, 0).map_err(refused_settings)?;
    let mut tile = room::zeros(floats, "the patches of a tile", advice).map_err(Fail::Refused)?;
    let mut joined = room::zeros(rgb.len(), "the joined sweep", advice).map_err(Fail::Refused)?;
    let Buffers { rgb: mut own, mut patches, mut back } = Buffers::new(&settings, side, side)?;
    for (y, row) in own.chunks_exact_mut(3 * side).enumerate() {
        row.copy_from_slice(&rgb[3 * y * width..][..3 * side]);
    }
    let cut = in_turn(
        || kyzgultam::preprocess_tile(&rgb, height, width, 0, &settings, &mut tile).map(drop),
        || kyzgultam::pixtral_preprocess(&own, side, side, &settings, &mut patches).map(drop),
    );
    let (grid_h, grid_w) = settings.grid(side, side).map_err(refused_settings)?;
    let restored = in_turn(
        || kyzgultam::restore_tile(&tile, height, width, 0, &settings, &mut joined).map(drop),
        || kyzgultam::restore(&patches, grid_h, grid_w, &settings, &mut back).map(drop),
    );
    say(format_args!("{:<24}{:>10}{:>10}", format!("tile 0 of {height}x{width}, ms"), "tile", "picture"));
    for (call, times) in [("preprocess", cut), ("restore", restored)] {
        let [tile, picture] = times.map_err(refused_settings)?.map(|time| time.as_secs_f64() * 1e3);
        let name = format!("{call} {side}x{side}");
        say(format_args!("{name:<24}{tile:>10.2}{picture:>10.2}   {:.3} times as long", tile / picture));
    }
    let same = tile.iter().zip(&patches).all(|(a, b)| a.to_bits() == b.to_bits());
    let mut rows = joined.chunks_exact(3 * width).zip(rgb.chunks_exact(3 * width)).take(side);
    if !same || back != own || rows.any(|(a, b)| a[..3 * side] != b[..3 * side]) {
        return Err(Fail::Refused("the tile is not as the picture of its pixels: this is a fault, report it".into()));
    }
    Ok(())
}

/// Times salvage of patches of which no sample is bad, and of which every one is, each in turn with restore of the good
/// ones: of the others restore knows at the first sample that it refuses them.
fn salvages() -> Result<(), Fail> {
    let settings = PictureSettings::default();
    let side = settings.image_size;
    let Buffers { rgb, mut patches, mut back } = Buffers::new(&settings, side, side)?;
    let cut = kyzgultam::pixtral_preprocess(&rgb, side, side, &settings, &mut patches).map_err(refused_settings)?;
    let advice = "try it again where there is more";
    let mut damaged = room::empty(patches.len(), "the damaged patches", advice).map_err(Fail::Refused)?;
    // By these settings no two bytes' samples are one bit apart.
    damaged.extend(patches.iter().map(|sample| f32::from_bits(sample.to_bits() ^ 1)));
    let mut list: Vec<BadSample> = room::zeros(patches.len(), "the bad samples", advice).map_err(Fail::Refused)?;
    let mut saved = room::zeros(rgb.len(), "the salvaged picture", advice).map_err(Fail::Refused)?;
    say(format_args!("{:<24}{:>10}{:>10}", format!("salvage {side}x{side}, ms"), "salvage", "restore"));
    for (name, given, bad) in [("no sample bad", &patches, 0), ("every sample bad", &damaged, damaged.len())] {
        let mut found = Ok(0);
        let times = in_turn(
            || {
                let salvaged = kyzgultam::salvage(given, cut.grid_h, cut.grid_w, &settings, &mut saved, &mut list);
                found = salvaged.map(|salvaged| salvaged.bad);
                found.map(drop)
            },
            || kyzgultam::restore(&patches, cut.grid_h, cut.grid_w, &settings, &mut back).map(drop),
        );
        let [salvage, restore] = times.map_err(refused_settings)?.map(|time| time.as_secs_f64() * 1e3);
        say(format_args!("{name:<24}{salvage:>10.2}{restore:>10.2}   {:.3} times as long", salvage / restore));
        let right = if bad == 0 { saved == rgb } else { saved.iter().all(|byte| *byte == 0) };
        if found != Ok(bad) || !right || back != rgb {
            return Err(Fail::Refused("salvage does not give the picture back: this is a fault, report it".into()));
        }
    }
    Ok(())
}

/// Times forward by small tables, in turn with forward by the full ones that they stand for: of the built-in model, and
/// of one layer of real width.
fn tables() -> Result<(), Fail> {
    let wide = EncoderSettings { num_layers: 1, text_hidden_size: 1024, ..EncoderSettings::default() };
    say(format_args!("{:<24}{:>10}{:>10}", "forward by tables, ms", "small", "full"));
    for (settings, side) in [(SMALL, 20), (wide, 8)] {
        let model = Model::of(settings, Origin::Seed, None)?;
        let full = Tables::full(&settings)?;
        let pixels = settings.picture.patch_size * side;
        let Buffers { rgb, mut patches, .. } = Buffers::new(&settings.picture, pixels, pixels)?;
        kyzgultam::pixtral_preprocess(&rgb, pixels, pixels, &settings.picture, &mut patches)
            .map_err(refused_settings)?;
        let (mut one, mut two) = (Lent::default(), Lent::default());
        model.lend((side, side), &mut one).and_then(|()| model.lend((side, side), &mut two)).map_err(Fail::Refused)?;
        let times = in_turn(
            || model.forward(&patches, (side, side), &mut one),
            || model.forward_by(&full, &patches, (side, side), &mut two),
        );
        let [small, full] = times.map_err(refused_settings)?.map(|time| time.as_secs_f64() * 1e3);
        let name = format!("hidden {}, grid {side}x{side}", settings.hidden_size);
        say(format_args!("{name:<24}{small:>10.2}{full:>10.2}   {:.3} of the speed", full / small));
        if one.tokens.iter().zip(&two.tokens).any(|(a, b)| a.to_bits() != b.to_bits()) {
            return Err(Fail::Refused(
                "small and full tables give different vectors: this is a fault, report it".into(),
            ));
        }
    }
    Ok(())
}

/// Times packing and widening, each in turn with a plain copy that reads and writes as many bytes.
fn packs() -> Result<(), Fail> {
    say(format_args!("{:<24}{:>10}{:>10}", "bf16, GB/s", "bf16", "copy"));
    for (size, floats) in [("32 KiB", 1 << 13), ("64 MiB", 1 << 24)] {
        let advice = "try it again where there is more";
        let mut wide = room::empty(floats, "floats", advice).map_err(Fail::Refused)?;
        wide.extend((0..floats as u32).map(|i| f32::from_bits(0x3F80_0000 | (i.wrapping_mul(0x9E37_79B9) >> 9))));
        let mut packed = room::zeros(floats, "packed floats", advice).map_err(Fail::Refused)?;
        let mut back = room::zeros(floats, "floats widened", advice).map_err(Fail::Refused)?;
        let bytes = 3 * floats;
        let from: Vec<u8> = room::zeros(bytes, "bytes to copy", advice).map_err(Fail::Refused)?;
        let mut to = room::zeros(bytes, "a copy", advice).map_err(Fail::Refused)?;
        let mut copy = || {
            to.copy_from_slice(black_box(&from));
            black_box(&to);
            Ok::<(), Refusal>(())
        };
        let pack = in_turn(
            || {
                black_box(kyzgultam::bf16_pack_all(black_box(&wide), &mut packed));
                Ok(())
            },
            &mut copy,
        );
        let widen = in_turn(
            || {
                black_box(kyzgultam::bf16_widen_all(black_box(&packed), &mut back));
                Ok(())
            },
            &mut copy,
        );
        for (name, times) in [("pack", pack), ("widen", widen)] {
            let [ours, copied] = times.map_err(refused_settings)?.map(|t| 2.0 * bytes as f64 / t.as_secs_f64() / 1e9);
            let name = format!("{name} of {size}");
            say(format_args!("{name:<24}{ours:>10.2}{copied:>10.2}   {:.3} times as fast", ours / copied));
        }
        if wide.iter().zip(&back).any(|(x, y)| kyzgultam::bf16(*x).to_bits() != y.to_bits()) {
            return Err(Fail::Refused("widening does not give the rounded floats: this is a fault, report it".into()));
        }
    }
    Ok(())
}

/// Floats of a pool's slice: 64 MB.
const POOLED: usize = 16_000_000;

/// Times add to a pool behind the last result, and add that slides 64 MB down first, each in turn with a copy of as many
/// bytes, within the slice where it slides; and find of each of 64 keys.
fn pools() -> Result<(), Fail> {
    let advice = "try it again where there is more";
    let mut slice = room::zeros(POOLED, "a pool", advice).map_err(Fail::Refused)?;
    let mut to: Vec<f32> = room::zeros(POOLED, "a copy", advice).map_err(Fail::Refused)?;
    let mut vectors = room::empty(POOLED, "vectors", advice).map_err(Fail::Refused)?;
    vectors.extend((0..POOLED).map(|i| i as f32));
    let added = in_turn(
        || Pool::new(&mut slice).add(0, black_box(&vectors)),
        || {
            to.copy_from_slice(black_box(&vectors));
            black_box(&to);
            Ok(())
        },
    );
    let slid = slides(&mut slice, &mut to, &vectors);
    say(format_args!("{:<24}{:>10}{:>10}", "pool of 64 MB, ms", "add", "copy"));
    for (name, times) in [("behind the last", added), ("after a slide of all", slid)] {
        let [add, copy] = times.map_err(refused_settings)?.map(|time| time.as_secs_f64() * 1e3);
        say(format_args!("{name:<24}{add:>10.2}{copy:>10.2}   {:.3} times as long", add / copy));
    }
    let mut pool = Pool::new(&mut slice);
    for key in 0..64 {
        pool.add(key, &vectors[..1024]).map_err(refused_settings)?;
    }
    let rounds = 1000;
    let time = best(|| {
        for key in (0..64).cycle().take(64 * rounds) {
            black_box(pool.find(black_box(key))?);
        }
        Ok(())
    });
    let each = time.map_err(refused_settings)?.as_secs_f64() * 1e9 / (64 * rounds) as f64;
    say(format_args!("{:<24}{each:>10.1}", "find in 64 keys, ns"));
    Ok(())
}

/// Times the weights of a safetensors file, in turn with a copy of as many bytes as are written; and the search of a header
/// of 24 layers, up to the refusal with 5.
fn loads() -> Result<(), Fail> {
    let advice = "try it again where there is more";
    let settings = EncoderSettings { num_layers: 1, text_hidden_size: 1024, ..EncoderSettings::default() };
    let len = settings.weights_len().map_err(refused_settings)?;
    let mut floats = room::zeros(len, "weights", advice).map_err(Fail::Refused)?;
    let from: Vec<f32> = room::zeros(len, "floats to copy", advice).map_err(Fail::Refused)?;
    let mut to = room::zeros(len, "a copy", advice).map_err(Fail::Refused)?;
    say(format_args!("{:<24}{:>10}{:>10}", format!("weights of {} MB, ms", 4 * len / 1_000_000), "weights", "copy"));
    // A half of 0x3C00 is 1, and so are the others.
    for (dtype, one) in [("F32", &[0, 0, 0x80, 0x3F][..]), ("BF16", &[0x80, 0x3F]), ("F16", &[0, 0x3C])] {
        let image = image(&settings, dtype, one, len).map_err(Fail::Refused)?;
        floats.fill(0.0);
        let times = in_turn(
            || kyzgultam::weights(&settings, black_box(&image), &mut floats).map(drop).map_err(|r| r.refusal),
            || {
                to.copy_from_slice(black_box(&from));
                black_box(&to);
                Ok(())
            },
        );
        let [load, copy] = times.map_err(refused_settings)?.map(|time| time.as_secs_f64() * 1e3);
        say(format_args!("{dtype:<24}{load:>10.2}{copy:>10.2}   {:.3} of the speed", copy / load));
        if floats.iter().any(|x| *x != 1.0) {
            return Err(Fail::Refused("the weights are not those of the file: this is a fault, report it".into()));
        }
    }
    let settings = EncoderSettings { num_layers: 24, ..settings };
    // The largest tensor, of which each other has a part.
    let most = parts(&settings).map(|(out, inputs)| out * inputs.max(1)).max().unwrap_or(0);
    let image = image(&settings, "BF16", &[0, 0], most).map_err(Fail::Refused)?;
    let time = best(|| match kyzgultam::weights(&settings, black_box(&image), &mut []) {
        Err(refused) if refused.refusal == Refusal::Output => Ok(()),
        Err(refused) => Err(refused.refusal),
        Ok(_) => Ok(()),
    });
    let each = time.map_err(refused_settings)?.as_secs_f64() * 1e3;
    let names = kyzgultam::tensor_names(&settings).len();
    say(format_args!("{:<24}{each:>10.3}", format!("header of {names}, ms")));
    Ok(())
}

/// A safetensors file with all tensors of one dtype, one behind the other in `count` values that are all alike; a tensor
/// that would pass their end lies at the front again.
fn image(settings: &EncoderSettings, dtype: &str, value: &[u8], count: usize) -> Result<Vec<u8>, String> {
    let mut begin = 0;
    let mut entries = vec![];
    for (name, (out, inputs)) in kyzgultam::tensor_names(settings).iter().zip(parts(settings)) {
        let size = out * inputs.max(1);
        begin = if begin + size > count { 0 } else { begin };
        let offsets = [begin, begin + size].map(|place| place * value.len());
        entries.push(format!("\"{name}\":{{\"dtype\":\"{dtype}\",\"shape\":[{size}],\"data_offsets\":{offsets:?}}}"));
        begin += size;
    }
    let header = format!("{{{}}}", entries.join(","));
    let len = 8 + header.len() + count * value.len();
    let mut image = room::empty(len, "a safetensors file", "try it again where there is more")?;
    image.extend((header.len() as u64).to_le_bytes());
    image.extend(header.as_bytes());
    image.extend(value.iter().cycle().take(count * value.len()));
    Ok(image)
}

/// The shortest of five adds for which all held results are slid down by sixteen floats, and of five such moves.
fn slides(slice: &mut [f32], to: &mut [f32], vectors: &[f32]) -> Result<[Duration; 2], Refusal> {
    let mut best = [Duration::MAX; 2];
    for _ in 0..5 {
        let mut pool = Pool::new(slice);
        pool.add(0, &vectors[..16])?;
        let rest = &vectors[16..];
        for (key, some) in rest.chunks(rest.len().div_ceil(62)).enumerate() {
            pool.add(key as u64 + 1, some)?;
        }
        pool.drop_key(0)?;
        let began = Instant::now();
        pool.add(0, black_box(&vectors[..16]))?;
        best[0] = best[0].min(began.elapsed());
        assert!(pool.find(1)?.iter().zip(rest).all(|(x, y)| x.to_bits() == y.to_bits()));
        let began = Instant::now();
        to.copy_within(16.., 0);
        black_box(&*to);
        best[1] = best[1].min(began.elapsed());
    }
    Ok(best)
}

/// The shortest run of each of two within a second. They take turns, and in being first too.
fn in_turn<E>(
    mut one: impl FnMut() -> Result<(), E>,
    mut two: impl FnMut() -> Result<(), E>,
) -> Result<[Duration; 2], E> {
    let start = Instant::now();
    let mut best = [Duration::MAX; 2];
    let mut turn = 0;
    while turn < 2 || start.elapsed() < Duration::from_secs(1) {
        for which in [turn % 2, 1 - turn % 2] {
            let began = Instant::now();
            if which == 0 {
                one()?;
            } else {
                two()?;
            }
            best[which] = best[which].min(began.elapsed());
        }
        turn += 1;
    }
    Ok(best)
}

/// Times restore by the Rust's means and deviations, and by two choices that are the same in all channels.
fn choices(settings: &PictureSettings, height: usize, width: usize) -> Result<(), Fail> {
    let Buffers { rgb, mut patches, mut back } = Buffers::new(settings, height, width)?;
    let PictureSettings { mean, deviation, .. } = PictureSettings::default();
    let head = format!("restore of {height}x{width} by mean and deviation");
    say(format_args!("\n{head:<42} {:>11} {:>26}", "time", "rate"));
    for (name, mean, deviation) in [
        ("the Rust's", mean, deviation),
        ("0.2 and 0.25, for grey ultrasound", [0.2; 3], [0.25; 3]),
        // 255 × 1e38 is infinite in f32: no product leads back to the byte.
        ("0.2 and 1e38, bytes found by halving", [0.2; 3], [1e38; 3]),
    ] {
        let settings = PictureSettings { mean, deviation, ..*settings };
        let cut = kyzgultam::pixtral_preprocess(&rgb, height, width, &settings, &mut patches);
        let cut = cut.map_err(refused_settings)?;
        let time = best(|| kyzgultam::restore(&patches, cut.grid_h, cut.grid_w, &settings, &mut back).map(drop));
        let seconds = time.map_err(refused_settings)?.as_secs_f64();
        let rate = back.len() as f64 / 1e6 / seconds;
        say(format_args!("{name:<42} {:>8.2} ms {rate:>7.1} MB of RGB a second", seconds * 1e3));
    }
    Ok(())
}

fn sweep(model: &Model, height: usize, width: usize, all: bool) -> Result<(), Fail> {
    let settings = model.settings.picture;
    let Buffers { rgb, mut patches, mut back } = Buffers::new(&settings, height, width)?;
    let (grid_h, grid_w) = settings.grid(height, width).map_err(refused_settings)?;
    let mut lent = Lent::default();

    let mut times = vec![];
    times.push((
        "preprocess",
        best(|| kyzgultam::pixtral_preprocess(&rgb, height, width, &settings, &mut patches).map(drop)),
    ));
    if all || grid_h * grid_w <= MANY {
        model.lend((grid_h, grid_w), &mut lent).map_err(Fail::Refused)?;
        times.push(("forward", best(|| model.forward(&patches, (grid_h, grid_w), &mut lent))));
    }
    times.push(("restore", best(|| kyzgultam::restore(&patches, grid_h, grid_w, &settings, &mut back).map(drop))));

    let mut total = 0.0;
    for (_, time) in &times {
        total += time.as_ref().map_err(|r| refused_settings(*r))?.as_secs_f64();
    }
    let (picture, grid) = (format!("{height}x{width}"), format!("{grid_h}x{grid_w}"));
    for (call, time) in times {
        let seconds = time.map_err(refused_settings)?.as_secs_f64();
        let rate = (grid_h * grid_w) as f64 / seconds;
        say(format_args!(
            "{picture:<11} {grid:<9} {call:<11} {:>8.2} ms {rate:>9.0} patches/s {:>5.1} %",
            seconds * 1e3,
            100.0 * seconds / total
        ));
    }
    Ok(())
}

/// The shortest of the runs that fit into half a second.
fn best<E>(mut run: impl FnMut() -> Result<(), E>) -> Result<Duration, E> {
    let start = Instant::now();
    let mut best = Duration::MAX;
    while best == Duration::MAX || start.elapsed() < Duration::from_millis(500) {
        let one = Instant::now();
        run()?;
        best = best.min(one.elapsed());
    }
    Ok(best)
}
