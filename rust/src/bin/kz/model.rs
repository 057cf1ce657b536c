//! Settings, weights and tables, from files or built in.

use crate::fail::{numbered, Fail};
use crate::given::Given;
use crate::mapped::{Floats, Mapped};
use crate::ranges;
use crate::room;
use crate::shown::shown;
use crate::source::{unread, Source};
use crate::weights;
use kyzgultam::{
    forward, forward_axes, pixtral_preprocess, rope_axes, tensor_names, EncoderSettings, PictureSettings, Refusal,
    RopeAxes,
};
use std::path::{Path, PathBuf};

/// What forward is lent, from one sweep to the next.
#[derive(Default)]
pub struct Lent {
    scratch: Vec<f32>,
    pub tokens: Vec<f32>,
}

/// Rotary tables: those of a file are full, and those built in small.
pub enum Tables {
    Full { cos: Vec<f32>, sin: Vec<f32> },
    Axes(RopeAxes),
}

/// Where weights come from.
pub enum Origin {
    Seed,
    /// Plain floats.
    Floats(PathBuf),
    /// A safetensors file, and whether the projector has a bias, where that is said.
    Tensors(PathBuf, Option<bool>),
}

pub struct Model {
    pub settings: EncoderSettings,
    weights: Floats,
    pub tables: Tables,
    origin: Origin,
    /// The tables' file.
    file: Option<PathBuf>,
}

impl Tables {
    /// The full tables that the built-in ones stand for.
    pub fn full(s: &EncoderSettings) -> Result<Tables, Fail> {
        let (axes, len) = (built_in(s).map_err(refused_settings)?, s.tables_len().map_err(refused_settings)?);
        let (most, quarter) = (s.picture.image_size / s.picture.patch_size, s.head_dim / 4);
        let expand = |rows: &[f32], columns: &[f32]| {
            let mut table = table_room(s, len)?;
            for (row, column) in (0..most * most).map(|at| (at / most * quarter, at % most * quarter)) {
                for part in [&rows[row..], &columns[column..], &rows[row..], &columns[column..]] {
                    table.extend(&part[..quarter]);
                }
            }
            Ok(table)
        };
        Ok(Tables::Full {
            cos: expand(&axes.row_cos, &axes.column_cos)?,
            sin: expand(&axes.row_sin, &axes.column_sin)?,
        })
    }

    /// The first float of a file that is not finite. Those built in are.
    fn odd(&self) -> Option<usize> {
        match self {
            Tables::Full { cos, sin } => odd(cos).or(odd(sin).map(|i| cos.len() + i)),
            Tables::Axes(_) => None,
        }
    }
}

/// The first float that is not finite.
fn odd(floats: &[f32]) -> Option<usize> {
    floats.iter().position(|x| !x.is_finite())
}

impl Model {
    pub fn read(given: &Given) -> Result<Model, Fail> {
        let origin = match (given.path("--weights"), given.path("--model")) {
            (Some(_), Some(_)) => return Err(Fail::usage("--model has a model.safetensors; leave out --weights")),
            (Some(file), None) => Origin::Floats(file),
            (None, Some(folder)) => Origin::Tensors(single(&folder)?, given.bias()?),
            (None, None) => Origin::Seed,
        };
        Model::of(given.settings()?, origin, given.path("--tables"))
    }

    /// Weights and tables from files, or built in.
    pub fn of(settings: EncoderSettings, origin: Origin, file: Option<PathBuf>) -> Result<Model, Fail> {
        allowed(&settings.picture)?;
        let merge = settings.picture.spatial_merge_size;
        let lengths = match settings.lengths(merge, merge) {
            // No grid is allowed: each picture is refused with 4, before the model is used.
            Err(Refusal::Grid) => {
                let tables = Tables::Axes(RopeAxes::default());
                return Ok(Model { settings, weights: Floats::Held(vec![]), tables, origin, file });
            }
            Err(Refusal::Setting) => return Err(refused_setting(ranges::encoder(&settings))),
            lengths => lengths.map_err(refused_settings)?,
        };
        let room = || weights_room(&settings, lengths.weights);
        let (settings, weights) = match &origin {
            Origin::Seed => (settings, Floats::Held(seeded(&settings, room()?))),
            Origin::Floats(file) => (settings, plain_weights(file, lengths.weights, room)?),
            Origin::Tensors(file, bias) => {
                let (settings, weights) = weights::read(settings, *bias, file)?;
                (settings, Floats::Held(weights))
            }
        };
        let room = || table_room(&settings, lengths.tables);
        let order = ", the cosines and then the sines";
        let tables = match &file {
            Some(file) => {
                let [cos, sin] = floats(file, lengths.tables, room, Refusal::TableLength, order)?;
                Tables::Full { cos, sin }
            }
            None => Tables::Axes(built_in(&settings).map_err(refused_settings)?),
        };
        Ok(Model { settings, weights, tables, origin, file })
    }

    /// The weights in their order.
    pub fn weights(&self) -> &[f32] {
        &self.weights
    }

    /// Room for the token vectors and the scratch of a grid; words where there is none.
    pub fn lend(&self, grid: (usize, usize), lent: &mut Lent) -> Result<(), String> {
        let s = self.settings;
        let lengths = s.lengths(grid.0, grid.1).map_err(|refusal| numbered(refusal, RANGES))?;
        let of = format!("of its grid of {}x{} patches", grid.0, grid.1);
        let (hidden, intermediate, text) = (s.hidden_size, s.intermediate_size, s.text_hidden_size);
        let sizes = format!("text={text}, image={}", s.picture.image_size);
        room::fit(&mut lent.tokens, lengths.out, &format!("the token vectors {of} ({sizes})"), SMALLER)?;
        let sizes = format!("hidden={hidden}, intermediate={intermediate}, {sizes}");
        room::fit(&mut lent.scratch, lengths.scratch, &format!("the scratch {of} ({sizes})"), SMALLER)
    }

    /// The token vectors of patches, to what was lent for their grid.
    pub fn forward(&self, patches: &[f32], grid: (usize, usize), lent: &mut Lent) -> Result<(), Refusal> {
        self.forward_by(&self.tables, patches, grid, lent)
    }

    /// The same by other tables.
    pub fn forward_by(
        &self,
        tables: &Tables,
        patches: &[f32],
        (h, w): (usize, usize),
        Lent { scratch, tokens }: &mut Lent,
    ) -> Result<(), Refusal> {
        let Model { settings, weights, .. } = self;
        let done = match tables {
            Tables::Full { cos, sin } => forward(settings, patches, h, w, weights, cos, sin, scratch, tokens),
            Tables::Axes(axes) => forward_axes(settings, patches, h, w, weights, axes, scratch, tokens),
        };
        done.map(drop)
    }

    /// Whether all weights and the tables of a file are finite. If not, every sweep is refused with 12.
    pub fn is_finite(&self) -> bool {
        odd(&self.weights).is_none() && self.tables.odd().is_none()
    }

    /// Whether the weights are still those that were read; words where they are not.
    pub fn unchanged(&self) -> Result<(), String> {
        match (&self.weights, &self.origin) {
            (Floats::Mapped(mapped), Origin::Floats(file)) if !mapped.unchanged() => {
                Err(format!("{} was changed while it was in use; {REPLACE}", shown(file)))
            }
            _ => Ok(()),
        }
    }

    /// What to do about a refusal of `forward`.
    pub fn advice(&self, refusal: Refusal) -> String {
        let tables = self.tables.odd();
        let plain = |file: &Path, i: usize| format!("float {i} of {} is not; write that file again", shown(file));
        match (refusal, odd(&self.weights), tables) {
            (Refusal::NotFinite, Some(i), _) => match &self.origin {
                Origin::Seed => "the built-in weights are too large for these --settings; give --weights".into(),
                Origin::Floats(file) => plain(file, i),
                Origin::Tensors(file, _) => {
                    let (name, i) = self.tensor(i);
                    format!("value {i} of {name} in {} is not; write that file again", shown(file))
                }
            },
            (Refusal::NotFinite, _, Some(i)) => plain(self.file.as_deref().unwrap_or(Path::new("")), i),
            (Refusal::NotFinite, ..) => "all inputs are: the weights are too large for a stage".into(),
            _ => "look at --settings".into(),
        }
    }

    /// The tensor in which a weight stands, and its place there.
    fn tensor(&self, mut i: usize) -> (String, usize) {
        for (name, (out, inputs)) in tensor_names(&self.settings).into_iter().zip(parts(&self.settings)) {
            let count = out * inputs.max(1);
            if i < count {
                return (name, i);
            }
            i -= count;
        }
        ("the weights".into(), i)
    }
}

/// The file with all weights of a model's folder.
fn single(folder: &Path) -> Result<PathBuf, Fail> {
    let (file, index) = (folder.join("model.safetensors"), folder.join("model.safetensors.index.json"));
    if !file.exists() && index.exists() {
        let words = format!("is not there, and by {} the model is in several; write them to one", shown(&index));
        return Err(Fail::file(&file, words));
    }
    Ok(file)
}

const REPLACE: &str = "replace such a file, as by `mv`, and do not write over it";
const RANGES: &str = "`kz encode --help` has the ranges";
const CHANNELS: &str = "give another mean= or deviation=, as mean=0.2,deviation=0.25, or leave both out";
const SMALLER: &str = "give smaller --settings";

pub fn refused_settings(refusal: Refusal) -> Fail {
    let advice = if refusal == Refusal::Channel { CHANNELS } else { RANGES };
    Fail::Refused(format!("--settings: {}", numbered(refusal, advice)))
}

/// Settings that are refused with 1, and which of them is not allowed, where that is known.
pub fn refused_setting(which: Option<String>) -> Fail {
    let advice = which.map_or(RANGES.into(), |which| format!("{which}; {RANGES}"));
    Fail::Refused(format!("--settings: {}", numbered(Refusal::Setting, advice)))
}

/// Refuses what no picture is cut or restored with. 1 and 19 come before the number of sides that no picture has.
pub fn allowed(settings: &PictureSettings) -> Result<(), Fail> {
    match pixtral_preprocess(&[], 0, 0, settings, &mut []) {
        Err(Refusal::Setting) => Err(refused_setting(ranges::picture(settings))),
        Err(Refusal::Channel) => Err(refused_settings(Refusal::Channel)),
        _ => Ok(()),
    }
}

pub fn weights_room(s: &EncoderSettings, len: usize) -> Result<Vec<f32>, Fail> {
    let (hidden, layers, intermediate) = (s.hidden_size, s.num_layers, s.intermediate_size);
    let text = s.text_hidden_size;
    let what = format!("the weights (hidden={hidden}, layers={layers}, intermediate={intermediate}, text={text})");
    room::empty(len, &what, SMALLER).map_err(|words| Fail::Refused(format!("--settings: {words}")))
}

/// The tables of a Pixtral, as long as the settings have them.
fn built_in(s: &EncoderSettings) -> Result<RopeAxes, Refusal> {
    rope_axes(s.picture.image_size / s.picture.patch_size, s.head_dim, 10000.0)
}

fn table_room(s: &EncoderSettings, len: usize) -> Result<Vec<f32>, Fail> {
    let (image, patch, head) = (s.picture.image_size, s.picture.patch_size, s.head_dim);
    let what = format!("a rotary table (image={image}, patch={patch}, head={head})");
    room::empty(len, &what, SMALLER).map_err(|words| Fail::Refused(format!("--settings: {words}")))
}

/// The weights of a plain file: mapped, so that all runs on a machine share them, or read where that cannot be.
fn plain_weights(file: &Path, len: usize, room: impl Fn() -> Result<Vec<f32>, Fail>) -> Result<Floats, Fail> {
    if let Some(mapped) = Mapped::new(file, len) {
        return Ok(Floats::Mapped(mapped));
    }
    let [weights] = floats(file, len, room, Refusal::WeightsLength, "")?;
    Ok(Floats::Held(weights))
}

/// The floats of a file, in parts of one length, which is to have just these. Its length is tested first.
fn floats<const PARTS: usize>(
    file: &Path,
    len: usize,
    room: impl Fn() -> Result<Vec<f32>, Fail>,
    refusal: Refusal,
    order: &str,
) -> Result<[Vec<f32>; PARTS], Fail> {
    let count = PARTS * len;
    let needed = 4 * count as u64;
    let wrong = |found: String| {
        let asked = format!("these settings ask for {needed} ({count} floats of 4 bytes, little-endian{order})");
        Fail::call(file, refusal, format!("it has {found} bytes, and {asked}; give the file's own --settings"))
    };
    let mut source = Source::open(file)?;
    if let Some(found) = source.left().filter(|found| *found != needed) {
        return Err(wrong(found.to_string()));
    }
    let mut parts = [const { vec![] }; PARTS];
    let mut found = 0;
    for part in &mut parts {
        *part = room()?;
        part.resize(len, 0.0);
        found += source.floats(part).map_err(unread(file))? as u64;
    }
    if found < needed {
        return Err(wrong(found.to_string()));
    }
    if !source.ended().map_err(unread(file))? {
        return Err(wrong(format!("more than {needed}")));
    }
    Ok(parts)
}

pub struct Random(u64);

impl Random {
    pub fn new(seed: u64) -> Random {
        Random(seed)
    }

    fn next(&mut self) -> u64 {
        self.0 = self.0.wrapping_add(0x9E37_79B9_7F4A_7C15);
        let x = (self.0 ^ self.0 >> 30).wrapping_mul(0xBF58_476D_1CE4_E5B9);
        let x = (x ^ x >> 27).wrapping_mul(0x94D0_49BB_1331_11EB);
        x ^ x >> 31
    }

    /// From -1 up to 1.
    pub fn float(&mut self) -> f32 {
        (self.next() >> 40) as f32 / 8_388_608.0 - 1.0
    }
}

/// Outputs and inputs of each matrix, in the order of the weights; a norm has no inputs, and a bias is the matrix of one.
pub fn parts(s: &EncoderSettings) -> impl Iterator<Item = (usize, usize)> {
    let (h, i, x) = (s.hidden_size, s.intermediate_size, s.text_hidden_size);
    let (p, m) = (s.picture.patch_size, s.picture.spatial_merge_size);
    let layer = [(h, 0), (h, h), (h, h), (h, h), (h, h), (h, 0), (i, h), (i, h), (h, i)];
    let bias = s.projector_bias.then_some((x, 1));
    let last = [(h, 0), (h, h * m * m), (x, h)].into_iter().chain(bias).chain([(x, x)]).chain(bias);
    let layers = std::iter::repeat_n(layer, s.num_layers).flatten();
    [(h, 3 * p * p), (h, 0)].into_iter().chain(layers).chain(last)
}

/// Weights that keep values near 1 in size: norms of 1, and matrices even in ±√(3 / inputs). Those of patch_conv are
/// smooth over a patch, so that a token says more of brightness and slope than of grain. They have the same bits on every
/// machine.
fn seeded(s: &EncoderSettings, mut weights: Vec<f32>) -> Vec<f32> {
    let mut random = Random::new(14);
    weights.extend((0..s.hidden_size).flat_map(|_| smooth(&mut random, s.picture.patch_size)));
    for (out, inputs) in parts(s).skip(1) {
        let size = (3.0 / inputs as f32).sqrt();
        match inputs {
            0 => weights.extend((0..out).map(|_| 1.0)),
            _ => weights.extend((0..out * inputs).map(|_| random.float() * size)),
        }
    }
    weights
}

/// A row of patch_conv: 1, a slope and a bend down and across a patch, each by itself and by each other, the plainer ones
/// stronger, in each channel. They are Legendre's polynomials and no waves, since +, −, × and ÷ are rounded alike on
/// every machine, and a cosine is not.
fn smooth(random: &mut Random, p: usize) -> Vec<f32> {
    let sizes: [[f32; 3]; 3] = std::array::from_fn(|i| std::array::from_fn(|j| random.float() / (1 + i + j) as f32));
    let channels: [f32; 3] = std::array::from_fn(|_| 1.0 + 0.5 * random.float());
    let shapes = |x: usize| {
        let z = 1.0 - (2 * x + 1) as f32 / p as f32;
        [1.0, z, 1.5 * z * z - 0.5]
    };
    let value = |k: usize| {
        let (down, across) = (shapes(k / p % p), shapes(k % p));
        let sum: f32 = (0..9).map(|n| sizes[n / 3][n % 3] * down[n / 3] * across[n % 3]).sum();
        channels[k / (p * p)] * sum / (p * p) as f32
    };
    (0..3 * p * p).map(value).collect()
}
