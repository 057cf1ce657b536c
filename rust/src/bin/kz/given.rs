//! What stands on the command line after the command.

use crate::fail::Fail;
use crate::model::refused_setting;
use crate::shown::shown;
use crate::{config, files, keys};
use kyzgultam::{EncoderSettings, PictureSettings};
use std::ffi::{OsStr, OsString};
use std::os::unix::ffi::OsStrExt;
use std::path::{Path, PathBuf};
use std::sync::OnceLock;

/// The options without a value.
const BARE: [&str; 11] = [
    "--all",
    "--bf16",
    "--force",
    "--json",
    "--large",
    "--null",
    "--peer",
    "--quick",
    "--skip-existing",
    "--tiles",
    "--tokens",
];

/// Whether a word is an option, known or not. A single - is a name.
fn dashed(word: &OsStr) -> bool {
    word.as_bytes().starts_with(b"-") && word.len() > 1
}

/// An option and, where it is joined by =, its value.
fn parted(word: &OsStr) -> (&OsStr, Option<&OsStr>) {
    let bytes = word.as_bytes();
    match bytes.iter().position(|b| *b == b'=') {
        Some(at) => (OsStr::from_bytes(&bytes[..at]), Some(OsStr::from_bytes(&bytes[at + 1..]))),
        None => (word, None),
    }
}

/// An option's value. One that looks like an option is refused: it is more often a value that was forgotten.
fn value_of(name: &str, value: Option<&OsStr>) -> Result<OsString, Fail> {
    match value {
        None => Err(Fail::usage(format!("{name} needs a value"))),
        Some(value) if dashed(value) => {
            let value = shown(value);
            let words = format!("{name} needs a value, and {value} looks like an option; a name is given as ./{value}");
            Err(Fail::usage(words))
        }
        Some(value) if value.is_empty() && name != "--settings" => {
            Err(Fail::usage(format!("{name} needs a value, and an empty one is given")))
        }
        Some(value) => Ok(value.to_os_string()),
    }
}

/// Files, and options with their values. An option with a value is given once.
#[derive(Default)]
pub struct Given {
    command: &'static str,
    pub files: Vec<PathBuf>,
    pub all: bool,
    pub bf16: bool,
    pub force: bool,
    pub json: bool,
    pub large: bool,
    pub null: bool,
    pub peer: bool,
    pub quick: bool,
    pub skip: bool,
    pub tiles: bool,
    pub tokens: bool,
    options: Vec<(&'static str, OsString)>,
    /// The settings, once they were asked for: a config.json may come from a pipe.
    known: OnceLock<EncoderSettings>,
}

/// The f32 nearest to 1 / root of head, for every head that is allowed, as is the Rust's powf with glibc's.
fn scale_of(head: usize) -> f32 {
    (1.0 / (head as f64).sqrt()) as f32
}

impl Given {
    /// What stands behind a command, which knows these options.
    pub fn read(command: &'static str, words: &[OsString], known: &[&'static str]) -> Result<Given, Fail> {
        let mut given = Given { command, ..Given::default() };
        let mut words = words.iter();
        while let Some(word) = words.next() {
            if word == "--" {
                given.files.extend(words.by_ref().map(PathBuf::from));
            } else if !dashed(word) {
                given.files.push(PathBuf::from(word));
            } else if BARE.iter().any(|bare| word == bare && known.contains(bare)) {
                given.all |= word == "--all";
                given.bf16 |= word == "--bf16";
                given.force |= word == "--force";
                given.json |= word == "--json";
                given.large |= word == "--large";
                given.null |= word == "--null";
                given.peer |= word == "--peer";
                given.quick |= word == "--quick";
                given.skip |= word == "--skip-existing";
                given.tiles |= word == "--tiles";
                given.tokens |= word == "--tokens";
            } else {
                let (name, joined) = parted(word);
                let name = if name == "--out" { OsStr::new("-o") } else { name };
                let known = known.iter().find(|k| name == **k && !BARE.contains(k));
                let name = *known.ok_or_else(|| Fail::usage(format!("no option {} here", shown(word))))?;
                if given.option(name).is_some() {
                    return Err(Fail::usage(format!("{name} is given twice")));
                }
                let value = joined.or_else(|| words.next().map(OsString::as_os_str));
                given.options.push((name, value_of(name, value)?));
            }
        }
        if given.force && given.skip {
            return Err(Fail::usage("--force writes over files and --skip-existing leaves them; give one"));
        }
        given.once()?;
        Ok(given)
    }

    /// Standard input and output, each of which is a single file, are given once.
    fn once(&self) -> Result<(), Fail> {
        let of = |names: &[&str]| names.iter().filter(|name| self.option(name).is_some_and(|v| v == "-")).count();
        let read = self.files.iter().filter(|file| files::standard(file)).count();
        if read + of(&["--weights", "--tables", "--config", "--list"]) > 1 {
            return Err(Fail::usage("- is standard input, which is read once, and it is given twice"));
        }
        if of(&["-o", "--map"]) > 1 {
            return Err(Fail::usage("- is standard output, which takes one file, and it is given twice"));
        }
        if of(&["--log"]) > 0 {
            return Err(Fail::usage("--log is to be a file, which is kept; a name is given as ./-"));
        }
        Ok(())
    }

    fn option(&self, name: &str) -> Option<&OsStr> {
        self.options.iter().find(|(n, _)| *n == name).map(|(_, value)| value.as_os_str())
    }

    /// Whether any option with a value is given.
    pub fn has_options(&self) -> bool {
        !self.options.is_empty()
    }

    pub fn path(&self, name: &str) -> Option<PathBuf> {
        self.option(name).map(PathBuf::from)
    }

    /// The path of an option that the command cannot do without.
    pub fn needed(&self, name: &str, what: &str) -> Result<PathBuf, Fail> {
        self.path(name).ok_or_else(|| Fail::usage(format!("{name} {what} is missing")))
    }

    /// A number from 1 on.
    pub fn number(&self, name: &str) -> Result<Option<usize>, Fail> {
        let Some(value) = self.option(name) else { return Ok(None) };
        let number = value.to_str().and_then(decimal).filter(|number| *number > 0);
        number.map(Some).ok_or_else(|| Fail::usage(format!("{name} takes a number from 1 on, not {}", shown(value))))
    }

    /// Two sides, as `2x4`.
    pub fn sides(&self, name: &str) -> Result<Option<(usize, usize)>, Fail> {
        let Some(value) = self.option(name) else { return Ok(None) };
        let sides = value.to_str().and_then(sides);
        sides.map(Some).ok_or_else(|| Fail::usage(format!("{name} takes HEIGHTxWIDTH, as 36x48")))
    }

    /// The settings of `--config` or `--model`, or the built-in model's, with those of `--settings` over them. Whether they
    /// are allowed the calls decide.
    pub fn settings(&self) -> Result<EncoderSettings, Fail> {
        if let Some(known) = self.known.get() {
            return Ok(*known);
        }
        let found = match (self.path("--config"), self.path("--model")) {
            (Some(_), Some(_)) => return Err(Fail::usage("--model has a config.json; leave out --config")),
            (Some(file), None) => self.configured(&file)?,
            (None, Some(folder)) => self.configured(&folder.join("config.json"))?,
            (None, None) => self.listed()?.settings,
        };
        Ok(*self.known.get_or_init(|| found))
    }

    /// Whether the projector has a bias, where `--settings` says it.
    pub fn bias(&self) -> Result<Option<bool>, Fail> {
        Ok(self.listed()?.bias)
    }

    /// The settings that a config.json says, with those of `--settings` that it does not say.
    pub fn configured(&self, file: &Path) -> Result<EncoderSettings, Fail> {
        let Listed { settings, scale, size, .. } = self.listed()?;
        if let Some(key) = size {
            return Err(Fail::usage(format!("--settings: {key} is what the config says; leave it out")));
        }
        let lent = EncoderSettings { scaling: scale.unwrap_or(1.0), ..settings };
        let s = config::settings(&lent, file)?;
        Ok(EncoderSettings { scaling: scale.unwrap_or(scale_of(s.head_dim)), ..s })
    }

    fn listed(&self) -> Result<Listed, Fail> {
        let mut s = SMALL;
        let mut size = None;
        let (mut head, mut bias, mut scale) = (None, None, None);
        let list = self.option("--settings").map(|v| v.to_string_lossy().into_owned()).unwrap_or_default();
        for (pair, key, value) in keys::pairs(&list, self.command)? {
            let bad = || keys::unread(pair);
            let number = || decimal(value).ok_or_else(bad);
            if keys::configured(key) {
                size = Some(key.to_string());
            }
            match key {
                "patch" => s.picture.patch_size = number()?,
                "merge" => s.picture.spatial_merge_size = number()?,
                "image" => s.picture.image_size = number()?,
                "rule" => s.picture.resize_rule = number()?,
                "mean" => s.picture.mean = channels(value).ok_or_else(bad)?,
                "deviation" => s.picture.deviation = channels(value).ok_or_else(bad)?,
                "hidden" => s.hidden_size = number()?,
                "heads" => s.num_heads = number()?,
                "head" => head = Some(number()?),
                "layers" => s.num_layers = number()?,
                "intermediate" => s.intermediate_size = number()?,
                "text" => s.text_hidden_size = number()?,
                "bias" => bias = Some(number()?),
                "scale" => scale = Some(value.parse().map_err(|_| bad())?),
                _ => return Err(bad()),
            }
        }
        // As the Rust reads its config: the head width is what the heads leave of the hidden size.
        s.head_dim = head.unwrap_or(s.hidden_size.checked_div(s.num_heads).unwrap_or(0));
        let bias = match bias {
            Some(number @ (0 | 1)) => Some(number == 1),
            Some(number) => return Err(refused_setting(Some(format!("bias={number} is neither 0 nor 1")))),
            None => None,
        };
        s.projector_bias = bias.unwrap_or(false);
        s.scaling = scale.unwrap_or(scale_of(s.head_dim));
        Ok(Listed { settings: s, scale, size, bias })
    }
}

/// What `--settings` says: with the built-in settings under it, and the scale, the last size and the bias that it names.
struct Listed {
    settings: EncoderSettings,
    scale: Option<f32>,
    size: Option<String>,
    bias: Option<bool>,
}

/// The model that is built in.
pub const SMALL: EncoderSettings = EncoderSettings {
    picture: PictureSettings::new(14, 2, 1540),
    hidden_size: 64,
    num_heads: 4,
    head_dim: 16,
    num_layers: 2,
    intermediate_size: 128,
    text_hidden_size: 64,
    projector_bias: false,
    scaling: 0.25,
};

pub fn decimal(text: &str) -> Option<usize> {
    (!text.is_empty() && text.bytes().all(|b| b.is_ascii_digit())).then(|| text.parse().ok()).flatten()
}

/// `0.2` for each of three channels, or `0.5/0.4/0.3` for one each.
fn channels(text: &str) -> Option<[f32; 3]> {
    let numbers: Option<Vec<f32>> = text.split('/').map(|number| number.parse().ok()).collect();
    match numbers?[..] {
        [all] => Some([all; 3]),
        [red, green, blue] => Some([red, green, blue]),
        _ => None,
    }
}

/// `2x4` as 2 and 4.
pub fn sides(text: &str) -> Option<(usize, usize)> {
    let (height, width) = text.split_once('x')?;
    Some((decimal(height)?, decimal(width)?))
}
