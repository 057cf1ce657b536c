//! kz: sweeps to patches and token vectors, and back, from the command line.

mod alike;
mod alive;
mod bench;
mod caption;
mod compare;
mod completions;
mod config;
mod copies;
mod demo;
mod encode;
mod fail;
mod files;
mod found;
mod gather;
mod given;
mod inflate;
mod join;
mod json;
mod keys;
mod lists;
mod log;
mod mapped;
mod model;
mod nearest;
mod neighbours;
mod netpbm;
mod npy;
mod pace;
mod paint;
mod peer;
mod picture;
mod png;
mod png_read;
mod progress;
mod ranges;
mod restore;
mod room;
mod salvage;
mod shown;
mod source;
mod spoilt;
mod spot;
mod sums;
mod sweep;
mod sweeps;
mod table;
mod tiles;
mod turns;
mod version;
mod weights;

use fail::Fail;
use given::Given;
use std::ffi::OsString;
use std::fmt;
use std::io::{self, stderr, stdout, Write};
use std::path::Path;
use std::process::ExitCode;

const HELP: &str = "\
kz: the Pixtral image encoder, proved; from the command line

  kz demo [-o DIR]                      see it work: pictures to look at
  kz encode SWEEP.ppm .. -o DIR         token vectors of each sweep
  kz patches SWEEP.ppm .. -o DIR        patches of each sweep
  kz restore FILE.npy -o OUT.ppm        the picture that gave the patches
  kz salvage FILE.npy -o OUT.ppm        the picture of damaged patches
  kz compare A.ppm B.ppm [-o OUT.png]   equal patches; --tokens: nearest sweeps
  kz copies DIR                         which sweeps are copies of which
  kz nearest FILE.tokens.npy DIR        those most alike by their token vectors
  kz config CONFIG.json                 the settings that a config.json says
  kz weights FILE.safetensors -o OUT    a model's weights as plain floats
  kz bench                              how long each call takes
Pictures read are PNG or netpbm (P5, P6), patches and tokens .npy, weights and
tables plain f32. Sizes are HEIGHTxWIDTH; - is standard input or output.
  --settings LIST   as rule=2,mean=0.2,deviation=0.25 (`kz encode --help`)
  --model DIR, or --config, --weights, --tables FILE: encode's; else built in
  --tiles           for encode, patches and restore: not resized, but tiles
  --grid HxW        for restore and salvage of plain floats
  --jobs, --list, --shard, --log: many sweeps, for encode and patches
  --force           write over plain files that are there already
  --skip-existing   for encode and patches: take such files for done
`kz help COMMAND` says more; also `kz --version` and `kz completions bash`.
Exit status: 0 done, 1 refused (and why), 2 not understood, 3 unlike or copies.
";

type Command = (&'static str, &'static str, &'static [&'static str], fn(&Given) -> Result<(), Fail>);

const COMMANDS: [Command; 12] = [
    ("demo", demo::HELP, &["-o", "--force"], demo::run),
    (
        "encode",
        encode::ENCODE,
        &[
            "-o",
            "--tiles",
            "--weights",
            "--tables",
            "--model",
            "--config",
            "--settings",
            "--bf16",
            "--jobs",
            "--list",
            "--null",
            "--shard",
            "--log",
            "--force",
            "--skip-existing",
        ],
        encode::encode,
    ),
    (
        "patches",
        encode::PATCHES,
        &[
            "-o",
            "--tiles",
            "--settings",
            "--jobs",
            "--list",
            "--null",
            "--shard",
            "--log",
            "--force",
            "--skip-existing",
        ],
        encode::patches,
    ),
    ("restore", restore::HELP, &["-o", "--tiles", "--grid", "--settings", "--force"], restore::run),
    ("salvage", salvage::HELP, &["-o", "--map", "--all", "--grid", "--settings", "--force"], salvage::run),
    ("compare", compare::HELP, &["-o", "--tokens", "--settings", "--force"], compare::run),
    ("copies", copies::HELP, &["-o", "--all", "--json", "--settings", "--force"], copies::run),
    ("nearest", neighbours::HELP, &["--count", "--json"], neighbours::run),
    ("config", config::HELP, &["--settings"], config::run),
    ("weights", weights::HELP, &["-o", "--config", "--settings", "--force"], weights::run),
    (
        "bench",
        bench::HELP,
        &["--quick", "--large", "--peer", "--size", "--weights", "--tables", "--settings"],
        bench::run,
    ),
    ("completions", completions::HELP, &[], completions::run),
];

/// A line on standard output. That nobody reads it is no reason to stop.
fn say(line: fmt::Arguments) {
    let _ = writeln!(stdout(), "{line}");
}

/// A line on standard output that is the answer itself.
fn answer(line: fmt::Arguments) -> Result<(), Fail> {
    writeln!(stdout(), "{line}").and_then(|()| stdout().flush()).map_err(unsaid)
}

/// Where words about files go: to standard output, but to standard error where one of them is written there.
fn beside(files: &[&Path]) -> Box<dyn Write + Send> {
    if files.iter().any(|file| files::standard(file)) {
        Box::new(stderr())
    } else {
        Box::new(stdout())
    }
}

fn unsaid(e: io::Error) -> Fail {
    Fail::Refused(format!("standard output cannot be written: {e}"))
}

fn command(name: &OsString) -> Result<&'static Command, Fail> {
    let found = COMMANDS.iter().find(|(other, ..)| name == other);
    found.ok_or_else(|| Fail::usage(format!("no command {}", shown::shown(name))))
}

/// What kz is, or a command.
fn help(words: &[OsString]) -> Result<(), Fail> {
    let text = match words {
        [] => HELP,
        [name] => command(name)?.1,
        _ => return Err(Fail::usage("help takes one command")),
    };
    say(format_args!("{}", text.trim_end()));
    Ok(())
}

fn run(words: &[OsString]) -> Result<(), Fail> {
    let is = |word: &OsString, texts: &[&str]| texts.iter().any(|t| word == t);
    let Some((first, rest)) = words.split_first() else {
        return Err(Fail::usage("no command is given"));
    };
    if is(first, &["--help", "-h", "help"]) {
        return help(rest);
    }
    kyzgultam::level().map_err(|unknown| Fail::Refused(unknown.to_string()))?;
    if is(first, &["--version", "-V"]) {
        return answer(format_args!("{}", version::lines()));
    }
    let command = COMMANDS.iter().find(|(name, ..)| first == name);
    let (name, help, known, work) =
        command.ok_or_else(|| Fail::usage(format!("no command {}", shown::shown(first))))?;
    if rest.iter().take_while(|w| *w != "--").any(|w| is(w, &["--help", "-h"])) {
        say(format_args!("{}", help.trim_end()));
        return Ok(());
    }
    work(&Given::read(name, rest, known)?)
}

fn main() -> ExitCode {
    let words: Vec<OsString> = std::env::args_os().skip(1).collect();
    let (words, status) = match run(&words) {
        Ok(()) => return ExitCode::SUCCESS,
        Err(Fail::Found) => return ExitCode::from(3),
        Err(Fail::Usage(words)) => (format!("{words}; `kz --help` shows what there is"), 2),
        Err(fail) => (fail.words().to_string(), 1),
    };
    let _ = writeln!(stderr(), "kz: {words}");
    ExitCode::from(status)
}
