//! `kz bench --peer`: forward beside PyTorch, on the same inputs and in turn, in the processor's seconds.

use crate::fail::Fail;
use crate::files;
use crate::model::{refused_settings, Lent, Model, Origin, Random, Tables};
use crate::say;
use crate::shown::shown;
use kyzgultam::{EncoderSettings, PictureSettings};
use std::ffi::{c_long, OsStr, OsString};
use std::fs;
use std::io::{stderr, BufRead, BufReader, BufWriter, Read, Write};
use std::path::{Path, PathBuf};
use std::process::{Child, ChildStdin, ChildStdout, Command, Stdio};
use std::thread::sleep;
use std::time::Duration;

/// The model in PyTorch. Its head says how it is asked.
const SCRIPT: &str = concat!(env!("CARGO_MANIFEST_DIR"), "/../oracle/peer.py");
const INSTALL: &str = "on Debian `apt-get install python3-torch libopenblas0-pthread` installs it, and \
                       KZ_PYTHON names the interpreter that has it";

/// The model is that of `kz bench`, with tables for the largest grid.
const PATCH: usize = 14;
const SIDE: usize = 32;

/// Sides of grids, and how often each forward runs.
const GRIDS: &[(usize, usize)] = &[(4, 40), (16, 10), (SIDE, 5)];
const QUICK: &[(usize, usize)] = &[(4, 10), (8, 10)];

/// How far the token vectors may be apart, over the largest value. bf16 rounds after the patch projection, ln_pre and
/// each layer: a value near the middle of two of its own may go to the other one, which is a 256th away. By seven sets
/// of OpenBLAS's kernels they were 0.0001 to 0.0014 apart; by a scale that is a tenth less 0.036.
const APART: f32 = 0.005;

pub fn run(quick: bool) -> Result<(), Fail> {
    let mut peer = match start() {
        Ok(peer) => peer,
        Err(why) => {
            let _ = writeln!(stderr(), "kz: comparison with PyTorch skipped: {why}; {INSTALL}");
            return Ok(());
        }
    };
    let picture = PictureSettings::new(PATCH, 2, PATCH * SIDE);
    let s = EncoderSettings { picture, num_layers: 2, text_hidden_size: 1024, ..EncoderSettings::default() };
    let model = Model::of(s, Origin::Seed, None)?;
    let tables = Tables::full(&s)?;
    if let Tables::Full { cos, sin } = &tables {
        peer.model(&model, cos, sin)?;
    }
    let level = kyzgultam::level().ok().flatten().map_or(String::new(), |level| format!(" at {level}"));
    say(format_args!("ours{level}, and {}; one thread each, f32", peer.name));
    say(format_args!(
        "hidden {}, {} heads, intermediate {}, {} layers, patch {PATCH}, merge {}, text {}",
        s.hidden_size, s.num_heads, s.intermediate_size, s.num_layers, picture.spatial_merge_size, s.text_hidden_size
    ));
    say(format_args!("{:<24}{:>10}{:>10}", "processor seconds", "ours", "PyTorch"));
    for (side, rounds) in if quick { QUICK } else { GRIDS } {
        grid(&model, &tables, &mut peer, *side, *rounds)?;
    }
    say(format_args!(
        "PyTorch fuses and sums in another order, and so has other bits: its vectors are to be at most {APART} apart \
         from ours, by their largest difference over the largest value"
    ));
    Ok(())
}

/// Times the forward of a square grid in both, and compares their vectors.
fn grid(model: &Model, tables: &Tables, peer: &mut Peer, side: usize, rounds: usize) -> Result<(), Fail> {
    let mut random = Random::new(side as u64);
    let patches: Vec<f32> = (0..3 * (PATCH * side).pow(2)).map(|_| 2.0 * random.float()).collect();
    let mut lent = Lent::default();
    model.lend((side, side), &mut lent).map_err(Fail::Refused)?;
    peer.grid(side, &patches)?;
    let mut best = [f64::INFINITY; 2];
    for round in 0..rounds {
        for which in [round % 2, 1 - round % 2] {
            let seconds = if which == 0 {
                let began = processor_seconds();
                model.forward_by(tables, &patches, (side, side), &mut lent).map_err(refused_settings)?;
                processor_seconds() - began
            } else {
                peer.run()?
            };
            best[which] = best[which].min(seconds);
        }
    }
    let apart = apart(&lent.tokens, &peer.tokens(lent.tokens.len())?);
    let ([ours, other], name) = (best, format!("forward {side}x{side}"));
    let ratio = other / ours;
    say(format_args!("{name:<24}{ours:>10.4}{other:>10.4}   {ratio:.2} of PyTorch's speed, vectors {apart:.1e} apart"));
    if apart <= APART {
        return Ok(());
    }
    let words = format!("{name}: the vectors are {apart:.1e} apart, which no other order of summing explains");
    Err(Fail::Refused(format!("{words}: one of the two is another model's answer; report it")))
}

/// The largest difference over the largest of ours; NaN where there is one.
fn apart(ours: &[f32], others: &[f32]) -> f32 {
    let most = |sizes: &mut dyn Iterator<Item = f32>| {
        sizes.fold(0.0, |most: f32, size| if size > most || size.is_nan() { size } else { most })
    };
    most(&mut ours.iter().zip(others).map(|(a, b)| (a - b).abs())) / most(&mut ours.iter().map(|a| a.abs()))
}

/// The processor's time that this process took, which other processes lengthen less than the clock's.
fn processor_seconds() -> f64 {
    extern "C" {
        fn clock() -> c_long;
    }
    // Safe, since it only answers.
    unsafe { clock() as f64 / 1e6 }
}

/// The script, running.
struct Peer {
    script: PathBuf,
    process: Child,
    to: BufWriter<ChildStdin>,
    from: BufReader<ChildStdout>,
    /// PyTorch and its BLAS.
    name: String,
}

/// The peer, by the interpreter that KZ_PYTHON names, or else by the first that has PyTorch; or why there is none.
fn start() -> Result<Peer, String> {
    let script = fs::canonicalize(SCRIPT).map_err(|_| format!("there is no {SCRIPT}"))?;
    // Debian's PyTorch belongs to Debian's Python, which need not be the first of the PATH.
    let pythons = match std::env::var_os("KZ_PYTHON") {
        Some(python) => vec![python],
        None => ["python3", "/usr/bin/python3"].map(OsString::from).into(),
    };
    let mut why = vec![];
    for python in pythons {
        match Peer::new(&python, &script) {
            Ok(peer) => return Ok(peer),
            Err(words) => why.push(format!("{}: {words}", shown(&python))),
        }
    }
    Err(why.join("; "))
}

impl Peer {
    fn new(python: &OsStr, script: &Path) -> Result<Peer, String> {
        let started = Command::new(python).arg(script).stdin(Stdio::piped()).stdout(Stdio::piped()).spawn();
        let mut process = started.map_err(|e| format!("cannot be run: {e}"))?;
        let (Some(to), Some(from)) = (process.stdin.take(), process.stdout.take()) else {
            return Err("has no standard input and output".into());
        };
        let (to, from) = (BufWriter::new(to), BufReader::new(from));
        let mut peer = Peer { script: script.into(), process, to, from, name: String::new() };
        let line = peer.line();
        match line.split_once(' ') {
            Some(("peer", name)) => {
                peer.name = name.into();
                Ok(peer)
            }
            Some(("none", why)) => {
                peer.end();
                Err(why.into())
            }
            _ => Err(peer.wrong(&line)),
        }
    }

    /// The next line without its end; an empty one where there is none.
    fn line(&mut self) -> String {
        let mut line = vec![];
        let _ = (&mut self.from).take(1000).read_until(b'\n', &mut line);
        String::from_utf8_lossy(&line).trim_end().into()
    }

    /// How it ended. What says no more is about to; what has not within a second is made to.
    fn ended(&mut self) -> String {
        for _ in 0..100 {
            if let Ok(Some(status)) = self.process.try_wait() {
                return format!("ended with {status}");
            }
            sleep(Duration::from_millis(10));
        }
        self.end();
        "said no more and did not end".into()
    }

    fn end(&mut self) {
        let _ = self.process.kill();
        let _ = self.process.wait();
    }

    /// What is wrong where a line is not what was asked for.
    fn wrong(&mut self, line: &str) -> String {
        if line.is_empty() {
            return self.ended();
        }
        self.end();
        format!("said {line:?}, which was not asked for")
    }

    fn lost(&mut self, line: &str) -> Fail {
        let words = self.wrong(line);
        Fail::file(&self.script, format!("{words}; its own words, if any, are above"))
    }

    /// Sends a line, and floats behind it.
    fn ask(&mut self, line: &str, floats: &[&[f32]]) -> Result<(), Fail> {
        let sent = writeln!(self.to, "{line}")
            .and_then(|()| floats.iter().try_for_each(|floats| files::put(&mut self.to, floats)))
            .and_then(|()| self.to.flush());
        sent.map_err(|_| self.lost(""))
    }

    fn model(&mut self, model: &Model, cos: &[f32], sin: &[f32]) -> Result<(), Fail> {
        let s = model.settings;
        let picture = [s.picture.patch_size, s.picture.spatial_merge_size, s.picture.image_size];
        let sizes = [s.hidden_size, s.num_heads, s.head_dim, s.num_layers, s.intermediate_size, s.text_hidden_size];
        let keys = ["patch", "merge", "image", "hidden", "heads", "head", "layers", "intermediate", "text"];
        let numbers = keys.into_iter().zip(picture.into_iter().chain(sizes));
        let list: String = numbers.map(|(key, number)| format!("{key}={number},")).collect();
        self.ask(&format!("{list}scale={}", s.scaling), &[model.weights(), cos, sin])
    }

    fn grid(&mut self, side: usize, patches: &[f32]) -> Result<(), Fail> {
        self.ask(&format!("grid {side} {side}"), &[patches])?;
        match self.line() {
            line if line == "ready" => Ok(()),
            line => Err(self.lost(&line)),
        }
    }

    /// The processor seconds of a forward.
    fn run(&mut self) -> Result<f64, Fail> {
        self.ask("run", &[])?;
        let line = self.line();
        line.parse().ok().filter(|seconds| *seconds > 0.0).ok_or_else(|| self.lost(&line))
    }

    fn tokens(&mut self, len: usize) -> Result<Vec<f32>, Fail> {
        self.ask("tokens", &[])?;
        let mut bytes = vec![0; 4 * len];
        self.from.read_exact(&mut bytes).map_err(|_| self.lost(""))?;
        Ok(bytes.chunks_exact(4).map(|four| f32::from_le_bytes([four[0], four[1], four[2], four[3]])).collect())
    }
}
