//! `kz nearest`: of many sweeps those that are most alike to one, by their token vectors.

use crate::fail::Fail;
use crate::gather::{gather, Gathered};
use crate::given::Given;
use crate::json::{self, string};
use crate::nearest::{mean_cosine, Tokens};
use crate::progress::Progress;
use crate::shown::shown;
use crate::table::table;
use crate::{answer, room};
use kyzgultam::{Pool, Refusal};
use std::fs;
use std::os::unix::fs::MetadataExt;
use std::path::{Path, PathBuf};

pub const HELP: &str = "\
kz nearest SWEEP.tokens.npy DIR .. [--count N] [--json]

Lists the sweeps that are most alike to SWEEP by their token vectors, as `kz
encode` writes them, f32 or bf16: of a folder its own files .tokens.npy, and
files by their names. The number is the mean cosine, as in `kz compare
--tokens`: the mean, over the places of the grid, of the cosine of the two
token vectors there, 0 where one of them is 0 all over or not finite. All of it
is worked out in f64: sums of the products of floats from the first on, then
the dot product by the product of two roots. The table has it with six
decimals, --json with all of its digits.

The N largest are listed, 10 if nothing is said; of equal ones the first by
name. SWEEP itself is left out, by whatever name it is met, and a file with two
names is taken once. A sweep of another shape, so of another grid or text size,
has no such mean: it is not compared, and the last line counts such sweeps.
Token vectors say neither weights nor rule, mean or deviation: compare what was
encoded by one choice. It holds the floats of three sweeps, two in a pool.

What cannot be read is named, and the others are still compared. Exit status 0
listed, 1 something could not be read, 2 not a command line of kz.
";

/// So many are listed where nothing is said.
const COUNT: usize = 10;

pub fn run(given: &Given) -> Result<(), Fail> {
    let [sweep, others @ ..] = &given.files[..] else {
        return Err(Fail::usage("nearest takes SWEEP.tokens.npy and folders or files, DIR .."));
    };
    if others.is_empty() {
        return Err(Fail::usage("nearest takes folders or files beside its sweep, DIR .."));
    }
    let count = given.number("--count")?.unwrap_or(COUNT);
    let near = Near::find(sweep, gather(others, &["tokens.npy"]))?;
    near.gathered.warn();
    answer(format_args!("{}", if given.json { near.json(count) } else { near.words(count) }))?;
    near.gathered.whole()
}

/// Sweeps beside one, by the indices of their files.
struct Near<'a> {
    sweep: &'a Path,
    shape: [usize; 3],
    gathered: Gathered,
    /// Those that were compared, the most alike first.
    cosines: Vec<(usize, f64)>,
    /// How many have another shape.
    others: usize,
    /// Whether the sweep itself was met.
    itself: bool,
}

impl<'a> Near<'a> {
    fn find(sweep: &'a PathBuf, gathered: Gathered) -> Result<Near<'a>, Fail> {
        let tokens = Tokens::open(sweep)?;
        let (mut slice, mut buffer) = (vec![], vec![]);
        fit(&mut slice, 2 * tokens.len(), sweep)?;
        let mut pool = Pool::new(&mut slice);
        floats(&tokens, &mut buffer)?;
        pool.add(OWN, &buffer).map_err(refused(sweep))?;
        let mut near = Near { sweep, shape: tokens.shape, gathered, cosines: vec![], others: 0, itself: false };
        let place = |file: &Path| fs::metadata(file).map(|found| (found.dev(), found.ino())).ok();
        let (itself, files) = (place(sweep), near.gathered.files.clone());
        let mut progress = Progress::new(files.len());
        for (index, file) in files.iter().enumerate() {
            progress.at(file.as_os_str());
            if place(file) == itself {
                near.itself = true;
                continue;
            }
            match compared(file, near.shape, &mut pool, &mut buffer) {
                Ok(Some(cosine)) => near.cosines.push((index, cosine)),
                Ok(None) => near.others += 1,
                Err(fail) => near.gathered.refused.push(fail),
            }
        }
        progress.clear();
        // None is a NaN, and what is equal stays in its order.
        near.cosines.sort_by(|(_, a), (_, b)| b.partial_cmp(a).unwrap_or(std::cmp::Ordering::Equal));
        Ok(near)
    }

    /// The first ones, so many: their names and numbers.
    fn first(&self, count: usize) -> impl Iterator<Item = (&PathBuf, f64)> {
        self.cosines.iter().take(count).map(|(index, cosine)| (&self.gathered.files[*index], *cosine))
    }

    fn words(&self, count: usize) -> String {
        let rows: Vec<_> =
            self.first(count).map(|(file, cosine)| [format!("{cosine:.6}"), shown(file).to_string()]).collect();
        let mut text = if rows.is_empty() { String::new() } else { table(["mean cosine", "sweep"], 1, &rows) + "\n" };
        text += &format!("{} compared", self.cosines.len());
        if self.others > 0 {
            let [h, w, len] = self.shape;
            text += &format!("; {} of another shape than {h}x{w}x{len}, not compared", self.others);
        }
        if self.itself {
            text += "; the sweep itself is left out";
        }
        text
    }

    fn json(&self, count: usize) -> String {
        let [h, w, len] = self.shape;
        let nearest = self
            .first(count)
            .map(|(file, cosine)| format!("{{\"file\": {}, \"mean_cosine\": {cosine}}}", string(file)));
        let parts = [
            ("sweep", string(self.sweep)),
            ("shape", format!("[{h}, {w}, {len}]")),
            ("nearest", json::list(nearest)),
            ("compared", self.cosines.len().to_string()),
            ("other_shape", self.others.to_string()),
            ("refused", json::list(self.gathered.refused.iter().map(|fail| string(fail.words())))),
        ];
        json::object(&parts)
    }
}

/// The keys under which the pool holds the sweep and the one that is beside it.
const OWN: u64 = 0;
const BESIDE: u64 = 1;

/// The mean cosine of a file beside the sweep that the pool holds; None where it has another shape.
fn compared(file: &PathBuf, shape: [usize; 3], pool: &mut Pool, buffer: &mut Vec<f32>) -> Result<Option<f64>, Fail> {
    let tokens = Tokens::open(file)?;
    if tokens.shape != shape {
        return Ok(None);
    }
    floats(&tokens, buffer)?;
    pool.add(BESIDE, buffer).map_err(refused(file))?;
    let own = pool.find(OWN).map_err(refused(file))?;
    // A mean of -0 is written as 0.
    let cosine = mean_cosine(own, pool.find(BESIDE).map_err(refused(file))?, shape[2]) + 0.0;
    pool.drop_key(BESIDE).map_err(refused(file))?;
    Ok(Some(cosine))
}

/// No call of the pool refuses what stands here.
fn refused(file: &Path) -> impl Fn(Refusal) -> Fail + '_ {
    move |refusal| Fail::call(file, refusal, "report it")
}

fn floats(tokens: &Tokens, buffer: &mut Vec<f32>) -> Result<(), Fail> {
    fit(buffer, tokens.len(), tokens.file)?;
    tokens.read(buffer)
}

fn fit(buffer: &mut Vec<f32>, len: usize, file: &Path) -> Result<(), Fail> {
    let room = room::fit(buffer, len, "the token vectors", "try it again where there is more");
    room.map_err(|words| Fail::file(file, words))
}
