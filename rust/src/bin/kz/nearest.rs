//! `kz compare --tokens`: of each sweep the nearest earlier one, by its token vectors, which are kept in a pool.

use crate::fail::Fail;
use crate::given::Given;
use crate::npy::{self, Element, Shape};
use crate::shown::shown;
use crate::source::{unread, Source};
use crate::{answer, files, room};
use kyzgultam::{bf16_widen, Pool};
use std::path::{Path, PathBuf};

/// As many as a pool holds.
const KEPT: usize = 64;

const FEWER: &str = "give fewer files";

pub fn run(given: &Given) -> Result<(), Fail> {
    if given.has_options() || given.force {
        return Err(Fail::usage("compare --tokens takes files only: it reads no picture and writes no file"));
    }
    if given.files.len() < 2 {
        return Err(Fail::usage("compare --tokens takes two files or more, as kz encode writes them"));
    }
    // The shapes are read before the first float is: the pool is as long as it will have to be.
    let found: Vec<Tokens> = given.files.iter().map(Tokens::open).collect::<Result<_, _>>()?;
    let lens: Vec<usize> = found.iter().map(|tokens| tokens.len()).collect();
    let most = lens.windows(KEPT.min(lens.len())).map(|some| some.iter().sum()).max().unwrap_or(0);
    let advised = |file: &Path, words| Fail::file(file, words);
    let last = &given.files[given.files.len() - 1];
    let mut slice =
        room::zeros(most, "the token vectors of earlier sweeps", FEWER).map_err(|words| advised(last, words))?;
    let mut pool = Pool::new(&mut slice);
    let (mut now, mut rows) = (Vec::new(), Vec::new());
    for (i, tokens) in found.iter().enumerate() {
        room::fit(&mut now, tokens.len(), "the token vectors", FEWER).map_err(|words| advised(tokens.file, words))?;
        tokens.read(&mut now)?;
        let nearest = nearest(&pool, &found, tokens.shape, &now)?;
        rows.push([
            shown(tokens.file).to_string(),
            nearest.map_or("-".into(), |(key, _)| shown(found[key].file).to_string()),
            nearest.map_or("-".into(), |(_, cosine)| format!("{cosine:.6}")),
        ]);
        let full = pool.held().len() == KEPT;
        let oldest = pool.held().next().filter(|_| full);
        let dropped = oldest.map_or(Ok(()), |key| pool.drop_key(key));
        let kept = dropped.and_then(|()| pool.add(i as u64, &now));
        kept.map_err(|refusal| Fail::call(tokens.file, refusal, "report it"))?;
    }
    table(&rows)
}

/// A file of token vectors, by its header.
pub struct Tokens<'a> {
    pub file: &'a PathBuf,
    element: Element,
    pub shape: Shape,
}

impl<'a> Tokens<'a> {
    pub fn open(file: &'a PathBuf) -> Result<Tokens<'a>, Fail> {
        let mut source = Source::open(file)?;
        if source.left().is_none() || files::standard(file) {
            return Err(Fail::file(file, "is no plain file, and is to be read twice; write it to one"));
        }
        let (element, shape) = npy::any(&mut source).map_err(|why| Fail::file(file, why))?;
        match shape.contains(&0) {
            false => Ok(Tokens { file, element, shape }),
            true => Err(Fail::file(file, "holds no token vectors")),
        }
    }

    pub fn len(&self) -> usize {
        self.shape.iter().product()
    }

    /// The same header again, and all floats.
    pub fn read(&self, floats: &mut [f32]) -> Result<(), Fail> {
        let changed = || Fail::file(self.file, "was changed while it was read; try again");
        let mut source = Source::open(self.file)?;
        if npy::any(&mut source).map_err(|why| Fail::file(self.file, why))? != (self.element, self.shape) {
            return Err(changed());
        }
        let whole = match self.element {
            Element::Float => source.floats(floats).map_err(unread(self.file))? == 4 * floats.len(),
            Element::Bf16 => {
                let mut two = [0; 2];
                floats.iter_mut().try_fold(true, |whole, float| {
                    let found = source.take(&mut two).map_err(unread(self.file))?;
                    *float = bf16_widen(u16::from_le_bytes(two));
                    Ok::<bool, Fail>(whole && found == two.len())
                })?
            }
        };
        whole.then_some(()).ok_or_else(changed)
    }
}

/// Of the held sweeps of this shape, the one with the largest mean cosine; of equal ones the later.
fn nearest(pool: &Pool, found: &[Tokens], shape: Shape, now: &[f32]) -> Result<Option<(usize, f64)>, Fail> {
    let mut best: Option<(usize, f64)> = None;
    for key in pool.held() {
        let earlier = &found[key as usize];
        if earlier.shape != shape {
            continue;
        }
        let vectors = pool.find(key).map_err(|refusal| Fail::call(earlier.file, refusal, "report it"))?;
        let cosine = mean_cosine(now, vectors, shape[2]);
        if best.is_none_or(|(_, most)| cosine >= most) {
            best = Some((key as usize, cosine));
        }
    }
    Ok(best)
}

/// The mean, over all places of the grid, of the cosine of the two token vectors there; 0 where one of them has no
/// direction.
pub fn mean_cosine(a: &[f32], b: &[f32], len: usize) -> f64 {
    let cosines = a.chunks_exact(len).zip(b.chunks_exact(len)).map(|(a, b)| {
        let sum = |x: &[f32], y: &[f32]| x.iter().zip(y).map(|(x, y)| f64::from(*x) * f64::from(*y)).sum::<f64>();
        let cosine = sum(a, b) / (sum(a, a).sqrt() * sum(b, b).sqrt());
        if cosine.is_nan() {
            0.0
        } else {
            cosine
        }
    });
    cosines.sum::<f64>() / (a.len() / len) as f64
}

fn table(rows: &[[String; 3]]) -> Result<(), Fail> {
    let head = ["sweep", "nearest earlier", "mean cosine"].map(String::from);
    let wide = |column: usize| rows.iter().chain([&head]).map(|row| row[column].chars().count()).max().unwrap_or(0);
    let (first, second) = (wide(0), wide(1));
    for [sweep, earlier, cosine] in [&head].into_iter().chain(rows) {
        answer(format_args!("{sweep:first$}  {earlier:second$}  {cosine:>11}"))?;
    }
    Ok(())
}
