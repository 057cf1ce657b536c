//! Which sweeps have the same patches, and which most of them. A hash of each patch tells whom to compare; what is said
//! is found by comparing every patch of the two in full, bit by bit.

use crate::fail::Fail;
use crate::npy::Shape;
use crate::room;
use std::collections::BTreeMap;

/// What is kept of a sweep: its shape, and a hash of each patch.
#[derive(Debug, PartialEq, Eq, PartialOrd, Ord)]
pub struct Print {
    pub shape: Shape,
    pub hashes: Vec<u64>,
}

pub type Hash = fn(&[f32]) -> u64;

impl Print {
    pub fn of(patches: &[f32], shape: Shape, hash: Hash) -> Result<Print, String> {
        let count = shape[0] * shape[1];
        let mut hashes = room::empty(count, &format!("the hashes of its {count} patches"), "give fewer files")?;
        hashes.extend(patches.chunks_exact(shape[2]).map(hash));
        Ok(Print { shape, hashes })
    }
}

/// The bits of the floats, mixed: equal patches have equal hashes, and others nearly never.
pub fn hash(patch: &[f32]) -> u64 {
    let mix = |h: u64, word: u64| {
        let product = u128::from(h ^ word ^ 0x9E37_79B9_7F4A_7C15) * 0xD6E8_FEB8_6659_FD93;
        (product >> 64) as u64 ^ product as u64
    };
    let word = |two: &[f32]| two.iter().fold(0, |word, float| word << 32 | u64::from(float.to_bits()));
    patch.chunks(2).fold(patch.len() as u64, |h, two| mix(h, word(two)))
}

/// Where the patches of a sweep come from, each time they are asked for.
pub trait Patches {
    fn read(&mut self, index: usize, shape: Shape, floats: &mut Vec<f32>) -> Result<(), Fail>;
}

/// The sweeps of a list, compared two at a time: the floats of no more than two are held.
pub struct Compared<'a, P> {
    prints: &'a [Option<Print>],
    patches: &'a mut P,
    /// The sweep whose floats stay, while others come and go.
    held: Option<usize>,
    first: Vec<f32>,
    second: Vec<f32>,
    /// What could not be read again, and why.
    pub lost: BTreeMap<usize, Fail>,
}

/// Two sweeps that are no copies of each other and share most of their patches.
#[derive(Clone, Debug, PartialEq, Eq, PartialOrd, Ord)]
pub struct Pair {
    /// How many patches differ.
    pub differ: usize,
    pub a: usize,
    pub b: usize,
    /// The first place that differs, by row.
    pub first: usize,
}

/// Whether so few of the patches differ that most are shared: more than half.
fn most(differ: usize, count: usize) -> bool {
    2 * differ < count
}

impl<'a, P: Patches> Compared<'a, P> {
    /// Sweeps without a print are left out.
    pub fn new(prints: &'a [Option<Print>], patches: &'a mut P) -> Compared<'a, P> {
        Compared { prints, patches, held: None, first: vec![], second: vec![], lost: BTreeMap::new() }
    }

    /// Which patches of two sweeps of one shape differ, by row; None where one of them cannot be read again.
    pub fn differing(&mut self, a: usize, b: usize) -> Option<Vec<bool>> {
        let shape = self.shape(a)?;
        if self.held != Some(a) {
            self.held = None;
            if let Err(fail) = self.patches.read(a, shape, &mut self.first) {
                self.lost.insert(a, fail);
                return None;
            }
            self.held = Some(a);
        }
        if let Err(fail) = self.patches.read(b, shape, &mut self.second) {
            self.lost.insert(b, fail);
            return None;
        }
        let bits = |(x, y): (&f32, &f32)| x.to_bits() == y.to_bits();
        let both = self.first.chunks_exact(shape[2]).zip(self.second.chunks_exact(shape[2]));
        Some(both.map(|(x, y)| !x.iter().zip(y).all(bits)).collect())
    }

    /// The floats of the first of the two that were compared last.
    pub fn first(&self) -> &[f32] {
        &self.first
    }

    pub fn shape(&self, index: usize) -> Option<Shape> {
        self.prints[index].as_ref().map(|print| print.shape)
    }

    /// Sweeps that are copies of one another or not: those of one shape whose hashes are all equal, two or more.
    pub fn classes(&self) -> Vec<Vec<usize>> {
        let mut classes: BTreeMap<&Print, Vec<usize>> = BTreeMap::new();
        for (i, print) in self.prints.iter().enumerate() {
            if let Some(print) = print {
                classes.entry(print).or_default().push(i);
            }
        }
        classes.into_values().filter(|class| class.len() > 1).collect()
    }

    /// Of each sweep the first one before it, of its class, that has the same patches in the same grid.
    pub fn copies(&mut self, classes: Vec<Vec<usize>>, mut begun: impl FnMut(usize)) -> Vec<Option<usize>> {
        let mut of = vec![None; self.prints.len()];
        for class in classes {
            // Sweeps of which none is a copy of another; of more than one a hash did not tell two patches apart.
            let mut apart: Vec<usize> = vec![];
            for sweep in class {
                begun(sweep);
                of[sweep] = apart.iter().copied().find(|other| self.equal(*other, sweep));
                apart.retain(|other| !self.lost.contains_key(other));
                if of[sweep].is_none() && !self.lost.contains_key(&sweep) {
                    apart.push(sweep);
                }
            }
        }
        of
    }

    fn equal(&mut self, a: usize, b: usize) -> bool {
        !self.lost.contains_key(&a)
            && !self.lost.contains_key(&b)
            && self.differing(a, b).is_some_and(|differ| !differ.contains(&true))
    }

    /// Pairs that seem by their hashes to share most of their patches, those with the fewest differing ones first. A
    /// copy is left out: what is said of it is said of the sweep that it is a copy of.
    pub fn likely(&self, copies: &[Option<usize>]) -> Vec<Pair> {
        let mut shapes: BTreeMap<Shape, Vec<(usize, &Print)>> = BTreeMap::new();
        for (i, print) in self.prints.iter().enumerate() {
            if let Some(print) = print.as_ref().filter(|_| copies[i].is_none() && !self.lost.contains_key(&i)) {
                shapes.entry(print.shape).or_default().push((i, print));
            }
        }
        let mut pairs = vec![];
        for alike in shapes.values() {
            for (n, (a, one)) in alike.iter().enumerate() {
                let others = alike[n + 1..].iter();
                let near = others.filter_map(|(b, other)| Some((*b, few(&one.hashes, &other.hashes)?)));
                pairs.extend(near.map(|(b, differ)| Pair { differ, a: *a, b, first: 0 }));
            }
        }
        pairs.sort();
        pairs
    }

    /// The pairs as they are: compared in full. One that does not share most of its patches after all is left out.
    pub fn pairs(&mut self, mut likely: Vec<Pair>, mut begun: impl FnMut(usize)) -> Vec<Pair> {
        // By the first of two, so that its floats are read once.
        likely.sort_by_key(|pair| (pair.a, pair.b));
        let mut pairs = vec![];
        for Pair { a, b, .. } in likely {
            begun(b);
            let Some(marks) = self.differing(a, b) else { continue };
            let differ = marks.iter().filter(|d| **d).count();
            if let Some(first) = marks.iter().position(|d| *d).filter(|_| most(differ, marks.len())) {
                pairs.push(Pair { differ, a, b, first });
            }
        }
        pairs.sort();
        pairs
    }
}

/// How many hashes differ, where most do not. It ends as soon as too many do.
fn few(a: &[u64], b: &[u64]) -> Option<usize> {
    let mut differ = 0;
    for (some, others) in a.chunks(64).zip(b.chunks(64)) {
        differ += some.iter().zip(others).filter(|(x, y)| x != y).count();
        if !most(differ, a.len()) {
            return None;
        }
    }
    Some(differ)
}

#[cfg(test)]
mod tests {
    use super::*;

    /// Sweeps in memory; of one that is away nothing can be read.
    struct Held {
        floats: Vec<Vec<f32>>,
        away: Option<usize>,
    }

    impl Patches for Held {
        fn read(&mut self, index: usize, _: Shape, floats: &mut Vec<f32>) -> Result<(), Fail> {
            if self.away == Some(index) {
                return Err(Fail::Refused("away".into()));
            }
            floats.clone_from(&self.floats[index]);
            Ok(())
        }
    }

    const NAN: f32 = f32::NAN;

    /// Sweeps of six patches of two floats, and the grids of each.
    fn sweeps() -> (Vec<Vec<f32>>, Vec<Shape>) {
        let base: Vec<f32> = (0..12).map(|i| i as f32).collect();
        let with = |at: usize, float: f32| {
            let mut floats = base.clone();
            floats[at] = float;
            floats
        };
        let quiet = f32::from_bits(NAN.to_bits() ^ 1);
        let (wide, tall) = ([2, 3, 2], [3, 2, 2]);
        let all = [
            (base.clone(), wide),
            (with(0, -0.0), wide),
            (base.clone(), tall),
            (with(5, NAN), wide),
            (with(5, quiet), wide),
            (base.clone(), wide),
            (with(5, NAN), wide),
            (base.iter().map(|x| x + 100.0).collect(), wide),
            (base.clone(), [2, 2, 3]),
            (base.clone(), wide),
        ];
        all.into_iter().unzip()
    }

    fn found(hash: Hash, away: Option<usize>) -> (Vec<Option<usize>>, Vec<Pair>, Vec<usize>) {
        let (floats, shapes) = sweeps();
        let prints: Vec<Option<Print>> =
            floats.iter().zip(&shapes).map(|(floats, shape)| Print::of(floats, *shape, hash).ok()).collect();
        let mut held = Held { floats, away };
        let mut compared = Compared::new(&prints, &mut held);
        let copies = compared.copies(compared.classes(), |_| ());
        let likely = compared.likely(&copies);
        let pairs = compared.pairs(likely, |_| ());
        (copies, pairs, compared.lost.into_keys().collect())
    }

    /// By any hash, also one that tells nothing apart: −0 is not 0, a NaN is the same by its bits, another grid is no
    /// copy.
    #[test]
    fn hashes_decide_nothing() {
        let (none, weak): (Hash, Hash) = (|_| 0, |patch| u64::from(patch[0] > 4.0));
        for hash in [hash, none, weak] {
            let (copies, pairs, lost) = found(hash, None);
            assert_eq!(copies, [None, None, None, None, None, Some(0), Some(3), None, None, Some(0)]);
            let pair = |a, b, differ, first| Pair { differ, a, b, first };
            let right = [pair(0, 1, 1, 0), pair(0, 3, 1, 2), pair(0, 4, 1, 2), pair(3, 4, 1, 2), pair(1, 3, 2, 0)];
            assert_eq!(pairs, [&right[..], &[pair(1, 4, 2, 0)]].concat());
            assert!(lost.is_empty());
        }
    }

    /// What cannot be read again is neither a copy nor has one, and the next of its class takes its place.
    #[test]
    fn lost_sweeps() {
        let (copies, pairs, lost) = found(hash, Some(0));
        assert_eq!(copies, [None, None, None, None, None, None, Some(3), None, None, Some(5)]);
        assert_eq!(lost, [0]);
        assert!(pairs.iter().all(|pair| pair.a != 0) && pairs.contains(&Pair { differ: 1, a: 1, b: 5, first: 0 }));
        let (copies, _, lost) = found(hash, Some(5));
        assert_eq!((copies[5], copies[9], &lost[..]), (None, Some(0), &[5][..]));
    }

    #[test]
    fn hashes_see_every_bit() {
        let patch: Vec<f32> = (0..7).map(|i| i as f32).collect();
        let mut seen = std::collections::BTreeSet::from([hash(&patch)]);
        for (at, bit) in (0..7).flat_map(|at| (0..32).map(move |bit| (at, bit))) {
            let mut changed = patch.clone();
            changed[at] = f32::from_bits(changed[at].to_bits() ^ 1 << bit);
            assert!(seen.insert(hash(&changed)), "{at} {bit}");
        }
        assert!(seen.insert(hash(&patch[..6])) && seen.insert(hash(&[])));
    }

    #[test]
    fn most_is_more_than_half() {
        for (differ, count, right) in [(0, 1, true), (1, 1, false), (1, 2, false), (1, 3, true), (863, 1728, true)] {
            assert_eq!(most(differ, count), right);
        }
        assert!(!most(864, 1728));
        let (a, mut b) = (vec![0; 200], vec![0; 200]);
        b[101..].fill(1);
        assert_eq!(few(&a, &b), Some(99));
        b[100] = 1;
        assert_eq!(few(&a, &b), None);
    }
}
