//! A pool of token vectors. As in calls.rs, a length is its slice's.

use std::fmt;

use crate::{face, Refusal};

/// Up to 64 results in one lent slice, each under a key: the token vectors of earlier sweeps, to compare a new one with.
///
/// The pool holds the slice for as long as it lives, so that nothing else writes there: the vectors of a key are the
/// ones that were added, until the key is dropped. Room that was dropped is used again: [`add`](Pool::add) slides the
/// held results down where it needs to. What [`find`](Pool::find) gives is lent, so it is gone before anything moves.
///
/// ```
/// # fn main() -> Result<(), kyzgultam::Refusal> {
/// use kyzgultam::{Pool, Refusal};
///
/// let mut slice = [0.0; 8];
/// let mut pool = Pool::new(&mut slice);
/// pool.add(20260117, &[0.5, 0.25, 1.0])?;
/// pool.add(20260118, &[0.75, 2.0])?;
/// pool.add(20260119, &[3.0, 4.0, 5.0])?;
/// assert_eq!(pool.find(20260118)?, [0.75, 2.0]);
/// assert_eq!(pool.add(20260118, &[1.0]), Err(Refusal::KeyHeld));
/// assert_eq!(pool.add(20260120, &[1.0]), Err(Refusal::PoolFull));
///
/// // A dropped result makes room for one of its length, wherever it lay.
/// pool.drop_key(20260118)?;
/// assert_eq!(pool.find(20260118), Err(Refusal::KeyUnknown));
/// pool.add(20260120, &[8.0, 9.0])?;
/// assert_eq!(pool.find(20260119)?, [3.0, 4.0, 5.0]);
/// assert_eq!(pool.find(20260120)?, [8.0, 9.0]);
/// assert!(pool.held().eq([20260117, 20260119, 20260120]));
/// assert_eq!(pool.floats(), 8);
/// # Ok(())
/// # }
/// ```
///
/// While a result is looked at, nothing is added:
///
/// ```compile_fail
/// let mut slice = [0.0; 8];
/// let mut pool = kyzgultam::Pool::new(&mut slice);
/// pool.add(1, &[0.5]).unwrap();
/// let found = pool.find(1).unwrap();
/// pool.add(2, &[0.25]).unwrap();
/// assert_eq!(found, [0.5]);
/// ```
pub struct Pool<'a> {
    slice: &'a mut [f32],
    books: face::Pool,
}

impl<'a> Pool<'a> {
    /// An empty pool in this slice. What the slice holds is of no matter.
    pub fn new(slice: &'a mut [f32]) -> Pool<'a> {
        let books = unsafe { face::kz_pool_new(slice.len()) };
        Pool { slice, books }
    }

    /// Holds the vectors under the key.
    ///
    /// Refused with the first of 23, 24, 25: with 25 exactly where 64 results are held, or the floats held and the new
    /// ones are more than the slice has. Then nothing is moved.
    pub fn add(&mut self, key: u64, vectors: &[f32]) -> Result<(), Refusal> {
        let (slice, slice_len) = (self.slice.as_mut_ptr(), self.slice.len());
        let report = unsafe { face::kz_pool_add(self.books, slice, slice_len, key, vectors.as_ptr(), vectors.len()) };
        self.books = report.pool;
        Refusal::check(report.number)
    }

    /// The vectors that were added under the key. Refused with 26.
    pub fn find(&self, key: u64) -> Result<&[f32], Refusal> {
        let place = unsafe { face::kz_pool_find(self.books, self.slice.as_ptr(), self.slice.len(), key) };
        Refusal::check(place.number)?;
        Ok(&self.slice[place.start..place.start + place.len])
    }

    /// Holds the key no longer. Refused with 26.
    pub fn drop_key(&mut self, key: u64) -> Result<(), Refusal> {
        let report = unsafe { face::kz_pool_drop(self.books, self.slice.as_ptr(), self.slice.len(), key) };
        self.books = report.pool;
        Refusal::check(report.number)
    }

    /// The keys that are held, in the order of adding.
    pub fn held(&self) -> impl DoubleEndedIterator<Item = u64> + ExactSizeIterator + '_ {
        self.books.held[..self.books.count].iter().map(|held| held.key)
    }

    /// How many floats are held: those added, less those dropped.
    pub fn floats(&self) -> usize {
        self.books.held[..self.books.count].iter().map(|held| held.len).sum()
    }
}

impl fmt::Debug for Pool<'_> {
    fn fmt(&self, f: &mut fmt::Formatter) -> fmt::Result {
        f.debug_struct("Pool").field("len", &self.slice.len()).field("held", &self.held().collect::<Vec<_>>()).finish()
    }
}
