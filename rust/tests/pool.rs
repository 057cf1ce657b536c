//! A pool of token vectors against a map, as the request reads.

mod common;

use common::Random;
use kyzgultam::{Pool, Refusal};

/// What a pool stands for: keys with their vectors, in the order of adding.
struct Map {
    len: usize,
    held: Vec<(u64, Vec<f32>)>,
    added: usize,
    dropped: usize,
}

impl Map {
    fn new(len: usize) -> Map {
        Map { len, held: vec![], added: 0, dropped: 0 }
    }

    fn place(&self, key: u64) -> Option<usize> {
        self.held.iter().position(|(held, _)| *held == key)
    }

    fn floats(&self) -> usize {
        self.held.iter().map(|(_, vectors)| vectors.len()).sum()
    }

    fn add(&mut self, key: u64, vectors: &[f32]) -> Result<(), Refusal> {
        if self.place(key).is_some() {
            return Err(Refusal::KeyHeld);
        }
        if vectors.is_empty() {
            return Err(Refusal::NoVectors);
        }
        if self.held.len() == 64 || self.floats() + vectors.len() > self.len {
            return Err(Refusal::PoolFull);
        }
        self.held.push((key, vectors.to_vec()));
        self.added += vectors.len();
        Ok(())
    }

    fn drop_key(&mut self, key: u64) -> Result<(), Refusal> {
        let place = self.place(key).ok_or(Refusal::KeyUnknown)?;
        self.dropped += self.held.remove(place).1.len();
        Ok(())
    }

    /// The pool holds exactly this, with these bits.
    fn is_held(&self, pool: &Pool, unknown: &[u64]) {
        assert!(pool.held().eq(self.held.iter().map(|(key, _)| *key)));
        assert_eq!(pool.floats(), self.floats());
        assert_eq!(pool.floats(), self.added - self.dropped);
        for (key, vectors) in &self.held {
            let bits = |v: &[f32]| v.iter().map(|x| x.to_bits()).collect::<Vec<_>>();
            assert_eq!(bits(pool.find(*key).unwrap()), bits(vectors));
        }
        for key in unknown.iter().filter(|key| self.place(**key).is_none()) {
            assert_eq!(pool.find(*key), Err(Refusal::KeyUnknown));
        }
    }
}

/// Floats with any bits: NaNs of their own among them.
fn any(random: &mut Random, n: usize) -> Vec<f32> {
    (0..n).map(|_| f32::from_bits(random.next() as u32)).collect()
}

#[test]
fn a_pool_is_a_map() {
    let mut random = Random(20261301);
    let mut seen = [0; 28];
    for round in 0..400 {
        let len = if round % 5 == 0 { random.from(0, 12) } else { random.from(1, 300) };
        let count = random.from(1, 90) as u64;
        let keys: Vec<u64> = (0..count).map(|i| if i % 3 == 0 { i } else { random.next() }).collect();
        let most = if round % 2 == 0 { 4 } else { len / 3 + 2 };
        let (mut slice, mut map) = (any(&mut random, len), Map::new(len));
        let mut pool = Pool::new(&mut slice);
        for _ in 0..300 {
            let key = keys[random.from(0, keys.len() - 1)];
            let drops = random.from(0, 9) < if round % 4 == 3 { 5 } else { 3 };
            let (answer, defined) = if drops {
                (pool.drop_key(key), map.drop_key(key))
            } else {
                let n = random.from(0, most);
                let vectors = any(&mut random, n);
                (pool.add(key, &vectors), map.add(key, &vectors))
            };
            assert_eq!(answer, defined);
            seen[answer.err().map_or(0, |refusal| refusal.number() as usize)] += 1;
            map.is_held(&pool, &keys);
        }
    }
    // Every number that a pool can give was given often.
    assert!([0, 23, 24, 25, 26].iter().all(|number| seen[*number] > 500), "{seen:?}");
}

#[test]
fn dropped_room_is_used_again() {
    // Every other result is dropped: no gap is long enough for what all of them are.
    let mut slice = vec![0.0; 64 * 10];
    let mut pool = Pool::new(&mut slice);
    for key in 0..64 {
        pool.add(key, &[key as f32; 10]).unwrap();
    }
    for key in (0..64).step_by(2) {
        pool.drop_key(key).unwrap();
    }
    assert_eq!(pool.add(64, &[0.5; 321]), Err(Refusal::PoolFull));
    pool.add(64, &[0.5; 320]).unwrap();
    assert_eq!(pool.find(64).unwrap(), [0.5; 320]);
    assert!((1..64).step_by(2).all(|key| pool.find(key).unwrap() == [key as f32; 10]));
    assert!(pool.held().eq((1..64).step_by(2).chain([64])));
    assert_eq!(pool.add(65, &[0.5]), Err(Refusal::PoolFull));
    assert_eq!(format!("{:?}", Pool::new(&mut [0.0; 2])), "Pool { len: 2, held: [] }");
}

#[test]
fn sixty_four_results_and_no_more() {
    let mut slice = vec![0.0; 1000];
    let mut pool = Pool::new(&mut slice);
    for key in 0..64 {
        assert_eq!(pool.add(u64::MAX - key, &[1.0]), Ok(()));
    }
    assert_eq!(pool.add(0, &[1.0]), Err(Refusal::PoolFull));
    assert_eq!(pool.add(u64::MAX, &[]), Err(Refusal::KeyHeld));
    assert_eq!(pool.add(0, &[]), Err(Refusal::NoVectors));
    pool.drop_key(u64::MAX).unwrap();
    assert_eq!(pool.add(0, &[1.0]), Ok(()));
    assert_eq!((pool.held().len(), pool.held().next(), pool.held().last()), (64, Some(u64::MAX - 1), Some(0)));
}
