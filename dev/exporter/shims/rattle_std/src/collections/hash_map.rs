//! A map by hashes, whose growth may fail.

use crate::alloc::{AllocError, Global};
use core::hash::{Hash, Hasher};
use rust_alloc::vec::Vec;

/// A value for each key: places in a row, at most half of them taken.
pub struct HashMap<K, V> {
    places: Vec<Option<(K, V)>>,
    count: usize,
}

// Fowler, Noll and Vo's hash.
struct Sum(u64);

impl Hasher for Sum {
    fn write(&mut self, bytes: &[u8]) {
        for byte in bytes {
            self.0 = (self.0 ^ u64::from(*byte)).wrapping_mul(0x100000001b3);
        }
    }

    fn finish(&self) -> u64 {
        self.0 ^ (self.0 >> 32)
    }
}

impl<K: Eq + Hash, V> HashMap<K, V> {
    /// No pairs.
    pub fn new(_alloc: Global) -> HashMap<K, V> {
        HashMap { places: Vec::new(), count: 0 }
    }

    /// The value of a key.
    pub fn get(&self, key: &K) -> Option<&V> {
        if self.places.is_empty() {
            return None;
        }
        self.places[self.place(key)].as_ref().map(|pair| &pair.1)
    }

    /// Gives a key a value, and answers its earlier one.
    pub fn insert(&mut self, key: K, value: V) -> Result<Option<V>, AllocError> {
        if 2 * (self.count + 1) > self.places.len() {
            self.grow()?;
        }
        let place = self.place(&key);
        let earlier = self.places[place].replace((key, value));
        self.count += usize::from(earlier.is_none());
        Ok(earlier.map(|pair| pair.1))
    }

    // Where a key is, or the free place for it. There is a free place, and the number of places is a power of 2.
    fn place(&self, key: &K) -> usize {
        let mut sum = Sum(0xcbf29ce484222325);
        key.hash(&mut sum);
        let last = self.places.len() - 1;
        let mut at = sum.finish() as usize & last;
        while self.places[at].as_ref().is_some_and(|pair| pair.0 != *key) {
            at = (at + 1) & last;
        }
        at
    }

    fn grow(&mut self) -> Result<(), AllocError> {
        let count = (2 * self.places.len()).max(16);
        let mut places = Vec::new();
        places.try_reserve_exact(count).map_err(|_| AllocError)?;
        places.resize_with(count, || None);
        for pair in core::mem::replace(&mut self.places, places).into_iter().flatten() {
            let place = self.place(&pair.0);
            self.places[place] = Some(pair);
        }
        Ok(())
    }
}
