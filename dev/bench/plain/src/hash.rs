//! A keyed hash of bytes: eight at a time, by folded products. The keys are drawn at the start, so that no input can be
//! chosen whose hashes collide.

use std::collections::hash_map::RandomState;
use std::collections::HashMap;
use std::hash::{BuildHasher, Hasher};

#[derive(Clone, Copy)]
pub struct Keys {
    first: u64,
    second: u64,
}

impl Default for Keys {
    fn default() -> Self {
        let drawn = RandomState::new();
        Keys { first: drawn.hash_one(1), second: drawn.hash_one(2) | 1 }
    }
}

impl Keys {
    #[inline]
    pub fn hash(&self, bytes: &[u8]) -> u64 {
        let mut hashed = self.first ^ bytes.len() as u64;
        let mut chunks = bytes.chunks_exact(8);
        for chunk in &mut chunks {
            let word = u64::from_le_bytes(chunk.try_into().unwrap_or_default());
            hashed = folded(hashed ^ word, self.second);
        }
        let last = chunks.remainder().iter().rev().fold(0, |word, &byte| word << 8 | u64::from(byte));
        folded(folded(hashed ^ last, self.second), self.first | 1)
    }
}

#[inline]
fn folded(a: u64, b: u64) -> u64 {
    let product = u128::from(a) * u128::from(b);
    product as u64 ^ (product >> 64) as u64
}

/// A map by bytes.
pub type Map<'a, Value> = HashMap<&'a [u8], Value, Keys>;

pub struct Hashing {
    keys: Keys,
    hashed: u64,
}

impl BuildHasher for Keys {
    type Hasher = Hashing;

    fn build_hasher(&self) -> Hashing {
        Hashing { keys: *self, hashed: 0 }
    }
}

impl Hasher for Hashing {
    #[inline]
    fn write(&mut self, bytes: &[u8]) {
        self.hashed = self.hashed.rotate_left(29) ^ self.keys.hash(bytes);
    }

    /// The length of what is written then, which is hashed with that.
    #[inline]
    fn write_usize(&mut self, _: usize) {}

    fn finish(&self) -> u64 {
        self.hashed
    }
}
