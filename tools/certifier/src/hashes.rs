//! What was reached, as hashes of 64 bits and not as keys. Two keys with one hash would be taken for one state; then a
//! part asks for a key that no part has, and the merge says so.

/// A hash of a key, which is never 0.
pub fn hash(key: &[u32]) -> u64 {
    let stirred = key.iter().fold(key.len() as u64, |sum, word| {
        let product = (sum ^ u64::from(*word)).wrapping_mul(0x9e37_79b9_7f4a_7c15);
        product ^ (product >> 32)
    });
    stirred.max(1)
}

/// A set of hashes: a table with open places, which are 0.
pub struct Hashes {
    places: Vec<u64>,
    count: usize,
}

impl Hashes {
    pub fn new() -> Hashes {
        Hashes {
            places: vec![0; 1024],
            count: 0,
        }
    }

    /// Whether it is new.
    pub fn insert(&mut self, hash: u64) -> bool {
        if 4 * self.count >= 3 * self.places.len() {
            let doubled = vec![0; 2 * self.places.len()];
            for old in std::mem::replace(&mut self.places, doubled) {
                if old != 0 {
                    self.put(old);
                }
            }
        }
        let is_new = self.put(hash);
        self.count += usize::from(is_new);
        is_new
    }

    fn put(&mut self, hash: u64) -> bool {
        let mask = self.places.len() - 1;
        let mut at = (hash >> 8) as usize & mask;
        while self.places[at] != 0 {
            if self.places[at] == hash {
                return false;
            }
            at = (at + 1) & mask;
        }
        self.places[at] = hash;
        true
    }
}
