//! A map in the order of its keys, whose growth may fail: an AA tree. A node's level is 1 at a leaf, one more than the left
//! child's, and that of the right child or one more; so no way down is longer than twice the logarithm of the number of pairs.

use crate::alloc::{AllocError, Global};
use core::cmp::Ordering;
use core::mem::replace;
use rust_alloc::vec::Vec;

/// A value for each key.
pub struct BTreeMap<K, V> {
    nodes: Vec<Node<K, V>>,
    root: usize,
}

struct Node<K, V> {
    key: K,
    value: V,
    level: u32,
    left: usize,
    right: usize,
}

// In place of a child.
const NONE: usize = usize::MAX;

impl<K: Ord, V> BTreeMap<K, V> {
    /// No pairs.
    pub fn new(_alloc: Global) -> BTreeMap<K, V> {
        BTreeMap { nodes: Vec::new(), root: NONE }
    }

    /// The number of pairs.
    pub fn len(&self) -> usize {
        self.nodes.len()
    }

    /// Whether there are no pairs.
    pub fn is_empty(&self) -> bool {
        self.nodes.is_empty()
    }

    /// The value of a key.
    pub fn get(&self, key: &K) -> Option<&V> {
        self.find(key).map(|at| &self.nodes[at].value)
    }

    /// Gives a key a value, and answers its earlier one.
    pub fn insert(&mut self, key: K, value: V) -> Result<Option<V>, AllocError> {
        if let Some(at) = self.find(&key) {
            return Ok(Some(replace(&mut self.nodes[at].value, value)));
        }
        self.nodes.try_reserve(1).map_err(|_| AllocError)?;
        self.nodes.push(Node { key, value, level: 1, left: NONE, right: NONE });
        self.root = self.put(self.root, self.nodes.len() - 1);
        Ok(None)
    }

    fn find(&self, key: &K) -> Option<usize> {
        let mut at = self.root;
        while at != NONE {
            match key.cmp(&self.nodes[at].key) {
                Ordering::Less => at = self.nodes[at].left,
                Ordering::Equal => return Some(at),
                Ordering::Greater => at = self.nodes[at].right,
            }
        }
        None
    }

    // Puts a new node into the tree below `at`, and answers its root after that.
    fn put(&mut self, at: usize, new: usize) -> usize {
        if at == NONE {
            return new;
        }
        if self.nodes[new].key < self.nodes[at].key {
            self.nodes[at].left = self.put(self.nodes[at].left, new);
        } else {
            self.nodes[at].right = self.put(self.nodes[at].right, new);
        }
        let at = self.skewed(at);
        self.split(at)
    }

    fn level(&self, at: usize) -> u32 {
        if at == NONE { 0 } else { self.nodes[at].level }
    }

    // Where the left child has the same level, it becomes the root.
    fn skewed(&mut self, at: usize) -> usize {
        let left = self.nodes[at].left;
        if left == NONE || self.nodes[left].level != self.nodes[at].level {
            return at;
        }
        self.nodes[at].left = replace(&mut self.nodes[left].right, at);
        left
    }

    // Where the right child and its right child have the same level, the first of them becomes the root, one level up.
    fn split(&mut self, at: usize) -> usize {
        let right = self.nodes[at].right;
        if right == NONE || self.level(self.nodes[right].right) != self.nodes[at].level {
            return at;
        }
        self.nodes[at].right = replace(&mut self.nodes[right].left, at);
        self.nodes[right].level += 1;
        right
    }
}

#[cfg(test)]
mod tests {
    use super::{BTreeMap, Global, NONE};

    // The number of nodes on the longest way down.
    fn depth(map: &BTreeMap<u32, ()>, at: usize) -> u32 {
        if at == NONE { 0 } else { 1 + depth(map, map.nodes[at].left).max(depth(map, map.nodes[at].right)) }
    }

    #[test]
    fn no_way_down_is_long() {
        let mut map = BTreeMap::new(Global);
        for key in 0..4096 {
            map.insert(key, ()).unwrap();
        }
        assert!(depth(&map, map.root) <= 24);
    }
}
