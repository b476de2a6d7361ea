//! A vector where no allocator is: it never has an item, and there is never memory for one.

use core::marker::PhantomData;
use core::ops::{Deref, DerefMut};

/// No items.
#[derive(Debug)]
pub struct Vec<T>(PhantomData<T>);

impl<T> Vec<T> {
    pub const fn new() -> Self {
        Vec(PhantomData)
    }

    pub const fn capacity(&self) -> usize {
        0
    }

    /// An error, if room for an item is wanted.
    pub fn try_reserve(&mut self, count: usize) -> Result<(), ()> {
        if count == 0 { Ok(()) } else { Err(()) }
    }

    pub fn try_reserve_exact(&mut self, count: usize) -> Result<(), ()> {
        self.try_reserve(count)
    }

    // What comes after room was found, which is never
    pub fn push(&mut self, _item: T) {
        unreachable!()
    }

    pub fn extend(&mut self, _items: impl IntoIterator<Item = T>) {}

    pub fn extend_from_slice(&mut self, _items: &[T]) {}

    pub fn resize(&mut self, _count: usize, _item: T) {}

    pub fn pop(&mut self) -> Option<T> {
        None
    }

    pub fn clear(&mut self) {}

    pub fn truncate(&mut self, _count: usize) {}
}

impl<T> Deref for Vec<T> {
    type Target = [T];

    fn deref(&self) -> &[T] {
        &[]
    }
}

impl<T> DerefMut for Vec<T> {
    fn deref_mut(&mut self) -> &mut [T] {
        &mut []
    }
}

impl<T> IntoIterator for Vec<T> {
    type Item = T;
    type IntoIter = core::iter::Empty<T>;

    fn into_iter(self) -> Self::IntoIter {
        core::iter::empty()
    }
}
