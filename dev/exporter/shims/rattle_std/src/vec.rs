//! A vector whose every growth may fail.

use crate::alloc::{AllocError, Allocator, Global};
use core::marker::PhantomData;
use core::ops::{Deref, DerefMut};
#[cfg(not(feature = "alloc"))]
use crate::none::Vec as RustVec;
#[cfg(feature = "alloc")]
use rust_alloc::vec::Vec as RustVec;

/// A vector of the allocator's memory.
pub struct Vec<T, A: Allocator = Global> {
    items: RustVec<T>,
    alloc: PhantomData<A>,
}

impl<T> Vec<T> {
    /// An empty vector.
    pub const fn new(_alloc: Global) -> Vec<T> {
        Vec { items: RustVec::new(), alloc: PhantomData }
    }

    /// An empty vector with room for `count` items.
    pub fn with_capacity(_alloc: Global, count: usize) -> Result<Vec<T>, AllocError> {
        let mut items = RustVec::new();
        items.try_reserve_exact(count).map_err(|_| AllocError)?;
        Ok(Vec { items, alloc: PhantomData })
    }
}

impl<T, A: Allocator> Vec<T, A> {
    /// Adds an item.
    #[inline]
    pub fn push(&mut self, item: T) -> Result<(), AllocError> {
        if self.items.len() == self.items.capacity() {
            self.items.try_reserve(1).map_err(|_| AllocError)?;
        }
        self.items.push(item);
        Ok(())
    }

    /// Takes the last item away.
    pub fn pop(&mut self) -> Option<T> {
        self.items.pop()
    }

    /// Lets go of all items.
    pub fn clear(&mut self) {
        self.items.clear();
    }

    /// Lets go of the items from `count` on.
    pub fn truncate(&mut self, count: usize) {
        self.items.truncate(count);
    }

    /// How many items it has room for.
    pub fn capacity(&self) -> usize {
        self.items.capacity()
    }

    /// The items.
    pub fn as_slice(&self) -> &[T] {
        &self.items
    }

    /// The items, to be changed.
    pub fn as_mut_slice(&mut self) -> &mut [T] {
        &mut self.items
    }
}

impl<T: Clone, A: Allocator> Vec<T, A> {
    /// Adds these items.
    #[inline]
    pub fn extend_from_slice(&mut self, more: &[T]) -> Result<(), AllocError> {
        self.items.try_reserve(more.len()).map_err(|_| AllocError)?;
        self.items.extend_from_slice(more);
        Ok(())
    }

    /// Makes it `count` items long: those beyond go, and copies of this one fill it up.
    pub fn resize(&mut self, count: usize, item: T) -> Result<(), AllocError> {
        let more = count.saturating_sub(self.items.len());
        self.items.try_reserve(more).map_err(|_| AllocError)?;
        self.items.resize(count, item);
        Ok(())
    }
}

/// A vector of `count` copies of an item.
pub fn filled<T: Clone>(alloc: Global, item: T, count: usize) -> Result<Vec<T>, AllocError> {
    let mut all = Vec::with_capacity(alloc, count)?;
    all.items.resize(count, item);
    Ok(all)
}

/// A vector of an array's items.
pub fn of_array<T, const N: usize>(alloc: Global, items: [T; N]) -> Result<Vec<T>, AllocError> {
    let mut all = Vec::with_capacity(alloc, N)?;
    all.items.extend(items);
    Ok(all)
}

impl<T, A: Allocator> Deref for Vec<T, A> {
    type Target = [T];

    #[inline]
    fn deref(&self) -> &[T] {
        &self.items
    }
}

impl<T, A: Allocator> DerefMut for Vec<T, A> {
    #[inline]
    fn deref_mut(&mut self) -> &mut [T] {
        &mut self.items
    }
}

impl<T, A: Allocator> IntoIterator for Vec<T, A> {
    type Item = T;
    type IntoIter = <RustVec<T> as IntoIterator>::IntoIter;

    fn into_iter(self) -> Self::IntoIter {
        self.items.into_iter()
    }
}

impl<'a, T, A: Allocator> IntoIterator for &'a Vec<T, A> {
    type Item = &'a T;
    type IntoIter = core::slice::Iter<'a, T>;

    fn into_iter(self) -> Self::IntoIter {
        self.items.iter()
    }
}

impl<T: core::fmt::Debug, A: Allocator> core::fmt::Debug for Vec<T, A> {
    fn fmt(&self, f: &mut core::fmt::Formatter<'_>) -> core::fmt::Result {
        self.items.fmt(f)
    }
}
