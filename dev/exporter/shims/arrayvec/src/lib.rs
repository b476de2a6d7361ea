//! Vectors and texts of a fixed room, after the crate arrayvec: as much of it as these crates use.
#![no_std]

use core::fmt::{self, Debug, Display, Formatter};
use core::mem::MaybeUninit;
use core::ops::{Deref, DerefMut};

/// There is no room. It has what found none.
#[derive(Clone, Copy, Debug, PartialEq, Eq)]
pub struct CapacityError<T = ()>(T);

impl<T> CapacityError<T> {
    /// What found no room.
    pub fn element(self) -> T {
        self.0
    }
}

impl<T> Display for CapacityError<T> {
    fn fmt(&self, f: &mut Formatter<'_>) -> fmt::Result {
        f.write_str("insufficient capacity")
    }
}

/// At most `CAP` items, which lie in the value itself.
pub struct ArrayVec<T, const CAP: usize> {
    len: usize,
    items: [MaybeUninit<T>; CAP],
}

impl<T, const CAP: usize> ArrayVec<T, CAP> {
    /// No items.
    #[inline]
    pub const fn new() -> Self {
        ArrayVec { len: 0, items: [const { MaybeUninit::uninit() }; CAP] }
    }

    /// Adds an item. It panics where there is no room.
    #[inline]
    pub fn push(&mut self, item: T) {
        self.items[self.len].write(item);
        self.len += 1;
    }

    /// Adds an item, where there is room.
    #[inline]
    pub fn try_push(&mut self, item: T) -> Result<(), CapacityError<T>> {
        if self.len == CAP {
            return Err(CapacityError(item));
        }
        self.push(item);
        Ok(())
    }

    /// Adds all of these items, where there is room, and else none.
    pub fn try_extend_from_slice(&mut self, items: &[T]) -> Result<(), CapacityError>
    where
        T: Copy,
    {
        if CAP - self.len < items.len() {
            return Err(CapacityError(()));
        }
        items.iter().for_each(|item| self.push(*item));
        Ok(())
    }

    /// Whether there is no room.
    #[inline]
    pub const fn is_full(&self) -> bool {
        self.len == CAP
    }

    /// Takes the last item away.
    pub fn pop(&mut self) -> Option<T> {
        self.len = self.len.checked_sub(1)?;
        // SAFETY: it was written when it came, and is counted no more.
        Some(unsafe { self.items[self.len].assume_init_read() })
    }

    /// The items.
    #[inline]
    pub fn as_slice(&self) -> &[T] {
        // SAFETY: the first `len` were written.
        unsafe { core::slice::from_raw_parts(self.items.as_ptr().cast(), self.len) }
    }

    /// The items, to be changed.
    #[inline]
    pub fn as_mut_slice(&mut self) -> &mut [T] {
        // SAFETY: the first `len` were written.
        unsafe { core::slice::from_raw_parts_mut(self.items.as_mut_ptr().cast(), self.len) }
    }

    /// Lets go of all items.
    pub fn clear(&mut self) {
        while self.pop().is_some() {}
    }
}

impl<T, const CAP: usize> From<[T; CAP]> for ArrayVec<T, CAP> {
    fn from(items: [T; CAP]) -> Self {
        ArrayVec { len: CAP, items: items.map(MaybeUninit::new) }
    }
}

impl<T, const CAP: usize> Drop for ArrayVec<T, CAP> {
    fn drop(&mut self) {
        if core::mem::needs_drop::<T>() {
            self.clear();
        }
    }
}

impl<T, const CAP: usize> Default for ArrayVec<T, CAP> {
    fn default() -> Self {
        ArrayVec::new()
    }
}

impl<T: Clone, const CAP: usize> Clone for ArrayVec<T, CAP> {
    fn clone(&self) -> Self {
        let mut all = ArrayVec::new();
        for item in self.as_slice() {
            all.push(item.clone());
        }
        all
    }
}

impl<T, const CAP: usize> Deref for ArrayVec<T, CAP> {
    type Target = [T];

    #[inline]
    fn deref(&self) -> &[T] {
        self.as_slice()
    }
}

impl<T, const CAP: usize> DerefMut for ArrayVec<T, CAP> {
    #[inline]
    fn deref_mut(&mut self) -> &mut [T] {
        self.as_mut_slice()
    }
}

impl<'a, T, const CAP: usize> IntoIterator for &'a ArrayVec<T, CAP> {
    type Item = &'a T;
    type IntoIter = core::slice::Iter<'a, T>;

    fn into_iter(self) -> Self::IntoIter {
        self.as_slice().iter()
    }
}

impl<T: Debug, const CAP: usize> Debug for ArrayVec<T, CAP> {
    fn fmt(&self, f: &mut Formatter<'_>) -> fmt::Result {
        self.as_slice().fmt(f)
    }
}

impl<T: PartialEq, const CAP: usize> PartialEq for ArrayVec<T, CAP> {
    fn eq(&self, other: &Self) -> bool {
        self.as_slice() == other.as_slice()
    }
}

impl<T: Eq, const CAP: usize> Eq for ArrayVec<T, CAP> {}

/// A text of at most `CAP` bytes, which lie in the value itself.
#[derive(Clone, Copy)]
pub struct ArrayString<const CAP: usize> {
    len: usize,
    bytes: [u8; CAP],
}

impl<const CAP: usize> ArrayString<CAP> {
    /// An empty text.
    #[inline]
    pub const fn new() -> Self {
        ArrayString { len: 0, bytes: [0; CAP] }
    }

    /// Adds a character. It panics where there is no room.
    #[inline]
    pub fn push(&mut self, c: char) {
        if c.is_ascii() {
            self.bytes[self.len] = c as u8;
            self.len += 1;
        } else {
            self.push_str(c.encode_utf8(&mut [0; 4]));
        }
    }

    /// Adds a text. It panics where there is no room.
    #[inline]
    pub fn push_str(&mut self, s: &str) {
        let end = self.len + s.len();
        self.bytes[self.len..end].copy_from_slice(s.as_bytes());
        self.len = end;
    }

    /// Lets go of all bytes.
    #[inline]
    pub fn clear(&mut self) {
        self.len = 0;
    }

    /// The text.
    #[inline]
    pub fn as_str(&self) -> &str {
        // SAFETY: whole texts came, one after the other.
        unsafe { core::str::from_utf8_unchecked(&self.bytes[..self.len]) }
    }
}

impl<const CAP: usize> Default for ArrayString<CAP> {
    fn default() -> Self {
        ArrayString::new()
    }
}

impl<const CAP: usize> Deref for ArrayString<CAP> {
    type Target = str;

    #[inline]
    fn deref(&self) -> &str {
        self.as_str()
    }
}

impl<const CAP: usize> Debug for ArrayString<CAP> {
    fn fmt(&self, f: &mut Formatter<'_>) -> fmt::Result {
        Debug::fmt(self.as_str(), f)
    }
}

impl<const CAP: usize> fmt::Display for ArrayString<CAP> {
    fn fmt(&self, f: &mut Formatter<'_>) -> fmt::Result {
        fmt::Display::fmt(self.as_str(), f)
    }
}
