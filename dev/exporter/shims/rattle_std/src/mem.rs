//! Rust's, and the parts of a value that is dropped.

pub use core::mem::*;

/// A part of a value that is dropped, as a copy: the kit's `drop` takes its value apart, and Rust's is lent it. A part that needs
/// a drop of its own is refused when it is compiled, since Rust would drop it once more.
///
/// # Safety
/// The value is being dropped, and its own part isn't used after this.
pub unsafe fn part_of_dropped<T>(part: &T) -> T {
    const { ::core::assert!(!core::mem::needs_drop::<T>(), "the part would be dropped twice") };
    // SAFETY: a `&T` may be read, and by what the caller sees to it is read for the last time.
    unsafe { core::ptr::read(part) }
}
