//! The allocator, which callers pass, and its error.

use core::alloc::Layout;

/// Memory is out.
#[derive(Clone, Copy, Debug, PartialEq, Eq)]
pub struct AllocError;

impl core::fmt::Display for AllocError {
    fn fmt(&self, f: &mut core::fmt::Formatter<'_>) -> core::fmt::Result {
        f.write_str("memory allocation failed")
    }
}

impl core::error::Error for AllocError {}

/// The global allocator of the program.
#[derive(Clone, Copy, Debug, Default)]
pub struct Global;

/// What gives memory and takes it back.
pub trait Allocator {
    /// `size` bytes, more than 0, at a multiple of `align`.
    fn allocate(&self, size: usize, align: usize) -> Result<*mut u8, AllocError>;

    /// Takes back what `allocate` gave for this size and alignment.
    ///
    /// # Safety
    /// It was given so, and not taken back before.
    unsafe fn deallocate(&self, at: *mut u8, size: usize, align: usize);
}

impl Allocator for Global {
    fn allocate(&self, size: usize, align: usize) -> Result<*mut u8, AllocError> {
        let layout = Layout::from_size_align(size, align).map_err(|_| AllocError)?;
        if size == 0 {
            return Err(AllocError);
        }
        given(layout)
    }

    unsafe fn deallocate(&self, at: *mut u8, size: usize, align: usize) {
        // SAFETY: by what the caller sees to this is the layout with which `allocate` gave it.
        unsafe { taken_back(at, Layout::from_size_align_unchecked(size, align)) }
    }
}

#[cfg(feature = "alloc")]
fn given(layout: Layout) -> Result<*mut u8, AllocError> {
    // SAFETY: the size isn't 0.
    let at = unsafe { rust_alloc::alloc::alloc(layout) };
    if at.is_null() { Err(AllocError) } else { Ok(at) }
}

#[cfg(feature = "alloc")]
unsafe fn taken_back(at: *mut u8, layout: Layout) {
    // SAFETY: by what the caller sees to it was given so.
    unsafe { rust_alloc::alloc::dealloc(at, layout) }
}

#[cfg(not(feature = "alloc"))]
fn given(_layout: Layout) -> Result<*mut u8, AllocError> {
    Err(AllocError)
}

#[cfg(not(feature = "alloc"))]
unsafe fn taken_back(_at: *mut u8, _layout: Layout) {}
