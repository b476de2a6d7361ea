//! A text of the allocator's memory.

use crate::alloc::{AllocError, Global};
use core::fmt::Write;

/// A text.
pub struct String {
    text: rust_alloc::string::String,
}

impl String {
    /// An empty text.
    pub const fn new(_alloc: Global) -> String {
        String { text: rust_alloc::string::String::new() }
    }

    /// A copy of this text.
    pub fn from_str(alloc: Global, text: &str) -> Result<String, AllocError> {
        let mut own = String::new(alloc);
        own.push_str(text)?;
        Ok(own)
    }

    /// Adds a text.
    pub fn push_str(&mut self, text: &str) -> Result<(), AllocError> {
        self.text.try_reserve(text.len()).map_err(|_| AllocError)?;
        self.text.push_str(text);
        Ok(())
    }

    /// The text.
    pub fn as_str(&self) -> &str {
        &self.text
    }
}

impl core::fmt::Display for String {
    fn fmt(&self, f: &mut core::fmt::Formatter<'_>) -> core::fmt::Result {
        f.write_str(&self.text)
    }
}

impl core::fmt::Debug for String {
    fn fmt(&self, f: &mut core::fmt::Formatter<'_>) -> core::fmt::Result {
        core::fmt::Debug::fmt(self.as_str(), f)
    }
}

impl core::ops::Deref for String {
    type Target = str;

    fn deref(&self) -> &str {
        &self.text
    }
}

impl Write for String {
    fn write_str(&mut self, text: &str) -> core::fmt::Result {
        self.push_str(text).map_err(|_| core::fmt::Error)
    }
}

/// What `format!` makes.
pub fn written(alloc: Global, text: core::fmt::Arguments<'_>) -> Result<String, AllocError> {
    let mut own = String::new(alloc);
    own.write_fmt(text).map_err(|_| AllocError)?;
    Ok(own)
}
