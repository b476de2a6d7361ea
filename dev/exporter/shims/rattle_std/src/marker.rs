//! Rust's markers, and those that are there for proofs.

pub use core::marker::*;

/// What a value means in a proof. Here nothing has a meaning, and the name is imported alone.
pub trait Model {}

/// The name of a ledger that nobody reads.
pub struct Brand;

impl crate::sync::ledger::Ledger for Brand {}
