//! What is said of a work: of each claim whether it holds of the story that fits best.

use alloc::string::String;
use alloc::vec::Vec;

#[derive(Default)]
pub struct Verdict {
    pub holds: Vec<bool>,
    pub remarks: Vec<String>,
    /// What was refused or parked: see `script::trouble` and `program::trouble`.
    pub trouble: Vec<String>,
}

impl Verdict {
    /// A story: one subject, one processor, one interval. That of which most claims hold is told.
    pub fn story(&mut self, holds: &[bool]) {
        let count = |row: &[bool]| row.iter().filter(|good| **good).count();
        if self.holds.is_empty() || count(holds) > count(&self.holds) {
            self.holds = holds.into();
        }
    }

    pub fn is_whole(&self) -> bool {
        !self.holds.is_empty() && self.holds.iter().all(|good| *good)
    }
}
