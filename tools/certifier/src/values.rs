//! How many values words and registers have over all states: what has most of them keeps a search from closing.

use pip_model::Occupant;
use std::cmp::Reverse;
use std::collections::HashSet;

/// So many values of one place are counted at most.
const MOST: usize = 1 << 16;

/// How many places are told.
const TOLD: usize = 8;

#[derive(Default)]
struct Values {
    // The value that came last, which is often the next one.
    last: u32,
    seen: HashSet<u32>,
    states: u64,
}

impl Values {
    fn add(&mut self, value: u32) {
        self.states += 1;
        if (value != self.last || self.seen.is_empty()) && self.seen.len() < MOST {
            self.last = value;
            self.seen.insert(value);
        }
    }
}

/// The values that were seen: of the words that differ from those to compare with, by their places, and of registers by
/// partition and number.
#[derive(Default)]
pub struct Seen {
    words: Vec<Option<Box<Values>>>,
    registers: Vec<(u32, [Values; 16])>,
    states: u64,
}

impl Seen {
    /// Adds a state: its words that differ, each after its place, and what runs.
    pub fn add(&mut self, words: &[u32], runs: &[Option<Occupant>]) {
        self.states += 1;
        for pair in words.chunks_exact(2) {
            let place = pair[0] as usize;
            if place >= self.words.len() {
                self.words.resize_with(place + 1, || None);
            }
            self.words[place].get_or_insert_default().add(pair[1]);
        }
        for runs in runs.iter().flatten() {
            for (values, value) in self.registers_of(runs.name.number()).iter_mut().zip(&runs.ctx.regs) {
                values.add(*value);
            }
        }
    }

    fn registers_of(&mut self, part: u32) -> &mut [Values; 16] {
        let at = self.registers.iter().position(|(name, _)| *name == part).unwrap_or(self.registers.len());
        if at == self.registers.len() {
            self.registers.push((part, Default::default()));
        }
        &mut self.registers[at].1
    }

    /// What has most values, most first: how many, and `word F I` or `register P R`.
    pub fn most(&self) -> Vec<(usize, String)> {
        // A state in which a word doesn't differ has one value more.
        let more = |values: &Values| usize::from(values.states < self.states);
        let words = self.words.iter().enumerate().filter_map(|(place, values)| {
            let values = values.as_ref()?;
            Some((values.seen.len() + more(values), format!("word {} {}", place / 1024, place % 1024)))
        });
        let registers = self.registers.iter().flat_map(|(part, all)| {
            all.iter().enumerate().map(move |(number, values)| (values.seen.len(), format!("register {part} {number}")))
        });
        let mut all: Vec<(usize, String)> = words.chain(registers).filter(|(count, _)| *count > 1).collect();
        all.sort_by_key(|(count, _)| Reverse(*count));
        all.truncate(TOLD);
        all
    }
}
