//! A machine that goes from state to state: the choices of each, and the keys of states (docs/MODEL.md, "What can
//! happen").

use crate::cpu::Line;
use crate::image::Plan;
use crate::machine::{Context, Machine, Processor, PROCESSORS};
use crate::menu::Menu;
use crate::Stop;

/// The first state of a search or a part is the one that the machine is at.
pub struct Explorer {
    pub world: Machine<true>,
    pub plans: Vec<Plan>,
    pub menu: Menu,
    /// The turns before the first line.
    pub from: u32,
    /// The words with which those of a state are compared.
    base: Vec<u32>,
    /// Of the state whose choices are made: turns, processors, the words that differ, and how the key says these.
    turns: u32,
    processors: [Processor; PROCESSORS],
    differing: Vec<(u32, u32)>,
    tail: Vec<u8>,
    /// The key of the state after a choice. Equal states have equal keys.
    pub key: Vec<u8>,
}

/// How many turns were made, counted up to `from`, after that of a processor on which a partition ran, or none. A turn
/// of an idle processor stands for all that are left.
#[inline]
pub fn turns_after(world: &Machine<true>, cpu: usize, part: u32, turns: u32, from: u32) -> u32 {
    if part == 0 && world.processors[cpu].part == 0 {
        from
    } else {
        from.min(turns + 1)
    }
}

impl Explorer {
    /// At the state of a world, after so many turns.
    pub fn new(world: Machine<true>, plans: Vec<Plan>, menu: Menu, from: u32, base: Vec<u32>, turns: u32) -> Self {
        let mut differing = Vec::new();
        for (place, (&word, &other)) in (0..).zip(world.frames.words().iter().zip(&base)) {
            if word != other {
                differing.push((place, word));
            }
        }
        let mut tail = Vec::new();
        put_words(&mut tail, &differing);
        let processors = world.processors;
        Explorer { world, plans, menu, from, base, turns, processors, differing, tail, key: Vec::new() }
    }

    /// How many choices there are before the deeds.
    pub fn usual(&self) -> usize {
        self.world.count + self.plans.len()
    }

    /// What a choice after those is: a processor, and a deed.
    pub fn deed(&self, choice: usize) -> Option<(usize, usize)> {
        let deed = choice.checked_sub(self.usual())?;
        Some((deed % self.world.count, deed / self.world.count))
    }

    fn is_hostile(&self, cpu: usize) -> bool {
        let part = self.processors[cpu].part;
        part != 0 && self.menu.deeds.iter().any(|deed| deed.is_of(part))
    }

    /// How many choices there are.
    pub fn choices(&self) -> usize {
        self.usual() + self.world.count * self.menu.deeds.len()
    }

    /// The world becomes that of the state with a key.
    pub fn visit(&mut self, key: &[u8]) {
        for &(place, _) in &self.differing {
            self.world.frames.set_word(place, self.base[place as usize]);
        }
        let mut key = Key(key);
        self.turns = key.number();
        for cpu in 0..self.world.count {
            self.processors[cpu] = key.processor();
        }
        self.tail.clear();
        self.tail.extend_from_slice(key.0);
        self.differing.clear();
        let mut place = 0u32;
        while !key.0.is_empty() {
            place = place.wrapping_add(key.number());
            let word = key.number();
            self.differing.push((place, word));
            self.world.frames.set_word(place, word);
        }
        self.world.frames.log.clear();
    }

    /// The world, which has the words of the state whose choices are made, becomes that of the state.
    #[inline]
    pub fn restart(&mut self) {
        self.world.processors = self.processors;
        self.world.empty_caches();
    }

    /// The key of that state.
    pub fn put_own_key(&mut self) {
        self.restart();
        self.put_key(self.turns);
    }

    /// Makes a choice, notes the key after it, and takes its writes back: what it shows. None if it changes nothing.
    #[inline]
    pub fn made(&mut self, choice: usize) -> Option<Option<(u32, Line)>> {
        self.restart();
        let (cpu, deed) = self.deed(choice).map_or((choice, None), |(cpu, deed)| (cpu, Some(&self.menu.deeds[deed])));
        if cpu >= self.world.count {
            if self.turns < self.from {
                return None;
            }
            self.world.raise(self.plans[choice - self.world.count].line);
            self.put_key(self.turns);
            self.world.frames.undo();
            return Some(None);
        }
        let part = self.processors[cpu].part;
        if deed.is_some_and(|deed| part == 0 || !deed.is_of(part)) {
            return None;
        }
        let is_hostile = deed.is_some() || self.is_hostile(cpu);
        let line = if is_hostile { self.world.hostile_turn(cpu, deed) } else { self.world.turn(cpu) };
        self.put_key(turns_after(&self.world, cpu, part, self.turns, self.from));
        self.world.frames.undo();
        Some(line.map(|line| (cpu as u32, line)))
    }

    /// The key of the world after a choice.
    pub fn put_key(&mut self, turns: u32) {
        let key = &mut self.key;
        key.clear();
        put_number(key, turns);
        for cpu in 0..self.world.count {
            put_processor(key, &self.world.processors[cpu]);
        }
        if self.world.frames.log.is_empty() {
            key.extend_from_slice(&self.tail);
        } else {
            self.put_changed();
        }
    }

    /// The words that differ now: those that did, and those that were changed.
    fn put_changed(&mut self) {
        let mut changed: Vec<u32> = self.world.frames.log.iter().map(|&(place, _)| place).collect();
        changed.sort_unstable();
        changed.dedup();
        let mut words = Vec::with_capacity(self.differing.len() + changed.len());
        let mut before = self.differing.iter().copied().peekable();
        for place in changed {
            while let Some(kept) = before.next_if(|kept| kept.0 < place) {
                words.push(kept);
            }
            before.next_if(|kept| kept.0 == place);
            let word = self.world.frames.word(place);
            if word != self.base[place as usize] {
                words.push((place, word));
            }
        }
        words.extend(before);
        put_words(&mut self.key, &words);
    }
}

// Keys

/// Keys, one after another.
pub struct KeyList {
    bytes: Vec<u8>,
    starts: Vec<u64>,
}

impl KeyList {
    pub fn new() -> Self {
        KeyList { bytes: vec![], starts: vec![0] }
    }

    #[inline]
    pub fn key(&self, at: usize) -> &[u8] {
        &self.bytes[self.starts[at] as usize..self.starts[at + 1] as usize]
    }

    pub fn push(&mut self, key: &[u8]) -> Result<(), Stop> {
        self.bytes.try_reserve(key.len())?;
        self.starts.try_reserve(1)?;
        self.bytes.extend_from_slice(key);
        self.starts.push(self.bytes.len() as u64);
        Ok(())
    }
}

/// A number in groups of seven bits, the lowest first.
#[inline]
fn put_number(key: &mut Vec<u8>, mut number: u32) {
    while number >= 0x80 {
        key.push(number as u8 | 0x80);
        number >>= 7;
    }
    key.push(number as u8);
}

/// The name, and if it isn't 0 the pc and the registers that aren't 0.
fn put_processor(key: &mut Vec<u8>, at: &Processor) {
    put_number(key, at.part);
    if at.part == 0 {
        return;
    }
    put_number(key, at.context.pc);
    let registers = &at.context.registers;
    let mask = registers.iter().rev().fold(0, |mask, &word| mask << 1 | u16::from(word != 0));
    key.extend_from_slice(&mask.to_le_bytes());
    registers.iter().filter(|&&word| word != 0).for_each(|&word| put_number(key, word));
}

/// Words with their places, each by its distance to the one before.
fn put_words(key: &mut Vec<u8>, words: &[(u32, u32)]) {
    let mut last = 0;
    for &(place, word) in words {
        put_number(key, place - last);
        put_number(key, word);
        last = place;
    }
}

/// What is left of a key.
pub struct Key<'a>(pub &'a [u8]);

impl Key<'_> {
    #[inline]
    pub fn number(&mut self) -> u32 {
        let (mut number, mut shift) = (0, 0);
        loop {
            let byte = self.0[0];
            self.0 = &self.0[1..];
            number |= u32::from(byte & 0x7f) << shift;
            shift += 7;
            if byte < 0x80 {
                return number;
            }
        }
    }

    pub fn processor(&mut self) -> Processor {
        let part = self.number();
        if part == 0 {
            return Processor::default();
        }
        let mut context = Context { pc: self.number(), registers: [0; 16] };
        let mut mask = u16::from_le_bytes([self.0[0], self.0[1]]);
        self.0 = &self.0[2..];
        while mask != 0 {
            context.registers[mask.trailing_zeros() as usize] = self.number();
            mask &= mask - 1;
        }
        Processor { part, context }
    }
}
