//! Whether all that is outside of hostile partitions looks away from words that are left out (docs/FORMATS.md,
//! "against").

use crate::calls::{PREPARE, YIELD};
use crate::frames::*;
use crate::isa::UNUSED;
use crate::machine::{fault_of, Access, Fault, Machine, HANDLERS, NOWHERE, SAVED};
use crate::menu::{Deed, Event};

/// Partitions whose programs may be any, and the words that are left out: those of pages, but for some that are seen;
/// and entries of their handler tables of which the class is seen, with the rows by which it is one: of each the
/// partition, the virtual page, the page, and the rights.
#[derive(Default)]
pub struct Blind {
    pub own: Vec<u32>,
    pub pages: Vec<u32>,
    pub seen: Vec<(u32, u32)>,
    pub entries: Vec<(u32, u32)>,
    pub rows: Vec<[u32; 4]>,
    /// How many lines of each kind there were.
    pub lines: [usize; 5],
}

impl Blind {
    pub fn is_asked(&self) -> bool {
        self.lines != [0; 5]
    }

    /// A word of these pages, but for those that are seen.
    fn is_blind(&self, place: u32) -> bool {
        self.pages.contains(&(place / WORDS)) && !self.seen.contains(&(place / WORDS, place % WORDS))
    }

    /// The partition of which a word is an entry whose class is seen.
    fn owner(&self, place: u32) -> Option<u32> {
        let is_table = |name| {
            let mut rows = self.rows.iter();
            rows.any(|&[owner, at, page, _]| owner == name && at == HANDLERS / PAGE && page == place / WORDS)
        };
        let mut entries = self.entries.iter();
        entries.find(|&&(name, vector)| vector == place % WORDS && is_table(name)).map(|entry| entry.0)
    }

    fn sees(&self, place: u32) -> bool {
        self.owner(place).is_none() && !self.is_blind(place)
    }

    fn has(&self, place: u32) -> bool {
        self.owner(place).is_none() && self.is_blind(place)
    }

    fn sees_block(&self, place: u32) -> bool {
        (place..place + 17).all(|place| self.sees(place))
    }

    fn has_block(&self, place: u32) -> bool {
        (place..place + 17).all(|place| self.has(place))
    }
}

/// What is said of it.
pub enum Away {
    Yes,
    /// The first state that doesn't look away, and on which processor.
    No(u32, usize),
    Unknown,
}

/// A test of the state that a machine is at, whose caches are empty. Afterwards the machine may be elsewhere.
pub struct Look<'a> {
    pub world: &'a mut Machine<true>,
    pub blind: &'a Blind,
    pub deeds: &'a [Deed],
}

impl Look<'_> {
    pub fn is_away(&mut self, cpu: usize) -> bool {
        let part = self.world.processors[cpu].part;
        if !self.poll(part) {
            return false;
        }
        if part == 0 || !self.deeds.iter().any(|deed| deed.is_of(part)) {
            return self.world.polled(cpu).is_some() || part == 0 || self.instruction(cpu, part);
        }
        let deeds = self.deeds.iter().filter(|deed| deed.is_of(part)).all(|deed| self.deed(part, deed.event));
        self.is_confined(part) && (deeds || self.world.polled(cpu).is_some())
    }

    // Words

    fn reached(&self, part: u32, address: u32, access: Access, is_word: bool) -> Result<u32, Fault> {
        if is_word && address % 4 != 0 {
            return Err(Fault::Alignment);
        }
        let row = self.world.frames.row(part, address);
        if row & access.need() != access.need() {
            return Err(fault_of(row));
        }
        Ok(row / PAGE * WORDS + address % PAGE / 4)
    }

    fn entry(&self, part: u32, vector: u32) -> bool {
        let Ok(place) = self.reached(part, HANDLERS + 4 * vector, Access::Load, true) else { return true };
        match self.blind.owner(place) {
            None => !self.blind.is_blind(place),
            Some(owner) => self.blind.own.contains(&part) && self.has_rows(part, owner),
        }
    }

    // Handlers, and saves

    fn handler(&self, part: u32, vector: u32) -> bool {
        if vector >= NOWHERE {
            return true;
        }
        let block = self.world.block(part, vector);
        let is_missed = || block.is_none_or(|(place, _)| self.blind.sees_block(place));
        self.entry(part, vector) && (self.blind.own.contains(&part) || is_missed())
    }

    fn save(&self, part: u32, vector: u32) -> bool {
        let place = self.world.save_place(part, vector);
        let lands = || place.is_none_or(|place| self.blind.has_block(place));
        self.entry(part, vector) && (!self.blind.own.contains(&part) || lands())
    }

    fn delivery(&self, part: u32, vector: u32) -> bool {
        let mut below = part;
        while below != ROOT {
            below = self.world.frames.get(below, PARENT);
            if !self.world.runs(below) && !self.handler(below, vector) {
                return false;
            }
        }
        self.save(part, SAVED)
    }

    // Events

    fn poll(&self, part: u32) -> bool {
        let pending = self.world.frames.get(ROOT, LINES);
        let lines = (0..16).filter(|line| pending >> line & 1 != 0).all(|line| self.handler(ROOT, 32 + line));
        lines && (part == 0 || self.save(part, SAVED))
    }

    fn fault(&self, part: u32, fault: Fault) -> bool {
        self.delivery(part, if fault == Fault::Alignment { 17 } else { 14 })
    }

    fn load(&self, part: u32, address: u32, access: Access, is_word: bool) -> bool {
        match self.reached(part, address, access, is_word) {
            Ok(place) => self.blind.sees(place),
            Err(fault) => self.fault(part, fault),
        }
    }

    fn store(&self, part: u32, address: u32, is_word: bool) -> bool {
        match self.reached(part, address, Access::Store, is_word) {
            Ok(place) => is_word || self.blind.owner(place).is_none(),
            Err(fault) => self.fault(part, fault),
        }
    }

    fn call(&self, part: u32, number: u32, x: [u32; 5]) -> bool {
        match number {
            PREPARE => self.chain(part, x[2]),
            YIELD => {
                let target = self.world.target(part, x[0]);
                target.map_or(true, |to| self.handler(to, x[1])) && (x[2] >= NOWHERE || self.save(part, x[2]))
            }
            _ => true,
        }
    }

    /// Three pages of a chain at most have a word that is looked at.
    fn chain(&self, part: u32, mut address: u32) -> bool {
        for _ in 0..3 {
            let row = self.world.frames.row(part, address);
            if !self.blind.sees(row / PAGE * WORDS) {
                return false;
            }
            address = if row & USER != 0 { self.world.frames.get(row / PAGE, 0) } else { 0 };
        }
        true
    }

    fn deed(&self, part: u32, event: Event) -> bool {
        match event {
            Event::Load(address, is_word) => {
                self.reached(part, address, Access::Load, is_word).err().is_none_or(|fault| self.fault(part, fault))
            }
            Event::Store(address, is_word, _) => self.store(part, address, is_word),
            Event::Trap(vector, _, _) => self.delivery(part, vector),
            Event::Call(number, arguments) => self.call(part, number, arguments),
        }
    }

    /// A fetch, and what the instruction does.
    fn instruction(&self, cpu: usize, part: u32) -> bool {
        let context = &self.world.processors[cpu].context;
        if self.blind.own.contains(&part) || !self.load(part, context.pc, Access::Fetch, true) {
            return false;
        }
        let Ok(place) = self.reached(part, context.pc, Access::Fetch, true) else { return true };
        let (word, r) = (self.world.frames.word(place), &context.registers);
        let (opcode, immediate) = (word >> 24, word & 0xffff);
        let address = r[(word >> 16 & 15) as usize].wrapping_add(immediate as u16 as i16 as u32);
        let is_invalid = word & UNUSED[opcode as usize] != 0
            || matches!(opcode, 0x14 | 0x15) && immediate > 31
            || opcode == 0x21 && !(64..256).contains(&immediate);
        match opcode {
            _ if is_invalid => self.delivery(part, 6),
            0x07 | 0x08 => r[(word >> 12 & 15) as usize] != 0 || self.delivery(part, 0),
            0x16 | 0x18 => self.load(part, address, Access::Load, opcode == 0x16),
            0x17 | 0x19 => self.store(part, address, opcode == 0x17),
            0x20 => self.call(part, immediate, [r[1], r[2], r[3], r[4], r[5]]),
            0x21 => self.delivery(part, immediate),
            0x01..=0x22 => true,
            _ => self.delivery(part, 6),
        }
    }

    // Partitions

    /// One of those whose programs may be any, without children.
    fn is_confined(&self, part: u32) -> bool {
        let frames = &self.world.frames;
        let mut children = 0;
        for slot in 0..frames.get(part, TABLES) {
            let (page, at) = frames.slot(part, slot);
            let kinds = frames.frame(frames.get(page, at + 3));
            children += kinds.iter().filter(|&kind| kind % PAGE == DESCRIPTOR).count();
        }
        self.blind.own.contains(&part) && part != ROOT && children == 0
    }

    /// A partition has exactly the rows that are named of another, and none of their pages is hidden.
    fn has_rows(&self, part: u32, owner: u32) -> bool {
        let frames = &self.world.frames;
        let named = || self.blind.rows.iter().filter(|row| row[0] == owner);
        let mut count = 0;
        for slot in 0..frames.get(part, TABLES) {
            let (page, at) = frames.slot(part, slot);
            count += frames.frame(frames.get(page, at + 1)).iter().filter(|&&row| row & READ != 0).count();
        }
        let rises = named().zip(named().skip(1)).all(|(row, next)| row[1] < next[1]);
        rises && count == named().count() && named().all(|&[_, at, page, rights]| {
            let row = if at < 1 << 20 { frames.row(part, at * PAGE) } else { 0 };
            row & USER != 0 && row / PAGE == page && row / READ & 7 == rights
        })
    }
}
