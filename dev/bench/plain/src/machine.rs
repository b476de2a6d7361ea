//! A machine: frames, processors and their translation caches, and every event but the calls on memory (docs/MODEL.md).

use crate::frames::*;
use crate::Stop;

pub const PROCESSORS: usize = 4;
/// The vector in whose block a fault, a trap and an interrupt line save what ran.
pub const SAVED: u32 = 63;
/// In place of a vector: nothing is saved.
pub const NOWHERE: u32 = 256;
pub const HANDLERS: u32 = 0xfffff000;
/// Where in a page a block can begin at most.
const LAST_BLOCK: u32 = 4028;

#[derive(Clone, Copy, PartialEq, Eq, Hash, Debug)]
#[repr(u32)]
pub enum Status {
    Ok = 0,
    UnknownCall = 1,
    NotAligned = 2,
    NullPage = 3,
    Repeated = 4,
    NotChild = 5,
    NotMapped = 6,
    NotFree = 7,
    NoRight = 8,
    NoTable = 9,
    Taken = 10,
    Absent = 11,
    LentOn = 12,
    NotEmpty = 13,
    Running = 14,
    BadVector = 15,
    NoHandler = 16,
    BadSave = 18,
}

#[derive(Clone, Copy, PartialEq, Eq, Hash)]
pub struct Switch {
    pub from: u32,
    pub to: u32,
    pub vector: u32,
}

#[derive(Clone, Copy)]
pub enum Outcome {
    Word(u32),
    Done,
    Reply(Status, u32),
    Switched(Switch),
    Parked(u32, u32),
    Idle,
}

#[derive(Clone, Copy, PartialEq)]
#[repr(u32)]
pub enum Access {
    Load = 0,
    Store = 1,
    Fetch = 2,
}

impl Access {
    /// The bits that a row needs for it.
    #[inline]
    pub fn need(self) -> u32 {
        match self {
            Access::Load => READ | USER,
            Access::Store => WRITE | USER,
            Access::Fetch => EXECUTE | USER,
        }
    }
}

#[derive(Clone, Copy, PartialEq)]
#[repr(u32)]
pub enum Fault {
    Alignment = 0,
    Unmapped = 1,
    Hidden = 2,
    Right = 3,
}

#[derive(Clone, Copy, Default, PartialEq)]
pub struct Context {
    pub pc: u32,
    pub registers: [u32; 16],
}

/// What runs on a processor: the partition's name, 0 if it is idle.
#[derive(Clone, Copy, Default, PartialEq)]
pub struct Processor {
    pub part: u32,
    pub context: Context,
}

/// A row as an access found it. The tag is of the partition and the vpage, 0 if there is none.
#[derive(Clone, Copy, Default)]
struct Entry {
    tag: u32,
    row: u32,
}

#[derive(Clone)]
pub struct Machine<const LOGGED: bool> {
    pub frames: Frames<LOGGED>,
    pub processors: [Processor; PROCESSORS],
    pub count: usize,
    caches: [[Entry; 64]; PROCESSORS],
}

impl<const LOGGED: bool> Machine<LOGGED> {
    pub fn boot(frames: u32, count: usize) -> Result<Self, Stop> {
        let mut processors = [Processor::default(); PROCESSORS];
        processors[0] = Processor { part: ROOT, context: Context { pc: 0x00400000, registers: [0; 16] } };
        let caches = [[Entry::default(); 64]; PROCESSORS];
        Ok(Machine { frames: Frames::boot(frames)?, processors, count, caches })
    }

    pub fn runs(&self, part: u32) -> bool {
        self.processors.iter().any(|at| at.part == part)
    }

    /// Forgets all rows that the caches hold.
    pub fn empty_caches(&mut self) {
        self.caches[..self.count].fill([Entry::default(); 64]);
    }

    // Accesses

    /// The place of the word that an access of what runs on a processor reaches.
    #[inline]
    fn reach(&mut self, cpu: usize, address: u32, access: Access, is_word: bool) -> Result<u32, Fault> {
        if is_word && address % 4 != 0 {
            return Err(Fault::Alignment);
        }
        let (part, vpage) = (self.processors[cpu].part, address / PAGE);
        let tag = part << 20 | vpage;
        let held = &self.caches[cpu][vpage as usize % 64];
        let row = if held.tag == tag { held.row } else { self.missed(cpu, part, vpage, access) };
        if row & access.need() != access.need() {
            return Err(fault_of(row));
        }
        Ok(row / PAGE * WORDS + address % PAGE / 4)
    }

    /// The row at a vpage, which the cache holds then if the access reaches a word by it.
    #[inline(never)]
    fn missed(&mut self, cpu: usize, part: u32, vpage: u32, access: Access) -> u32 {
        let row = self.frames.entry(part, MMU, vpage);
        if row & access.need() == access.need() {
            self.caches[cpu][vpage as usize % 64] = Entry { tag: part << 20 | vpage, row };
        }
        row
    }

    /// The word or byte that a load or fetch of what runs there reaches.
    #[inline]
    pub fn loaded(&mut self, cpu: usize, address: u32, access: Access, is_word: bool) -> Result<u32, Fault> {
        let place = self.reach(cpu, address, access, is_word)?;
        let word = self.frames.word(place);
        Ok(if is_word { word } else { word >> (8 * (address % 4)) & 0xff })
    }

    /// Stores a word or byte for what runs there.
    #[inline]
    pub fn stored(&mut self, cpu: usize, address: u32, is_word: bool, value: u32) -> Result<(), Fault> {
        let place = self.reach(cpu, address, Access::Store, is_word)?;
        let shift = 8 * (address % 4);
        let word = if is_word { value } else { self.frames.word(place) & !(0xff << shift) | value << shift };
        self.frames.set_word(place, word);
        Ok(())
    }

    pub fn load(&mut self, cpu: usize, address: u32, is_word: bool) -> Outcome {
        self.read(cpu, address, Access::Load, is_word)
    }

    pub fn fetch(&mut self, cpu: usize) -> Outcome {
        self.read(cpu, self.processors[cpu].context.pc, Access::Fetch, true)
    }

    #[inline]
    fn read(&mut self, cpu: usize, address: u32, access: Access, is_word: bool) -> Outcome {
        if self.processors[cpu].part == 0 {
            return Outcome::Idle;
        }
        match self.loaded(cpu, address, access, is_word) {
            Ok(word) => Outcome::Word(word),
            Err(fault) => self.fault(cpu, address, access, fault),
        }
    }

    pub fn store(&mut self, cpu: usize, address: u32, is_word: bool, value: u32) -> Outcome {
        if self.processors[cpu].part == 0 {
            return Outcome::Idle;
        }
        match self.stored(cpu, address, is_word, value) {
            Ok(()) => Outcome::Done,
            Err(fault) => self.fault(cpu, address, Access::Store, fault),
        }
    }

    #[cold]
    pub fn fault(&mut self, cpu: usize, address: u32, access: Access, fault: Fault) -> Outcome {
        let vector = if fault == Fault::Alignment { 17 } else { 14 };
        self.deliver(cpu, vector, address, 16 * access as u32 + fault as u32)
    }

    pub fn trap(&mut self, cpu: usize, vector: u32, first: u32, second: u32) -> Outcome {
        if self.processors[cpu].part == 0 {
            return Outcome::Idle;
        }
        self.deliver(cpu, vector, first, second)
    }

    // Blocks

    /// The place of a partition's block for a vector that the partition can load, and the row of its page.
    pub fn block(&self, part: u32, vector: u32) -> Option<(u32, u32)> {
        let handlers = self.frames.entry(part, MMU, HANDLER_PAGE);
        if handlers & USER == 0 {
            return None;
        }
        let address = self.frames.get(handlers / PAGE, vector);
        let row = self.frames.row(part, address);
        let is_block = address % 4 == 0 && address % PAGE <= LAST_BLOCK && row & USER != 0;
        is_block.then_some((row / PAGE * WORDS + address % PAGE / 4, row))
    }

    /// The place of a partition's block for a vector that it can store to.
    pub fn save_place(&self, part: u32, vector: u32) -> Option<u32> {
        let (place, row) = self.block(part, vector)?;
        (row & WRITE != 0).then_some(place)
    }

    pub fn context_at(&self, place: u32) -> Context {
        let words = &self.frames.words()[place as usize..place as usize + 17];
        let mut registers = [0; 16];
        registers.copy_from_slice(&words[1..]);
        Context { pc: words[0], registers }
    }

    pub fn put_context(&mut self, place: u32, context: &Context) {
        self.frames.set_word(place, context.pc);
        for (index, &word) in (1..).zip(&context.registers) {
            self.frames.set_word(place + index, word);
        }
    }

    /// Enters a partition by a block, with these first registers.
    fn enter(&mut self, cpu: usize, to: u32, place: u32, registers: [u32; 4]) {
        let mut context = self.context_at(place);
        context.registers[..4].copy_from_slice(&registers);
        self.save(cpu);
        self.processors[cpu] = Processor { part: to, context };
    }

    /// Saves what runs on a processor in its block for SAVED, if something runs there and that can be saved to.
    fn save(&mut self, cpu: usize) {
        let Processor { part, context } = self.processors[cpu];
        if part == 0 {
            return;
        }
        if let Some(place) = self.save_place(part, SAVED) {
            self.put_context(place, &context);
        }
    }

    // Control

    /// A fault or trap goes to the nearest partition above that can take it.
    fn deliver(&mut self, cpu: usize, vector: u32, first: u32, second: u32) -> Outcome {
        let from = self.processors[cpu].part;
        let mut below = from;
        while below != ROOT {
            let taker = self.frames.get(below, PARENT);
            if let Some((place, _)) = self.block(taker, vector).filter(|_| !self.runs(taker)) {
                self.enter(cpu, taker, place, [vector, first, second, self.frames.get(below, BORN)]);
                return Outcome::Switched(Switch { from, to: taker, vector });
            }
            below = taker;
        }
        self.save(cpu);
        self.processors[cpu] = Processor::default();
        Outcome::Parked(from, vector)
    }

    pub fn raise(&mut self, line: u32) {
        self.frames.set(ROOT, LINES, self.frames.get(ROOT, LINES) | 1 << line);
    }

    #[inline]
    pub fn poll(&mut self, cpu: usize) -> Outcome {
        if let Some(switch) = self.polled(cpu) {
            return Outcome::Switched(switch);
        }
        if self.processors[cpu].part == 0 {
            Outcome::Idle
        } else {
            Outcome::Done
        }
    }

    /// The switch of a line that is taken.
    #[inline]
    pub fn polled(&mut self, cpu: usize) -> Option<Switch> {
        if self.frames.get(ROOT, LINES) == 0 {
            None
        } else {
            self.take_line(cpu)
        }
    }

    #[inline(never)]
    fn take_line(&mut self, cpu: usize) -> Option<Switch> {
        let from = self.processors[cpu].part;
        let is_held_up = if from == ROOT { self.frames.get(ROOT, FLAGS) & 1 != 0 } else { self.runs(ROOT) };
        if is_held_up {
            return None;
        }
        let pending = self.frames.get(ROOT, LINES);
        let lines = (0..16).filter(|line| pending >> line & 1 != 0);
        let (line, place) = lines.filter_map(|line| Some((line, self.block(ROOT, 32 + line)?.0))).next()?;
        self.enter(cpu, ROOT, place, [32 + line, 0, 0, 0]);
        self.frames.set(ROOT, LINES, pending & !(1 << line));
        self.frames.set(ROOT, FLAGS, 1);
        Some(Switch { from, to: ROOT, vector: 32 + line })
    }

    /// The call yield.
    pub fn yield_to(&mut self, cpu: usize, target: u32, vector: u32, save: u32) -> Result<Switch, Status> {
        let Processor { part: from, mut context } = self.processors[cpu];
        let to = self.target(from, target)?;
        if vector >= NOWHERE || save > NOWHERE {
            return Err(Status::BadVector);
        }
        if to != from && self.runs(to) {
            return Err(Status::Running);
        }
        let (place, _) = self.block(to, vector).ok_or(Status::NoHandler)?;
        let entered = self.context_at(place);
        if save < NOWHERE {
            let saved = self.save_place(from, save).ok_or(Status::BadSave)?;
            context.registers[..2].fill(0);
            self.put_context(saved, &context);
        }
        if from == ROOT {
            self.frames.set(ROOT, FLAGS, 0);
        }
        self.processors[cpu] = Processor { part: to, context: entered };
        Ok(Switch { from, to, vector })
    }

    /// The partition that a yield goes to.
    pub fn target(&self, from: u32, target: u32) -> Result<u32, Status> {
        match target {
            0 if from == ROOT => Err(Status::NotChild),
            0 => Ok(self.frames.get(from, PARENT)),
            1 => Ok(from),
            _ if target % PAGE != 0 => Err(Status::NotAligned),
            _ => self.frames.child_at(from, target).ok_or(Status::NotChild),
        }
    }
}

/// Why an access by a row is refused.
pub fn fault_of(row: u32) -> Fault {
    match row {
        0 => Fault::Unmapped,
        _ if row & USER == 0 => Fault::Hidden,
        _ => Fault::Right,
    }
}
