//! A machine with what happened on it: who is who by creation, what each event meant when it came, and who wrote each
//! byte last.

use crate::random::Random;
use alloc::boxed::Box;
use alloc::collections::BTreeSet;
use alloc::vec;
use alloc::vec::Vec;
use pip_base::{Ctx, Outcome, Size, Status, Steps};
use pip_frames::RawFrames;
use pip_isa::{Instr, decode};
use pip_model::{Port, Register};
use pip_switch::Machine;
use rattle_std::marker::Brand;
use rattle_std::sync::ledger::{Blank, Ledger};

/// A partition by its creation, whatever its frame is: the place in `World::parts`.
pub type Id = usize;
pub const ROOT: Id = 0;

pub const PAGE: u32 = 4096;
pub const HANDLERS: u32 = 0xffff_f000;
/// The block in which faults, traps and lines save.
pub const SAVED: u32 = 63;

/// The writer of a byte that no event wrote.
pub const NOBODY: u32 = u32::MAX;
/// The writer of a byte that an instruction of a program stored.
const PROGRAM: u32 = u32::MAX - 1;

/// `beq r0 r0 -1`, a branch to itself.
const STAY: u32 = 0x1a00_ffff;

const USER: u32 = 2;
const WRITE: u32 = 8;

/// A word of memory.
#[derive(Clone, Copy, PartialEq, Eq, PartialOrd, Ord)]
pub struct At {
    pub frame: u32,
    pub index: u32,
}

/// The events that wrote the four bytes of a word last.
pub type Writers = [u32; 4];

pub struct Part {
    pub name: u32,
    pub parent: Id,
    /// Its address in the parent.
    pub born: u32,
    /// The event that made it; the root has none.
    pub made: usize,
    pub ended: Option<usize>,
}

#[derive(Clone, Copy, PartialEq, Eq)]
pub enum Act {
    Load { va: u32, size: Size, at: Option<At>, writers: Writers },
    Store { va: u32, at: Option<At>, was: u32, now: u32, writers: Writers },
    Fetch,
    Trap { vector: u32 },
    Call { no: u32, args: [u32; 5] },
    Raise { line: u32, pending: bool },
    Poll,
    Peek { at: At, word: Option<u32>, writers: Writers },
    Reg { number: u32 },
    Out { word: u32 },
}

#[derive(Clone, Copy, PartialEq, Eq)]
pub enum Why {
    Fault,
    Trap,
    Yield,
    Line,
}

/// A processor came to run another partition, or nothing.
pub struct Moved {
    pub from: Option<Id>,
    pub to: Option<Id>,
    pub vector: u32,
    pub why: Why,
    /// The context with which the partition is entered.
    pub entered: Ctx,
    /// Where the partition that was left is saved.
    pub saved: Option<At>,
    /// The context that it was left with.
    pub left: Option<Ctx>,
    /// Of a script, what the block has by which the partition is entered.
    pub block: Option<Ctx>,
    /// The event that saved what is entered, where the block still has all of that; None where it begins by a block
    /// that was written.
    pub resumed: Option<usize>,
}

pub struct Event {
    /// The line of the text, or the step.
    pub place: u32,
    pub cpu: Option<u32>,
    /// What ran there.
    pub who: Option<Id>,
    pub act: Act,
    pub outcome: Outcome,
    pub before: Option<Ctx>,
    pub moved: Option<Box<Moved>>,
    /// Of a deletion, the words that were configuration and not 0, and are visible now.
    pub cleared: Vec<At>,
}

impl Event {
    /// The call that was made, with its arguments by name.
    pub fn call(&self) -> Option<Call> {
        match self.act {
            Act::Call { no, args } => Some(named(no, args)),
            _ => None,
        }
    }

    pub fn status(&self) -> Option<Status> {
        match self.outcome {
            Outcome::Reply { status, .. } => Some(status),
            _ => None,
        }
    }

    pub fn is_ok(&self) -> bool {
        self.status() == Some(Status::Ok)
    }

    /// The call of the root that was answered so.
    pub fn of_root(&self, status: Status) -> Option<Call> {
        self.call().filter(|_| self.who == Some(ROOT) && self.status() == Some(status))
    }

    pub fn is_trouble(&self) -> bool {
        matches!(self.outcome, Outcome::Parked { .. }) || self.status().is_some_and(|status| status != Status::Ok)
    }
}

/// A call: `child` is where the caller has the child's descriptor, `at` an address in the child.
#[derive(Clone, Copy, PartialEq, Eq)]
pub enum Call {
    Create { pages: [u32; 5] },
    Delete { child: u32 },
    Collect { child: u32, at: u32 },
    Lend { page: u32, child: u32, at: u32 },
    Take { child: u32, at: u32 },
    Ask { page: u32 },
    Yield { target: u32, save: u32 },
    Other,
}

fn named(no: u32, args: [u32; 5]) -> Call {
    let [a, b, c, _, _] = args;
    match no {
        0 => Call::Create { pages: args },
        1 => Call::Delete { child: a },
        4 => Call::Collect { child: a, at: b },
        5 => Call::Lend { page: a, child: b, at: c },
        6 => Call::Take { child: a, at: b },
        7 => Call::Ask { page: a },
        8 => Call::Yield { target: a, save: c },
        _ => Call::Other,
    }
}

/// What a child does in a program, in the place of its own instructions: words from its first pc on, again and again.
pub struct Hostile {
    pub texts: Vec<Vec<u32>>,
    begun: Vec<(Id, u32)>,
}

impl Hostile {
    pub fn new(texts: Vec<Vec<u32>>) -> Hostile {
        Hostile { texts, begun: Vec::new() }
    }

    fn word(&mut self, who: Id, pc: u32) -> u32 {
        let known = self.begun.iter().position(|(id, _)| *id == who);
        let at = known.unwrap_or_else(|| {
            self.begun.push((who, pc));
            self.begun.len() - 1
        });
        let text = &self.texts[at % self.texts.len()];
        text[(pc.wrapping_sub(self.begun[at].1) / 4) as usize % text.len()]
    }
}

pub struct World {
    machine: Machine<RawFrames>,
    pub parts: Vec<Part>,
    pub events: Vec<Event>,
    pub place: u32,
    pub hostile: Option<Hostile>,
    /// By which a child stays where it is in some of its steps.
    pub stalls: Option<Random>,
    /// Words that registers had.
    pub noted: BTreeSet<u32>,
    is_program: bool,
    writers: Vec<Option<Box<[u32; 4096]>>>,
}

/// A counter that nobody reads.
pub fn steps() -> Steps<Brand> {
    Steps::new(Blank::new(1))
}

// What has to be known before an event.
struct Before {
    who: Option<Id>,
    ctx: Option<Ctx>,
    save: Option<At>,
}

impl World {
    pub fn new(machine: Machine<RawFrames>, frames: u32, is_program: bool) -> World {
        let root = Part { name: 1, parent: ROOT, born: 0, made: 0, ended: None };
        let mut writers = Vec::new();
        writers.resize_with(frames as usize, || None);
        World {
            machine,
            parts: vec![root],
            events: Vec::new(),
            place: 0,
            hostile: None,
            stalls: None,
            noted: BTreeSet::new(),
            is_program,
            writers,
        }
    }

    /// Notes what the registers of a processor have.
    pub fn note(&mut self, cpu: u32) {
        self.noted.extend(self.ctx(cpu).into_iter().flat_map(|ctx| ctx.regs));
    }

    // Looking

    pub fn peek(&self, frame: u32, index: u32) -> Option<u32> {
        self.machine.peek(frame, index, &mut steps())
    }

    fn word_in(&self, frame: u32, index: u32) -> u32 {
        self.peek(frame, index).unwrap_or(0)
    }

    pub fn word_at(&self, at: At) -> u32 {
        self.word_in(at.frame, at.index)
    }

    pub fn alive(&self, id: Id) -> bool {
        self.parts[id].ended.is_none()
    }

    /// The children of the root, with those that are no more.
    pub fn children(&self) -> impl Iterator<Item = Id> {
        (1..self.parts.len()).filter(|id| self.parts[*id].parent == ROOT)
    }

    /// The partition that runs on a processor.
    pub fn runs(&self, cpu: u32) -> Option<Id> {
        let name = self.machine.runs(cpu)?.number();
        self.id_of(name)
    }

    pub fn id_of(&self, name: u32) -> Option<Id> {
        self.parts.iter().position(|part| part.ended.is_none() && part.name == name)
    }

    pub fn ctx(&self, cpu: u32) -> Option<Ctx> {
        if cpu < self.machine.cpus() { self.machine.ctx(cpu).copied() } else { None }
    }

    /// The word of a partition's page table for an address, with its place; 0 where it has no page there.
    pub fn leaf(&self, id: Id, va: u32) -> (u32, Option<At>) {
        let directory = self.word_in(self.parts[id].name, 3);
        let entry = self.word_in(directory, va >> 22);
        if entry == 0 {
            return (0, None);
        }
        let at = At { frame: entry / PAGE, index: va / PAGE % 1024 };
        (self.word_at(at), Some(at))
    }

    /// The word that a partition finds at an address; None where it has no page there that it can use.
    pub fn at(&self, id: Id, va: u32) -> Option<At> {
        let (leaf, _) = self.leaf(id, va);
        (leaf & USER != 0).then_some(At { frame: leaf / PAGE, index: va % PAGE / 4 })
    }

    pub fn word(&self, id: Id, va: u32) -> Option<u32> {
        self.at(id, va).map(|at| self.word_at(at))
    }

    /// The rights of a page that the partition can use: 1 read, 2 write, 4 execute; 0 where it has none.
    pub fn rights(&self, id: Id, va: u32) -> u32 {
        let (leaf, _) = self.leaf(id, va);
        if leaf & USER == 0 { 0 } else { leaf >> 2 & 7 }
    }

    /// Where a partition's block for a vector begins.
    pub fn block(&self, id: Id, vector: u32) -> Option<At> {
        let address = self.word(id, HANDLERS + 4 * vector)?;
        if address % 4 != 0 || address % PAGE > 4028 {
            return None;
        }
        self.at(id, address)
    }

    fn context_at(&self, at: At) -> Ctx {
        let word = |k: u32| self.word_in(at.frame, at.index + k);
        Ctx { pc: word(0), regs: core::array::from_fn(|k| word(1 + k as u32)) }
    }

    fn block_to_save(&self, id: Id, vector: u32) -> Option<At> {
        if vector > 255 {
            return None;
        }
        let address = self.word(id, HANDLERS + 4 * vector)?;
        let (leaf, _) = self.leaf(id, address);
        self.block(id, vector).filter(|_| leaf & WRITE != 0)
    }

    pub fn is_masked(&self) -> bool {
        self.word_in(1, 14) & 1 != 0
    }

    pub fn pending(&self) -> u32 {
        self.word_in(1, 15)
    }

    /// The root's rows: address, word of the page table, what the page is given away for.
    pub fn root_rows(&self) -> Vec<(u32, u32, u32)> {
        let (mmu, shadow) = (self.word_in(1, 3), self.word_in(1, 5));
        let mut rows = Vec::new();
        for directory in 0..1024 {
            let (table, uses) = (self.word_in(mmu, directory) / PAGE, self.word_in(shadow, directory) / PAGE);
            for index in 0..if table == 0 { 0 } else { 1024 } {
                let word = self.word_in(table, index);
                if word != 0 {
                    rows.push(((directory * 1024 + index) * PAGE, word, self.word_in(uses, index)));
                }
            }
        }
        rows
    }

    pub fn hidden_frames(&self) -> Vec<u32> {
        self.root_rows().iter().filter(|(_, word, _)| word & USER == 0).map(|(_, word, _)| word / PAGE).collect()
    }

    /// The root's address of a word.
    pub fn root_address(&self, at: At) -> Option<u32> {
        let rows = self.root_rows();
        rows.iter().find(|(_, word, _)| word / PAGE == at.frame).map(|(va, _, _)| va + 4 * at.index)
    }

    /// The word at the pc of what runs on a processor.
    pub fn at_pc(&self, cpu: u32) -> Option<At> {
        self.at(self.runs(cpu)?, self.ctx(cpu)?.pc)
    }

    // Who wrote

    pub fn writers(&self, at: At) -> Writers {
        let from = 4 * at.index as usize;
        match self.writers.get(at.frame as usize) {
            Some(Some(bytes)) => [bytes[from], bytes[from + 1], bytes[from + 2], bytes[from + 3]],
            _ => [NOBODY; 4],
        }
    }

    fn wrote(&mut self, frame: u32, bytes: core::ops::Range<usize>, writer: u32) {
        let Some(place) = self.writers.get_mut(frame as usize) else { return };
        place.get_or_insert_with(|| Box::new([NOBODY; 4096]))[bytes].fill(writer);
    }

    fn is_store(&self, writer: u32, who: impl Fn(&Event) -> bool) -> bool {
        self.events.get(writer as usize).is_some_and(|event| matches!(event.act, Act::Store { .. }) && who(event))
    }

    /// Whether a partition stored the word: by one store, or byte by byte.
    pub fn stored_by(&self, writers: &Writers, who: impl Fn(&Event) -> bool) -> bool {
        writers.iter().all(|writer| self.is_store(*writer, &who))
    }

    // Whether what isn't 0 in a word was stored by a partition, and the zeros by it or by nobody.
    fn is_of(&self, word: u32, writers: &Writers, who: impl Fn(&Event) -> bool) -> bool {
        let mut bytes = word.to_le_bytes().into_iter().zip(writers);
        writers.iter().any(|writer| self.is_store(*writer, &who))
            && bytes.all(|(byte, writer)| self.is_store(*writer, &who) || *writer == NOBODY && byte == 0)
    }

    /// Whether a partition finds this word there now, which another stored.
    pub fn finds(&self, id: Id, va: u32, word: u32, who: impl Fn(&Event) -> bool) -> bool {
        self.at(id, va).is_some_and(|at| self.word_at(at) == word && self.is_of(word, &self.writers(at), who))
    }

    /// Whether all of a block is still what an event saved there.
    pub fn is_kept(&self, event: usize) -> bool {
        let saved = self.events[event].moved.as_ref().and_then(|moved| moved.saved);
        saved.is_some_and(|at| self.saver(at) == Some(event))
    }

    // The event that wrote all bytes of the block at a place by saving there.
    fn saver(&self, at: At) -> Option<usize> {
        let first = self.writers(at)[0];
        let event = self.events.get(first as usize)?;
        let is_saved = event.moved.as_ref().is_some_and(|moved| moved.saved == Some(at));
        let all = (0..17).all(|k| self.writers(At { index: at.index + k, ..at }) == [first; 4]);
        (is_saved && all).then_some(first as usize)
    }

    // Events

    /// The events by which a processor came to run something else, with their numbers.
    pub fn moves(&self) -> impl Iterator<Item = (usize, &Event, &Moved)> {
        self.events.iter().enumerate().filter_map(|(k, event)| Some((k, event, event.moved.as_deref()?)))
    }

    /// The last of them on a processor.
    pub fn last_moved(&self, cpu: u32) -> Option<usize> {
        self.events.iter().rposition(|event| event.cpu == Some(cpu) && event.moved.is_some())
    }

    /// Whether a processor kept running what it ran, between two events.
    pub fn stays(&self, cpu: u32, after: usize, before: usize) -> bool {
        !self.events[after + 1..before].iter().any(|event| event.cpu == Some(cpu) && event.moved.is_some())
    }

    fn before(&self, cpu: u32, vector: u32) -> Before {
        let who = self.runs(cpu);
        Before { who, ctx: self.ctx(cpu), save: who.and_then(|id| self.block_to_save(id, vector)) }
    }

    fn log(&mut self, cpu: Option<u32>, before: Before, act: Act, outcome: Outcome) {
        let number = self.events.len();
        let moved = match outcome {
            Outcome::Switched { to, vector, .. } => Some(self.moved(cpu, &before, act, self.id_of(to), vector)),
            Outcome::Parked { vector, .. } => Some(self.moved(cpu, &before, act, None, vector)),
            _ => None,
        };
        if let Some(at) = moved.as_ref().and_then(|moved| moved.saved) {
            self.wrote(at.frame, 4 * at.index as usize..4 * at.index as usize + 68, number as u32);
        }
        let event = Event {
            place: self.place,
            cpu,
            who: before.who,
            act,
            outcome,
            before: before.ctx,
            moved,
            cleared: Vec::new(),
        };
        self.events.push(event);
    }

    fn moved(&self, cpu: Option<u32>, before: &Before, act: Act, to: Option<Id>, vector: u32) -> Box<Moved> {
        let why = match act {
            Act::Call { .. } => Why::Yield,
            Act::Trap { .. } => Why::Trap,
            Act::Poll => Why::Line,
            _ => Why::Fault,
        };
        let resumed = to.filter(|_| why == Why::Yield).and_then(|id| self.resumed(id, vector));
        let entered = cpu.and_then(|cpu| self.ctx(cpu)).unwrap_or(Ctx { pc: 0, regs: [0; 16] });
        let left = before.save.map(|at| self.context_at(at)).or(before.ctx);
        let block = to.filter(|_| !self.is_program).and_then(|id| self.block(id, vector));
        let block = block.map(|at| self.context_at(at));
        Box::new(Moved { from: before.who, to, vector, why, entered, saved: before.save, left, block, resumed })
    }

    fn resumed(&self, id: Id, vector: u32) -> Option<usize> {
        let event = self.saver(self.block(id, vector)?)?;
        let from = self.events[event].moved.as_ref().and_then(|moved| moved.from);
        (from == Some(id)).then_some(event)
    }

    /// A line of a script that only looks.
    pub fn look(&mut self, act: Act, cpu: Option<u32>, outcome: Outcome) {
        let who = cpu.and_then(|cpu| self.runs(cpu));
        self.log(cpu, Before { who, ctx: None, save: None }, act, outcome);
    }

    fn call_made(&mut self, caller: Id, call: Call, frame: u32) {
        let number = self.events.len() - 1;
        match call {
            Call::Create { pages: [born, ..] } => {
                self.parts.push(Part { name: frame, parent: caller, born, made: number, ended: None });
            }
            Call::Delete { child } => {
                let is_it = |part: &Part| part.ended.is_none() && part.parent == caller && part.born == child;
                if let Some(id) = self.parts.iter().position(is_it) {
                    self.end(id, number);
                }
            }
            _ => {}
        }
    }

    fn end(&mut self, id: Id, event: usize) {
        self.parts[id].ended = Some(event);
        for child in id + 1..self.parts.len() {
            if self.parts[child].parent == id && self.parts[child].ended.is_none() {
                self.end(child, event);
            }
        }
    }

    // What a deletion or a collection makes visible was written by it.
    fn clear(&mut self, hidden: &[(u32, Vec<u32>)]) {
        let (number, left) = (self.events.len() - 1, self.hidden_frames());
        for (frame, words) in hidden.iter().filter(|(frame, _)| !left.contains(frame)) {
            self.wrote(*frame, 0..4096, number as u32);
            let cleared = words.iter().map(|index| At { frame: *frame, index: *index });
            self.events[number].cleared.extend(cleared);
        }
    }

    // The hidden frames, each with the indexes of its words that aren't 0.
    fn words_hidden(&self) -> Vec<(u32, Vec<u32>)> {
        let used = |frame: u32| (0..1024).filter(|index| self.word_in(frame, *index) != 0).collect();
        self.hidden_frames().into_iter().map(|frame| (frame, used(frame))).collect()
    }
}

impl Port for World {
    fn cpus(&self) -> u32 {
        self.machine.cpus()
    }

    fn load<L: Ledger>(&mut self, cpu: u32, va: u32, size: Size, steps: &mut Steps<L>) -> Outcome {
        if self.is_program {
            return self.quick(cpu, Act::Load { va, size, at: None, writers: [NOBODY; 4] }, |machine| {
                machine.load(cpu, va, size, steps)
            });
        }
        let before = self.before(cpu, SAVED);
        let at = before.who.and_then(|id| self.at(id, va));
        let outcome = self.machine.load(cpu, va, size, steps);
        let at = at.filter(|_| matches!(outcome, Outcome::Word(_)));
        let writers = at.map_or([NOBODY; 4], |at| self.writers(at));
        self.log(Some(cpu), before, Act::Load { va, size, at, writers }, outcome);
        outcome
    }

    fn store<L: Ledger>(&mut self, cpu: u32, va: u32, size: Size, word: u32, steps: &mut Steps<L>) -> Outcome {
        let before = self.before(cpu, SAVED);
        let place = before.who.and_then(|id| self.at(id, va));
        let was = place.map_or(0, |at| self.word_at(at));
        let outcome = self.machine.store(cpu, va, size, word, steps);
        let at = place.filter(|_| outcome == Outcome::Done);
        let bytes = if size == Size::Word {
            va as usize % 4096..va as usize % 4096 + 4
        } else {
            va as usize % 4096..va as usize % 4096 + 1
        };
        let writer = if self.is_program { PROGRAM } else { self.events.len() as u32 };
        if let Some(at) = at {
            self.wrote(at.frame, bytes, writer);
        }
        if !self.is_program || outcome != Outcome::Done {
            let (now, writers) = at.map_or((0, [NOBODY; 4]), |at| (self.word_at(at), self.writers(at)));
            self.log(Some(cpu), before, Act::Store { va, at, was, now, writers }, outcome);
        }
        outcome
    }

    fn fetch<L: Ledger>(&mut self, cpu: u32, steps: &mut Steps<L>) -> Outcome {
        if !self.is_program {
            let before = self.before(cpu, SAVED);
            let outcome = self.machine.fetch(cpu, steps);
            self.log(Some(cpu), before, Act::Fetch, outcome);
            return outcome;
        }
        let who = self.runs(cpu);
        let outcome = match self.instead(cpu, who) {
            Some(word) => Outcome::Word(word),
            None => self.quick(cpu, Act::Fetch, |machine| machine.fetch(cpu, steps)),
        };
        if let Outcome::Word(word) = outcome
            && let Some(Instr::Out { a }) = decode(word)
            && let Some(ctx) = self.ctx(cpu)
        {
            let before = Before { who, ctx: None, save: None };
            self.log(Some(cpu), before, Act::Out { word: ctx.regs[a.number() as usize] }, Outcome::Done);
        }
        outcome
    }

    fn trap<L: Ledger>(&mut self, cpu: u32, vector: u32, a: u32, b: u32, steps: &mut Steps<L>) -> Outcome {
        let before = self.before(cpu, SAVED);
        let outcome = self.machine.trap(cpu, vector, a, b, steps);
        self.log(Some(cpu), before, Act::Trap { vector }, outcome);
        outcome
    }

    fn call<L: Ledger>(&mut self, cpu: u32, no: u32, args: &[u32; 5], steps: &mut Steps<L>) -> Outcome {
        let call = named(no, *args);
        let before = self.before(cpu, if let Call::Yield { save, .. } = call { save } else { u32::MAX });
        let frame = before.who.map_or(0, |id| self.leaf(id, args[0]).0 / PAGE);
        let can_clear = !self.is_program && matches!(call, Call::Delete { .. } | Call::Collect { .. });
        let hidden = if can_clear { self.words_hidden() } else { Vec::new() };
        let outcome = self.machine.call(cpu, no, args, steps);
        let caller = before.who;
        self.log(Some(cpu), before, Act::Call { no, args: *args }, outcome);
        if let (Outcome::Reply { status: Status::Ok, .. }, Some(caller)) = (outcome, caller) {
            self.call_made(caller, call, frame);
            if can_clear {
                self.clear(&hidden);
            }
        }
        outcome
    }

    fn raise<L: Ledger>(&mut self, line: u32, steps: &mut Steps<L>) {
        let pending = self.pending() >> line & 1 != 0;
        self.machine.raise(line, steps);
        if !self.is_program {
            self.look(Act::Raise { line, pending }, None, Outcome::Done);
        }
    }

    fn poll<L: Ledger>(&mut self, cpu: u32, steps: &mut Steps<L>) -> Outcome {
        if self.is_program {
            return self.quick(cpu, Act::Poll, |machine| machine.poll(cpu, steps));
        }
        let before = self.before(cpu, SAVED);
        let outcome = self.machine.poll(cpu, steps);
        self.log(Some(cpu), before, Act::Poll, outcome);
        outcome
    }

    fn ctx(&self, cpu: u32) -> Option<&Ctx> {
        self.machine.ctx(cpu)
    }

    fn set_pc(&mut self, cpu: u32, pc: u32) {
        self.machine.set_pc(cpu, pc);
    }

    fn set_register(&mut self, cpu: u32, register: Register, word: u32, pc: u32) {
        self.machine.set_register(cpu, register, word, pc);
    }

    fn set_ctx(&mut self, cpu: u32, ctx: &Ctx) {
        self.machine.set_ctx(cpu, ctx);
    }

    fn peek<L: Ledger>(&self, frame: u32, index: u32, steps: &mut Steps<L>) -> Option<u32> {
        self.machine.peek(frame, index, steps)
    }
}

impl World {
    // The word that a child fetches in the place of that in its memory.
    fn instead(&mut self, cpu: u32, who: Option<Id>) -> Option<u32> {
        let (id, pc) = (who.filter(|id| *id != ROOT)?, self.ctx(cpu)?.pc);
        if self.stalls.as_mut().is_some_and(|random| random.within(0, 3) == 0) {
            return Some(STAY);
        }
        self.hostile.as_mut().map(|hostile| hostile.word(id, pc))
    }

    // An event of a program that is logged only where another partition runs after it. A poll that takes nothing saves
    // nothing, so that its block is looked for only where a line is pending.
    fn quick(&mut self, cpu: u32, act: Act, make: impl FnOnce(&mut Machine<RawFrames>) -> Outcome) -> Outcome {
        let can_move = match act {
            Act::Poll => self.pending() != 0,
            Act::Fetch => {
                self.at_pc(cpu).is_none()
                    || self.runs(cpu).is_some_and(|id| {
                        self.ctx(cpu).is_some_and(|ctx| ctx.pc % 4 != 0 || self.rights(id, ctx.pc) & 4 == 0)
                    })
            }
            _ => true,
        };
        let before = can_move.then(|| self.before(cpu, SAVED));
        let outcome = make(&mut self.machine);
        if let (Some(before), Outcome::Switched { .. } | Outcome::Parked { .. }) = (before, outcome) {
            self.log(Some(cpu), before, act, outcome);
        }
        outcome
    }
}
