//! A turn of a processor (docs/MODEL.md, "A turn"). It has at most one line of a trace.

use crate::calls::YIELD;
use crate::isa::UNUSED;
use crate::machine::{Access, Machine, Outcome, Status, Switch, PROCESSORS};
use crate::output::Output;
use crate::texts::put_switch;

/// What a line of a trace says, without its step and processor.
#[derive(Clone, Copy, PartialEq, Eq, Hash)]
pub enum Line {
    Switched(Switch),
    Parked(u32, u32),
    Reply(u32, Status, u32),
    Yielded(Switch),
    Out(u32),
}

/// The registers and the immediate of an instruction.
#[derive(Clone, Copy)]
struct Word(u32);

impl Word {
    #[inline]
    fn a(self) -> usize {
        (self.0 >> 20 & 15) as usize
    }
    #[inline]
    fn b(self) -> usize {
        (self.0 >> 16 & 15) as usize
    }
    #[inline]
    fn c(self) -> usize {
        (self.0 >> 12 & 15) as usize
    }
    #[inline]
    fn unsigned(self) -> u32 {
        self.0 & 0xffff
    }
    #[inline]
    fn signed(self) -> u32 {
        self.0 as u16 as i16 as u32
    }
}

impl<const LOGGED: bool> Machine<LOGGED> {
    #[inline(always)]
    pub fn turn(&mut self, cpu: usize) -> Option<Line> {
        let cpu = cpu % PROCESSORS;
        if let Some(switch) = self.polled(cpu) {
            return Some(Line::Switched(switch));
        }
        if self.processors[cpu].part == 0 {
            return None;
        }
        let pc = self.processors[cpu].context.pc;
        match self.loaded(cpu, pc, Access::Fetch, true) {
            Ok(word) => self.run(cpu, Word(word)),
            Err(fault) => moved(self.fault(cpu, pc, Access::Fetch, fault)),
        }
    }

    #[inline(always)]
    fn run(&mut self, cpu: usize, word: Word) -> Option<Line> {
        let opcode = word.0 >> 24;
        if word.0 & UNUSED[opcode as usize] != 0 {
            return self.invalid(cpu, word);
        }
        let context = &mut self.processors[cpu].context;
        let pc = context.pc;
        let r = &mut context.registers;
        let (b, c) = (r[word.b()], r[word.c()]);
        let a = &mut r[word.a()];
        match opcode {
            0x01 => *a = b,
            0x02 => *a = word.unsigned(),
            0x03 => *a = *a & 0xffff | word.unsigned() << 16,
            0x04 => *a = b.wrapping_add(c),
            0x05 => *a = b.wrapping_sub(c),
            0x06 => *a = b.wrapping_mul(c),
            0x07 if c != 0 => *a = b / c,
            0x08 if c != 0 => *a = b % c,
            0x07 | 0x08 => return moved(self.trap(cpu, 0, pc, 0)),
            0x09 => *a = b & c,
            0x0a => *a = b | c,
            0x0b => *a = b ^ c,
            0x0c => *a = b << (c % 32),
            0x0d => *a = b >> (c % 32),
            0x0e => *a = (b as i32 >> (c % 32)) as u32,
            0x0f => *a = u32::from((b as i32) < c as i32),
            0x10 => *a = u32::from(b < c),
            0x11 => *a = b.wrapping_add(word.signed()),
            0x12 => *a = b & word.unsigned(),
            0x13 => *a = b | word.unsigned(),
            0x14 | 0x15 if word.unsigned() > 31 => return self.invalid(cpu, word),
            0x14 => *a = b << word.unsigned(),
            0x15 => *a = b >> word.unsigned(),
            0x16 => return self.load_into(cpu, word, b, true),
            0x17 => return self.store_from(cpu, word, b, true),
            0x18 => return self.load_into(cpu, word, b, false),
            0x19 => return self.store_from(cpu, word, b, false),
            0x1a..=0x1e => return self.branch(cpu, opcode, word),
            0x1f => {
                context.pc = *a;
                return None;
            }
            0x20 => return self.system_call(cpu, word.unsigned()),
            0x21 => return self.interrupt(cpu, word),
            0x22 => {
                let shown = *a;
                context.pc = pc.wrapping_add(4);
                return Some(Line::Out(shown));
            }
            _ => return self.invalid(cpu, word),
        }
        context.pc = pc.wrapping_add(4);
        None
    }

    #[cold]
    fn invalid(&mut self, cpu: usize, word: Word) -> Option<Line> {
        let pc = self.processors[cpu].context.pc;
        moved(self.trap(cpu, 6, pc, word.0))
    }

    #[inline(always)]
    fn load_into(&mut self, cpu: usize, word: Word, base: u32, is_word: bool) -> Option<Line> {
        let address = base.wrapping_add(word.signed());
        match self.loaded(cpu, address, Access::Load, is_word) {
            Ok(loaded) => {
                let context = &mut self.processors[cpu].context;
                context.registers[word.a()] = loaded;
                context.pc = context.pc.wrapping_add(4);
                None
            }
            Err(fault) => moved(self.fault(cpu, address, Access::Load, fault)),
        }
    }

    #[inline(always)]
    fn store_from(&mut self, cpu: usize, word: Word, base: u32, is_word: bool) -> Option<Line> {
        let address = base.wrapping_add(word.signed());
        let value = self.processors[cpu].context.registers[word.a()];
        match self.stored(cpu, address, is_word, if is_word { value } else { value & 0xff }) {
            Ok(()) => {
                let context = &mut self.processors[cpu].context;
                context.pc = context.pc.wrapping_add(4);
                None
            }
            Err(fault) => moved(self.fault(cpu, address, Access::Store, fault)),
        }
    }

    #[inline]
    fn branch(&mut self, cpu: usize, opcode: u32, word: Word) -> Option<Line> {
        let context = &mut self.processors[cpu].context;
        let next = context.pc.wrapping_add(4);
        let (a, b) = (context.registers[word.a()], context.registers[word.b()]);
        let is_taken = match opcode {
            0x1a => a == b,
            0x1b => a != b,
            0x1c => (a as i32) < b as i32,
            0x1d => a < b,
            _ => {
                context.registers[word.a()] = next;
                true
            }
        };
        context.pc = if is_taken { next.wrapping_add(word.signed() << 2) } else { next };
        None
    }

    #[inline(never)]
    fn system_call(&mut self, cpu: usize, number: u32) -> Option<Line> {
        let context = &mut self.processors[cpu].context;
        context.pc = context.pc.wrapping_add(4);
        let r = &context.registers;
        let arguments = [r[1], r[2], r[3], r[4], r[5]];
        match self.call(cpu, number, arguments) {
            Outcome::Reply(status, value) => Some(Line::Reply(number, status, value)),
            Outcome::Switched(switch) => Some(Line::Yielded(switch)),
            _ => None,
        }
    }

    #[inline(never)]
    fn interrupt(&mut self, cpu: usize, word: Word) -> Option<Line> {
        if !(64..256).contains(&word.unsigned()) {
            return self.invalid(cpu, word);
        }
        let context = &mut self.processors[cpu].context;
        context.pc = context.pc.wrapping_add(4);
        moved(self.trap(cpu, word.unsigned(), 0, 0))
    }
}

/// The line of an event that isn't a call: of a switch or a park, else none.
#[inline]
pub fn moved(outcome: Outcome) -> Option<Line> {
    match outcome {
        Outcome::Switched(switch) => Some(Line::Switched(switch)),
        Outcome::Parked(from, vector) => Some(Line::Parked(from, vector)),
        _ => None,
    }
}

pub fn put_line(output: &mut Output, line: Line) -> &mut Output {
    match line {
        Line::Switched(switch) => put_switch(output, switch),
        Line::Parked(from, vector) => output.text("park ").number(from).text(" ").number(vector),
        Line::Reply(number, status, value) => {
            output.text("call ").number(number).text(" reply ").number(status as u32).text(" ").word(value)
        }
        Line::Yielded(switch) => put_switch(output.text("call ").number(YIELD).text(" "), switch),
        Line::Out(word) => output.text("out ").word(word),
    }
}
