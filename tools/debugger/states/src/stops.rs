//! Whether a run stops.

use crate::frames::Shared;
use crate::requests::{Break, Condition, LineStop, Operand, Place, Watch, Watched};
use pip_base::{Access, Ctx, Frame};
use pip_mmu::translate;
use pip_model::Occupant;
use pip_switch::Machine;
use rattle_std::marker::Brand;

/// A stop: its kind, and its number.
pub type Hit = (&'static str, u32);

#[derive(Default)]
pub struct Stops {
    pub breaks: Vec<Break>,
    pub lines: Vec<LineStop>,
    pub watches: Vec<Watch>,
    pub turn_of: Option<u32>,
    pub idle: bool,
}

impl Stops {
    /// The breaks that hold before a step, if its turn is of what runs there.
    pub fn breaks_at(&self, mem: &Shared, step: u64, runs: Option<&Occupant>, hits: &mut Vec<Hit>) {
        let found = self.breaks.iter().filter(|stop| match (stop.step, runs) {
            (Some(due), _) => due == step,
            (None, Some(runs)) => holds(stop, mem, runs),
            (None, None) => false,
        });
        hits.extend(found.map(|stop| ("break", stop.id)));
    }

    /// The stops by the line of a turn.
    pub fn lines_in(&self, line: &[u8], hits: &mut Vec<Hit>) {
        if self.lines.is_empty() || line.is_empty() {
            return;
        }
        let text = String::from_utf8_lossy(line);
        let words: Vec<&str> = text.split_whitespace().skip(2).collect();
        let found = self.lines.iter().filter(|stop| matches(stop, &words));
        hits.extend(found.map(|stop| ("line", stop.id)));
    }

    /// What is watched, each with its watch; none where a partition has no page, or doesn't run.
    pub fn watched(&self, machine: &Machine<Shared>) -> Vec<(u32, Option<u32>)> {
        let all = self.watches.iter().flat_map(|watch| (0..watch.count).map(move |k| (watch, k)));
        all.map(|(watch, k)| (watch.id, word_of(watch.first, k, machine))).collect()
    }

    /// The watches of which a word has changed.
    pub fn changed(&self, old: &mut Vec<(u32, Option<u32>)>, machine: &Machine<Shared>, hits: &mut Vec<Hit>) {
        if self.watches.is_empty() {
            return;
        }
        let new = self.watched(machine);
        for ((id, before), (_, after)) in old.iter().zip(&new) {
            let stays = before.is_none() != after.is_none() && self.is_of_register(*id);
            if before != after && !stays && !hits.contains(&("watch", *id)) {
                hits.push(("watch", *id));
            }
        }
        *old = new;
    }

    fn is_of_register(&self, id: u32) -> bool {
        self.watches.iter().any(|watch| watch.id == id && matches!(watch.first, Watched::Register(..)))
    }
}

fn word_of(first: Watched, k: u32, machine: &Machine<Shared>) -> Option<u32> {
    let mem = machine.mem();
    match first {
        Watched::Register(part, number) => {
            let runs = machine.processors().iter().flatten().find(|runs| runs.name.number() == part)?;
            Some(value(&Operand::Register(number), mem, &runs.ctx))
        }
        Watched::Word((frame, index)) => mem.word_at(frame, index.checked_add(k)?),
        Watched::Address(part, address) => {
            let (frame, index) = place_at(mem, part, address.wrapping_add(4 * k))?;
            mem.word_at(frame, index)
        }
    }
}

/// Where the word at an address of a partition is, if it has a page there, whatever its rights are.
pub fn place_at(mem: &Shared, part: u32, address: u32) -> Option<Place> {
    let directory = mem.word_at(part, 3)?;
    let entry = mem.word_at(directory, address >> 22)?;
    let row = mem.word_at(entry / 4096, address >> 12 & 1023)?;
    if entry == 0 || row == 0 { None } else { Some((row / 4096, address % 4096 / 4)) }
}

fn holds(stop: &Break, mem: &Shared, runs: &Occupant) -> bool {
    stop.part.is_none_or(|name| name == runs.name.number())
        && stop.pc.is_none_or(|pc| pc == runs.ctx.pc)
        && stop.place.is_none_or(|place| is_at(mem, runs.name, &runs.ctx, place))
        && stop.when.as_ref().is_none_or(|when| is_met(when, mem, &runs.ctx))
}

// The offset in the page is compared first: few addresses have to be translated then.
fn is_at(mem: &Shared, part: Frame, ctx: &Ctx, (frame, index): Place) -> bool {
    ctx.pc % 4096 == index * 4 && fetched(mem, part, ctx.pc) == Some((frame, index))
}

/// Where the word at a pc is, if a fetch finds it.
pub fn fetched(mem: &Shared, part: Frame, pc: u32) -> Option<Place> {
    if pc % 4 != 0 {
        return None;
    }
    let mut counter = crate::session::counter();
    let (frame, index) = translate::<Shared, Brand>(mem, part, pc, Access::Fetch, &mut counter).ok()?;
    Some((frame.number(), index))
}

fn is_met((left, comparison, right): &Condition, mem: &Shared, ctx: &Ctx) -> bool {
    let (a, b) = (value(left, mem, ctx), value(right, mem, ctx));
    match comparison.as_str() {
        "==" => a == b,
        "!=" => a != b,
        "<" => a < b,
        ">" => a > b,
        "<=" => a <= b,
        _ => a >= b,
    }
}

fn value(operand: &Operand, mem: &Shared, ctx: &Ctx) -> u32 {
    match operand {
        Operand::Register(16) => ctx.pc,
        Operand::Register(number) => ctx.regs.get(*number as usize).copied().unwrap_or(0),
        Operand::Number(number) => *number,
        Operand::Word((frame, index)) => mem.word_at(*frame, *index).unwrap_or(0),
    }
}

fn matches(stop: &LineStop, words: &[&str]) -> bool {
    match stop.words.split_first() {
        Some((first, rest)) if first == "^" => rest.len() <= words.len() && begins(rest, words),
        _ => words.windows(stop.words.len().max(1)).any(|part| begins(&stop.words, part)),
    }
}

fn begins(pattern: &[String], words: &[&str]) -> bool {
    pattern.iter().zip(words).all(|(pattern, word)| pattern == "*" || pattern.split('|').any(|one| one == *word))
}
