//! The exercises about control: who runs, who is entered, and what is saved.

use crate::memory::{after, child_at, has_handlers};
use crate::script::Script;
use crate::values::Values;
use crate::verdict::Verdict;
use crate::world::{Act, At, Call, Event, HANDLERS, Id, Moved, NOBODY, ROOT, SAVED, Why, World};
use alloc::vec::Vec;
use pip_base::{Outcome, Size, Status};

fn moved(event: &Event) -> Option<&Moved> {
    event.moved.as_deref()
}

/// Whether what an event entered still runs there.
fn runs_since(world: &World, number: usize) -> bool {
    let event = &world.events[number];
    world.last_moved(event.cpu.unwrap_or(0)) == Some(number) && moved(event).is_some_and(|moved| moved.to.is_some())
}

fn pc_of(world: &World, event: &Event) -> Option<u32> {
    Some(world.ctx(event.cpu?)?.pc)
}

fn register_of(world: &World, event: &Event, number: usize) -> Option<u32> {
    Some(world.ctx(event.cpu?)?.regs[number])
}

fn is_child(world: &World, id: Option<Id>) -> bool {
    id.is_some_and(|id| id != ROOT && world.parts[id].parent == ROOT)
}

// enter

pub fn enter(v: &Values, script: &Script, verdict: &mut Verdict) {
    let (world, pc, word) = (&script.world, v.get("pc"), v.get("word"));
    let Some(id) = child_at(world, v.get("child")) else { return };
    verdict.story(&[true, has_handlers(world, id), false, false, false]);
    for (k, event, moved) in world.moves() {
        let is_entry = event.cpu == Some(0)
            && moved.to == Some(id)
            && moved.from == Some(ROOT)
            && moved.vector == 64
            && moved.why == Why::Yield;
        if is_entry && runs_since(world, k) {
            let is_at = moved.entered.pc == pc && pc_of(world, event) == Some(pc);
            let has = moved.entered.regs[1] == word && register_of(world, event, 1) == Some(word);
            verdict.story(&[true, has_handlers(world, id), true, is_at, has]);
        }
    }
}

// call-home

pub fn call_home(v: &Values, script: &Script, verdict: &mut Verdict) {
    let (world, pc, word) = (&script.world, v.get("pc"), v.get("word"));
    for (k, event, moved) in world.moves() {
        let is_it = matches!(event.call(), Some(Call::Yield { target: 0, .. }))
            && is_child(world, moved.from)
            && moved.to == Some(ROOT);
        if !is_it || world.last_moved(event.cpu.unwrap_or(0)) != Some(k) {
            continue;
        }
        let is_at = moved.entered.pc == pc && pc_of(world, event) == Some(pc) && runs_since(world, k);
        let had = event.before.is_some_and(|ctx| ctx.regs[5] == word);
        let is_saved = was_entry(world, k, moved) && world.is_kept(k) && is_there(world, moved);
        verdict.story(&[true, is_at, had, had && is_saved]);
    }
}

// Whether a partition that yields was saved in its block for 63: by that number, or by another whose block it is, too,
// and was then.
fn was_entry(world: &World, number: usize, moved: &Moved) -> bool {
    let is_older = |at: At| world.writers(at).iter().all(|writer| *writer == NOBODY || (*writer as usize) < number);
    matches!(world.events[number].call(), Some(Call::Yield { save: SAVED, .. }))
        || moved.from.and_then(|id| world.at(id, HANDLERS + 4 * SAVED)).is_some_and(is_older)
}

// Whether the partition that was left still has its block for 63 where it was saved.
fn is_there(world: &World, moved: &Moved) -> bool {
    moved
        .from
        .is_some_and(|id| world.alive(id) && world.block(id, SAVED).is_some() && world.block(id, SAVED) == moved.saved)
}

// fault

pub fn fault(v: &Values, script: &Script, verdict: &mut Verdict) {
    let (world, child) = (&script.world, v.get("child"));
    let Some(id) = child_at(world, child) else { return };
    for (k, event, moved) in world.moves() {
        let is_load = matches!(event.act, Act::Load { size: Size::Word, .. })
            && moved.from == Some(id)
            && moved.to == Some(ROOT)
            && moved.vector == 17;
        if is_load && world.last_moved(event.cpu.unwrap_or(0)) == Some(k) {
            let has = |number: usize, word: u32| register_of(world, event, number) == Some(word);
            verdict.story(&[true, has(0, 17), has(3, child), world.is_kept(k) && is_there(world, moved)]);
        }
    }
}

// interrupt

pub fn interrupt(v: &Values, script: &Script, verdict: &mut Verdict) {
    let (world, line, pc) = (&script.world, v.get("line"), v.get("pc"));
    let is_calm = !world.is_masked() && world.pending() == 0;
    for (k, event, moved) in world.moves() {
        if moved.why != Why::Line
            || moved.to != Some(ROOT)
            || moved.vector != 32 + line
            || !is_child(world, moved.from)
            || !is_raised(world, k, line)
        {
            continue;
        }
        let was_at = event.before.is_some_and(|ctx| ctx.pc == pc);
        let back = || {
            world.moves().map(|(_, _, later)| later).filter(|later| {
                later.to == moved.from && later.from == Some(ROOT) && later.resumed == Some(k)
            })
        };
        let is_same = back().any(|later| Some(later.entered) == event.before);
        verdict.story(&[true, was_at, moved.saved.is_some(), back().next().is_some(), is_same, is_calm]);
    }
}

// Whether the line that an event takes was raised while what it interrupts ran there.
fn is_raised(world: &World, taken: usize, line: u32) -> bool {
    let raised = world.events[..taken]
        .iter()
        .rposition(|event| matches!(event.act, Act::Raise { line: other, pending: false } if other == line));
    raised.is_some_and(|raised| world.stays(world.events[taken].cpu.unwrap_or(0), raised, taken))
}

// forged

pub fn forged(v: &Values, script: &Script, verdict: &mut Verdict) {
    let (world, line, vector) = (&script.world, v.get("line"), v.get("vector"));
    let entries = || world.moves().filter(|(_, _, moved)| moved.to == Some(ROOT) && moved.vector == vector);
    let once = entries().filter(|(_, _, moved)| moved.why == Why::Line).count() == 1;
    for id in world.children() {
        let of = |why: Why| entries().filter(move |(_, _, moved)| moved.from == Some(id) && moved.why == why);
        let shown = |why: Why, numbers: &[u32]| -> Vec<&Moved> {
            of(why).filter(|(k, _, _)| shows(world, *k, numbers)).map(|(_, _, moved)| moved).collect()
        };
        let (lines, traps) = (shown(Why::Line, &[0, 3]), shown(Why::Trap, &[0, 3]));
        let mut yields = shown(Why::Yield, &[0, 1, 2, 3]);
        let is_shown = !yields.is_empty();
        if !is_shown {
            yields = of(Why::Yield).map(|(_, _, moved)| moved).collect();
        }
        // The root can't write another block for what is to come next, as it doesn't know that.
        let differs = |moved: &&Moved| {
            let words = words_of(moved);
            let is_same = |others: &[&Moved]| others.is_empty() || others.iter().any(|other| words_of(other) == words);
            words.is_some_and(|words| words != [0; 3]) && is_same(&lines) && is_same(&traps)
        };
        let is_free = |k: usize| {
            after(world, k).take_while(|(_, event)| !is_of_line(event, line)).any(|(_, event)| shows_free(event, line))
        };
        verdict.story(&[
            once && !lines.is_empty(),
            !traps.is_empty(),
            is_shown,
            yields.iter().any(differs),
            [Why::Trap, Why::Yield].into_iter().any(|why| of(why).any(|(k, _, _)| is_free(k))),
        ]);
    }
}

// What the block has for r1 to r3 by which a partition is entered.
fn words_of(moved: &Moved) -> Option<[u32; 3]> {
    let [_, one, two, three, ..] = moved.block?.regs;
    Some([one, two, three])
}

fn shows(world: &World, number: usize, registers: &[u32]) -> bool {
    registers.iter().all(|register| looks(world, number).any(|event| event.act == Act::Reg { number: *register }))
}

fn is_of_line(event: &Event, line: u32) -> bool {
    matches!(event.act, Act::Raise { line: raised, .. } if raised == line)
        || moved(event).is_some_and(|moved| moved.why == Why::Line && moved.vector == 32 + line)
}

// Whether peek 1 15 shows that a line isn't pending.
fn shows_free(event: &Event, line: u32) -> bool {
    let Act::Peek { at, word: Some(lines), .. } = event.act else { return false };
    at == At { frame: 1, index: 15 } && lines >> line & 1 == 0
}

// What follows an entry as long as the registers there are those of the entry.
fn looks(world: &World, number: usize) -> impl Iterator<Item = &Event> {
    let cpu = world.events[number].cpu;
    let changes =
        move |event: &Event| event.cpu == cpu && (event.moved.is_some() || matches!(event.act, Act::Call { .. }));
    after(world, number)
        .map(|(_, event)| event)
        .take_while(move |event| !changes(event))
        .filter(move |event| event.cpu == cpu || event.cpu.is_none())
}

// two-processors

pub fn two_processors(v: &Values, script: &Script, verdict: &mut Verdict) {
    let (world, word) = (&script.world, v.get("word"));
    let two = script.boot.1 == 2;
    verdict.story(&[two, false, false, false]);
    for id in world.children().filter(|id| world.alive(*id)) {
        let both = two && world.runs(0) == Some(id) && world.runs(1) == Some(ROOT);
        let stored = |event: &Event| event.who == Some(id) && event.cpu == Some(0);
        let is_loaded = |event: &Event| match event.act {
            Act::Load { size: Size::Word, writers, .. } if event.who == Some(ROOT) && event.cpu == Some(1) => {
                event.outcome == Outcome::Word(word) && world.stored_by(&writers, stored)
            }
            _ => false,
        };
        let is_refused = |(k, event): (usize, &Event)| {
            event.cpu == Some(1)
                && world.parts[id].made < k
                && event.of_root(Status::Running) == Some(Call::Delete { child: world.parts[id].born })
                && ran(world, 0, k) == Some(id)
        };
        verdict.story(&[
            two,
            both,
            world.events.iter().any(is_loaded),
            world.events.iter().enumerate().any(is_refused),
        ]);
    }
}

// What ran on a processor before an event.
fn ran(world: &World, cpu: u32, before: usize) -> Option<Id> {
    let last = world.events[..before].iter().rev().find(|event| event.cpu == Some(cpu) && event.moved.is_some());
    last.and_then(moved).map_or((cpu == 0).then_some(ROOT), |moved| moved.to)
}
