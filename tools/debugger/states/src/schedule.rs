//! What a step is: a turn drawn by a seed, a choice of a way, or a step of a monitor outside the machine.

use crate::frames::Shared;
use crate::requests::Choice;
use arrayvec::{ArrayString, ArrayVec};
use pip_base::{Outcome, Steps};
use pip_cpu::{TurnEnd, turn, write_call, write_moved};
use pip_io::{Failed, Sink};
use pip_model::{Port, ScriptLine};
use pip_model::call_number::{NOT_SAVED, SAVED, YIELD};
use pip_native::next_child;
use pip_script::{Generator, answer_line, push_said};
use pip_switch::Machine;
use rattle_std::marker::Brand;
use std::rc::Rc;

/// The largest step, as for `run`.
pub const MOST: u64 = 10_000_000;

/// The children that a monitor has built, by the addresses of their descriptors.
pub type Children = ArrayVec<u32, 8>;

#[derive(Clone)]
pub enum Schedule {
    Drawn(Generator),
    Way(Rc<Vec<Choice>>),
    /// Which children are alive, a bit each, and the one that was chosen last.
    Native {
        children: Children,
        alive: u32,
        last: u32,
    },
    /// How many turns a slot has.
    Slots {
        children: Children,
        turns: u32,
    },
    /// The lines of a script after its first one that aren't blank, each with the processor of its event.
    Script(Rc<Vec<(Option<u32>, Vec<u8>)>>),
}

/// How a step ended.
#[derive(Clone, Copy)]
pub enum End {
    /// A line was raised alone, by a way.
    Raised,
    /// The monitor decided, or a slot began or ended.
    Monitor,
    /// Nothing was done.
    Nothing,
    /// A line of a script was answered.
    Answered,
    Turn(TurnEnd),
}

impl End {
    pub fn name(self) -> &'static str {
        match self {
            End::Raised => "raised",
            End::Monitor => "monitor",
            End::Answered => "answered",
            End::Nothing | End::Turn(TurnEnd::Polled(Outcome::Idle)) => "idle",
            End::Turn(TurnEnd::Polled(_)) => "took a line",
            End::Turn(TurnEnd::Fetched(_)) => "fetch faulted",
            End::Turn(TurnEnd::Ran) => "ran",
        }
    }
}

impl Schedule {
    /// The last state there is.
    pub fn end(&self) -> u64 {
        match self {
            Schedule::Way(way) => way.len() as u64,
            Schedule::Script(lines) => lines.len() as u64,
            _ => MOST,
        }
    }

    /// Whether plans raise lines.
    pub fn has_plans(&self) -> bool {
        matches!(self, Schedule::Drawn(_) | Schedule::Native { .. })
    }

    /// The processor whose turn the step is, and the line that is raised in its place.
    #[inline(always)]
    pub fn coming(&self, step: u64, cpus: u32) -> (Option<u32>, Option<u32>) {
        match self {
            Schedule::Drawn(generator) => (Some(drawn(&mut generator.clone(), cpus)), None),
            Schedule::Way(way) => match way.get(step as usize) {
                Some(Choice::Turn(cpu)) => (Some(*cpu), None),
                Some(Choice::Raise(line)) => (None, Some(*line)),
                None => (None, None),
            },
            Schedule::Script(lines) => (lines.get(step as usize).and_then(|(cpu, _)| *cpu), None),
            _ => (Some(0), None),
        }
    }

    /// Makes the step, once its lines are raised. It writes its trace line, if it has one.
    #[inline(always)]
    pub fn make<K: Sink>(
        &mut self,
        machine: &mut Machine<Shared>,
        step: u64,
        sink: &mut K,
        counter: &mut Steps<Brand>,
    ) -> Result<End, Failed> {
        let cpus = machine.cpus();
        match self {
            Schedule::Drawn(generator) => taken(machine, drawn(generator, cpus), step, sink, counter),
            Schedule::Way(way) => match way.get(step as usize).copied() {
                Some(Choice::Turn(cpu)) => taken(machine, cpu, step, sink, counter),
                Some(Choice::Raise(line)) => {
                    machine.raise(line, counter);
                    Ok(End::Raised)
                }
                None => Ok(End::Nothing),
            },
            Schedule::Native { .. } if !root_runs(machine) => taken(machine, 0, step, sink, counter),
            Schedule::Native { children, alive, last } => {
                decided(machine, children, (alive, last), step, sink, counter)
            }
            Schedule::Slots { children, turns } => slot_step(machine, children, *turns, step, sink, counter),
            Schedule::Script(lines) => match lines.get(step as usize) {
                Some((cpu, line)) => answered(machine, *cpu, line, step, sink, counter),
                None => Ok(End::Nothing),
            },
        }
    }
}

// As the schedules of pip_lines: a processor that is alone isn't drawn.
#[inline(always)]
fn drawn(generator: &mut Generator, cpus: u32) -> u32 {
    match cpus {
        1 => 0,
        2 => generator.draw(2),
        3 => generator.draw(3),
        _ => generator.draw(4),
    }
}

fn root_runs(machine: &Machine<Shared>) -> bool {
    machine.runs(0).is_some_and(|part| part.number() == 1)
}

#[inline(always)]
fn taken<K: Sink>(
    machine: &mut Machine<Shared>,
    cpu: u32,
    step: u64,
    sink: &mut K,
    counter: &mut Steps<Brand>,
) -> Result<End, Failed> {
    turn::<Schedule, _, _, Brand>(machine, cpu, step, sink, counter).map(End::Turn)
}

// A line of a script, with its answer as a trace has it.
fn answered<K: Sink>(
    machine: &mut Machine<Shared>,
    cpu: Option<u32>,
    line: &[u8],
    step: u64,
    sink: &mut K,
    counter: &mut Steps<Brand>,
) -> Result<End, Failed> {
    let Some(answer) = answer_line(machine, line, counter) else { return Ok(End::Nothing) };
    let mut said = ArrayString::new();
    push_said(&mut said, &answer);
    let cpu = cpu.map_or("-".to_string(), |cpu| cpu.to_string());
    sink.write(format!("{step} {cpu} {}\n", said.as_str().trim_end()).as_bytes())?;
    Ok(End::Answered)
}

/// The processor of a line's event.
pub fn cpu_of(line: &ScriptLine) -> Option<u32> {
    match line {
        ScriptLine::Load { cpu, .. }
        | ScriptLine::Store { cpu, .. }
        | ScriptLine::Fetch { cpu }
        | ScriptLine::Trap { cpu, .. }
        | ScriptLine::Call { cpu, .. }
        | ScriptLine::Poll { cpu }
        | ScriptLine::Reg { cpu, .. }
        | ScriptLine::SetPc { cpu, .. } => Some(*cpu),
        _ => None,
    }
}

// As pip_native decides: the next child that is alive is entered, and one that can't be is dropped.
fn decided<K: Sink>(
    machine: &mut Machine<Shared>,
    children: &Children,
    (alive, last): (&mut u32, &mut u32),
    step: u64,
    sink: &mut K,
    counter: &mut Steps<Brand>,
) -> Result<End, Failed> {
    let child = next_child(children.len() as u32, *alive, *last);
    if child as usize == children.len() {
        return Ok(End::Nothing);
    }
    *last = child;
    let line = match machine.call(0, YIELD, &[children[child as usize], SAVED, NOT_SAVED, 0, 0], counter) {
        Outcome::Reply { status, .. } => {
            *alive &= !(1 << child);
            format!("{step} 0 drop {child} {}\n", status as u32)
        }
        _ => format!("{step} 0 run {child}\n"),
    };
    sink.write(line.as_bytes())?;
    Ok(End::Monitor)
}

// As pip_slots runs a slot: its first step enters the child, and its last one takes the processor by line 0.
fn slot_step<K: Sink>(
    machine: &mut Machine<Shared>,
    children: &Children,
    turns: u32,
    step: u64,
    sink: &mut K,
    counter: &mut Steps<Brand>,
) -> Result<End, Failed> {
    let length = u64::from(turns) + 2;
    let (slot, within) = (step / length, step % length);
    if within == 0 {
        let child = children[(slot % children.len() as u64) as usize];
        let outcome = machine.call(0, YIELD, &[child, SAVED, NOT_SAVED, 0, 0], counter);
        write_call(sink, step, 0, YIELD, outcome)?;
    } else if root_runs(machine) {
        return Ok(End::Nothing);
    } else if within <= u64::from(turns) {
        return taken(machine, 0, step, sink, counter);
    } else {
        machine.raise(0, counter);
        let outcome = machine.poll(0, counter);
        write_moved(sink, step, 0, outcome)?;
    }
    Ok(End::Monitor)
}
