//! A student's script on a machine, line by line.

use crate::world::{Act, At, World, steps};
use alloc::string::String;
use alloc::vec::Vec;
use pip_base::Outcome;
use pip_frames::RawFrames;
use pip_kern::boot_zeros;
use pip_model::Port;
use pip_script::{ScriptLine, is_blank, outcome_text, read_line};
use pip_switch::Machine;
use rattle_std::alloc::Global;

/// Lines of a script, each of which is looked at.
const MOST_LINES: usize = 5000;

/// Why a text isn't judged.
pub enum Refused {
    /// The first bad line; of an assembly text with its kind.
    Line(u64, String),
    Cant(String),
}

pub struct Script {
    pub world: World,
    pub boot: (u32, u32),
}

/// The lines of a text that aren't blank, with their numbers.
pub fn lines_of(text: &[u8]) -> Vec<(u32, &[u8])> {
    let text = text.strip_suffix(b"\n").unwrap_or(text);
    let numbered = text.split(|byte| *byte == b'\n').zip(1..).map(|(line, number)| (number, line));
    numbered.filter(|(_, line)| !is_blank(line)).collect()
}

/// What a whole text does.
pub fn run(text: &[u8]) -> Result<Script, Refused> {
    if text.iter().filter(|byte| **byte == b'\n').count() > MOST_LINES {
        return Err(Refused::Cant(alloc::format!("the script has more than {MOST_LINES} lines")));
    }
    let mut script = None;
    for (number, line) in lines_of(text) {
        take(&mut script, number, line)?;
    }
    script.ok_or_else(|| Refused::Cant("the script has no line with an answer".into()))
}

/// One line, of this number.
pub fn take(script: &mut Option<Script>, number: u32, line: &[u8]) -> Result<(), Refused> {
    let bad = || Refused::Line(u64::from(number), String::new());
    let cpus = script.as_ref().map_or(0, |script| script.boot.1);
    let read = read_line(line, cpus).ok_or_else(bad)?;
    match (read, script.as_mut()) {
        (ScriptLine::Boot { n, c }, None) => {
            *script = Some(Script { world: booted(n, c)?, boot: (n, c) });
            Ok(())
        }
        (read, Some(script)) => {
            script.world.place = number;
            make(&mut script.world, read);
            Ok(())
        }
        _ => Err(bad()),
    }
}

pub fn memory() -> Refused {
    Refused::Cant("memory is out".into())
}

fn booted(frames: u32, cpus: u32) -> Result<World, Refused> {
    let mut mem = RawFrames::new(Global, frames).map_err(|_| memory())?;
    boot_zeros(&mut mem, &mut steps());
    Ok(World::new(Machine::new(mem, cpus), frames, false))
}

fn make(world: &mut World, line: ScriptLine) {
    let counter = &mut steps();
    match line {
        ScriptLine::Load { cpu, va, size } => _ = world.load(cpu, va, size, counter),
        ScriptLine::Store { cpu, va, size, word } => _ = world.store(cpu, va, size, word, counter),
        ScriptLine::Fetch { cpu } => _ = world.fetch(cpu, counter),
        ScriptLine::Trap { cpu, vector, a, b } => _ = world.trap(cpu, vector, a, b, counter),
        ScriptLine::Call { cpu, no, args } => _ = world.call(cpu, no, &args, counter),
        ScriptLine::Raise { line } => world.raise(line, counter),
        ScriptLine::Poll { cpu } => _ = world.poll(cpu, counter),
        ScriptLine::Peek { frame, index } => {
            let (at, word) = (At { frame, index }, World::peek(world, frame, index));
            let writers = if word.is_some() { world.writers(at) } else { [u32::MAX; 4] };
            world.look(Act::Peek { at, word, writers }, None, word.map_or(Outcome::Idle, Outcome::Word));
        }
        ScriptLine::Reg { cpu, reg } => {
            let word = world.ctx(cpu).map(|ctx| if reg == 16 { ctx.pc } else { ctx.regs[reg as usize] });
            world.look(Act::Reg { number: reg }, Some(cpu), word.map_or(Outcome::Idle, Outcome::Word));
        }
        ScriptLine::SetPc { cpu, va } => world.set_pc(cpu, va),
        ScriptLine::Blank | ScriptLine::Boot { .. } => {}
    }
}

/// What was refused or parked: the number of each line, the line, and its answer.
pub fn trouble(world: &World, text: &[u8]) -> Vec<String> {
    let lines = lines_of(text);
    let mut found = Vec::new();
    for event in world.events.iter().filter(|event| event.is_trouble() && event.place > 0) {
        if let Some((_, line)) = lines.iter().find(|(number, _)| *number == event.place) {
            found.push(alloc::format!(
                "{}\t{}\t{}",
                event.place,
                String::from_utf8_lossy(line),
                outcome_text(&event.outcome).as_str()
            ));
        }
    }
    found
}
