//! What pip does, in plain Rust: no contracts and no dependencies, written for speed. It is there to be measured beside
//! the proved program, which shares nothing with it. docs/MODEL.md and docs/FORMATS.md have its rules.

mod apart;
mod asm;
mod audit;
mod away;
mod calls;
mod coming;
mod cpu;
mod dis;
mod dump;
mod every;
mod explorer;
mod frames;
mod hash;
mod image;
mod isa;
mod machine;
mod menu;
mod merge;
mod native;
mod output;
mod part;
mod runs;
mod script;
mod slots;
mod soak;
mod sound;
mod texts;

use std::collections::TryReserveError;
use std::process::ExitCode;

use output::{Input, Output};

const USAGE: &str = "usage: pip script | run STEPS SEED | asm | dis | tree STEPS SEED | core STEPS SEED | \
    soak COUNT SEED | native N STEPS | slots N TURNS ROUNDS | slots N ROUNDS K:TURNS .. | \
    audit FRAMES | every STATES [FROM [DEPTH]] [after STEPS SEED] | \
    against STATES [FROM [DEPTH]] [after STEPS SEED] | apart STATES STEPS SEED | part [FROM] | merge";
pub const MOST_STEPS: u32 = 10_000_000;
const MOST_COUNT: u32 = 1_000_000;
const MOST_STATES: u32 = 100_000_000;
const MOST_CHILDREN: u32 = 8;
const MOST_SLOTS: usize = 64;

/// Why a command ends before it is done. What was held by then is written.
pub enum Stop {
    /// The last line says what is bad; it is still to be written.
    Bad(String),
    Read,
    Write,
    Memory,
    TooLong,
    TooFew(String),
    Unsound(String),
}

impl From<TryReserveError> for Stop {
    fn from(_: TryReserveError) -> Self {
        Stop::Memory
    }
}

impl Stop {
    /// The status, and the last line.
    fn status(self) -> (u8, Option<String>) {
        match self {
            Stop::Bad(line) => (2, Some(line)),
            Stop::Read => (3, None),
            Stop::Write => (4, None),
            Stop::Memory => (5, None),
            Stop::TooLong => (6, None),
            Stop::TooFew(line) => (8, Some(line)),
            Stop::Unsound(line) => (9, Some(line)),
        }
    }
}

fn main() -> ExitCode {
    let Ok(words) = std::env::args_os().skip(1).map(|word| word.into_string()).collect::<Result<Vec<_>, _>>() else {
        return ExitCode::from(10);
    };
    match ended(&words) {
        Ok(status) => ExitCode::from(status),
        Err(stop) => ExitCode::from(stop.status().0),
    }
}

/// The status of the command that the words are.
fn ended(words: &[String]) -> Result<u8, Stop> {
    let mut output = Output::new()?;
    let Some(command) = command_of(words) else {
        output.text(USAGE).end_line()?;
        output.flush()?;
        return Ok(1);
    };
    let (status, line) = match done(command, &mut output) {
        Ok(()) => (0, None),
        Err(stop) => stop.status(),
    };
    if status == 4 {
        return Ok(4);
    }
    if let Some(line) = line {
        output.text(&line).end_line()?;
    }
    output.flush()?;
    Ok(status)
}

enum Command {
    Script,
    Asm,
    Dis,
    Run(u32, u32),
    Tree(u32, u32),
    Core(u32, u32),
    Soak(u32, u32),
    Native(u32, u32),
    Slots(u32, Vec<slots::Slot>, u32),
    Audit(u32),
    Every(every::Bounds),
    Against(every::Bounds),
    Apart(u32, u32, u32),
    Part(u32),
    Merge,
}

fn done(command: Command, output: &mut Output) -> Result<(), Stop> {
    let input = &mut Input::new()?;
    match command {
        Command::Script => script::script(input, output),
        Command::Asm => asm::asm(input, output),
        Command::Dis => dis::dis(input, output),
        Command::Run(steps, seed) => runs::run(input, output, steps, seed),
        Command::Tree(steps, seed) => runs::tree(input, output, steps, seed),
        Command::Core(steps, seed) => runs::core(input, output, steps, seed),
        Command::Soak(count, seed) => soak::soak(output, count, seed),
        Command::Native(children, steps) => native::native(input, output, children, steps),
        Command::Slots(children, round, rounds) => slots::slots(input, output, children, &round, rounds),
        Command::Audit(frames) => audit::audit(input, output, frames),
        Command::Every(bounds) => every::every(input, output, bounds),
        Command::Against(bounds) => every::against(input, output, bounds),
        Command::Apart(states, steps, seed) => apart::apart(input, output, states, steps, seed),
        Command::Part(from) => part::part(input, output, from),
        Command::Merge => merge::merge(input, output),
    }
}

fn command_of(words: &[String]) -> Option<Command> {
    numbered(words).or_else(|| later(words)).or_else(|| given_slots(words))
}

/// The command of a name and numbers.
fn numbered(words: &[String]) -> Option<Command> {
    let (name, rest) = words.split_first()?;
    let numbers: Vec<u32> = rest.iter().map(|word| texts::number(word.as_bytes())).collect::<Option<_>>()?;
    Some(match (name.as_str(), numbers.as_slice()) {
        ("script", []) => Command::Script,
        ("asm", []) => Command::Asm,
        ("dis", []) => Command::Dis,
        ("run", &[steps @ 0..=MOST_STEPS, seed @ 1..=u32::MAX]) => Command::Run(steps, seed),
        ("tree", &[steps @ 0..=MOST_STEPS, seed @ 1..=u32::MAX]) => Command::Tree(steps, seed),
        ("core", &[steps @ 0..=MOST_STEPS, seed @ 1..=u32::MAX]) => Command::Core(steps, seed),
        ("soak", &[count @ 0..=MOST_COUNT, seed @ 1..=u32::MAX]) => Command::Soak(count, seed),
        ("native", &[children @ 1..=MOST_CHILDREN, steps @ 0..=MOST_STEPS]) => Command::Native(children, steps),
        ("slots", &[children @ 1..=MOST_CHILDREN, turns @ 0..=MOST_STEPS, rounds @ 0..=MOST_STEPS])
            if slots::steps_of(&slots::in_turn(children, turns), rounds) <= u64::from(MOST_STEPS) =>
        {
            Command::Slots(children, slots::in_turn(children, turns), rounds)
        }
        ("audit", &[frames @ 16..=4096]) => Command::Audit(frames),
        ("every", given) => Command::Every(bounds_of(given)?),
        ("against", given) => Command::Against(bounds_of(given)?),
        ("apart", &[states @ 1..=MOST_STATES, steps @ 0..=MOST_STEPS, seed @ 1..=u32::MAX]) => {
            Command::Apart(states, steps, seed)
        }
        ("part", []) => Command::Part(0),
        ("part", &[from @ 0..=MOST_STEPS]) => Command::Part(from),
        ("merge", []) => Command::Merge,
        _ => return None,
    })
}

/// A search that begins after steps of a run.
fn later(words: &[String]) -> Option<Command> {
    let [search @ .., after, steps, seed] = words else {
        return None;
    };
    let begin = (texts::number(steps.as_bytes())?, texts::number(seed.as_bytes())?);
    if after != "after" || begin.0 > MOST_STEPS || begin.1 == 0 {
        return None;
    }
    match numbered(search)? {
        Command::Every(bounds) => Some(Command::Every(every::Bounds { begin, ..bounds })),
        Command::Against(bounds) => Some(Command::Against(every::Bounds { begin, ..bounds })),
        _ => None,
    }
}

/// The command `slots` with the slots of a round.
fn given_slots(words: &[String]) -> Option<Command> {
    let [name, children, rounds, slots @ ..] = words else {
        return None;
    };
    if name != "slots" || !(1..=MOST_SLOTS).contains(&slots.len()) {
        return None;
    }
    let (children, rounds) = (texts::number(children.as_bytes())?, texts::number(rounds.as_bytes())?);
    let round: Vec<_> = slots.iter().map(|word| slot_of(children, word)).collect::<Option<_>>()?;
    let is_good = (1..=MOST_CHILDREN).contains(&children)
        && rounds <= MOST_STEPS
        && slots::steps_of(&round, rounds) <= u64::from(MOST_STEPS);
    is_good.then_some(Command::Slots(children, round, rounds))
}

/// A child below that many, a colon, and its turns.
fn slot_of(children: u32, word: &str) -> Option<slots::Slot> {
    let (child, turns) = word.split_once(':')?;
    let (child, turns) = (texts::number(child.as_bytes())?, texts::number(turns.as_bytes())?);
    (child < children && turns <= MOST_STEPS).then_some((child, turns))
}

fn bounds_of(numbers: &[u32]) -> Option<every::Bounds> {
    let (states, from, depth) = match *numbers {
        [states] => (states, 0, None),
        [states, from] => (states, from, None),
        [states, from, depth @ 1..=MOST_STEPS] => (states, from, Some(depth)),
        _ => return None,
    };
    let is_good = (1..=MOST_STATES).contains(&states) && from <= MOST_STEPS;
    is_good.then_some(every::Bounds { states, from, depth, begin: (0, 1) })
}
