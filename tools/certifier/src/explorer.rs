//! One machine that goes from state to state of a search.

use crate::Stop;
use crate::input::{load, put_words};
use pip_base::{Frame, Outcome, Plan, Steps, WORDS};
use pip_cpu::{TurnEnd, turn, write_call, write_moved};
use pip_every::{Deed, Label, May, add_processors, note_words, read_processors};
use pip_frames::{Frames, RawFrames};
use pip_io::{Discard, Failed};
use pip_every::Journal;
use pip_lines::{Line, run_lines};
use pip_model::{Occupant, Port, due};
use pip_switch::Machine;
use rattle_std::{alloc::Global, marker::Brand, sync::ledger::Blank, vec::Vec as Words};

/// How often words are noted, and how many turns of each processor come before each time.
const TIMES: u32 = 4;
const TURNS: u32 = 1000;

/// Words of frames that others are compared with: frame, index and word.
pub type Base = Vec<(u32, u32, u32)>;

/// What is searched: an image, from when on lines may come, the words to compare with, and what partitions may do,
/// whatever their programs are.
#[derive(Clone, Copy)]
pub struct Scope<'a> {
    pub data: &'a [u8],
    pub from: u32,
    pub base: &'a [(u32, u32, u32)],
    pub may: &'a [May],
}

/// Where a search begins: after that many steps of a run by a seed.
#[derive(Clone, Copy)]
pub struct Start {
    pub steps: u32,
    pub seed: u32,
}

pub struct Explorer {
    machine: Machine<Journal<Brand>>,
    lines: Vec<u32>,
    from: u32,
    may: Vec<May>,
    label: Label,
    steps: Steps<Brand>,
}

pub fn no_memory<E>(_: E) -> Stop {
    Stop::new(5, "no memory")
}

fn counter() -> Steps<Brand> {
    Steps::new(Blank::new(1))
}

/// The machine of an image after some steps of a run.
pub fn begun(data: &[u8], start: Start) -> Result<Machine<RawFrames>, Stop> {
    let loaded = load(data)?;
    let due_at = |plan: Plan| Line::new(plan, move |step| due(&plan, step));
    let lines: Vec<_> = loaded.head.plans.iter().map(|plan| due_at(*plan)).collect();
    let mut machine = Machine::new(loaded.mem, loaded.head.cpus);
    run_lines(&mut machine, &lines, start.steps, start.seed, &mut Discard::new(), &mut counter()).map_err(no_memory)?;
    Ok(machine)
}

/// The words that a machine comes to hold after those steps, where those that compare with them make keys short.
pub fn base_of(data: &[u8], start: Start) -> Result<Base, Stop> {
    let steps = &mut counter();
    let mut machine = begun(data, start)?;
    let mut later = load(data)?.mem;
    for _ in 0..TIMES {
        for _ in 0..TURNS {
            for cpu in 0..machine.cpus() {
                _ = turn::<(), Machine<RawFrames>, Discard, Brand>(&mut machine, cpu, 0, &mut Discard::new(), steps);
            }
        }
        note_words(machine.mem(), &mut later, steps);
    }
    Ok(differing(&load(data)?.mem, &later))
}

/// The words of frames that aren't those of the first ones.
fn differing(first: &RawFrames, later: &RawFrames) -> Base {
    let steps = &mut counter();
    let places = (0..first.count()).flat_map(|frame| (0..WORDS).map(move |index| (frame, index)));
    let mut found = Vec::new();
    for (frame, index) in places {
        let word = later.word(Frame::new(frame), index, steps);
        if word != first.word(Frame::new(frame), index, steps) {
            found.push((frame, index, word));
        }
    }
    found
}

impl Explorer {
    pub fn new(scope: &Scope) -> Result<Explorer, Stop> {
        let first = load(scope.data)?;
        let mut later = load(scope.data)?.mem;
        put_words(&mut later, scope.base);
        let journal = Journal::new(Global, first.mem, later).map_err(no_memory)?;
        Ok(Explorer {
            machine: Machine::new(journal, first.head.cpus),
            lines: first.head.plans.iter().map(|plan| plan.line).collect(),
            from: scope.from,
            may: scope.may.to_vec(),
            label: Label::new(Global),
            steps: counter(),
        })
    }

    pub fn cpus(&self) -> u32 {
        self.machine.cpus()
    }

    // How many choices there are without deeds: turns, then lines.
    fn usual(&self) -> u32 {
        self.machine.cpus() + self.lines.len() as u32
    }

    pub fn choices(&self) -> u32 {
        self.usual() + self.machine.cpus() * self.may.len() as u32
    }

    /// A choice as the text of a way has it.
    pub fn choice_text(&self, choice: u32) -> String {
        let cpus = self.machine.cpus();
        match choice.checked_sub(self.usual()) {
            Some(deed) => format!("{}:d{}", deed % cpus, deed / cpus + 1),
            None if choice >= cpus => format!("raise{}", self.lines[(choice - cpus) as usize]),
            None => choice.to_string(),
        }
    }

    /// What the last choice showed: a processor and a text; nothing where it has no line.
    pub fn shown(&self) -> &[u8] {
        self.label.bytes().strip_prefix(b"0 ").unwrap_or_default().trim_ascii_end()
    }

    /// What runs on each processor.
    pub fn processors(&self) -> &[Option<Occupant>] {
        self.machine.processors()
    }

    /// A word of a frame, if there is one.
    pub fn word(&mut self, frame: u32, index: u32) -> Option<u32> {
        let mem = self.machine.mem();
        (frame < mem.count() && index < WORDS).then(|| mem.word(Frame::new(frame), index, &mut self.steps))
    }

    /// The key of the moment that the machine is at, after `turns` turns.
    pub fn key(&mut self, turns: u32, to: &mut Words<u32>) -> Result<(), Stop> {
        to.clear();
        to.push(turns).map_err(no_memory)?;
        add_processors(self.machine.processors(), to).map_err(no_memory)?;
        self.machine.mem().add_changes(to, &mut self.steps).map_err(no_memory)
    }

    /// Goes to where another machine of the image is, before any turn that counts, and gives the key.
    pub fn begin(&mut self, scope: &Scope, at: &Machine<RawFrames>, to: &mut Words<u32>) -> Result<(), Stop> {
        let mut base = load(scope.data)?.mem;
        put_words(&mut base, scope.base);
        let changed = differing(&base, at.mem());
        let words: Vec<u32> = changed.iter().flat_map(|(frame, index, word)| [1024 * frame + index, *word]).collect();
        add_processors(at.processors(), to).map_err(no_memory)?;
        let (runs, _) = read_processors(to, self.machine.cpus());
        self.machine.rewind(&words, runs, &mut self.steps);
        self.key(0, to)
    }

    /// The key after a choice; false where the choice changes nothing.
    pub fn next(&mut self, key: &[u32], choice: u32, to: &mut Words<u32>) -> Result<bool, Stop> {
        self.label.clear();
        let (cpus, usual) = (self.machine.cpus(), self.usual());
        if (cpus..usual).contains(&choice) && key[0] < self.from {
            return Ok(false);
        }
        let (runs, words) = read_processors(&key[1..], cpus);
        let part = |cpu: u32| runs[cpu as usize].as_ref().map(|runs| runs.name);
        let deed = choice.checked_sub(usual).map(|deed| (deed % cpus, self.may[(deed / cpus) as usize]));
        if deed.is_some_and(|(cpu, may)| !is_of(&may, part(cpu))) {
            return Ok(false);
        }
        let is_hostile = choice < cpus && self.may.iter().any(|may| is_of(may, part(choice)));
        self.machine.rewind(words, runs, &mut self.steps);
        let turns = match deed {
            Some((cpu, may)) => self.act(cpu, Some(may.deed), key[0]),
            None if is_hostile => self.act(choice, None, key[0]),
            None => self.usual_choice(choice, key[0]),
        };
        self.next_key(words, turns.map_err(no_memory)?, to)?;
        Ok(true)
    }

    // The key of the moment that came out of one with these words, which aren't looked for again where none was
    // written.
    fn next_key(&mut self, words: &[u32], turns: u32, to: &mut Words<u32>) -> Result<(), Stop> {
        if !self.machine.mem().is_at(words) {
            return self.key(turns, to);
        }
        to.clear();
        to.push(turns).map_err(no_memory)?;
        add_processors(self.machine.processors(), to).map_err(no_memory)?;
        to.extend_from_slice(words).map_err(no_memory)
    }

    // A turn of a processor, or a line that is raised, and how many turns were made then.
    fn usual_choice(&mut self, choice: u32, turns: u32) -> Result<u32, Failed> {
        let cpus = self.machine.cpus();
        if choice >= cpus {
            self.machine.raise(self.lines[(choice - cpus) as usize], &mut self.steps);
            return Ok(turns);
        }
        let machine = &mut self.machine;
        let end = turn::<(), _, Label, Brand>(machine, choice, 0, &mut self.label, &mut self.steps)?;
        Ok(match end {
            TurnEnd::Polled(Outcome::Idle) => self.from,
            _ => self.from.min(turns + 1),
        })
    }

    // What runs on a processor takes a line if it can, and else does its deed, if it does one.
    fn act(&mut self, cpu: u32, deed: Option<Deed>, turns: u32) -> Result<u32, Failed> {
        let (machine, steps, label) = (&mut self.machine, &mut self.steps, &mut self.label);
        let polled = machine.poll(cpu, steps);
        match (polled, deed) {
            (Outcome::Switched { .. }, _) => write_moved(label, 0, cpu, polled)?,
            (_, Some(Deed::Call { number, args })) => {
                let outcome = machine.call(cpu, number, &args, steps);
                write_call(label, 0, cpu, number, outcome)?;
            }
            (_, Some(deed)) => write_moved(label, 0, cpu, event(machine, cpu, deed, steps))?,
            (_, None) => {}
        }
        Ok(self.from.min(turns + 1))
    }
}

// The event of a deed that is no call.
fn event<P: Port>(port: &mut P, cpu: u32, deed: Deed, steps: &mut Steps<Brand>) -> Outcome {
    use pip_base::Size;
    match deed {
        Deed::Load { va, size } => port.load(cpu, va, size, steps),
        Deed::StoreWord { va, word } => port.store(cpu, va, Size::Word, word, steps),
        Deed::StoreByte { va, byte } => port.store(cpu, va, Size::Byte, u32::from(byte), steps),
        Deed::Trap { vector, a, b } => port.trap(cpu, u32::from(vector), a, b, steps),
        Deed::Call { number, args } => port.call(cpu, number, &args, steps),
    }
}

// Whether a line of a menu is of the partition that runs, if one does.
fn is_of(may: &May, part: Option<Frame>) -> bool {
    part.is_some_and(|part| may.name.map_or(part.number() != 1, |name| name == part.number()))
}
