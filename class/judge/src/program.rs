//! A student's program: its image, and its runs with timers, words and children that the judge chooses.

use crate::random::Random;
use crate::script::{Refused, memory};
use crate::world::{Act, Hostile, Id, ROOT, Why, World, steps};
use alloc::collections::BTreeSet;
use alloc::format;
use alloc::string::{String, ToString};
use alloc::vec::Vec;
use pip_asm::{AsmError, assemble};
use pip_base::{Outcome, Plan};
use pip_cpu::turn;
use pip_frames::RawFrames;
use pip_image::{ImageReader, load_image};
use pip_io::{Discard, SureSource};
use pip_isa::{Instr, Register, decode, encode};
use pip_kern::boot_zeros;
use pip_model::{Port, due};
use pip_script::{Generator, outcome_text};
use pip_switch::Machine;
use rattle_std::alloc::Global;
use rattle_std::marker::Brand;

const HEAD: usize = 24;
const PLAN: usize = 12;
const PAGE: usize = 4100;
/// Words of an image that are looked at for constants, and steps of its run.
const MOST_WORDS: usize = 1 << 14;
const NOTED_STEPS: u32 = 2000;

/// An image, as `asm` writes it.
#[derive(Clone)]
pub struct Image(Vec<u8>);

/// A timer in the place of the text's own plans for its line: the line is raised first at a step and then at distances
/// that are drawn between two bounds; and, where it strikes, also within a few steps after some of the entries of the
/// root by a trap or a yield.
#[derive(Clone)]
pub struct Timer {
    pub line: u32,
    pub first: u32,
    pub least: u32,
    pub most: u32,
    pub strikes: bool,
    pub seed: u64,
}

/// What is different from the run of the text alone.
pub struct Course {
    pub timer: Option<Timer>,
    pub steps: u32,
    pub hostile: Option<Hostile>,
    /// Children stay where they are in some of their steps, by this seed.
    pub stalls: Option<u64>,
    /// After this event a register of what runs then gets a word.
    pub edit: Option<(usize, u32, u32)>,
    /// The words that registers have are noted.
    pub notes: bool,
}

impl Course {
    pub fn plain(steps: u32) -> Course {
        Course { timer: None, steps, hostile: None, stalls: None, edit: None, notes: false }
    }
}

impl Image {
    pub fn assembled(text: &[u8]) -> Result<Image, Refused> {
        match assemble(Global, text) {
            Ok(bytes) => Ok(Image(bytes.as_slice().into())),
            Err(AsmError::Line(number, kind)) => Err(Refused::Line(number, kind.to_string())),
            Err(AsmError::Memory) => Err(memory()),
        }
    }

    fn field(&self, at: usize) -> u32 {
        self.0.get(at..at + 4).map_or(0, |bytes| u32::from_le_bytes([bytes[0], bytes[1], bytes[2], bytes[3]]))
    }

    pub fn frames(&self) -> u32 {
        self.field(8)
    }

    // Where the word at an address of the root is; None where the image has no such page.
    fn place(&self, address: u32) -> Option<usize> {
        let first = HEAD + PLAN * self.field(16) as usize;
        let page = (first..self.0.len()).step_by(PAGE).find(|at| self.field(*at) == address / 4096)?;
        Some(page + 4 + address as usize % 4096)
    }

    pub fn has(&self, address: u32) -> bool {
        self.place(address).is_some()
    }

    pub fn put(&mut self, address: u32, word: u32) {
        if let Some(at) = self.place(address) {
            self.0[at..at + 4].copy_from_slice(&word.to_le_bytes());
        }
    }

    /// Numbers that the text has, where it may do something else: its words, the constants of its instructions, the two
    /// halves that make one, what registers have in its first steps, and the neighbours of these.
    pub fn constants(&self) -> Result<BTreeSet<u32>, Refused> {
        let noted = self.run(Course { notes: true, ..Course::plain(NOTED_STEPS) })?.noted;
        let words: Vec<u32> = self.words().collect();
        let half = |word: u32| word & 0xffff;
        let alone = words.iter().flat_map(|word| {
            let constant = half(*word);
            [*word, constant, half(constant.wrapping_neg())]
        });
        let whole = words.windows(2).filter_map(|pair| match (decode(pair[0])?, decode(pair[1])?) {
            (Instr::Li { value: low, .. }, Instr::LiHigh { value, .. }) => {
                Some(u32::from(value) << 16 | u32::from(low))
            }
            _ => None,
        });
        let all = alone.chain(whole).chain(noted);
        Ok(all.flat_map(|number| [number.wrapping_sub(1), number, number.wrapping_add(1)]).collect())
    }

    /// The half words that its instructions put into registers.
    pub fn halves(&self) -> BTreeSet<u16> {
        let constants = self.words().filter_map(|word| match decode(word)? {
            Instr::Li { value, .. } => Some(value),
            _ => None,
        });
        constants.collect()
    }

    // The words of its pages that aren't 0, as far as they are looked at.
    fn words(&self) -> impl Iterator<Item = u32> {
        let first = HEAD + PLAN * self.field(16) as usize;
        let places = (first..self.0.len()).step_by(PAGE).flat_map(|page| (page + 4..page + PAGE).step_by(4));
        places.map(|at| self.field(at)).filter(|word| *word != 0).take(MOST_WORDS)
    }

    /// The machine after some steps.
    pub fn run(&self, course: Course) -> Result<World, Refused> {
        let (mut world, plans) = self.load()?;
        world.hostile = course.hostile;
        world.stalls = course.stalls.map(Random::new);
        let mut lines = Lines::new(course.timer, plans);
        let mut generator = Generator::new(1);
        for step in 0..course.steps {
            lines.raise(&mut world, step);
            let cpu = if world.cpus() == 1 { 0 } else { generator.draw(world.cpus()) };
            world.place = step;
            let known = world.events.len();
            _ = turn::<World, _, _, Brand>(&mut world, cpu, u64::from(step), &mut Discard::new(), &mut steps());
            lines.strike(&mut world, known);
            if course.notes {
                world.note(cpu);
            }
            if let Some((event, register, word)) = course.edit
                && known <= event
                && event < world.events.len()
            {
                let pc = world.ctx(cpu).map_or(0, |ctx| ctx.pc);
                world.set_register(cpu, Register::new(register), word, pc);
            }
            if world.events.len() > known && (0..world.cpus()).all(|cpu| world.runs(cpu).is_none()) && lines.is_over() {
                break;
            }
        }
        Ok(world)
    }

    fn load(&self) -> Result<(World, Vec<Plan>), Refused> {
        let cant = |_| Refused::Cant("the image can't be read".into());
        let mut source = SureSource::new(&self.0);
        let mut reader = ImageReader::new(&mut source);
        let head = reader.header().map_err(cant)?;
        let mut mem = RawFrames::new(Global, head.frames).map_err(|_| memory())?;
        boot_zeros(&mut mem, &mut steps());
        load_image(&mut reader, &head, &mut mem).map_err(cant)?;
        let plans = head.plans.iter().copied().collect();
        Ok((World::new(Machine::new(mem, head.cpus), head.frames, true), plans))
    }
}

// The lines that are raised: by the plans of the text, and by a timer.
struct Lines {
    plans: Vec<Plan>,
    timer: Option<Drawn>,
}

struct Drawn {
    timer: Timer,
    next: u32,
    /// In how many steps it strikes.
    left: Option<u32>,
    random: Random,
}

// A strike comes this many steps after the entry at most.
const LATEST_STRIKE: u32 = 3;

impl Lines {
    fn new(timer: Option<Timer>, mut plans: Vec<Plan>) -> Lines {
        let timer = timer.map(|timer| {
            plans.retain(|plan| plan.line != timer.line);
            Drawn { next: timer.first, left: None, random: Random::new(timer.seed), timer }
        });
        Lines { plans, timer }
    }

    fn raise(&mut self, world: &mut World, step: u32) {
        for plan in self.plans.iter().filter(|plan| due(plan, u64::from(step))) {
            world.raise(plan.line, &mut steps());
        }
        if let Some(drawn) = self.timer.as_mut().filter(|drawn| drawn.next == step) {
            world.raise(drawn.timer.line, &mut steps());
            drawn.next += drawn.random.within(drawn.timer.least, drawn.timer.most);
        }
    }

    // Raises the line soon after some of the entries of the root by a child's own act: before the root's first
    // instruction, or after a few of them.
    fn strike(&mut self, world: &mut World, known: usize) {
        let Some(drawn) = self.timer.as_mut().filter(|drawn| drawn.timer.strikes) else { return };
        let entered = world.events.get(known).and_then(|event| event.moved.as_ref());
        let is_act = entered.is_some_and(|moved| moved.to == Some(ROOT) && matches!(moved.why, Why::Trap | Why::Yield));
        if is_act && drawn.random.within(0, 2) == 0 {
            drawn.left = Some(drawn.random.within(0, LATEST_STRIKE));
        }
        if drawn.left == Some(0) {
            world.raise(drawn.timer.line, &mut steps());
        }
        drawn.left = drawn.left.and_then(|left| left.checked_sub(1));
    }

    // Whether no line can wake a processor any more.
    fn is_over(&self) -> bool {
        self.plans.is_empty() && self.timer.is_none()
    }
}

// What is read off a run

/// The words that were shown: step, partition, word.
pub fn outs(world: &World) -> Vec<(u32, Id, u32)> {
    let shown = world.events.iter().filter_map(|event| match event.act {
        Act::Out { word } => Some((event.place, event.who?, word)),
        _ => None,
    });
    shown.collect()
}

pub fn has_parked(world: &World) -> bool {
    world.events.iter().any(|event| matches!(event.outcome, Outcome::Parked { .. }))
}

/// Whether a processor parked, and none runs anything at the end.
pub fn is_parked(world: &World) -> bool {
    has_parked(world) && (0..world.cpus()).all(|cpu| world.runs(cpu).is_none())
}

pub fn has_refused(world: &World) -> bool {
    world.events.iter().any(|event| event.status().is_some_and(|status| status.number() != 0))
}

/// What was refused or parked: step, processor, partition, the root's address of the instruction, and the line of the
/// trace.
pub fn trouble(world: &World) -> Vec<String> {
    let mut found = Vec::new();
    for event in world.events.iter().filter(|event| event.is_trouble()) {
        let call = if let Act::Call { no, .. } = event.act { format!("call {no} ") } else { String::new() };
        // A call and a trap leave the pc of the next instruction.
        let back = if matches!(event.act, Act::Call { .. } | Act::Trap { vector: 64.. }) { 4 } else { 0 };
        let place = event.before.zip(event.who).and_then(|(ctx, who)| world.at(who, ctx.pc.wrapping_sub(back)));
        let address =
            place.and_then(|at| world.root_address(at)).map_or("-".into(), |address| format!("{address:#010x}"));
        let name = event.who.map_or(0, |who| world.parts[who].name);
        let answer = outcome_text(&event.outcome);
        found.push(format!(
            "{}\t{}\t{name}\t{address}\t{call}{}",
            event.place,
            event.cpu.unwrap_or(0),
            answer.as_str()
        ));
    }
    found
}

// Children that the judge puts in the place of a program's own

/// Instructions that set registers and wait, with some others between them. Some registers are set once and keep that.
/// At times a register gets an edge, or a half word that may mean something to the root.
pub fn restless(random: &mut Random, acts: &[Vec<Instr>], meant: &[u16], waits: (u32, u32)) -> Vec<u32> {
    let mut text = Vec::new();
    let (kept, free): (Vec<u32>, Vec<u32>) = (0..16).partition(|a| *a > 0 && random.within(0, 3) == 0);
    text.extend(kept.iter().map(|a| encode(&li(*a, edge(random, meant)))));
    for _ in 0..40 {
        for _ in 0..random.within(waits.0, waits.1) {
            let a = random.one_of(&free);
            let value = if random.within(0, 2) == 0 { edge(random, meant) } else { random.word() as u16 };
            text.push(encode(&if random.within(0, 3) == 0 { lih(a, value) } else { li(a, value) }));
        }
        let act = random.within(0, acts.len() as u32 - 1) as usize;
        text.extend(acts[act].iter().map(encode));
    }
    text
}

fn edge(random: &mut Random, meant: &[u16]) -> u16 {
    if random.within(0, 1) == 0 { random.one_of(&[0, 0, 1, u16::MAX]) } else { random.one_of(meant) }
}

pub fn lih(register: u32, value: u16) -> Instr {
    Instr::LiHigh { a: Register::new(register), value }
}

pub fn li(register: u32, value: u16) -> Instr {
    Instr::Li { a: Register::new(register), value }
}
