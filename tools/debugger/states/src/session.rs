//! A run that goes forward and back, step by step, with states that are kept on the way.

use crate::frames::{Kept, Shared, differing, places};
use crate::requests::{Begin, Choice, Edit, Place};
use crate::schedule::{Children, End, Schedule, cpu_of};
use crate::stops::{Hit, Stops, fetched};
use arrayvec::ArrayVec;
use pip_base::{Frame, Plan, Size, Steps};
use pip_image::{ImageReader, load_image};
use pip_io::{Failed, Sink, SureSource};
use pip_kern::boot_zeros;
use pip_model::{Occupant, Port, Register, ScriptLine, due};
use pip_script::{Generator, is_blank, read_line, read_phrase};
use pip_switch::Machine;
use pip_native::{build_children, set_handlers};
use rattle_std::marker::Brand;
use rattle_std::sync::ledger::Blank;
use std::collections::BTreeMap;
use std::rc::Rc;

/// A counter of steps that nobody reads.
pub fn counter() -> Steps<Brand> {
    Steps::new(Blank::new(1))
}

/// A text in memory.
#[derive(Default)]
pub struct Text(pub Vec<u8>);

impl Sink for Text {
    fn write(&mut self, piece: &[u8]) -> Result<usize, Failed> {
        self.0.extend_from_slice(piece);
        Ok(piece.len())
    }

    fn flush(&mut self) -> Result<(), Failed> {
        Ok(())
    }
}

/// Everything but the machine on which what comes depends.
#[derive(Clone)]
struct Course {
    schedule: Schedule,
    plans: Rc<Vec<Plan>>,
}

struct State {
    frames: Kept,
    cpus: ArrayVec<Option<Occupant>, 4>,
    course: Course,
}

/// A step that was made.
#[derive(Clone)]
pub struct Turn {
    pub step: u64,
    pub cpu: Option<u32>,
    /// The partition and the pc before it, and the word there.
    pub from: Option<(u32, u32, Option<u32>)>,
    /// Where that word is.
    pub place: Option<Place>,
    pub raised: Vec<u32>,
    pub did: &'static str,
    pub line: String,
    pub changed: Vec<[u32; 4]>,
}

pub struct Session {
    pub machine: Machine<Shared>,
    pub frames: u32,
    pub at: u64,
    first: Rc<Kept>,
    course: Course,
    every: u64,
    kept: BTreeMap<u64, State>,
    edits: Vec<(u64, Edit)>,
    line: Text,
    last: Option<Turn>,
}

impl Session {
    /// The machine of an image, before its first step; or that of a script, after its first line.
    pub fn load(image: &[u8], begin: Begin, every: u64) -> Result<Session, String> {
        if matches!(begin, Begin::Script) {
            return Session::of_script(image, every);
        }
        let mut source = SureSource::new(image);
        let mut reader = ImageReader::new(&mut source);
        let head = reader.header().map_err(|fault| format!("bad image: {fault:?}"))?;
        if let Some(need) = frames_needed(begin).filter(|need| head.frames < need + 13) {
            return Err(format!(
                "the children need an image of {} frames, and this one has {}",
                need + 13,
                head.frames
            ));
        }
        let mut mem = Shared::zeros(head.frames);
        boot_zeros(&mut mem, &mut counter());
        load_image(&mut reader, &head, &mut mem).map_err(|fault| format!("bad image: {fault:?}"))?;
        let first = Rc::new(mem.kept());
        let mut machine = Machine::new(Shared::begun(first.clone()), head.cpus);
        let schedule = schedule_of(begin, &mut machine);
        let plans = Rc::new(head.plans.iter().copied().collect());
        Ok(Session::begun(machine, first, Course { schedule, plans }, every))
    }

    fn of_script(text: &[u8], every: u64) -> Result<Session, String> {
        let (frames, cpus, lines) = script(text)?;
        let mut mem = Shared::zeros(frames);
        boot_zeros(&mut mem, &mut counter());
        let first = Rc::new(mem.kept());
        let machine = Machine::new(Shared::begun(first.clone()), cpus);
        let course = Course { schedule: Schedule::Script(Rc::new(lines)), plans: Rc::default() };
        Ok(Session::begun(machine, first, course, every))
    }

    fn begun(machine: Machine<Shared>, first: Rc<Kept>, course: Course, every: u64) -> Session {
        let mut session = Session {
            machine,
            frames: first.len() as u32,
            at: 0,
            first,
            course,
            every,
            kept: BTreeMap::new(),
            edits: Vec::new(),
            line: Text::default(),
            last: None,
        };
        session.keep();
        session
    }

    /// Line, first step and period of each plan.
    pub fn plans(&self) -> Vec<[u32; 3]> {
        self.course.plans.iter().map(|plan| [plan.line, plan.first, plan.period]).collect()
    }

    /// Whether something was changed by hand on the way here.
    pub fn is_edited(&self) -> bool {
        self.edits.iter().any(|(at, _)| *at <= self.at)
    }

    /// The last state there is.
    pub fn end(&self) -> u64 {
        self.course.schedule.end()
    }

    // States that are kept

    fn keep(&mut self) {
        let mut cpus = ArrayVec::new();
        for runs in self.machine.processors() {
            cpus.push(*runs);
        }
        let state = State { frames: self.machine.mem().kept(), cpus, course: self.course.clone() };
        self.kept.insert(self.at, state);
    }

    // Goes back to the last kept state that isn't after `step`.
    fn restore(&mut self, step: u64) {
        let Some((at, state)) = self.kept.range(..=step).next_back() else { return };
        let words = places(&self.first, &state.frames);
        self.machine.rewind(&words, state.cpus.clone(), &mut counter());
        self.course = state.course.clone();
        self.at = *at;
        self.last = None;
    }

    /// How many states are kept, and of how many frames copies.
    pub fn kept_count(&self) -> [usize; 2] {
        let mut seen = std::collections::HashSet::new();
        for state in self.kept.values() {
            seen.extend(state.frames.iter().map(Rc::as_ptr));
        }
        [self.kept.len(), seen.len()]
    }

    // Steps

    /// The processor whose turn comes, and the lines that are raised before.
    pub fn coming(&self) -> (Option<u32>, Vec<u32>) {
        let (cpu, raised) = self.course.schedule.coming(self.at, self.machine.cpus());
        let planned = self.course.plans.iter().filter(|plan| self.course.schedule.has_plans() && due(plan, self.at));
        (cpu, planned.map(|plan| plan.line).chain(raised).collect())
    }

    // Makes the step, whose line is then in `line`.
    fn make(&mut self) -> End {
        let counter = &mut counter();
        self.line.0.clear();
        self.last = None;
        if self.course.schedule.has_plans() {
            for plan in self.course.plans.iter().filter(|plan| due(plan, self.at)) {
                self.machine.raise(plan.line, counter);
            }
        }
        let end = self.course.schedule.make(&mut self.machine, self.at, &mut self.line, counter);
        self.at += 1;
        end.unwrap_or(End::Nothing)
    }

    // What was changed here by hand is changed again, and a state is kept at times.
    fn arrive(&mut self) {
        for at in 0..self.edits.len() {
            if self.edits[at].0 == self.at {
                self.apply(self.edits[at].1);
            }
        }
        if self.at % self.every == 0 && !self.kept.contains_key(&self.at) {
            self.keep();
        }
    }

    /// Goes to the state before a step.
    pub fn go(&mut self, step: u64) {
        if step < self.at || self.kept.range(..=step).next_back().is_some_and(|(at, _)| *at > self.at) {
            self.restore(step);
        }
        while self.at < step {
            self.make();
            self.arrive();
        }
    }

    /// The step that led here, which is made again.
    pub fn turn(&mut self) -> Option<Turn> {
        if self.last.is_none() && self.at > 0 {
            self.go(self.at - 1);
            let made = self.made_again();
            self.last = Some(made);
        }
        self.last.clone()
    }

    fn made_again(&mut self) -> Turn {
        let before = self.machine.mem().kept();
        let mut turn = self.made();
        turn.changed = differing(&before, &self.machine.mem().kept());
        self.arrive();
        turn
    }

    // Makes a step, which isn't asked for the words that it changes.
    fn made(&mut self) -> Turn {
        let (step, (cpu, raised)) = (self.at, self.coming());
        let from = cpu.and_then(|cpu| self.place(cpu));
        let place = from.and_then(|(part, pc, _)| fetched(self.machine.mem(), Frame::new(part), pc));
        let did = self.make().name();
        let line = String::from_utf8_lossy(&self.line.0).trim_end().to_string();
        Turn { step, cpu, from, place, raised, did, line, changed: Vec::new() }
    }

    /// Goes on to a step, and hands out each step on the way.
    pub fn each_turn(&mut self, to: u64, mut told: impl FnMut(&Turn)) {
        while self.at < to {
            let turn = self.made();
            self.arrive();
            told(&turn);
        }
    }

    /// What runs on a processor: partition, pc, and the word there.
    pub fn place(&self, cpu: u32) -> Option<(u32, u32, Option<u32>)> {
        let runs = self.machine.processors()[cpu as usize].as_ref()?;
        let mem = self.machine.mem();
        let word = fetched(mem, runs.name, runs.ctx.pc).and_then(|(frame, index)| mem.word_at(frame, index));
        Some((runs.name.number(), runs.ctx.pc, word))
    }

    /// Goes on to a step, and hands out each line on the way.
    pub fn each_line(&mut self, to: u64, mut told: impl FnMut(&str)) {
        while self.at < to {
            self.make();
            self.arrive();
            if !self.line.0.is_empty() {
                told(String::from_utf8_lossy(&self.line.0).trim_end());
            }
        }
    }

    // Runs with stops

    /// Runs on to a step; what stopped it before, or there, is the error.
    pub fn run(&mut self, to: u64, stops: &Stops) -> Result<(), Vec<Hit>> {
        let mut hits = Vec::new();
        let to = to.min(self.end());
        let mut before = Before::new(self, stops);
        while self.at < to && hits.is_empty() {
            self.step_watched(stops, &mut before, &mut hits);
        }
        if hits.is_empty() { Ok(()) } else { Err(hits) }
    }

    fn step_watched(&mut self, stops: &Stops, before: &mut Before, hits: &mut Vec<Hit>) {
        let turn_of = stops.turn_of.filter(|cpu| self.coming_cpu() == Some(*cpu));
        self.make();
        self.arrive();
        stops.changed(&mut before.words, &self.machine, hits);
        stops.lines_in(&self.line.0, hits);
        hits.extend(turn_of.map(|_| ("turn", 0)));
        if stops.idle {
            let runs = self.machine.processors().iter().any(Option::is_some);
            if before.runs && !runs {
                hits.push(("idle", 0));
            }
            before.runs = runs;
        }
        self.breaks_here(stops, hits);
    }

    fn coming_cpu(&self) -> Option<u32> {
        self.course.schedule.coming(self.at, self.machine.cpus()).0
    }

    fn breaks_here(&self, stops: &Stops, hits: &mut Vec<Hit>) {
        if !stops.breaks.is_empty() {
            let runs = self.coming_cpu().and_then(|cpu| self.machine.processors()[cpu as usize].as_ref());
            stops.breaks_at(self.machine.mem(), self.at, runs, hits);
        }
    }

    /// Goes back to the last state before this one, and not before `to`, at which a run would have been stopped. Each
    /// kept state begins a stretch that is made again, the last stretch first.
    pub fn back(&mut self, to: u64, stops: &Stops) -> Vec<Hit> {
        let mut last = self.at;
        while last > to {
            let (step, hits) = self.last_stop(last - 1, to, stops);
            if !hits.is_empty() {
                self.go(step);
                return hits;
            }
            last = step;
        }
        self.go(to);
        Vec::new()
    }

    // The last state up to `last`, and not before `to`, at which a run is stopped, in the stretch that leads to `last`;
    // else the first state of the stretch that was looked at.
    fn last_stop(&mut self, last: u64, to: u64, stops: &Stops) -> (u64, Vec<Hit>) {
        self.restore(last.saturating_sub(1));
        let mut found = (self.at + 1, Vec::new());
        if self.at == 0 && to == 0 {
            let mut hits = Vec::new();
            self.breaks_here(stops, &mut hits);
            found = (0, hits);
        }
        let mut before = Before::new(self, stops);
        while self.at < last {
            let mut hits = Vec::new();
            self.step_watched(stops, &mut before, &mut hits);
            if !hits.is_empty() && self.at >= to {
                found = (self.at, hits);
            }
        }
        found
    }

    // Changes by hand

    /// Changes something here. What was after this state is forgotten.
    pub fn edit(&mut self, edit: Edit) -> Result<(), String> {
        let cpus = self.machine.cpus();
        let is_good = match edit {
            Edit::Seed(seed) => seed != 0 && matches!(self.course.schedule, Schedule::Drawn(_)),
            Edit::Plan(line, ..) | Edit::NoPlan(line) => line < 16 && self.course.schedule.has_plans(),
            Edit::Raise(line) => line < 16,
            Edit::Register(cpu, register, _) => cpu < cpus && register <= 16,
            Edit::Store(cpu, ..) => cpu < cpus,
        };
        if !is_good {
            return Err("that can't be changed so here".to_string());
        }
        self.kept.split_off(&(self.at + 1));
        self.edits.retain(|(at, _)| *at <= self.at);
        self.edits.push((self.at, edit));
        self.apply(edit);
        self.last = None;
        self.keep();
        Ok(())
    }

    fn apply(&mut self, edit: Edit) {
        let counter = &mut counter();
        match edit {
            Edit::Seed(seed) => self.course.schedule = Schedule::Drawn(Generator::new(seed)),
            Edit::Plan(line, first, period) => self.set_plan(line, Some(Plan { line, first, period })),
            Edit::NoPlan(line) => self.set_plan(line, None),
            Edit::Raise(line) => self.machine.raise(line, counter),
            Edit::Register(cpu, 16, word) => _ = self.machine.set_pc(cpu, word),
            Edit::Register(cpu, register, word) => {
                let runs = self.machine.processors()[cpu as usize].as_ref();
                if let Some(pc) = runs.map(|runs| runs.ctx.pc) {
                    self.machine.set_register(cpu, Register::new(register), word, pc);
                }
            }
            Edit::Store(cpu, address, word) => _ = self.machine.store(cpu, address, Size::Word, word, counter),
        }
    }

    fn set_plan(&mut self, line: u32, plan: Option<Plan>) {
        let mut plans: Vec<Plan> =
            self.course.plans.iter().copied().filter(|one| one.line != line).chain(plan).collect();
        plans.sort_by_key(|plan| plan.line);
        self.course.plans = Rc::new(plans);
    }

    /// Begins again, by a way of `every`.
    pub fn take_way(&mut self, way: Vec<Choice>) -> Result<(), String> {
        let cpus = self.machine.cpus();
        let is_good = |choice: &Choice| match choice {
            Choice::Turn(cpu) => *cpu < cpus,
            Choice::Raise(line) => *line < 16,
        };
        if !way.iter().all(is_good) {
            return Err("a choice has no such processor or line".to_string());
        }
        self.machine = Machine::new(Shared::begun(self.first.clone()), cpus);
        self.at = 0;
        self.last = None;
        self.kept.clear();
        self.edits.clear();
        self.course.schedule = Schedule::Way(Rc::new(way));
        self.keep();
        Ok(())
    }
}

fn frames_needed(begin: Begin) -> Option<u32> {
    match begin {
        Begin::Seed(_) | Begin::Script => None,
        Begin::Native(children) | Begin::Slots(children, _) => Some(13 * children),
    }
}

// A script's frames and processors, and its other lines.
fn script(text: &[u8]) -> Result<(u32, u32, Vec<(Option<u32>, Vec<u8>)>), String> {
    let lines = text.strip_suffix(b"\n").unwrap_or(text).split(|byte| *byte == b'\n');
    let mut said = lines.enumerate().filter(|(_, line)| !is_blank(line));
    let Some((_, Some(ScriptLine::Boot { n, c }))) = said.next().map(|(at, line)| (at, read_line(line, 0))) else {
        return Err("the script doesn't begin with a boot line".to_string());
    };
    let events = said.map(|(at, line)| match read_phrase(line, c) {
        Some(event) => Ok((cpu_of(&event), line.to_vec())),
        None => Err(format!("bad line {}", at + 1)),
    });
    Ok((n, c, events.collect::<Result<_, _>>()?))
}

// A monitor builds its children before the first step.
fn schedule_of(begin: Begin, machine: &mut Machine<Shared>) -> Schedule {
    match begin {
        Begin::Script => Schedule::Script(Rc::default()),
        Begin::Seed(seed) => Schedule::Drawn(Generator::new(seed)),
        Begin::Native(count) => {
            let children = built(machine, count);
            Schedule::Native { children, alive: (1 << count) - 1, last: count - 1 }
        }
        Begin::Slots(count, turns) => Schedule::Slots { children: built(machine, count), turns },
    }
}

fn built(machine: &mut Machine<Shared>, count: u32) -> Children {
    set_handlers(machine, &mut counter());
    build_children(machine, count, &mut counter())
}

/// What a run compares from step to step.
struct Before {
    words: Vec<(u32, Option<u32>)>,
    runs: bool,
}

impl Before {
    fn new(session: &Session, stops: &Stops) -> Before {
        let runs = session.machine.processors().iter().any(Option::is_some);
        Before { words: stops.watched(&session.machine), runs }
    }
}
