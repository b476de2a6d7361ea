//! The commands `every` and `against`: what can happen over all interleavings, breadth first (docs/MODEL.md, "What can
//! happen").

use std::collections::HashSet;

use crate::away::{Away, Look};
use crate::calls::YIELD;
use crate::coming::{Coming, Cut, SHOWN};
use crate::cpu::{put_line, Line};
use crate::explorer::{Explorer, KeyList};
use crate::frames::{PARENT, ROOT};
use crate::hash::Keys;
use crate::image::{load, load_first, put_head, Loaded, Reader};
use crate::machine::{Access, Machine, Processor};
use crate::menu::{menu, Menu};
use crate::output::{Input, Output};
use crate::runs::steps;
use crate::Stop;

/// Turns after which the words are as in most states, so that these differ from them in few.
const LATER: u32 = 1000;

/// The instruction `sys 8`.
const YIELDS: u32 = 0x20000000 | YIELD;

pub struct Bounds {
    pub states: u32,
    pub from: u32,
    pub depth: Option<u32>,
    /// The steps of a run, and their seed, after which the search begins.
    pub begin: (u32, u32),
}

/// A guest that is searched alone: the name of its top, and the processors on which it runs, whose turns are the
/// choices.
pub struct Guest {
    pub top: u32,
    pub cpus: Vec<usize>,
}

/// A line that a choice shows, and the first state and choice that show it. A guest leaves with it, or doesn't.
struct Found {
    cpu: u32,
    line: Line,
    leaves: bool,
    state: u32,
    choice: u16,
    depth: u32,
}

#[derive(Clone, Copy)]
enum End {
    Closed,
    Within,
    Stopped,
}

/// The states that were reached.
struct States {
    list: KeyList,
    /// From which state by which choice each was reached first.
    parents: Vec<u32>,
    choices: Vec<u16>,
    /// An open table: 32 bits of the hash of a key, and the number of its state plus 1.
    places: Vec<u64>,
    keys: Keys,
}

enum Reached {
    New,
    Old,
    Full,
}

impl States {
    fn new() -> Self {
        let keys = Keys::default();
        States { list: KeyList::new(), parents: vec![], choices: vec![], places: vec![0; 1024], keys }
    }

    fn count(&self) -> u32 {
        self.parents.len() as u32
    }

    fn key(&self, state: u32) -> &[u8] {
        self.list.key(state as usize)
    }

    /// The state of a key, or a free place of the table.
    #[inline]
    fn find(&self, key: &[u8], hash: u64) -> Result<u32, usize> {
        let mask = self.places.len() - 1;
        let mut place = hash as usize & mask;
        while self.places[place] != 0 {
            let at = self.places[place];
            if at >> 32 == hash && self.key(at as u32 - 1) == key {
                return Ok(at as u32 - 1);
            }
            place = (place + 1) & mask;
        }
        Err(place)
    }

    /// Notes the state of a key, unless it was noted before or there are as many as there may be.
    #[inline]
    fn reach(&mut self, key: &[u8], parent: u32, choice: u16, most: u32) -> Result<Reached, Stop> {
        let hash = self.keys.hash(key) >> 32;
        let Err(place) = self.find(key, hash) else {
            return Ok(Reached::Old);
        };
        if self.count() == most {
            return Ok(Reached::Full);
        }
        self.add(key, parent, choice)?;
        self.places[place] = hash << 32 | u64::from(self.count());
        if 2 * self.parents.len() > self.places.len() {
            self.grow()?;
        }
        Ok(Reached::New)
    }

    fn add(&mut self, key: &[u8], parent: u32, choice: u16) -> Result<(), Stop> {
        self.parents.try_reserve(1)?;
        self.choices.try_reserve(1)?;
        self.list.push(key)?;
        self.parents.push(parent);
        self.choices.push(choice);
        Ok(())
    }

    fn grow(&mut self) -> Result<(), Stop> {
        let size = 2 * self.places.len();
        let mut places = Vec::new();
        places.try_reserve_exact(size)?;
        places.resize(size, 0);
        for &at in self.places.iter().filter(|&&at| at != 0) {
            let mut place = (at >> 32) as usize & (size - 1);
            while places[place] != 0 {
                place = (place + 1) & (size - 1);
            }
            places[place] = at;
        }
        self.places = places;
        Ok(())
    }

    /// The choices that lead to a state.
    fn way(&self, mut state: u32) -> Vec<u16> {
        let mut way = Vec::new();
        while state != 0 {
            way.push(self.choices[state as usize]);
            state = self.parents[state as usize];
        }
        way.reverse();
        way
    }
}

pub struct Search {
    explorer: Explorer,
    bounds: Bounds,
    pub guest: Option<Guest>,
    states: States,
    found: Vec<Found>,
    shown: HashSet<(u32, Line, bool), Keys>,
    /// How the search ended, and the depth of that.
    end: (End, u32),
}

pub fn every(input: &mut Input, output: &mut Output, bounds: Bounds) -> Result<(), Stop> {
    let loaded = load(input, output, 0)?;
    searched(loaded, Menu::default(), output, bounds)
}

pub fn against(input: &mut Input, output: &mut Output, bounds: Bounds) -> Result<(), Stop> {
    let loaded = load_first(&mut Reader::new(input, output), 0)?;
    let menu = menu(input, output)?;
    searched(loaded, menu, output, bounds)
}

fn searched(mut loaded: Loaded<true>, menu: Menu, output: &mut Output, bounds: Bounds) -> Result<(), Stop> {
    let head = loaded.head;
    steps(&mut loaded, bounds.begin.0, bounds.begin.1, |_, _, _| Ok(()))?;
    let mut search = Search::new(loaded, menu, bounds)?;
    search.search()?;
    let lost = search.lost(output)?;
    let coming = search.coming(output)?;
    let away = search.away();
    put_head(output, &head)?;
    search.put(output)?;
    search.put_lost(output, &lost)?;
    search.put_coming(output, &coming)?;
    away.map_or(Ok(()), |away| search.put_away(output, &away))
}

/// The guest on a processor: the child of the root that runs there, or is above what does.
pub fn guest_on(world: &Machine<true>, cpu: usize) -> Option<u32> {
    let mut part = world.processors[cpu].part;
    while part > ROOT && world.frames.get(part, PARENT) != ROOT {
        part = world.frames.get(part, PARENT);
    }
    (part > ROOT).then_some(part)
}

/// Whether the top of a guest is about to yield to its parent.
fn asks(world: &mut Machine<true>, top: u32, cpu: usize) -> bool {
    let Processor { part, context } = world.processors[cpu];
    part == top
        && context.registers[1] == 0
        && world.loaded(cpu, context.pc, Access::Fetch, true).is_ok_and(|word| word == YIELDS)
}

impl Search {
    /// A search from the world that is loaded on, with a menu.
    pub fn new(loaded: Loaded<true>, menu: Menu, bounds: Bounds) -> Result<Self, Stop> {
        let Loaded { mut world, plans, .. } = loaded;
        let processors = world.processors;
        for turn in 0..LATER {
            world.turn(turn as usize % world.count);
        }
        let mut base = Vec::new();
        base.try_reserve_exact(world.frames.words().len())?;
        base.extend_from_slice(world.frames.words());
        world.frames.undo();
        world.processors = processors;
        let explorer = Explorer::new(world, plans, menu, bounds.from, base, 0);
        let (states, found, shown) = (States::new(), Vec::new(), HashSet::default());
        Ok(Search { explorer, bounds, guest: None, states, found, shown, end: (End::Stopped, 0) })
    }

    pub fn search(&mut self) -> Result<(), Stop> {
        self.end = self.searched()?;
        Ok(())
    }

    /// Whether nothing is left to be found, and the guest never leaves.
    pub fn stays(&self) -> bool {
        matches!(self.end.0, End::Closed) && !self.found.iter().any(|found| found.leaves)
    }

    /// How many choices there are.
    fn choices(&self) -> usize {
        self.guest.as_ref().map_or(self.explorer.choices(), |guest| guest.cpus.len())
    }

    fn searched(&mut self) -> Result<(End, u32), Stop> {
        self.explorer.put_own_key();
        self.reach(0, 0)?;
        let (mut state, mut depth, mut level) = (0, 0, 1);
        while state < self.states.count() {
            if state == level {
                (depth, level) = (depth + 1, self.states.count());
            }
            if Some(depth) == self.bounds.depth {
                return Ok((End::Within, depth));
            }
            self.explorer.visit(self.states.key(state));
            for choice in 0..self.choices() {
                if !self.choose(state, choice, depth)? {
                    return Ok((End::Stopped, depth));
                }
            }
            state += 1;
        }
        Ok((End::Closed, depth))
    }

    /// Makes a choice of a state. False if it leads to one state more than there may be.
    #[inline]
    fn choose(&mut self, state: u32, choice: usize, depth: u32) -> Result<bool, Stop> {
        if self.guest.is_some() {
            return self.choose_alone(state, choice, depth);
        }
        let Some(shown) = self.explorer.made(choice) else { return Ok(true) };
        if let Some((cpu, line)) = shown {
            self.note(Found { cpu, line, leaves: false, state, choice: choice as u16, depth });
        }
        self.reach(state, choice)
    }

    /// Makes a turn of a guest. One in which it leaves leads nowhere.
    fn choose_alone(&mut self, state: u32, choice: usize, depth: u32) -> Result<bool, Stop> {
        let Some(Guest { top, ref cpus }) = self.guest else { return Ok(true) };
        let cpu = cpus[choice];
        self.explorer.restart();
        let world = &mut self.explorer.world;
        let asks = asks(world, top, cpu);
        let line = world.turn(cpu);
        let leaves = asks || guest_on(world, cpu) != Some(top);
        if !leaves {
            self.explorer.put_key(0);
        }
        self.explorer.world.frames.undo();
        if let Some(line) = line {
            self.note(Found { cpu: cpu as u32, line, leaves, state, choice: choice as u16, depth });
        }
        Ok(leaves || self.reach(state, choice)?)
    }

    /// Notes the state that a choice leads to.
    #[inline]
    fn reach(&mut self, state: u32, choice: usize) -> Result<bool, Stop> {
        let reached = self.states.reach(&self.explorer.key, state, choice as u16, self.bounds.states)?;
        Ok(!matches!(reached, Reached::Full))
    }

    fn note(&mut self, found: Found) {
        if self.shown.insert((found.cpu, found.line, found.leaves)) {
            self.found.push(found);
        }
    }

    /// The lines that were found, and the last line.
    pub fn put(&self, output: &mut Output) -> Result<(), Stop> {
        let (end, depth) = self.end;
        for found in &self.found {
            if matches!(end, End::Closed) || found.depth < depth {
                self.put_found(output, found)?;
            }
        }
        output.text("states ").number(self.states.count());
        match end {
            End::Closed => output.text(" depth ").number(depth).text(" closed"),
            End::Within => output.text(" within ").number(depth),
            End::Stopped => output.text(" depth ").number(depth).text(" stopped"),
        };
        output.end_line()
    }

    fn put_found(&self, output: &mut Output, found: &Found) -> Result<(), Stop> {
        if found.leaves {
            output.text("leaves ");
        }
        output.number(found.depth).text(" ").number(found.cpu).text(" ");
        put_line(output, found.line);
        output.text(":");
        let mut way = self.states.way(found.state);
        way.push(found.choice);
        self.put_way(output, &way);
        output.end_line()
    }

    fn put_way(&self, output: &mut Output, way: &[u16]) {
        for same in way.chunk_by(|one, next| one == next) {
            let choice = usize::from(same[0]);
            let choice = self.guest.as_ref().map_or(choice, |guest| guest.cpus[choice]);
            match (self.explorer.deed(choice), choice.checked_sub(self.explorer.world.count)) {
                (Some((cpu, deed)), _) => output.text(" ").number(cpu as u32).text(":d").number(deed as u32 + 1),
                (None, None) => output.text(" ").number(choice as u32),
                (None, Some(plan)) => output.text(" raise").number(self.explorer.plans[plan].line),
            };
            if same.len() > 1 {
                output.text("x").number(same.len() as u32);
            }
        }
    }

    /// Of each label of the menu, the first state from which it can't come by choices without deeds, if there is one. A
    /// line that was never found can't from the first on.
    fn lost(&mut self, output: &mut Output) -> Result<Vec<Option<u32>>, Stop> {
        if self.explorer.menu.labels.is_empty() || !matches!(self.end.0, End::Closed) {
            return Ok(vec![]);
        }
        let lines = self.lines_of(output, &self.explorer.menu.labels);
        let (count, width) = (self.states.count() as usize, self.explorer.usual());
        let (mut edges, mut can) = (Vec::new(), vec![vec![false; count]; lines.len()]);
        edges.try_reserve_exact(count * width)?;
        for state in 0..count {
            self.explorer.visit(self.states.key(state as u32));
            for choice in 0..width {
                let Some(shown) = self.explorer.made(choice) else {
                    edges.push(state as u32);
                    continue;
                };
                let key = &self.explorer.key;
                edges.push(self.states.find(key, self.states.keys.hash(key) >> 32).unwrap_or(0));
                for (line, can) in lines.iter().zip(&mut can) {
                    can[state] |= shown.is_some() && *line == shown;
                }
            }
        }
        let back = Edges::of(count, width, &edges)?;
        Ok(can.iter_mut().map(|can| back.first_lost(can)).collect())
    }

    /// What shows each label, of those that were found.
    fn lines_of(&self, output: &mut Output, labels: &[Vec<u8>]) -> Vec<Option<(u32, Line)>> {
        let texts: Vec<Vec<u8>> = (self.found.iter())
            .map(|found| {
                output.written(|output| {
                    put_line(output.number(found.cpu).text(" "), found.line);
                })
            })
            .collect();
        (labels.iter())
            .map(|label| texts.iter().position(|text| text == label))
            .map(|at| at.map(|at| (self.found[at].cpu, self.found[at].line)))
            .collect()
    }

    /// Of each label of which it is asked whether it comes, where choices are fair, what is said of it.
    fn coming(&mut self, output: &mut Output) -> Result<Vec<Coming>, Stop> {
        if self.explorer.menu.coming.is_empty() || !matches!(self.end.0, End::Closed) {
            return Ok(vec![]);
        }
        let lines = self.lines_of(output, &self.explorer.menu.coming);
        let (count, width) = (self.states.count() as usize, self.explorer.choices());
        let (mut targets, mut shows) = (Vec::new(), Vec::new());
        targets.try_reserve_exact(count * width)?;
        shows.try_reserve_exact(count * width)?;
        for state in 0..count {
            self.explorer.visit(self.states.key(state as u32));
            for choice in 0..width {
                let Some(shown) = self.explorer.made(choice) else {
                    targets.push(state as u32);
                    shows.push(0);
                    continue;
                };
                let key = &self.explorer.key;
                targets.push(self.states.find(key, self.states.keys.hash(key) >> 32).unwrap_or(0));
                let bits = lines.iter().enumerate().filter(|(_, line)| shown.is_some() && **line == shown);
                shows.push(bits.fold(0u16, |all, (at, _)| all | 1 << at));
            }
        }
        let cut = |at: usize| -> Result<Coming, Stop> {
            let mut own = Vec::new();
            own.try_reserve_exact(targets.len())?;
            own.extend(targets.iter().zip(&shows).map(|(&to, bits)| if bits >> at & 1 == 1 { SHOWN } else { to }));
            Cut { targets: &own, width, classes: self.explorer.usual() }.coming()
        };
        (0..lines.len()).map(cut).collect()
    }

    /// What is said of each of these labels.
    fn put_coming(&self, output: &mut Output, coming: &[Coming]) -> Result<(), Stop> {
        for (at, label) in self.explorer.menu.coming.iter().enumerate() {
            output.text("comes ").bytes(label);
            match coming.get(at) {
                None => {
                    output.text(": unknown");
                }
                Some(Coming::Within(counts)) => {
                    output.text(": within");
                    for (choice, &count) in counts[1..].iter().enumerate() {
                        output.text(if choice == 0 { " " } else { ", " }).number(count).text(" of");
                        self.put_way(output, &[choice as u16]);
                    }
                }
                Some(Coming::Avoided(state, choices)) => {
                    output.text(": no");
                    self.put_way(output, &self.states.way(*state));
                    output.text(" :");
                    self.put_way(output, choices);
                }
            }
            output.end_line()?;
        }
        Ok(())
    }

    /// Whether each state looks away on each processor, if that is asked.
    fn away(&mut self) -> Option<Away> {
        if !self.explorer.menu.blind.is_asked() {
            return None;
        }
        if !matches!(self.end.0, End::Closed) {
            return Some(Away::Unknown);
        }
        for state in 0..self.states.count() {
            self.explorer.visit(self.states.key(state));
            for cpu in 0..self.explorer.world.count {
                self.explorer.restart();
                let Explorer { world, menu, .. } = &mut self.explorer;
                let is_away = Look { world, blind: &menu.blind, deeds: &menu.deeds }.is_away(cpu);
                self.explorer.world.frames.undo();
                if !is_away {
                    return Some(Away::No(state, cpu));
                }
            }
        }
        Some(Away::Yes)
    }

    fn put_away(&self, output: &mut Output, away: &Away) -> Result<(), Stop> {
        match *away {
            Away::Yes => output.text("away yes"),
            Away::Unknown => output.text("away unknown"),
            Away::No(state, cpu) => {
                output.text("away no");
                self.put_way(output, &self.states.way(state));
                output.text(" : ").number(cpu as u32)
            }
        };
        output.end_line()
    }

    /// What is said of each label.
    fn put_lost(&self, output: &mut Output, lost: &[Option<u32>]) -> Result<(), Stop> {
        for (at, label) in self.explorer.menu.labels.iter().enumerate() {
            output.text("again ").bytes(label).text(match lost.get(at) {
                None => ": unknown",
                Some(None) => ": yes",
                Some(Some(_)) => ": no",
            });
            if let Some(&Some(state)) = lost.get(at) {
                self.put_way(output, &self.states.way(state));
            }
            output.end_line()?;
        }
        Ok(())
    }
}

/// From which states choices lead to each.
struct Edges {
    starts: Vec<usize>,
    sources: Vec<u32>,
}

impl Edges {
    fn of(count: usize, width: usize, edges: &[u32]) -> Result<Self, Stop> {
        let (mut starts, mut sources) = (vec![0; count + 2], Vec::new());
        edges.iter().for_each(|&to| starts[to as usize + 2] += 1);
        (2..count + 2).for_each(|at| starts[at] += starts[at - 1]);
        sources.try_reserve_exact(edges.len())?;
        sources.resize(edges.len(), 0);
        for (edge, &to) in edges.iter().enumerate() {
            sources[starts[to as usize + 1]] = (edge / width) as u32;
            starts[to as usize + 1] += 1;
        }
        Ok(Edges { starts, sources })
    }

    /// The first state from which none of those that can is reached.
    fn first_lost(&self, can: &mut [bool]) -> Option<u32> {
        let mut left: Vec<usize> = (0..can.len()).filter(|&state| can[state]).collect();
        while let Some(state) = left.pop() {
            for &source in &self.sources[self.starts[state]..self.starts[state + 1]] {
                if !can[source as usize] {
                    can[source as usize] = true;
                    left.push(source as usize);
                }
            }
        }
        can.iter().position(|&can| !can).map(|state| state as u32)
    }
}
