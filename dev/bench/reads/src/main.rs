//! How many words of frames each event of a script reads, beside the bound that is proved of it (docs/GUARANTEES.md,
//! "How long an event can take"). A line for each kind of event: what one read, its bound, its line in the script, and
//! the share of the bound, of the one whose share is greatest. It stops where an event reads more than its bound.

use pip_base::{Frame, Steps};
use pip_frames::{Frames, VecFrames};
use pip_kern::{boot_zeros, parent_of, row_at};
use pip_script::answer_line;
use pip_switch::Machine;
use rattle_std::alloc::Global;
use rattle_std::marker::Brand;
use rattle_std::sync::ledger::{Blank, Ledger};
use std::cell::Cell;
use std::collections::BTreeMap;
use std::io::BufRead;

/// A memory that counts the words that are read, as its contract counts steps, and the frames that are cleared.
struct Counted {
    frames: VecFrames,
    reads: Cell<u64>,
    cleared: u64,
}

impl Counted {
    fn count_reads(&self, words: u64) {
        self.reads.set(self.reads.get() + words);
    }
}

impl Frames for Counted {
    fn count(&self) -> u32 {
        self.frames.count()
    }

    fn word<L: Ledger>(&self, f: Frame, i: u32, steps: &mut Steps<L>) -> u32 {
        self.count_reads(1);
        self.frames.word(f, i, steps)
    }

    fn set_word(&mut self, f: Frame, i: u32, w: u32) {
        self.frames.set_word(f, i, w);
    }

    fn zero(&mut self, f: Frame) {
        self.cleared += 1;
        self.frames.zero(f);
    }

    fn frame<L: Ledger>(&self, f: Frame, steps: &mut Steps<L>) -> &[u32; 1024] {
        self.count_reads(32);
        self.frames.frame(f, steps)
    }

    fn frame_mut<L: Ledger>(&mut self, f: Frame, steps: &mut Steps<L>) -> &mut [u32; 1024] {
        self.count_reads(32);
        self.frames.frame_mut(f, steps)
    }

    fn pair<L: Ledger>(&mut self, read: Frame, write: Frame, steps: &mut Steps<L>) -> (&[u32; 1024], &mut [u32; 1024]) {
        self.count_reads(64);
        self.frames.pair(read, write, steps)
    }
}

fn steps() -> Steps<Brand> {
    Steps::new(Blank::new(1))
}

/// How many partitions there are from one up to the root, both counted.
fn chain(mem: &VecFrames, mut part: Frame) -> u64 {
    let mut count = 1;
    while part.number() != 1 {
        part = parent_of(mem, part, &mut steps());
        count += 1;
    }
    count
}

/// How many tables a partition has: a word of its descriptor.
fn tables(mem: &VecFrames, part: Frame) -> u64 {
    mem.word(part, 12, &mut steps()).into()
}

/// The kind of an event, and what it may read: so many words, and so many more for each frame that is cleared.
type Bound = (&'static str, u64, u64);

const CALLS: [&str; 11] = [
    "createPartition", "deletePartition", "countToMap", "prepare", "collect", "addVAddr", "removeVAddr",
    "mappedInChild", "yield", "vcli", "vsti",
];

fn number(word: &str) -> u32 {
    let read = match word.strip_prefix("0x") {
        Some(digits) => u32::from_str_radix(digits, 16),
        None => word.parse(),
    };
    read.unwrap_or(0)
}

/// The bound of what a line of a script does, by `event_work` of pip_model; None where it is no event.
fn bound_of(machine: &Machine<Counted>, line: &str) -> Option<Bound> {
    let mut words = line.split(' ');
    let kind = words.next()?;
    let numbers: Vec<u32> = words.map(number).collect();
    let cpu = *numbers.first()?;
    let cpus = machine.processors().len() as u32;
    let part = if kind != "raise" && cpu < cpus { machine.runs(cpu) } else { None };
    let mem = &machine.mem().frames;
    let above = part.map_or(0, |part| chain(mem, part));
    Some(match (kind, part) {
        ("raise", _) => ("a line that is raised", 1, 0),
        ("poll", _) => ("poll", 190, 0),
        (_, None) => return None,
        ("ld" | "lb", _) => ("load", 8 * above + 80, 0),
        ("st" | "sb", _) => ("store", 8 * above + 80, 0),
        ("fetch", _) => ("fetch", 8 * above + 80, 0),
        ("trap", _) => ("trap", 8 * above + 76, 0),
        ("call", Some(part)) => {
            let name = CALLS.get(*numbers.get(1)? as usize).copied().unwrap_or("unknown call");
            let climbs: u64 = (0..cpus).filter_map(|cpu| machine.runs(cpu)).map(|part| chain(mem, part)).sum();
            match name {
                "createPartition" => (name, 35 * above + 55, 0),
                "deletePartition" => (name, 41 + climbs + 102 * tables(mem, part), 7 * above + 67),
                "countToMap" => (name, 9, 0),
                "prepare" => (name, 28 * above + 74, 0),
                "collect" => {
                    let child = row_at(mem, part, numbers.get(2)? & !4095, &mut steps());
                    (name, 28 * above + 106 + child.map_or(0, |row| tables(mem, row.frame)), 0)
                }
                "addVAddr" => (name, 34, 0),
                "removeVAddr" => (name, 23, 0),
                "mappedInChild" => (name, 6, 0),
                "yield" => (name, 88, 0),
                _ => (name, 0, 0),
            }
        }
        _ => return None,
    })
}

/// The machine that a boot line asks for, if it is one.
fn booted(line: &str) -> Option<Machine<Counted>> {
    let (frames, cpus) = line.strip_prefix("boot ")?.split_once(' ')?;
    let (frames, cpus) = (number(frames), number(cpus));
    if !(16..=4096).contains(&frames) || !(1..=4).contains(&cpus) {
        return None;
    }
    let frames = VecFrames::new(Global, frames).ok()?;
    let mut mem = Counted { frames, reads: Cell::new(0), cleared: 0 };
    boot_zeros(&mut mem, &mut steps());
    Some(Machine::new(mem, cpus))
}

/// The most that an event of a kind read, of what it may read, and where.
struct Most {
    reads: u64,
    bound: u64,
    line: usize,
}

impl Most {
    fn share(&self) -> f64 {
        self.reads as f64 / self.bound.max(1) as f64
    }
}

fn main() {
    let mut most: BTreeMap<&str, Most> = BTreeMap::new();
    let mut machine = None;
    for (at, line) in std::io::stdin().lock().lines().map_while(Result::ok).enumerate() {
        let Some(running) = &mut machine else {
            machine = booted(&line);
            continue;
        };
        let bound = bound_of(running, &line);
        let cleared = running.mem().cleared;
        running.mem().reads.set(0);
        if line.is_empty() || line.starts_with('#') || answer_line(running, line.as_bytes(), &mut steps()).is_none() {
            continue;
        }
        let Some((kind, before, each)) = bound else { continue };
        let reads = running.mem().reads.get();
        let bound = before + each * (running.mem().cleared - cleared);
        assert!(reads <= bound, "line {}: {line}: {reads} reads, and the bound is {bound}", at + 1);
        let here = Most { reads, bound, line: at + 1 };
        if most.get(kind).is_none_or(|other| here.share() > other.share()) {
            most.insert(kind, here);
        }
    }
    for (kind, found) in most {
        println!("{} {} {} {:.2} {kind}", found.reads, found.bound, found.line, found.share());
    }
}
