//! The command `soak`: a generated load (docs/FORMATS.md, "Texts of tree, core and soak").

use crate::frames::{list_pages, DESCRIPTOR};
use crate::frames::{Frames, FIRST, MMU, PAGE, ROOT, TABLES};
use crate::machine::{Machine, Outcome, HANDLERS, NOWHERE, SAVED};
use crate::output::Output;
use crate::runs::{put_end, Generator};
use crate::Stop;

const START: [(u32, u32); 7] = [
    (0xfffff038, 0xfffff400),
    (0xfffff080, 0xfffff400),
    (0xfffff084, 0xfffff400),
    (0xfffff100, 0xfffff400),
    (0x410100, 0xfffff400),
    (0xfffff0fc, 0xfffff444),
    (0x4100fc, 0xfffff444),
];
const NAMES: [&str; 5] = ["word ", "done ", "switch ", "park ", "idle "];

struct Load {
    world: Machine<false>,
    generator: Generator,
    outcomes: [u32; 5],
    replies: [u32; 19],
}

pub fn soak(output: &mut Output, count: u32, seed: u32) -> Result<(), Stop> {
    let world = Machine::boot(64, 2)?;
    let mut load = Load { world, generator: Generator(seed), outcomes: [0; 5], replies: [0; 19] };
    for (address, word) in START {
        load.world.store(0, address, true, word);
    }
    for _ in 0..count {
        load.step();
    }
    load.put(output)?;
    put_end(output, count)
}

impl Load {
    #[inline]
    fn draw(&mut self, below: u32) -> u32 {
        self.generator.draw(below)
    }

    fn page(&mut self) -> u32 {
        0x400000 + PAGE * self.draw(16)
    }

    fn place(&mut self) -> u32 {
        let address = 0x10000000 + PAGE * self.draw(4);
        if self.draw(2) == 0 {
            address
        } else {
            HANDLERS
        }
    }

    fn goal(&mut self) -> u32 {
        if self.draw(4) == 0 {
            0
        } else {
            self.page()
        }
    }

    #[inline]
    fn count(&mut self, outcome: Outcome) {
        match outcome {
            Outcome::Word(_) => self.outcomes[0] += 1,
            Outcome::Done => self.outcomes[1] += 1,
            Outcome::Switched(_) => self.outcomes[2] += 1,
            Outcome::Parked(..) => self.outcomes[3] += 1,
            Outcome::Idle => self.outcomes[4] += 1,
            Outcome::Reply(status, _) => self.replies[status as usize] += 1,
        }
    }

    fn step(&mut self) {
        let cpu = self.draw(2) as usize;
        let kind = self.draw(16);
        let outcome = match kind {
            0 | 1 => {
                let page = self.page();
                self.world.load(cpu, page, true)
            }
            2 => {
                let place = self.place();
                self.world.load(cpu, place, true)
            }
            3 => {
                let (at, word) = (self.page(), self.page());
                self.world.store(cpu, at, true, word)
            }
            14 => {
                let line = self.draw(2);
                self.world.raise(line);
                Outcome::Done
            }
            15 => self.world.poll(cpu),
            _ => self.call(cpu, kind),
        };
        self.count(outcome);
    }

    /// The call of a kind, and the stores before a prepare.
    fn call(&mut self, cpu: usize, kind: u32) -> Outcome {
        let (number, arguments) = match kind {
            4 => {
                let first = 0x401000 + PAGE * self.draw(11);
                (0, [0, 1, 2, 3, 4].map(|k| first + PAGE * k))
            }
            5 => {
                let x = 0x400000 + PAGE * self.draw(13);
                for at in [x, x + PAGE] {
                    let outcome = self.world.store(cpu, at, true, at + PAGE);
                    self.count(outcome);
                }
                (3, [self.page(), self.place(), x, 0, 0])
            }
            6 => (5, [0x400000 + PAGE * self.draw(17), self.page(), self.place(), 1 + self.draw(7), 0]),
            7 => (6, [self.page(), self.place(), 0, 0, 0]),
            8 => (7, [self.page(), 0, 0, 0, 0]),
            9 => (2, [self.page(), self.place(), 0, 0, 0]),
            10 => (4, [self.page(), self.place(), 0, 0, 0]),
            11 => (1, [self.page(), 0, 0, 0, 0]),
            12 => (8, [self.goal(), 64, SAVED, 0, 0]),
            _ => (8, [self.goal(), SAVED, NOWHERE, 0, 0]),
        };
        self.world.call(cpu, number, arguments)
    }

    fn put(&self, output: &mut Output) -> Result<(), Stop> {
        let events = self.outcomes.iter().chain(&self.replies).sum();
        output.text("events ").number(events).end_line()?;
        for (name, &count) in NAMES.iter().zip(&self.outcomes) {
            output.text(name).number(count).end_line()?;
        }
        for (status, &count) in (0..).zip(&self.replies) {
            output.text("reply ").number(status).text(" ").number(count).end_line()?;
        }
        let (parts, rows, hidden) = counts(&self.world.frames, ROOT);
        output.text("parts ").number(parts).end_line()?;
        output.text("rows ").number(rows).end_line()?;
        output.text("hidden ").number(hidden).end_line()
    }
}

/// Of a partition and all below it: how many they are, their rows, and their pages of configuration.
fn counts(frames: &Frames<false>, part: u32) -> (u32, u32, u32) {
    let tables = frames.get(part, TABLES);
    let mut all = (1, 0, 4 + list_pages(tables) + 3 * tables);
    for index in 0..1024 {
        let mmu = frames.get(frames.get(part, MMU), index) / PAGE;
        if mmu == 0 {
            continue;
        }
        let first = frames.get(frames.get(part, FIRST), index) / PAGE;
        for (&row, &shadow) in frames.frame(mmu).iter().zip(frames.frame(first)).filter(|(&row, _)| row != 0) {
            all.1 += 1;
            if shadow % PAGE == DESCRIPTOR {
                let below = counts(frames, row / PAGE);
                all = (all.0 + below.0, all.1 + below.1, all.2 + below.2);
            }
        }
    }
    all
}
