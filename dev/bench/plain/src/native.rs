//! The command `native`: children of the root, and a monitor outside the machine that runs them (docs/FORMATS.md,
//! "native").

use crate::calls::{ADD, CREATE, PREPARE, YIELD};
use crate::frames::{EXECUTE, PAGE, READ, ROOT, WRITE};
use crate::image::{load, put_head, Loaded};
use crate::machine::{Machine, Outcome, Status, HANDLERS, NOWHERE, SAVED};
use crate::output::{Input, Output};
use crate::runs::{put_end, put_step, raise_due};
use crate::Stop;

const PROGRAM: u32 = 0x400000;
const BLOCK: u32 = HANDLERS + 0x400;

pub type Children = Vec<u32>;

/// Loads an image, builds the children, and writes the lines of that.
pub fn begin(input: &mut Input, output: &mut Output, count: u32) -> Result<(Loaded<false>, Children), Stop> {
    let mut loaded = load(input, output, count)?;
    put_head(output, &loaded.head)?;
    for vector in 0..256 {
        loaded.world.store(0, HANDLERS + 4 * vector, true, BLOCK);
    }
    let mut children = Children::new();
    for child in 0..count {
        children.push(build(&mut loaded.world, count, child));
        output.text("built ").number(child).text(" ").word(children[child as usize]).end_line()?;
    }
    Ok((loaded, children))
}

/// Builds a child of twelve pages and that of its program, and answers the address of its descriptor.
fn build(world: &mut Machine<false>, count: u32, child: u32) -> u32 {
    let fresh = |page: u32| PROGRAM + PAGE * (count + 12 * child + page);
    let born = fresh(0);
    world.store(0, fresh(11) + 4 * SAVED, true, BLOCK);
    world.store(0, fresh(11) + BLOCK % PAGE, true, PROGRAM);
    world.call(0, CREATE, [0, 1, 2, 3, 4].map(fresh));
    let wants = [
        (fresh(5), PROGRAM + PAGE * child, PROGRAM, READ | WRITE | EXECUTE),
        (fresh(8), fresh(11), HANDLERS, READ | WRITE),
    ];
    for (table, page, address, rights) in wants {
        world.store(0, table, true, table + PAGE);
        world.store(0, table + PAGE, true, table + 2 * PAGE);
        world.call(0, PREPARE, [born, address, table, 0, 0]);
        world.call(0, ADD, [page, born, address, rights / READ, 0]);
    }
    born
}

/// Which children are alive, and which was chosen last.
struct Monitor {
    children: Children,
    alive: Vec<bool>,
    last: usize,
}

enum Decision {
    Ran(u32),
    Dropped(u32, Status),
}

impl Monitor {
    fn next(&self) -> Option<usize> {
        let count = self.children.len();
        (1..=count).map(|k| (self.last + k) % count).find(|&child| self.alive[child])
    }

    /// The root runs on processor 0: it yields to the next child.
    fn decide(&mut self, world: &mut Machine<false>) -> Option<Decision> {
        let child = self.next()?;
        self.last = child;
        Some(match world.call(0, YIELD, [self.children[child], SAVED, NOWHERE, 0, 0]) {
            Outcome::Reply(status, _) => {
                self.alive[child] = false;
                Decision::Dropped(child as u32, status)
            }
            _ => Decision::Ran(child as u32),
        })
    }
}

pub fn native(input: &mut Input, output: &mut Output, count: u32, steps: u32) -> Result<(), Stop> {
    let (Loaded { mut world, plans, .. }, children) = begin(input, output, count)?;
    let mut monitor = Monitor { alive: vec![true; children.len()], last: children.len() - 1, children };
    for step in 0..steps {
        raise_due(&mut world, &plans, step);
        if world.processors[0].part == ROOT {
            if let Some(decision) = monitor.decide(&mut world) {
                put_decision(output, step, decision)?;
            }
        } else if let Some(line) = world.turn(0) {
            put_step(output, step, 0, line)?;
        }
    }
    put_end(output, steps)
}

fn put_decision(output: &mut Output, step: u32, decision: Decision) -> Result<(), Stop> {
    output.number(step);
    match decision {
        Decision::Ran(child) => output.text(" 0 run ").number(child),
        Decision::Dropped(child, status) => output.text(" 0 drop ").number(child).text(" ").number(status as u32),
    };
    output.end_line()
}
