//! The command `slots`: children of the root with fixed time slots (docs/FORMATS.md, "slots").

use crate::calls::YIELD;
use crate::cpu::{moved, Line};
use crate::frames::ROOT;
use crate::image::Loaded;
use crate::machine::{Machine, Outcome, NOWHERE, SAVED};
use crate::native::begin;
use crate::output::{Input, Output};
use crate::runs::{put_end, put_step};
use crate::Stop;

/// The interrupt line that ends a slot.
const LINE: u32 = 0;

/// A slot of a round: the number of its child, and its turns.
pub type Slot = (u32, u32);

pub fn in_turn(children: u32, turns: u32) -> Vec<Slot> {
    (0..children).map(|child| (child, turns)).collect()
}

pub fn steps_of(round: &[Slot], rounds: u32) -> u64 {
    u64::from(rounds) * round.iter().map(|&(_, turns)| u64::from(turns) + 2).sum::<u64>()
}

pub fn slots(input: &mut Input, output: &mut Output, count: u32, round: &[Slot], rounds: u32) -> Result<(), Stop> {
    let (Loaded { mut world, .. }, children) = begin(input, output, count)?;
    let mut step = 0;
    for _ in 0..rounds {
        for &(child, turns) in round {
            slot(&mut world, output, children[child as usize], step, turns)?;
            step += turns + 2;
        }
    }
    put_end(output, step)
}

/// The root yields into the child, the processor has its turns while the root doesn't run, and line 0 ends the slot.
fn slot(world: &mut Machine<false>, output: &mut Output, child: u32, step: u32, turns: u32) -> Result<(), Stop> {
    match world.call(0, YIELD, [child, SAVED, NOWHERE, 0, 0]) {
        Outcome::Switched(switch) => put_step(output, step, 0, Line::Yielded(switch))?,
        Outcome::Reply(status, value) => put_step(output, step, 0, Line::Reply(YIELD, status, value))?,
        _ => {}
    }
    for turn in 1..=turns {
        if world.processors[0].part == ROOT {
            return Ok(());
        }
        if let Some(line) = world.turn(0) {
            put_step(output, step + turn, 0, line)?;
        }
    }
    if world.processors[0].part != ROOT {
        world.raise(LINE);
        if let Some(line) = moved(world.poll(0)) {
            put_step(output, step + 1 + turns, 0, line)?;
        }
    }
    Ok(())
}
