//! Runs of an image by a schedule: the commands `run`, `tree` and `core`.

use crate::cpu::{put_line, Line};
use crate::dump;
use crate::image::{load, put_head, Loaded, Plan};
use crate::machine::Machine;
use crate::output::{Input, Output};
use crate::Stop;

/// Numbers in an order that looks drawn.
pub struct Generator(pub u32);

impl Generator {
    #[inline]
    pub fn draw(&mut self, below: u32) -> u32 {
        self.0 ^= self.0 << 13;
        self.0 ^= self.0 >> 17;
        self.0 ^= self.0 << 5;
        self.0 % below
    }
}

#[inline]
pub fn raise_due<const LOGGED: bool>(world: &mut Machine<LOGGED>, plans: &[Plan], step: u32) {
    for plan in plans {
        if plan.is_due(step) {
            world.raise(plan.line);
        }
    }
}

pub fn put_step(output: &mut Output, step: u32, cpu: u32, line: Line) -> Result<(), Stop> {
    output.number(step).text(" ").number(cpu).text(" ");
    put_line(output, line);
    output.end_line()
}

pub fn put_end(output: &mut Output, steps: u32) -> Result<(), Stop> {
    output.text("end ").number(steps).end_line()
}

/// Makes the steps, and hands their lines on. Nothing of them can be undone.
#[inline]
pub fn steps<const LOGGED: bool>(
    loaded: &mut Loaded<LOGGED>,
    count: u32,
    seed: u32,
    mut told: impl FnMut(u32, u32, Line) -> Result<(), Stop>,
) -> Result<(), Stop> {
    let mut generator = Generator(seed);
    for step in 0..count {
        raise_due(&mut loaded.world, &loaded.plans, step);
        let cpu = generator.draw(loaded.head.cpus);
        if let Some(line) = loaded.world.turn(cpu as usize) {
            told(step, cpu, line)?;
        }
        loaded.world.frames.log.clear();
    }
    Ok(())
}

pub fn run(input: &mut Input, output: &mut Output, count: u32, seed: u32) -> Result<(), Stop> {
    let mut loaded = load::<false>(input, output, 0)?;
    put_head(output, &loaded.head)?;
    steps(&mut loaded, count, seed, |step, cpu, line| put_step(output, step, cpu, line))?;
    put_end(output, count)
}

pub fn tree(input: &mut Input, output: &mut Output, count: u32, seed: u32) -> Result<(), Stop> {
    let mut loaded = load::<false>(input, output, 0)?;
    steps(&mut loaded, count, seed, |_, _, _| Ok(()))?;
    dump::tree(&loaded.world.frames, output)?;
    put_end(output, count)
}

pub fn core(input: &mut Input, output: &mut Output, count: u32, seed: u32) -> Result<(), Stop> {
    let mut loaded = load::<false>(input, output, 0)?;
    steps(&mut loaded, count, seed, |_, _, _| Ok(()))?;
    dump::core(&loaded.world.frames, output)?;
    put_end(output, count)
}
