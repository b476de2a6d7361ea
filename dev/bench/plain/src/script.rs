//! The command `script`: events line by line.

use crate::machine::{Machine, Outcome, PROCESSORS};
use crate::output::{Input, Output};
use crate::texts::{newline, number, put_outcome, Words, LONGEST, MOST};
use crate::Stop;

type World = Machine<false>;

/// A line is bad.
enum Fault {
    Bad,
    Stop(Stop),
}

impl From<Stop> for Fault {
    fn from(stop: Stop) -> Self {
        Fault::Stop(stop)
    }
}

/// A script on its way: the machine, once there is one.
struct Script<'a> {
    output: &'a mut Output,
    world: Option<World>,
    lines: u32,
}

pub fn script(input: &mut Input, output: &mut Output) -> Result<(), Stop> {
    let mut script = Script { output, world: None, lines: 0 };
    let mut taken = 0;
    loop {
        script.whole_lines(input)?;
        if input.held().len() > LONGEST {
            return script.judge(&input.held()[..=LONGEST]);
        }
        script.output.flush()?;
        let count = input.read(MOST - taken)?;
        taken += count;
        if taken == MOST {
            return at_limit(script, input);
        }
        if count == 0 {
            return script.rest(input.held());
        }
    }
}

/// As many bytes were read as an input may have: nothing may come after them.
fn at_limit(mut script: Script, input: &mut Input) -> Result<(), Stop> {
    script.whole_lines(input)?;
    let rest = input.held().to_vec();
    if rest.len() > LONGEST {
        return script.judge(&rest);
    }
    script.output.flush()?;
    if input.read(1)? > 0 {
        return Err(Stop::TooLong);
    }
    script.rest(&rest)
}

impl Script<'_> {
    fn whole_lines(&mut self, input: &mut Input) -> Result<(), Stop> {
        while let Some(end) = newline(input.held()) {
            self.judge(&input.held()[..end])?;
            input.take(end + 1);
        }
        Ok(())
    }

    /// What comes after the last newline is a line, too, unless it is empty.
    fn rest(&mut self, line: &[u8]) -> Result<(), Stop> {
        if line.is_empty() {
            Ok(())
        } else {
            self.judge(line)
        }
    }

    #[inline]
    fn judge(&mut self, line: &[u8]) -> Result<(), Stop> {
        self.lines += 1;
        self.line(line).map_err(|fault| match fault {
            Fault::Bad => Stop::Bad(format!("bad line {}", self.lines)),
            Fault::Stop(stop) => stop,
        })
    }

    #[inline]
    fn line(&mut self, line: &[u8]) -> Result<(), Fault> {
        if line.len() > LONGEST {
            return Err(Fault::Bad);
        }
        if line.is_empty() || line[0] == b'#' {
            return Ok(());
        }
        let (form, words) = Words::of(line);
        let (mut numbers, mut count) = ([0; 7], 0);
        for word in words {
            *numbers.get_mut(count).ok_or(Fault::Bad)? = number(word).ok_or(Fault::Bad)?;
            count += 1;
        }
        match &mut self.world {
            None => self.world = Some(boot(self.output, form, &numbers[..count])?),
            Some(world) => event(world, self.output, form, numbers, count)?,
        }
        Ok(self.output.end_line()?)
    }
}

fn boot(output: &mut Output, form: &[u8], numbers: &[u32]) -> Result<World, Fault> {
    let (b"boot", &[frames @ 16..=4096, cpus @ 1..=4]) = (form, numbers) else {
        return Err(Fault::Bad);
    };
    let world = World::boot(frames, cpus as usize)?;
    output.text("boot ").number(frames).text(" ").number(cpus);
    Ok(world)
}

fn event(world: &mut World, output: &mut Output, form: &[u8], x: [u32; 7], count: usize) -> Result<(), Fault> {
    match (form, count) {
        (b"raise", 1) if x[0] < 16 => {
            world.raise(x[0]);
            output.text("done");
            return Ok(());
        }
        (b"peek", 2) => {
            peek(world, output, x[0], x[1]);
            return Ok(());
        }
        _ => {}
    }
    let cpu = x[0] as usize;
    if cpu >= world.count.min(PROCESSORS) {
        return Err(Fault::Bad);
    }
    let outcome = match (form, count) {
        (b"ld", 2) => world.load(cpu, x[1], true),
        (b"lb", 2) => world.load(cpu, x[1], false),
        (b"st", 3) => world.store(cpu, x[1], true, x[2]),
        (b"sb", 3) if x[2] < 256 => world.store(cpu, x[1], false, x[2]),
        (b"fetch", 1) => world.fetch(cpu),
        (b"trap", 4) if x[1] < 256 => world.trap(cpu, x[1], x[2], x[3]),
        (b"call", 2..) => world.call(cpu, x[1], [x[2], x[3], x[4], x[5], x[6]]),
        (b"poll", 1) => world.poll(cpu),
        (b"reg", 2) if x[1] <= 16 => register(world, cpu, x[1]),
        (b"pc", 2) => set_pc(world, cpu, x[1]),
        _ => return Err(Fault::Bad),
    };
    put_outcome(output, outcome);
    Ok(())
}

fn peek(world: &World, output: &mut Output, frame: u32, index: u32) {
    if frame < world.frames.count() && index < 1024 {
        output.word(world.frames.get(frame, index));
    } else {
        output.text("none");
    }
}

fn register(world: &World, cpu: usize, number: u32) -> Outcome {
    let at = &world.processors[cpu];
    if at.part == 0 {
        return Outcome::Idle;
    }
    Outcome::Word(at.context.registers.get(number as usize).copied().unwrap_or(at.context.pc))
}

fn set_pc(world: &mut World, cpu: usize, pc: u32) -> Outcome {
    let at = &mut world.processors[cpu];
    if at.part == 0 {
        return Outcome::Idle;
    }
    at.context.pc = pc;
    Outcome::Done
}
