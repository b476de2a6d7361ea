//! Which step of a run comes to a place first.

use core::ops::Range;
use pip_base::{Access, Steps};
use pip_cpu::{TurnEnd, turn};
use pip_frames::RawFrames;
use pip_image::{ImageReader, load_image};
use pip_io::{Discard, SureSource};
use pip_kern::boot_zeros;
use pip_mmu::translate;
use pip_model::{Port, due};
use pip_script::Generator;
use pip_switch::Machine;
use rattle_std::alloc::Global;
use rattle_std::marker::Brand;
use rattle_std::sync::ledger::Blank;

type Counter = Steps<Brand>;

/// The first of the steps of an image's run that runs the word of a frame; None where none does, and where there is no
/// run.
pub fn reached(image: &[u8], seed: u32, among: Range<u32>, place: (u32, u32)) -> Option<u32> {
    let counter = &mut Counter::new(Blank::new(1));
    let mut source = SureSource::new(image);
    let mut reader = ImageReader::new(&mut source);
    let head = reader.header().ok()?;
    let mut mem = RawFrames::new(Global, head.frames).ok()?;
    boot_zeros(&mut mem, counter);
    load_image(&mut reader, &head, &mut mem).ok()?;
    let mut machine = Machine::new(mem, head.cpus);
    let mut generator = Generator::new(seed);
    (0..among.end).find(|step| {
        for plan in head.plans.iter().filter(|plan| due(plan, u64::from(*step))) {
            machine.raise(plan.line, counter);
        }
        let cpu = if head.cpus == 1 { 0 } else { generator.draw(head.cpus) };
        let is_there = *step >= among.start && fetches(&machine, cpu, place, counter);
        let end = turn::<Counter, _, _, Brand>(&mut machine, cpu, u64::from(*step), &mut Discard::new(), counter);
        is_there && matches!(end, Ok(TurnEnd::Ran))
    })
}

// Whether what runs on a processor would fetch the word.
fn fetches(machine: &Machine<RawFrames>, cpu: u32, (frame, index): (u32, u32), counter: &mut Counter) -> bool {
    let Some((part, pc)) = machine.runs(cpu).zip(machine.ctx(cpu).map(|ctx| ctx.pc)) else { return false };
    pc % 4096 == index * 4
        && translate(machine.mem(), part, pc, Access::Fetch, counter)
            .is_ok_and(|(found, _)| found.number() == frame)
}
