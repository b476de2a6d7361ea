//! What is answered of a state.

use crate::frames::Shared;
use crate::json::{Json, Object, Written, text};
use crate::session::{Session, Text, Turn, counter};
use crate::stops::place_at;
use pip_base::{Access, Frame, Steps};
use pip_dump::{frames_text, tree_text};
use pip_io::Failed;
use pip_mmu::translate;
use rattle_std::marker::Brand;

// A text of the library, as `tree` and `core` write it without their last line. A text in memory never fails.
fn text_of(write: impl FnOnce(&mut Text, &mut Steps<Brand>) -> Result<(), Failed>) -> String {
    let mut found = Text::default();
    _ = write(&mut found, &mut counter());
    String::from_utf8_lossy(&found.0).into_owned()
}

fn tree(mem: &Shared) -> String {
    text_of(|found, counter| tree_text(mem, found, counter))
}

pub fn core(mem: &Shared) -> String {
    text(&text_of(|found, counter| frames_text(mem, found, counter)))
}

/// The names of all partitions.
pub fn names(mem: &Shared) -> Vec<u32> {
    let lines = tree(mem);
    let parts = lines.lines().filter_map(|line| line.strip_prefix("part "));
    parts.filter_map(|rest| rest.split(' ').next()?.parse().ok()).collect()
}

/// The text of `tree`, with the partitions that are masked and the lines that are pending.
pub fn tree_view(mem: &Shared) -> String {
    let masked: Vec<u32> = names(mem).into_iter().filter(|name| mem.word_at(*name, 14).unwrap_or(0) & 1 == 1).collect();
    let pending = mem.word_at(1, 15).unwrap_or(0);
    let lines: Vec<u32> = (0..16).filter(|line| pending >> line & 1 == 1).collect();
    text(&Object(&[("tree", &tree(mem)), ("masked", &masked), ("pending", &lines)]))
}

pub fn registers(session: &Session) -> String {
    let all: Vec<Option<Written>> = session
        .machine
        .processors()
        .iter()
        .map(|runs| {
            let runs = runs.as_ref()?;
            let fields: [(&str, &dyn Json); 3] =
                [("part", &runs.name.number()), ("pc", &runs.ctx.pc), ("registers", &runs.ctx.regs)];
            Some(Written(text(&Object(&fields))))
        })
        .collect();
    text(&all)
}

/// The steps from one on and before another.
pub fn listed(session: &mut Session, from: u64, to: u64) -> String {
    let mut turns = Vec::new();
    session.go(from);
    session.each_turn(to, |made| turns.push(Written(turn(made))));
    text(&turns)
}

pub fn turn(made: &Turn) -> String {
    text(&Object(&[
        ("step", &made.step),
        ("cpu", &made.cpu),
        ("part", &made.from.map(|from| from.0)),
        ("pc", &made.from.map(|from| from.1)),
        ("word", &made.from.and_then(|from| from.2)),
        ("place", &made.place.map(|(frame, index)| [frame, index])),
        ("raised", &made.raised),
        ("did", &made.did),
        ("line", &made.line),
        ("changed", &made.changed),
    ]))
}

pub fn next(session: &Session) -> String {
    let (cpu, raised) = session.coming();
    let place = cpu.and_then(|cpu| session.place(cpu));
    text(&Object(&[
        ("cpu", &cpu),
        ("raised", &raised),
        ("part", &place.map(|place| place.0)),
        ("pc", &place.map(|place| place.1)),
        ("word", &place.and_then(|place| place.2)),
    ]))
}

/// The way from an address of a partition to its frame: the words on it, and what the kernel answers to each access.
pub fn translation(mem: &Shared, part: u32, address: u32) -> String {
    let levels = [3, 5, 7].map(|place| level(mem, mem.word_at(part, place).unwrap_or(0), address / 4096));
    let answers = [Access::Load, Access::Store, Access::Fetch].map(|access| answer(mem, part, address, access));
    let place = place_at(mem, part, address).map(|(frame, index)| [frame, index]);
    text(&Object(&[("levels", &levels), ("answers", &answers), ("place", &place)]))
}

fn level(mem: &Shared, directory: u32, vpage: u32) -> Written {
    let entry = mem.word_at(directory, vpage / 1024).unwrap_or(0);
    let word = if entry == 0 { None } else { mem.word_at(entry / 4096, vpage % 1024) };
    Written(text(&Object(&[
        ("directory", &directory),
        ("index", &(vpage / 1024)),
        ("entry", &entry),
        ("table", &(entry / 4096)),
        ("at", &(vpage % 1024)),
        ("word", &word),
    ])))
}

fn answer(mem: &Shared, part: u32, address: u32, access: Access) -> Written {
    Written(match translate::<Shared, Brand>(mem, Frame::new(part), address, access, &mut counter()) {
        Ok((frame, index)) => text(&[frame.number(), index]),
        Err(fault) => text(&format!("{fault:?}")),
    })
}
