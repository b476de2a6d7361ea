//! The command `apart`: what each guest does alone, from a moment of a run on (docs/FORMATS.md, "apart").

use crate::every::{guest_on, Bounds, Guest, Search};
use crate::frames::{FIRST, HANDLER_PAGE, MMU, PAGE, ROOT};
use crate::image::{load, put_head};
use crate::machine::Machine;
use crate::menu::Menu;
use crate::output::{Input, Output};
use crate::runs::steps;
use crate::Stop;

pub fn apart(input: &mut Input, output: &mut Output, states: u32, count: u32, seed: u32) -> Result<(), Stop> {
    let mut loaded = load(input, output, 0)?;
    steps(&mut loaded, count, seed, |_, _, _| Ok(()))?;
    let mut searches = Vec::new();
    for guest in guests(&loaded.world) {
        let mut search =
            Search::new(loaded.clone(), Menu::default(), Bounds { states, from: 0, depth: None, begin: (0, 1) })?;
        search.guest = Some(guest);
        search.search()?;
        searches.push(search);
    }
    put_head(output, &loaded.head)?;
    for search in &searches {
        put_guest(output, search)?;
        search.put(output)?;
    }
    let (root, line) = (root_on(&loaded.world), line_taken(&loaded.world));
    if let Some(cpu) = root {
        output.text("root on ").number(cpu as u32).end_line()?;
    }
    if let Some(line) = line {
        output.text("line ").number(line).end_line()?;
    }
    let holds = searches.iter().all(Search::stays) && root.is_none() && line.is_none();
    output.text(if holds { "apart yes" } else { "apart no" }).end_line()
}

fn put_guest(output: &mut Output, search: &Search) -> Result<(), Stop> {
    if let Some(guest) = &search.guest {
        output.text("guest ").number(guest.top).text(" on");
        for &cpu in &guest.cpus {
            output.text(" ").number(cpu as u32);
        }
    }
    output.end_line()
}

/// The guests, in the order of the first processor of each.
fn guests(world: &Machine<true>) -> Vec<Guest> {
    let mut guests: Vec<Guest> = Vec::new();
    for cpu in 0..world.count {
        let Some(top) = guest_on(world, cpu) else { continue };
        match guests.iter_mut().find(|guest| guest.top == top) {
            Some(guest) => guest.cpus.push(cpu),
            None => guests.push(Guest { top, cpus: vec![cpu] }),
        }
    }
    guests
}

fn root_on(world: &Machine<true>) -> Option<usize> {
    (0..world.count).find(|&cpu| world.processors[cpu].part == ROOT)
}

/// The first line that the root might take: a child has the page of its entry, or the entry isn't 0.
fn line_taken(world: &Machine<true>) -> Option<u32> {
    let handlers = world.frames.entry(ROOT, MMU, HANDLER_PAGE) / PAGE;
    let is_lent = world.frames.entry(ROOT, FIRST, HANDLER_PAGE) != 0;
    (0..16).find(|line| is_lent || world.frames.get(handlers, 32 + line) != 0)
}
