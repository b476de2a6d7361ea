//! The exercises about memory: pages that are visible, given and lent.

use crate::script::Script;
use crate::values::Values;
use crate::verdict::Verdict;
use crate::world::{Act, At, Call, Event, HANDLERS, Id, ROOT, World, Writers};
use alloc::collections::BTreeSet;
use alloc::vec::Vec;
use pip_base::{Outcome, Size, Status};

/// Words that a script may look at, where it is asked which one it is.
pub const MOST_SHOWN: usize = 8;

pub fn by_root(event: &Event) -> bool {
    event.who == Some(ROOT)
}

/// The child that the root has at an address now.
pub fn child_at(world: &World, born: u32) -> Option<Id> {
    world.children().find(|id| world.alive(*id) && world.parts[*id].born == born)
}

/// The child's word in its descriptor.
pub fn descriptor(world: &World, id: Id, index: u32) -> u32 {
    world.peek(world.parts[id].name, index).unwrap_or(0)
}

/// The events after one, with their numbers.
pub fn after(world: &World, event: usize) -> impl Iterator<Item = (usize, &Event)> {
    world.events.iter().enumerate().skip(event + 1)
}

// store

pub fn store(v: &Values, script: &Script, verdict: &mut Verdict) {
    let (world, at, word) = (&script.world, v.get("at"), v.get("word"));
    let size = script.boot.0 == 64;
    let few = (1..=MOST_SHOWN).contains(&shown(world));
    verdict.story(&[size, false, false, false, false, few]);
    let (_, row) = world.leaf(ROOT, at);
    let is_there = world.finds(ROOT, at, word, by_root);
    let by_store = |found: u32, writers: &Writers| found == word && world.stored_by(writers, by_root);
    for (number, event) in world.events.iter().enumerate().filter(|(_, event)| by_root(event)) {
        let Act::Store { at: place, now, writers, .. } = event.act else { continue };
        if place.is_none() || place != world.at(ROOT, at) || !by_store(now, &writers) {
            continue;
        }
        let is_loaded = |event: &Event| match (event.act, event.outcome) {
            (Act::Load { va, size: Size::Word, writers, .. }, Outcome::Word(found)) => {
                by_root(event) && va == at && by_store(found, &writers)
            }
            _ => false,
        };
        let is_shown = |event: &Event, due: Option<At>, is_word: bool| match event.act {
            Act::Peek { at, word: Some(found), writers } => Some(at) == due && (!is_word || by_store(found, &writers)),
            _ => false,
        };
        // What else changes a word, as configuration or by a saved context, is seen where it is stored again.
        let changes = |event: &Event| matches!(event.act, Act::Store { at, was, now, .. } if at == place && was != now);
        let any = |test: &dyn Fn(&Event) -> bool| after(world, number).any(|(_, event)| test(event));
        verdict.story(&[
            size,
            is_there && !any(&changes),
            any(&is_loaded),
            any(&|event| is_shown(event, row, false)),
            any(&|event| is_shown(event, place, true)),
            few,
        ]);
    }
}

// How many different words a script shows.
fn shown(world: &World) -> usize {
    different(world.events.iter().filter_map(|event| match event.act {
        Act::Peek { at, .. } => Some(at),
        _ => None,
    }))
}

pub fn different<T: Ord>(items: impl Iterator<Item = T>) -> usize {
    items.collect::<BTreeSet<T>>().len()
}

// child

const MOST_ASKED: usize = 5;

pub fn make_child(v: &Values, script: &Script, verdict: &mut Verdict) {
    let world = &script.world;
    for id in world.children().filter(|id| world.alive(*id)) {
        let part = &world.parts[id];
        let created = world.events[part.made].call();
        let is_its = |page: u32| matches!(created, Some(Call::Create { pages }) if pages.contains(&page));
        let is_asked = |event: &Event| matches!(event.of_root(Status::Ok), Some(Call::Ask { page }) if is_its(page));
        let asked = different(world.events.iter().filter_map(|event| match event.call() {
            Some(Call::Ask { page }) if by_root(event) => Some(page),
            _ => None,
        }));
        verdict.story(&[
            part.name == v.get("name"),
            descriptor(world, id, 3) == v.get("directory"),
            descriptor(world, id, 9) == v.get("list"),
            after(world, part.made).any(|(_, event)| is_asked(event)) && asked <= MOST_ASKED,
        ]);
    }
}

// map

pub fn map(v: &Values, script: &Script, verdict: &mut Verdict) {
    let (world, page) = (&script.world, v.get("page"));
    if let Some(id) = child_at(world, v.get("child")) {
        let finds = world.finds(id, v.get("at"), v.get("word"), by_root);
        verdict.story(&[true, world.leaf(id, page).1.is_some(), world.rights(id, page) == 3, finds]);
    }
}

// rights

pub fn rights(v: &Values, script: &Script, verdict: &mut Verdict) {
    let world = &script.world;
    let is_refused = world
        .events
        .iter()
        .any(|event| event.status() == Some(Status::NoRight) && matches!(event.call(), Some(Call::Lend { .. })));
    let id = child_at(world, v.get("child"));
    let has = |name: &str, rights: u32| id.is_some_and(|id| world.rights(id, v.get(name)) == rights);
    verdict.story(&[id.is_some(), has("read", 1), has("write", 3), has("execute", 5), is_refused]);
}

// take-back

pub fn take_back(v: &Values, script: &Script, verdict: &mut Verdict) {
    let (world, child, page) = (&script.world, v.get("child"), v.get("page"));
    let Some(id) = child_at(world, child) else { return };
    let end =
        [descriptor(world, id, 12) == 0, world.root_rows().iter().filter(|(_, _, given)| *given != 0).count() == 5];
    verdict.story(&[false, false, false, false, end[0], end[1]]);
    let of_table =
        |call: Call| matches!(call, Call::Collect { child: other, at } if other == child && at >> 22 == page >> 22);
    let is_lent = |call: Call| matches!(call, Call::Lend { child: other, at, .. } if other == child && at == page);
    let taken_back = Call::Take { child, at: page };
    let calls = |from: usize, status: Status| {
        after(world, from).filter_map(move |(k, event)| Some((k, event.of_root(status)?)))
    };
    for (lent, _) in calls(world.parts[id].made, Status::Ok).filter(|(_, call)| is_lent(*call)) {
        let taken =
            calls(lent, Status::Ok).find(|(_, call)| *call == taken_back).map_or(world.events.len(), |(k, _)| k);
        let refused = calls(lent, Status::NotEmpty).any(|(k, call)| k < taken && of_table(call));
        let is_taken = refused && taken < world.events.len();
        let collected = is_taken && calls(taken, Status::Ok).any(|(_, call)| of_table(call));
        verdict.story(&[true, refused, is_taken, collected, end[0], end[1]]);
    }
}

// two-children

pub fn two_children(v: &Values, script: &Script, verdict: &mut Verdict) {
    let (world, page) = (&script.world, v.get("page"));
    let alive: Vec<Id> = world.children().filter(|id| world.alive(*id)).collect();
    for (a, b) in alive.iter().flat_map(|a| alive.iter().map(move |b| (*a, *b))).filter(|(a, b)| a != b) {
        let (one, other) = (world.at(a, page), world.at(b, page));
        let both = one.is_some() && other.is_some();
        let finds = |id: Id, name: &str| world.finds(id, page, v.get(name), by_root);
        verdict.story(&[true, both, both && one != other, finds(a, "one") && finds(b, "other")]);
    }
}

/// Whether a partition has a handler table.
pub fn has_handlers(world: &World, id: Id) -> bool {
    world.at(id, HANDLERS).is_some()
}
