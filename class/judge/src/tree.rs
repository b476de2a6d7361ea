//! The exercises about the tree: what is below a child, and what its end leaves.

use crate::memory::{MOST_SHOWN, after, different};
use crate::script::Script;
use crate::values::Values;
use crate::verdict::Verdict;
use crate::world::{Act, At, Call, Event, Id, ROOT, World};
use pip_base::{Outcome, Size, Status};

/// Partitions whose parent is a child of the root, with those that are no more.
fn grandchildren(world: &World) -> impl Iterator<Item = Id> {
    (1..world.parts.len())
        .filter(|id| world.parts[*id].parent != ROOT && world.parts[world.parts[*id].parent].parent == ROOT)
}

pub fn grandchild(v: &Values, script: &Script, verdict: &mut Verdict) {
    let (world, page, word) = (&script.world, v.get("page"), v.get("word"));
    for id in grandchildren(world).filter(|id| world.alive(*id)) {
        let place = world.at(id, page);
        let is_stored = |at: At| world.word_at(at) == word && world.stored_by(&world.writers(at), |_| true);
        let has = place.is_some_and(|place| (0..1024).any(|index| is_stored(At { index, ..place })));
        let is_seen = place
            .is_some_and(|place| world.root_address(place).is_some_and(|address| world.at(ROOT, address).is_some()));
        let is_hidden = world.hidden_frames().contains(&world.parts[id].name);
        verdict.story(&[true, place.is_some(), has && is_seen, is_hidden]);
    }
}

pub fn end(v: &Values, script: &Script, verdict: &mut Verdict) {
    let (world, child) = (&script.world, v.get("child"));
    let alone = (1..world.parts.len()).all(|id| !world.alive(id));
    let free = world.root_rows().iter().all(|(_, word, given)| word & 2 != 0 && *given == 0);
    verdict.story(&[
        grandchildren(world).next().is_some(),
        false,
        alone && grandchildren(world).next().is_some(),
        free && alone,
        false,
    ]);
    for (k, event) in world.events.iter().enumerate() {
        let is_deletion = event.of_root(Status::Ok) == Some(Call::Delete { child });
        let with_child = |id: Id| {
            world.parts[id].ended == Some(k)
                && grandchildren(world)
                    .any(|below| world.parts[below].parent == id && world.parts[below].ended == Some(k))
        };
        if is_deletion && world.children().any(with_child) {
            let loaded = after(world, k).any(|(_, later)| is_cleared(later, event, k));
            let loads = different(after(world, k).filter_map(|(_, later)| match later.act {
                Act::Load { va, .. } if later.who == Some(ROOT) => Some(va / 4),
                _ => None,
            }));
            verdict.story(&[true, true, alone, free, loaded && loads <= MOST_SHOWN]);
        }
    }
}

// Whether the root loads a word that a deletion cleared.
fn is_cleared(event: &Event, deletion: &Event, number: usize) -> bool {
    let Act::Load { size: Size::Word, at: Some(at), writers, .. } = event.act else { return false };
    let is_zero = event.who == Some(ROOT) && event.outcome == Outcome::Word(0);
    is_zero && deletion.cleared.contains(&at) && writers == [number as u32; 4]
}
