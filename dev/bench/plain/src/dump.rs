//! The texts of partitions and of frames (docs/FORMATS.md, "Texts of tree, core and soak").

use crate::frames::*;
use crate::output::Output;
use crate::Stop;

const USES: [&str; 4] = ["free", "desc ", "conf ", "lent "];

/// All partitions, each with its rows.
pub fn tree<const LOGGED: bool>(frames: &Frames<LOGGED>, output: &mut Output) -> Result<(), Stop> {
    put_part(frames, output, ROOT, 0)
}

fn put_part<const LOGGED: bool>(
    frames: &Frames<LOGGED>,
    output: &mut Output,
    part: u32,
    depth: u32,
) -> Result<(), Stop> {
    let rows = tables(frames, part).map(|(_, mmu, _)| frames.frame(mmu).iter().filter(|&&row| row != 0).count());
    let rows = rows.sum::<usize>() as u32;
    output.text("part ").number(part).text(" depth ").number(depth);
    output.text(" up ").number(frames.get(part, PARENT)).text(" born ").word(frames.get(part, BORN));
    output.text(" tables ").number(frames.get(part, TABLES)).text(" rows ").number(rows).end_line()?;
    let mut children = Vec::new();
    for (index, mmu, first) in tables(frames, part) {
        for (place, (&row, &shadow)) in (0..).zip(frames.frame(mmu).iter().zip(frames.frame(first))) {
            if row != 0 {
                put_row(output, (index * WORDS + place) * PAGE, row, shadow)?;
                if shadow % PAGE == DESCRIPTOR {
                    children.push(row / PAGE);
                }
            }
        }
    }
    children.into_iter().try_for_each(|child| put_part(frames, output, child, depth + 1))
}

/// The directory indexes of a partition's tables, in rising order, with the frames of MMU table and first shadow.
fn tables<const LOGGED: bool>(frames: &Frames<LOGGED>, part: u32) -> impl Iterator<Item = (u32, u32, u32)> + '_ {
    let (mmu, first) = (frames.frame(frames.get(part, MMU)), frames.frame(frames.get(part, FIRST)));
    let entries = (0..).zip(mmu.iter().zip(first));
    entries.filter(|(_, (&entry, _))| entry != 0).map(|(index, (mmu, first))| (index, mmu / PAGE, first / PAGE))
}

fn put_row(output: &mut Output, address: u32, row: u32, shadow: u32) -> Result<(), Stop> {
    output.text("row ").word(address).text(" ").number(row / PAGE);
    output.text(if row & WRITE != 0 { " rw" } else { " r-" });
    output.text(if row & EXECUTE != 0 { "x" } else { "-" });
    output.text(if row & USER != 0 { " user " } else { " hidden " });
    output.text(USES[(shadow % PAGE) as usize % 4]);
    if shadow != 0 {
        output.word(shadow / PAGE * PAGE);
    }
    output.end_line()
}

/// The words that aren't 0 of all frames.
pub fn core<const LOGGED: bool>(frames: &Frames<LOGGED>, output: &mut Output) -> Result<(), Stop> {
    for frame in 0..frames.count() {
        let mut is_named = false;
        for (first, group) in (0..).step_by(8).zip(frames.frame(frame).chunks_exact(8)) {
            if group.iter().fold(0, |all, word| all | word) == 0 {
                continue;
            }
            if !is_named {
                output.text("frame ").number(frame).end_line()?;
                is_named = true;
            }
            put_group(output, first, group)?;
        }
    }
    Ok(())
}

fn put_group(output: &mut Output, first: u32, group: &[u32]) -> Result<(), Stop> {
    output.text(match first {
        0..=9 => "000",
        10..=99 => "00",
        100..=999 => "0",
        _ => "",
    });
    output.number(first).text(":");
    for &word in group {
        output.text(" ").digits(word);
    }
    output.end_line()
}
