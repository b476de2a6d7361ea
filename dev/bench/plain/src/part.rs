//! The command `part`: a part of a certificate, checked by itself (docs/CERTIFICATES.md).

use std::collections::HashSet;

use crate::cpu::{put_line, Line};
use crate::explorer::{turns_after, Explorer, Key, KeyList};
use crate::frames::WORDS;
use crate::hash::Keys;
use crate::image::{load_first, Head, Loaded, Reader};
use crate::merge::label_sum;
use crate::menu::Menu;
use crate::output::{Input, Output};
use crate::{Stop, MOST_STEPS};

/// Bytes with marks that are read at once.
const CHUNK: usize = 4096;

pub fn part(input: &mut Input, output: &mut Output, from: u32) -> Result<(), Stop> {
    let mut reader = Reader::new(input, output);
    let mut loaded = load_first(&mut reader, 0)?;
    reader.what = "part";
    let lines = loaded.plans.iter().map(|plan| plan.line);
    let own = summed(0xcbf29ce484222325, lines.chain(loaded.world.frames.words().iter().copied()));
    let (base, booted) = base(&mut reader, loaded.world.frames.words())?;
    let (length, turns) = walk(&mut reader, &mut loaded, from)?;
    let wrong_count = reader.bad("marks", reader.at);
    let marks = Marks::read(&mut reader)?;
    reader.end()?;
    if let Some(at) = booted {
        return Err(reader.bad("base", at));
    }
    let Loaded { world, head, plans } = loaded;
    let sum = summed(own, base.iter().copied());
    let mut explorer = Explorer::new(world, plans, Menu::default(), from, base, turns);
    let checked = Checked::of(&mut explorer, length, &marks)?;
    if marks.count as usize != checked.own.depths.len() * explorer.choices() {
        return Err(wrong_count);
    }
    let labels = u32::try_from(checked.labels.len()).map_err(|_| Stop::Memory)?;
    let counts = [length, checked.own.count()?, checked.asked.count()?, labels];
    let sum_of_labels = checked.put(output, head.cpus)?;
    put_about(output, &head, from, sum);
    for number in counts.into_iter().chain([sum_of_labels]) {
        output.text(" ").digits(number);
    }
    output.end_line()
}

// The text of a part

/// The words to compare with: those of the frames, with others in some places; and where the first is that isn't
/// another.
fn base(reader: &mut Reader, words: &[u32]) -> Result<(Vec<u32>, Option<usize>), Stop> {
    let (mut base, mut booted) = (Vec::new(), None);
    base.try_reserve_exact(words.len())?;
    base.extend_from_slice(words);
    let mut least = 0;
    for _ in 0..reader.number()? {
        let at = reader.at;
        let (frame, index, word) = (reader.number()?, reader.number()?, reader.number()?);
        let place = frame as usize * WORDS as usize + index as usize;
        if index >= WORDS || place < least || place >= base.len() {
            return Err(reader.bad("base", at));
        }
        if base[place] == word {
            booted.get_or_insert(at);
        }
        base[place] = word;
        least = place + 1;
    }
    Ok((base, booted))
}

/// Makes the choices of the way, as they are read: how many these are, and the turns among them, counted up to `from`.
fn walk(reader: &mut Reader, loaded: &mut Loaded<true>, from: u32) -> Result<(u32, u32), Stop> {
    let choices = loaded.head.cpus + loaded.head.plans;
    let (mut length, mut turns, mut last) = (0, 0, None);
    for _ in 0..reader.number()? {
        let at = reader.at;
        let (choice, count) = (reader.number()?, reader.number()?);
        if choice >= choices || count == 0 || count > MOST_STEPS - length || last == Some(choice) {
            return Err(reader.bad("way", at));
        }
        for _ in 0..count {
            turns = after(loaded, choice as usize, turns, from);
        }
        length += count;
        last = Some(choice);
    }
    Ok((length, turns))
}

/// Makes a choice, which isn't taken back, and counts the turns.
#[inline]
fn after(loaded: &mut Loaded<true>, choice: usize, turns: u32, from: u32) -> u32 {
    let Loaded { world, plans, .. } = loaded;
    let mut after = turns;
    if choice < world.count {
        let part = world.processors[choice].part;
        world.turn(choice);
        after = turns_after(world, choice, part, turns, from);
    } else if turns >= from {
        world.raise(plans[choice - world.count].line);
    }
    world.frames.log.clear();
    after
}

/// For each choice a bit, whether the next key is to be one of the part. Where there are no more it isn't.
struct Marks {
    count: u32,
    bytes: Vec<u8>,
}

impl Marks {
    fn read(reader: &mut Reader) -> Result<Self, Stop> {
        let at = reader.at;
        let count = reader.number()?;
        if count == u32::MAX {
            return Err(reader.bad("marks", at));
        }
        let (size, mut bytes) = (count.div_ceil(8) as usize, Vec::new());
        while bytes.len() < size {
            let chunk = reader.part(CHUNK.min(size - bytes.len()))?;
            bytes.try_reserve(chunk.len())?;
            bytes.extend_from_slice(chunk);
        }
        if count % 8 != 0 && bytes[size - 1] >> (count % 8) != 0 {
            return Err(reader.bad("marks", reader.at - 1));
        }
        Ok(Marks { count, bytes })
    }

    fn is_set(&self, at: usize) -> bool {
        self.bytes.get(at / 8).is_some_and(|byte| byte >> (at % 8) & 1 == 1)
    }
}

// The check

/// Keys with their depths.
struct Stops {
    keys: KeyList,
    depths: Vec<u32>,
}

impl Stops {
    fn new() -> Self {
        Stops { keys: KeyList::new(), depths: vec![] }
    }

    fn count(&self) -> Result<u32, Stop> {
        u32::try_from(self.depths.len()).map_err(|_| Stop::Memory)
    }

    fn push(&mut self, key: &[u8], depth: u32) -> Result<(), Stop> {
        self.keys.push(key)?;
        self.depths.try_reserve(1)?;
        self.depths.push(depth);
        Ok(())
    }
}

/// What a part has and asks, and what its choices show.
struct Checked {
    own: Stops,
    asked: Stops,
    labels: Vec<(u32, Line)>,
}

impl Checked {
    /// Of the part whose first key is that of the state that the explorer is at, to which so many choices lead.
    fn of(explorer: &mut Explorer, depth: u32, marks: &Marks) -> Result<Self, Stop> {
        let (mut own, mut asked, mut labels) = (Stops::new(), Stops::new(), Vec::new());
        let mut shown: HashSet<(u32, Line), Keys> = HashSet::default();
        explorer.put_own_key();
        own.push(&explorer.key, depth)?;
        let (mut at, mut mark) = (0, 0);
        while at < own.depths.len() {
            explorer.visit(own.keys.key(at));
            let depth = own.depths[at].checked_add(1).ok_or(Stop::Memory)?;
            for choice in 0..explorer.choices() {
                match explorer.made(choice) {
                    None => explorer.put_own_key(),
                    Some(Some(label)) if shown.insert(label) => labels.push(label),
                    Some(_) => {}
                }
                if marks.is_set(mark) {
                    own.push(&explorer.key, depth)?;
                } else if explorer.key != own.keys.key(at) {
                    asked.push(&explorer.key, depth)?;
                }
                mark += 1;
            }
            at += 1;
        }
        Ok(Checked { own, asked, labels })
    }

    /// Writes the lines, and sums the labels.
    fn put(&self, output: &mut Output, cpus: u32) -> Result<u32, Stop> {
        let mut packed = Vec::new();
        for (stops, kind) in [(&self.own, " + "), (&self.asked, " ? ")] {
            for (at, &depth) in stops.depths.iter().enumerate() {
                pack(stops.keys.key(at), cpus, &mut packed);
                output.pairs(&packed)?.text(kind).digits(depth).end_line()?;
            }
        }
        let mut sum = 0u32;
        for &(cpu, line) in &self.labels {
            let label = output.written(|output| {
                put_line(output.text(" ").number(cpu).text(" "), line);
            });
            sum = sum.wrapping_add(label_sum(&label));
            output.text("line").bytes(&label).end_line()?;
        }
        Ok(sum)
    }
}

// Its lines

/// The form of a key that certificates have: turns; of each processor the name, and if that isn't 0 the pc, how many
/// registers there are up to the last that isn't 0, and these; and the words that differ, with their places.
fn pack(key: &[u8], cpus: u32, packed: &mut Vec<u8>) {
    packed.clear();
    let mut key = Key(key);
    push(packed, key.number());
    for _ in 0..cpus {
        let at = key.processor();
        push(packed, at.part);
        if at.part != 0 {
            let registers = &at.context.registers;
            let used = registers.iter().rposition(|&word| word != 0).map_or(0, |last| last + 1);
            push(packed, at.context.pc);
            push(packed, used as u32);
            registers[..used].iter().for_each(|&word| push(packed, word));
        }
    }
    let mut place = 0;
    while !key.0.is_empty() {
        place += key.number();
        push(packed, place);
        push(packed, key.number());
    }
}

/// A number in groups of seven bits, the highest first. All but the last have 128 more.
#[inline]
fn push(packed: &mut Vec<u8>, number: u32) {
    for shift in [28, 21, 14, 7] {
        if number >> shift != 0 {
            packed.push((number >> shift) as u8 | 0x80);
        }
    }
    packed.push(number as u8 & 0x7f);
}

/// A sum and more numbers. That of a part is over the lines that can be raised, the words of the image's frames, and
/// those that keys are compared with.
fn summed(sum: u64, numbers: impl Iterator<Item = u32>) -> u64 {
    numbers.fold(sum, |sum, number| (sum ^ u64::from(number)).wrapping_mul(0x100000001b3))
}

fn put_about(output: &mut Output, head: &Head, from: u32, sum: u64) {
    output.text("part");
    for number in [head.frames, head.cpus, head.plans, head.pages, from] {
        output.text(" ").number(number);
    }
    output.text(" ").digits((sum >> 32) as u32).digits(sum as u32);
}
