//! Images of a machine (docs/FORMATS.md, "Images"), read from the front part by part.

use crate::frames::{root_page, HANDLER_PAGE, PAGE, WORDS};
use crate::machine::Machine;
use crate::output::{Input, Output};
use crate::Stop;

pub const MAGIC: &[u8; 8] = b"PIPIMG2\n";
const OLD_MAGIC: &[u8; 8] = b"PIPIMG1\n";
const BYTES: usize = PAGE as usize;

#[derive(Clone, Copy)]
pub struct Head {
    pub frames: u32,
    pub cpus: u32,
    pub plans: u32,
    pub pages: u32,
}

/// When an interrupt line is raised.
#[derive(Clone, Copy)]
pub struct Plan {
    pub line: u32,
    pub first: u32,
    pub period: u32,
}

impl Plan {
    #[inline]
    pub fn is_due(&self, step: u32) -> bool {
        step == self.first || self.period != 0 && step > self.first && (step - self.first) % self.period == 0
    }
}

/// An image on its way, or what comes after one. What the output holds is written before more is read.
pub struct Reader<'a> {
    input: &'a mut Input,
    pub output: &'a mut Output,
    /// Where in the input the next byte is.
    pub at: usize,
    /// What is read: an image, or a part.
    pub what: &'static str,
    /// The pages of the root that were named: those from 0x400 on, and that of the handler table at the end.
    seen: Vec<bool>,
}

impl<'a> Reader<'a> {
    pub fn new(input: &'a mut Input, output: &'a mut Output) -> Self {
        Reader { input, output, at: 0, what: "image", seen: vec![false; 4097] }
    }

    pub fn bad(&self, kind: &str, at: usize) -> Stop {
        Stop::Bad(format!("bad {} {kind} {at}", self.what))
    }

    /// The next so many bytes, no more than a page.
    pub fn part(&mut self, count: usize) -> Result<&[u8], Stop> {
        while self.input.held().len() < count {
            self.output.flush()?;
            if self.input.read(usize::MAX)? == 0 {
                return Err(self.bad("short", self.at + self.input.held().len()));
            }
        }
        self.at += count;
        self.input.take(count);
        Ok(self.input.taken(count))
    }

    pub fn number(&mut self) -> Result<u32, Stop> {
        Ok(word_of(self.part(4)?))
    }

    fn field(&mut self, kind: &str, least: u32, most: u32) -> Result<u32, Stop> {
        let at = self.at;
        let value = self.number()?;
        if (least..=most).contains(&value) {
            Ok(value)
        } else {
            Err(self.bad(kind, at))
        }
    }

    pub fn head(&mut self) -> Result<Head, Stop> {
        let magic = self.part(8)?;
        if magic != MAGIC {
            let kind = if magic == OLD_MAGIC { "oldversion" } else { "magic" };
            return Err(self.bad(kind, 0));
        }
        Ok(Head {
            frames: self.field("frames", 16, 4096)?,
            cpus: self.field("cpus", 1, 4)?,
            plans: self.field("plan", 0, 16)?,
            pages: self.field("page", 0, 4096)?,
        })
    }

    pub fn plan(&mut self, before: Option<Plan>) -> Result<Plan, Stop> {
        let at = self.at;
        let part = self.part(12)?;
        let plan = Plan { line: word_of(part), first: word_of(&part[4..]), period: word_of(&part[8..]) };
        if plan.line > 15 || before.is_some_and(|before| plan.line <= before.line) {
            return Err(self.bad("plan", at));
        }
        Ok(plan)
    }

    pub fn plans(&mut self, head: &Head) -> Result<Vec<Plan>, Stop> {
        let mut plans = Vec::new();
        for _ in 0..head.plans {
            plans.push(self.plan(plans.last().copied())?);
        }
        Ok(plans)
    }

    /// The vpage of the next page, and its frame.
    pub fn page(&mut self, head: &Head) -> Result<(u32, u32), Stop> {
        let at = self.at;
        let vpage = self.number()?;
        let page = root_page(head.frames, vpage).ok_or_else(|| self.bad("page", at))?;
        let place = if vpage == HANDLER_PAGE { 4096 } else { vpage - 0x400 } as usize;
        if self.seen[place] {
            return Err(self.bad("twice", at));
        }
        self.seen[place] = true;
        Ok((vpage, page))
    }

    /// The words of the page that was named, as bytes.
    pub fn words(&mut self) -> Result<&[u8], Stop> {
        self.part(BYTES)
    }

    /// Nothing comes after this.
    pub fn end(&mut self) -> Result<(), Stop> {
        if self.input.held().is_empty() {
            self.output.flush()?;
            self.input.read(usize::MAX)?;
        }
        if self.input.held().is_empty() {
            Ok(())
        } else {
            Err(self.bad("long", self.at))
        }
    }
}

#[inline]
pub fn word_of(bytes: &[u8]) -> u32 {
    u32::from_le_bytes([bytes[0], bytes[1], bytes[2], bytes[3]])
}

/// A machine with the words of its image, and the rest of that.
#[derive(Clone)]
pub struct Loaded<const LOGGED: bool> {
    pub world: Machine<LOGGED>,
    pub head: Head,
    pub plans: Vec<Plan>,
}

/// Loads an image for so many children, for each of which 13 pages of the root are needed.
pub fn load<const LOGGED: bool>(input: &mut Input, output: &mut Output, children: u32) -> Result<Loaded<LOGGED>, Stop> {
    let mut reader = Reader::new(input, output);
    let loaded = load_first(&mut reader, children)?;
    reader.end()?;
    Ok(loaded)
}

/// The same of an image that something may come after.
pub fn load_first<const LOGGED: bool>(reader: &mut Reader, children: u32) -> Result<Loaded<LOGGED>, Stop> {
    let head = reader.head()?;
    let plans = reader.plans(&head)?;
    if children > 0 && head.frames < 13 * children + 13 {
        return Err(Stop::TooFew(format!("short {} {}", head.frames - 13, 13 * children)));
    }
    let mut world = Machine::boot(head.frames, head.cpus as usize)?;
    for _ in 0..head.pages {
        let (_, page) = reader.page(&head)?;
        for (place, word) in (page * WORDS..).zip(reader.words()?.chunks_exact(4)) {
            world.frames.set_word(place, word_of(word));
        }
    }
    world.frames.log = Vec::new();
    Ok(Loaded { world, head, plans })
}

/// The first line of a trace.
pub fn put_head(output: &mut Output, head: &Head) -> Result<(), Stop> {
    output.text("image ").number(head.frames).text(" ").number(head.cpus);
    output.text(" ").number(head.plans).text(" ").number(head.pages).end_line()
}
