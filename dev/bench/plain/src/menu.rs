//! What partitions may do, whatever their programs are: the text after an image (docs/FORMATS.md, "against").

use crate::away::Blind;
use crate::cpu::{moved, Line};
use crate::frames::{ROOT, WORDS};
use crate::machine::{Machine, Outcome};
use crate::output::{Input, Output};
use crate::texts::{newline, number, Words, LONGEST};
use crate::Stop;

const MOST_DEEDS: usize = 1024;
const MOST_LABELS: usize = 16;
const MOST_LINES: u32 = 65536;
/// The words that leave something out, how many lines there may be of each, and how many numbers follow it.
const LEFT_OUT: [(&[u8], usize, usize); 5] =
    [(b"any", 64, 1), (b"free", 256, 1), (b"seen", 256, 2), (b"entry", 256, 2), (b"row", 256, 4)];

/// What a partition of this name may do, or without one each but the root.
pub struct Deed {
    name: Option<u32>,
    pub event: Event,
}

#[derive(Clone, Copy)]
pub enum Event {
    Load(u32, bool),
    Store(u32, bool, u32),
    Trap(u32, u32, u32),
    Call(u32, [u32; 5]),
}

impl Deed {
    pub fn is_of(&self, part: u32) -> bool {
        match self.name {
            Some(name) => part == name,
            None => part != ROOT,
        }
    }
}

/// The menu that the rest of the input is.
pub fn menu(input: &mut Input, output: &mut Output) -> Result<Menu, Stop> {
    let mut menu = Menu::default();
    loop {
        while let Some(end) = newline(input.held()) {
            menu.judge(&input.held()[..end])?;
            input.take(end + 1);
        }
        if input.held().len() > LONGEST {
            menu.judge(&input.held()[..=LONGEST])?;
        }
        output.flush()?;
        if input.read(usize::MAX)? == 0 {
            if !input.held().is_empty() {
                menu.judge(input.held())?;
            }
            return Ok(menu);
        }
    }
}

/// What partitions may do, the labels of which it is asked whether they can come again, those of which it is asked
/// whether they come, and what is left out.
#[derive(Default)]
pub struct Menu {
    pub deeds: Vec<Deed>,
    pub labels: Vec<Vec<u8>>,
    pub coming: Vec<Vec<u8>>,
    pub blind: Blind,
    lines: u32,
}

impl Menu {
    fn judge(&mut self, line: &[u8]) -> Result<(), Stop> {
        self.lines += 1;
        let line_number = self.lines;
        let bad = |kind| Stop::Bad(format!("bad line {line_number} {kind}"));
        if line.len() > LONGEST {
            return Err(bad("long"));
        }
        if line.is_empty() || line[0] == b'#' {
            return if self.lines > MOST_LINES { Err(bad("many")) } else { Ok(()) };
        }
        let (who, mut words) = Words::of(line);
        if who == b"again" || who == b"comes" {
            let label = line.get(6..).filter(|label| !label.is_empty()).ok_or_else(|| bad("what"))?;
            if self.labels.len() + self.coming.len() == MOST_LABELS || self.lines > MOST_LINES {
                return Err(bad("many"));
            }
            let labels = if who == b"again" { &mut self.labels } else { &mut self.coming };
            labels.push(label.to_vec());
            return Ok(());
        }
        if let Some(kind) = LEFT_OUT.iter().position(|(word, _, _)| *word == who) {
            self.leave_out(kind, &mut words).ok_or_else(|| bad("what"))?;
            if self.blind.lines[kind] > LEFT_OUT[kind].1 || self.lines > MOST_LINES {
                return Err(bad("many"));
            }
            return Ok(());
        }
        let name = match who {
            b"each" => None,
            who => Some(number(who).ok_or_else(|| bad("who"))?),
        };
        let event = event_of(&mut words).ok_or_else(|| bad("what"))?;
        if self.deeds.len() == MOST_DEEDS || self.lines > MOST_LINES {
            return Err(bad("many"));
        }
        self.deeds.try_reserve(1)?;
        self.deeds.push(Deed { name, event });
        Ok(())
    }
}

impl Menu {
    fn leave_out(&mut self, kind: usize, words: &mut Words) -> Option<()> {
        let mut x = [0; 4];
        for place in &mut x[..LEFT_OUT[kind].2] {
            *place = number(words.next()?)?;
        }
        if words.next().is_some() || kind == 2 && x[1] >= WORDS {
            return None;
        }
        let blind = &mut self.blind;
        match kind {
            0 => blind.own.push(x[0]),
            1 => blind.pages.push(x[0]),
            2 => blind.seen.push((x[0], x[1])),
            3 => blind.entries.push((x[0], x[1])),
            _ => blind.rows.push(x),
        };
        self.blind.lines[kind] += 1;
        Some(())
    }
}

fn event_of(words: &mut Words) -> Option<Event> {
    let form = words.next()?;
    let (mut x, mut count) = ([0; 6], 0);
    for word in words {
        *x.get_mut(count)? = number(word)?;
        count += 1;
    }
    match (form, count) {
        (b"ld", 1) => Some(Event::Load(x[0], true)),
        (b"lb", 1) => Some(Event::Load(x[0], false)),
        (b"st", 2) => Some(Event::Store(x[0], true, x[1])),
        (b"sb", 2) if x[1] < 256 => Some(Event::Store(x[0], false, x[1])),
        (b"trap", 3) if x[0] < 256 => Some(Event::Trap(x[0], x[1], x[2])),
        (b"call", 1..) => Some(Event::Call(x[0], [x[1], x[2], x[3], x[4], x[5]])),
        _ => None,
    }
}

impl<const LOGGED: bool> Machine<LOGGED> {
    /// A turn of a partition that does a deed, or none.
    pub fn hostile_turn(&mut self, cpu: usize, deed: Option<&Deed>) -> Option<Line> {
        if let Some(switch) = self.polled(cpu) {
            return Some(Line::Switched(switch));
        }
        match deed?.event {
            Event::Load(address, is_word) => moved(self.load(cpu, address, is_word)),
            Event::Store(address, is_word, value) => moved(self.store(cpu, address, is_word, value)),
            Event::Trap(vector, a, b) => moved(self.trap(cpu, vector, a, b)),
            Event::Call(number, arguments) => match self.call(cpu, number, arguments) {
                Outcome::Reply(status, value) => Some(Line::Reply(number, status, value)),
                Outcome::Switched(switch) => Some(Line::Yielded(switch)),
                _ => None,
            },
        }
    }
}
