//! The command `asm`: an assembly text as an image (docs/FORMATS.md, "Assembly").

use crate::frames::{root_page, HANDLER_PAGE, PAGE, WORDS};
use crate::hash::Map;
use crate::image::MAGIC;
use crate::isa::{opcode, Kind, Operand, KINDS};
use crate::output::{Input, Output};
use crate::texts::{newline, number, Words, LONGEST, MOST};
use crate::Stop;

/// What is wrong with a line.
enum Fault {
    Unknown,
    Operand,
    Range,
    Twice,
    Size,
    Label,
    Memory,
}

impl Fault {
    fn stop(self, line: u32) -> Stop {
        let kind = match self {
            Fault::Unknown => "unknown",
            Fault::Operand => "operand",
            Fault::Range => "range",
            Fault::Twice => "twice",
            Fault::Size => "size",
            Fault::Label => "label",
            Fault::Memory => return Stop::Memory,
        };
        Stop::Bad(format!("bad line {line} {kind}"))
    }
}

/// What becomes of the address of a name in a word.
#[derive(Clone, Copy)]
enum Part {
    Whole,
    Low,
    High,
    Distance,
}

/// A word that waits for the address of a name.
struct Use<'a> {
    line: u32,
    name: &'a [u8],
    part: Part,
    /// Where the word is in the image, and its address.
    place: usize,
    address: u32,
}

/// The first pass: each line by itself and by those above it.
struct Assembler<'a> {
    frames: Option<u32>,
    cpus: Option<u32>,
    image: Vec<u8>,
    plans: u32,
    last_line: u32,
    pages: u32,
    /// The pages of the root that were named: those from 0x400 on, and that of the handler table at the end.
    seen: Vec<bool>,
    /// The vpage of the page on its way, where its words begin in the image, and how many there are.
    vpage: u32,
    start: usize,
    words: u32,
    names: Map<'a, u32>,
    uses: Vec<Use<'a>>,
    line: u32,
}

pub fn asm(input: &mut Input, output: &mut Output) -> Result<(), Stop> {
    let text = input.all(MOST)?;
    if text.len() > MOST {
        return Err(Stop::TooLong);
    }
    let mut assembler = Assembler::new();
    let mut rest = text.as_slice();
    while !rest.is_empty() {
        let end = newline(rest).unwrap_or(rest.len());
        assembler.line += 1;
        assembler.judge(&rest[..end]).map_err(|fault| fault.stop(assembler.line))?;
        rest = &rest[rest.len().min(end + 1)..];
    }
    output.write(&assembler.image()?)
}

impl<'a> Assembler<'a> {
    fn new() -> Self {
        Assembler {
            frames: None,
            cpus: None,
            image: MAGIC.to_vec(),
            plans: 0,
            last_line: 0,
            pages: 0,
            seen: vec![false; 4097],
            vpage: 0,
            start: 0,
            words: 0,
            names: Map::default(),
            uses: Vec::new(),
            line: 0,
        }
    }

    fn put(&mut self, word: u32) {
        self.image.extend_from_slice(&word.to_le_bytes());
    }

    #[inline]
    fn judge(&mut self, line: &'a [u8]) -> Result<(), Fault> {
        if line.len() > LONGEST {
            return Err(Fault::Unknown);
        }
        if line.is_empty() || line[0] == b'#' {
            return Ok(());
        }
        let (form, mut operands) = Words::of(line);
        if self.cpus.is_none() || self.pages == 0 {
            return self.before_pages(form, operands);
        }
        match form {
            b".page" => self.page(operands),
            b".word" => self.word(operands),
            b".zero" => self.zeros(operands),
            [name @ .., b':'] if is_name(name) => self.label(name, operands.next()),
            _ => self.instruction(form, operands),
        }
    }

    /// The two header lines, the plans, and the first page.
    fn before_pages(&mut self, form: &[u8], operands: Words) -> Result<(), Fault> {
        match (form, self.frames, self.cpus) {
            (b".frames", None, _) => self.frames = Some(self.head(operands, 16, 4096)?),
            (b".cpus", Some(_), None) => {
                self.cpus = Some(self.head(operands, 1, 4)?);
                self.put(0);
                self.put(0);
            }
            (b".line", _, Some(_)) => return self.plan(operands),
            (b".page", _, Some(_)) => return self.page(operands),
            _ => return Err(Fault::Unknown),
        }
        Ok(())
    }

    fn head(&mut self, operands: Words, least: u32, most: u32) -> Result<u32, Fault> {
        let [value] = numbers(operands)?;
        if !(least..=most).contains(&value) {
            return Err(Fault::Range);
        }
        self.put(value);
        Ok(value)
    }

    fn plan(&mut self, operands: Words) -> Result<(), Fault> {
        let [line, first, period] = numbers(operands)?;
        if line > 15 || self.plans > 0 && line <= self.last_line {
            return Err(Fault::Range);
        }
        self.plans += 1;
        self.last_line = line;
        [line, first, period].into_iter().for_each(|word| self.put(word));
        Ok(())
    }

    fn page(&mut self, operands: Words) -> Result<(), Fault> {
        let [address] = numbers(operands)?;
        let vpage = address / PAGE;
        let frames = self.frames.unwrap_or(0);
        if address % PAGE != 0 || root_page(frames, vpage).is_none() {
            return Err(Fault::Range);
        }
        let place = if vpage == HANDLER_PAGE { 4096 } else { vpage - 0x400 } as usize;
        if self.seen[place] {
            return Err(Fault::Twice);
        }
        self.seen[place] = true;
        self.image.try_reserve(4 + PAGE as usize).map_err(|_| Fault::Memory)?;
        self.put(vpage);
        self.start = self.image.len();
        self.image.resize(self.start + PAGE as usize, 0);
        (self.vpage, self.words) = (vpage, 0);
        self.pages += 1;
        Ok(())
    }

    /// The address of the page's next place.
    #[inline]
    fn here(&self) -> u32 {
        (PAGE * self.vpage).wrapping_add(4 * self.words)
    }

    #[inline]
    fn add(&mut self, word: u32) -> Result<(), Fault> {
        if self.words == WORDS {
            return Err(Fault::Size);
        }
        let place = self.start + 4 * self.words as usize;
        self.image[place..place + 4].copy_from_slice(&word.to_le_bytes());
        self.words += 1;
        Ok(())
    }

    /// Adds a word that is finished in the second pass.
    fn add_use(&mut self, word: u32, name: &'a [u8], part: Part) -> Result<(), Fault> {
        let (place, address) = (self.start + 4 * self.words as usize, self.here());
        self.add(word)?;
        self.uses.try_reserve(1).map_err(|_| Fault::Memory)?;
        self.uses.push(Use { line: self.line, name, part, place, address });
        Ok(())
    }

    fn word(&mut self, mut operands: Words<'a>) -> Result<(), Fault> {
        let (Some(operand), None) = (operands.next(), operands.next()) else {
            return Err(Fault::Operand);
        };
        if is_name(operand) {
            return self.add_use(0, operand, Part::Whole);
        }
        self.add(number(operand).ok_or(Fault::Operand)?)
    }

    fn zeros(&mut self, operands: Words) -> Result<(), Fault> {
        let [count] = numbers(operands)?;
        if count > WORDS - self.words {
            return Err(Fault::Size);
        }
        self.words += count;
        Ok(())
    }

    fn label(&mut self, name: &'a [u8], operand: Option<&[u8]>) -> Result<(), Fault> {
        if operand.is_some() {
            return Err(Fault::Operand);
        }
        let here = self.here();
        self.names.try_reserve(1).map_err(|_| Fault::Memory)?;
        match self.names.insert(name, here) {
            None => Ok(()),
            Some(_) => Err(Fault::Twice),
        }
    }

    #[inline]
    fn instruction(&mut self, form: &[u8], mut operands: Words<'a>) -> Result<(), Fault> {
        let opcode = opcode(form).ok_or(Fault::Unknown)?;
        let kind = &KINDS[opcode as usize - 1];
        let mut given = [&[][..]; 3];
        let wanted = kind.form.operands;
        for text in given.iter_mut().take(wanted.len()) {
            *text = operands.next().ok_or(Fault::Operand)?;
        }
        if operands.next().is_some() {
            return Err(Fault::Operand);
        }
        let mut word = opcode << 24;
        for (&operand, text) in wanted.iter().zip(given) {
            match operand {
                Operand::A => word |= register(text)? << 20,
                Operand::B => word |= register(text)? << 16,
                Operand::C => word |= register(text)? << 12,
                Operand::Unsigned | Operand::Signed => match named(opcode, text)? {
                    Some((name, part)) => return self.add_use(word, name, part),
                    None => word |= immediate(kind, operand, text)?,
                },
            }
        }
        self.add(word)
    }

    /// The second pass: the image with the names in it.
    fn image(mut self) -> Result<Vec<u8>, Stop> {
        if self.cpus.is_none() {
            return Err(Fault::Unknown.stop(self.line + 1));
        }
        for waiting in &self.uses {
            let word = &mut self.image[waiting.place..waiting.place + 4];
            let value = match self.names.get(waiting.name) {
                Some(&address) => waiting.value(address),
                None => Err(Fault::Label),
            }
            .map_err(|fault| fault.stop(waiting.line))?;
            word.iter_mut().zip(value.to_le_bytes()).for_each(|(byte, more)| *byte |= more);
        }
        self.image[16..20].copy_from_slice(&self.plans.to_le_bytes());
        self.image[20..24].copy_from_slice(&self.pages.to_le_bytes());
        Ok(self.image)
    }
}

impl Use<'_> {
    /// What the address of the name adds to the word.
    fn value(&self, address: u32) -> Result<u32, Fault> {
        Ok(match self.part {
            Part::Whole => address,
            Part::Low => address & 0xffff,
            Part::High => address >> 16,
            Part::Distance => {
                let bytes = i64::from(address) - i64::from(self.address.wrapping_add(4));
                let words = i16::try_from(bytes.div_euclid(4)).map_err(|_| Fault::Range)?;
                u32::from(words as u16)
            }
        })
    }
}

/// The name in place of an immediate, and which part of its address is meant.
#[inline]
fn named(opcode: u32, text: &[u8]) -> Result<Option<(&[u8], Part)>, Fault> {
    match (opcode, text) {
        (0x02 | 0x03 | 0x13, [sign @ (b'<' | b'>'), name @ ..]) => {
            let part = if *sign == b'<' { Part::Low } else { Part::High };
            if is_name(name) {
                Ok(Some((name, part)))
            } else {
                Err(Fault::Operand)
            }
        }
        (0x1a..=0x1e, _) if is_name(text) => Ok(Some((text, Part::Distance))),
        _ => Ok(None),
    }
}

#[inline]
fn immediate(kind: &Kind, operand: Operand, text: &[u8]) -> Result<u32, Fault> {
    if operand == Operand::Unsigned {
        let value = number(text).ok_or(Fault::Operand)?;
        return if (kind.least..=kind.most).contains(&value) { Ok(value) } else { Err(Fault::Range) };
    }
    match text {
        [b'-', digits @ ..] if matches!(digits, [b'1'..=b'9', ..]) => match number(digits) {
            Some(value @ 0..=0x8000) => Ok(0x10000 - value),
            Some(_) => Err(Fault::Range),
            None => Err(Fault::Operand),
        },
        _ => match number(text) {
            Some(value @ 0..=0x7fff) => Ok(value),
            Some(_) => Err(Fault::Range),
            None => Err(Fault::Operand),
        },
    }
}

#[inline]
fn register(text: &[u8]) -> Result<u32, Fault> {
    match text {
        [b'r', digit @ b'0'..=b'9'] => Ok(u32::from(digit - b'0')),
        [b'r', b'1', digit @ b'0'..=b'5'] => Ok(u32::from(digit - b'0') + 10),
        _ => Err(Fault::Operand),
    }
}

#[inline]
fn is_name(text: &[u8]) -> bool {
    text.len() <= 32
        && text.first().is_some_and(|first| !first.is_ascii_digit())
        && text.iter().all(|&byte| byte.is_ascii_alphanumeric() || byte == b'_')
}

/// The operands, which have to be that many numbers.
fn numbers<const COUNT: usize>(operands: Words) -> Result<[u32; COUNT], Fault> {
    let (mut values, mut count) = ([0; COUNT], 0);
    for operand in operands {
        *values.get_mut(count).ok_or(Fault::Operand)? = number(operand).ok_or(Fault::Operand)?;
        count += 1;
    }
    if count == COUNT {
        Ok(values)
    } else {
        Err(Fault::Operand)
    }
}
