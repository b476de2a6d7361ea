//! The command `merge`: what the lines of all parts of a certificate say together (docs/CERTIFICATES.md).

use std::cmp::Ordering;
use std::collections::TryReserveError;

use crate::output::{Input, Output};
use crate::texts::digits;
use crate::Stop;

/// In each byte a 1.
const ONES: u64 = 0x0101010101010101;

/// The bytes of a number after its space, those of a kind and a depth, and those of a part's five numbers.
const NUMBER: usize = 9;
const ENDING: usize = 2 + NUMBER;
const NUMBERS: usize = 5 * NUMBER;

/// The most lines that are merged.
const MOST_LINES: u64 = u32::MAX as u64;

pub fn merge(input: &mut Input, output: &mut Output) -> Result<(), Stop> {
    let mut merger = Merger::default();
    each_line(input, |number, line| {
        let taken = if number > MOST_LINES { Err(Fault::Many) } else { merger.take(line) };
        taken.map_err(|fault| fault.stop(number, line, output))
    })?;
    merger.put(output)
}

/// Hands on each line with its number, also the rest after the last newline.
fn each_line(input: &mut Input, mut told: impl FnMut(u64, &[u8]) -> Result<(), Stop>) -> Result<(), Stop> {
    let mut number = 1;
    // The first bytes of a line of which more may come
    let mut begun: Vec<u8> = Vec::new();
    loop {
        while let Some(end) = newline(input.held()) {
            let line = &input.held()[..end];
            if begun.is_empty() {
                told(number, line)?;
            } else {
                begun.try_reserve(end)?;
                begun.extend_from_slice(line);
                told(number, &begun)?;
                begun.clear();
            }
            number += 1;
            input.take(end + 1);
        }
        let held = input.held();
        begun.try_reserve(held.len())?;
        begun.extend_from_slice(held);
        input.take(held.len());
        if input.read(usize::MAX)? == 0 {
            return if begun.is_empty() { Ok(()) } else { told(number, &begun) };
        }
    }
}

/// The place of the next newline. The lines are long, so that eight bytes are looked at at once.
#[inline]
fn newline(text: &[u8]) -> Option<usize> {
    let mut words = text.chunks_exact(8);
    let mut place = 0;
    for word in &mut words {
        // Newlines become 0. Of the bits that mark such bytes the lowest is right.
        let other = u64::from_le_bytes(word.try_into().unwrap_or_default()) ^ (ONES * u64::from(b'\n'));
        let marks = other.wrapping_sub(ONES) & !other & (ONES << 7);
        if marks != 0 {
            return Some(place + marks.trailing_zeros() as usize / 8);
        }
        place += 8;
    }
    words.remainder().iter().position(|&byte| byte == b'\n').map(|at| place + at)
}

/// Why a line can't be merged.
enum Fault {
    Form,
    Order,
    Many,
    Open,
    Twice,
    Apart,
    Memory,
}

impl Fault {
    fn stop(self, number: u64, line: &[u8], output: &mut Output) -> Stop {
        let bad = |kind| Stop::Bad(format!("bad line {number} {kind}"));
        // The newline comes after what is written here.
        let mut key = |word| output.text(word).write(line).err().unwrap_or(Stop::Unsound(String::new()));
        match self {
            Fault::Form => bad("form"),
            Fault::Order => bad("order"),
            Fault::Many => bad("many"),
            Fault::Open => key("open "),
            Fault::Twice => key("twice "),
            Fault::Apart => Stop::Unsound(format!("apart {number}")),
            Fault::Memory => Stop::Memory,
        }
    }
}

impl From<TryReserveError> for Fault {
    fn from(_: TryReserveError) -> Self {
        Fault::Memory
    }
}

/// What was merged: the last key of a part by its digits, with its depth, and each label.
#[derive(Default)]
struct Merger {
    key: Vec<u8>,
    depth: u32,
    keys: u64,
    deepest: u32,
    asked: u64,
    labels: Vec<Vec<u8>>,
    /// The depth of the last line that asks the last key, 0 if none does.
    latest: u32,
    /// How many lines of labels came, of which some may be equal, and their sum.
    shown: u64,
    sum: u32,
    /// What all parts are of, and the numbers of the last one.
    about: Option<Vec<u8>>,
    numbers: [u32; 5],
    /// Whether a part has the first key.
    begins: bool,
    /// How many keys the parts say that they have, how many they ask, how many labels, and the sum of these.
    keys_told: u64,
    asked_told: u64,
    labels_told: u64,
    sum_told: u32,
}

impl Merger {
    #[inline]
    fn take(&mut self, line: &[u8]) -> Result<(), Fault> {
        if let Some(label) = line.strip_prefix(b"line") {
            self.take_label(label)
        } else if let Some(told) = line.strip_prefix(b"part ") {
            self.take_part(told)
        } else {
            self.take_key(line)
        }
    }

    #[inline]
    fn take_key(&mut self, line: &[u8]) -> Result<(), Fault> {
        let (key, ending) = line.split_at(line.len().checked_sub(ENDING).ok_or(Fault::Form)?);
        let depth = number(&ending[2..]).filter(|_| !key.is_empty()).ok_or(Fault::Form)?;
        let order = if self.keys == 0 { Ordering::Less } else { self.key.as_slice().cmp(key) };
        if order != Ordering::Equal && !is_key(key) {
            return Err(Fault::Form);
        }
        let is_own = match &ending[..2] {
            b" +" => true,
            b" ?" => false,
            _ => return Err(Fault::Form),
        };
        if self.shown > 0 || self.about.is_some() {
            return Err(Fault::Order);
        }
        match (is_own, order) {
            (false, Ordering::Equal) if self.keys > 0 && depth < self.latest => return Err(Fault::Order),
            (false, Ordering::Equal) if self.depth <= depth => {
                self.asked += 1;
                self.latest = depth;
            }
            (false, Ordering::Greater) => return Err(Fault::Order),
            (false, _) => return Err(Fault::Open),
            (true, Ordering::Less) => {
                self.key.clear();
                self.key.try_reserve(key.len())?;
                self.key.extend_from_slice(key);
                self.depth = depth;
                self.deepest = self.deepest.max(depth);
                self.keys += 1;
                self.latest = 0;
            }
            (true, Ordering::Equal) => return Err(Fault::Twice),
            (true, Ordering::Greater) => return Err(Fault::Order),
        }
        Ok(())
    }

    fn take_label(&mut self, label: &[u8]) -> Result<(), Fault> {
        if !is_label(label) {
            return Err(Fault::Form);
        }
        if self.about.is_some() {
            return Err(Fault::Order);
        }
        self.shown += 1;
        self.sum = self.sum.wrapping_add(label_sum(label));
        match self.labels.last().map_or(Ordering::Less, |last| last.as_slice().cmp(label)) {
            Ordering::Less => {
                self.labels.try_reserve(1)?;
                self.labels.push(copied(label)?);
                Ok(())
            }
            Ordering::Equal => Ok(()),
            Ordering::Greater => Err(Fault::Order),
        }
    }

    fn take_part(&mut self, told: &[u8]) -> Result<(), Fault> {
        let (about, numbers) = told.split_at(told.len().checked_sub(NUMBERS).ok_or(Fault::Form)?);
        let mut numbers = numbers.chunks_exact(NUMBER).map(|text| number(text).ok_or(Fault::Form));
        let mut next = || numbers.next().unwrap_or(Err(Fault::Form));
        let numbers = [next()?, next()?, next()?, next()?, next()?];
        let [way, keys, asked, labels, sum] = numbers;
        if !is_about(about) {
            return Err(Fault::Form);
        }
        match &self.about {
            None => self.about = Some(copied(about)?),
            Some(first) if first != about => return Err(Fault::Apart),
            Some(_) if numbers < self.numbers => return Err(Fault::Order),
            Some(_) => {}
        }
        self.numbers = numbers;
        self.begins |= way == 0;
        let more = |told: u64, count: u32| told.checked_add(u64::from(count)).ok_or(Fault::Many);
        self.keys_told = more(self.keys_told, keys)?;
        self.asked_told = more(self.asked_told, asked)?;
        self.labels_told = more(self.labels_told, labels)?;
        self.sum_told = self.sum_told.wrapping_add(sum);
        Ok(())
    }

    /// What all lines say.
    fn put(&self, output: &mut Output) -> Result<(), Stop> {
        if !self.begins {
            return Err(Stop::Unsound("no start".into()));
        }
        if self.keys != self.keys_told {
            return Err(Stop::Unsound("apart keys".into()));
        }
        if self.asked != self.asked_told {
            return Err(Stop::Unsound("apart asks".into()));
        }
        if (self.shown, self.sum) != (self.labels_told, self.sum_told) {
            return Err(Stop::Unsound("apart labels".into()));
        }
        output.text("image ").write(self.about.as_deref().unwrap_or_default())?;
        output.end_line()?;
        for label in &self.labels {
            output.text("line").write(label)?;
            output.end_line()?;
        }
        output.text("states ").text(&self.keys.to_string()).text(" depth ").number(self.deepest);
        output.text(" closed").end_line()
    }
}

/// The number of a label in a sum of labels. The space before it counts.
pub fn label_sum(label: &[u8]) -> u32 {
    label.iter().fold(0x811c9dc5, |sum, &byte| (sum ^ u32::from(byte)).wrapping_mul(0x01000193))
}

/// Whether this is two hexadecimal digits for each byte of a key.
#[inline]
fn is_key(text: &[u8]) -> bool {
    let is_digit = |byte: u8| (byte.wrapping_sub(b'0') < 10) | (byte.wrapping_sub(b'a') < 6);
    text.len() % 2 == 0 && text.iter().fold(true, |all, &byte| all & is_digit(byte))
}

/// The number after a space.
#[inline]
fn number(text: &[u8]) -> Option<u32> {
    digits(text.strip_prefix(b" ")?)
}

/// A pattern of words, each after a space: a letter is of one kind of word, and all else is as it is written.
fn fits(text: &[u8], pattern: &str) -> bool {
    let mut words = text.split(|&byte| byte == b' ');
    pattern.split(' ').all(|kind| words.next().is_some_and(|word| is_of(word, kind))) && words.next().is_none()
}

/// Whether a word is a processor's number (P), a decimal number (N), a word of the machine (W), a sum (S), or this.
fn is_of(word: &[u8], kind: &str) -> bool {
    let hexadecimal = |digits: &[u8]| digits.iter().all(|byte| matches!(byte, b'0'..=b'9' | b'a'..=b'f'));
    match kind {
        "P" => matches!(word, [b'0'..=b'3']),
        "N" => word == b"0" || word.iter().all(u8::is_ascii_digit) && !word.starts_with(b"0") && !word.is_empty(),
        "W" => word.len() == 10 && word.starts_with(b"0x") && hexadecimal(&word[2..]),
        "S" => word.len() == 16 && hexadecimal(word),
        _ => word == kind.as_bytes(),
    }
}

/// Whether this is a label: a line of a trace without its step.
fn is_label(label: &[u8]) -> bool {
    const LABELS: [&str; 5] =
        [" P switch N N N", " P park N N", " P out W", " P call N reply N W", " P call N switch N N N"];
    LABELS.iter().any(|pattern| fits(label, pattern))
}

/// Whether this says what a part is of.
fn is_about(about: &[u8]) -> bool {
    fits(about, "N N N N N S")
}

fn copied(text: &[u8]) -> Result<Vec<u8>, TryReserveError> {
    let mut copy = Vec::new();
    copy.try_reserve_exact(text.len())?;
    copy.extend_from_slice(text);
    Ok(copy)
}
