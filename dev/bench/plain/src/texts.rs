//! Numbers and words of scripts, assembly texts and the command line.

use crate::machine::{Outcome, Switch};
use crate::output::Output;

/// Bytes of a line, its newline not counted.
pub const LONGEST: usize = 120;
/// Bytes of a script or an assembly text.
pub const MOST: usize = 1 << 24;

/// The number that a word is.
#[inline]
pub fn number(word: &[u8]) -> Option<u32> {
    match word {
        [b'0', b'x', digits @ ..] => hexadecimal(digits),
        [b'0'] => Some(0),
        [b'1'..=b'9', ..] => decimal(word),
        _ => None,
    }
}

#[inline]
fn hexadecimal(digits: &[u8]) -> Option<u32> {
    if digits.is_empty() || digits.len() > 8 {
        return None;
    }
    digits.iter().try_fold(0, |value, &digit| match digit {
        b'0'..=b'9' => Some(value << 4 | u32::from(digit - b'0')),
        b'a'..=b'f' => Some(value << 4 | u32::from(digit - b'a' + 10)),
        _ => None,
    })
}

#[inline]
fn decimal(digits: &[u8]) -> Option<u32> {
    digits.iter().try_fold(0u32, |value, &digit| match digit {
        b'0'..=b'9' => value.checked_mul(10)?.checked_add(u32::from(digit - b'0')),
        _ => None,
    })
}

/// The values of hexadecimal digits; of other bytes more than 15.
static DIGITS: [u8; 256] = {
    let (mut values, mut digit) = ([0xff; 256], 0);
    while digit < 16 {
        values[b"0123456789abcdef"[digit] as usize] = digit as u8;
        digit += 1;
    }
    values
};

/// The number that hexadecimal digits are, with leading zeros or not.
#[inline]
pub fn digits(text: &[u8]) -> Option<u32> {
    let (mut word, mut all) = (0, 0);
    for &digit in text {
        let value = DIGITS[digit as usize];
        all |= value;
        word = word << 4 | u32::from(value & 15);
    }
    (all < 16).then_some(word)
}

/// The words of a line that come after its first, between spaces.
pub struct Words<'a> {
    rest: Option<&'a [u8]>,
}

impl<'a> Words<'a> {
    /// The first word of a line, and those after it.
    #[inline]
    pub fn of(line: &'a [u8]) -> (&'a [u8], Self) {
        let (first, rest) = cut(line);
        (first, Words { rest })
    }
}

impl<'a> Iterator for Words<'a> {
    type Item = &'a [u8];

    #[inline]
    fn next(&mut self) -> Option<&'a [u8]> {
        let (word, rest) = cut(self.rest?);
        self.rest = rest;
        Some(word)
    }
}

#[inline]
fn cut(line: &[u8]) -> (&[u8], Option<&[u8]>) {
    match line.iter().position(|&byte| byte == b' ') {
        Some(at) => (&line[..at], Some(&line[at + 1..])),
        None => (line, None),
    }
}

/// The place of the next newline.
#[inline]
pub fn newline(text: &[u8]) -> Option<usize> {
    text.iter().position(|&byte| byte == b'\n')
}

pub fn put_switch(output: &mut Output, switch: Switch) -> &mut Output {
    output.text("switch ").number(switch.from).text(" ").number(switch.to).text(" ").number(switch.vector)
}

pub fn put_outcome(output: &mut Output, outcome: Outcome) -> &mut Output {
    match outcome {
        Outcome::Word(word) => output.word(word),
        Outcome::Done => output.text("done"),
        Outcome::Reply(status, value) => output.text("reply ").number(status as u32).text(" ").word(value),
        Outcome::Switched(switch) => put_switch(output, switch),
        Outcome::Parked(from, vector) => output.text("park ").number(from).text(" ").number(vector),
        Outcome::Idle => output.text("idle"),
    }
}
