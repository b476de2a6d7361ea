//! Standard input and output: what is read comes in large pieces, and what is written is gathered.

use std::fs::File;
use std::io::{self, Read, Write};
use std::os::fd::AsFd;

use crate::Stop;

/// Bytes at which what was gathered is written.
const HELD: usize = 16384;
const ROOM: usize = HELD + 256;

pub struct Output {
    file: File,
    held: Vec<u8>,
}

impl Output {
    pub fn new() -> Result<Self, Stop> {
        let file = File::from(io::stdout().as_fd().try_clone_to_owned().map_err(|_| Stop::Write)?);
        Ok(Output { file, held: Vec::with_capacity(ROOM) })
    }

    pub fn flush(&mut self) -> Result<(), Stop> {
        let written = self.file.write_all(&self.held);
        self.held.clear();
        written.map_err(|_| Stop::Write)
    }

    /// Writes bytes. Many aren't copied.
    pub fn write(&mut self, bytes: &[u8]) -> Result<(), Stop> {
        if self.held.len() + bytes.len() <= HELD {
            self.held.extend_from_slice(bytes);
            return Ok(());
        }
        self.flush()?;
        self.file.write_all(bytes).map_err(|_| Stop::Write)
    }

    /// Writes two hexadecimal digits of each byte.
    pub fn pairs(&mut self, bytes: &[u8]) -> Result<&mut Self, Stop> {
        for piece in bytes.chunks(HELD / 4) {
            if self.held.len() + 2 * piece.len() > HELD {
                self.flush()?;
            }
            let start = self.held.len();
            self.held.resize(start + 2 * piece.len(), 0);
            for (pair, byte) in self.held[start..].chunks_exact_mut(2).zip(piece) {
                (pair[0], pair[1]) = (digit(byte >> 4), digit(byte & 15));
            }
        }
        Ok(self)
    }

    /// Ends a line, and writes what is held if that is enough.
    #[inline]
    pub fn end_line(&mut self) -> Result<(), Stop> {
        self.held.push(b'\n');
        if self.held.len() >= HELD {
            self.flush()
        } else {
            Ok(())
        }
    }

    #[inline]
    pub fn text(&mut self, text: &str) -> &mut Self {
        self.held.extend_from_slice(text.as_bytes());
        self
    }

    /// A number in decimal.
    #[inline]
    pub fn number(&mut self, number: u32) -> &mut Self {
        let (mut digits, mut start, mut left) = ([0; 10], 10, number);
        loop {
            start -= 1;
            digits[start] = b'0' + (left % 10) as u8;
            left /= 10;
            if left == 0 {
                break;
            }
        }
        self.held.extend_from_slice(&digits[start..]);
        self
    }

    pub fn bytes(&mut self, bytes: &[u8]) -> &mut Self {
        self.held.extend_from_slice(bytes);
        self
    }

    /// What is written so, taken back.
    pub fn written(&mut self, write: impl FnOnce(&mut Self)) -> Vec<u8> {
        let start = self.held.len();
        write(self);
        self.held.split_off(start)
    }

    /// Eight hexadecimal digits.
    #[inline]
    pub fn digits(&mut self, word: u32) -> &mut Self {
        let mut digits = [0; 8];
        put_digits(&mut digits, word);
        self.held.extend_from_slice(&digits);
        self
    }

    /// A word: `0x` and eight hexadecimal digits.
    #[inline]
    pub fn word(&mut self, word: u32) -> &mut Self {
        let mut text = *b"0x00000000";
        put_digits(&mut text[2..], word);
        self.held.extend_from_slice(&text);
        self
    }
}

/// A hexadecimal digit, without a table, so that many are made at once.
#[inline]
fn digit(value: u8) -> u8 {
    value + if value < 10 { b'0' } else { b'a' - 10 }
}

#[inline]
fn put_digits(digits: &mut [u8], mut word: u32) {
    for digit in digits.iter_mut().rev() {
        *digit = b"0123456789abcdef"[(word % 16) as usize];
        word /= 16;
    }
}

/// Standard input, read in pieces. `start..end` is what was read and not yet taken.
pub struct Input {
    file: File,
    buffer: Vec<u8>,
    start: usize,
    end: usize,
}

impl Input {
    pub fn new() -> Result<Self, Stop> {
        let file = File::from(io::stdin().as_fd().try_clone_to_owned().map_err(|_| Stop::Read)?);
        Ok(Input { file, buffer: vec![0; 65536], start: 0, end: 0 })
    }

    /// What was read and not yet taken.
    #[inline]
    pub fn held(&self) -> &[u8] {
        &self.buffer[self.start..self.end]
    }

    #[inline]
    pub fn take(&mut self, count: usize) {
        self.start += count;
    }

    /// The last so many bytes that were taken since something was read.
    #[inline]
    pub fn taken(&self, count: usize) -> &[u8] {
        &self.buffer[self.start - count..self.start]
    }

    /// Reads on, at most so many bytes, and answers how many came; 0 at the end.
    pub fn read(&mut self, most: usize) -> Result<usize, Stop> {
        self.buffer.copy_within(self.start..self.end, 0);
        (self.start, self.end) = (0, self.end - self.start);
        let room = (self.buffer.len() - self.end).min(most);
        loop {
            match self.file.read(&mut self.buffer[self.end..self.end + room]) {
                Ok(count) => {
                    self.end += count;
                    return Ok(count);
                }
                Err(error) if error.kind() == io::ErrorKind::Interrupted => {}
                Err(_) => return Err(Stop::Read),
            }
        }
    }

    /// All of the input, but no more than one byte beyond so many.
    pub fn all(&mut self, most: usize) -> Result<Vec<u8>, Stop> {
        let mut text = Vec::new();
        while text.len() <= most && self.read(most + 1 - text.len())? > 0 {
            text.try_reserve(self.end - self.start)?;
            text.extend_from_slice(self.held());
            self.take(self.end - self.start);
        }
        Ok(text)
    }
}
