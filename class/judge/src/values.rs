//! What `claims.txt` says of an exercise: its values, addresses, words and numbers that each student may have of his
//! own by a seed, and its claims with their hints.

use crate::random::Random;
use alloc::format;
use alloc::string::{String, ToString};
use alloc::vec::Vec;

static CLAIMS: &str = include_str!("claims.txt");

/// The lines of an exercise that begin with a mark.
pub fn lines_of(name: &str, mark: &'static str) -> impl Iterator<Item = &'static str> {
    let begin = format!("= {name}");
    let mine = CLAIMS.lines().skip_while(move |line| *line != begin).skip(1).take_while(|line| !line.starts_with('='));
    mine.filter_map(move |line| line.strip_prefix(mark))
}

/// The values of an exercise: name, number, usual number, and how the text has it.
pub struct Values(Vec<(&'static str, u32, u32, &'static str)>);

fn number(text: &str) -> u32 {
    text.strip_prefix("0x").map_or_else(|| text.parse(), |digits| u32::from_str_radix(digits, 16)).unwrap_or(0)
}

impl Values {
    pub fn get(&self, name: &str) -> u32 {
        self.0.iter().find(|(known, ..)| *known == name).map_or(0, |(_, number, ..)| *number)
    }

    /// By a seed; without one the usual ones. By a seed all differ from the usual ones, and from each other. Two seeds
    /// are the same one if only case differs, and what stands between their words: spaces, `_`, `-` and `.`.
    pub fn drawn(exercise: &str, seed: &str) -> Values {
        let seed = &plain(seed);
        let mut found = Values(Vec::new());
        for line in lines_of(exercise, "? ") {
            let mut words = line.splitn(6, ' ');
            let (name, usual, first) =
                (words.next().unwrap_or(""), words.next().unwrap_or(""), words.next().unwrap_or(""));
            let (step, count) = (words.next().map_or(0, number), words.next().map_or(1, number));
            let mut random = Random::of(&[exercise, seed, name]);
            let value = if seed.is_empty() {
                number(usual)
            } else {
                found.one(number(usual), found.sum(first), step, count, &mut random)
            };
            found.0.push((name, value, number(usual), words.next().unwrap_or("")));
        }
        found
    }

    fn one(&self, usual: u32, first: u32, step: u32, count: u32, random: &mut Random) -> u32 {
        loop {
            let drawn = first + step * random.within(0, count - 1);
            if count == 1 || drawn != usual && self.0.iter().all(|(_, other, ..)| *other != drawn) {
                return drawn;
            }
        }
    }

    // A number, a value, or the sum of a value and a number.
    fn sum(&self, text: &str) -> u32 {
        if text.starts_with(|first: char| first.is_ascii_digit()) {
            return number(text);
        }
        let (name, more) = text.split_once('+').unwrap_or((text, "0"));
        self.get(name) + number(more)
    }

    /// A claim or a hint with the values in it.
    pub fn filled(&self, text: &str) -> String {
        let mut parts = text.split(['{', '}']);
        let mut told: String = parts.next().unwrap_or("").into();
        while let (Some(inner), Some(after)) = (parts.next(), parts.next()) {
            let (form, name) = inner.split_once(':').unwrap_or(("", inner));
            told += &written(self.sum(name), form == "x");
            told += after;
        }
        told
    }

    /// Each value: name, number, and how the text has it.
    pub fn told(&self) -> impl Iterator<Item = (&'static str, u32, String)> {
        self.0.iter().map(|(name, number, _, form)| (*name, *number, shown(form, *number)))
    }

    /// A text with the values in the place of the usual ones. Words may have the end of a line between them, and a
    /// remark's mark.
    pub fn retold(&self, text: &str) -> String {
        let pairs: Vec<(String, String)> =
            self.0.iter().map(|(_, new, usual, form)| (shown(form, *usual), shown(form, *new))).collect();
        let mut told = String::new();
        let mut at = 0;
        while let Some(letter) = text[at..].chars().next() {
            let after_word = told.ends_with(|last: char| last.is_alphanumeric() || last == '_' || last == '.');
            let hits = pairs
                .iter()
                .filter(|_| !after_word)
                .filter_map(|(usual, new)| Some((length(&text[at..], usual)?, new)));
            if let Some((length, new)) = hits.max_by_key(|(length, _)| *length) {
                told.push_str(new);
                at += length;
            } else {
                told.push(letter);
                at += letter.len_utf8();
            }
        }
        told
    }
}

fn plain(seed: &str) -> String {
    let is_gap = |letter: char| letter.is_whitespace() || "_-.".contains(letter);
    let words: Vec<&str> = seed.split(is_gap).filter(|word| !word.is_empty()).collect();
    if words.is_empty() { seed.trim().into() } else { words.join(" ").to_lowercase() }
}

fn written(number: u32, is_hexadecimal: bool) -> String {
    if is_hexadecimal { format!("{number:#x}") } else { number.to_string() }
}

fn shown(form: &str, number: u32) -> String {
    let (before, after) = form.split_once('{').unwrap_or((form, "}"));
    format!("{before}{}{}", written(number, after.starts_with('x')), after.split_once('}').map_or("", |(_, rest)| rest))
}

// How long these words are at the front of a text, where they end there.
fn length(text: &str, words: &str) -> Option<usize> {
    let mut rest = text;
    for (k, word) in words.split(' ').enumerate() {
        if k > 0 {
            rest = ["\n# ", "\n", " "].iter().find_map(|gap| rest.strip_prefix(gap))?;
        }
        rest = rest.strip_prefix(word)?;
    }
    let is_inside = rest.starts_with(|next: char| next.is_alphanumeric() || next == '_');
    (!is_inside).then_some(text.len() - rest.len())
}
