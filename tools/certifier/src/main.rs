//! Searches of what can happen to an image: by workers, cut into parts for a certificate, and one that speaks before
//! its end.
//!
//! Nobody has to trust them: `part` of the program checks each part by itself, and `merge` finds what is missing; and
//! what the other one says is compared with `every` and `against`, or made again.

mod cutting;
mod explorer;
mod hashes;
mod input;
mod rules;
mod searching;
mod speaking;
mod values;

use std::io::Write;
use std::process::ExitCode;

/// What ends the program: a status, and a line for the standard error or output.
pub struct Stop {
    pub status: u8,
    pub line: String,
}

impl Stop {
    pub fn new(status: u8, line: impl Into<String>) -> Stop {
        Stop {
            status,
            line: line.into(),
        }
    }
}

const USAGE: &str = "usage: pip_certifier cut FROM SIZE STATES WORKERS FOLDER < IMAGE
       pip_certifier search IMAGE MENU FROM STATES DEPTH STEPS SEED [WHAT ..] < IMAGE_AND_MENU";

pub fn number(word: &str) -> Result<u32, Stop> {
    word.parse().map_err(|_| Stop::new(1, USAGE))
}

fn run(words: &[String]) -> Result<(), Stop> {
    let words: Vec<&str> = words.iter().map(String::as_str).collect();
    match words.as_slice() {
        ["cut", from, size, states, workers, folder] => {
            cutting::cut(number(from)?, number(size)?, number(states)?, number(workers)?, folder)
        }
        ["search", image, menu, words @ ..] => speaking::speak(image, menu, words),
        _ => Err(Stop::new(1, USAGE)),
    }
}

fn main() -> ExitCode {
    let words: Vec<String> = std::env::args().skip(1).collect();
    match run(&words) {
        Ok(()) => ExitCode::SUCCESS,
        Err(stop) => {
            _ = writeln!(std::io::stdout(), "{}", stop.line);
            ExitCode::from(stop.status)
        }
    }
}
