//! The judge of the exercises: what a student's script or program reaches, over the exported library. The same text as
//! the proved program, not the same proof. It is once: in the module of the page, and in the program that
//! class/exercise and class/grade call.
//!
//! A request is lines: what is asked for, the exercise, the student's seed, the secret, and then the text. An answer is
//! lines, too, each with a word in front: see `answer`.
#![no_std]

extern crate alloc;

mod break_in;
mod control;
mod memory;
mod program;
mod programs;
mod random;
mod script;
mod tree;
mod values;
mod verdict;
mod world;

use alloc::format;
use alloc::string::String;
use program::Image;
use script::{Refused, Script};
use values::{Values, lines_of};
use verdict::Verdict;

/// Lines of trouble that are told.
const MOST_TROUBLE: usize = 6;

enum Task {
    Script(fn(&Values, &Script, &mut Verdict)),
    Attack,
    Program(fn(&Values, &Image, u64, &mut Verdict) -> Result<(), Refused>),
}

static EXERCISES: [(&str, Task); 20] = [
    ("store", Task::Script(memory::store)),
    ("child", Task::Script(memory::make_child)),
    ("map", Task::Script(memory::map)),
    ("rights", Task::Script(memory::rights)),
    ("take-back", Task::Script(memory::take_back)),
    ("two-children", Task::Script(memory::two_children)),
    ("enter", Task::Script(control::enter)),
    ("call-home", Task::Script(control::call_home)),
    ("fault", Task::Script(control::fault)),
    ("interrupt", Task::Script(control::interrupt)),
    ("forged", Task::Script(control::forged)),
    ("two-processors", Task::Script(control::two_processors)),
    ("grandchild", Task::Script(tree::grandchild)),
    ("end", Task::Script(tree::end)),
    ("break-in", Task::Attack),
    ("sum", Task::Program(programs::sum)),
    ("child-program", Task::Program(programs::child_program)),
    ("monitor", Task::Program(programs::monitor)),
    ("tell-apart", Task::Program(programs::tell_apart)),
    ("no-loss", Task::Program(programs::no_loss)),
];

impl Task {
    fn judge(&self, values: &Values, text: &[u8], secret: u64) -> Result<Verdict, Refused> {
        let mut verdict = Verdict::default();
        match self {
            Task::Script(judge) => {
                let script = script::run(text)?;
                judge(values, &script, &mut verdict);
                if !verdict.is_whole() {
                    verdict.trouble = script::trouble(&script.world, text);
                }
            }
            Task::Attack => break_in::break_in(values, text, secret, &mut verdict)?,
            Task::Program(judge) => judge(values, &Image::assembled(text)?, secret, &mut verdict)?,
        }
        Ok(verdict)
    }

    fn kind(&self) -> &'static str {
        if matches!(self, Task::Program(_)) { "program" } else { "script" }
    }
}

/// Answers a request. Its first four lines are:
///
/// - `list` (`exercise NAME script|program GOALS` for each), `values` (`value NAME NUMBER TEXT` for each), `tell` (the
///   text with the values in the place of the usual ones), `script` (all lines that break-in runs) or `judge`;
/// - the exercise;
/// - the student's seed, or nothing for the usual values;
/// - the secret, a number in hexadecimal digits, on which depends what a verdict draws.
///
/// The text follows. A verdict is the lines `yes CLAIM` and `no CLAIM` with `hint HINT` after it, `say REMARK`, and
/// `trouble ..`, parted by tabs: of a script number, line and answer; of a program step, processor, partition, the
/// root's address of the instruction, and the line of the trace; after six of these `more COUNT`. Where a text is
/// refused it is `refused LINE KIND` or `cant WHY`.
pub fn answer(request: &[u8]) -> String {
    let mut parts = request.splitn(5, |byte| *byte == b'\n');
    let mut word = || core::str::from_utf8(parts.next().unwrap_or(&[])).unwrap_or("");
    let (act, name, seed, secret) = (word(), word(), word(), word());
    let text = parts.next().unwrap_or(&[]);
    if act == "list" {
        let line =
            |(name, task): &(&str, Task)| format!("exercise {name} {} {}\n", task.kind(), lines_of(name, "- ").count());
        return EXERCISES.iter().map(line).collect();
    }
    let Some((_, task)) = EXERCISES.iter().find(|(known, _)| *known == name) else {
        return format!("cant there is no exercise {name}\n");
    };
    let values = Values::drawn(name, seed);
    let secret = u64::from_str_radix(secret, 16).unwrap_or(0);
    match act {
        "values" => values.told().map(|(name, number, text)| format!("value {name} {number} {text}\n")).collect(),
        "tell" => values.retold(&String::from_utf8_lossy(text)),
        "script" => break_in::whole(&values, text, secret).unwrap_or_else(refusal),
        _ => task.judge(&values, text, secret).map_or_else(refusal, |verdict| told(name, &values, &verdict)),
    }
}

fn refusal(refused: Refused) -> String {
    match refused {
        Refused::Line(number, kind) => format!("refused {number} {kind}\n"),
        Refused::Cant(why) => format!("cant {why}\n"),
    }
}

fn told(name: &str, values: &Values, verdict: &Verdict) -> String {
    let mut text = String::new();
    for (k, (claim, hint)) in lines_of(name, "- ").zip(lines_of(name, "  ")).enumerate() {
        if verdict.holds.get(k) == Some(&true) {
            text += &format!("yes {}\n", values.filled(claim));
        } else {
            text += &format!("no {}\nhint {}\n", values.filled(claim), values.filled(hint));
        }
    }
    for remark in &verdict.remarks {
        text += &format!("say {remark}\n");
    }
    for trouble in verdict.trouble.iter().take(MOST_TROUBLE) {
        text += &format!("trouble {trouble}\n");
    }
    if verdict.trouble.len() > MOST_TROUBLE {
        text += &format!("more {}\n", verdict.trouble.len() - MOST_TROUBLE);
    }
    text
}
