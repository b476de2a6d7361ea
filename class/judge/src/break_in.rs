//! The exercise 'break-in': the student's lines are a child's, and its sibling has a word that is drawn each time.

use crate::random::Random;
use crate::script::{Refused, Script, lines_of, take};
use crate::values::Values;
use crate::verdict::Verdict;
use crate::world::{Act, Call, Event, Id, Moved, PAGE, ROOT};
use alloc::format;
use alloc::string::{String, ToString};
use alloc::vec::Vec;
use core::ops::Range;
use pip_base::{Outcome, Status};
use pip_script::outcome_text;

const CHILD: u32 = 0x40_1000;
const FIRST_PAGE: u32 = 0xffc0_0000;
const PAGES: u32 = 16;
const LAST_PAGE: u32 = 0xffff_f000;
/// Of the sibling's word, in its page.
const WORD_AT: u32 = 0x20;
/// The root's pages are below this, but for its last.
const MOST_ROOT: u32 = 0x48_0000;
const LEAST_ATTEMPTS: usize = 12;
/// The vectors of the interrupt lines.
const LINES: Range<u32> = 32..48;
const MAY: [&str; 9] = ["ld", "lb", "st", "sb", "fetch", "trap", "call", "pc", "reg"];

fn made(first: u32, page: u32) -> String {
    let pages: Vec<String> = (0..8).map(|k| format!("{:#x}", first + PAGE * k)).collect();
    let (five, a, b, c) = (pages[..5].join(" "), &pages[5], &pages[6], &pages[7]);
    format!("call 0 0 {five}\nst 0 {a} {b}\nst 0 {b} {c}\ncall 0 3 {first:#x} {page:#x} {a}\n")
}

// The machine: the child with its pages, the sibling with its word, and the root's handlers.
fn setup(v: &Values, secret: u32) -> String {
    let (table, kept, sibling, page) = (CHILD + 8 * PAGE, v.get("sibling") + 8 * PAGE, v.get("sibling"), v.get("page"));
    let mut text = format!("boot 128 1\n{}", made(CHILD, LAST_PAGE));
    text += &format!(
        "st 0 {:#x} 0xfffff400\nst 0 {:#x} {FIRST_PAGE:#x}\nst 0 {:#x} 0xfffff444\n",
        table + 0x100,
        table + 0x400,
        table + 0xfc
    );
    text += &format!("call 0 5 {table:#x} {CHILD:#x} {LAST_PAGE:#x} 3\n");
    for k in 0..PAGES {
        text += &format!("call 0 5 {:#x} {CHILD:#x} {:#x} 7\n", table + PAGE * (1 + k), FIRST_PAGE + PAGE * k);
    }
    text += &format!(
        "{}st 0 {:#x} {secret:#x}\ncall 0 5 {kept:#x} {sibling:#x} {page:#x} 3\n",
        made(sibling, page),
        kept + WORD_AT
    );
    for vector in [0, 6, 14, 17, 64].into_iter().chain(LINES) {
        text += &format!("st 0 {:#x} 0xfffff400\n", LAST_PAGE + 4 * vector);
    }
    text + &format!("st 0 0xfffff400 0x400100\ncall 0 8 {CHILD:#x} 64 256\n")
}

/// What was run: all lines with what the root does, the machine after them, and why the student's lines ended early.
#[derive(Default)]
struct Attack {
    lines: String,
    script: Option<Script>,
    stopped: Option<String>,
    /// The first event that is the student's.
    own: usize,
}

fn attack(v: &Values, text: &[u8], secret: u32) -> Result<Attack, Refused> {
    for (number, line) in lines_of(text) {
        let name = String::from_utf8_lossy(line.split(|byte| *byte == b' ').next().unwrap_or(&[])).to_string();
        if !MAY.contains(&name.as_str()) {
            return Err(Refused::Cant(format!(
                "line {number}: the child can't say '{name}': its lines begin with {}",
                MAY.join(", ")
            )));
        }
    }
    let mut attack = Attack::default();
    for line in setup(v, secret).lines() {
        attack.line(0, line.as_bytes())?;
    }
    attack.own = attack.events().len();
    for (number, line) in lines_of(text) {
        if attack.stopped.is_none() {
            attack.take(number, line)?;
        }
    }
    Ok(attack)
}

impl Attack {
    fn line(&mut self, number: u32, line: &[u8]) -> Result<(), Refused> {
        self.lines += &format!("{}\n", String::from_utf8_lossy(line));
        take(&mut self.script, number, line)
    }

    fn runs(&self) -> Option<Id> {
        self.script.as_ref().and_then(|script| script.world.runs(0))
    }

    fn events(&self) -> &[Event] {
        self.script.as_ref().map_or(&[], |script| &script.world.events)
    }

    // A line of the child. Where the root is entered by it, it lets the child go on.
    fn take(&mut self, number: u32, line: &[u8]) -> Result<(), Refused> {
        self.line(number, line)?;
        let mut why = self.told();
        if self.runs() == Some(ROOT) {
            let call = format!("call 0 8 {CHILD:#x} 63 256");
            self.line(0, call.as_bytes())?;
            why = format!("the root couldn't let the child go on: {call} -> {}", self.told());
        }
        if self.runs().is_none_or(|id| id == ROOT) {
            self.stopped = Some(format!("line {number}: {why}"));
        }
        Ok(())
    }

    fn told(&self) -> String {
        self.events().last().map_or(String::new(), |event| outcome_text(&event.outcome).as_str().into())
    }

    fn mine(&self) -> impl Iterator<Item = &Event> {
        self.events()[self.own..].iter().filter(|event| event.place > 0)
    }
}

/// The whole script that is run for a student's lines.
pub fn whole(v: &Values, text: &[u8], secret: u64) -> Result<String, Refused> {
    attack(v, text, word_of(secret)).map(|attack| attack.lines)
}

fn word_of(secret: u64) -> u32 {
    Random::new(secret).within(1 << 28, u32::MAX)
}

/// What an address is to the child.
#[derive(Clone, Copy, PartialEq, Eq, PartialOrd, Ord)]
enum Aim {
    SiblingsPage,
    SiblingsNumber,
    RootsNumber,
    Own,
    Given,
    Elsewhere,
}

fn aim(v: &Values, event: &Event, address: u32) -> Aim {
    let page = address - address % PAGE;
    let (sibling, is_hidden) = (v.get("sibling"), moved_for_hidden(event));
    match page {
        _ if page == v.get("page") => Aim::SiblingsPage,
        _ if page == sibling => Aim::SiblingsNumber,
        0x40_0000..MOST_ROOT => Aim::RootsNumber,
        FIRST_PAGE..=LAST_PAGE if is_hidden => Aim::Given,
        FIRST_PAGE..=LAST_PAGE => Aim::Own,
        _ => Aim::Elsewhere,
    }
}

// The kind of a fault: 0 alignment, 1 unmapped, 2 hidden, 3 a right.
fn kind(moved: &Moved) -> u32 {
    moved.entered.regs[2] % 16
}

fn moved_for_hidden(event: &Event) -> bool {
    event.moved.as_ref().is_some_and(|moved| kind(moved) == 2)
}

/// What the child did in an attempt.
#[derive(Clone, Copy, PartialEq, Eq)]
enum Deed {
    Load,
    Store,
    Fetch,
    Trap,
    Call(u32),
}

/// What an attempt means: a deed, what it aims at, and how it was refused, by the kind of fault or the status; of a
/// trap what it forges, a fault, a line or nothing. None of a line that isn't refused for what the child has or hasn't:
/// an address that isn't aligned, is 0 or comes twice, a number that isn't a call's, a vector.
fn meaning(v: &Values, event: &Event) -> Option<(Deed, Aim, u32)> {
    let (deed, va) = match event.act {
        Act::Load { va, .. } => (Deed::Load, va),
        Act::Store { va, .. } => (Deed::Store, va),
        Act::Fetch => (Deed::Fetch, event.before?.pc),
        Act::Trap { vector } => return Some((Deed::Trap, Aim::Own, forges(vector))),
        Act::Call { no, args } => {
            let status = event.status()?.number();
            let is_meant = status > 4 && status != Status::BadVector.number();
            return is_meant.then(|| (Deed::Call(no), aims(v, event, &args), status));
        }
        _ => return None,
    };
    let kind = event.moved.as_ref().map(|moved| if moved.to == Some(ROOT) { kind(moved) } else { 1 })?;
    (kind != 0).then_some((deed, aim(v, event, va), kind))
}

fn forges(vector: u32) -> u32 {
    match vector {
        0 | 6 | 14 | 17 => 1,
        _ if LINES.contains(&vector) => 2,
        _ => 0,
    }
}

// The first that isn't the child's own among the addresses that a call names.
fn aims(v: &Values, event: &Event, args: &[u32; 5]) -> Aim {
    let named: &[u32] = match event.call() {
        Some(Call::Create { .. }) => args,
        Some(Call::Lend { .. }) => &args[..2],
        _ => &args[..1],
    };
    named.iter().map(|address| aim(v, event, *address)).min().unwrap_or(Aim::Own)
}

pub fn break_in(v: &Values, text: &[u8], secret: u64, verdict: &mut Verdict) -> Result<(), Refused> {
    let word = word_of(secret);
    let attack = attack(v, text, word)?;
    let at = v.get("at");
    let mut attempts = Vec::new();
    for attempt in attack.mine().filter_map(|event| meaning(v, event)) {
        if !attempts.contains(&attempt) {
            attempts.push(attempt);
        }
    }
    let meant = |test: &dyn Fn(Deed, Aim) -> bool| attempts.iter().any(|(deed, aim, _)| test(*deed, *aim));
    let reads = |of: Aim| meant(&|deed, aim| matches!(deed, Deed::Load | Deed::Store) && aim == of);
    let calls = |of: Aim| meant(&|deed, aim| matches!(deed, Deed::Call(_)) && aim == of);
    let made = attack.mine().any(|event| event.is_ok() && matches!(event.call(), Some(Call::Create { .. })));
    verdict.story(&[
        attempts.len() >= LEAST_ATTEMPTS,
        reads(Aim::SiblingsPage),
        meant(&|deed, aim| deed == Deed::Fetch && !matches!(aim, Aim::Own | Aim::Given)),
        calls(Aim::SiblingsNumber) && calls(Aim::RootsNumber),
        made,
        reads(Aim::Given),
    ]);
    remark(&attack, verdict, at, word, attempts.len());
    if let Some(script) = attack.script.as_ref().filter(|_| !verdict.is_whole()) {
        verdict.trouble = crate::script::trouble(&script.world, text);
    }
    Ok(())
}

fn remark(attack: &Attack, verdict: &mut Verdict, at: u32, word: u32, meanings: usize) {
    if let Some(stopped) = &attack.stopped {
        verdict.remarks.push(stopped.clone());
        verdict.remarks.push("the child doesn't run any more, and no line after that one was run".into());
    }
    let is_it = |event: &&Event| {
        event.who.is_some_and(|id| id != ROOT)
            && matches!(event.outcome, Outcome::Word(shown) | Outcome::Reply { value: shown, .. } if shown == word)
    };
    if let Some(event) = attack.mine().find(is_it) {
        verdict.remarks.push(format!("THE CHILD READ {word:#010x} by line {}.", event.place));
        verdict.remarks.push(
            "The child ran there. That would be an error of the program or of its proof: tell its authors.".into(),
        );
        return;
    }
    let faults = attack.mine().filter(|event| event.moved.is_some() && event.call().is_none()).count();
    let refused = attack.mine().filter(|event| event.status().is_some_and(|status| status != Status::Ok)).count();
    verdict
        .remarks
        .push(format!("the sibling's word at its {at:#x} was {word:#010x} this time, and the child never read it:"));
    verdict.remarks.push(format!(
        "{} lines, {faults} faults and traps, {refused} refused calls, {meanings} attempts of different meaning",
        attack.mine().count()
    ));
}
