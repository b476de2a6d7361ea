//! A search that speaks before its end: each line as it is found, with its way, and how far it is.
//!
//! It goes on from states in the order in which they were found, by the choices in their order, as the program's
//! `every` and `against` do. So its lines and ways are theirs.

use crate::Stop;
use crate::explorer::{Explorer, Scope, Start, base_of, begun};
use crate::hashes::{Hashes, hash};
use crate::input::menu_of;
use crate::rules::{Rule, rule_of};
use crate::values::Seen;
use pip_every::read_processors;
use rattle_std::{alloc::Global, vec::Vec as Words};
use std::collections::HashSet;
use std::io::{Read, Write, stdin};
use std::sync::Arc;
use std::sync::atomic::{AtomicBool, Ordering};
use std::time::{Duration, Instant};

/// How often it is said how far the search is, and from how many states it goes on between two looks at that.
const EVERY: Duration = Duration::from_millis(500);
const LOOK: usize = 256;

/// What is asked of a search.
pub struct Asked {
    pub from: u32,
    pub states: usize,
    /// At most that many choices; 0 is any number.
    pub deepest: u32,
    pub start: Start,
    /// Words of a line at which the search ends.
    pub until: Option<String>,
    pub rules: Vec<Rule>,
}

impl Asked {
    /// `FROM STATES DEPTH STEPS SEED`, and then `until WORDS`, `never RULE` and `always RULE`, one argument each.
    pub fn of(words: &[&str]) -> Result<Asked, Stop> {
        let (numbers, more) = words.split_at_checked(5).ok_or(Stop::new(1, "five numbers are needed"))?;
        let numbers: Result<Vec<u32>, Stop> = numbers.iter().map(|word| crate::number(word)).collect();
        let &[from, states, deepest, steps, seed] = numbers?.as_slice() else { unreachable!() };
        let until = more.iter().find_map(|word| word.strip_prefix("until ")).map(str::to_string);
        let rules = more.iter().filter(|word| !word.starts_with("until ")).map(|word| rule_of(word));
        let (states, start) = (states as usize, Start { steps, seed });
        Ok(Asked { from, states, deepest, start, until, rules: rules.collect::<Result<_, _>>()? })
    }
}

/// How a search ends.
enum End {
    Closed,
    Within,
    /// There are more states than there is room for.
    Stopped,
    /// The input has ended.
    Ended,
    /// What was looked for was found.
    Found,
}

impl End {
    fn name(&self) -> &'static str {
        match self {
            End::Closed => "closed",
            End::Within => "within",
            End::Stopped => "stopped",
            End::Ended => "ended",
            End::Found => "found",
        }
    }
}

struct Search<'a> {
    asked: &'a Asked,
    explorer: Explorer,
    seen: Hashes,
    // Of each state the one from which it was found, and by which choice; and how many were gone on from.
    parents: Vec<u32>,
    choices: Vec<u16>,
    done: usize,
    // The keys of the next layer, each after its length.
    next: Vec<u32>,
    lines: HashSet<Vec<u8>>,
    values: Seen,
    depth: u32,
    // The most states that a layer had, and its depth.
    widest: (usize, u32),
    said: (Instant, usize),
    stop: Arc<AtomicBool>,
}

impl Search<'_> {
    // Takes the state of a key that was reached, if it is new, and answers whether there was room for it.
    fn take(&mut self, key: &[u32], parent: usize, choice: u32) -> Result<Option<End>, Stop> {
        if !self.seen.insert(hash(key)) {
            return Ok(None);
        }
        if self.parents.len() == self.asked.states {
            return Ok(Some(End::Stopped));
        }
        self.next.push(key.len() as u32);
        self.next.extend_from_slice(key);
        self.parents.push(parent as u32);
        self.choices.push(choice as u16);
        let (runs, words) = read_processors(&key[1..], self.explorer.cpus());
        self.values.add(words, runs.as_slice());
        let asked = self.asked;
        let mut rules = asked.rules.iter().enumerate();
        match rules.find_map(|(at, rule)| Some((at + 1, rule.broken(&mut self.explorer)?))) {
            Some((rule, shown)) => self.say_broken(rule, &shown).map(Some),
            None => Ok(None),
        }
    }

    // Says that the state that was found last breaks a rule, and by what.
    fn say_broken(&self, rule: usize, shown: &str) -> Result<End, Stop> {
        let state = self.parents.len() - 1;
        say(&format!("broken {shown}"))?;
        say(&format!("line {} - rule {rule}: {}", self.way_to(state).len(), self.way(state, None)))?;
        Ok(End::Found)
    }

    // The choices that lead to a state.
    fn way_to(&self, state: usize) -> Vec<u32> {
        let (mut way, mut at) = (Vec::new(), state);
        while at != 0 {
            way.push(u32::from(self.choices[at]));
            at = self.parents[at] as usize;
        }
        way.reverse();
        way
    }

    // The text of the way to a state, and of a choice after it.
    fn way(&self, state: usize, last: Option<u32>) -> String {
        let mut runs: Vec<(u32, usize)> = Vec::new();
        for choice in self.way_to(state).into_iter().chain(last) {
            match runs.last_mut() {
                Some(run) if run.0 == choice => run.1 += 1,
                _ => runs.push((choice, 1)),
            }
        }
        let texts = runs.into_iter().map(|(choice, count)| match count {
            1 => self.explorer.choice_text(choice),
            _ => format!("{}x{count}", self.explorer.choice_text(choice)),
        });
        texts.collect::<Vec<_>>().join(" ")
    }

    // Says what a choice at a state showed, if it is new, and answers whether the search ends with it.
    fn show(&mut self, state: usize, choice: u32) -> Result<bool, Stop> {
        let shown = self.explorer.shown();
        if shown.is_empty() || self.lines.contains(shown) {
            return Ok(false);
        }
        let text = String::from_utf8_lossy(shown).to_string();
        self.lines.insert(shown.to_vec());
        say(&format!("line {} {text}: {}", self.depth, self.way(state, Some(choice))))?;
        Ok(self.asked.until.as_ref().is_some_and(|until| format!(" {text} ").contains(&format!(" {until} "))))
    }

    // Searches, layer by layer.
    fn run(&mut self, first: &[u32]) -> Result<End, Stop> {
        if let Some(end) = self.take(first, 0, 0)? {
            return Ok(end);
        }
        loop {
            let layer = std::mem::take(&mut self.next);
            self.widest = self.widest.max((self.open(), self.depth));
            if self.depth > 0 && self.depth == self.asked.deepest {
                return Ok(End::Within);
            }
            let mut rest = layer.as_slice();
            while let [count, words @ ..] = rest {
                let (key, more) = words.split_at(*count as usize);
                if let Some(end) = self.go_on(key)? {
                    return Ok(end);
                }
                rest = more;
            }
            if self.open() == 0 {
                return Ok(End::Closed);
            }
            self.depth += 1;
        }
    }

    // Makes all choices at the next state, which has this key.
    fn go_on(&mut self, key: &[u32]) -> Result<Option<End>, Stop> {
        if self.done % LOOK == 0 {
            self.report()?;
            if self.stop.load(Ordering::Relaxed) {
                return Ok(Some(End::Ended));
            }
        }
        let (state, mut to) = (self.done, Words::new(Global));
        for choice in 0..self.explorer.choices() {
            if !self.explorer.next(key, choice, &mut to)? {
                continue;
            }
            if to.as_slice() != key && let Some(end) = self.take(&to, state, choice)? {
                return Ok(Some(end));
            }
            if self.show(state, choice)? {
                return Ok(Some(End::Found));
            }
        }
        self.done += 1;
        Ok(None)
    }

    // How many states were found and not yet gone on from.
    fn open(&self) -> usize {
        self.parents.len() - self.done
    }

    // Says at times how far it is: states, depth, open states, and states a second.
    fn report(&mut self) -> Result<(), Stop> {
        let passed = self.said.0.elapsed();
        if passed < EVERY {
            return Ok(());
        }
        let rate = (self.parents.len() - self.said.1) as f64 / passed.as_secs_f64();
        self.said = (Instant::now(), self.parents.len());
        say(&format!("at {} {} {} {rate:.0}", self.parents.len(), self.depth, self.open()))
    }

    // Says what has most values, and how the search ended.
    fn told(&self, end: &End) -> Result<(), Stop> {
        for (count, place) in self.values.most() {
            say(&format!("values {count} {place}"))?;
        }
        let (wide, at) = self.widest;
        say(&format!("end {} {} {} {} {wide} {at}", end.name(), self.parents.len(), self.depth, self.open()))
    }
}

fn say(text: &str) -> Result<(), Stop> {
    let mut out = std::io::stdout().lock();
    writeln!(out, "{text}").and_then(|()| out.flush()).map_err(|_| Stop::new(4, "the output can't be written"))
}

// So many bytes of the input.
fn bytes(word: &str) -> Result<Vec<u8>, Stop> {
    let mut data = vec![0; crate::number(word)? as usize];
    match stdin().lock().read_exact(&mut data) {
        Ok(()) => Ok(data),
        Err(_) => Err(Stop::new(3, "the input can't be read")),
    }
}

/// Searches the image of the input, of that many bytes, with the menu after it, of so many, until the input ends.
pub fn speak(image: &str, menu: &str, words: &[&str]) -> Result<(), Stop> {
    let (asked, data, menu) = (Asked::of(words)?, bytes(image)?, menu_of(&bytes(menu)?)?);
    let stop = Arc::new(AtomicBool::new(false));
    let flag = stop.clone();
    std::thread::spawn(move || {
        _ = stdin().lock().read_to_end(&mut Vec::new());
        flag.store(true, Ordering::Relaxed);
    });
    let base = base_of(&data, asked.start)?;
    let scope = Scope { data: &data, from: asked.from, base: &base, may: &menu };
    let mut search = Search {
        asked: &asked,
        explorer: Explorer::new(&scope)?,
        seen: Hashes::new(),
        parents: Vec::new(),
        choices: Vec::new(),
        done: 0,
        next: Vec::new(),
        lines: HashSet::new(),
        values: Seen::default(),
        depth: 0,
        widest: (0, 0),
        said: (Instant::now(), 0),
        stop,
    };
    let mut first = Words::new(Global);
    search.explorer.begin(&scope, &begun(&data, asked.start)?, &mut first)?;
    let end = search.run(&first)?;
    search.told(&end)
}
