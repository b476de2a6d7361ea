//! A search that is cut into parts. Nobody has to trust it: a part that it gets wrong is refused, or asks for what no
//! part has.

use crate::Stop;
use crate::explorer::{Scope, Start, base_of};
use crate::input::{Part, load, text_of, whole_input};
use crate::searching::{Found, Task, search};

impl Found {
    // The states with which parts begin: the first, and each whose own part would have that many states.
    fn cuts(&self, size: u32) -> Vec<bool> {
        let count = self.parents.len();
        let mut sizes = vec![1u32; count];
        let mut cuts = vec![false; count];
        for i in (1..count).rev() {
            cuts[i] = sizes[i] >= size;
            if !cuts[i] {
                sizes[self.parents[i] as usize] += sizes[i];
            }
        }
        cuts[0] = true;
        cuts
    }

    // The choices that lead to a state.
    fn way(&self, state: u32) -> Vec<u32> {
        let mut way = Vec::new();
        let mut at = state as usize;
        while at != 0 {
            way.push(u32::from(self.choices[at]));
            at = self.parents[at] as usize;
        }
        way.reverse();
        way
    }

    // Where the states that were found from each state begin in the order of all: they are one after another.
    fn firsts(&self) -> Vec<u32> {
        let mut firsts = vec![self.parents.len() as u32; self.parents.len() + 1];
        for i in (1..self.parents.len()).rev() {
            firsts[self.parents[i] as usize] = i as u32;
        }
        firsts
    }

    // The marks of a part, by the order in which its check makes choices.
    fn marks(&self, firsts: &[u32], cuts: &[bool], first: u32, choices: u32) -> Vec<u8> {
        let mut own = vec![first];
        let mut marks = Vec::new();
        let mut place = 0;
        while place < own.len() {
            let state = own[place];
            let mut next = firsts[state as usize] as usize;
            for choice in 0..choices {
                let leads = next < self.parents.len()
                    && self.parents[next] == state
                    && u32::from(self.choices[next]) == choice;
                let keeps = leads && !cuts[next];
                marks.push(u8::from(keeps));
                if keeps {
                    own.push(next as u32);
                }
                next += usize::from(leads);
            }
            place += 1;
        }
        marks
    }
}

/// Searches the image of the input with that many workers and room for that many states, and writes parts of about
/// `size` states into a folder.
pub fn cut(from: u32, size: u32, states: u32, workers: u32, folder: &str) -> Result<(), Stop> {
    let data = whole_input()?;
    let base = base_of(&data, Start { steps: 0, seed: 1 })?;
    let head = load(&data)?.head;
    let scope = Scope {
        data: &data,
        from,
        base: &base,
        may: &[],
    };
    let task = Task {
        scope,
        states: u64::from(states),
    };
    let found = search(&task, workers as usize)?;
    let choices = head.cpus + head.plans.len() as u32;
    let (firsts, cuts) = (found.firsts(), found.cuts(size));
    let mut count = 0;
    for i in (0..cuts.len()).filter(|i| cuts[*i]) {
        let part = Part {
            base: base.clone(),
            way: found.way(i as u32),
            marks: found.marks(&firsts, &cuts, i as u32, choices),
        };
        let path = format!("{folder}/{count:08}.part");
        std::fs::write(path, text_of(&part)).map_err(|_| Stop::new(4, "a part can't be written"))?;
        count += 1;
    }
    println!("states {} depth {} parts {count}", cuts.len(), found.depth);
    Ok(())
}
