//! Whether a label comes where choices are fair: the ranks of states by the components of the choices that don't show
//! it, by Pearce's algorithm, or a loop (docs/MODEL.md, "Whether a label comes").

use crate::Stop;

/// In the place of a state: the choice shows the label.
pub const SHOWN: u32 = u32::MAX;

pub enum Coming {
    /// Within so many windows of each class.
    Within(Vec<u32>),
    /// After the way to a state these choices avoid it over and over.
    Avoided(u32, Vec<u16>),
}

/// Where the choices of states lead, `width` of each. The first `classes` have a class each, from 1 on, the others 0.
pub struct Cut<'a> {
    pub targets: &'a [u32],
    pub width: usize,
    pub classes: usize,
}

struct Walk<'a> {
    cut: &'a Cut<'a>,
    /// Of each state 0, then the lowest index to which choices lead, at last the number of its component.
    marks: Vec<u32>,
    stack: Vec<u32>,
    frames: Vec<(u32, usize, u32)>,
    index: u32,
    component: u32,
    /// Of each class the last component that has a choice of it inside.
    inside: Vec<u32>,
    orders: Vec<u32>,
    helpers: Vec<usize>,
    ranks: Vec<u32>,
    /// The first state of a component that has a choice of each class inside.
    avoids: u32,
}

fn zeros<T: Clone + Default>(count: usize) -> Result<Vec<T>, Stop> {
    let mut all = Vec::new();
    all.try_reserve_exact(count)?;
    all.resize(count, T::default());
    Ok(all)
}

impl Cut<'_> {
    fn class(&self, choice: usize) -> usize {
        if choice < self.classes { choice + 1 } else { 0 }
    }

    fn row(&self, state: u32) -> &[u32] {
        &self.targets[state as usize * self.width..][..self.width]
    }

    /// What is said of the label.
    pub fn coming(&self) -> Result<Coming, Stop> {
        let count = self.targets.len() / self.width;
        let columns = self.classes + 1;
        let mut walk = Walk {
            cut: self,
            marks: zeros(count)?,
            stack: vec![],
            frames: vec![],
            index: 1,
            component: count as u32,
            inside: zeros(columns)?,
            orders: zeros(count)?,
            helpers: zeros(count)?,
            ranks: zeros(count * columns)?,
            avoids: SHOWN,
        };
        for state in 0..count as u32 {
            walk.go(state);
        }
        if walk.avoids == SHOWN {
            let most = |column| walk.ranks.iter().skip(column).step_by(columns).copied().max().unwrap_or(0);
            return Ok(Coming::Within((0..columns).map(most).collect()));
        }
        Ok(Coming::Avoided(walk.avoids, self.round(&walk.marks, walk.avoids)))
    }

    /// A loop inside the component of a state, from there and back, that has each class.
    fn round(&self, marks: &[u32], start: u32) -> Vec<u16> {
        let (mut choices, mut at) = (Vec::new(), start);
        for class in 0..self.classes {
            if !choices.contains(&(class as u16)) {
                at = self.go_on(marks, at, class + 1, SHOWN, &mut choices);
            }
        }
        if at != start || choices.is_empty() {
            self.go_on(marks, at, 0, start, &mut choices);
        }
        choices
    }

    /// Goes on inside a component by the fewest choices of which the last is of a class, or leads to an end.
    fn go_on(&self, marks: &[u32], start: u32, class: usize, end: u32, choices: &mut Vec<u16>) -> u32 {
        let mut reached = vec![false; marks.len()];
        reached[start as usize] = true;
        let mut hops = vec![(start, 0, 0)];
        let mut at = 0;
        while at < hops.len() {
            let (here, _, _) = hops[at];
            for (choice, &to) in self.row(here).iter().enumerate() {
                if to == SHOWN || marks[to as usize] != marks[start as usize] {
                    continue;
                }
                if to == end || class > 0 && self.class(choice) == class {
                    let mut back = vec![choice as u16];
                    let mut from = at;
                    while from != 0 {
                        back.push(hops[from].2);
                        from = hops[from].1;
                    }
                    choices.extend(back.iter().rev());
                    return to;
                }
                if !reached[to as usize] {
                    reached[to as usize] = true;
                    hops.push((to, at, choice as u16));
                }
            }
            at += 1;
        }
        start
    }
}

impl Walk<'_> {
    fn go(&mut self, state: u32) {
        if self.marks[state as usize] != 0 {
            return;
        }
        self.enter(state);
        while let Some((state, choice, index)) = self.frames.pop() {
            if choice < self.cut.width {
                self.frames.push((state, choice + 1, index));
                match self.cut.row(state)[choice] {
                    SHOWN => {}
                    to if self.marks[to as usize] == 0 => self.enter(to),
                    to => self.lower(state, to),
                }
                continue;
            }
            if self.marks[state as usize] == index {
                self.close(state, index);
            } else {
                self.stack.push(state);
            }
            if let Some(&(parent, _, _)) = self.frames.last() {
                self.lower(parent, state);
            }
        }
    }

    fn enter(&mut self, state: u32) {
        self.marks[state as usize] = self.index;
        self.frames.push((state, 0, self.index));
        self.index += 1;
    }

    fn lower(&mut self, state: u32, other: u32) {
        self.marks[state as usize] = self.marks[state as usize].min(self.marks[other as usize]);
    }

    /// Closes the component of a state whose choices were all followed.
    fn close(&mut self, state: u32, index: u32) {
        let begin = self.stack.iter().rposition(|&at| self.marks[at as usize] < index).map_or(0, |at| at + 1);
        self.stack.push(state);
        let states = self.stack.split_off(begin);
        for &state in &states {
            self.marks[state as usize] = self.component;
        }
        self.index -= states.len() as u32;
        match self.settled(&states) {
            Some((order, class)) => self.give(&states, order, class),
            None => self.avoids = states.iter().copied().fold(self.avoids, u32::min),
        }
        self.component -= 1;
    }

    /// The order and the helpful class of a component, or nothing where it has a choice of each class inside.
    fn settled(&mut self, states: &[u32]) -> Option<(u32, usize)> {
        let (mut highest, mut common) = (0, 0);
        for &state in states {
            for (choice, &to) in self.cut.row(state).iter().enumerate().filter(|edge| *edge.1 != SHOWN) {
                let class = self.cut.class(choice);
                if self.marks[to as usize] == self.component {
                    self.inside[class] = self.component;
                    continue;
                }
                let order = self.orders[to as usize] + 1;
                let helper = self.helpers[to as usize];
                if order > highest {
                    common = helper;
                }
                if order >= highest && (helper != common || helper == class) {
                    common = 0;
                }
                highest = highest.max(order);
            }
        }
        if common > 0 && self.inside[common] != self.component {
            return Some((highest - 1, common));
        }
        (1..=self.cut.classes).find(|&class| self.inside[class] != self.component).map(|class| (highest, class))
    }

    /// Gives the states of a component their ranks: no lower than where choices lead, and one more of the helpful class
    /// than where the order is lower.
    fn give(&mut self, states: &[u32], order: u32, class: usize) {
        let columns = self.cut.classes + 1;
        let mut ranks = vec![0; columns];
        ranks[class] = 1;
        for &state in states {
            for &to in self.cut.row(state) {
                if to == SHOWN || self.marks[to as usize] == self.component {
                    continue;
                }
                let lower = self.orders[to as usize] < order;
                for (column, rank) in ranks.iter_mut().enumerate() {
                    let more = u32::from(lower && column == class);
                    *rank = (*rank).max(self.ranks[to as usize * columns + column] + more);
                }
            }
        }
        for &state in states {
            self.orders[state as usize] = order;
            self.helpers[state as usize] = class;
            self.ranks[state as usize * columns..][..columns].copy_from_slice(&ranks);
        }
    }
}
