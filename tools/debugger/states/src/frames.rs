//! Frames that states share: a copy of all of them is a pointer each, and a write copies its frame once if another state
//! has it, too.

use pip_base::{Frame, Steps};
use pip_frames::Frames;
use pip_switch::Rewind;
use rattle_std::sync::ledger::Ledger;
use std::iter::repeat_n;
use std::rc::Rc;

pub type Words = [u32; 1024];

/// All frames of one state.
pub type Kept = Vec<Rc<Words>>;

pub struct Shared {
    now: Kept,
    // The words to which `rewind` goes back: those of the booted machine with its image.
    first: Rc<Kept>,
}

impl Shared {
    /// Frames of zeros.
    pub fn zeros(count: u32) -> Shared {
        let now: Kept = repeat_n(Rc::new([0; 1024]), count as usize).collect();
        Shared { first: Rc::new(now.clone()), now }
    }

    /// These frames, to which `rewind` goes back.
    pub fn begun(first: Rc<Kept>) -> Shared {
        Shared { now: first.as_ref().clone(), first }
    }

    pub fn kept(&self) -> Kept {
        self.now.clone()
    }

    /// A word, if there is such a frame and such an index.
    pub fn word_at(&self, frame: u32, index: u32) -> Option<u32> {
        self.now.get(frame as usize)?.get(index as usize).copied()
    }
}

impl Frames for Shared {
    fn count(&self) -> u32 {
        self.now.len() as u32
    }

    #[inline(always)]
    fn word<L: Ledger>(&self, f: Frame, i: u32, _: &mut Steps<L>) -> u32 {
        self.now[f.number() as usize][i as usize]
    }

    #[inline(always)]
    fn set_word(&mut self, f: Frame, i: u32, w: u32) {
        Rc::make_mut(&mut self.now[f.number() as usize])[i as usize] = w;
    }

    fn zero(&mut self, f: Frame) {
        self.now[f.number() as usize] = Rc::new([0; 1024]);
    }

    fn frame<L: Ledger>(&self, f: Frame, _: &mut Steps<L>) -> &Words {
        &self.now[f.number() as usize]
    }

    fn frame_mut<L: Ledger>(&mut self, f: Frame, _: &mut Steps<L>) -> &mut Words {
        Rc::make_mut(&mut self.now[f.number() as usize])
    }

    fn pair<L: Ledger>(&mut self, read: Frame, write: Frame, _: &mut Steps<L>) -> (&Words, &mut Words) {
        let (read, write) = (read.number() as usize, write.number() as usize);
        if read < write {
            let (low, high) = self.now.split_at_mut(write);
            (&low[read], Rc::make_mut(&mut high[0]))
        } else {
            let (low, high) = self.now.split_at_mut(read);
            (&high[0], Rc::make_mut(&mut low[write]))
        }
    }
}

impl Rewind for Shared {
    fn rewind<L: Ledger>(&mut self, words: &[u32], _: &mut Steps<L>) {
        self.now = self.first.as_ref().clone();
        for pair in words.chunks_exact(2) {
            self.set_word(Frame::new(pair[0] / 1024), pair[0] % 1024, pair[1]);
        }
    }
}

/// The words that differ between two states: frame, index, the word before and the word after.
pub fn differing(before: &Kept, after: &Kept) -> Vec<[u32; 4]> {
    let mut found = Vec::new();
    for (frame, (old, new)) in before.iter().zip(after).enumerate() {
        if !Rc::ptr_eq(old, new) {
            let words = old.iter().zip(new.iter()).enumerate().filter(|(_, (a, b))| a != b);
            found.extend(words.map(|(index, (a, b))| [frame as u32, index as u32, *a, *b]));
        }
    }
    found
}

/// A state as `rewind` takes it: each word that differs from the first one, after its place.
pub fn places(first: &Kept, state: &Kept) -> Vec<u32> {
    let words = differing(first, state);
    words.into_iter().flat_map(|[frame, index, _, word]| [frame * 1024 + index, word]).collect()
}
