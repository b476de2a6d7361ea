//! The memory: all frames one after another, and where a partition's tables are in them (docs/FORMATS.md).

use crate::Stop;

pub const WORDS: u32 = 1024;
pub const PAGE: u32 = 4096;
/// Tables that one list page notes.
pub const SLOTS: u32 = 170;
pub const ROOT: u32 = 1;

// Words of a descriptor
pub const BORN: u32 = 0;
pub const MMU: u32 = 3;
pub const FIRST: u32 = 5;
pub const SECOND: u32 = 7;
pub const LIST: u32 = 9;
pub const PARENT: u32 = 11;
pub const TABLES: u32 = 12;
pub const FLAGS: u32 = 14;
pub const LINES: u32 = 15;

// Bits of a row, which is a word of an MMU table
pub const PRESENT: u32 = 1;
pub const USER: u32 = 2;
pub const READ: u32 = 4;
pub const WRITE: u32 = 8;
pub const EXECUTE: u32 = 16;

/// What a page of the caller is for a child: what a first shadow word adds to the child's address.
pub const DESCRIPTOR: u32 = 1;
pub const CONFIGURATION: u32 = 2;
pub const LENT: u32 = 3;

/// With LOGGED each word that changes is noted with what it was.
#[derive(Clone)]
pub struct Frames<const LOGGED: bool> {
    words: Vec<u32>,
    pub log: Vec<(u32, u32)>,
}

impl<const LOGGED: bool> Frames<LOGGED> {
    pub fn new(count: u32) -> Result<Self, Stop> {
        let size = (count * WORDS) as usize;
        let mut words = Vec::new();
        words.try_reserve_exact(size)?;
        words.resize(size, 0);
        Ok(Frames { words, log: Vec::new() })
    }

    pub fn count(&self) -> u32 {
        self.words.len() as u32 / WORDS
    }

    pub fn words(&self) -> &[u32] {
        &self.words
    }

    #[inline]
    pub fn word(&self, place: u32) -> u32 {
        self.words[place as usize]
    }

    #[inline]
    pub fn set_word(&mut self, place: u32, word: u32) {
        let old = &mut self.words[place as usize];
        if LOGGED && *old != word {
            self.log.push((place, *old));
        }
        *old = word;
    }

    #[inline]
    pub fn get(&self, frame: u32, index: u32) -> u32 {
        self.word(frame * WORDS + index)
    }

    #[inline]
    pub fn set(&mut self, frame: u32, index: u32, word: u32) {
        self.set_word(frame * WORDS + index, word);
    }

    #[inline]
    pub fn frame(&self, frame: u32) -> &[u32] {
        let start = (frame * WORDS) as usize;
        &self.words[start..start + WORDS as usize]
    }

    pub fn zero(&mut self, frame: u32) {
        if LOGGED {
            (0..WORDS).for_each(|index| self.set(frame, index, 0));
        } else {
            let start = (frame * WORDS) as usize;
            self.words[start..start + WORDS as usize].fill(0);
        }
    }

    /// Takes back what was noted.
    pub fn undo(&mut self) {
        while let Some((place, old)) = self.log.pop() {
            self.words[place as usize] = old;
        }
    }

    /// The frame of a partition's table: of its MMU tables, first or second shadow. Without one it is frame 0, whose
    /// words are 0, so that there is no row in it.
    #[inline]
    pub fn table(&self, part: u32, directory: u32, vpage: u32) -> u32 {
        self.get(self.get(part, directory), vpage / WORDS) / PAGE
    }

    /// The word of a partition's table for a vpage: of its MMU tables, first or second shadow.
    #[inline]
    pub fn entry(&self, part: u32, directory: u32, vpage: u32) -> u32 {
        self.get(self.table(part, directory, vpage), vpage % WORDS)
    }

    #[inline]
    pub fn set_entry(&mut self, part: u32, directory: u32, vpage: u32, word: u32) {
        self.set(self.table(part, directory, vpage), vpage % WORDS, word);
    }

    #[inline]
    pub fn row(&self, part: u32, address: u32) -> u32 {
        self.entry(part, MMU, address / PAGE)
    }

    /// The name of a partition's child whose descriptor is at an address.
    #[inline]
    pub fn child_at(&self, part: u32, address: u32) -> Option<u32> {
        let vpage = address / PAGE;
        let is_child = self.entry(part, FIRST, vpage) == address + DESCRIPTOR;
        is_child.then(|| self.entry(part, MMU, vpage) / PAGE)
    }

    /// Sets or clears the user bit of a partition's row at a vpage, and of the rows of the same page in all above it.
    pub fn open(&mut self, mut part: u32, mut vpage: u32, is_open: bool) {
        loop {
            let table = self.table(part, MMU, vpage);
            let row = self.get(table, vpage % WORDS);
            self.set(table, vpage % WORDS, if is_open { row | USER } else { row & !USER });
            if part == ROOT {
                return;
            }
            vpage = self.entry(part, SECOND, vpage) / PAGE;
            part = self.get(part, PARENT);
        }
    }

    /// The list page with slot number `slot` of a partition, and where in it that begins.
    pub fn slot(&self, part: u32, slot: u32) -> (u32, u32) {
        let mut page = self.get(part, LIST);
        for _ in 0..slot / SLOTS {
            page = self.get(page, 0);
        }
        (page, 2 + 6 * (slot % SLOTS))
    }
}

/// How many list pages that many tables need.
pub fn list_pages(tables: u32) -> u32 {
    tables.div_ceil(SLOTS).max(1)
}

/// How many tables the root has besides that of its handler page.
pub fn root_tables(frames: u32) -> u32 {
    let mut tables = 1;
    while frames > 6 + 3 * (tables + 1) + 1 + 1024 * tables {
        tables += 1;
    }
    tables
}

/// The frame of the root's page at a vpage, in a machine of that many frames that begins.
pub fn root_page(frames: u32, vpage: u32) -> Option<u32> {
    let first = 3 * root_tables(frames) + 9;
    if vpage == HANDLER_PAGE {
        return Some(frames - 1);
    }
    let page = vpage.checked_sub(0x400)?.checked_add(first)?;
    (page < frames - 1).then_some(page)
}

pub const HANDLER_PAGE: u32 = 0xfffff;

impl<const LOGGED: bool> Frames<LOGGED> {
    /// The frames of the root alone.
    pub fn boot(count: u32) -> Result<Self, Stop> {
        let mut frames = Self::new(count)?;
        let tables = root_tables(count);
        for (index, frame) in [1, 2, 3, 4, 5].into_iter().enumerate() {
            frames.set(ROOT, 2 * index as u32 + 1, frame);
        }
        frames.set(ROOT, PARENT, ROOT);
        frames.set(ROOT, TABLES, tables + 1);
        for slot in 0..=tables {
            let index = if slot < tables { slot + 1 } else { 1023 };
            for kind in 0..3 {
                frames.set(2 + kind, index, PAGE * (6 + 3 * slot + kind) + 1);
                frames.set(5, 2 + 6 * slot + 2 * kind + 1, 6 + 3 * slot + kind);
            }
        }
        let first = 3 * tables + 9;
        for page in first..count - 1 {
            frames.root_row(0x400 + page - first, page);
        }
        frames.root_row(HANDLER_PAGE, count - 1);
        Ok(frames)
    }

    fn root_row(&mut self, vpage: u32, page: u32) {
        self.set_entry(ROOT, MMU, vpage, PAGE * page + PRESENT + USER + READ + WRITE + EXECUTE);
    }
}
