//! The command `audit`: the text of a memory is read, a tree is read off that and judged, and its words are compared
//! with the tree's layout (docs/FORMATS.md, "audit", and docs/MODEL.md, "Reading a tree off").

use crate::dump;
use crate::frames::*;
use crate::output::{Input, Output};
use crate::sound;
use crate::texts::{digits, newline, number};
use crate::Stop;

/// Bytes of a line of an accepted text.
const LONGEST: usize = 77;
const MOST_TABLES: u32 = 1024;

pub type Memory = Frames<false>;

pub fn audit(input: &mut Input, output: &mut Output, count: u32) -> Result<(), Stop> {
    let memory = read(input, count)?;
    let tree = Tree::read(&memory).map_err(|Unread(frame, index)| no("unread", &[frame, index], &[]))?;
    if let Some(part) = sound::broken_part(&tree) {
        return Err(no("unsound", &[part], &[]));
    }
    if let Some((frame, index, found, want)) = sound::difference(&tree) {
        return Err(no("differs", &[frame, index], &[found, want]));
    }
    dump::tree(&memory, output)?;
    output.text("yes").end_line()
}

fn no(kind: &str, numbers: &[u32], words: &[u32]) -> Stop {
    let mut line = format!("no {kind}");
    numbers.iter().for_each(|number| line += &format!(" {number}"));
    words.iter().for_each(|word| line += &format!(" {word:#010x}"));
    Stop::Unsound(line)
}

// The text

/// A text on its way: the frame and the group that were named last.
struct Text {
    memory: Memory,
    frame: Option<u32>,
    group: Option<u32>,
    is_whole: bool,
    lines: u32,
}

fn read(input: &mut Input, count: u32) -> Result<Memory, Stop> {
    let mut text = Text { memory: Frames::new(count)?, frame: None, group: None, is_whole: false, lines: 0 };
    loop {
        while let Some(end) = newline(input.held()) {
            text.judge(&input.held()[..end])?;
            input.take(end + 1);
        }
        if input.held().len() > LONGEST || input.read(usize::MAX)? == 0 {
            break;
        }
    }
    if !input.held().is_empty() || !text.is_whole {
        text.lines += 1;
        return Err(text.bad());
    }
    Ok(text.memory)
}

impl Text {
    fn bad(&self) -> Stop {
        Stop::Bad(format!("bad line {}", self.lines))
    }

    #[inline]
    fn judge(&mut self, line: &[u8]) -> Result<(), Stop> {
        self.lines += 1;
        let is_good = !self.is_whole && self.line(line).is_some();
        if is_good {
            Ok(())
        } else {
            Err(self.bad())
        }
    }

    #[inline]
    fn line(&mut self, line: &[u8]) -> Option<()> {
        if line.first()?.is_ascii_digit() {
            return self.group(line.try_into().ok()?);
        }
        if self.frame.is_some() && self.group.is_none() {
            return None;
        }
        match line {
            [b'f', b'r', b'a', b'm', b'e', b' ', rest @ ..] => {
                let frame = decimal(rest)?;
                let is_next = self.frame.is_none_or(|last| last < frame) && frame < self.memory.count();
                (self.frame, self.group) = (Some(frame), None);
                is_next.then_some(())
            }
            [b'e', b'n', b'd', b' ', rest @ ..] => {
                self.is_whole = decimal(rest)? <= crate::MOST_STEPS;
                self.is_whole.then_some(())
            }
            _ => None,
        }
    }

    /// The index in four digits, a colon, and eight words, each with a space before it.
    #[inline]
    fn group(&mut self, line: &[u8; LONGEST]) -> Option<()> {
        let index = line[..4]
            .iter()
            .try_fold(0, |value, digit| digit.is_ascii_digit().then(|| 10 * value + u32::from(digit - b'0')))?;
        let is_next = line[4] == b':' && index % 8 == 0 && index < WORDS && self.group.is_none_or(|last| last < index);
        let frame = self.frame.filter(|_| is_next)?;
        let mut all = 0;
        for (place, word) in (index..).zip(line[5..].chunks_exact(9)) {
            let word = if word[0] == b' ' { digits(&word[1..])? } else { return None };
            self.memory.set(frame, place, word);
            all |= word;
        }
        self.group = Some(index);
        (all != 0).then_some(())
    }
}

fn decimal(text: &[u8]) -> Option<u32> {
    if text.get(1) == Some(&b'x') {
        None
    } else {
        number(text)
    }
}

// The tree

/// The word at which reading a tree off stops.
pub struct Unread(u32, u32);

#[derive(Clone, Copy, PartialEq)]
pub struct Pair {
    pub address: u32,
    pub page: u32,
}

#[derive(Clone, Copy, PartialEq)]
pub struct Table {
    pub index: u32,
    pub pairs: [Pair; 3],
}

pub struct Node {
    pub name: u32,
    pub up: u32,
    pub born: u32,
    pub base: [Pair; 5],
    pub tables: Vec<Table>,
    pub more: Vec<Pair>,
    /// The slots of the tables in rising order of their indexes, of each index the first.
    order: Vec<u32>,
    pub masked: bool,
    pub lines: u32,
}

/// A bit for each word of a frame.
pub type Bits = [u64; 16];

pub fn ones(bits: Bits) -> impl Iterator<Item = u32> {
    (0..).zip(bits).flat_map(|(place, mut left)| {
        std::iter::from_fn(move || {
            let bit = left.trailing_zeros();
            left &= left.wrapping_sub(1);
            (bit < 64).then_some(64 * place + bit)
        })
    })
}

fn bits_of(words: &[u32], is_one: impl Fn(u32) -> bool) -> Bits {
    let mut bits = [0; 16];
    for (bit, chunk) in bits.iter_mut().zip(words.chunks_exact(64)) {
        *bit = chunk.iter().rev().fold(0, |all, &word| all << 1 | u64::from(is_one(word)));
    }
    bits
}

/// What a memory's words say. What they say as an MMU table or a first shadow is found once for each frame.
pub struct Tree<'a> {
    pub memory: &'a Memory,
    pub nodes: Vec<Node>,
    /// The place of a partition among the nodes, by its name.
    pub places: Vec<Option<u32>>,
    rows: Vec<Option<Bits>>,
    descriptors: Vec<Option<Bits>>,
}

/// Where a visit of a node's rows is: at a table, and the rows of children that are left in that.
struct Visit {
    node: usize,
    table: usize,
    left: Bits,
}

impl<'a> Tree<'a> {
    fn read(memory: &'a Memory) -> Result<Self, Unread> {
        let count = memory.count() as usize;
        let mut tree = Tree {
            memory,
            nodes: Vec::new(),
            places: vec![None; count],
            rows: vec![None; count],
            descriptors: vec![None; count],
        };
        let mut visits = vec![tree.visit(ROOT)?];
        while let Some(visit) = visits.last_mut() {
            match tree.next_child(visit) {
                None => drop(visits.pop()),
                Some((page, ..)) if tree.places[page as usize].is_none() => visits.push(tree.visit(page)?),
                Some((_, shadow, index)) => return Err(Unread(shadow, index)),
            }
        }
        Ok(tree)
    }

    fn visit(&mut self, name: u32) -> Result<Visit, Unread> {
        let node = self.node(name)?;
        self.places[name as usize] = Some(self.nodes.len() as u32);
        self.nodes.push(node);
        let mut visit = Visit { node: self.nodes.len() - 1, table: 0, left: [0; 16] };
        self.begin_table(&mut visit);
        Ok(visit)
    }

    /// The rows of children in the table at which a visit is.
    fn begin_table(&mut self, visit: &mut Visit) {
        let node = &self.nodes[visit.node];
        let Some(&slot) = node.order.get(visit.table) else {
            return;
        };
        let [mmu, first, _] = node.tables[slot as usize].pairs;
        let rows = self.rows[mmu.page as usize].unwrap_or([0; 16]);
        let memory = self.memory;
        let children = self.descriptors[first.page as usize]
            .get_or_insert_with(|| bits_of(memory.frame(first.page), |word| word % PAGE == DESCRIPTOR));
        for ((left, row), child) in visit.left.iter_mut().zip(rows).zip(*children) {
            *left = row & child;
        }
    }

    /// The next row whose page is a child's descriptor: that page, and where the first shadow says so.
    fn next_child(&mut self, visit: &mut Visit) -> Option<(u32, u32, u32)> {
        loop {
            let node = &self.nodes[visit.node];
            let [mmu, first, _] = node.tables[*node.order.get(visit.table)? as usize].pairs;
            if let Some(index) = ones(visit.left).next() {
                visit.left[index as usize / 64] &= !(1 << (index % 64));
                return Some((self.memory.get(mmu.page, index) / PAGE, first.page, index));
            }
            visit.table += 1;
            self.begin_table(visit);
        }
    }

    fn pair(&self, frame: u32, index: u32) -> Result<Pair, Unread> {
        let page = self.memory.get(frame, index + 1);
        if page >= self.memory.count() {
            return Err(Unread(frame, index + 1));
        }
        Ok(Pair { address: self.memory.get(frame, index), page })
    }

    fn node(&mut self, name: u32) -> Result<Node, Unread> {
        let mut base = [Pair { address: 0, page: 0 }; 5];
        for (index, pair) in (0..).step_by(2).zip(&mut base) {
            *pair = self.pair(name, index)?;
        }
        let count = self.memory.get(name, TABLES);
        if count > MOST_TABLES {
            return Err(Unread(name, TABLES));
        }
        let more = self.more(base[4].page, list_pages(count) - 1)?;
        let tables = self.tables(base[1].page, base[4].page, &more, count)?;
        for table in &tables {
            self.check_rows(table.pairs[0].page)?;
        }
        let mut order: Vec<u32> = (0..count).collect();
        order.sort_by_key(|&slot| tables[slot as usize].index);
        order.dedup_by_key(|&mut slot| tables[slot as usize].index);
        Ok(Node {
            name,
            up: self.memory.get(name, PARENT),
            born: base[0].address,
            base,
            tables,
            more,
            order,
            masked: self.memory.get(name, FLAGS) & 1 != 0,
            lines: self.memory.get(name, LINES) & 0xffff,
        })
    }

    /// The list pages after the first.
    fn more(&self, mut page: u32, count: u32) -> Result<Vec<Pair>, Unread> {
        let mut more = Vec::new();
        for _ in 0..count {
            let (next, address) = (self.memory.get(page, 0), self.memory.get(page, 1));
            if next >= self.memory.count() {
                return Err(Unread(page, 0));
            }
            more.push(Pair { address, page: next });
            page = next;
        }
        Ok(more)
    }

    fn tables(&self, directory: u32, list: u32, more: &[Pair], count: u32) -> Result<Vec<Table>, Unread> {
        let mut indexes = vec![None; self.memory.count() as usize];
        for (index, &entry) in (0..WORDS).zip(self.memory.frame(directory)) {
            if entry % PAGE == 1 && entry / PAGE < self.memory.count() {
                indexes[(entry / PAGE) as usize].get_or_insert(index);
            }
        }
        let mut tables = Vec::new();
        for slot in 0..count {
            let page = if slot < SLOTS { list } else { more[(slot / SLOTS) as usize - 1].page };
            let at = 2 + 6 * (slot % SLOTS);
            let mmu = self.pair(page, at)?;
            let index = indexes[mmu.page as usize].ok_or(Unread(page, at + 1))?;
            let pairs = [mmu, self.pair(page, at + 2)?, self.pair(page, at + 4)?];
            tables.push(Table { index, pairs });
        }
        Ok(tables)
    }

    /// Each word of an MMU table that isn't 0 packs a page with the right to read.
    fn check_rows(&mut self, frame: u32) -> Result<(), Unread> {
        if self.rows[frame as usize].is_some() {
            return Ok(());
        }
        let words = self.memory.frame(frame);
        let is_row = |word: u32| {
            word % PAGE < 32 && word & (PRESENT | READ) == PRESENT | READ && word / PAGE < self.memory.count()
        };
        if let Some(index) = words.iter().position(|&word| word != 0 && !is_row(word)) {
            return Err(Unread(frame, index as u32));
        }
        self.rows[frame as usize] = Some(bits_of(words, |word| word != 0));
        Ok(())
    }

    /// The rows of a table: the index, and the word.
    pub fn rows(&self, table: &Table) -> impl Iterator<Item = (u32, u32)> + '_ {
        let mmu = table.pairs[0].page;
        let words = self.memory.frame(mmu);
        ones(self.rows[mmu as usize].unwrap_or([0; 16])).map(|index| (index, words[index as usize]))
    }

    /// All rows of a node, in the order of its slots: the vpage, and the word.
    pub fn all_rows<'b>(&'b self, node: &'b Node) -> impl Iterator<Item = (u32, u32)> + 'b {
        node.tables.iter().flat_map(|table| self.rows(table).map(|(index, row)| (table.index * WORDS + index, row)))
    }
}

impl Node {
    /// The pages of its configuration, and where its parent has them.
    pub fn pairs(&self) -> impl Iterator<Item = Pair> + '_ {
        let tables = self.tables.iter().flat_map(|table| table.pairs);
        self.base.into_iter().chain(tables).chain(self.more.iter().copied())
    }

    /// The table of a directory index, of several the first.
    pub fn table(&self, index: u32) -> Option<&Table> {
        let found = self.order.binary_search_by_key(&index, |&slot| self.tables[slot as usize].index);
        Some(&self.tables[self.order[found.ok()?] as usize])
    }
}
