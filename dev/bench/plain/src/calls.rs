//! The calls (docs/MODEL.md, "The calls"). Each tests first and changes then.

use crate::frames::*;
use crate::machine::{Machine, Outcome, Status};

pub const CREATE: u32 = 0;
pub const PREPARE: u32 = 3;
pub const ADD: u32 = 5;
pub const YIELD: u32 = 8;

/// What the caller has at an address that it gives as configuration.
#[derive(Clone, Copy, Default)]
struct Pair {
    address: u32,
    page: u32,
}

impl<const LOGGED: bool> Machine<LOGGED> {
    pub fn call(&mut self, cpu: usize, number: u32, arguments: [u32; 5]) -> Outcome {
        let part = self.processors[cpu].part;
        if part == 0 {
            return Outcome::Idle;
        }
        let answer = if number == YIELD {
            match self.yield_to(cpu, arguments[0], arguments[1], arguments[2]) {
                Ok(switch) => return Outcome::Switched(switch),
                Err(status) => Err(status),
            }
        } else {
            self.reply(part, number, arguments)
        };
        let (status, value) = match answer {
            Ok(value) => (Status::Ok, value),
            Err(status) => (status, 0),
        };
        let registers = &mut self.processors[cpu].context.registers;
        registers[0] = status as u32;
        registers[1] = value;
        Outcome::Reply(status, value)
    }

    /// The value of a call that doesn't switch.
    fn reply(&mut self, part: u32, number: u32, x: [u32; 5]) -> Result<u32, Status> {
        match number {
            CREATE => self.create_partition(part, x),
            1 => self.delete_partition(part, x[0]),
            2 => self.count_to_map(part, x[0], x[1]).map(|(_, count)| count),
            PREPARE => self.prepare(part, x[0], x[1], x[2]),
            4 => self.collect(part, x[0], x[1]),
            ADD => self.add_vaddr(part, x[0], x[1], x[2], x[3]),
            6 => self.remove_vaddr(part, x[0], x[1]),
            7 => self.mapped_in_child(part, x[0]),
            10 | 11 => {
                self.frames.set(part, FLAGS, 11 - number);
                Ok(0)
            }
            _ => Err(Status::UnknownCall),
        }
    }

    // Tests

    /// The child that a call names, once it was tested that its addresses are those of pages.
    fn child(&self, part: u32, addresses: &[u32], child: u32) -> Result<u32, Status> {
        check_pages(addresses)?;
        self.frames.child_at(part, child).ok_or(Status::NotChild)
    }

    fn is_free(&self, part: u32, address: u32) -> bool {
        self.frames.entry(part, FIRST, address / PAGE) == 0
    }

    /// The pages of the caller at some addresses, which it has for itself, and can read and write.
    fn given<const COUNT: usize>(&self, part: u32, addresses: [u32; COUNT]) -> Result<[Pair; COUNT], Status> {
        let rows = addresses.map(|address| self.frames.row(part, address));
        if rows.contains(&0) {
            return Err(Status::NotMapped);
        }
        if !addresses.iter().all(|&address| self.is_free(part, address)) {
            return Err(Status::NotFree);
        }
        if !rows.iter().all(|row| row & (READ | WRITE) == READ | WRITE) {
            return Err(Status::NoRight);
        }
        let mut pairs = [Pair::default(); COUNT];
        for (pair, (address, row)) in pairs.iter_mut().zip(addresses.into_iter().zip(rows)) {
            *pair = Pair { address, page: row / PAGE };
        }
        Ok(pairs)
    }

    // Pages that become configuration, and come back

    fn hide(&mut self, part: u32, pair: Pair, child: u32, role: u32) {
        self.frames.zero(pair.page);
        self.frames.set_entry(part, FIRST, pair.address / PAGE, child + role);
        self.frames.open(part, pair.address / PAGE, false);
    }

    fn show(&mut self, part: u32, address: u32, page: u32) {
        self.frames.zero(page);
        self.frames.set_entry(part, FIRST, address / PAGE, 0);
        self.frames.open(part, address / PAGE, true);
    }

    // The calls

    fn create_partition(&mut self, part: u32, addresses: [u32; 5]) -> Result<u32, Status> {
        check_pages(&addresses)?;
        if (1..5).any(|k| addresses[..k].contains(&addresses[k])) {
            return Err(Status::Repeated);
        }
        let pairs = self.given(part, addresses)?;
        let Pair { address: born, page: name } = pairs[0];
        for (index, pair) in (0..).zip(pairs) {
            self.hide(part, pair, born, if index == 0 { DESCRIPTOR } else { CONFIGURATION });
            self.frames.set(name, 2 * index, pair.address);
            self.frames.set(name, 2 * index + 1, pair.page);
        }
        self.frames.set(name, PARENT, part);
        self.empty_caches();
        Ok(0)
    }

    /// Whatever a partition below the child has, the child has in a row. It is configuration of one of them exactly if
    /// it is hidden there, so no partition below is visited.
    fn delete_partition(&mut self, part: u32, d: u32) -> Result<u32, Status> {
        let child = self.child(part, &[d], d)?;
        if self.processors.iter().any(|at| at.part != 0 && self.is_below(at.part, child)) {
            return Err(Status::Running);
        }
        for slot in 0..self.frames.get(child, TABLES) {
            let (page, at) = self.frames.slot(child, slot);
            let pairs = [0, 2, 4]
                .map(|k| Pair { address: self.frames.get(page, at + k), page: self.frames.get(page, at + k + 1) });
            self.take_rows(part, pairs[0].page, pairs[2].page);
            pairs.into_iter().for_each(|pair| self.show(part, pair.address, pair.page));
        }
        self.take_lists(part, child);
        for k in [1, 2, 3, 0] {
            let (address, page) = (self.frames.get(child, 2 * k), self.frames.get(child, 2 * k + 1));
            self.show(part, address, page);
        }
        self.empty_caches();
        Ok(0)
    }

    fn is_below(&self, mut part: u32, top: u32) -> bool {
        while part != top && part != ROOT {
            part = self.frames.get(part, PARENT);
        }
        part == top
    }

    /// The rows of a table of a child that ends: the caller has their pages for itself again.
    fn take_rows(&mut self, part: u32, mmu: u32, second: u32) {
        for index in 0..WORDS {
            let row = self.frames.get(mmu, index);
            if row == 0 {
                continue;
            }
            let address = self.frames.get(second, index) - 1;
            if row & USER == 0 {
                self.show(part, address, row / PAGE);
            } else {
                self.frames.set_entry(part, FIRST, address / PAGE, 0);
            }
        }
    }

    /// The list pages of a child that ends.
    fn take_lists(&mut self, part: u32, child: u32) {
        let (mut address, mut page) = (self.frames.get(child, LIST - 1), self.frames.get(child, LIST));
        while page != 0 {
            let (next, next_address) = (self.frames.get(page, 0), self.frames.get(page, 1));
            self.show(part, address, page);
            (page, address) = (next, next_address);
        }
    }

    /// The child, and how many pages it needs before a page can be lent to it at an address.
    fn count_to_map(&self, part: u32, d: u32, cv: u32) -> Result<(u32, u32), Status> {
        let child = self.child(part, &[d, cv], d)?;
        if self.frames.table(child, MMU, cv / PAGE) != 0 {
            return Ok((child, 0));
        }
        let tables = self.frames.get(child, TABLES);
        Ok((child, 3 + list_pages(tables + 1) - list_pages(tables)))
    }

    fn prepare(&mut self, part: u32, d: u32, cv: u32, first: u32) -> Result<u32, Status> {
        let (child, count) = self.count_to_map(part, d, cv)?;
        if count == 0 {
            return Ok(0);
        }
        let chain = self.chain(part, first, count as usize)?;
        let tables = self.frames.get(child, TABLES);
        for &pair in &chain[..count as usize] {
            self.hide(part, pair, d, CONFIGURATION);
        }
        if count == 4 {
            let (last, _) = self.frames.slot(child, tables - 1);
            self.frames.set(last, 0, chain[3].page);
            self.frames.set(last, 1, chain[3].address);
        }
        let (page, at) = self.frames.slot(child, tables);
        for (kind, pair) in (0..).zip(&chain[..3]) {
            self.frames.set(self.frames.get(child, MMU + 2 * kind), cv / PAGE / WORDS, pair.page * PAGE + 1);
            self.frames.set(page, at + 2 * kind, pair.address);
            self.frames.set(page, at + 2 * kind + 1, pair.page);
        }
        self.frames.set(child, TABLES, tables + 1);
        self.empty_caches();
        Ok(count)
    }

    /// That many pages of the caller, each named by the first word of the one before.
    fn chain(&self, part: u32, first: u32, count: usize) -> Result<[Pair; 4], Status> {
        let mut chain = [Pair::default(); 4];
        let mut address = first;
        for k in 0..count {
            check_pages(&[address])?;
            if chain[..k].iter().any(|pair| pair.address == address) {
                return Err(Status::Repeated);
            }
            [chain[k]] = self.given(part, [address])?;
            address = self.frames.get(chain[k].page, 0);
        }
        Ok(chain)
    }

    fn collect(&mut self, part: u32, d: u32, cv: u32) -> Result<u32, Status> {
        let child = self.child(part, &[d, cv], d)?;
        let mmu = self.frames.table(child, MMU, cv / PAGE);
        if mmu == 0 {
            return Err(Status::NoTable);
        }
        if self.frames.frame(mmu).iter().any(|&row| row != 0) {
            return Err(Status::NotEmpty);
        }
        let (mut back, mut count) = ([Pair::default(); 4], 3);
        self.take_slot(child, mmu, &mut back);
        for kind in 0..3 {
            self.frames.set(self.frames.get(child, MMU + 2 * kind), cv / PAGE / WORDS, 0);
        }
        let tables = self.frames.get(child, TABLES) - 1;
        self.frames.set(child, TABLES, tables);
        if list_pages(tables) < list_pages(tables + 1) {
            let (last, _) = self.frames.slot(child, tables - 1);
            back[3] = Pair { address: self.frames.get(last, 1), page: self.frames.get(last, 0) };
            count = 4;
            self.frames.set(last, 0, 0);
            self.frames.set(last, 1, 0);
        }
        for k in 0..count {
            self.show(part, back[k].address, back[k].page);
            self.frames.set(back[k].page, 0, if k + 1 < count { back[k + 1].address } else { 0 });
        }
        self.empty_caches();
        Ok(back[0].address)
    }

    /// Takes the slot of a table out of a child's list; the last one comes into its place.
    fn take_slot(&mut self, child: u32, mmu: u32, back: &mut [Pair; 4]) {
        let tables = self.frames.get(child, TABLES);
        let (last, last_at) = self.frames.slot(child, tables - 1);
        let (mut page, mut at) = (self.frames.get(child, LIST), 2);
        while self.frames.get(page, at + 1) != mmu {
            at += 6;
            if at == 2 + 6 * SLOTS {
                (page, at) = (self.frames.get(page, 0), 2);
            }
        }
        for (k, pair) in (0..3).zip(back) {
            *pair = Pair { address: self.frames.get(page, at + 2 * k), page: self.frames.get(page, at + 2 * k + 1) };
        }
        for k in 0..6 {
            self.frames.set(page, at + k, self.frames.get(last, last_at + k));
            self.frames.set(last, last_at + k, 0);
        }
    }

    fn add_vaddr(&mut self, part: u32, v: u32, d: u32, cv: u32, rights: u32) -> Result<u32, Status> {
        let child = self.child(part, &[v, d, cv], d)?;
        let row = self.frames.row(part, v);
        if row == 0 {
            return Err(Status::NotMapped);
        }
        if !self.is_free(part, v) {
            return Err(Status::NotFree);
        }
        if rights & 1 == 0 || rights & !(row / READ % 8) != 0 {
            return Err(Status::NoRight);
        }
        let (table, index) = (self.frames.table(child, MMU, cv / PAGE), cv / PAGE % WORDS);
        if table == 0 {
            return Err(Status::NoTable);
        }
        if self.frames.get(table, index) != 0 {
            return Err(Status::Taken);
        }
        self.frames.set(table, index, row / PAGE * PAGE + PRESENT + USER + rights * READ);
        self.frames.set_entry(child, SECOND, cv / PAGE, v + 1);
        self.frames.set_entry(part, FIRST, v / PAGE, d + LENT);
        Ok(0)
    }

    fn remove_vaddr(&mut self, part: u32, d: u32, cv: u32) -> Result<u32, Status> {
        let child = self.child(part, &[d, cv], d)?;
        if self.frames.row(child, cv) == 0 {
            return Err(Status::Absent);
        }
        if !self.is_free(child, cv) {
            return Err(Status::LentOn);
        }
        let address = self.frames.entry(child, SECOND, cv / PAGE) - 1;
        self.frames.set_entry(child, MMU, cv / PAGE, 0);
        self.frames.set_entry(child, SECOND, cv / PAGE, 0);
        self.frames.set_entry(part, FIRST, address / PAGE, 0);
        self.empty_caches();
        Ok(0)
    }

    fn mapped_in_child(&self, part: u32, v: u32) -> Result<u32, Status> {
        check_pages(&[v])?;
        if self.frames.row(part, v) == 0 {
            return Err(Status::NotMapped);
        }
        Ok(self.frames.entry(part, FIRST, v / PAGE) / PAGE * PAGE)
    }
}

fn check_pages(addresses: &[u32]) -> Result<(), Status> {
    if addresses.iter().any(|address| address % PAGE != 0) {
        return Err(Status::NotAligned);
    }
    if addresses.contains(&0) {
        return Err(Status::NullPage);
    }
    Ok(())
}
