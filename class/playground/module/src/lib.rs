//! The programs as a module of WebAssembly: the same text, not the same proof. A host puts the words of a command into
//! memory that `room` gives, and `run` answers as pip does, `lab` as the lab's program, by a source and a sink that are
//! the host's. Before each run the host takes back all memory by `afresh`; after a trap it makes a new instance.
#![no_std]

extern crate rattle_std;

mod reaching;

use core::alloc::{GlobalAlloc, Layout};
use core::arch::wasm32;
use core::cell::{Cell, UnsafeCell};
use core::mem::forget;
use core::ptr::null_mut;
use core::slice;
use pip_base::Steps;
use pip_commands::pip;
use pip_command_contracts::Ended;
use pip_frames::RawFrames;
use pip_io::{Failed, Gatherer, Sink, Source};
use pip_lab_commands::lab as lab_of;
use pip_model::Port;
use pip_switch::Machine;
use rattle_std::alloc::{AllocError, Allocator, Global};
use rattle_std::marker::Brand;
use rattle_std::string::String;
use rattle_std::sync::ledger::Blank;
use rattle_std::vec::Vec;

/// The status where the words aren't UTF-8, as for the program where the system can't give them.
const NO_WORDS: u8 = 10;

/// The status where there is no memory for the words.
const NO_MEMORY: u8 = 5;

#[link(wasm_import_module = "host")]
unsafe extern "C" {
    // Puts at most `count` bytes of the input at `at`, and answers how many; 0 only at the end of the input.
    fn read(at: *mut u8, count: usize) -> usize;
    // Takes `count` bytes that were written.
    fn write(at: *const u8, count: usize);
}

/// That many bytes, all 0, at a multiple of 16; null where memory is out.
#[unsafe(no_mangle)]
pub extern "C" fn room(count: usize) -> *mut u8 {
    match Global.allocate(count.max(1), 16) {
        Ok(at) => {
            // SAFETY: that many bytes were given.
            unsafe { at.write_bytes(0, count) };
            at
        }
        Err(AllocError) => null_mut(),
    }
}

/// Takes back all memory that was given, and the machine with it.
///
/// # Safety
/// No run is under way, and nobody uses any of it after that.
#[unsafe(no_mangle)]
pub unsafe extern "C" fn afresh() {
    forget(LAST.put(None));
    PILE.top.set(PILE.start.get());
    PILE.gone.iter().for_each(|cell| cell.set((0, 0)));
}

/// Runs a command of pip: the host gives its input as it is read, and takes its output as it is written. Its words are the
/// `count` bytes from `at` on, parted by spaces. It answers the status, which docs/FORMATS.md explains: "Statuses of
/// the program".
///
/// # Safety
/// `room` gave these bytes, and nobody else uses them meanwhile.
#[unsafe(no_mangle)]
pub unsafe extern "C" fn run(at: *const u8, count: usize) -> u32 {
    // SAFETY: by what the host sees to, and `room` wrote each byte.
    let words = unsafe { slice::from_raw_parts(at, count) };
    status_of(words, |words| pip(Global, words, &mut Host, &mut Gatherer::new(Host)))
}

/// Runs a command of the lab's program in the same way.
///
/// # Safety
/// As for `run`.
#[unsafe(no_mangle)]
pub unsafe extern "C" fn lab(at: *const u8, count: usize) -> u32 {
    // SAFETY: as above.
    let words = unsafe { slice::from_raw_parts(at, count) };
    status_of(words, |words| lab_of(Global, words, &mut Host, &mut Gatherer::new(Host)))
}

// The status of a run, whose machine is kept.
fn status_of(words: &[u8], run: impl FnOnce(&[String]) -> Ended) -> u32 {
    u32::from(match split(words) {
        Ok(words) => {
            let ended = run(&words);
            forget(LAST.put(ended.machine));
            ended.status
        }
        Err(status) => status,
    })
}

/// Answers a request to the judge of the exercises, which is the `count` bytes from `at` on; the host is written the
/// answer. Both are lines: see class/judge.
///
/// # Safety
/// As for `run`.
#[unsafe(no_mangle)]
pub unsafe extern "C" fn judge(at: *const u8, count: usize) {
    // SAFETY: as above.
    let answer = pip_judge::answer(unsafe { slice::from_raw_parts(at, count) });
    // SAFETY: the host reads these bytes alone.
    unsafe { write(answer.as_ptr(), answer.len()) };
}

/// Of the run by a seed of the image that is the `count` bytes from `at` on: the first step from `first` on, and before
/// `end`, that runs the word `index` of `frame`; -1 where none does.
///
/// # Safety
/// As for `run`.
#[unsafe(no_mangle)]
pub unsafe extern "C" fn reach(
    at: *const u8,
    count: usize,
    seed: u32,
    first: u32,
    end: u32,
    frame: u32,
    index: u32,
) -> i32 {
    // SAFETY: as above.
    let image = unsafe { slice::from_raw_parts(at, count) };
    reaching::reached(image, seed, first..end, (frame, index)).map_or(-1, |step| step as i32)
}

/// Puts the words of frames from `first` on at `at`, 1024 of each, up to `count` frames. It answers of how many frames
/// they are: as many as the machine has that the last run handed back, and none where it handed none back.
///
/// # Safety
/// `room` gave 4096 bytes for each of these frames, and nobody else uses them meanwhile.
#[unsafe(no_mangle)]
pub unsafe extern "C" fn frames(first: u32, count: u32, at: *mut u32) -> u32 {
    let Some(machine) = LAST.machine() else { return 0 };
    let mut steps = Steps::<Brand>::new(Blank::new(1));
    for frame in 0..count {
        for index in 0..WORDS {
            let Some(word) = machine.peek(first + frame, index, &mut steps) else { return frame };
            // SAFETY: it is one of the words that were given.
            unsafe { at.add((frame * WORDS + index) as usize).write(word) };
        }
    }
    count
}

/// A register of what runs on a processor of that machine, 16 for the pc; -1 where nothing runs, and where there is
/// none.
#[unsafe(no_mangle)]
pub extern "C" fn register(cpu: u32, number: u32) -> i64 {
    let Some(machine) = LAST.machine().filter(|machine| cpu < machine.cpus()) else { return -1 };
    match machine.ctx(cpu) {
        Some(context) if number == PC => i64::from(context.pc),
        Some(context) => context.regs.get(number as usize).map_or(-1, |word| i64::from(*word)),
        None => -1,
    }
}

const WORDS: u32 = 1024;
const PC: u32 = 16;

// The machine that the last run handed back. It is forgotten and not dropped, since all its memory is taken back at
// once.
struct Last(UnsafeCell<Option<Machine<RawFrames>>>);

// SAFETY: an instance has one thread.
unsafe impl Sync for Last {}

static LAST: Last = Last(UnsafeCell::new(None));

impl Last {
    fn put(&self, machine: Option<Machine<RawFrames>>) -> Option<Machine<RawFrames>> {
        // SAFETY: no call lends the machine beyond its own end, and none puts one while it lends it.
        unsafe { self.0.get().replace(machine) }
    }

    fn machine(&self) -> Option<&Machine<RawFrames>> {
        // SAFETY: as above.
        unsafe { (*self.0.get()).as_ref() }
    }
}

// The host as a source and as a sink.
struct Host;

impl Source for Host {
    fn read(&mut self, buf: &mut [u8]) -> Result<usize, Failed> {
        // SAFETY: the host writes no more than that many bytes.
        let count = unsafe { read(buf.as_mut_ptr(), buf.len()) };
        if count <= buf.len() { Ok(count) } else { Err(Failed) }
    }
}

impl Sink for Host {
    fn write(&mut self, piece: &[u8]) -> Result<usize, Failed> {
        // SAFETY: the host reads these bytes alone.
        unsafe { write(piece.as_ptr(), piece.len()) };
        Ok(piece.len())
    }

    fn flush(&mut self) -> Result<(), Failed> {
        Ok(())
    }
}

// The words of a command line. The error is the status.
fn split(words: &[u8]) -> Result<Vec<String>, u8> {
    let words = core::str::from_utf8(words).map_err(|_| NO_WORDS)?;
    let mut list = Vec::new(Global);
    for word in words.split(' ').filter(|word| !word.is_empty()) {
        let word = String::from_str(Global, word).map_err(|_| NO_MEMORY)?;
        list.push(word).map_err(|_| NO_MEMORY)?;
    }
    Ok(list)
}

/// The instance's memory: pieces one after the other, of which the last alone can grow or go. Large ones that went are
/// kept, for others of their size: machines of a judge's runs.
struct Pile {
    // Where the first piece may begin, where the next one may, and where the memory ends; all 0 before the first piece.
    start: Cell<usize>,
    top: Cell<usize>,
    end: Cell<usize>,
    // Where large pieces are that went, and their sizes; 0 is none.
    gone: [Cell<(usize, usize)>; GONE],
}

const GONE: usize = 8;

// SAFETY: an instance has one thread.
unsafe impl Sync for Pile {}

#[global_allocator]
static PILE: Pile =
    Pile { start: Cell::new(0), top: Cell::new(0), end: Cell::new(0), gone: [const { Cell::new((0, 0)) }; GONE] };

const PAGE: usize = 65536;

impl Pile {
    // Makes the memory end at `end` or after it; says whether it does.
    fn reach(&self, end: usize) -> bool {
        if end <= self.end.get() {
            return true;
        }
        let pages = (end - self.end.get()).div_ceil(PAGE);
        if wasm32::memory_grow::<0>(pages) == usize::MAX {
            return false;
        }
        self.end.set(self.end.get() + pages * PAGE);
        true
    }

    // The place in `gone` of a piece of this size, at such a multiple; of size 0 a free place.
    fn place(&self, size: usize, align: usize) -> Option<&Cell<(usize, usize)>> {
        self.gone.iter().find(|cell| cell.get().1 == size && cell.get().0 % align == 0)
    }

    fn is_last(&self, at: *mut u8, size: usize) -> bool {
        at as usize + size == self.top.get()
    }
}

// SAFETY: pieces are given from `top` on, where nothing was given, and the memory reaches to their ends; or they went,
// and are given again once.
unsafe impl GlobalAlloc for Pile {
    unsafe fn alloc(&self, layout: Layout) -> *mut u8 {
        if self.end.get() == 0 {
            let end = wasm32::memory_size::<0>() * PAGE;
            self.start.set(end);
            self.top.set(end);
            self.end.set(end);
        }
        if layout.size() >= PAGE
            && let Some(cell) = self.place(layout.size(), layout.align())
        {
            return cell.replace((0, 0)).0 as *mut u8;
        }
        let at = self.top.get().checked_next_multiple_of(layout.align());
        let end = at.and_then(|at| at.checked_add(layout.size()));
        match (at, end) {
            (Some(at), Some(end)) if self.reach(end) => {
                self.top.set(end);
                at as *mut u8
            }
            _ => null_mut(),
        }
    }

    unsafe fn dealloc(&self, at: *mut u8, layout: Layout) {
        if self.is_last(at, layout.size()) {
            self.top.set(at as usize);
        } else if layout.size() >= PAGE
            && let Some(cell) = self.place(0, 1)
        {
            cell.set((at as usize, layout.size()));
        }
    }

    unsafe fn realloc(&self, at: *mut u8, layout: Layout, size: usize) -> *mut u8 {
        let end = (at as usize).checked_add(size);
        if self.is_last(at, layout.size()) && end.is_some_and(|end| self.reach(end)) {
            self.top.set(at as usize + size);
            return at;
        }
        // SAFETY: the caller has a size that fits the alignment.
        let new = unsafe { self.alloc(Layout::from_size_align_unchecked(size, layout.align())) };
        if !new.is_null() {
            // SAFETY: both pieces have that many bytes, and don't overlap.
            unsafe { core::ptr::copy_nonoverlapping(at, new, layout.size().min(size)) };
        }
        new
    }
}

// The instance ends by a trap, which the host sees.
#[panic_handler]
fn panic(_: &core::panic::PanicInfo<'_>) -> ! {
    wasm32::unreachable()
}
