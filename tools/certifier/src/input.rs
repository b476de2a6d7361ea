//! An image and, after it, a menu or a part: the words to compare with, a way and marks.

use crate::Stop;
use pip_base::{Frame, Plan, Size, Steps};
use pip_every::{Deed, May};
use pip_frames::{Frames, RawFrames};
use pip_image::{JointReader, load_pages};
use pip_io::{Discard, Joint, SureSource};
use pip_kern::boot_zeros;
use pip_model::ScriptLine;
use pip_script::{is_blank, read_number, read_phrase};
use rattle_std::{alloc::Global, marker::Brand, sync::ledger::Blank};
use std::io::Read;

/// What stands in an image before its pages.
pub struct Head {
    pub cpus: u32,
    pub plans: Vec<Plan>,
}

/// An image that was read: its head, and its frames.
pub struct Loaded {
    pub head: Head,
    pub mem: RawFrames,
}

pub fn whole_input() -> Result<Vec<u8>, Stop> {
    let mut data = Vec::new();
    match std::io::stdin().lock().read_to_end(&mut data) {
        Ok(_) => Ok(data),
        Err(_) => Err(Stop::new(3, "the input can't be read")),
    }
}

fn bad_image() -> Stop {
    Stop::new(2, "bad image")
}

/// The image with which these bytes begin.
pub fn load(data: &[u8]) -> Result<Loaded, Stop> {
    let mut source = SureSource::new(data);
    let mut sink = Discard::new();
    let mut joint = Joint::new(&mut source, &mut sink);
    let mut reader = JointReader::new();
    let head = reader.header(&mut joint).map_err(|_| bad_image())?;
    let mut mem = RawFrames::new(Global, head.frames).map_err(|_| Stop::new(5, "no memory"))?;
    boot_zeros(&mut mem, &mut Steps::<Brand>::new(Blank::new(1)));
    load_pages(&mut reader, &mut joint, &head, &mut mem).map_err(|_| bad_image())?;
    Ok(Loaded {
        head: Head {
            cpus: head.cpus,
            plans: head.plans.as_slice().to_vec(),
        },
        mem,
    })
}

/// A part: words that frames are compared with, the way to its first key, and its marks.
pub struct Part {
    pub base: Vec<(u32, u32, u32)>,
    pub way: Vec<u32>,
    pub marks: Vec<u8>,
}

/// Writes a part as `part` reads it.
pub fn text_of(part: &Part) -> Vec<u8> {
    let mut runs: Vec<(u32, u32)> = Vec::new();
    for choice in &part.way {
        match runs.last_mut() {
            Some(run) if run.0 == *choice => run.1 += 1,
            _ => runs.push((*choice, 1)),
        }
    }
    let mut text = Vec::new();
    let mut put = |number: u32| text.extend_from_slice(&number.to_le_bytes());
    put(part.base.len() as u32);
    for (frame, index, word) in &part.base {
        put(*frame);
        put(*index);
        put(*word);
    }
    put(runs.len() as u32);
    for (choice, times) in runs {
        put(choice);
        put(times);
    }
    put(part.marks.len() as u32);
    for eight in part.marks.chunks(8) {
        text.push(eight.iter().enumerate().map(|(i, mark)| mark << i).sum());
    }
    text
}

/// Writes words into frames.
pub fn put_words(mem: &mut RawFrames, base: &[(u32, u32, u32)]) {
    for (frame, index, word) in base {
        mem.set_word(Frame::new(*frame), *index, *word);
    }
}

/// The deeds of a menu, as the program reads them; what it asks of labels is left out.
pub fn menu_of(text: &[u8]) -> Result<Vec<May>, Stop> {
    let asks = |line: &&[u8]| !is_blank(line) && !line.starts_with(b"again ");
    text.split(|byte| *byte == b'\n').filter(asks).map(|line| may_of(line).ok_or(Stop::new(2, "bad menu"))).collect()
}

fn may_of(line: &[u8]) -> Option<May> {
    let mut words = line.splitn(3, |byte| *byte == b' ');
    let (who, kind, numbers) = (words.next()?, words.next()?, words.next().unwrap_or_default());
    let name = if who == b"each" { None } else { Some(read_number(who)?) };
    let deed = match read_phrase(&[kind, b"0", numbers].join(&b' '), 1)? {
        ScriptLine::Load { va, size, .. } => Deed::Load { va, size },
        ScriptLine::Store { va, size: Size::Word, word, .. } => Deed::StoreWord { va, word },
        ScriptLine::Store { va, word, .. } => Deed::StoreByte { va, byte: word as u8 },
        ScriptLine::Trap { vector, a, b, .. } => Deed::Trap { vector: vector as u8, a, b },
        ScriptLine::Call { no, args, .. } => Deed::Call { number: no, args },
        _ => return None,
    };
    Some(May { name, deed })
}
