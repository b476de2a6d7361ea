//! The command `dis`: an image as an assembly text.

use crate::frames::PAGE;
use crate::image::{word_of, Reader};
use crate::isa::put_word;
use crate::output::{Input, Output};
use crate::Stop;

pub fn dis(input: &mut Input, output: &mut Output) -> Result<(), Stop> {
    let mut reader = Reader::new(input, output);
    let head = reader.head()?;
    reader.output.text(".frames ").number(head.frames).end_line()?;
    reader.output.text(".cpus ").number(head.cpus).end_line()?;
    let mut last = None;
    for _ in 0..head.plans {
        let plan = reader.plan(last)?;
        last = Some(plan);
        reader.output.text(".line ").number(plan.line).text(" ").number(plan.first);
        reader.output.text(" ").number(plan.period).end_line()?;
    }
    let mut words = [0; PAGE as usize];
    for _ in 0..head.pages {
        let (vpage, _) = reader.page(&head)?;
        words.copy_from_slice(reader.words()?);
        reader.output.text(".page ").word(PAGE * vpage).end_line()?;
        put_page(reader.output, &words)?;
    }
    reader.end()
}

/// The words of a page but for the zeros at its end.
fn put_page(output: &mut Output, bytes: &[u8]) -> Result<(), Stop> {
    let used = bytes.iter().rposition(|&byte| byte != 0).map_or(0, |last| last / 4 + 1);
    for word in bytes[..4 * used].chunks_exact(4) {
        put_word(output, word_of(word));
        output.end_line()?;
    }
    Ok(())
}
