//! The states of a run, forward and back: the same text as the proved program, not the same proof.
//!
//! Each line of the input is a request of `requests`, and is answered by one line of JSON: what was asked for, or
//! `{"error": ..}`.

mod frames;
mod json;
mod requests;
mod schedule;
mod session;
mod stops;
mod views;

use frames::differing;
use json::{Json, Object, text};
use requests::{Begin, Request, request};
use session::Session;
use std::io::{BufRead, Write, stdin, stdout};
use stops::{Hit, Stops};

const NOTHING: &str = "null";

fn main() -> std::io::Result<()> {
    let (mut session, mut stops) = (None, Stops::default());
    let mut out = stdout().lock();
    for line in stdin().lock().lines() {
        let made = request(&line?).and_then(|request| answered(&mut session, &mut stops, request));
        let answer = made.unwrap_or_else(|error| text(&Object(&[("error", &error)])));
        writeln!(out, "{answer}")?;
        out.flush()?;
    }
    Ok(())
}

fn answered(held: &mut Option<Session>, stops: &mut Stops, request: Request) -> Result<String, String> {
    match request {
        Request::Load { begin, every, path } => {
            let loaded = load(&path, begin, every)?;
            let told = begun(&loaded);
            *held = Some(loaded);
            return Ok(told);
        }
        Request::Clear => *stops = Stops::default(),
        Request::Break(stop) => stops.breaks.push(stop),
        Request::Line(stop) => stops.lines.push(stop),
        Request::Watch(watch) if watch.count <= 1024 => stops.watches.push(watch),
        Request::Watch(_) => return Err("at most 1024 words are watched at once".to_string()),
        Request::TurnOf(cpu) => stops.turn_of = Some(cpu),
        Request::Idle => stops.idle = true,
        other => return answer(held.as_mut().ok_or("no image is loaded")?, stops, other),
    }
    Ok(NOTHING.to_string())
}

fn load(path: &str, begin: Begin, every: u64) -> Result<Session, String> {
    let image = std::fs::read(path).map_err(|error| format!("{path}: {error}"))?;
    Session::load(&image, begin, every)
}

fn begun(session: &Session) -> String {
    let cpus = session.machine.processors().len();
    text(&Object(&[("frames", &session.frames), ("cpus", &cpus), ("plans", &session.plans()), ("end", &session.end())]))
}

fn answer(session: &mut Session, stops: &Stops, request: Request) -> Result<String, String> {
    match request {
        Request::Go(step) => {
            within(session, step)?;
            session.go(step);
        }
        Request::Run(to) => {
            return Ok(session.run(to, stops).map_or_else(|hits| at(session, &hits), |()| at(session, &[])));
        }
        Request::Back(to) => {
            let hits = session.back(to, stops);
            return Ok(at(session, &hits));
        }
        Request::Edit(edit) => session.edit(edit)?,
        Request::Way(way) => session.take_way(way)?,
        other => return looked(session, other),
    }
    Ok(at(session, &[]))
}

// What only looks
fn looked(session: &mut Session, request: Request) -> Result<String, String> {
    Ok(match request {
        Request::Turn => session.turn().as_ref().map_or(NOTHING.to_string(), views::turn),
        Request::Next => views::next(session),
        Request::Registers => views::registers(session),
        Request::Words(frame, first, count) => words(session, frame, first, count)?,
        Request::Tree => views::tree_view(session.machine.mem()),
        Request::Core => views::core(session.machine.mem()),
        Request::Trace(from, to) => trace(session, from, to)?,
        Request::List(from, to) => {
            within(session, to)?;
            views::listed(session, from.min(to), to)
        }
        Request::Translate(part, address) => translate(session, part, address)?,
        Request::Changed(from) => changed(session, from)?,
        Request::Kept => text(&session.kept_count()),
        _ => return Err("that isn't asked of a state".to_string()),
    })
}

fn within(session: &Session, step: u64) -> Result<(), String> {
    let end = session.end();
    if step <= end { Ok(()) } else { Err(format!("there is no step {step}: the last state is {end}")) }
}

fn at(session: &Session, hits: &[Hit]) -> String {
    let stops: Vec<json::Written> =
        hits.iter().map(|(kind, id)| json::Written(format!("[{},{id}]", text(kind)))).collect();
    let fields: [(&str, &dyn Json); 5] = [
        ("step", &session.at),
        ("stops", &stops),
        ("end", &session.end()),
        ("edited", &session.is_edited()),
        ("plans", &session.plans()),
    ];
    text(&Object(&fields))
}

fn words(session: &Session, frame: u32, first: u32, count: u32) -> Result<String, String> {
    let end = u64::from(first) + u64::from(count);
    if frame >= session.frames || end > 1024 {
        return Err(format!("there are no words {first} to {end} of frame {frame}"));
    }
    let mem = session.machine.mem();
    let found: Vec<Option<u32>> = (first..first + count).map(|index| mem.word_at(frame, index)).collect();
    Ok(text(&found))
}

fn trace(session: &mut Session, from: u64, to: u64) -> Result<String, String> {
    within(session, to)?;
    let mut lines = Vec::new();
    session.go(from.min(to));
    session.each_line(to, |line| lines.push(line.to_string()));
    Ok(text(&lines))
}

fn translate(session: &Session, part: u32, address: u32) -> Result<String, String> {
    let mem = session.machine.mem();
    if views::names(mem).contains(&part) {
        Ok(views::translation(mem, part, address))
    } else {
        Err(format!("there is no partition {part} here"))
    }
}

fn changed(session: &mut Session, from: u64) -> Result<String, String> {
    let here = session.at;
    if from > here {
        return Err(format!("step {from} is after {here}"));
    }
    let after = session.machine.mem().kept();
    session.go(from);
    let before = session.machine.mem().kept();
    session.go(here);
    Ok(text(&differing(&before, &after)))
}
