//! The exercises that are answered by a program.

use crate::memory::has_handlers;
use crate::program::{Course, Image, Timer, has_parked, has_refused, is_parked, li, lih, outs, restless, trouble};
use crate::random::Random;
use crate::script::Refused;
use crate::values::Values;
use crate::verdict::Verdict;
use crate::world::{Act, Call, Hostile, Id, ROOT, Why, World};
use alloc::format;
use alloc::string::String;
use alloc::vec;
use alloc::vec::Vec;
use pip_base::{Ctx, Status};
use pip_isa::{Instr, Register};

/// Steps in which a timer has to give each child its turn, and each child has to show or to ask something.
const LONGEST_SILENCE: u32 = 2000;
const TIMERS: usize = 48;
/// The numbers of the runs that are longer than the others, by the program's own timer and by another one, and how many
/// times as long they are.
const LONG_RUNS: [usize; 2] = [0, TIMERS / 4];
const TIMES_AS_LONG: u32 = 6;
/// The distances at which the timers raise the line, in steps, and the step at which they begin.
const DISTANCES: [u32; 2] = [40, 160];
const FIRST: [u32; 2] = [400, 700];

// sum

/// Numbers of a program's own text that are tried: drawn, where there are more.
const CONSTANTS: usize = 300;

/// All numbers up to this one are tried, the largest, powers of two with their neighbours, those of the text, and of
/// each that many others one that is drawn.
const MOST: u32 = 300;
const LARGEST: u32 = 5000;
const APART: u32 = 25;
const STEPS_OF_SUM: u32 = 100_000;

pub fn sum(v: &Values, image: &Image, secret: u64, verdict: &mut Verdict) -> Result<(), Refused> {
    let (first, place) = (v.get("first"), v.get("place"));
    let due = |last: u32| (first..=last).sum::<u32>();
    let size = image.frames() == 16;
    if !image.has(place) {
        verdict.story(&[size, false, false, false, false, false]);
        return Ok(());
    }
    let mut holds = [size, true, true, true, true, true];
    let mut random = Random::new(secret);
    let of_text = image.constants()?.into_iter().filter(|last| (MOST..=LARGEST).contains(last)).collect();
    let others = random.some_of(of_text, CONSTANTS).into_iter().chain(larger(&mut random));
    for last in [100, 0, MOST, LARGEST].into_iter().chain(1..MOST).chain(others) {
        let mut changed = image.clone();
        changed.put(place, last);
        let world = changed.run(Course::plain(STEPS_OF_SUM))?;
        let shown: Vec<u32> = outs(&world).iter().map(|(_, _, word)| *word).collect();
        let good = [shown.contains(&due(last)), shown.len() == 1, is_parked(&world)];
        if good != [true; 3] {
            holds[2] &= last != 100 || good[0];
            (holds[3], holds[4], holds[5]) = (holds[3] && good[0], holds[4] && good[1], holds[5] && good[2]);
            let words: Vec<String> = shown.iter().take(4).map(|word| format!("{word:#010x}")).collect();
            verdict.remarks.push(format!(
                "with the word {last} at {place:#x} it shows [{}], where {:#010x} is due",
                words.join(", "),
                due(last)
            ));
            verdict.trouble = if has_parked(&world) { trouble(&world) } else { Vec::new() };
            if last != 100 {
                break;
            }
        }
    }
    verdict.remarks.truncate(1);
    verdict.story(&holds);
    Ok(())
}

fn larger(random: &mut Random) -> Vec<u32> {
    let edges = (9..13).flat_map(|power| [(1 << power) - 1, 1 << power, (1 << power) + 1]);
    let drawn = (MOST + 1..LARGEST).step_by(APART as usize).map(|least| random.within(least, least + APART - 1));
    [MOST + 1, LARGEST - 1].into_iter().chain(edges).chain(drawn.map(|last| last.min(LARGEST))).collect()
}

// child-program

const STEPS_OF_CHILD: u32 = 10_000;
/// Words that are drawn, of all lengths, beside those that are always put into the register.
const WORDS: usize = 16;

pub fn child_program(v: &Values, image: &Image, secret: u64, verdict: &mut Verdict) -> Result<(), Refused> {
    let word = v.get("word");
    let world = image.run(Course::plain(STEPS_OF_CHILD))?;
    let mut random = Random::new(secret);
    for id in world.children() {
        let shown: Vec<usize> = (0..world.events.len())
            .filter(|k| world.events[*k].who == Some(id) && matches!(world.events[*k].act, Act::Out { .. }))
            .collect();
        let at = shown.first().copied().filter(|k| shown.len() == 1 && world.events[*k].act == Act::Out { word });
        let shows = at.is_some() && has_had_handlers(image, &world, id, at.unwrap_or(0))?;
        let Some(at) = at.filter(|_| shows) else {
            verdict.story(&[true, false, false, false, false]);
            continue;
        };
        let is_of_block = follows_block(image, &world, id, at, word, &others(image, word, &mut random)?)?;
        let trap = world.moves().find(|(k, _, moved)| *k > at && moved.from == Some(id));
        let trap = trap.filter(|(_, event, moved)| {
            moved.to == Some(ROOT) && moved.why == Why::Trap && matches!(event.act, Act::Trap { vector: 64.. })
        });
        let born = world.parts[id].born;
        let is_deleted = trap.is_some_and(|(k, _, _)| {
            world.parts[id].ended.is_some_and(|ended| {
                ended > k && world.events[ended].of_root(Status::Ok) == Some(Call::Delete { child: born })
            })
        });
        verdict.story(&[true, true, is_of_block, trap.is_some(), is_deleted]);
    }
    verdict.trouble = if verdict.is_whole() { Vec::new() } else { trouble(&world) };
    Ok(())
}

// Whether the child had a handler table when it showed its word.
fn has_had_handlers(image: &Image, world: &World, id: Id, at: usize) -> Result<bool, Refused> {
    let past = image.run(Course::plain(world.events[at].place))?;
    Ok(id < past.parts.len() && has_handlers(&past, id))
}

// The words that are put into the register.
fn others(image: &Image, word: u32, random: &mut Random) -> Result<Vec<u32>, Refused> {
    let edges = [0, 1, word - 1, word + 1, 0xffff, 0x1_0000, u32::MAX >> 1, 1 << 31, u32::MAX];
    let of_text = random.some_of(image.constants()?.into_iter().collect(), CONSTANTS);
    let drawn = (0..WORDS).map(|_| random.word() >> random.within(0, 31));
    Ok(edges.into_iter().chain(drawn).chain(of_text).collect())
}

// Whether the child shows what a register of a block has by which it began, where that has the word: another word there
// is shown in its place, and nothing else.
fn follows_block(image: &Image, world: &World, id: Id, at: usize, word: u32, others: &[u32]) -> Result<bool, Refused> {
    let mut left = None;
    for (entry, _, moved) in world.moves().take_while(|(k, _, _)| *k < at) {
        let begins =
            moved.to == Some(id) && moved.from == Some(ROOT) && moved.why == Why::Yield && left != Some(moved.entered);
        for register in (0..16).filter(|register| begins && moved.entered.regs[*register as usize] == word) {
            if follows(image, id, (entry, register), others)? {
                return Ok(true);
            }
        }
        if moved.from == Some(id) {
            left = moved.left;
        }
    }
    Ok(false)
}

fn follows(image: &Image, id: Id, (entry, register): (usize, u32), others: &[u32]) -> Result<bool, Refused> {
    for other in others {
        let world = image.run(Course { edit: Some((entry, register, *other)), ..Course::plain(STEPS_OF_CHILD) })?;
        let mut shown = outs(&world).into_iter().filter(|(_, who, _)| *who == id).map(|(_, _, word)| word);
        if shown.next() != Some(*other) || shown.next().is_some() {
            return Ok(false);
        }
    }
    Ok(true)
}

// Turns by a timer

/// How long a list of steps leaves out at most, from the beginning to the end of a run.
fn silence(steps: impl Iterator<Item = u32>, end: u32) -> u32 {
    let (longest, last) = steps.fold((0, 0), |(longest, last), step| (longest.max(step - last), step));
    longest.max(end - last)
}

/// The steps at which the line took control from another child, and the root then entered this one by what it was left
/// with, if it was.
fn turns(world: &World, id: Id, line: u32) -> Vec<u32> {
    let mut left = [None; 4];
    let mut found = Vec::new();
    for (_, event, moved) in world.moves() {
        let cpu = event.cpu.unwrap_or(0) as usize;
        if moved.why == Why::Line
            && moved.to == Some(ROOT)
            && moved.vector == 32 + line
            && moved.from.is_some_and(|from| from != ROOT)
        {
            left[cpu] = moved.from;
        } else if moved.from == Some(ROOT)
            && moved.to.is_some_and(|to| to != ROOT)
            && left[cpu].take().is_some_and(|from| from != id)
            && moved.to == Some(id)
        {
            found.push(event.place);
        }
    }
    found
}

/// Whether each child goes on as it was left: where a line interrupted it, with its pc and all registers, else with its
/// pc.
fn go_on(world: &World) -> bool {
    let mut left: Vec<Option<(Why, Ctx)>> = vec![None; world.parts.len()];
    for (_, _, moved) in world.moves() {
        if let Some((why, ctx)) = moved.to.filter(|to| *to != ROOT).and_then(|to| left[to])
            && (moved.entered.pc != ctx.pc || why == Why::Line && moved.entered != ctx)
        {
            return false;
        }
        if let Some(from) = moved.from {
            left[from] = moved.left.map(|ctx| (moved.why, ctx));
        }
    }
    true
}

// The timer of a run: of the first none but the program's own, of the next two one of even distances, the shortest and
// the longest, and then one that is drawn.
fn timer(number: usize, line: u32, random: &mut Random) -> Option<Timer> {
    let (first, [least, most]) = match number {
        0 => return None,
        1 | 2 => (FIRST[number - 1], [DISTANCES[number - 1]; 2]),
        _ => {
            let least = random.within(DISTANCES[0], 100);
            (random.within(FIRST[0], FIRST[1]), [least, least + random.within(0, DISTANCES[1] - 100)])
        }
    };
    Some(Timer { line, first, least, most, strikes: number % 2 == 0, seed: random.next() })
}

fn timer_told(timer: &Option<Timer>) -> String {
    let Some(Timer { line, first, least, most, strikes, .. }) = timer else { return "your timer".into() };
    let more = if *strikes { ", and at times soon after a child's trap or yield" } else { "" };
    format!("line {line} from step {first} on at distances of {least} to {most} steps{more}")
}

/// The runs of a program by its own timer and by those of the judge, all of which have to be good. `judge` says of a
/// run which claims hold, and a word on the first that doesn't.
fn with_timers(
    image: &Image,
    line: u32,
    steps: (u32, u32),
    secret: u64,
    hostile: impl Fn(&mut Random) -> Option<Hostile>,
    judge: impl Fn(&World, u32) -> (Vec<bool>, String),
    verdict: &mut Verdict,
) -> Result<(), Refused> {
    let mut random = Random::new(secret);
    let mut holds: Vec<bool> = Vec::new();
    for number in 0..=TIMERS {
        let timer = timer(number, line, &mut random);
        let times = if LONG_RUNS.contains(&number) { TIMES_AS_LONG } else { 1 };
        let count = times * random.within(steps.0, steps.1);
        let other = if number > TIMERS / 2 { hostile(&mut random) } else { None };
        let stalls = (number > TIMERS / 4).then(|| random.next());
        let is_hostile = other.is_some();
        let world = image.run(Course { timer: timer.clone(), hostile: other, stalls, ..Course::plain(count) })?;
        let (good, told) = judge(&world, count);
        let is_first = verdict.remarks.is_empty() && good.contains(&false);
        if is_first {
            let children = if is_hostile { " and children of the checker" } else { "" };
            verdict.remarks.push(format!("with {}{children}, {count} steps: {told}", timer_told(&timer)));
            verdict.trouble = trouble(&world);
        }
        holds = if holds.is_empty() { good } else { holds.iter().zip(&good).map(|(a, b)| *a && *b).collect() };
        if holds.iter().all(|good| !good) || has_parked(&world) {
            break;
        }
    }
    verdict.story(&holds);
    Ok(())
}

/// The two children that a program has at the end; none where it has another number.
fn two(world: &World) -> Option<[Id; 2]> {
    let mut alive = world.children().filter(|id| world.alive(*id));
    let pair = [alive.next()?, alive.next()?];
    alive.next().is_none().then_some(pair)
}

/// Half words that may mean something to a program: these, and those of its text.
fn halves_of(image: &Image, known: &[u16]) -> Vec<u16> {
    known.iter().copied().chain(image.halves()).collect()
}

// monitor

pub fn monitor(v: &Values, image: &Image, secret: u64, verdict: &mut Verdict) -> Result<(), Refused> {
    let line = v.get("line");
    let halves = [v.get("one"), v.get("other")];
    let judge = |world: &World, count: u32| {
        let calls = [!has_refused(world), !has_parked(world)];
        let Some(pair) = two(world) else {
            return (vec![false, false, false, false, calls[0], calls[1]], "there aren't two children".into());
        };
        let quiet = pair.map(|id| silence(turns(world, id, line).into_iter(), count));
        let good = vec![
            true,
            quiet.iter().all(|steps| *steps <= LONGEST_SILENCE),
            go_on(world),
            show_halves(world, pair, halves, count),
            calls[0],
            calls[1],
        ];
        let told = format!("one child waits {} steps for a turn, the other {}", quiet[0], quiet[1]);
        (good, told)
    };
    let meant = halves_of(image, &[32 + line as u16]);
    let hostile = |random: &mut Random| Some(Hostile::new(halves.map(|half| showing(half, &meant, random)).into()));
    with_timers(image, line, (5000, 10_000), secret, hostile, judge, verdict)
}

// A child that shows words with an upper half, whatever its registers have.
fn showing(half: u32, meant: &[u16], random: &mut Random) -> Vec<u32> {
    let out = |low: u16| vec![li(1, low), lih(1, half as u16), Instr::Out { a: Register::new(1) }];
    let drawn = (0..4).map(|_| random.word() as u16);
    let acts: Vec<Vec<Instr>> = [0, u16::MAX].into_iter().chain(drawn).map(out).collect();
    restless(random, &acts, meant, (0, 40))
}

// Whether one child shows words with the one upper half alone, and the other with the other, without a long silence.
fn show_halves(world: &World, pair: [Id; 2], halves: [u32; 2], count: u32) -> bool {
    let shown = outs(world);
    let shows = |id: Id, half: u32| {
        let mine = || shown.iter().filter(move |(_, who, _)| *who == id);
        mine().all(|(_, _, word)| word >> 16 == half)
            && silence(mine().map(|(step, _, _)| *step), count) <= LONGEST_SILENCE
    };
    let [a, b] = pair;
    shows(a, halves[0]) && shows(b, halves[1]) || shows(b, halves[0]) && shows(a, halves[1])
}

// tell-apart

pub fn tell_apart(v: &Values, image: &Image, secret: u64, verdict: &mut Verdict) -> Result<(), Refused> {
    let (line, vector, words) = (v.get("line"), v.get("vector"), [v.get("true"), v.get("forged")]);
    let judge = |world: &World, count: u32| {
        let (owed, told) = tells(world, vector, words);
        let come = |why: Why| silence(entries(world, vector, why).into_iter(), count) <= LONGEST_SILENCE;
        let entered = world
            .moves()
            .filter(|(_, _, moved)| moved.from == Some(ROOT) && moved.to.is_some_and(|to| to != ROOT))
            .map(|(_, event, _)| event.place);
        let on = go_on(world) && silence(entered, count) <= LONGEST_SILENCE;
        let calm = !has_parked(world) && !has_refused(world);
        (vec![come(Why::Line), come(Why::Yield), owed, on, calm], told)
    };
    let forge = vec![li(1, 0), li(2, vector as u16), li(3, 63), Instr::Sys { value: 8 }];
    let meant = halves_of(image, &[vector as u16, 63]);
    let hostile =
        |random: &mut Random| Some(Hostile::new(vec![restless(random, &[forge.clone()], &meant, (0, 40))]));
    with_timers(image, line, (3000, 6000), secret, hostile, judge, verdict)
}

fn entries(world: &World, vector: u32, why: Why) -> Vec<u32> {
    let to_root = world.moves().filter(|(_, _, moved)| {
        moved.to == Some(ROOT)
            && moved.vector == vector
            && moved.why == why
            && moved.from.is_some_and(|from| from != ROOT)
    });
    to_root.map(|(_, event, _)| event.place).collect()
}

// Whether the root shows the word of each line and of each forged one before a child goes on; where both are due, in
// any order.
fn tells(world: &World, vector: u32, words: [u32; 2]) -> (bool, String) {
    let mut owed: Vec<u32> = Vec::new();
    for event in &world.events {
        let moved = event.moved.as_deref();
        if let Some(moved) = moved.filter(|moved| {
            moved.to == Some(ROOT) && moved.vector == vector && matches!(moved.why, Why::Line | Why::Yield)
        }) {
            if moved.why == Why::Line || moved.from != Some(ROOT) {
                owed.push(words[usize::from(moved.why == Why::Yield)]);
            }
        } else if let Act::Out { word } = event.act {
            if event.who == Some(ROOT) {
                let Some(at) = owed.iter().position(|due| *due == word) else {
                    return (false, format!("step {}: the root shows {word}, which isn't due", event.place));
                };
                owed.remove(at);
            }
        } else if moved.is_some_and(|moved| moved.to.is_some_and(|to| to != ROOT)) && !owed.is_empty() {
            return (false, format!("step {}: the child goes on, and {} wasn't shown", event.place, owed[0]));
        }
    }
    (owed.len() <= 2, "the child or the timer is silent too long, or a child doesn't go on".into())
}

// no-loss

pub fn no_loss(v: &Values, image: &Image, secret: u64, verdict: &mut Verdict) -> Result<(), Refused> {
    let (request, line) = (v.get("request"), v.get("line"));
    let judge = |world: &World, count: u32| {
        let calm = !has_parked(world);
        let Some(pair) = two(world) else {
            return (vec![false, false, false, false, calm], "there aren't two children".into());
        };
        let asked = pair.map(|id| silence(requests(world, id, request).into_iter(), count));
        let quiet = pair.map(|id| silence(turns(world, id, line).into_iter(), count));
        let loss = lost(world, request, count);
        let good = vec![
            asked.iter().all(|steps| *steps <= LONGEST_SILENCE),
            quiet.iter().all(|steps| *steps <= LONGEST_SILENCE),
            loss.is_none(),
            go_on(world),
            calm,
        ];
        let waits = format!(
            "one child asks nothing for {} steps, the other for {}; one waits {} steps for a turn, the other {}",
            asked[0], asked[1], quiet[0], quiet[1]
        );
        (good, loss.unwrap_or(waits))
    };
    with_timers(image, line, (6000, 9000), secret, |_| None, judge, verdict)?;
    if verdict.is_whole() {
        verdict.remarks.push(format!("your timer and {TIMERS} others were tried"));
    }
    Ok(())
}

fn requests(world: &World, id: Id, request: u32) -> Vec<u32> {
    let asked = world.moves().filter(|(_, _, moved)| {
        moved.from == Some(id) && moved.to == Some(ROOT) && moved.vector == request && moved.why == Why::Trap
    });
    asked.map(|(_, event, _)| event.place).collect()
}

// The first request that wasn't served: the root shows a word for each, and then lets that child go on.
fn lost(world: &World, request: u32, count: u32) -> Option<String> {
    let mut asked: Vec<(Id, u32)> = Vec::new();
    let mut served = 0;
    for event in &world.events {
        let moved = event.moved.as_deref();
        if let Some(from) = moved
            .filter(|moved| moved.to == Some(ROOT) && moved.vector == request && moved.why == Why::Trap)
            .and_then(|moved| moved.from)
        {
            asked.push((from, event.place));
        } else if matches!(event.act, Act::Out { .. }) && event.who == Some(ROOT) {
            served += 1;
            if served > asked.len() {
                return Some(format!("step {}: the root shows a word that nobody asked for", event.place));
            }
        } else if let Some(at) =
            moved.and_then(|moved| moved.to).and_then(|to| asked.iter().position(|(id, _)| *id == to))
        {
            let (id, step) = asked.remove(at);
            if served == 0 {
                return Some(format!(
                    "step {}: partition {} goes on, and its request of step {step} wasn't served",
                    event.place, world.parts[id].name
                ));
            }
            served -= 1;
        }
    }
    let waits = asked.iter().find(|(_, step)| count - step > LONGEST_SILENCE)?;
    Some(format!("the request of step {} is never answered", waits.1))
}
