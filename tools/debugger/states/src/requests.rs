//! Requests, as lines of words.

use std::str::{FromStr, SplitWhitespace};

/// Whose turn it is at each step.
#[derive(Clone, Copy)]
pub enum Begin {
    /// As by `run`: drawn by a seed.
    Seed(u32),
    /// As by `native`: so many children of the root, which is outside the machine.
    Native(u32),
    /// As by `slots`: so many children, and the turns of each slot.
    Slots(u32, u32),
    /// The lines of a script, which is there in the place of an image.
    Script,
}

/// A choice of a way of `every`.
#[derive(Clone, Copy)]
pub enum Choice {
    Turn(u32),
    Raise(u32),
}

#[derive(Clone, Copy)]
pub enum Edit {
    Seed(u32),
    /// The plan of a line, its first step and its period.
    Plan(u32, u32, u32),
    NoPlan(u32),
    Raise(u32),
    /// A processor, a register, of which 16 is the pc, and a word.
    Register(u32, u32, u32),
    /// What runs on a processor stores a word at an address, with all that follows.
    Store(u32, u32, u32),
}

/// The word of a frame: the frame, and the index there.
pub type Place = (u32, u32);

#[derive(Clone, Copy)]
pub enum Operand {
    /// Of what runs there; 16 is the pc.
    Register(u32),
    Number(u32),
    Word(Place),
}

pub type Condition = (Operand, String, Operand);

/// The next turn is of a processor that fetches there.
#[derive(Default)]
pub struct Break {
    pub id: u32,
    pub place: Option<Place>,
    pub pc: Option<u32>,
    pub part: Option<u32>,
    /// The step that comes.
    pub step: Option<u64>,
    pub when: Option<Condition>,
}

/// A trace line has these words one after another: `*` is any word, `a|b` one of two, and a first `^` its beginning.
pub struct LineStop {
    pub id: u32,
    pub words: Vec<String>,
}

/// What is watched: a word of a frame, the word at an address of a partition, whichever page is there, or a register of
/// a partition, of which 16 is the pc, from one state to the next in both of which it runs.
#[derive(Clone, Copy)]
pub enum Watched {
    Word(Place),
    Address(u32, u32),
    Register(u32, u32),
}

/// Some words one after another.
pub struct Watch {
    pub id: u32,
    pub first: Watched,
    pub count: u32,
}

pub enum Request {
    /// A state is kept each `every` steps.
    Load {
        begin: Begin,
        every: u64,
        path: String,
    },
    /// To the state before this step, forward or back.
    Go(u64),
    /// On until something stops it, and at most to this step.
    Run(u64),
    /// To the last state before this one at which a run would have been stopped, and at most to this step.
    Back(u64),
    /// No stop any more. The requests after it add some.
    Clear,
    Break(Break),
    Line(LineStop),
    Watch(Watch),
    /// A turn of this processor was made.
    TurnOf(u32),
    /// No processor runs anything any more.
    Idle,
    Turn,
    Next,
    Registers,
    Words(u32, u32, u32),
    Tree,
    Core,
    Trace(u64, u64),
    /// The steps from one on and before another, each with who made which instruction where.
    List(u64, u64),
    Translate(u32, u32),
    Changed(u64),
    Edit(Edit),
    Way(Vec<Choice>),
    Kept,
}

struct Words<'a>(SplitWhitespace<'a>);

impl<'a> Words<'a> {
    fn word(&mut self) -> Result<&'a str, String> {
        self.0.next().ok_or_else(|| "a word is missing".to_string())
    }

    fn number<T: FromStr>(&mut self) -> Result<T, String> {
        number(self.word()?)
    }

    fn rest(self) -> Vec<String> {
        self.0.map(str::to_string).collect()
    }
}

fn number<T: FromStr>(word: &str) -> Result<T, String> {
    word.parse().map_err(|_| format!("{word:?} is no number here"))
}

fn place(word: &str) -> Result<Place, String> {
    let (frame, index) = word.split_once(':').ok_or_else(|| format!("{word:?} is no word of a frame"))?;
    Ok((number(frame)?, number(index)?))
}

pub fn request(line: &str) -> Result<Request, String> {
    let mut words = Words(line.split_whitespace());
    Ok(match words.word()? {
        "load" => load(words)?,
        "go" => Request::Go(words.number()?),
        "run" => Request::Run(words.number()?),
        "back" => Request::Back(words.number()?),
        "turn" => Request::Turn,
        "next" => Request::Next,
        "registers" => Request::Registers,
        "words" => Request::Words(words.number()?, words.number()?, words.number()?),
        "tree" => Request::Tree,
        "core" => Request::Core,
        "trace" => Request::Trace(words.number()?, words.number()?),
        "list" => Request::List(words.number()?, words.number()?),
        "translate" => Request::Translate(words.number()?, words.number()?),
        "changed" => Request::Changed(words.number()?),
        "way" => Request::Way(words.0.map(choice).collect::<Result<_, _>>()?),
        "kept" => Request::Kept,
        "edit" => Request::Edit(edit(words)?),
        other => stop(other, words)?,
    })
}

fn load(mut words: Words<'_>) -> Result<Request, String> {
    let begin = match words.word()? {
        "seed" => Begin::Seed(words.number()?),
        "native" => Begin::Native(words.number()?),
        "slots" => Begin::Slots(words.number()?, words.number()?),
        "script" => Begin::Script,
        other => return Err(format!("{other:?} is no schedule")),
    };
    let every = words.number()?;
    let is_good = match begin {
        Begin::Seed(seed) => seed > 0,
        Begin::Native(children) => (1..=8).contains(&children),
        Begin::Slots(children, turns) => (1..=8).contains(&children) && turns <= 10_000_000,
        Begin::Script => true,
    };
    if !is_good || every == 0 {
        return Err("the schedule, or how often a state is kept, is outside its limits".to_string());
    }
    Ok(Request::Load { begin, every, path: words.rest().join(" ") })
}

fn stop(kind: &str, mut words: Words<'_>) -> Result<Request, String> {
    Ok(match kind {
        "clear" => Request::Clear,
        "break" => Request::Break(break_of(words)?),
        "line" => Request::Line(LineStop { id: words.number()?, words: words.rest() }),
        "watch" => {
            let (id, kind) = (words.number()?, words.word()?);
            let first = match kind {
                "word" => Watched::Word(place(words.word()?)?),
                "address" => Watched::Address(words.number()?, words.number()?),
                "register" => Watched::Register(words.number()?, words.number()?),
                other => return Err(format!("{other:?} can't be watched")),
            };
            Request::Watch(Watch { id, first, count: words.number()? })
        }
        "turn_of" => Request::TurnOf(words.number()?),
        "idle" => Request::Idle,
        other => return Err(format!("{other:?} is no request")),
    })
}

fn break_of(mut words: Words<'_>) -> Result<Break, String> {
    let mut found = Break { id: words.number()?, ..Break::default() };
    while let Some(word) = words.0.next() {
        match word {
            "place" => found.place = Some(place(words.word()?)?),
            "pc" => found.pc = Some(words.number()?),
            "part" => found.part = Some(words.number()?),
            "step" => found.step = Some(words.number()?),
            "if" => found.when = Some(condition(&mut words)?),
            other => return Err(format!("{other:?} is no part of a break")),
        }
    }
    Ok(found)
}

fn condition(words: &mut Words<'_>) -> Result<Condition, String> {
    let (left, comparison, right) = (operand(words.word()?)?, words.word()?, operand(words.word()?)?);
    if !["==", "!=", "<", ">", "<=", ">="].contains(&comparison) {
        return Err(format!("{comparison:?} is no comparison"));
    }
    Ok((left, comparison.to_string(), right))
}

fn operand(word: &str) -> Result<Operand, String> {
    Ok(match word.strip_prefix('r') {
        Some(register) => Operand::Register(number(register)?),
        None if word.contains(':') => Operand::Word(place(word)?),
        None => Operand::Number(number(word)?),
    })
}

fn edit(mut words: Words<'_>) -> Result<Edit, String> {
    Ok(match words.word()? {
        "seed" => Edit::Seed(words.number()?),
        "plan" => Edit::Plan(words.number()?, words.number()?, words.number()?),
        "no_plan" => Edit::NoPlan(words.number()?),
        "raise" => Edit::Raise(words.number()?),
        "register" => Edit::Register(words.number()?, words.number()?, words.number()?),
        "store" => Edit::Store(words.number()?, words.number()?, words.number()?),
        other => return Err(format!("{other:?} can't be changed")),
    })
}

fn choice(word: &str) -> Result<Choice, String> {
    match word.strip_prefix("raise") {
        Some(line) => Ok(Choice::Raise(number(line)?)),
        None => Ok(Choice::Turn(number(word)?)),
    }
}
