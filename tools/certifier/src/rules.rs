//! Rules: what is to hold at each state.

use crate::Stop;
use crate::explorer::Explorer;
use pip_model::Occupant;

/// What has a value at a state.
#[derive(Clone, Copy)]
enum Operand {
    Number(u32),
    /// A word of a frame.
    Word(u32, u32),
    /// The word at an address of a partition, whichever page is there.
    At(u32, u32),
    /// A register of a partition, where it runs.
    Of(u32, u32),
    /// A register of what runs on the processor that is asked. As above 16 is the pc, and 17 the partition.
    Own(u32),
}

#[derive(Clone, Copy)]
enum Token {
    Value(Operand),
    Compare(fn(&u32, &u32) -> bool),
    Join(fn(bool, bool) -> bool),
}

/// A condition that holds never, or always. One that speaks of what runs is asked of each processor that runs
/// something. It isn't asked where something in it has no value.
pub struct Rule {
    always: bool,
    tokens: Vec<Token>,
    is_own: bool,
}

/// A rule's words: `never` or `always`, then the condition, in which what is compared or joined comes before its sign.
pub fn rule_of(text: &str) -> Result<Rule, Stop> {
    let (kind, condition) = text.split_once(' ').unwrap_or_default();
    let tokens: Option<Vec<Token>> = condition.split(' ').map(token).collect();
    let tokens = tokens.ok_or(Stop::new(1, "bad rule"))?;
    let is_own = tokens.iter().any(|token| matches!(token, Token::Value(Operand::Own(_))));
    Ok(Rule { always: kind == "always", tokens, is_own })
}

fn token(word: &str) -> Option<Token> {
    Some(match word {
        "==" => Token::Compare(u32::eq),
        "!=" => Token::Compare(u32::ne),
        "<" => Token::Compare(u32::lt),
        ">" => Token::Compare(u32::gt),
        "<=" => Token::Compare(u32::le),
        ">=" => Token::Compare(u32::ge),
        "and" => Token::Join(|a, b| a && b),
        "or" => Token::Join(|a, b| a || b),
        _ => Token::Value(operand(word)?),
    })
}

fn operand(word: &str) -> Option<Operand> {
    let pair = |text: &str| {
        let (first, second) = text.split_once(':')?;
        Some((first.parse().ok()?, second.parse().ok()?))
    };
    Some(match word.split_at_checked(1)? {
        ("f", rest) => pair(rest).map(|(frame, index)| Operand::Word(frame, index))?,
        ("@", rest) => pair(rest).map(|(part, address)| Operand::At(part, address))?,
        ("p", rest) => pair(rest).map(|(part, register)| Operand::Of(part, register))?,
        ("r", rest) => Operand::Own(rest.parse().ok()?),
        _ => Operand::Number(word.parse().ok()?),
    })
}

impl Rule {
    /// Where the state that the machine is at breaks it: the words and registers by which it does, each with its value.
    pub fn broken(&self, explorer: &mut Explorer) -> Option<String> {
        let runs: Vec<Occupant> = explorer.processors().iter().flatten().copied().collect();
        let owns: Vec<Option<&Occupant>> = if self.is_own { runs.iter().map(Some).collect() } else { vec![None] };
        owns.into_iter().find_map(|own| {
            let mut shown = Vec::new();
            (self.holds(explorer, &runs, own, &mut shown)? != self.always).then(|| shown.join(" "))
        })
    }

    // Whether the condition holds; nothing where something has no value. What has one is shown.
    fn holds(
        &self,
        explorer: &mut Explorer,
        runs: &[Occupant],
        own: Option<&Occupant>,
        shown: &mut Vec<String>,
    ) -> Option<bool> {
        let (mut values, mut truths) = (Vec::new(), Vec::new());
        for token in &self.tokens {
            match token {
                Token::Value(Operand::Number(number)) => values.push(*number),
                Token::Value(operand) => {
                    let (place, value) = value(*operand, explorer, runs, own)?;
                    values.push(value);
                    let told = format!("{place} {value}");
                    if !shown.contains(&told) {
                        shown.push(told);
                    }
                }
                Token::Compare(compare) => {
                    let (right, left) = (values.pop()?, values.pop()?);
                    truths.push(compare(&left, &right));
                }
                Token::Join(join) => {
                    let (right, left) = (truths.pop()?, truths.pop()?);
                    truths.push(join(left, right));
                }
            }
        }
        truths.pop()
    }
}

// A value, and where it is: `fF:I` or `pP:R`.
fn value(
    operand: Operand,
    explorer: &mut Explorer,
    runs: &[Occupant],
    own: Option<&Occupant>,
) -> Option<(String, u32)> {
    let of_word = |explorer: &mut Explorer, (frame, index): (u32, u32)| {
        Some((format!("f{frame}:{index}"), explorer.word(frame, index)?))
    };
    let of_register = |runs: &Occupant, number: u32| {
        Some((format!("p{}:{number}", runs.name.number()), register(runs, number)?))
    };
    match operand {
        Operand::Number(number) => Some((String::new(), number)),
        Operand::Word(frame, index) => of_word(explorer, (frame, index)),
        Operand::At(part, address) => {
            let place = place_at(explorer, part, address)?;
            of_word(explorer, place)
        }
        Operand::Of(part, number) => of_register(runs.iter().find(|runs| runs.name.number() == part)?, number),
        Operand::Own(number) => of_register(own?, number),
    }
}

fn register(runs: &Occupant, number: u32) -> Option<u32> {
    match number {
        16 => Some(runs.ctx.pc),
        17 => Some(runs.name.number()),
        _ => runs.ctx.regs.get(number as usize).copied(),
    }
}

// Where the word at an address of a partition is, if it has a page there, whatever its rights are.
fn place_at(explorer: &mut Explorer, part: u32, address: u32) -> Option<(u32, u32)> {
    let directory = explorer.word(part, 3)?;
    let entry = explorer.word(directory, address >> 22)?;
    let row = explorer.word(entry / 4096, address >> 12 & 1023)?;
    if entry == 0 || row == 0 { None } else { Some((row / 4096, address % 4096 / 4)) }
}
