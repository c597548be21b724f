//! The journal (02 [9]): the bytes of a call, and a second reading of such bytes, from the paper's words.
//! The store that it leaves is the original's, like every store here.
pub mod cases;
pub mod compare;
pub mod edits;
pub mod generator;
pub mod kills;
pub mod naive;
pub mod program;
pub mod recovered;
pub mod serve;
pub mod tally;

use crate::bench::{Bench, Store};
use crate::line::{self, Answer, Command};
use crate::rules::MOST_RECORDS;
use std::fmt;

/// "18 bytes each".
pub const ENTRY: usize = 18;

/// A call of the store, or an end of a patch: "open and close read no store".
#[derive(Clone, Copy, PartialEq, Eq, Debug)]
pub enum Step {
    Asks(Command),
    Open,
    Close,
}

/// What replay names, in the order in which an entry is judged.
#[derive(Clone, Copy, PartialEq, Eq, Debug)]
pub enum Damage {
    /// "A bad kind".
    Kind,
    /// "A 1 where zero is due".
    Zero,
    /// "A broken pair".
    Pair,
    /// "A call that gets 1, 2 or 13".
    Refused(u8),
}

/// What a line of the bench with a journal holds: `o` opens a patch, `e` ends it.
pub fn parse(line: &[u8]) -> Option<Step> {
    match line {
        b"o" => Some(Step::Open),
        b"e" => Some(Step::Close),
        _ => line::parse(line, true).map(Step::Asks),
    }
}

impl Step {
    /// Its entries. Next wake and length cannot change the store and have none.
    pub fn bytes(self) -> Vec<u8> {
        let command = match self {
            Step::Open => return entry(7, 0, 0),
            Step::Close => return entry(8, 0, 0),
            Step::Asks(command) => command,
        };
        match command {
            Command::Format { records, turn } => entry(1, records, turn),
            Command::Insert {
                value,
                when,
                period,
            } => match period {
                0 => entry(2, value, when),
                _ => [entry(9, value, when), entry(10, period, 0)].concat(),
            },
            Command::Reset { key, when } => entry(3, key, when),
            Command::Remove { key } => entry(4, key, 0),
            Command::Poll { now } => entry(5, now, 0),
            // "In the journal each such call is kind 11 (now, limit)" (02 [10]).
            Command::PollSome { now, limit } => entry(11, now, limit),
            Command::Clear => entry(6, 0, 0),
            Command::Wake | Command::Length => vec![],
        }
    }

    /// What is written of it when it got this answer: nothing of "one refused with 1, 2 or 13".
    pub fn written(self, answer: Answer) -> Vec<u8> {
        match unwritten(answer) {
            Some(_) => vec![],
            None => self.bytes(),
        }
    }
}

/// The number of a refusal that is not written.
fn unwritten(answer: Answer) -> Option<u8> {
    match answer {
        Answer::No(number @ (1 | 2 | 13)) => Some(number),
        _ => None,
    }
}

/// "Most significant first: kind in 4 bits, 12 zero bits, two 64-bit fields".
pub fn entry(kind: u16, first: u64, second: u64) -> Vec<u8> {
    let head = (kind << 12).to_be_bytes();
    [&head[..], &first.to_be_bytes(), &second.to_be_bytes()].concat()
}

/// The bench with patches: no store at first, and no patch open.
pub struct Patched {
    bench: Bench,
    open: bool,
}

impl Patched {
    /// On slices for so many records.
    pub fn new(room: u64) -> Patched {
        Patched {
            bench: Bench::unchecked().with_room(room),
            open: false,
        }
    }

    /// The same after these steps.
    pub fn after(room: u64, steps: &[Step]) -> Patched {
        let mut patched = Patched::new(room);
        for &step in steps {
            patched.ask(step);
        }
        patched
    }

    /// "A second open, or a close without an open, is refused with 13".
    pub fn ask(&mut self, step: Step) -> Answer {
        match step {
            Step::Asks(command) => self.bench.command(command),
            Step::Open if self.open => Answer::No(13),
            Step::Close if !self.open => Answer::No(13),
            Step::Open | Step::Close => {
                self.open = !self.open;
                Answer::Ok
            }
        }
    }

    pub fn is_open(&self) -> bool {
        self.open
    }

    pub fn store(&self) -> Option<&Store> {
        self.bench.store()
    }
}

/// What the bytes of a journal come to.
pub struct Reading {
    /// "The length kept, from which writing goes on".
    pub kept: usize,
    /// Where reading stopped: behind what is kept, if a patch was open there.
    pub at: usize,
    pub damage: Option<Damage>,
    /// The calls that are kept.
    pub steps: Vec<Step>,
    /// The store after them.
    pub left: Patched,
}

/// Reads into slices that are long enough for any store.
pub fn read(bytes: &[u8]) -> Reading {
    read_into(MOST_RECORDS, bytes)
}

/// Each call is made, for that tells what it gets. If a patch was not closed, those that stand before it are made
/// once more, from no store: the original cannot take a call back.
pub fn read_into(room: u64, bytes: &[u8]) -> Reading {
    let mut left = Patched::new(room);
    let mut steps = vec![];
    let (mut at, mut kept, mut whole) = (0, 0, 0);
    let damage = loop {
        let (step, size) = match next(&bytes[at..]) {
            Ok(next) => next,
            Err(end) => break end,
        };
        if let Some(number) = unwritten(left.ask(step)) {
            break Some(Damage::Refused(number));
        }
        steps.push(step);
        at += size;
        if !left.is_open() {
            (kept, whole) = (at, steps.len());
        }
    };
    if whole < steps.len() {
        steps.truncate(whole);
        left = Patched::after(room, &steps);
    }
    Reading {
        kept,
        at,
        damage,
        steps,
        left,
    }
}

/// The step that the bytes begin with, and its length; or the damage, or none at a cut.
fn next(bytes: &[u8]) -> Result<(Step, usize), Option<Damage>> {
    let [kind, first, second] = next_entry(bytes)?;
    let step = match kind {
        1 => Step::Asks(Command::Format {
            records: first,
            turn: second,
        }),
        2 => Step::Asks(insert(first, second, 0)),
        3 => Step::Asks(Command::Reset {
            key: first,
            when: second,
        }),
        4 => Step::Asks(Command::Remove { key: first }),
        5 => Step::Asks(Command::Poll { now: first }),
        6 => Step::Asks(Command::Clear),
        11 => Step::Asks(Command::PollSome {
            now: first,
            limit: second,
        }),
        7 => Step::Open,
        8 => Step::Close,
        9 => {
            let [kind, period, _] = next_entry(&bytes[ENTRY..])?;
            if kind != 10 || period == 0 {
                return Err(Some(Damage::Pair));
            }
            return Ok((Step::Asks(insert(first, second, period)), 2 * ENTRY));
        }
        _ => return Err(Some(Damage::Pair)),
    };
    Ok((step, ENTRY))
}

fn insert(value: u64, when: u64, period: u64) -> Command {
    Command::Insert {
        value,
        when,
        period,
    }
}

/// Kind and fields of the entry that the bytes begin with, judged by itself. A part of one is a cut, whatever it holds.
fn next_entry(bytes: &[u8]) -> Result<[u64; 3], Option<Damage>> {
    let bytes: &[u8; ENTRY] = bytes.first_chunk().ok_or(None)?;
    let number = |from: usize, to: usize| {
        let bytes = bytes[from..to].iter();
        bytes.fold(0, |sum, &byte| sum << 8 | u64::from(byte))
    };
    let [head, first, second] = [number(0, 2), number(2, 10), number(10, 18)];
    let due_zero = match head >> 12 {
        1..=3 | 9 | 11 => 0,
        4 | 5 | 10 => second,
        6..=8 => first | second,
        _ => return Err(Some(Damage::Kind)),
    };
    if head % 4096 != 0 || due_zero != 0 {
        return Err(Some(Damage::Zero));
    }
    Ok([head >> 12, first, second])
}

impl fmt::Display for Step {
    fn fmt(&self, f: &mut fmt::Formatter<'_>) -> fmt::Result {
        match self {
            Step::Asks(command) => write!(f, "{command}"),
            Step::Open => write!(f, "o"),
            Step::Close => write!(f, "e"),
        }
    }
}

impl fmt::Display for Damage {
    fn fmt(&self, f: &mut fmt::Formatter<'_>) -> fmt::Result {
        match self {
            Damage::Kind => write!(f, "kind"),
            Damage::Zero => write!(f, "zero"),
            Damage::Pair => write!(f, "pair"),
            Damage::Refused(number) => write!(f, "refused-{number}"),
        }
    }
}
