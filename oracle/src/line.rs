//! The bench's lines: commands read, answers written.
use std::fmt;

#[derive(Clone, Copy, PartialEq, Eq, Debug)]
pub enum Command {
    Format { records: u64, turn: u64 },
    /// A period of 0 is none: the timer does not repeat (02 [7]).
    Insert { value: u64, when: u64, period: u64 },
    Reset { key: u64, when: u64 },
    Remove { key: u64 },
    Poll { now: u64 },
    /// A poll that makes at most so many moves (02 [10]).
    PollSome { now: u64, limit: u64 },
    Wake,
    Length,
    Clear,
}

#[derive(Clone, Copy, PartialEq, Eq, Debug)]
pub enum Answer {
    Ok,
    Key(u64),
    Gone {
        value: u64,
        deadline: u64,
    },
    Out {
        key: u64,
        value: u64,
        deadline: u64,
        moves: u64,
        drains: u64,
        /// The timer repeats, and this was its last time: only of one with a period.
        last: bool,
    },
    Nothing {
        moves: u64,
        drains: u64,
    },
    /// "Not yet" (02 [10]), with the counts of this call.
    Yet {
        moves: u64,
        drains: u64,
    },
    Wake(Option<u64>),
    Length(u64),
    No(u8),
    Bad,
}

/// The lines of a text, without their newlines. A last line needs none.
pub fn lines(text: &[u8]) -> impl Iterator<Item = &[u8]> {
    text.split_inclusive(|&byte| byte == b'\n').map(bare)
}

pub fn bare(line: &[u8]) -> &[u8] {
    line.strip_suffix(b"\n").unwrap_or(line)
}

/// The command that a line holds, if it is well-formed. The bench has no line for a poll with a limit; where `limits` says so there is one
/// more, `q now limit`.
pub fn parse(line: &[u8], limits: bool) -> Option<Command> {
    if line.len() > 80 {
        return None;
    }
    let fields: Vec<&[u8]> = line.split(|&byte| byte == b' ').collect();
    let number = |i: usize| decimal(fields[i]);
    Some(match (fields[0], fields.len()) {
        (b"f", 3) => Command::Format {
            records: number(1)?,
            turn: number(2)?,
        },
        (b"i", 4) => Command::Insert {
            value: number(1)?,
            when: number(2)?,
            period: number(3)?,
        },
        (b"s", 3) => Command::Reset {
            key: number(1)?,
            when: number(2)?,
        },
        (b"r", 2) => Command::Remove { key: number(1)? },
        (b"p", 2) => Command::Poll { now: number(1)? },
        (b"q", 3) if limits => Command::PollSome {
            now: number(1)?,
            limit: number(2)?,
        },
        (b"w", 1) => Command::Wake,
        (b"l", 1) => Command::Length,
        (b"c", 1) => Command::Clear,
        _ => return None,
    })
}

/// A number with no sign and no spare zero that fits a u64.
fn decimal(field: &[u8]) -> Option<u64> {
    if field.is_empty() || (field[0] == b'0' && field.len() > 1) {
        return None;
    }
    field.iter().try_fold(0u64, |sum, byte| {
        let digit = byte.is_ascii_digit().then(|| u64::from(byte - b'0'))?;
        sum.checked_mul(10)?.checked_add(digit)
    })
}

impl fmt::Display for Command {
    fn fmt(&self, f: &mut fmt::Formatter<'_>) -> fmt::Result {
        match *self {
            Command::Format { records, turn } => write!(f, "f {records} {turn}"),
            Command::Insert {
                value,
                when,
                period,
            } => write!(f, "i {value} {when} {period}"),
            Command::Reset { key, when } => write!(f, "s {key} {when}"),
            Command::Remove { key } => write!(f, "r {key}"),
            Command::Poll { now } => write!(f, "p {now}"),
            Command::PollSome { now, limit } => write!(f, "q {now} {limit}"),
            Command::Wake => write!(f, "w"),
            Command::Length => write!(f, "l"),
            Command::Clear => write!(f, "c"),
        }
    }
}

impl fmt::Display for Answer {
    fn fmt(&self, f: &mut fmt::Formatter<'_>) -> fmt::Result {
        match *self {
            Answer::Ok => write!(f, "ok"),
            Answer::Key(key) => write!(f, "key {key}"),
            Answer::Gone { value, deadline } => write!(f, "gone {value} {deadline}"),
            Answer::Out {
                key,
                value,
                deadline,
                moves,
                drains,
                last,
            } => {
                let end = if last { " last" } else { "" };
                write!(f, "out {key} {value} {deadline} {moves} {drains}{end}")
            }
            Answer::Nothing { moves, drains } => write!(f, "none {moves} {drains}"),
            Answer::Yet { moves, drains } => write!(f, "yet {moves} {drains}"),
            Answer::Wake(Some(time)) => write!(f, "wake {time}"),
            Answer::Wake(None) => write!(f, "wake -"),
            Answer::Length(length) => write!(f, "len {length}"),
            Answer::No(number) => write!(f, "no {number}"),
            Answer::Bad => write!(f, "bad"),
        }
    }
}
