//! Every sequence of a few commands over a small alphabet, each on a store of two records that can
//! leave once before their last turn.
use crate::line::Command;
use crate::rules::{key, BLOCK_BITS, FARTHEST, LAST_TURN, OLDEST};
use crate::script::Script;
use std::ops::Range;

const TURN: u64 = LAST_TURN - 1;
const LIMITS: [u64; 3] = [0, 1, 2];

/// What the times of the sequences lie about.
#[derive(Clone, Copy, PartialEq, Eq)]
pub enum About {
    /// The starts of the first slots.
    Slots,
    /// The end of a block.
    BlockEnds,
}

/// What the sequences about one point are made of.
struct Family {
    /// What comes before each.
    start: Vec<Command>,
    alphabet: Vec<Command>,
    /// What comes behind it while a poll may be in hand.
    goes_on: Vec<Command>,
    /// When all that is set can be due.
    end: u64,
}

impl About {
    /// With `limits` polls that have one too, and what may come while one is in hand.
    fn families(self, limits: bool) -> Vec<Family> {
        match self {
            About::Slots => vec![slots(limits)],
            // The first block's, one at which the original's seventh level begins another turn, the last but one's.
            About::BlockEnds => [1 << BLOCK_BITS, 1 << 42, u64::MAX << BLOCK_BITS].map(|start| block_end(start, limits)).into(),
        }
    }
}

fn slots(limits: bool) -> Family {
    let mut alphabet = bench_alphabet();
    let nows = [64, 4160, 4161];
    if limits {
        alphabet.extend(limited(nows));
        alphabet.extend([4160, 4161].map(|when| insert((when, 4096))));
        alphabet.extend([Command::Poll { now: 4160 }, Command::Length, format(2), format(0)]);
    }
    let goes_on = if limits { &nows[..] } else { &[] };
    Family {
        start: vec![],
        alphabet,
        goes_on: goes_on.iter().map(|&now| Command::PollSome { now, limit: 1 }).collect(),
        end: OLDEST + 8192,
    }
}

fn bench_alphabet() -> Vec<Command> {
    let [first, second] = [key(TURN, 0), key(TURN, 1)];
    let first_again = key(TURN + 1, 0);
    let once = [0, 1, 63, 64, 65, 4096, 4160].map(|when| (when, 0));
    // The first goes on from slot to slot, the second is parked when it is set again.
    let repeating = [(63, 1), (64, (1 << BLOCK_BITS) - 64)];
    let inserts = [&once[..], &repeating].concat();
    let inserts: Vec<Command> = inserts.into_iter().map(insert).collect();
    // After the last, 64 lies 3,600,001 below elapsed and 65 one less.
    let polls = [0, 1, 63, 64, 65, 4095, 4096, 4161, OLDEST + 65].map(|now| Command::Poll { now });
    let resets = resets([first, second], &[0, 64, 65, 4097]);
    let removes = [first, first_again].map(|key| Command::Remove { key });
    let others = [Command::Wake, Command::Clear];
    [&inserts[..], &polls, &resets, &removes, &others].concat()
}

/// The clock is 66 before the block that begins at `start`; deadlines lie before it, at it and in it.
fn block_end(start: u64, limits: bool) -> Family {
    let [first, second] = [key(TURN, 0), key(TURN, 1)];
    let clock = start - 66;
    // The last two: as far as may be, and one more.
    let once = [start - 1, start, start + 1, start + 64, start + 4160, clock + FARTHEST, clock + FARTHEST + 1].map(|when| (when, 0));
    // From slot to slot across the end, to its start exactly, and by the longest period that goes on.
    let repeating = [(start - 1, 1), (start - 65, 65), (start - 1, FARTHEST - 63)];
    let inserts: Vec<Command> = [&once[..], &repeating].concat().into_iter().map(insert).collect();
    let polls = [start - 65, start - 1, start, start + 64, start + 4160].map(|now| Command::Poll { now });
    let resets = resets([first, second], &[start - 1, start, start + 64]);
    let removes = [first, second].map(|key| Command::Remove { key });
    let others = [Command::Wake, Command::Length, Command::Clear, format(2), format(0)];
    let nows = [start - 1, start, start + 64];
    let limited = if limits { limited(nows) } else { vec![] };
    let goes_on = if limits { &nows[..] } else { &[] };
    Family {
        start: vec![Command::Poll { now: clock }],
        alphabet: [&inserts[..], &polls, &resets, &removes, &others, &limited].concat(),
        goes_on: goes_on.iter().map(|&now| Command::Poll { now }).collect(),
        end: start + (FARTHEST >> 1),
    }
}

fn limited(nows: [u64; 3]) -> Vec<Command> {
    nows.map(|now| LIMITS.map(|limit| Command::PollSome { now, limit })).concat()
}

fn resets(keys: [u64; 2], whens: &[u64]) -> Vec<Command> {
    let of = |key| whens.iter().map(move |&when| Command::Reset { key, when });
    keys.into_iter().flat_map(of).collect()
}

fn insert((when, period): (u64, u64)) -> Command {
    Command::Insert {
        value: 1,
        when,
        period,
    }
}

fn format(records: u64) -> Command {
    Command::Format { records, turn: 1 }
}

/// How many sequences of this depth there are.
pub fn count(about: About, depth: u32, limits: bool) -> u64 {
    let of = |family: &Family| (family.alphabet.len() as u64).pow(depth);
    about.families(limits).iter().map(of).sum()
}

/// Gives the sequences with these numbers, each with a format before it and four commands after it
/// that show what is left. With limits a poll that is in hand goes on before these, about a block end to its last move.
pub fn give(about: About, depth: u32, limits: bool, numbers: Range<u64>, mut take: impl FnMut(&[Command])) {
    let mut first = 0;
    for family in about.families(limits) {
        let letters = family.alphabet.len() as u64;
        let here = first..first + letters.pow(depth);
        let start = Command::Format {
            records: 2,
            turn: TURN,
        };
        let poll = Command::Poll { now: family.end };
        let end = [&family.goes_on[..], &[poll, poll, Command::Wake, Command::Length]].concat();
        for number in numbers.start.max(here.start)..numbers.end.min(here.end) {
            let letter = |place| family.alphabet[((number - first) / letters.pow(place) % letters) as usize];
            let middle: Vec<Command> = (0..depth).map(letter).collect();
            take(&[&[start][..], &family.start, &middle, &end].concat());
        }
        first = here.end;
    }
}

/// Adds them as lines.
pub fn add(about: About, depth: u32, numbers: Range<u64>, script: &mut Script) {
    give(about, depth, script.bench().limits(), numbers, |commands| {
        for command in commands {
            script.add(command.to_string().as_bytes());
        }
    });
}
