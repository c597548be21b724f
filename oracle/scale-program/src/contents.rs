//! What our store holds, read out of its memory, held against what the original holds.
use crate::ours::{self, FREE, N};
use oracle::bench::{Entry, Store};
use oracle::journal::recovered::Parts;
use oracle::rules::{EXPIRED, PARKING, SLOTS};
use std::fmt::Write;
use std::mem;

const NOBODY: u64 = 65535;

/// The mark of a retired record.
const RETIRED: u16 = 387;

/// Both sides' pending timers, kept from one comparison to the next.
#[derive(Default)]
pub struct Contents {
    original: Vec<Entry>,
    ours: Vec<Entry>,
}

impl Contents {
    /// Elapsed, the size, the poll in hand, and every pending timer: its place, its turn there, key, value, period, deadline.
    /// Answers how many timers there are, or what is expected and what is there.
    pub fn compare(&mut self, store: &Store, ours: &ours::Store) -> Result<u64, [String; 2]> {
        store.entries(&mut self.original);
        let read = read(ours, &mut self.ours);
        let size = store.size() as u64;
        if read.is_ok()
            && (ours.elapsed, ours.tops[N].into()) == (store.elapsed(), size)
            && hand(ours) == hand_words(store.in_hand())
            && self.ours == self.original
        {
            return Ok(self.ours.len() as u64);
        }
        let mut there = show(ours.tops[N].into(), ours.elapsed, hand(ours), &self.ours);
        if let Err(odd) = read {
            write!(there, "; {odd}").expect("memory");
        }
        let expected = show(size, store.elapsed(), hand_words(store.in_hand()), &self.original);
        Err([expected, there])
    }

    /// How many timers were parked.
    pub fn parked(&self) -> u64 {
        self.ours.iter().filter(|entry| entry.place == PARKING).count() as u64
    }
}

/// The place whose drain is in hand and the poll's now; nobody and 0 if none is.
fn hand_words(hand: Option<(u64, usize)>) -> [u64; 2] {
    hand.map_or([NOBODY, 0], |(now, place)| [place as u64, now])
}

/// The same of ours.
fn hand(ours: &ours::Store) -> [u64; 2] {
    [ours.hand.into(), ours.until]
}

/// All turns, values and periods, also of records that have left, and the free list, the next to be taken first.
pub fn compare_rest(store: &Store, ours: &ours::Store) -> Result<(), [String; 2]> {
    let turns: Vec<u64> = (0..store.size()).map(|record| store.turn(record)).collect();
    if turns != ours.turns[..store.size()] {
        return Err([turns, ours.turns.clone()].map(|turns| format!("turns {turns:?}")));
    }
    let values: Vec<u64> = store.values().flatten().collect();
    if values != ours.values[..2 * store.size()] {
        return Err([values, ours.values.clone()].map(|values| format!("values and periods {values:?}")));
    }
    let expected: Vec<usize> = store.free().collect();
    let (mut free, end) = free(ours, store.size());
    if end == NOBODY && free == expected {
        return Ok(());
    }
    free.push(end as usize);
    Err([
        format!("free {expected:?}"),
        format!("free {free:?} up to {NOBODY}"),
    ])
}

/// Our free list, the next to be taken first, and what stands at its end.
fn free(ours: &ours::Store, size: usize) -> (Vec<usize>, u64) {
    let mut free = vec![];
    let mut at = ours.tops[FREE].into();
    while at < size as u64 && free.len() < size {
        free.push(at as usize);
        at = ours.nexts[at as usize].into();
    }
    (free, at)
}

/// All that our words hold. An error says what is not as it must be between calls.
pub fn parts(ours: &ours::Store) -> Result<Parts, String> {
    let size = usize::from(ours.tops[N]);
    let mut entries = vec![];
    read(ours, &mut entries)?;
    let (free, end) = free(ours, size);
    if end != NOBODY {
        return Err(format!("the free list ends with {end}"));
    }
    let mut placed = vec![false; size];
    for &record in free.iter().chain(entries.iter().map(|entry| &entry.record)) {
        if mem::replace(&mut placed[record], true) {
            return Err(format!("{record} is in two places"));
        }
    }
    let retired: Vec<usize> = (0..size).filter(|&i| !placed[i]).collect();
    if let Some(record) = retired.iter().find(|&&i| ours.marks[i] != RETIRED) {
        return Err(format!("the mark of {record}"));
    }
    let hand = match hand(ours) {
        [NOBODY, 0] => None,
        [NOBODY, now] => return Err(format!("nobody in hand at {now}")),
        [place, now] => Some((now, place as usize)),
    };
    let record = |i: usize| [ours.turns[i], ours.values[2 * i], ours.deadlines[i], ours.values[2 * i + 1]];
    Ok(Parts {
        elapsed: ours.elapsed,
        hand,
        free,
        retired,
        pending: entries.iter().map(|entry| [entry.place, entry.record]).collect(),
        records: (0..size).map(record).collect(),
    })
}

/// Our pending timers by place, head first. An error says what is not as it must be between calls.
fn read(ours: &ours::Store, into: &mut Vec<Entry>) -> Result<(), String> {
    into.clear();
    for place in 0..PARKING {
        let (level, slot) = (place / SLOTS, place % SLOTS);
        let head = ours.heads[level][slot].into();
        let occupied = ours.occupied[level] >> slot & 1 == 1;
        if occupied != (head != NOBODY) {
            return Err(format!("occupied bit {level}.{slot}"));
        }
        walk(ours, place, head, into)?;
    }
    walk(ours, PARKING, ours.tops[ours::PARKING].into(), into)?;
    walk(ours, EXPIRED, ours.tops[ours::EXPIRED].into(), into)
}

fn walk(ours: &ours::Store, place: usize, head: u64, into: &mut Vec<Entry>) -> Result<(), String> {
    let most = ours.deadlines.len().min(ours.tops[N].into());
    // The head's back link is the tail.
    let tail = ours.prevs.get(head as usize).map_or(NOBODY, |&tail| tail.into());
    let (mut before, mut at) = (tail, head);
    while at != NOBODY {
        let record = at as usize;
        if record >= most || into.len() == most {
            return Err(format!("the list of place {place} goes on to {at}"));
        }
        if u64::from(ours.prevs[record]) != before {
            return Err(format!("the link back of {record}"));
        }
        if usize::from(ours.marks[record]) != place {
            return Err(format!("the mark of {record}"));
        }
        into.push(Entry {
            place,
            record,
            turn: ours.turns[record],
            value: ours.values[2 * record],
            period: ours.values[2 * record + 1],
            deadline: ours.deadlines[record],
        });
        (before, at) = (at, ours.nexts[record].into());
    }
    if before != tail {
        return Err(format!("the tail of place {place}"));
    }
    Ok(())
}

/// Size, elapsed and the poll in hand, if one is, and each timer as LEVEL.SLOT:RECORD/TURN=VALUE@DEADLINE+PERIOD, 6.0 for the parking list, x for
/// the expired stack.
fn show(size: u64, elapsed: u64, [place, now]: [u64; 2], entries: &[Entry]) -> String {
    let mut text = format!("n={size} e={elapsed}");
    if [place, now] != [NOBODY, 0] {
        write!(text, " hand={place}@{now}").expect("memory");
    }
    for entry in entries {
        let place = match entry.place {
            EXPIRED => "x".to_string(),
            place => format!("{}.{}", place / SLOTS, place % SLOTS),
        };
        write!(
            text,
            " {place}:{}/{}={}@{}+{}",
            entry.record, entry.turn, entry.value, entry.deadline, entry.period
        )
        .expect("memory");
    }
    text
}
