//! What the program `recovered` is to write: the length kept, the damage, and every part of the store.
use super::{Damage, Reading};
use crate::bench::Store;
use crate::rules::{EXPIRED, PARKING, SLOTS};
use std::fmt::Write;

/// All that there is to a store, whoever holds it.
pub struct Parts {
    pub elapsed: u64,
    /// The now of the poll in hand, and the place that its next move is taken from (02 [10]).
    pub hand: Option<(u64, usize)>,
    /// The next to be taken first.
    pub free: Vec<usize>,
    /// In rising number.
    pub retired: Vec<usize>,
    /// Place and record of each pending timer, by place, head first.
    pub pending: Vec<[usize; 2]>,
    /// Turn, value, deadline and period of each record.
    pub records: Vec<[u64; 4]>,
}

impl Parts {
    pub fn of(store: &Store) -> Parts {
        let mut entries = vec![];
        store.entries(&mut entries);
        let parts = |(record, [value, period]): (usize, [u64; 2])| {
            [store.turn(record), value, store.deadline(record), period]
        };
        Parts {
            elapsed: store.elapsed(),
            hand: store.in_hand(),
            free: store.free().collect(),
            retired: store.retired().collect(),
            pending: entries.iter().map(|e| [e.place, e.record]).collect(),
            records: store.values().enumerate().map(parts).collect(),
        }
    }
}

pub fn text(reading: &Reading) -> String {
    let parts = reading.left.store().map(Parts::of);
    show(reading.kept, reading.damage, parts.as_ref())
}

pub fn show(kept: usize, damage: Option<Damage>, store: Option<&Parts>) -> String {
    let damage = damage.map_or("-".to_string(), |damage| damage.to_string());
    let mut text = format!("kept {kept}\ndamage {damage}\n");
    match store {
        Some(store) => show_store(&mut text, store).expect("memory"),
        None => text += "store none\n",
    }
    text
}

fn show_store(text: &mut String, store: &Parts) -> std::fmt::Result {
    writeln!(text, "store {} {}", store.records.len(), store.elapsed)?;
    if let Some((now, place)) = store.hand {
        writeln!(text, "hand {now} {} {}", place / SLOTS, place % SLOTS)?;
    }
    writeln!(text, "free{}", runs(&store.free))?;
    writeln!(text, "retired{}", runs(&store.retired))?;
    // The expired stack comes before the slots, the parking list behind them.
    let (wheel, expired) = store
        .pending
        .split_at(store.pending.partition_point(|&[place, _]| place < EXPIRED));
    for list in [expired, wheel].concat().chunk_by(|a, b| a[0] == b[0]) {
        match list[0][0] {
            EXPIRED => write!(text, "expired")?,
            PARKING => write!(text, "parked")?,
            place => write!(text, "slot {} {}", place / SLOTS, place % SLOTS)?,
        }
        for [_, record] in list {
            write!(text, " {record}")?;
        }
        writeln!(text)?;
    }
    show_records(text, &store.records)
}

/// Numbers that rise by one are one run.
fn runs(records: &[usize]) -> String {
    let runs = records.chunk_by(|a, b| a + 1 == *b);
    runs.map(|run| format!(" {}..{}", run[0], run[run.len() - 1]))
        .collect()
}

/// Neighbours that are equal in all parts share a line.
fn show_records(text: &mut String, records: &[[u64; 4]]) -> std::fmt::Result {
    let mut first = 0;
    for run in records.chunk_by(|a, b| a == b) {
        let [turn, value, deadline, period] = run[0];
        let last = first + run.len() - 1;
        write!(text, "rec {first}..{last} turn {turn} value {value}")?;
        writeln!(text, " deadline {deadline} period {period}")?;
        first = last + 1;
    }
    Ok(())
}
