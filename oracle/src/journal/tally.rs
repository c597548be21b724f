//! How often each thing that a journal can hold or come to was met, so that a generator that misses one is found out.
use super::edits::What;
use super::generator::Asked;
use super::{Reading, Step, ENTRY};
use crate::bench::Store;
use crate::line::{Answer, Command};
use crate::rules::{block, PARKING};
use std::collections::BTreeMap;
use std::fmt;
use std::ops::AddAssign;

/// Journals by what was done to them; calls that were written, by kind and, of the refused, by number; numbers that are not
/// written; what readings came to: `left out` is a patch that was not closed, `a nine` one that ends without its ten.
const NAMES: [&str; 46] = [
    "whole",
    "cut",
    "one bit",
    "more bits",
    "edited",
    "format",
    "insert",
    "repeating",
    "reset",
    "remove",
    "poll",
    "poll with a limit",
    "yet",
    "clear",
    "open",
    "close",
    "format in a patch",
    "format anew",
    "no 3",
    "no 4",
    "no 6",
    "no 7",
    "no 8",
    "no 11",
    "no 12",
    "no 1",
    "no 2",
    "no 13",
    "damage -",
    "damage kind",
    "damage zero",
    "damage pair",
    "damage refused-1",
    "damage refused-2",
    "damage refused-13",
    "damage in a patch",
    "left out",
    "kept nothing",
    "kept all",
    "a part",
    "a nine",
    "no store",
    "a poll in hand",
    "parked",
    "the parking list in hand",
    "retired",
];

#[derive(Default)]
pub struct Tally(BTreeMap<&'static str, u64>);

impl Tally {
    pub fn journals(&self) -> u64 {
        NAMES[..5]
            .iter()
            .map(|name| self.0.get(name).unwrap_or(&0))
            .sum()
    }

    pub fn missing(&self) -> Vec<&'static str> {
        let missing = |name: &&str| !self.0.contains_key(name);
        NAMES.into_iter().filter(missing).collect()
    }

    fn count(&mut self, name: &str) {
        let name = NAMES.into_iter().find(|&known| known == name);
        *self.0.entry(name.expect("a known name")).or_default() += 1;
    }

    fn count_if(&mut self, met: bool, name: &str) {
        if met {
            self.count(name);
        }
    }

    pub fn count_run(&mut self, run: &[Asked]) {
        let mut stores = 0;
        for asked in run {
            if let Answer::No(number) = asked.answer {
                self.count(&format!("no {number}"));
            }
            let Some(step) = asked.step.filter(|_| !asked.written.is_empty()) else {
                continue;
            };
            self.count(kind(step));
            self.count_if(matches!(asked.answer, Answer::Yet { .. }), "yet");
            if let Step::Asks(Command::Format { .. }) = step {
                self.count_if(asked.open, "format in a patch");
                self.count_if(stores > 0, "format anew");
                stores += 1;
            }
        }
    }

    pub fn count_reading(&mut self, what: &What, bytes: &[u8], reading: &Reading) {
        self.count(match what {
            What::Whole => "whole",
            What::Cut(_) => "cut",
            What::Flipped(bits) if bits.len() == 1 => "one bit",
            What::Flipped(_) => "more bits",
            What::Edited(_) => "edited",
        });
        let damaged = reading.damage.is_some();
        let rest = &bytes[reading.at..];
        match reading.damage {
            Some(damage) => self.count(&format!("damage {damage}")),
            None => self.count("damage -"),
        }
        self.count_if(damaged && reading.kept < reading.at, "damage in a patch");
        self.count_if(reading.kept < reading.at, "left out");
        self.count_if(reading.kept == 0, "kept nothing");
        self.count_if(reading.kept == bytes.len(), "kept all");
        self.count_if(!damaged && !rest.len().is_multiple_of(ENTRY), "a part");
        self.count_if(!damaged && rest.len() >= ENTRY, "a nine");
        let store = reading.left.store();
        self.count_if(store.is_none(), "no store");
        let hand = store.and_then(Store::in_hand);
        self.count_if(hand.is_some(), "a poll in hand");
        self.count_if(store.is_some_and(has_parked), "parked");
        self.count_if(hand.is_some_and(|(_, place)| place == PARKING), "the parking list in hand");
        self.count_if(
            store.is_some_and(|store| store.retired().next().is_some()),
            "retired",
        );
    }
}

/// A pending timer lies in another block than elapsed's.
fn has_parked(store: &Store) -> bool {
    let mut deadlines = store.pending().iter().map(|&record| store.deadline(record));
    deadlines.any(|deadline| block(deadline) > block(store.elapsed()))
}

fn kind(step: Step) -> &'static str {
    let command = match step {
        Step::Open => return "open",
        Step::Close => return "close",
        Step::Asks(command) => command,
    };
    match command {
        Command::Format { .. } => "format",
        Command::Insert { period: 0, .. } => "insert",
        Command::Insert { .. } => "repeating",
        Command::Reset { .. } => "reset",
        Command::Remove { .. } => "remove",
        Command::Poll { .. } => "poll",
        Command::PollSome { .. } => "poll with a limit",
        Command::Clear => "clear",
        Command::Wake | Command::Length => unreachable!("never written"),
    }
}

impl AddAssign<&Tally> for Tally {
    fn add_assign(&mut self, other: &Tally) {
        for (name, times) in &other.0 {
            *self.0.entry(name).or_default() += times;
        }
    }
}

impl fmt::Display for Tally {
    fn fmt(&self, f: &mut fmt::Formatter<'_>) -> fmt::Result {
        let counts = NAMES.map(|name| format!("{name}: {}", self.0.get(name).unwrap_or(&0)));
        write!(f, "{}", counts.join(", "))
    }
}
