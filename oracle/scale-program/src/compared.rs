//! One script, as it is made: each command goes to the original and to ours, and all is compared.
use crate::contents::{compare_rest, Contents};
use crate::ours;
use crate::tally::{Seen, Tally};
use crate::wrong::Wrong;
use crate::Found;
use oracle::bench::{Bench, Store};
use oracle::generator::Taker;
use oracle::line::{parse, Answer, Command};
use oracle::rules::{unpack, BENCH_ROOM, PARKING};
use std::mem;
use std::thread;

/// So many commands go to ours in one run; and so many on stores that are larger than the bench's.
const AT_ONCE: usize = 64;
const AT_ONCE_LARGE: usize = 4096;

#[derive(Clone, Copy, PartialEq, Eq)]
pub enum How {
    /// Calls that judge first, lists compared after each.
    Judged,
    /// The same, and every check of the oracle's own is made.
    Checked,
    /// Runs of [`AT_ONCE`] commands, each judged once; lists compared after each.
    Inner,
}

impl How {
    pub fn named(name: &str) -> Option<How> {
        [How::Judged, How::Checked, How::Inner]
            .into_iter()
            .find(|how| how.name() == name)
    }

    pub fn name(self) -> &'static str {
        match self {
            How::Judged => "judged",
            How::Checked => "checked",
            How::Inner => "inner",
        }
    }
}

pub struct Difference {
    /// The command's number, counted from 1.
    pub number: usize,
    pub command: String,
    pub expected: String,
    pub got: String,
}

pub struct Compared {
    how: How,
    bench: Bench,
    ours: ours::Store,
    at_once: usize,
    /// How many lines are taken, malformed ones too; and how many have been.
    most: usize,
    lines: usize,
    commands: Vec<Command>,
    /// The last of the commands, which ours has not yet had, with their answers by the original.
    waiting: Vec<ours::Call>,
    expected: Vec<Answer>,
    contents: Contents,
    tally: Tally,
    wrong: Option<Wrong>,
    /// After so many commands a word was made wrong.
    made: Option<usize>,
    difference: Option<Difference>,
}

impl Compared {
    /// Takes so many lines, on memory for so many records.
    pub fn new(how: How, most: usize, room: u64, wrong: Option<Wrong>) -> Compared {
        let bench = match how {
            How::Checked => Bench::default(),
            _ => Bench::unchecked(),
        };
        let large = room > BENCH_ROOM;
        Compared {
            how,
            bench: bench.with_room(room).with_limits(),
            ours: ours::Store::room(room as usize),
            at_once: if large { AT_ONCE_LARGE } else { AT_ONCE },
            most,
            lines: 0,
            commands: vec![],
            waiting: vec![],
            expected: vec![],
            contents: Contents::default(),
            tally: Tally::default(),
            wrong,
            made: None,
            difference: None,
        }
    }

    /// Begins another script, on the memory that is there.
    pub fn start(&mut self) {
        self.commands.clear();
        self.lines = 0;
    }

    /// The script is at its end.
    pub fn end(&mut self) {
        self.flush();
        self.compare_rest();
        self.tally.scripts += 1;
    }

    /// The counts, and what differs, with the script so far as lines of the bench.
    pub fn done(&mut self, name: String) -> (Tally, Option<Found>) {
        let tally = mem::take(&mut self.tally);
        let found = self.difference.take().map(|difference| Found {
            script: self.commands[..difference.number]
                .iter()
                .map(|command| format!("{command}\n"))
                .collect(),
            name,
            at_once: self.made.is_none_or(|made| difference.number <= made),
            difference,
        });
        (tally, found)
    }

    /// Ours gets what is waiting.
    fn flush(&mut self) {
        if self.waiting.is_empty() {
            return;
        }
        let got = &mut vec![[u64::MAX; 6]; self.waiting.len()][..];
        if self.how == How::Inner {
            let ended = self.ours.run(self.waiting.as_flattened(), got.as_flattened_mut());
            assert_eq!(ended, (self.waiting.len(), ours::NO_WORDS), "all are answered");
        } else {
            for (call, got) in self.waiting.iter().zip(&mut *got) {
                *got = self.ours.call(*call);
            }
        }
        if let (Some(wrong), Some(_)) = (self.wrong, self.bench.store()) {
            if wrong.is_due(self.commands.len(), &self.ours) {
                wrong.make(got, &mut self.ours);
                self.wrong = None;
                self.made = Some(self.commands.len());
            }
        }
        let first = self.commands.len() - self.waiting.len();
        for (i, (expected, got)) in self.expected.iter().zip(&*got).enumerate() {
            if words(*expected) != *got && self.difference.is_none() {
                self.difference = Some(Difference {
                    number: first + i + 1,
                    command: self.commands[first + i].to_string(),
                    expected: expected.to_string(),
                    got: show(got),
                });
            }
        }
        self.waiting.clear();
        self.expected.clear();
        self.compare_lists();
    }

    fn compare_lists(&mut self) {
        let Some(store) = self.bench.store() else {
            return;
        };
        match self.contents.compare(store, &self.ours) {
            Ok(timers) => {
                let parked = self.contents.parked();
                self.tally.lists += 1;
                self.tally.lists_in_hand += u64::from(store.in_hand().is_some());
                self.tally.timers += timers;
                self.tally.parked.lists += u64::from(parked > 0);
                self.tally.parked.timers += parked;
                self.tally.parked.lists_in_hand += u64::from(seen(Some(store)).parking);
            }
            Err(lists) => self.differ(lists),
        }
    }

    /// The deadline that a command has just placed a timer at.
    fn placed(&self, command: Command, answer: Answer) -> Option<u64> {
        let key = match (command, answer) {
            (_, Answer::Key(key) | Answer::Out { key, .. }) => key,
            (Command::Reset { key, .. }, Answer::Ok) => key,
            _ => return None,
        };
        let store = self.bench.store()?;
        store.holds(key).then(|| store.deadline(unpack(key).1))
    }

    fn in_hand(&self) -> bool {
        self.bench.store().is_some_and(|store| store.in_hand().is_some())
    }

    fn compare_rest(&mut self) {
        if let Some(Err(rest)) = self
            .bench
            .store()
            .map(|store| compare_rest(store, &self.ours))
        {
            self.differ(rest);
        }
    }

    /// After the last command.
    fn differ(&mut self, [expected, got]: [String; 2]) {
        let number = self.commands.len();
        self.difference.get_or_insert_with(|| Difference {
            number,
            command: self.commands[number - 1].to_string(),
            expected,
            got,
        });
    }
}

impl Taker for Compared {
    fn full(&self) -> bool {
        self.lines >= self.most || self.difference.is_some()
    }

    fn store(&self) -> Option<&Store> {
        self.bench.store()
    }

    /// A malformed line is no call.
    fn line(&mut self, line: &[u8]) -> Answer {
        match parse(line, true) {
            Some(command) => self.command(command),
            None => {
                self.lines += 1;
                Answer::Bad
            }
        }
    }

    fn command(&mut self, command: Command) -> Answer {
        let alone = matches!(command, Command::Format { .. }) || self.bench.store().is_none();
        if alone && !self.commands.is_empty() {
            self.flush();
            self.compare_rest();
        }
        self.lines += 1;
        self.commands.push(command);
        let before = seen(self.bench.store());
        let in_hand = self.in_hand();
        let answer = self.bench.command(command);
        self.tally.count_hand(in_hand, self.in_hand(), command);
        let again = matches!(answer, Answer::Out { key, .. } if self.bench.store().is_some_and(|store| store.holds(key)));
        self.tally.count(command, answer, again);
        self.tally.past.count(before.elapsed, command, answer);
        let placed = self.placed(command, answer);
        self.tally.parked.count(before, seen(self.bench.store()), command, answer, placed);
        self.waiting.push(call(command));
        self.expected.push(answer);
        if alone || self.how != How::Inner || self.waiting.len() == self.at_once {
            self.flush();
        }
        answer
    }

    fn limits(&self) -> bool {
        true
    }
}

/// Elapsed of a store, 0 if there is none, and whether its parking list is in hand.
fn seen(store: Option<&Store>) -> Seen {
    Seen {
        elapsed: store.map_or(0, Store::elapsed),
        parking: store.and_then(Store::in_hand).is_some_and(|(_, place)| place == PARKING),
    }
}

/// A check of the oracle's that fails is a panic: this names the command.
impl Drop for Compared {
    fn drop(&mut self) {
        if let (true, Some(command)) = (thread::panicking(), self.commands.last()) {
            eprintln!(
                "scale: that was at command {}: {command}",
                self.commands.len()
            );
        }
    }
}

/// A command in the words of a run.
pub fn call(command: Command) -> ours::Call {
    match command {
        Command::Format { records, turn } => [ours::FORMAT, records, turn, 0],
        Command::Insert {
            value,
            when,
            period,
        } => [ours::INSERT, value, when, period],
        Command::Reset { key, when } => [ours::RESET, key, when, 0],
        Command::Remove { key } => [ours::REMOVE, key, 0, 0],
        Command::Poll { now } => [ours::POLL, now, 0, 0],
        Command::PollSome { now, limit } => [ours::POLL_SOME, now, limit, 0],
        Command::Wake => [ours::WAKE, 0, 0, 0],
        Command::Length => [ours::LENGTH, 0, 0, 0],
        Command::Clear => [ours::CLEAR, 0, 0, 0],
    }
}

/// An answer in the words of a run.
fn words(answer: Answer) -> ours::Answer {
    match answer {
        Answer::Ok => [ours::OK, 0, 0, 0, 0, 0],
        Answer::Key(key) => [ours::KEY, key, 0, 0, 0, 0],
        Answer::Gone { value, deadline } => [ours::GONE, value, deadline, 0, 0, 0],
        Answer::Out {
            key,
            value,
            deadline,
            moves,
            drains,
            last,
        } => [if last { ours::LAST } else { ours::OUT }, key, value, deadline, moves, drains],
        Answer::Nothing { moves, drains } => [ours::NOTHING, moves, drains, 0, 0, 0],
        Answer::Yet { moves, drains } => [ours::NOT_YET, moves, drains, 0, 0, 0],
        Answer::Wake(Some(time)) => [ours::AT, time, 0, 0, 0, 0],
        Answer::Wake(None) => [ours::NEVER, 0, 0, 0, 0, 0],
        Answer::Length(length) => [ours::LEN, length, 0, 0, 0, 0],
        Answer::No(number) => [ours::NO, number.into(), 0, 0, 0, 0],
        Answer::Bad => unreachable!("a command is no malformed line"),
    }
}

/// Our words with the name of their kind, all of them, for a part that should be 0 may not be.
fn show(words: &ours::Answer) -> String {
    let names = [
        "ok", "key", "gone", "out", "out last", "none", "wake", "wake -", "len", "no", "yet",
    ];
    let name = names.get(words[0] as usize).unwrap_or(&"no answer");
    format!("{name}, in words {words:?}")
}
