//! The replay bench: a line in, an answer out.
use crate::line::{parse, Answer, Command};
use crate::rules::{BENCH_ROOM, LAST_TURN, MOST_RECORDS};
pub use crate::store::{Entry, Store};
use std::thread;

pub struct Bench {
    store: Option<Store>,
    lines: u64,
    /// So many records the lent slices are long enough for.
    room: u64,
    /// It knows the line of a poll with a limit.
    limits: bool,
    /// The rules are not held against the original. Its own assertions are live, and both its forms
    /// must still answer the same.
    unchecked: bool,
}

impl Default for Bench {
    fn default() -> Bench {
        Bench {
            store: None,
            lines: 0,
            room: BENCH_ROOM,
            limits: false,
            unchecked: false,
        }
    }
}

impl Bench {
    pub fn unchecked() -> Bench {
        Bench {
            unchecked: true,
            ..Bench::default()
        }
    }

    /// The same with other slices.
    pub fn with_room(self, room: u64) -> Bench {
        Bench { room, ..self }
    }

    /// The same with the line of a poll with a limit, `q now limit`.
    pub fn with_limits(self) -> Bench {
        Bench {
            limits: true,
            ..self
        }
    }

    pub fn limits(&self) -> bool {
        self.limits
    }

    pub fn store(&self) -> Option<&Store> {
        self.store.as_ref()
    }

    pub fn line(&mut self, line: &[u8]) -> Answer {
        self.lines += 1;
        let _name_it = NameIt(self.lines, line);
        parse(line, self.limits).map_or(Answer::Bad, |command| self.command(command))
    }

    pub fn command(&mut self, command: Command) -> Answer {
        let answer = self.run(command);
        if let Some(store) = &self.store {
            store.check_sound();
        }
        answer
    }

    fn run(&mut self, command: Command) -> Answer {
        if let Command::Format { records, turn } = command {
            return self.format(records, turn);
        }
        let Some(store) = &mut self.store else {
            return Answer::No(2);
        };
        match command {
            Command::Format { .. } => unreachable!("answered above"),
            Command::Insert {
                value,
                when,
                period,
            } => store.insert(value, when, period),
            Command::Reset { key, when } => store.reset(key, when),
            Command::Remove { key } => store.remove(key),
            Command::Poll { now } => store.poll(now),
            Command::PollSome { now, limit } => store.poll_some(now, limit),
            Command::Wake => store.wake(),
            Command::Length => store.length(),
            Command::Clear => store.clear(),
        }
    }

    fn format(&mut self, records: u64, turn: u64) -> Answer {
        if !(1..=MOST_RECORDS.min(self.room)).contains(&records) {
            return Answer::No(1);
        }
        if !(1..=LAST_TURN).contains(&turn) {
            return Answer::No(8);
        }
        self.store = Some(Store::new(records as usize, turn, !self.unchecked));
        Answer::Ok
    }
}

/// Names the line at which a check failed.
struct NameIt<'a>(u64, &'a [u8]);

impl Drop for NameIt<'_> {
    fn drop(&mut self) {
        if thread::panicking() {
            eprintln!(
                "oracle: that was at line {}: {}",
                self.0,
                self.1.escape_ascii()
            );
        }
    }
}
