//! Runs of calls with patches, from any store on, and the journals that they write: one seed, one run. The calls are those
//! of [`crate::generator`], and the ends of patches stand between them.
use super::{parse, Patched, Step};
use crate::bench::Store;
use crate::generator::{give, Taker};
use crate::line::{Answer, Command};
use crate::rng::Rng;
use crate::rules::{BENCH_ROOM, MOST_RECORDS};

/// A patch is opened or closed before one call of so many; 0 for never.
const OFTEN: [u64; 5] = [0, 3, 8, 8, 25];

/// A line that was asked.
pub struct Asked {
    pub line: Vec<u8>,
    /// None of a malformed line.
    pub step: Option<Step>,
    pub answer: Answer,
    /// What it adds to the journal.
    pub written: Vec<u8>,
    /// A patch is open after it.
    pub open: bool,
}

/// The run of a seed, for a journal of its own: mostly short and on small stores.
pub fn journal(seed: u64) -> Vec<Asked> {
    let (lines, most_records) = match seed % 64 {
        0 => (30, MOST_RECORDS),
        n if n % 8 == 0 => (400, 64),
        n => (60, 1 << (n % 8)),
    };
    let lines = 1 + Rng::new(seed).below(lines) as usize;
    run(seed, lines, most_records, Patched::new(MOST_RECORDS))
}

/// So many lines for the bench with a journal, from where it stands.
pub fn lines(seed: u64, lines: usize, patched: Patched) -> Vec<Asked> {
    let most_records = match seed % 4 {
        0 => BENCH_ROOM,
        n => 1 << (2 * n),
    };
    run(seed, lines, most_records, patched)
}

fn run(seed: u64, lines: usize, most_records: u64, patched: Patched) -> Vec<Asked> {
    let mut rng = Rng::new(!seed);
    let mut asking = Asking {
        patched,
        often: rng.pick(&OFTEN),
        rng,
        most: lines,
        asked: vec![],
    };
    give(seed, most_records, &mut asking);
    asking.asked
}

/// The bytes that a run writes.
pub fn bytes(run: &[Asked]) -> Vec<u8> {
    run.iter()
        .flat_map(|asked| &asked.written)
        .copied()
        .collect()
}

struct Asking {
    patched: Patched,
    rng: Rng,
    often: u64,
    most: usize,
    asked: Vec<Asked>,
}

impl Asking {
    /// Perhaps clears, which is seldom asked otherwise. Perhaps opens or closes a patch; seldom one that is open, or none.
    fn between(&mut self) {
        if self.rng.chance(1, 60) {
            let clear = Command::Clear;
            self.ask(clear.to_string().into_bytes(), Some(Step::Asks(clear)));
        }
        if self.often == 0 || !self.rng.chance(1, self.often) {
            return;
        }
        let fitting = self.rng.chance(5, 6);
        let step = if fitting == self.patched.is_open() {
            Step::Close
        } else {
            Step::Open
        };
        self.ask(step.to_string().into_bytes(), Some(step));
    }

    fn ask(&mut self, line: Vec<u8>, step: Option<Step>) -> Answer {
        let answer = step.map_or(Answer::Bad, |step| self.patched.ask(step));
        self.asked.push(Asked {
            line,
            step,
            answer,
            written: step.map_or(vec![], |step| step.written(answer)),
            open: self.patched.is_open(),
        });
        answer
    }
}

impl Taker for Asking {
    fn full(&self) -> bool {
        self.asked.len() >= self.most
    }

    fn store(&self) -> Option<&Store> {
        self.patched.store()
    }

    fn line(&mut self, line: &[u8]) -> Answer {
        self.between();
        self.ask(line.to_vec(), parse(line))
    }

    fn command(&mut self, command: Command) -> Answer {
        self.between();
        self.ask(command.to_string().into_bytes(), Some(Step::Asks(command)))
    }

    fn limits(&self) -> bool {
        true
    }
}
