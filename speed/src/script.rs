//! Scripts of commands, as files of two little-endian words a command.
use std::fs;

pub const INSERT: u64 = 1;
pub const RESET: u64 = 2;
pub const REMOVE: u64 = 3;
pub const POLL: u64 = 4;
/// A poll with a limit that no store's moves reach.
pub const POLL_SOME: u64 = 5;
pub const WAKE: u64 = 6;
pub const LENGTH: u64 = 7;
pub const CLEAR: u64 = 8;
/// A format of as many records as the mix has.
pub const FORMAT: u64 = 0;

pub const SIZES: [usize; 2] = [64, 1024];
pub const MIXES: [&str; 3] = ["reset", "rush", "steady"];
/// The mix of runs alone, with every kind of call.
pub const EVERY_MIX: &str = "every";
pub const COMMANDS: usize = 1_000_000;

/// What to do in the top four bits and the key below; then the deadline or the time.
pub type Command = [u64; 2];

/// A command of a run: its kind, and its numbers with 0 behind them (crates/run/specs/Groups.antt).
pub type Asked = [u64; 4];
/// An answer of a run: its number, and its numbers with 0 behind them.
pub type Answer = [u64; 6];

/// The same command as a run has it; i is its place in the script, and the value of an insert.
pub fn asked(records: usize, i: usize, [first, second]: Command) -> Asked {
    let key = first & ((1 << 60) - 1);
    match first >> 60 {
        INSERT => [2, i as u64, second, 0],
        RESET => [3, key, second, 0],
        REMOVE => [4, key, 0, 0],
        POLL => [5, second, 0, 0],
        POLL_SOME => [11, second, 1 << 20, 0],
        LENGTH => [13, 0, 0, 0],
        CLEAR => [6, 0, 0, 0],
        FORMAT => [1, records as u64, 1, 0],
        _ => [12, 0, 0, 0],
    }
}

/// The whole script as a run has it.
pub fn all_asked(records: usize, script: &[Command]) -> Vec<Asked> {
    let commands = script.iter().enumerate();
    commands.map(|(i, &command)| asked(records, i, command)).collect()
}

/// The sum of a run's answers: of a key its record, and no moves and drains, which the original does not count.
pub fn sum_of(sum: u64, answers: &[Answer]) -> u64 {
    answers.iter().fold(sum, |sum, &[kind, a, b, c, ..]| match kind {
        1 => mixed(sum, a & 0xffff),
        3 => mixed(mixed(mixed(sum, a & 0xffff), b), c),
        2 | 6 | 8 => mixed(mixed(sum, a), b),
        _ => mixed(sum, kind),
    })
}

/// One answer more in the sum by which the sides are held against each other.
#[inline(always)]
pub fn mixed(sum: u64, x: u64) -> u64 {
    (sum ^ x).rotate_left(23).wrapping_add(x)
}

/// A mix for a store of so many records.
pub struct Mix {
    pub name: &'static str,
    pub records: usize,
    pub script: Vec<Command>,
}

impl Mix {
    fn file(&self, folder: &str) -> String {
        format!("{folder}/{}-{}", self.name, self.records)
    }

    pub fn write(&self, folder: &str) {
        let words = self.script.iter().flatten();
        let bytes: Vec<u8> = words.flat_map(|word| word.to_le_bytes()).collect();
        fs::write(self.file(folder), bytes).unwrap();
    }

    pub fn read(folder: &str, name: &'static str, records: usize) -> Mix {
        let script = vec![];
        let mut mix = Mix {
            name,
            records,
            script,
        };
        let bytes = fs::read(mix.file(folder)).unwrap();
        let word = |b: &[u8]| u64::from_le_bytes(b.try_into().unwrap());
        let command = |b: &[u8]| [word(&b[..8]), word(&b[8..])];
        mix.script = bytes.chunks(16).map(command).collect();
        mix
    }
}
