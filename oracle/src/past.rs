//! What became of deadlines below elapsed, once the clock was past the first hour, so that a generator that
//! misses one is found out.
use crate::line::{Answer, Command};
use crate::rules::OLDEST;
use std::fmt;
use std::ops::AddAssign;

const COMMANDS: [&str; 2] = ["insert", "reset"];
/// How far below elapsed: each about the limit by itself, and all others on either side.
const BELOW: [&str; 5] = ["more", "3600001", "3600000", "3599999", "less"];
/// The last: a full store or a dead key, judged before.
const FATES: [&str; 3] = ["taken", "no 11", "no 3 or 6"];

#[derive(Clone, Default)]
pub struct Past([[[u64; FATES.len()]; BELOW.len()]; COMMANDS.len()]);

impl Past {
    /// `elapsed` is the time before the command.
    pub fn count(&mut self, elapsed: u64, command: Command, answer: Answer) {
        let (kind, when) = match command {
            Command::Insert { when, .. } => (0, when),
            Command::Reset { when, .. } => (1, when),
            _ => return,
        };
        if elapsed <= OLDEST || when > elapsed {
            return;
        }
        let below = match elapsed - when {
            3_600_001 => 1,
            3_600_000 => 2,
            3_599_999 => 3,
            below => 4 * usize::from(below < OLDEST),
        };
        let fate = match answer {
            Answer::No(11) => 1,
            Answer::No(_) => 2,
            _ => 0,
        };
        self.0[kind][below][fate] += 1;
    }

    /// Deadlines whose right answer was never met.
    pub fn missing(&self) -> Vec<String> {
        let mut missing = vec![];
        for (kind, counts) in COMMANDS.iter().zip(&self.0) {
            for (i, (below, counts)) in BELOW.iter().zip(counts).enumerate() {
                if counts[usize::from(i < 2)] == 0 {
                    missing.push(format!("{kind} {below} below"));
                }
            }
            if counts[..2].iter().all(|counts| counts[2] == 0) {
                missing.push(format!("{kind} too old that is refused before"));
            }
        }
        missing
    }
}

impl AddAssign<&Past> for Past {
    fn add_assign(&mut self, other: &Past) {
        let to = self.0.iter_mut().flatten().flatten();
        to.zip(other.0.iter().flatten().flatten()).for_each(|(to, from)| *to += from);
    }
}

impl fmt::Display for Past {
    fn fmt(&self, f: &mut fmt::Formatter<'_>) -> fmt::Result {
        let kinds = COMMANDS.iter().zip(&self.0).map(|(kind, counts)| {
            let each = BELOW.iter().zip(counts);
            let each = each.map(|(below, [taken, old, before])| format!("{below}: {taken}/{old}/{before}"));
            format!("{kind} {}", each.collect::<Vec<_>>().join(", "))
        });
        let kinds = kinds.collect::<Vec<_>>().join("; ");
        write!(f, "so far below a late clock, {}: {kinds}", FATES.join("/"))
    }
}
