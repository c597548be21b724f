//! What was asked and answered, in numbers.
use oracle::line::{Answer, Command};
use oracle::past::Past;
use oracle::rules::{block, BLOCK_BITS};
use std::collections::BTreeMap;
use std::fmt;
use std::ops::AddAssign;

const COMMANDS: [&str; 9] = [
    "format", "insert", "reset", "remove", "poll", "poll with a limit", "wake", "length", "clear",
];
const ANSWERS: [&str; 19] = [
    "ok", "key", "gone", "out", "out last", "none", "wake", "wake -", "len", "no 1", "no 2",
    "no 3", "no 4", "no 6", "no 7", "no 8", "no 11", "no 12", "yet",
];
const DRAINS: usize = 7;
const ENDS: [&str; 4] = ["by a poll with a limit", "by a whole poll", "by clear", "by format"];
/// So many sizes are shown.
const LARGEST: usize = 3;

#[derive(Clone, Default)]
pub struct Tally {
    /// Seeds, or short sequences.
    pub scripts: u64,
    commands: [u64; COMMANDS.len()],
    answers: [u64; ANSWERS.len()],
    /// How often a poll made so many drains.
    polls_by_drains: [u64; DRAINS],
    moves: u64,
    drains: u64,
    /// Accepted inserts with a period, and how often such a timer was placed again.
    repeating: u64,
    again: u64,
    pub past: Past,
    /// How often stores of each size were made.
    sizes: BTreeMap<u64, u64>,
    /// How often the lists were compared, and the timers that were then in them.
    pub lists: u64,
    pub timers: u64,
    /// How often while a poll was in hand.
    pub lists_in_hand: u64,
    /// Polls that came to be in hand, how they ended (by a poll with a limit, a whole one, a clear, a format), and the commands asked meanwhile.
    begun: u64,
    ended: [u64; ENDS.len()],
    in_hand: u64,
    pub parked: Parked,
}

/// What became of timers in the next block.
#[derive(Clone, Copy, Default)]
pub struct Parked {
    /// Timers that were parked by an insert, a reset, a poll that placed them again.
    placed: [u64; 3],
    /// Parking lists that were drained; of them those to a multiple of 2^42, and those to the last block.
    drained: [u64; 3],
    /// Polls that came to have the parking list in hand, and the commands asked meanwhile.
    begun: u64,
    in_hand: u64,
    /// Handed out with a block's start as their deadline.
    at_start: u64,
    /// How often lists were compared with a timer parked, and the parked ones in them; how often with the parking list in hand.
    pub lists: u64,
    pub timers: u64,
    pub lists_in_hand: u64,
}

/// What a command found or left: elapsed, and whether the parking list was in hand.
#[derive(Clone, Copy)]
pub struct Seen {
    pub elapsed: u64,
    pub parking: bool,
}

impl Parked {
    /// `placed` is the deadline that the command placed a timer at.
    pub fn count(&mut self, before: Seen, after: Seen, command: Command, answer: Answer, placed: Option<u64>) {
        let parked = placed.is_some_and(|deadline| block(deadline) > block(after.elapsed));
        self.placed[match command {
            Command::Insert { .. } => 0,
            Command::Reset { .. } => 1,
            _ => 2,
        }] += u64::from(parked);
        // What is drained in the old block is handed out there.
        let drained = match answer {
            Answer::Out { drains, .. } | Answer::Nothing { drains, .. } | Answer::Yet { drains, .. } => {
                drains > 0 && block(after.elapsed) > block(before.elapsed)
            }
            _ => false,
        };
        let start = block(after.elapsed) << BLOCK_BITS;
        let kinds = [true, start.is_multiple_of(1 << 42), start == u64::MAX << BLOCK_BITS];
        add(&mut self.drained, &kinds.map(|kind| u64::from(drained && kind)));
        self.begun += u64::from(!before.parking && after.parking);
        self.in_hand += u64::from(before.parking);
        let at_start = |deadline: u64| deadline > 0 && deadline.is_multiple_of(1 << BLOCK_BITS);
        self.at_start += u64::from(matches!(answer, Answer::Out { deadline, .. } if at_start(deadline)));
    }
}

impl AddAssign<&Parked> for Parked {
    fn add_assign(&mut self, other: &Parked) {
        add(&mut self.placed, &other.placed);
        add(&mut self.drained, &other.drained);
        self.begun += other.begun;
        self.in_hand += other.in_hand;
        self.at_start += other.at_start;
        self.lists += other.lists;
        self.timers += other.timers;
        self.lists_in_hand += other.lists_in_hand;
    }
}

impl fmt::Display for Parked {
    fn fmt(&self, f: &mut fmt::Formatter<'_>) -> fmt::Result {
        let [insert, reset, again] = self.placed;
        let [drained, wide, last] = self.drained;
        writeln!(f, "  parked: {insert} by an insert, {reset} by a reset, {again} by a poll; out at a block's start: {}", self.at_start)?;
        writeln!(
            f,
            "  parking lists drained: {drained}, {wide} to a multiple of 2^42, {last} to the last block; in hand: {}, commands meanwhile: {}",
            self.begun, self.in_hand
        )?;
        write!(
            f,
            "  lists compared with a timer parked: {} times, {} parked ones; with the parking list in hand: {} times",
            self.lists, self.timers, self.lists_in_hand
        )
    }
}

fn add(to: &mut [u64], from: &[u64]) {
    to.iter_mut().zip(from).for_each(|(to, from)| *to += from);
}

impl Tally {
    /// `again`: the timer that came out was placed again.
    pub fn count(&mut self, command: Command, answer: Answer, again: bool) {
        self.commands[match command {
            Command::Format { .. } => 0,
            Command::Insert { .. } => 1,
            Command::Reset { .. } => 2,
            Command::Remove { .. } => 3,
            Command::Poll { .. } => 4,
            Command::PollSome { .. } => 5,
            Command::Wake => 6,
            Command::Length => 7,
            Command::Clear => 8,
        }] += 1;
        self.answers[match answer {
            Answer::Ok => 0,
            Answer::Key(_) => 1,
            Answer::Gone { .. } => 2,
            Answer::Out { last, .. } => 3 + usize::from(last),
            Answer::Nothing { .. } => 5,
            Answer::Wake(Some(_)) => 6,
            Answer::Wake(None) => 7,
            Answer::Length(_) => 8,
            Answer::No(number @ ..5) => 8 + usize::from(number),
            // 5 is given no more, 9 is the gauge's and 10 the tick's.
            Answer::No(number @ ..9) => 7 + usize::from(number),
            Answer::No(number) => 5 + usize::from(number),
            Answer::Yet { .. } => 18,
            Answer::Bad => unreachable!("a command is no malformed line"),
        }] += 1;
        if let Answer::Out { moves, drains, .. } | Answer::Nothing { moves, drains } | Answer::Yet { moves, drains } = answer {
            self.moves += moves;
            self.drains += drains;
            self.polls_by_drains[drains as usize] += 1;
        }
        self.again += u64::from(again);
        if let (Command::Insert { period: 1.., .. }, Answer::Key(_)) = (command, answer) {
            self.repeating += 1;
        }
        if let (Command::Format { records, .. }, Answer::Ok) = (command, answer) {
            *self.sizes.entry(records).or_default() += 1;
        }
    }

    /// Whether a poll was in hand before the command, and whether one is after it.
    pub fn count_hand(&mut self, before: bool, after: bool, command: Command) {
        self.in_hand += u64::from(before);
        self.begun += u64::from(!before && after);
        if before && !after {
            self.ended[match command {
                Command::PollSome { .. } => 0,
                Command::Poll { .. } => 1,
                Command::Clear => 2,
                _ => 3,
            }] += 1;
        }
    }

    pub fn commands(&self) -> u64 {
        self.commands.iter().sum()
    }

    /// The largest sizes, and how often a store of each was made.
    fn largest(&self) -> String {
        let last = self.sizes.iter().rev().take(LARGEST);
        let each: Vec<String> = last.map(|(size, count)| format!("{size}: {count}")).collect();
        each.join(", ")
    }
}

impl AddAssign<&Tally> for Tally {
    fn add_assign(&mut self, other: &Tally) {
        self.scripts += other.scripts;
        self.moves += other.moves;
        self.drains += other.drains;
        self.repeating += other.repeating;
        self.again += other.again;
        self.past += &other.past;
        self.parked += &other.parked;
        self.lists += other.lists;
        self.timers += other.timers;
        self.lists_in_hand += other.lists_in_hand;
        self.begun += other.begun;
        self.in_hand += other.in_hand;
        add(&mut self.ended, &other.ended);
        add(&mut self.commands, &other.commands);
        add(&mut self.answers, &other.answers);
        add(&mut self.polls_by_drains, &other.polls_by_drains);
        for (&size, count) in &other.sizes {
            *self.sizes.entry(size).or_default() += count;
        }
    }
}

impl fmt::Display for Tally {
    fn fmt(&self, f: &mut fmt::Formatter<'_>) -> fmt::Result {
        let named = |names: &[&str], counts: &[u64]| {
            let each = names.iter().zip(counts);
            let each: Vec<String> = each
                .map(|(name, count)| format!("{name}: {count}"))
                .collect();
            each.join(", ")
        };
        let by_drains = ["0", "1", "2", "3", "4", "5", "6"];
        writeln!(
            f,
            "  {} commands: {}",
            self.commands(),
            named(&COMMANDS, &self.commands)
        )?;
        writeln!(f, "  answers: {}", named(&ANSWERS, &self.answers))?;
        writeln!(
            f,
            "  moves: {}, drains: {}; polls by drains: {}",
            self.moves,
            self.drains,
            named(&by_drains, &self.polls_by_drains)
        )?;
        writeln!(
            f,
            "  repeating timers: {}, placed again {} times",
            self.repeating, self.again
        )?;
        writeln!(
            f,
            "  polls in hand: {}, ended {}; commands meanwhile: {}; lists compared meanwhile: {} times",
            self.begun,
            named(&ENDS, &self.ended),
            self.in_hand,
            self.lists_in_hand
        )?;
        writeln!(f, "{}", self.parked)?;
        writeln!(f, "  {}", self.past)?;
        writeln!(f, "  sizes of stores: {} different ones, the largest {}", self.sizes.len(), self.largest())?;
        write!(
            f,
            "  lists compared: {} times, {} timers in them",
            self.lists, self.timers
        )
    }
}
