//! Command lines at random, aimed at the boundaries: one seed, one script. Who takes a line answers
//! it at once, so that elapsed, the pending timers and their keys are known.
use crate::bench::Store;
use crate::line::{Answer, Command};
use crate::malformed::malformed;
use crate::rng::Rng;
use crate::rules::{
    block, key, unpack, BENCH_ROOM, BLOCK_BITS, FARTHEST, LAST_TURN, MOST_RECORDS, OLDEST, WIDTHS,
};
use crate::script::Script;

/// Weights of insert, reset, remove, poll, wake, length, clear and malformed lines in a stretch.
const MIXES: [[u64; 8]; 6] = [
    [24, 2, 2, 4, 2, 0, 0, 0],
    [6, 24, 2, 6, 2, 0, 0, 0],
    [8, 4, 8, 8, 2, 2, 0, 0],
    [6, 2, 2, 24, 2, 0, 0, 0],
    [12, 6, 4, 12, 4, 2, 0, 3],
    [24, 12, 6, 24, 3, 3, 1, 6],
];
/// Most deadlines of a stretch lie within two to such a power of elapsed.
const REACHES: [u64; 9] = [3, 7, 8, 12, 13, 18, 24, 30, 36];
/// So far before its block's end the clock is brought where a stretch lives about that.
const BEFORE: [u64; 8] = [0, 1, 2, 63, 64, 70, 4160, 1 << 25];
const GIVEN: usize = 64;
/// Large stores begin at the edges of the bench's room and of the limit.
const EDGES: [u64; 6] = [
    BENCH_ROOM - 1,
    BENCH_ROOM,
    BENCH_ROOM + 1,
    MOST_RECORDS - 1,
    MOST_RECORDS + 1,
    MOST_RECORDS,
];

/// What one seed gives, on stores of any size.
pub fn generate(seed: u64, lines: usize, with_lists: bool) -> Script {
    generate_small(seed, lines, BENCH_ROOM, with_lists)
}

/// The same, on stores of at most `most_records`.
pub fn generate_small(seed: u64, lines: usize, most_records: u64, with_lists: bool) -> Script {
    added(seed, lines, most_records, Script::new(with_lists))
}

/// What one seed gives where polls may have a limit.
pub fn generate_limited(seed: u64, lines: usize, with_lists: bool) -> Script {
    added(seed, lines, BENCH_ROOM, Script::limited(with_lists))
}

fn added(seed: u64, lines: usize, most_records: u64, script: Script) -> Script {
    let mut taker = Lines {
        script,
        most: lines,
    };
    give(seed, most_records, &mut taker);
    taker.script
}

/// Who takes the lines that a seed gives.
pub trait Taker {
    /// It takes no more.
    fn full(&self) -> bool;
    /// What the lines are aimed at.
    fn store(&self) -> Option<&Store>;
    fn line(&mut self, line: &[u8]) -> Answer;
    fn command(&mut self, command: Command) -> Answer;
    /// It takes polls with a limit.
    fn limits(&self) -> bool;
}

struct Lines {
    script: Script,
    most: usize,
}

impl Taker for Lines {
    fn full(&self) -> bool {
        self.script.len() >= self.most
    }

    fn store(&self) -> Option<&Store> {
        self.script.bench().store()
    }

    fn line(&mut self, line: &[u8]) -> Answer {
        self.script.add(line)
    }

    fn command(&mut self, command: Command) -> Answer {
        self.line(command.to_string().as_bytes())
    }

    fn limits(&self) -> bool {
        self.script.bench().limits()
    }
}

/// Gives lines until the taker is full. If it has a store, they go on with that.
pub fn give(seed: u64, most_records: u64, taker: &mut impl Taker) {
    let mut generator = Generator {
        rng: Rng::new(seed),
        taker,
        most_records,
        given: vec![],
        reach: REACHES[0],
        repeats: true,
        edge: false,
        mix: MIXES[5],
    };
    generator.run();
}

struct Generator<'a, T> {
    rng: Rng,
    taker: &'a mut T,
    most_records: u64,
    /// Keys that were given out, many of them dead by now.
    given: Vec<u64>,
    reach: u64,
    /// Timers of this stretch may repeat.
    repeats: bool,
    /// It lives about the end of elapsed's block.
    edge: bool,
    mix: [u64; 8],
}

impl<T: Taker> Generator<'_, T> {
    fn run(&mut self) {
        if self.store().is_none() {
            self.start();
        }
        while !self.taker.full() {
            self.stretch();
        }
    }

    fn start(&mut self) {
        // These meet no store yet.
        for _ in 0..self.rng.below(6) {
            self.step();
        }
        if self.is_large() {
            for records in EDGES {
                self.command(Command::Format { records, turn: 1 });
                self.step();
            }
        }
        self.format();
    }

    fn store(&self) -> Option<&Store> {
        self.taker.store()
    }

    fn elapsed(&self) -> u64 {
        self.store().map_or(0, Store::elapsed)
    }

    fn send(&mut self, take: impl FnOnce(&mut T) -> Answer) -> Option<Answer> {
        if self.taker.full() {
            return None;
        }
        let answer = take(self.taker);
        if let Answer::Key(key) = answer {
            self.keep(key);
        }
        Some(answer)
    }

    fn command(&mut self, command: Command) -> Option<Answer> {
        self.send(|taker| taker.command(command))
    }

    fn keep(&mut self, key: u64) {
        if self.given.len() == GIVEN {
            let at = self.rng.below(GIVEN as u64) as usize;
            self.given.swap_remove(at);
        }
        self.given.push(key);
    }

    /// Some lines of one character, perhaps on a new store or at another time.
    fn stretch(&mut self) {
        if self.rng.chance(1, 5) {
            self.format();
        }
        self.reach = self.rng.pick(&REACHES);
        self.repeats = self.rng.chance(3, 4);
        self.mix = self.rng.pick(&MIXES);
        self.edge = self.rng.chance(1, 2);
        if self.edge {
            self.to_the_edge();
        }
        let seldom = if self.is_large() { 3 } else { 12 };
        if self.rng.chance(1, seldom) {
            self.rush();
        }
        let size = self.store().map_or(4, |store| store.size() as u64);
        let long = self.rng.chance(1, 3);
        let most = if long { 2 * size + 20 } else { 40 };
        for _ in 0..=self.rng.below(most) {
            self.step();
        }
    }

    /// Brings the clock to just before its block's end, if nothing is due before; now and then whatever is due.
    fn to_the_edge(&mut self) {
        let before = self.rng.pick(&BEFORE);
        let now = self.block_last() - before;
        if self.rng.chance(1, 3) && !self.is_large() {
            self.poll_until_none(now);
        } else {
            let poll = self.poll(now);
            self.command(poll);
        }
    }

    /// The last millisecond of elapsed's block.
    fn block_last(&self) -> u64 {
        self.elapsed() | FARTHEST
    }

    /// Where the next block starts. The last one has none.
    fn next_start(&self) -> Option<u64> {
        self.block_last().checked_add(1)
    }

    fn step(&mut self) {
        if let Some((now, _)) = self.store().and_then(Store::in_hand) {
            if self.in_hand(now) {
                return;
            }
        }
        if self.rng.chance(1, 40) {
            let now = self.now();
            self.poll_until_none(now);
            return;
        }
        let kind = self.kind();
        let command = self.one(kind);
        if kind == 7 {
            let line = malformed(&mut self.rng, &command.to_string());
            self.send(|taker| taker.line(&line));
        } else {
            self.command(command);
        }
    }

    /// A place in the mix, by its weights.
    fn kind(&mut self) -> usize {
        let mut at = self.rng.below(self.mix.iter().sum());
        let kind = self.mix.iter().position(|&weight| {
            let here = at < weight;
            at = at.saturating_sub(weight);
            here
        });
        kind.expect("the weights add up")
    }

    fn one(&mut self, kind: usize) -> Command {
        let lonely = self.some_pending().is_none() && self.rng.chance(9, 10);
        match kind {
            1 if !lonely => self.reset(),
            2 if !lonely => Command::Remove { key: self.key() },
            3 => {
                let now = self.now();
                self.poll(now)
            }
            4 => Command::Wake,
            5 => Command::Length,
            6 => Command::Clear,
            7 => {
                let kind = self.rng.below(7) as usize;
                self.one(kind)
            }
            _ => self.insert(),
        }
    }

    /// While a poll at `now` is in hand: it goes on, or is ended, or one is asked at another now. Says whether something was asked; else
    /// anything is, most of it refused.
    fn in_hand(&mut self, now: u64) -> bool {
        match self.rng.below(64) {
            0..26 => {
                let poll = self.poll(now);
                self.command(poll);
            }
            26 => {
                self.command(Command::Clear);
            }
            27 => {
                let format = self.odd_format();
                self.command(format);
            }
            28..30 => {
                let near = self.near(now);
                let poll = self.poll(near);
                self.command(poll);
            }
            _ => return false,
        }
        true
    }

    /// A poll, where it is taken three times of four with a limit.
    fn poll(&mut self, now: u64) -> Command {
        if !self.taker.limits() || self.rng.chance(1, 4) {
            return Command::Poll { now };
        }
        let limit = self.limit();
        Command::PollSome { now, limit }
    }

    /// None, one, two, a few; as many as are pending, or as their heights may be; about as many as are left of the poll in hand; no end of them.
    fn limit(&mut self) -> u64 {
        let (pending, left) = self.store().map_or((0, 0), |store| (store.pending().len() as u64, store.moves_left()));
        match self.rng.below(12) {
            0 | 1 => 0,
            2..=4 => 1,
            5 => 2,
            6 => self.rng.below(8),
            7 => self.rng.below(pending + 1),
            8 => self.rng.below(6 * pending + 1),
            9 | 10 => (left + self.rng.below(3)).saturating_sub(1),
            _ => u64::MAX - self.rng.below(2),
        }
    }

    /// Polls until one ends, with other commands in between. None if no more is taken.
    fn ended_poll(&mut self, now: u64) -> Option<Answer> {
        loop {
            let poll = self.poll(now);
            match self.command(poll)? {
                Answer::Yet { .. } if self.rng.chance(1, 3) => self.step(),
                Answer::Yet { .. } => (),
                answer => return Some(answer),
            }
        }
    }

    fn insert(&mut self) -> Command {
        let value = match self.rng.below(40) {
            0 => u64::MAX,
            1 => self.rng.next(),
            _ => self.rng.below(1000),
        };
        let when = self.when();
        let period = self.period(when);
        Command::Insert {
            value,
            when,
            period,
        }
    }

    /// None half of the time; else short, about a slot's width, within reach, a few times up to the block's end, about it and past it, about the
    /// longest that goes on for ever, or so long that the next time is the last.
    fn period(&mut self, when: u64) -> u64 {
        if !self.repeats || self.rng.chance(1, 2) {
            return 0;
        }
        let first = when.max(self.elapsed());
        let left = FARTHEST - (first & FARTHEST);
        match self.rng.below(17) {
            0 => 1,
            1 => 1 + self.rng.below(70),
            2..=4 => {
                let width = self.rng.pick(&WIDTHS);
                self.near(width)
            }
            5..=7 => 1 + self.ahead(),
            8 => self.near(FARTHEST),
            9 | 10 => self.near(left),
            11 | 12 => {
                let times = 2 + self.rng.below(4);
                self.near(left / times)
            }
            13 | 14 => left + 1 + self.ahead(),
            15 => self.near(FARTHEST - 63),
            _ => match self.rng.below(4) {
                0 => self.near(u64::MAX),
                1 => self.rng.next(),
                _ => self.near(u64::MAX - first),
            },
        }
    }

    fn reset(&mut self) -> Command {
        let key = self.key();
        let (_, record) = unpack(key);
        let again = self.rng.chance(1, 6);
        let when = match self.store() {
            Some(store) if again && record < store.size() => store.deadline(record),
            _ => self.when(),
        };
        Command::Reset { key, when }
    }

    /// Timers that repeat may go on for ever: after some polls each that comes out is taken away.
    fn poll_until_none(&mut self, now: u64) {
        let pending = self.store().map_or(0, |store| store.pending().len());
        let mut left = self.rng.below(pending as u64 + 20);
        while let Some(Answer::Out { key, .. }) = self.ended_poll(now) {
            if left > 0 {
                left -= 1;
            } else if self.store().is_some_and(|store| store.holds(key)) {
                self.command(Command::Remove { key });
            }
        }
    }

    /// Fills the store, then empties it by polls.
    fn rush(&mut self) {
        let same = self.rng.chance(1, 3).then(|| self.when());
        let same_period = same.map(|when| self.period(when));
        loop {
            let value = self.rng.below(1000);
            let when = same.unwrap_or_else(|| self.when());
            let period = same_period.unwrap_or_else(|| self.period(when));
            let insert = Command::Insert {
                value,
                when,
                period,
            };
            match self.command(insert) {
                Some(Answer::Key(_)) => (),
                Some(Answer::No(4 | 11)) if same.is_none() => (),
                _ => break,
            }
        }
        self.command(Command::Length);
        let now = self.now();
        self.poll_until_none(now);
        if self.rng.chance(1, 2) {
            let now = self.block_last().saturating_add(self.rng.pick(&[0, 1, 70, 1 << 30]));
            self.poll_until_none(now);
        }
    }

    /// A new store, half the time followed by a poll at a far time.
    fn format(&mut self) {
        let command = match self.rng.below(8) {
            0 | 1 => self.odd_format(),
            2 | 3 => self.smaller_format().unwrap_or_else(|| self.fair_format()),
            _ => self.fair_format(),
        };
        self.command(command);
        if self.rng.chance(1, 2) {
            let base = match self.rng.below(10) {
                0 => self.rng.below(1 << 20),
                1 => (1 + self.rng.below(8)) << BLOCK_BITS,
                2 | 3 => ((1 + self.rng.below(8)) << BLOCK_BITS) - self.rng.below(200),
                4 => u64::MAX - self.rng.below(1 << 40),
                5 => u64::MAX - self.rng.below(200),
                // The first clocks at which a deadline of 0 is too old.
                6 => OLDEST,
                // The seventh level of the original begins another turn.
                7 => ((1 + self.rng.below((1 << 22) - 1)) << 42) - self.rng.below(200),
                // Before the last block.
                8 => (u64::MAX << BLOCK_BITS) - self.rng.below(200),
                _ => self.rng.next(),
            };
            let now = self.near(base);
            self.command(Command::Poll { now });
        }
    }

    /// More records than the bench has room for.
    fn is_large(&self) -> bool {
        self.most_records > BENCH_ROOM
    }

    fn odd_format(&mut self) -> Command {
        let odd = if self.is_large() {
            [1023, 1025, MOST_RECORDS - 1, 0, 1024, MOST_RECORDS + 1, u64::MAX]
        } else {
            [1, 2, 1024, 0, 1025, 65536, u64::MAX]
        };
        Command::Format {
            records: self.rng.pick(&odd),
            turn: self.rng.pick(&[1, LAST_TURN, 0, LAST_TURN + 1, u64::MAX]),
        }
    }

    /// A smaller store with the turns of the one before, whose keys are then tried on it.
    fn smaller_format(&mut self) -> Option<Command> {
        let store = self.store()?;
        let pending = store.pending();
        let records = (*pending.last()?).max(1) as u64;
        let turn = (0..store.size()).map(|r| store.turn(r)).min()?;
        let last_keys = pending.iter().rev().take(20).map(|&r| store.key(r));
        for key in last_keys.collect::<Vec<_>>() {
            self.keep(key);
        }
        Some(Command::Format { records, turn })
    }

    fn fair_format(&mut self) -> Command {
        let records = match self.rng.below(8) {
            0..=4 if self.is_large() => MOST_RECORDS,
            5..=6 if self.is_large() => MOST_RECORDS - 1,
            _ if self.is_large() => 1 + self.rng.below(MOST_RECORDS),
            0..=4 => 1 + self.rng.below(8),
            5 => 1 + self.rng.below(64),
            6 => 1024,
            _ => 1 + self.rng.below(1024),
        };
        let turn = match self.rng.below(4) {
            0 => LAST_TURN - self.rng.below(4),
            1 => 1 + self.rng.below(LAST_TURN),
            _ => 1 + self.rng.below(3),
        };
        let records = records.min(self.most_records);
        Command::Format { records, turn }
    }

    fn some_pending(&mut self) -> Option<usize> {
        let pending = self.taker.store()?.pending();
        (!pending.is_empty()).then(|| self.rng.pick(pending))
    }

    fn some_deadline(&mut self) -> Option<u64> {
        let record = self.some_pending()?;
        self.store().map(|store| store.deadline(record))
    }

    /// The time itself half of the time, else one or two beside it.
    fn near(&mut self, time: u64) -> u64 {
        match self.rng.below(6) {
            0..=2 => time,
            3 => time.wrapping_add(1),
            4 => time.wrapping_sub(1),
            _ => time.wrapping_add(self.rng.below(5)).wrapping_sub(2),
        }
    }

    /// Where 2^64 is nearer it does not wrap: that would be too old, and gone back as a time to poll at.
    fn within_reach(&mut self) -> u64 {
        let elapsed = self.elapsed();
        let ahead = self.ahead();
        elapsed.checked_add(ahead).unwrap_or(elapsed | ahead)
    }

    fn ahead(&mut self) -> u64 {
        let bits = self.rng.below(self.reach + 1);
        self.rng.next() & ((1 << bits) - 1)
    }

    /// About a block's start that lies ahead: at it, beside it, about the start of a slot behind it, within reach of it, as far as may be.
    fn about_start(&mut self, start: u64) -> u64 {
        match self.rng.below(10) {
            0..4 => start,
            4 | 5 => self.near(start),
            6 => start - 1 - self.rng.below(70),
            7 => {
                let slots = self.rng.pick(&WIDTHS) * self.rng.below(65);
                self.near(start.saturating_add(slots))
            }
            8 => start.saturating_add(self.ahead()),
            _ => self.near(self.elapsed().saturating_add(FARTHEST)),
        }
    }

    /// A deadline.
    fn when(&mut self) -> u64 {
        if let (true, Some(start)) = (self.edge && self.rng.chance(1, 2), self.next_start()) {
            return self.about_start(start);
        }
        let elapsed = self.elapsed();
        let block_start = elapsed >> BLOCK_BITS << BLOCK_BITS;
        match self.rng.below(24) {
            0 => elapsed,
            1 => elapsed.wrapping_add(1 + self.rng.below(3)),
            2 => elapsed.wrapping_sub(1 + self.rng.below(70)),
            3 | 22 | 23 => self.past(),
            4..=7 => self.near_slot_start(),
            8 => {
                let blocks = block(elapsed).wrapping_add(self.rng.below(3));
                self.near(blocks << BLOCK_BITS)
            }
            9 => self.near(elapsed.wrapping_add(FARTHEST)),
            10 => self.near(block_start + FARTHEST),
            11 => match self.rng.below(4) {
                0 => self.near(u64::MAX),
                1 => self.rng.next(),
                2 => elapsed.wrapping_add(self.rng.below(1 << 38)),
                _ => block_start | (self.rng.next() & FARTHEST),
            },
            12..=14 => match self.some_deadline() {
                Some(deadline) if self.rng.chance(3, 4) => deadline,
                Some(deadline) => self.near(deadline),
                None => elapsed.wrapping_add(5),
            },
            _ => self.within_reach(),
        }
    }

    /// About the oldest that is taken; else mostly one that is. At an early clock it may have wrapped.
    fn past(&mut self) -> u64 {
        let elapsed = self.elapsed();
        let about = OLDEST - 1 + self.rng.below(3);
        match self.rng.below(8) {
            0 => self.rng.below(3),
            1 => elapsed.wrapping_sub(about),
            2..=4 => elapsed.saturating_sub(about),
            _ => elapsed.saturating_sub(self.rng.below(OLDEST)),
        }
    }

    /// Near the start of a slot ahead, at any level.
    fn near_slot_start(&mut self) -> u64 {
        let width = self.rng.pick(&WIDTHS);
        let far = self.rng.pick(&[4, 65]);
        let slots = (self.elapsed() / width).saturating_add(self.rng.below(far));
        self.near(slots.saturating_mul(width))
    }

    /// A time to poll at, seldom gone back.
    fn now(&mut self) -> u64 {
        if let (true, Some(start)) = (self.edge && self.rng.chance(1, 3), self.next_start()) {
            return match self.rng.below(8) {
                0..4 => start - 1 - self.rng.below(3),
                4 | 5 => start,
                _ => self.about_start(start),
            };
        }
        let elapsed = self.elapsed();
        match self.rng.below(24) {
            0..=3 => elapsed,
            4 => elapsed.wrapping_add(1),
            5 => elapsed.wrapping_sub(1),
            6..=9 => {
                let wake = self.store().and_then(Store::wheel_wake);
                self.near(wake.unwrap_or(elapsed))
            }
            10..=14 => self.now_near_deadline(),
            15 => self.far_now(),
            _ => self.within_reach(),
        }
    }

    /// Near some deadline, or near the start of a slot that holds it.
    fn now_near_deadline(&mut self) -> u64 {
        let elapsed = self.elapsed();
        let Some(deadline) = self.some_deadline() else {
            return elapsed;
        };
        let width = self.rng.pick(&WIDTHS);
        let exact = self.rng.chance(1, 2);
        let time = if exact {
            deadline
        } else {
            deadline / width * width
        };
        let now = self.near(time);
        let back = now < elapsed && self.rng.chance(1, 10);
        if back {
            now
        } else {
            now.max(elapsed)
        }
    }

    /// Far back, at the block's end, or (seldom, for it ends the store's use) far ahead.
    fn far_now(&mut self) -> u64 {
        let elapsed = self.elapsed();
        match self.rng.below(12) {
            0 => self.rng.below(2),
            1 => elapsed.wrapping_sub(self.rng.below(1 << 20)),
            2 => self.block_last(),
            3 => self.block_last().wrapping_add(1),
            4 if self.rng.chance(1, 20) => u64::MAX,
            5 if self.rng.chance(1, 20) => self.rng.next(),
            _ => elapsed,
        }
    }

    /// Mostly the key of a pending timer; else one that is dead, foreign or never given.
    fn key(&mut self) -> u64 {
        let live = match (self.some_pending(), self.store()) {
            (Some(record), Some(store)) => store.key(record),
            _ => key(1, 0),
        };
        let (turn, record) = unpack(live);
        let size = self.store().map_or(0, Store::size);
        match self.rng.below(40) {
            0 => live.wrapping_add(key(1, 0)),
            1 => live.wrapping_sub(key(1, 0)),
            2 => key(0, record),
            3 => key(turn, self.rng.below(1 << 16) as usize),
            4 => key(turn, size),
            5 if self.rng.chance(1, 3) => self.rng.next(),
            6 | 7 if !self.given.is_empty() => self.rng.pick(&self.given),
            8 if self.rng.chance(1, 4) => u64::MAX,
            _ => live,
        }
    }
}
