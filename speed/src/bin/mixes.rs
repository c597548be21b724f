//! Writes the mixes for each size of store: mixes FOLDER. The records that keys name are those of the original, run beside.
#[allow(dead_code)] // the oracle draws in more ways
#[path = "../../../oracle/src/rng.rs"]
mod rng;

use rng::Rng;
use speed::original::Queue;
use speed::script::{Command, Mix, CLEAR, COMMANDS, EVERY_MIX, FORMAT, INSERT, LENGTH, MIXES, POLL, POLL_SOME, REMOVE, RESET, SIZES, WAKE};

const DAY: u64 = 86_400_000;

fn main() {
    let folder = std::env::args().nth(1).expect("a folder");
    for records in SIZES {
        for name in MIXES.into_iter().chain([EVERY_MIX]) {
            let (make, seed): (fn(&mut Maker), u64) = match name {
                "reset" => (resets, 12),
                "rush" => (rushes, 11),
                EVERY_MIX => (every, 14),
                _ => (steadies, 13),
            };
            let mut maker = Maker::new(records, seed);
            make(&mut maker);
            let mut script = maker.script;
            script.truncate(COMMANDS);
            let mix = Mix {
                name,
                records,
                script,
            };
            mix.write(&folder);
        }
    }
}

/// All records pending; of 100 commands 85 resets, 10 polls with the clock up to 20 ms on, 5 next wakes; what is handed out is replaced.
fn resets(m: &mut Maker) {
    let mut clock = 0;
    m.fill(clock, m.turns.len());
    while m.wanted() {
        match m.rng.below(100) {
            0..=84 => {
                let when = clock + m.wide();
                m.reset(when);
            }
            85..=94 => {
                clock += m.rng.below(21);
                if m.poll(clock) {
                    let when = clock + m.wide();
                    m.insert(when);
                }
            }
            _ => m.wake(),
        }
    }
}

/// All records filled, then polled a day later until nothing is left; again and again.
fn rushes(m: &mut Maker) {
    let mut clock = 0;
    while m.wanted() {
        let elapsed = m.queue.elapsed();
        if elapsed >> 36 != (elapsed + DAY) >> 36 {
            clock = ((elapsed >> 36) + 1) << 36;
            m.poll(clock);
        }
        m.fill(clock, m.turns.len());
        clock += DAY;
        while m.poll(clock) {}
    }
}

/// Nearly all records pending, deadlines up to 20 s ahead, the clock one ms on at each poll; all calls.
fn steadies(m: &mut Maker) {
    let n = m.turns.len();
    let mut clock = 0;
    while m.live.len() < n * 1000 / 1024 {
        let when = clock + 1 + m.rng.below(20_000);
        m.insert(when);
    }
    while m.wanted() {
        let when = clock + 1 + m.rng.below(20_000);
        match m.rng.below(100) {
            0..=32 => {
                clock += 1;
                while m.poll(clock) {}
            }
            33..=57 => m.reset(when),
            58..=74 if m.live.len() > n * 900 / 1024 => m.remove(),
            58..=74 => m.insert(when),
            75..=97 if m.live.len() < n => m.insert(when),
            75..=97 => m.reset(when),
            _ => m.wake(),
        }
    }
}

/// Nearly all records pending, half of the deadlines within a minute; of 100 commands 30 polls with the clock up to 20 ms on, every fifth of
/// them with a limit, 30 resets, 30 inserts or removes, 5 next wakes, 5 lengths. After every 100,000 a clear, a format and all inserts again.
fn every(m: &mut Maker) {
    let n = m.turns.len();
    let mut clock = 0;
    m.fill(clock, n * 1000 / 1024);
    while m.wanted() {
        if m.script.len() % 100_000 == 99_998 {
            m.anew();
            clock = 0;
            m.fill(clock, n * 1000 / 1024);
        }
        let when = clock + m.wide();
        match m.rng.below(100) {
            0..=5 => {
                clock += m.rng.below(21);
                m.poll_by(POLL_SOME, clock);
            }
            6..=29 => {
                clock += m.rng.below(21);
                m.poll(clock);
            }
            30..=59 => m.reset(when),
            60..=89 if m.live.len() < n * 960 / 1024 + m.rng.below(64) as usize * n / 1024 => m.insert(when),
            60..=89 => m.remove(),
            90..=94 => m.wake(),
            _ => m.script.push([LENGTH << 60, 0]),
        }
    }
}

struct Maker {
    queue: Queue,
    script: Vec<Command>,
    turns: Vec<u64>,
    /// pending records, and where each stands among them
    live: Vec<usize>,
    place: Vec<usize>,
    rng: Rng,
}

impl Maker {
    fn new(records: usize, seed: u64) -> Maker {
        Maker {
            queue: Queue::new(records),
            script: vec![],
            turns: vec![1; records],
            live: vec![],
            place: vec![0; records],
            rng: Rng::new(seed),
        }
    }

    fn wanted(&self) -> bool {
        self.script.len() < COMMANDS
    }

    /// Half within a minute, four tenths within an hour, the rest within a day.
    fn wide(&mut self) -> u64 {
        let most = match self.rng.below(10) {
            0..=4 => 60_000,
            5..=8 => 3_600_000,
            _ => DAY,
        };
        1 + self.rng.below(most)
    }

    fn fill(&mut self, clock: u64, to: usize) {
        while self.live.len() < to {
            let when = clock + self.wide();
            self.insert(when);
        }
    }

    fn insert(&mut self, when: u64) {
        let record = self.queue.insert(self.script.len() as u64, when);
        self.place[record] = self.live.len();
        self.live.push(record);
        self.script.push([INSERT << 60, when]);
    }

    fn reset(&mut self, when: u64) {
        let record = self.any();
        self.script.push([RESET << 60 | self.key(record), when]);
        self.queue.reset(record, when);
    }

    fn remove(&mut self) {
        let record = self.any();
        self.script.push([REMOVE << 60 | self.key(record), 0]);
        self.queue.remove(record);
        self.gone(record);
    }

    fn poll(&mut self, now: u64) -> bool {
        self.poll_by(POLL, now)
    }

    fn poll_by(&mut self, call: u64, now: u64) -> bool {
        self.script.push([call << 60, now]);
        let out = self.queue.poll(now);
        if let Some((record, ..)) = out {
            self.gone(record);
        }
        out.is_some()
    }

    fn wake(&mut self) {
        self.script.push([WAKE << 60, 0]);
    }

    /// Clear, which leaves the records in another order than the original's slab, and so a format behind it.
    fn anew(&mut self) {
        self.script.push([CLEAR << 60, 0]);
        self.script.push([FORMAT << 60, 0]);
        let records = self.turns.len();
        self.queue = Queue::new(records);
        self.turns = vec![1; records];
        self.live.clear();
    }

    fn any(&mut self) -> usize {
        self.live[self.rng.below(self.live.len() as u64) as usize]
    }

    fn key(&self, record: usize) -> u64 {
        self.turns[record] << 16 | record as u64
    }

    fn gone(&mut self, record: usize) {
        let at = self.place[record];
        self.live.swap_remove(at);
        if let Some(&moved) = self.live.get(at) {
            self.place[moved] = at;
        }
        self.turns[record] += 1;
    }
}
