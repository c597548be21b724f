//! Our queue polled from wake to wake, a store a seed (02 [14]): before a wake a poll finds nothing to do, what comes out at one is due then, and
//! where nothing repeats there are at most as many polls as heights and timers at the start.
use crate::ours::{self, AT, FORMAT, INSERT, KEY, LAST, NEVER, NOTHING, OUT, POLL, POLL_SOME, WAKE};
use oracle::rng::Rng;
use oracle::rules::{block_end, height, EXPIRED, FARTHEST, OLDEST, PARKED, WIDTHS};
use std::ops::AddAssign;
use std::sync::atomic::{AtomicBool, AtomicU64, Ordering};
use std::thread;
use std::time::Instant;

const MOST_TIMERS: usize = 64;
/// Where something repeats there is no end: so many polls then.
const ENOUGH: u64 = 100;
/// So many seeds are one piece of work.
const CHUNK: u64 = 1000;

/// What is asked wrongly, to see that it is noticed.
#[derive(Clone, Copy, PartialEq, Debug)]
enum Fault {
    None,
    NoTimers,
    NoHeights,
    OneLess,
    AtTheWake,
    AMillisecondLate,
}

const FAULTS: [Fault; 5] = [
    Fault::NoTimers,
    Fault::NoHeights,
    Fault::OneLess,
    Fault::AtTheWake,
    Fault::AMillisecondLate,
];

#[derive(Default)]
struct Tally {
    /// Timers by where they lie at the start: by height, the last expired.
    timers: [u64; PARKED + 2],
    polls: u64,
    out: u64,
    asleep: u64,
    /// Stores where nothing repeats, their polls, their heights and timers, and those that need as many.
    plain: u64,
    plain_polls: u64,
    bounds: u64,
    at_bound: u64,
    /// Of those, the most heights.
    highest: u64,
}

impl AddAssign for Tally {
    fn add_assign(&mut self, more: Tally) {
        for (all, more) in self.timers.iter_mut().zip(more.timers) {
            *all += more;
        }
        self.polls += more.polls;
        self.out += more.out;
        self.asleep += more.asleep;
        self.plain += more.plain;
        self.plain_polls += more.plain_polls;
        self.bounds += more.bounds;
        self.at_bound += more.at_bound;
        self.highest = self.highest.max(more.highest);
    }
}

/// Stores of the seeds FROM to TO. Says whether all is as it must be.
pub fn compare(from: u64, to: u64) -> bool {
    let start = Instant::now();
    match run(from, to, Fault::None) {
        Ok(t) => {
            let [levels @ .., parked, expired] = t.timers;
            println!("sleep seeds {from}..{to}: timers at levels 0 to 5 {levels:?}, parked {parked}, expired {expired}");
            println!("  {} polls at wakes, {} out, each at its deadline; {} polls before a wake, each none 0 0", t.polls, t.out, t.asleep);
            println!("  nothing repeats in {}: {} polls, heights and timers {}", t.plain, t.plain_polls, t.bounds);
            println!("  never more polls than those, as many in {}, with heights of up to {}", t.at_bound, t.highest);
            println!("  {} s", start.elapsed().as_secs());
            true
        }
        Err(found) => {
            println!("{found}");
            false
        }
    }
}

/// Each fault in turn: it must be seen.
pub fn all_wrong() -> bool {
    let mut seen = 0;
    for fault in FAULTS {
        match run(1, 1000, fault) {
            Err(found) => {
                println!("{fault:?}: {found}");
                seen += 1;
            }
            Ok(_) => println!("{fault:?} was not seen"),
        }
    }
    println!("{} faults, {seen} seen", FAULTS.len());
    seen == FAULTS.len()
}

/// On every processor. Stops at the first store that is not as it must be.
fn run(from: u64, to: u64, fault: Fault) -> Result<Tally, String> {
    let (next, stop) = (AtomicU64::new(from), AtomicBool::new(false));
    let work = || {
        let mut sleeper = Sleeper::new(fault);
        while !stop.load(Ordering::Relaxed) {
            let first = next.fetch_add(CHUNK, Ordering::Relaxed);
            if first > to {
                break;
            }
            for seed in first..=to.min(first + CHUNK - 1) {
                if let Err(found) = sleeper.sleep(seed) {
                    stop.store(true, Ordering::Relaxed);
                    return Err(format!("seed {seed}: {found}"));
                }
            }
        }
        Ok(sleeper.tally)
    };
    let processors = thread::available_parallelism().map_or(1, usize::from);
    thread::scope(|scope| {
        let threads: Vec<_> = (0..processors).map(|_| scope.spawn(work)).collect();
        let mut tally = Tally::default();
        for thread in threads {
            tally += thread.join().map_err(|_| "a check failed")??;
        }
        Ok(tally)
    })
}

struct Sleeper {
    fault: Fault,
    store: ours::Store,
    /// A copy, to poll before the wake.
    other: ours::Store,
    tally: Tally,
}

impl Sleeper {
    fn new(fault: Fault) -> Sleeper {
        Sleeper {
            fault,
            store: ours::Store::room(MOST_TIMERS),
            other: ours::Store::room(MOST_TIMERS),
            tally: Tally::default(),
        }
    }

    fn sleep(&mut self, seed: u64) -> Result<(), String> {
        let mut rng = Rng::new(seed);
        let (timers, repeats, bound) = self.set(&mut rng);
        let mut left = timers;
        let (mut polls, mut before, mut slept) = (0, 0, 0);
        while !repeats || polls < ENOUGH {
            let wake = self.store.call([WAKE, 0, 0, 0]);
            let end = if wake[0] == NEVER { None } else { Some(wake[1]) };
            if wake[0] != if left == 0 { NEVER } else { AT } {
                return Err(format!("next wake {wake:?}, {left} are pending"));
            }
            if rng.chance(1, 2) {
                self.doze(&mut rng, wake, end)?;
            }
            let Some(now) = end else { break };
            if now < slept {
                return Err(format!("wake {now} after {slept}"));
            }
            slept = now;
            polls += 1;
            let deadlines = self.store.deadlines.clone();
            let answer = self.store.call([POLL, now, 0, 0]);
            let [kind, key, _, deadline, ..] = answer;
            let late = u64::from(self.fault == Fault::AMillisecondLate);
            match kind {
                OUT | LAST => {
                    let record = (key & 0xffff) as usize;
                    if deadline.wrapping_add(late) != now || deadlines[record] != deadline || deadline < before {
                        return Err(format!("{answer:?} at {now}, after {before}"));
                    }
                    before = deadline;
                    self.tally.out += 1;
                    left -= u64::from(kind == LAST || self.store.values[2 * record + 1] == 0);
                }
                NOTHING if answer[1] > 0 => {}
                _ => return Err(format!("{answer:?} at the wake {now}")),
            }
        }
        self.tally.polls += polls;
        if !repeats {
            if polls > bound {
                return Err(format!("{polls} polls, where {bound} are to be enough"));
            }
            self.tally.plain += 1;
            self.tally.plain_polls += polls;
            self.tally.bounds += bound;
            if polls == bound {
                self.tally.at_bound += 1;
                self.tally.highest = self.tally.highest.max(bound - timers);
            }
        }
        Ok(())
    }

    /// A store at any time, with some timers. Answers how many, whether one repeats, and the heights with the timers.
    fn set(&mut self, rng: &mut Rng) -> (u64, bool, u64) {
        let timers = match rng.below(16) {
            0 => 1 + rng.below(MOST_TIMERS as u64),
            1..=4 => 1 + rng.below(16),
            _ => 1 + rng.below(5),
        };
        let elapsed = clock(rng);
        assert_eq!(self.store.call([FORMAT, timers, 1, 0])[0], 0, "formatted");
        assert_eq!(self.store.call([POLL, elapsed, 0, 0])[..3], [NOTHING, 0, 0], "the clock is set");
        let repeating = rng.chance(1, 4);
        let (mut repeats, mut heights, mut deadline) = (false, 0, elapsed);
        for value in 0..timers {
            if !rng.chance(1, 6) {
                deadline = deadline_from(rng, elapsed);
            }
            let period = if repeating && rng.chance(1, 2) { 1 + far(rng) } else { 0 };
            let when = if deadline == elapsed { elapsed.saturating_sub(rng.below(OLDEST + 1)) } else { deadline };
            let answer = self.store.call([INSERT, value, when, period]);
            assert_eq!(answer[0], KEY, "{when} is taken at {elapsed}");
            repeats |= period > 0;
            let high = if deadline == elapsed { 0 } else { height(elapsed, deadline) };
            heights += high as u64;
            let place = usize::from(self.store.marks[value as usize]);
            let expired = place == EXPIRED;
            assert_eq!(if expired { 0 } else { place / 64 }, high, "where {deadline} lies at {elapsed}");
            self.tally.timers[if expired { PARKED + 1 } else { high }] += 1;
        }
        let bound = match self.fault {
            Fault::NoTimers => heights,
            Fault::NoHeights => timers,
            Fault::OneLess => heights + timers - 1,
            _ => heights + timers,
        };
        (timers, repeats, bound)
    }

    /// A poll of a copy before the wake, or at any time if there is none: whole, or with a limit.
    fn doze(&mut self, rng: &mut Rng, wake: ours::Answer, end: Option<u64>) -> Result<(), String> {
        let elapsed = self.store.elapsed;
        let past = end.unwrap_or(u64::MAX).saturating_add(u64::from(self.fault == Fault::AtTheWake));
        if past <= elapsed {
            return Ok(());
        }
        let now = match rng.below(3) {
            0 => elapsed,
            1 => past - 1,
            _ => elapsed + rng.below(past - elapsed),
        };
        let limit = rng.pick(&[0, 1, 2, u64::MAX]);
        let call = if rng.chance(1, 2) { [POLL, now, 0, 0] } else { [POLL_SOME, now, limit, 0] };
        self.other.clone_from(&self.store);
        let answer = self.other.call(call);
        let same_wake = self.other.call([WAKE, 0, 0, 0]) == wake;
        let clock = std::mem::replace(&mut self.other.elapsed, elapsed);
        if answer[..3] != [NOTHING, 0, 0] || clock != now || self.store != self.other || !same_wake {
            return Err(format!("{call:?} before the wake {wake:?} answers {answer:?}, and leaves elapsed {clock}"));
        }
        self.tally.asleep += 1;
        Ok(())
    }
}

/// A time of any size, or shortly before the start of a slot or a block, or near the last there is.
fn clock(rng: &mut Rng) -> u64 {
    let time = rng.next() >> rng.below(64);
    let short = rng.next() >> (28 + rng.below(36));
    match rng.below(5) {
        0 => time,
        1 => rng.pick(&[0, 1, 63, 64]),
        2 => (time / WIDTHS[rng.below(6) as usize]).saturating_mul(64).saturating_sub(short),
        3 => block_end(time >> 1).saturating_sub(short),
        _ => u64::MAX - short,
    }
}

/// How far ahead a deadline lies: of any size.
fn far(rng: &mut Rng) -> u64 {
    (rng.next() >> (28 + rng.below(36))).min(FARTHEST)
}

/// At once, any way ahead, at the start of a slot, or past the block's end.
fn deadline_from(rng: &mut Rng, elapsed: u64) -> u64 {
    let ahead = elapsed.saturating_add(far(rng));
    let width = WIDTHS[rng.below(6) as usize];
    let last = elapsed.saturating_add(FARTHEST);
    match rng.below(8) {
        0 => elapsed,
        1 => (ahead / width * width).max(elapsed),
        2 if elapsed < 1 << 63 => (block_end(elapsed) + (far(rng) >> 8)).min(last),
        3 => last,
        _ => ahead,
    }
}
