//! Times of sides that take turns.
use std::time::{Duration, Instant};

/// Rounds that warm up and are not counted.
const WARM: usize = 2;

/// Linux's number of the clock that counts this thread's processor time: what others do beside counts less.
const THREAD: i32 = 3;

extern "C" {
    fn clock_gettime(clock: i32, seconds_and_ns: &mut [i64; 2]) -> i32;
}

fn processor_time() -> Duration {
    let mut t = [0; 2];
    let failed = unsafe { clock_gettime(THREAD, &mut t) };
    assert_eq!(failed, 0, "clock_gettime");
    Duration::new(t[0] as u64, t[1] as u32)
}

/// What one run of a side took, in ns for each of its parts, and the sum of its answers.
pub fn timed(parts: usize, run: impl FnOnce() -> u64) -> (f64, Option<u64>) {
    let start = processor_time();
    let sum = run();
    let time = processor_time() - start;
    (time.as_nanos() as f64 / parts as f64, Some(sum))
}

/// The same of another program, by the clock on the wall.
pub fn timed_outside(parts: usize, run: impl FnOnce() -> u64) -> (f64, Option<u64>) {
    let start = Instant::now();
    let sum = run();
    (start.elapsed().as_nanos() as f64 / parts as f64, Some(sum))
}

/// The same of a side whose answers are not held against the others'.
pub fn timed_alone(parts: usize, run: impl FnOnce() -> u64) -> (f64, Option<u64>) {
    (timed(parts, run).0, None)
}

pub type Side<'a> = (&'static str, Box<dyn FnMut() -> (f64, Option<u64>) + 'a>);

pub struct Times {
    pub least: f64,
    pub median: f64,
}

/// Every side once a round, one after the other. Those that have a sum must answer the same: it comes back too.
pub fn in_turns<const N: usize>(
    what: &str,
    rounds: usize,
    mut sides: [Side; N],
) -> ([Times; N], u64) {
    let mut times = [(); N].map(|_| vec![]);
    let mut all = 0;
    for round in 0..rounds + WARM {
        let mut sums = vec![];
        for (side, times) in sides.iter_mut().zip(&mut times) {
            let (time, sum) = side.1();
            sums.extend(sum);
            if round >= WARM {
                times.push(time);
            }
        }
        if sums.iter().any(|&sum| sum != sums[0]) {
            let names = sides.each_ref().map(|side| side.0);
            panic!("{what}: the answers differ: {names:?} {sums:x?}");
        }
        all = sums.first().copied().unwrap_or(all);
    }
    let times = times.map(|mut times| {
        times.sort_by(f64::total_cmp);
        Times {
            least: times[0],
            median: times[times.len() / 2],
        }
    });
    (times, all)
}
