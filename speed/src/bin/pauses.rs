//! What one call of a poll with a limit costs, on the largest store with all its timers in one slot of the highest level: pauses ROUNDS.
#[allow(dead_code)]
#[path = "../clock.rs"]
mod clock;
#[allow(dead_code)]
#[path = "../ours.rs"]
mod ours;

use clock::{in_turns, timed_alone, Side, Times};
use ours::{Answer, Call, Store, INSERT, NO_WORDS, POLL_SOME};

const RECORDS: usize = 65_535;
/// Five levels above the one that it is handed out from, and no slot's first millisecond.
const DEADLINE: u64 = (1 << 30) + (1 << 24) + (1 << 18) + (1 << 12) + (1 << 6) + 1;
/// Each timer is moved five times.
const MOVES: u64 = 5 * RECORDS as u64;
const LIMITS: [u64; 10] = [1, 4, 16, 64, 256, 1024, 4096, 16_384, 65_536, u64::MAX];
/// So many calls of a chain are timed at most, and of those that judge first.
const CALLS: u64 = 32_768;
const JUDGED: u64 = 16;

fn main() {
    let words: Vec<String> = std::env::args().collect();
    let [_, rounds] = &words[..] else {
        panic!("usage: pauses ROUNDS");
    };
    let rounds: usize = rounds.parse().expect("ROUNDS is a number");
    println!("microseconds a call, least (median) of {rounds} runs; {RECORDS} timers in one slot of level 5, {MOVES} moves in all");
    println!("limit          calls    most moves    without the judge   that judges first");
    let judge = judging(rounds);
    for limit in LIMITS {
        let calls = MOVES.div_ceil(limit).max(1);
        let inner = chained(rounds, limit, calls.min(CALLS), &judge);
        let judged = each(rounds, limit, calls.min(JUDGED));
        let name = if limit == u64::MAX { "none".to_string() } else { limit.to_string() };
        println!("{name:8}{calls:>12}{:>14}{:>21}{:>20}", limit.min(MOVES), us(&inner), us(&judged));
    }
    println!("the judge alone: {}", us(&judge));
}

fn full() -> Store {
    let mut store = Store::new(RECORDS);
    run(&mut store, &vec![[INSERT, 0, DEADLINE, 0]; RECORDS], &mut vec![[0; 6]; RECORDS]);
    store
}

/// A run that answers all commands. Answers how many they are.
fn run(store: &mut Store, commands: &[Call], answers: &mut [Answer]) -> u64 {
    let ended = store.run(commands.as_flattened(), answers.as_flattened_mut());
    assert_eq!(ended, (commands.len(), NO_WORDS), "all are answered");
    ended.0 as u64
}

fn poll(limit: u64) -> Call {
    [POLL_SOME, DEADLINE, limit, 0]
}

/// A run of no command: the store is judged, and that is all.
fn judging(rounds: usize) -> Times {
    let mut store = full();
    let side: Side = ("judge", Box::new(move || timed_alone(1, || run(&mut store, &[], &mut []))));
    let ([times], _) = in_turns("judge", rounds, [side]);
    times
}

/// The first calls of a chain, in one run that is judged once: what a call costs without that.
fn chained(rounds: usize, limit: u64, calls: u64, judge: &Times) -> Times {
    let commands = vec![poll(limit); calls as usize];
    let side: Side = (
        "inner",
        Box::new(move || {
            let mut store = full();
            let mut answers: Vec<Answer> = vec![[0; 6]; commands.len()];
            timed_alone(1, || run(&mut store, &commands, &mut answers))
        }),
    );
    let ([times], _) = in_turns("inner", rounds, [side]);
    let each = |time: f64, judge: f64| (time - judge).max(0.0) / calls as f64;
    Times {
        least: each(times.least, judge.least),
        median: each(times.median, judge.median),
    }
}

/// The same calls as users make them.
fn each(rounds: usize, limit: u64, calls: u64) -> Times {
    let side: Side = (
        "judged",
        Box::new(move || {
            let mut store = full();
            timed_alone(calls as usize, || (0..calls).map(|_| store.call(poll(limit))[0]).sum())
        }),
    );
    let ([times], _) = in_turns("judged", rounds, [side]);
    times
}

fn us(times: &Times) -> String {
    format!("{:.2} ({:.2})", times.least / 1000.0, times.median / 1000.0)
}
