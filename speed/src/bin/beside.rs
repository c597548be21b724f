//! Our runs of calls, one kind of call alone, and the judge, of this tree and of another commit, in one process and in turns. Their sums
//! are not held against each other: a request may change the order in which timers come out.
#[allow(dead_code)]
#[path = "../clock.rs"]
mod clock;
#[allow(dead_code)]
#[path = "../ours.rs"]
mod ours;
/// The same functions of the other commit, whose names speed/beside has changed in its object.
#[allow(dead_code)]
mod before {
    include!(env!("NGAWDRELO_BEFORE"));
}

use clock::{in_turns, timed_alone, Side, Times};
use ours::{INSERT, POLL, RESET, WAKE};
use speed::script::{all_asked, Asked, Mix, COMMANDS, MIXES, SIZES};
use std::hint::black_box;

/// The longest poll inside a block: the largest store, all timers in one slot of the highest level. And the longest that there is: all are parked.
const RECORDS: usize = 65_535;
const DEADLINE: u64 = (1 << 30) + (1 << 24) + (1 << 18) + (1 << 12) + (1 << 6) + 1;
const DAY: u64 = 86_400_000;
/// The judge is asked so often, on the store after so many commands of a mix.
const JUDGINGS: usize = 1_000;
const JUDGED: usize = 20_000;
const WAKED: usize = 64;

/// What is asked of a store of either side. Runs are there since request 13.
trait Runs {
    fn fresh(records: usize) -> Self;
    fn run(&mut self, commands: &[Asked], answers: &mut [[u64; 6]]) -> u64;
    fn judge(&mut self) -> bool;
}

macro_rules! asked {
    ($store:ty) => {
        impl Runs for $store {
            fn fresh(records: usize) -> Self {
                <$store>::new(records)
            }
            fn run(&mut self, commands: &[Asked], answers: &mut [[u64; 6]]) -> u64 {
                <$store>::run(self, commands.as_flattened(), answers.as_flattened_mut()).0 as u64
            }
            fn judge(&mut self) -> bool {
                <$store>::judge(self)
            }
        }
    };
}
asked!(before::Store);
asked!(ours::Store);

/// What is measured: a fresh store of so many records, a first run of commands, and then the time of another run, or of the judge.
#[derive(Clone, Copy)]
struct Run<'a> {
    name: &'a str,
    records: usize,
    first: &'a [Asked],
    script: Option<&'a [Asked]>,
    /// A time is by so many parts.
    parts: usize,
}

impl Run<'_> {
    fn once<S: Runs>(self) -> (f64, Option<u64>) {
        let mut store = S::fresh(self.records);
        let most = self.first.len().max(self.script.map_or(0, <[_]>::len));
        let answers = &mut vec![[0; 6]; most][..];
        store.run(self.first, answers);
        timed_alone(self.parts, || match self.script {
            Some(script) => store.run(script, answers),
            None => (0..JUDGINGS).map(|_| black_box(store.judge()) as u64).sum(),
        })
    }

    /// Both sides in turns.
    fn measured(self, rounds: usize) {
        let one: Side = ("before", Box::new(move || self.once::<before::Store>()));
        let two: Side = ("now", Box::new(move || self.once::<ours::Store>()));
        let ([one, two], _) = in_turns(self.name, rounds, [one, two]);
        let ratio = format!("{:.2} ({:.2})", two.least / one.least, two.median / one.median);
        println!("{:12}{:>20}{:>20}{ratio:>20}", self.name, shown(&one), shown(&two));
    }
}

fn main() {
    let words: Vec<String> = std::env::args().collect();
    let [_, rounds, folder] = &words[..] else {
        panic!("usage: beside ROUNDS FOLDER-OF-MIXES");
    };
    let rounds = rounds.parse().expect("ROUNDS is a number");
    let mixes = || SIZES.iter().flat_map(|&n| MIXES.map(|name| Mix::read(folder, name, n)));
    println!("ns a command, least (median) of {rounds} runs of {COMMANDS} commands");
    println!("N mix                     before                 now          now/before");
    for mix in mixes() {
        let name = &format!("{} {}", mix.records, mix.name);
        let (records, script) = (mix.records, &all_asked(mix.records, &mix.script)[..]);
        Run { name, records, first: &[], script: Some(script), parts: script.len() }.measured(rounds);
    }
    alone(rounds);
    println!("ns a judging of the store after {JUDGED} commands");
    for mix in mixes() {
        let name = &format!("{} {}", mix.records, mix.name);
        let (records, first) = (mix.records, &all_asked(mix.records, &mix.script[..JUDGED])[..]);
        Run { name, records, first, script: None, parts: JUDGINGS }.measured(rounds);
    }
    longest(rounds);
    parked(rounds);
}

fn shown(t: &Times) -> String {
    format!("{:.1} ({:.1})", t.least, t.median)
}

/// One kind of call alone, deadlines all over a day: the largest store is filled, and each timer reset; on a small one the next wake is asked.
fn alone(rounds: usize) {
    let when = |i: usize| 1 + (i as u64).wrapping_mul(0x9e37_79b9_7f4a_7c15) % DAY;
    let inserts: Vec<Asked> = (0..RECORDS).map(|i| [INSERT, i as u64, when(i), 0]).collect();
    let key = |i: usize| 1 << 16 | i as u64;
    let resets: Vec<Asked> = (0..RECORDS).map(|i| [RESET, key(i), when(i + RECORDS), 0]).collect();
    let wakes = vec![[WAKE, 0, 0, 0]; COMMANDS];
    println!("ns a call of one kind, the judging before the run among it");
    let run = Run { name: "inserts", records: RECORDS, first: &[], script: Some(&inserts), parts: RECORDS };
    run.measured(rounds);
    Run { name: "resets", first: &inserts, script: Some(&resets), ..run }.measured(rounds);
    Run { name: "wakes", records: WAKED, first: &inserts[..WAKED], script: Some(&wakes), parts: COMMANDS }.measured(rounds);
}

/// One whole poll of that store, with the judging before its run.
fn longest(rounds: usize) {
    let inserts = vec![[INSERT, 0, DEADLINE, 0]; RECORDS];
    let poll = [[POLL, DEADLINE, 0, 0]];
    println!("microseconds, one whole poll of {RECORDS} timers in one slot of level 5, {} moves", 5 * RECORDS);
    Run { name: "longest", records: RECORDS, first: &inserts, script: Some(&poll), parts: 1000 }.measured(rounds);
}

/// The same of timers in the next block, by this tree alone: before request 12 none could be set there.
fn parked(rounds: usize) {
    let (clock, when) = (2 * (1 << 30), (1 << 36) + DEADLINE);
    let mut first = vec![[POLL, clock, 0, 0]];
    first.extend(vec![[INSERT, 0, when, 0]; RECORDS]);
    let poll = [[POLL, when, 0, 0]];
    let run = Run { name: "parked", records: RECORDS, first: &first, script: Some(&poll), parts: 1000 };
    let now: Side = ("now", Box::new(move || run.once::<ours::Store>()));
    let ([now], _) = in_turns(run.name, rounds, [now]);
    println!("microseconds, one whole poll of {RECORDS} parked timers, {} moves", 6 * RECORDS);
    println!("{:12}{:>20}{:>20}", run.name, "", shown(&now));
}
