//! What the queue costs, beside the original and the C prototype. docs/SPEED.md says what is measured.
mod clock;
#[allow(dead_code)] // oracle/scale-program calls the rest
mod ours;
mod prototype;
mod replay;

use clock::{in_turns, timed, timed_alone, Side, Times};
use ours::{Store, NO_WORDS};
use speed::original;
use speed::script::{all_asked, sum_of, Answer, Asked, Command, Mix, COMMANDS, EVERY_MIX, INSERT, MIXES, SIZES};
use std::hint::black_box;

/// A judged call takes microseconds, so these runs are shorter.
const JUDGED: usize = 20_000;
const JUDGINGS: usize = 1_000;
/// The judge alone is measured up to the largest store, in runs of so many records judged.
const JUDGED_SIZES: [usize; 5] = [64, 1024, 8192, 32_768, 65_535];
const JUDGED_RECORDS: usize = 1_000_000;
const DAY: u64 = 86_400_000;

const USAGE: &str = "usage: speed run|prototype|judge|sizes|judged|replay ROUNDS FOLDER-OF-MIXES [PROGRAM]";

fn main() {
    let words: Vec<String> = std::env::args().collect();
    let words: Vec<&str> = words.iter().map(String::as_str).collect();
    let [_, what, rounds, folder, rest @ ..] = &words[..] else {
        panic!("{USAGE}");
    };
    let rounds = rounds.parse().expect(USAGE);
    let mixes: Vec<Mix> = SIZES
        .iter()
        .flat_map(|&records| MIXES.map(|name| Mix::read(folder, name, records)))
        .collect();
    match (*what, rest) {
        ("run", []) => run(rounds, &mixes, &SIZES.map(|records| Mix::read(folder, EVERY_MIX, records))),
        ("prototype", []) => prototyped(rounds, &mixes),
        ("judge", []) => judge(rounds, &mixes),
        ("sizes", []) => sizes(rounds),
        ("judged", []) => judged(rounds, &mixes),
        ("replay", [program]) => replayed(rounds, &mixes, program),
        _ => panic!("{USAGE}"),
    }
}

/// One run of all commands beside the prototype, which sums its answers and hands none on.
fn prototyped(rounds: usize, mixes: &[Mix]) {
    println!("ns a command, least (median) of {rounds} runs of {COMMANDS} commands");
    row("N mix", ["ours", "C", "ours/C", "refused by C"]);
    for mix in mixes {
        let (n, script) = (mix.records, &mix.script[..]);
        let commands = all_asked(n, script);
        let mut room = vec![[0; 6]; commands.len()];
        let ours: Side = (
            "ours",
            Box::new(move || {
                let mut store = Store::new(n);
                timed_alone(commands.len(), || run_all(&mut store, &commands, &mut room))
            }),
        );
        let c: Side = (
            "C",
            Box::new(move || {
                prototype::format(n);
                timed_alone(script.len(), || prototype::inner(script))
            }),
        );
        let ([ours, c], _) = in_turns(mix.name, rounds, [ours, c]);
        let refused = prototype::refused().to_string();
        row(&named(mix), [&ns(&ours), &ns(&c), &ratio(&ours, &c), &refused]);
    }
}

/// A run that answers all commands. Answers how many they are.
fn run_all(store: &mut Store, commands: &[Asked], room: &mut [Answer]) -> u64 {
    let ended = store.run(commands.as_flattened(), room.as_flattened_mut());
    assert_eq!(ended, (commands.len(), NO_WORDS), "all are answered");
    ended.0 as u64
}

/// A store after a run of these commands.
fn after(records: usize, script: &[Command]) -> Store {
    let mut store = Store::new(records);
    run_all(&mut store, &all_asked(records, script), &mut vec![[0; 6]; script.len()]);
    store
}

/// Runs of so many commands each, one behind the other, into room for as many answers: ns a command, and the sum of the answers.
fn in_runs(
    size: usize,
    commands: &[Asked],
    answers: &mut [Answer],
    mut run: impl FnMut(&[Asked], &mut [Answer]),
) -> (f64, Option<u64>) {
    let (mut time, mut sum) = (0.0, 0);
    for part in commands.chunks(size) {
        let room = &mut answers[..part.len()];
        time += timed(1, || {
            run(part, room);
            0
        })
        .0;
        sum = sum_of(sum, room);
    }
    (time / commands.len() as f64, Some(sum))
}

/// Runs: the store is judged once a run, and the answers are written. The original writes its answers too.
fn run(rounds: usize, mixes: &[Mix], every: &[Mix]) {
    for size in [COMMANDS, 1_000] {
        println!("ns a command, least (median) of {rounds} times {COMMANDS} commands, in runs of {size}");
        row("N mix", ["ours", "Rust", "ours/Rust", "sum of the answers"]);
        for mix in mixes.iter().chain(every) {
            let n = mix.records;
            let commands = &all_asked(n, &mix.script)[..];
            let mut room = vec![[0; 6]; size];
            let ours: Side = (
                "ours",
                Box::new(move || {
                    let mut store = Store::new(n);
                    in_runs(size, commands, &mut room, |part, room| {
                        run_all(&mut store, part, room);
                    })
                }),
            );
            let mut room = vec![[0; 6]; size];
            let rust: Side = (
                "Rust",
                Box::new(move || {
                    let mut queue = original::Queue::new(n);
                    in_runs(size, commands, &mut room, |part, room| {
                        original::answers(&mut queue, part, room)
                    })
                }),
            );
            let ([ours, rust], sum) = in_turns(mix.name, rounds, [ours, rust]);
            let sum = format!("{sum:016x}");
            row(&named(mix), [&ns(&ours), &ns(&rust), &ratio(&ours, &rust), &sum]);
        }
    }
}

/// The judge alone, on the store as the mix leaves it.
fn judge(rounds: usize, mixes: &[Mix]) {
    println!("ns a judging, least (median) of {rounds} runs of {JUDGINGS}, on the store after {JUDGED} commands");
    row("N mix", ["ours", "C", "ours/C"]);
    for mix in mixes {
        let mut store = after(mix.records, &mix.script[..JUDGED]);
        prototype::judged_format(mix.records);
        prototype::judged(&mix.script[..JUDGED]);
        let ours: Side = (
            "ours",
            Box::new(move || {
                timed(JUDGINGS, || {
                    (0..JUDGINGS).map(|_| black_box(store.judge()) as u64).sum()
                })
            }),
        );
        let c: Side = (
            "C",
            Box::new(|| {
                timed(JUDGINGS, || {
                    (0..JUDGINGS)
                        .map(|_| black_box(prototype::judge()) as u64)
                        .sum()
                })
            }),
        );
        let ([ours, c], sound) = in_turns(mix.name, rounds, [ours, c]);
        assert_eq!(sound, JUDGINGS as u64, "the store must be sound");
        row(&named(mix), [&ns(&ours), &ns(&c), &ratio(&ours, &c)]);
    }
}

/// The judge alone, on full stores up to the largest, their deadlines all over a day.
fn sizes(rounds: usize) {
    println!("ns, least (median) of {rounds} runs, every record pending");
    row("N", ["a judging", "a record"]);
    for n in JUDGED_SIZES {
        let when = |i: usize| 1 + (i as u64).wrapping_mul(0x9e37_79b9_7f4a_7c15) % DAY;
        let script: Vec<_> = (0..n).map(|i| [INSERT << 60, when(i)]).collect();
        let mut store = after(n, &script);
        let judgings = JUDGED_RECORDS.div_ceil(n);
        let ours: Side = (
            "ours",
            Box::new(move || {
                timed(judgings, || {
                    (0..judgings).map(|_| black_box(store.judge()) as u64).sum()
                })
            }),
        );
        let ([ours], sound) = in_turns("sizes", rounds, [ours]);
        assert_eq!(sound, judgings as u64, "the store must be sound");
        let each = |ns: f64| ns / n as f64;
        let record = Times {
            least: each(ours.least),
            median: each(ours.median),
        };
        row(&n.to_string(), [&ns(&ours), &ns(&record)]);
    }
}

/// The calls that users make: each crosses the border and judges first.
fn judged(rounds: usize, mixes: &[Mix]) {
    println!("ns a command, least (median) of {rounds} runs of {JUDGED} commands");
    row("N mix", ["ours", "C", "ours/C"]);
    for mix in mixes {
        let (n, script) = (mix.records, &mix.script[..JUDGED]);
        let commands = all_asked(n, script);
        let ours: Side = (
            "ours",
            Box::new(move || {
                let mut store = Store::new(n);
                timed_alone(commands.len(), || commands.iter().map(|&call| store.call(call)[0]).sum())
            }),
        );
        let c: Side = (
            "C",
            Box::new(move || {
                prototype::judged_format(n);
                timed_alone(script.len(), || prototype::judged(script))
            }),
        );
        let ([ours, c], _) = in_turns(mix.name, rounds, [ours, c]);
        row(&named(mix), [&ns(&ours), &ns(&c), &ratio(&ours, &c)]);
    }
}

/// The program, its start included.
fn replayed(rounds: usize, mixes: &[Mix], program: &str) {
    println!("lines a second, most (median) of {rounds} runs of {JUDGED} lines");
    for mix in mixes {
        let times = replay::run(program, &replay::lines(mix, JUDGED), rounds);
        row(
            &named(mix),
            [&format!(
                "{:.0} ({:.0})",
                1e9 / times.least,
                1e9 / times.median
            )],
        );
    }
}

fn row<const N: usize>(name: &str, fields: [&str; N]) {
    print!("{name:12}");
    fields.iter().for_each(|field| print!("{field:>20}"));
    println!();
}

fn named(mix: &Mix) -> String {
    format!("{} {}", mix.records, mix.name)
}

fn ns(times: &Times) -> String {
    format!("{:.1} ({:.1})", times.least, times.median)
}

fn ratio(a: &Times, b: &Times) -> String {
    format!("{:.2} ({:.2})", a.least / b.least, a.median / b.median)
}
