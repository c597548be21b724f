//! Runs against the same calls made one by one, each of which judges first: runs SEEDS. Every answer and every word must be the same, and why
//! the run stopped. Stores of up to 16 records, sound ones and damaged ones; all calls, format in mid-run and polls with a limit among them;
//! words that are no command, a group that is cut off, too little room.
#[allow(dead_code)]
#[path = "../ours.rs"]
mod ours;
#[allow(dead_code)] // the oracle draws in more ways
#[path = "../../../oracle/src/rng.rs"]
mod rng;

use ours::{Answer, Call, Store, CLEAR, FORMAT, INSERT, KEY, LAST, LENGTH, NO, NOT_YET, NO_COMMAND, NO_ROOM, NO_WORDS, OUT, POLL, POLL_SOME, REMOVE, RESET, WAKE};
use rng::Rng;

const MARK: u64 = 0x5a5a_5a5a_5a5a_5a5a;

/// What was tried.
#[derive(Default, Debug)]
struct Seen {
    runs: u64,
    commands: u64,
    unsound: u64,
    healed: u64,
    /// how many runs stopped for want of words, at words that are no command, for want of room
    stopped: [u64; 3],
    out: u64,
    not_yet: u64,
    refused: [u64; 13],
}

fn main() {
    let seeds: u64 = std::env::args().nth(1).expect("SEEDS").parse().expect("a number");
    let mut seen = Seen::default();
    for seed in 1..=seeds {
        let mut rng = Rng::new(seed);
        let n = 1 + rng.below(16) as usize;
        let (mut all, mut one) = (Store::room(n), Store::room(n));
        if rng.below(8) != 0 {
            let turn = if rng.below(4) == 0 { (1 << 48) - 3 } else { 1 };
            let format = [FORMAT, n as u64, turn, 0];
            assert_eq!(all.call(format), one.call(format));
        }
        let (mut keys, mut clock) = (vec![], 0);
        for _ in 0..8 {
            if rng.below(4) == 0 {
                let (what, word) = (rng.below(7), rng.below(70_000));
                damage(&mut all, what, rng.below(16), word);
                one.clone_from(&all);
            }
            run(seed, n, &mut rng, &mut all, &mut one, &mut keys, &mut clock, &mut seen);
        }
    }
    println!("{seen:?}\n0 differences");
}

fn damage(s: &mut Store, what: u64, at: u64, word: u64) {
    let i = at as usize % s.deadlines.len();
    match what {
        0 => match (at % 13) as usize {
            0 => s.elapsed ^= 1 << (word % 16),
            at @ 1..7 => s.occupied[at - 1] ^= 1 << (word % 16),
            at @ 7..11 => s.tops[at - 7] ^= 1 << (word % 16),
            11 => s.hand ^= 1 << (word % 16),
            _ => s.until ^= 1 << (word % 16),
        },
        1 => s.heads[at as usize % 6][word as usize % 64] = word as u16,
        2 => s.nexts[i] = word as u16 % 20,
        3 => s.prevs[i] = word as u16 % 20,
        4 => s.marks[i] = word as u16 % 400,
        5 => s.turns[i] ^= 1 << (word % 64),
        _ => s.deadlines[i] ^= 1 << (word % 64),
    }
}

/// Four words, and whether they are a command.
fn drawn(rng: &mut Rng, n: usize, keys: &[u64], held: Option<u64>, clock: &mut u64) -> (Call, bool) {
    let wide = 1 << rng.below(38);
    let when = clock.wrapping_add(rng.below(wide)).wrapping_sub(rng.below(2) * rng.below(4_000_000));
    let key = match rng.below(10) {
        0 => rng.below(1 << 20),
        _ if keys.is_empty() => 65_536,
        _ => keys[rng.below(keys.len() as u64) as usize],
    };
    let period = if rng.below(4) == 0 { rng.below(wide) } else { 0 };
    let call = match rng.below(200) {
        0..=2 => [FORMAT, rng.below(n as u64 + 2), rng.below(4), 0],
        3..=69 => [INSERT, when ^ 7, when, period],
        70..=99 => [RESET, key, when, 0],
        100..=119 => [REMOVE, key, 0, 0],
        120..=179 => {
            // the poll in hand goes on, or is met by one with another now
            let now = match held {
                Some(until) if rng.below(4) != 0 => until,
                _ => later(rng, clock, wide),
            };
            match rng.below(8) {
                0..=4 => [POLL, now, 0, 0],
                limit => [POLL_SOME, now, limit - 5, 0],
            }
        }
        180..=187 => [WAKE, 0, 0, 0],
        188..=196 => [LENGTH, 0, 0, 0],
        197 => [CLEAR, 0, 0, 0],
        198 => return ([if rng.below(2) == 0 { 0 } else { 7 + rng.below(4) }, 1, 1, 0], false),
        _ => return (spoilt(rng), false),
    };
    (call, true)
}

fn later(rng: &mut Rng, clock: &mut u64, wide: u64) -> u64 {
    let now = clock.saturating_add(rng.below(wide)).saturating_sub(rng.below(2));
    *clock = now.max(*clock);
    now
}

/// A command with a 1 in a word that it does not use; kind 2 uses all of its words.
fn spoilt(rng: &mut Rng) -> Call {
    let (kind, used) = [(1, 2), (3, 2), (4, 1), (5, 1), (6, 0), (11, 2), (12, 0), (13, 0)][rng.below(8) as usize];
    let mut words = [kind, 0, 0, 0];
    let first = used + 1;
    words[first + rng.below(4 - first as u64) as usize] = 1 << rng.below(64);
    words
}

#[allow(clippy::too_many_arguments)]
fn run(seed: u64, n: usize, rng: &mut Rng, all: &mut Store, one: &mut Store, keys: &mut Vec<u64>, clock: &mut u64, seen: &mut Seen) {
    let count = rng.below(60) as usize;
    let room = if rng.below(4) == 0 { rng.below(count as u64 + 1) as usize } else { count };
    let (cut, spare) = (rng.below(4) as usize, rng.below(6) as usize);
    let sound = one.judge();
    let (mut commands, mut expected) = (vec![], vec![[MARK; 6]; room + 1]);
    let (mut done, mut why) = (0, NO_WORDS);
    for _ in 0..count {
        let held = (one.hand != 65_535).then_some(one.until);
        let (command, is_one) = drawn(rng, n, keys, held, clock);
        commands.push(command);
        why = match is_one {
            _ if why != NO_WORDS => why,
            false => NO_COMMAND,
            true if done == room => NO_ROOM,
            true => {
                let answer = one.call(command);
                match answer[0] {
                    KEY => keys.push(answer[1]),
                    OUT | LAST => seen.out += 1,
                    NOT_YET => seen.not_yet += 1,
                    NO => seen.refused[answer[1] as usize] += 1,
                    _ => {}
                }
                expected[done] = answer;
                done += 1;
                why
            }
        };
    }
    // up to three words of a command that is cut off, and up to five of room
    commands.push([POLL, *clock, 0, 0]);
    let mut answers: Vec<Answer> = vec![[MARK; 6]; room + 1];
    let words = &commands.as_flattened()[..4 * count + cut];
    let did = all.run(words, &mut answers.as_flattened_mut()[..6 * room + spare]);
    assert_eq!((did, &answers), ((done, why), &expected), "seed {seed}");
    assert!(all == one, "seed {seed}: the words differ");
    seen.runs += 1;
    seen.commands += done as u64;
    seen.unsound += !sound as u64;
    seen.healed += (!sound && one.judge()) as u64;
    seen.stopped[why as usize] += 1;
}
