//! inspect: what the program `inspect` writes of logs against a checker of its own, which shares nothing with it: cases by hand, then
//! generated logs, honest ones and damaged ones. Rust's standard library alone: rustc -O inspect.rs.
use std::collections::{BTreeSet, HashMap};
use std::env;
use std::io::{Read, Write};
use std::process::{exit, Command, Stdio};

const USAGE: &str =
    "usage: inspect [--from SEED] [--to SEED] PROGRAM [ARGS..] | inspect --write | inspect --log SEED | inspect --steady PENDING LINES";

/// Written by hand, not by this program.
const CASES: [(&str, &str); 36] = [
    ("", "ok\n"),
    ("\n", "bad 1\n"),
    ("i 1 5\n\n", "bad 2\n"),
    ("i 1 5\np 5 1\n", "ok\n"),
    ("i 1 5\np 5 1", "ok\n"),
    ("i 1 5\np 4 1\n", "bad 2\n"),
    ("i 1 5\np 5 -\n", "bad 2\n"),
    ("i 1 5\np 4 -\n", "ok\n"),
    ("p 0 -\n", "ok\n"),
    ("p 0 1\n", "bad 1\n"),
    ("i 1 5\ni 1 5\n", "bad 2\n"),
    ("i 1 5\nr 1\ni 1 5\np 5 1\ni 1 5\n", "ok\n"),
    ("r 1\n", "bad 1\n"),
    ("s 1 5\n", "bad 1\n"),
    ("i 1 5\ns 1 9\np 5 -\np 9 1\n", "ok\n"),
    ("i 1 5\ns 1 9\np 9 1\ns 1 9\n", "bad 4\n"),
    // order among equals is free
    ("i 1 5\ni 2 5\np 5 2\np 5 1\n", "ok\n"),
    ("i 1 5\ni 2 5\np 5 1\np 5 2\n", "ok\n"),
    ("i 1 5\ni 2 6\np 6 2\n", "bad 3\n"),
    // the clock: the largest now that was answered with none; deadlines below it are raised, at i and s alone
    ("p 9 -\ni 1 3\ni 2 8\np 9 1\np 9 2\n", "ok\n"),
    ("p 9 -\ni 1 3\np 8 1\n", "bad 3\n"),
    ("i 1 20\np 9 -\ns 1 3\np 9 1\n", "ok\n"),
    ("i 1 20\np 9 -\ns 1 3\np 8 -\np 9 1\n", "ok\n"),
    ("p 9 -\np 4 -\ni 1 3\np 8 -\n", "ok\n"),
    // a hand-out does not raise it, as our own queue's does: the honest log of docs/DIFFERENCES.md
    ("i 1 100\np 100 1\ni 2 60\ni 3 50\np 100 2\n", "bad 5\n"),
    ("i 1 100\np 100 1\ni 2 60\ni 3 50\np 100 3\np 100 2\n", "ok\n"),
    // text
    ("i 1\n", "bad 1\n"),
    ("i 1 5 0\n", "bad 1\n"),
    ("i 01 5\n", "bad 1\n"),
    ("i  1 5\n", "bad 1\n"),
    ("i 1 18446744073709551615\np 18446744073709551615 1\n", "ok\n"),
    ("i 1 18446744073709551616\n", "bad 1\n"),
    ("p - -\n", "bad 1\n"),
    ("p 5\n", "bad 1\n"),
    ("p 5 -\r\n", "bad 1\n"),
    ("r -\n", "bad 1\n"),
];

// ---- the checker

fn number(field: &[u8]) -> Option<u64> {
    if field.is_empty() || field.len() > 20 || !field.iter().all(u8::is_ascii_digit) || field.len() > 1 && field[0] == b'0' {
        return None;
    }
    let n = field.iter().fold(0u128, |n, b| 10 * n + u128::from(b - b'0'));
    u64::try_from(n).ok()
}

#[derive(Default)]
struct Log {
    pending: HashMap<u64, u64>,
    deadlines: BTreeSet<(u64, u64)>,
    clock: u64,
}

impl Log {
    fn put(&mut self, key: u64, when: u64) {
        let deadline = when.max(self.clock);
        self.pending.insert(key, deadline);
        self.deadlines.insert((deadline, key));
    }

    fn take(&mut self, key: u64) -> bool {
        match self.pending.remove(&key) {
            Some(deadline) => self.deadlines.remove(&(deadline, key)),
            None => false,
        }
    }

    fn least(&self) -> Option<u64> {
        self.deadlines.first().map(|least| least.0)
    }

    /// Whether the line is right; then it is taken.
    fn line(&mut self, line: &[u8]) -> bool {
        if line.len() > 80 {
            return false;
        }
        let fields: Vec<&[u8]> = line.split(|&b| b == b' ').collect();
        match fields[..] {
            [b"i", key, when] => match (number(key), number(when)) {
                (Some(key), Some(when)) if !self.pending.contains_key(&key) && self.pending.len() < 1024 => {
                    self.put(key, when);
                    true
                }
                _ => false,
            },
            [b"s", key, when] => match (number(key), number(when)) {
                (Some(key), Some(when)) if self.take(key) => {
                    self.put(key, when);
                    true
                }
                _ => false,
            },
            [b"r", key] => number(key).is_some_and(|key| self.take(key)),
            [b"p", now, b"-"] => match number(now) {
                Some(now) if self.least().is_none_or(|least| now < least) => {
                    self.clock = self.clock.max(now);
                    true
                }
                _ => false,
            },
            [b"p", now, key] => match (number(now), number(key)) {
                (Some(now), Some(key)) => {
                    let deadline = self.pending.get(&key).copied();
                    deadline.is_some() && deadline == self.least() && deadline <= Some(now) && self.take(key)
                }
                _ => false,
            },
            _ => false,
        }
    }
}

fn lines(input: &[u8]) -> Vec<&[u8]> {
    let mut lines: Vec<&[u8]> = input.split(|&b| b == b'\n').collect();
    if lines.last().is_some_and(|last| last.is_empty()) {
        lines.pop();
    }
    lines
}

fn verdict(input: &[u8]) -> String {
    let mut log = Log::default();
    match lines(input).iter().position(|line| !log.line(line)) {
        Some(at) => format!("bad {}\n", at + 1),
        None => "ok\n".into(),
    }
}

// ---- the generator

struct Rng(u64);

impl Rng {
    fn next(&mut self) -> u64 {
        self.0 = self.0.wrapping_add(0x9e37_79b9_7f4a_7c15);
        let mut z = self.0;
        z = (z ^ (z >> 30)).wrapping_mul(0xbf58_476d_1ce4_e5b9);
        z = (z ^ (z >> 27)).wrapping_mul(0x94d0_49bb_1331_11eb);
        z ^ (z >> 31)
    }

    fn below(&mut self, n: u64) -> u64 {
        self.next() % n
    }
}

/// What the keys and times of a log are like.
struct Style {
    keys: u64,
    times: u64,
    most: usize,
}

fn time(rng: &mut Rng, style: &Style, clock: u64) -> u64 {
    match rng.below(16) {
        0 => rng.below(4),
        1 => u64::MAX - rng.below(3),
        2 => clock.saturating_sub(rng.below(style.times)),
        3 => rng.next() >> rng.below(64),
        _ => clock.saturating_add(rng.below(style.times)),
    }
}

/// A log that is right, by a machine that does as the inspector expects.
fn honest(rng: &mut Rng, style: &Style, count: usize) -> Vec<String> {
    // in the order of their insertion
    let mut pending: Vec<(u64, u64)> = vec![];
    let mut clock = 0u64;
    let mut log = vec![];
    while log.len() < count {
        let fill = pending.len() < style.most && log.len() < count / 2;
        let kind = if fill && style.most > 100 { 0 } else { rng.below(8) };
        let any = rng.below(pending.len().max(1) as u64) as usize;
        match kind {
            0..=2 => {
                let key = if style.keys == 0 { rng.next() } else { rng.below(style.keys) };
                if pending.len() < 1024 && pending.iter().all(|timer| timer.0 != key) {
                    let when = time(rng, style, clock);
                    pending.push((key, when.max(clock)));
                    log.push(format!("i {key} {when}"));
                }
            }
            3 if any < pending.len() => {
                let when = time(rng, style, clock);
                pending[any].1 = when.max(clock);
                log.push(format!("s {} {when}", pending[any].0));
            }
            4 if any < pending.len() && rng.below(3) == 0 => {
                log.push(format!("r {}", pending.remove(any).0));
            }
            5..=7 => {
                let now = time(rng, style, clock);
                let least = pending.iter().map(|timer| timer.1).min();
                match least.filter(|&least| least <= now) {
                    None => {
                        clock = clock.max(now);
                        log.push(format!("p {now} -"));
                    }
                    Some(least) => {
                        let equal: Vec<usize> = (0..pending.len()).filter(|&at| pending[at].1 == least).collect();
                        let at = equal[rng.below(equal.len() as u64) as usize];
                        log.push(format!("p {now} {}", pending.remove(at).0));
                    }
                }
            }
            _ => {}
        }
    }
    log
}

/// One line changed, in one of many ways. Often the log is bad then, at that line or later.
fn damage(rng: &mut Rng, log: &mut Vec<String>) {
    let at = rng.below(log.len() as u64) as usize;
    let line = log[at].clone();
    let mut fields: Vec<String> = line.split(' ').map(String::from).collect();
    let other = log[rng.below(log.len() as u64) as usize].split(' ').nth(1).unwrap_or("0").to_string();
    let last = fields.len() - 1;
    match rng.below(18) {
        0 => fields[last] = "-".into(),
        1 => fields[last] = other,
        2 if last > 0 => fields[1] = other,
        3 => {
            log.remove(at);
            return;
        }
        4 => {
            log.insert(at, line);
            return;
        }
        5 if at + 1 < log.len() => {
            log.swap(at, at + 1);
            return;
        }
        6 | 7 if last > 0 => {
            let which = 1 + rng.below(last as u64) as usize;
            if let Ok(n) = fields[which].parse::<u64>() {
                fields[which] = if rng.below(2) == 0 { n.wrapping_add(1) } else { n.wrapping_sub(1) }.to_string();
            }
        }
        8 => fields.push(rng.below(9).to_string()),
        9 => {
            fields.pop();
        }
        10 => fields[last] = format!("0{}", fields[last]),
        11 => fields[last].push_str(["\r", " ", "\t", "x", "-", "\0"][rng.below(6) as usize]),
        12 => fields[0] = ["I", "S", "R", "P", "", "f", "ii", "p "][rng.below(8) as usize].into(),
        13 => fields[last] = ["18446744073709551616", "+1", "", "99999999999999999999", "1e3", "--"][rng.below(6) as usize].into(),
        14 => fields[last] = "1".repeat((rng.below(4) + 77) as usize),
        15 => {
            log[at] = String::new();
            return;
        }
        16 => fields.swap(0, last),
        _ => fields[0] = ["i", "s", "r", "p"][rng.below(4) as usize].into(),
    }
    log[at] = fields.join(" ");
}

/// The log of a seed, and whether it is known to be right.
fn generated(seed: u64) -> (Vec<u8>, bool) {
    let mut rng = Rng(seed);
    let full = seed % 1000 == 0;
    let style = Style {
        keys: if full { 0 } else { [3, 8, 40, 0][rng.below(4) as usize] },
        times: [2, 6, 30, 1000][rng.below(4) as usize],
        most: if full { 1024 } else { 16 },
    };
    let size = [8, 20, 60][rng.below(3) as usize];
    let count = if full { 2600 } else { 1 + rng.below(size) as usize };
    let mut log = honest(&mut rng, &style, count);
    let right = seed % 3 == 0;
    if !right {
        damage(&mut rng, &mut log);
    }
    let mut text = log.join("\n");
    if !text.is_empty() && rng.below(4) > 0 || text.ends_with('\n') {
        text.push('\n');
    }
    (text.into_bytes(), right)
}

/// A log of so many lines that holds so many pending: they are set, and then one is handed out and one is set in turn.
fn steady(pending: usize, count: usize) -> String {
    let mut rng = Rng(1);
    let mut timers = BTreeSet::new();
    let mut log = String::new();
    for line in 0..count {
        if timers.len() < pending {
            let when = timers.first().map_or(0, |least: &(u64, u64)| least.0) + 1 + rng.below(1000);
            timers.insert((when, line as u64));
            log += &format!("i {line} {when}\n");
        } else {
            let (when, key) = timers.pop_first().expect("one is pending");
            log += &format!("p {when} {key}\n");
        }
    }
    log
}

// ---- the program

fn same(program: &[String], input: &[u8], expected: &str) -> bool {
    let cannot = |e| -> ! {
        eprintln!("inspect: cannot run {}: {e}", program[0]);
        exit(2)
    };
    let mut child = match Command::new(&program[0]).args(&program[1..]).stdin(Stdio::piped()).stdout(Stdio::piped()).spawn() {
        Ok(child) => child,
        Err(e) => cannot(e),
    };
    // It reads to the end before it writes, so that neither side waits for the other.
    let _ = child.stdin.take().expect("piped").write_all(input);
    let got = match child.wait_with_output() {
        Ok(got) => got,
        Err(e) => cannot(e),
    };
    let well = got.stdout == expected.as_bytes() && got.status.success();
    if !well {
        println!("input:    {}", input.escape_ascii());
        println!("expected: {}", expected.escape_debug());
        println!("got:      {} ({})", got.stdout.escape_ascii(), got.status);
    }
    well
}

fn fail(line: &str) -> ! {
    eprintln!("{line}");
    exit(2)
}

fn main() {
    let mut words: Vec<String> = env::args().skip(1).collect();
    if words == ["--write"] {
        let mut input = vec![];
        std::io::stdin().read_to_end(&mut input).expect("standard input");
        print!("{}", verdict(&input));
        return;
    }
    if words.len() == 2 && words[0] == "--log" {
        let seed = words[1].parse().unwrap_or_else(|_| fail(USAGE));
        std::io::stdout().write_all(&generated(seed).0).expect("standard output");
        return;
    }
    if words.len() == 3 && words[0] == "--steady" {
        let [pending, count] = [1, 2].map(|at: usize| words[at].parse().ok().filter(|&n| n > 0).unwrap_or_else(|| fail(USAGE)));
        print!("{}", steady(pending, count));
        return;
    }
    let (mut from, mut to) = (1u64, 10_000u64);
    while words.len() > 1 && words[0].starts_with("--") {
        let value = words[1].parse().unwrap_or_else(|_| fail(USAGE));
        match words[0].as_str() {
            "--from" => from = value,
            "--to" => to = value,
            _ => fail(USAGE),
        }
        words.drain(..2);
    }
    if words.is_empty() || words[0].starts_with("--") {
        fail(USAGE);
    }
    let full: String = (0..1024).map(|key| format!("i {key} 5\n")).collect();
    let more = [(full.clone(), "ok\n"), (full.clone() + "i 1024 5\n", "bad 1025\n"), (full + "r 7\ni 1024 5\np 5 1024\n", "ok\n")];
    let cases = CASES.iter().map(|case| (case.0.to_string(), case.1)).chain(more);
    for (input, expected) in cases {
        if verdict(input.as_bytes()) != expected {
            fail(&format!("{input:?}: the checker says {:?}", verdict(input.as_bytes())));
        }
        if !same(&words, input.as_bytes(), expected) {
            exit(1);
        }
    }
    let (mut read, mut ok) = (0, 0);
    for seed in from..=to {
        let (input, right) = generated(seed);
        let expected = verdict(&input);
        if right && expected != "ok\n" {
            fail(&format!("seed {seed}: an honest log, and the checker says {expected:?}"));
        }
        read += lines(&input).len();
        ok += usize::from(expected == "ok\n");
        if !same(&words, &input, &expected) {
            println!("seed {seed}");
            exit(1);
        }
    }
    println!("{} cases and seeds {from}..{to}, {read} lines, {ok} logs ok, {} bad: 0 differences", CASES.len() + 3, to + 1 - from - ok as u64);
}
