//! scale: our queue and the original in one process, every answer and the lists compared.
#[allow(dead_code)] // the benchmark calls the rest
#[path = "../../../speed/src/clock.rs"]
mod clock;
mod compared;
mod contents;
mod gauge;
mod journal;
#[allow(dead_code)] // the benchmark calls the rest
#[path = "../../../speed/src/ours.rs"]
mod ours;
mod recovery;
mod sleep;
mod states;
mod tally;
mod wrong;

use compared::{Compared, Difference, How};
use oracle::exit::exit;
use oracle::generator::{give, Taker};
use oracle::journal::compare::Work;
use oracle::rules::{BENCH_ROOM, MOST_RECORDS};
use oracle::short::{self, About};
use std::env;
use std::fmt;
use std::fs;
use std::ops::RangeInclusive;
use std::path::{Path, PathBuf};
use std::process::ExitCode;
use std::sync::atomic::{AtomicBool, AtomicU64, Ordering};
use std::thread;
use std::time::Instant;
use tally::Tally;
use wrong::{Wrong, WORDS};

const USAGE: &str = "usage: scale [--keep FOLDER] \
    [ judged FROM TO LINES | inner FROM TO LINES | checked FROM TO LINES \
    | large judged|inner|checked FROM TO LINES | short DEPTH | ends DEPTH | wrong [WORD] | gauge FROM TO \
    | journal FROM TO EVERY TIMES | journal wrong [WORD] | recovery ENTRIES | states TIMERS \
    | sleep FROM TO | sleep wrong ]";
/// Where a script with a difference is kept below the oracle's folder, unless --keep names another.
const KEEP: &str = "target/differences";
/// So many short sequences are one piece of work.
const CHUNK: u64 = 10_000;
/// Deeper ones would be billions of commands.
const DEEPEST: u32 = 4;
/// Stores with more timers would be billions.
const MOST_TIMERS: usize = 3;

fn main() -> ExitCode {
    let words: Vec<String> = env::args().skip(1).collect();
    let words: Vec<&str> = words.iter().map(String::as_str).collect();
    exit("scale", run(&words))
}

fn run(words: &[&str]) -> Result<bool, String> {
    let here = Path::new(env!("CARGO_MANIFEST_DIR")).with_file_name(KEEP);
    let (keep, words) = match words {
        ["--keep", folder, rest @ ..] => (PathBuf::from(folder), rest),
        _ => (here, words),
    };
    let seeds = |room, how: &str, from: &str, to: &str, lines: &str| {
        let how = How::named(how).ok_or(USAGE)?;
        let (from, to) = (number(from)?, number(to)?);
        let lines = number(lines)? as usize;
        let all = from <= to && lines > 0;
        all.then_some(Part::Seeds(how, from..=to, lines, room))
            .ok_or(USAGE.to_string())
    };
    let part = match words {
        [] => return whole(&keep),
        ["journal", from, to, every, times] => return journals(&keep, [from, to, every, times]),
        ["journal", "wrong"] => return all_wrong_journals(&keep),
        ["journal", "wrong", word] => {
            let word = number(word)? as usize;
            let fine = word < journal::WORDS;
            return if fine { TRIED.compare(|| Ok(journal::recovers(Some(word))), &keep) } else { Err(USAGE.into()) };
        }
        ["large", how, from, to, lines] => seeds(MOST_RECORDS, how, from, to, lines)?,
        [how, from, to, lines] => seeds(BENCH_ROOM, how, from, to, lines)?,
        ["short", depth] => Part::Short(About::Slots, depth_of(depth)?),
        ["ends", depth] => Part::Short(About::BlockEnds, depth_of(depth)?),
        ["gauge", from, to] => {
            let (from, to) = (number(from)?, number(to)?);
            return if from <= to { Ok(gauge::compare(from, to)) } else { Err(USAGE.into()) };
        }
        ["recovery", entries] => return Ok(recovery::measure(number(entries)? as usize)),
        ["states", timers] => {
            let timers = number(timers)? as usize;
            return if (1..=MOST_TIMERS).contains(&timers) { Ok(states::compare(timers)) } else { Err(USAGE.into()) };
        }
        ["sleep", from, to] => {
            let (from, to) = (number(from)?, number(to)?);
            return if from <= to { Ok(sleep::compare(from, to)) } else { Err(USAGE.into()) };
        }
        ["sleep", "wrong"] => return Ok(sleep::all_wrong()),
        ["wrong"] => return all_wrong(),
        ["wrong", word] => {
            let wrong = Wrong::new(number(word)? as usize).ok_or(USAGE)?;
            return Part::Seeds(How::Judged, 1..=2, 2000, BENCH_ROOM).compare(&keep, Some(wrong));
        }
        _ => return Err(USAGE.into()),
    };
    part.compare(&keep, None)
}

/// Our recovery against the second reading, for journals of these seeds.
fn journals(keep: &Path, words: [&str; 4]) -> Result<bool, String> {
    let [from, to, every, times] = words.map(number);
    let work = Work {
        seeds: from?..=to?,
        every: every? as usize,
        times: times? as usize,
    };
    if work.seeds.is_empty() || work.every == 0 {
        return Err(USAGE.into());
    }
    work.compare(|| Ok(journal::recovers(None)), keep)
}

/// What wrong words of a recovery are tried on.
const TRIED: Work = Work {
    seeds: 1..=4,
    every: 9,
    times: 5,
};

/// Each word of a recovery in turn: it must be seen.
fn all_wrong_journals(keep: &Path) -> Result<bool, String> {
    if !TRIED.compare(|| Ok(journal::recovers(None)), keep)? {
        return Ok(false);
    }
    let mut seen = 0;
    for word in 0..journal::WORDS {
        match TRIED.run(|| Ok(journal::recovers(Some(word))))?.1 {
            Some(_) => seen += 1,
            None => println!("{} was not seen", journal::name(word)),
        }
    }
    println!("{} wrong words, {seen} seen", journal::WORDS);
    Ok(seen == journal::WORDS)
}

fn number(word: &str) -> Result<u64, String> {
    word.parse().map_err(|_| USAGE.to_string())
}

fn depth_of(word: &str) -> Result<u32, String> {
    let depth = number(word)?;
    let too_deep = format!("sequences of {depth}: at most {DEEPEST}");
    (1..=DEEPEST.into())
        .contains(&depth)
        .then_some(depth as u32)
        .ok_or(too_deep)
}

/// The run that docs/DIFFERENCES.md records.
fn whole(keep: &Path) -> Result<bool, String> {
    let start = Instant::now();
    let mut commands = 0;
    for part in [
        Part::Seeds(How::Judged, 1..=20_480, 5000, BENCH_ROOM),
        Part::Seeds(How::Inner, 20_481..=40_960, 5000, BENCH_ROOM),
        Part::Seeds(How::Checked, 40_961..=41_472, 5000, BENCH_ROOM),
        Part::Seeds(How::Inner, 1..=16, 400_000, MOST_RECORDS),
        Part::Short(About::Slots, DEEPEST),
        Part::Short(About::BlockEnds, DEEPEST),
    ] {
        let Some(tally) = part.run(keep, None)? else {
            return Ok(false);
        };
        commands += tally.commands();
    }
    let seconds = start.elapsed().as_secs();
    println!("in all: {commands} commands compared, 0 differences, {seconds} s");
    Ok(true)
}

/// Every word of [`Wrong`] in turn, by calls that judge and by those that do not: each must be seen.
fn all_wrong() -> Result<bool, String> {
    let mut seen = 0;
    let sides = [How::Judged, How::Inner];
    for how in sides {
        let work = Part::Seeds(how, 1..=1, 2000, BENCH_ROOM);
        if let Some(found) = work.piece(0, None).1 {
            println!("{}: {found}", work.title());
            return Ok(false);
        }
        for wrong in (0..WORDS).filter_map(Wrong::new) {
            match work.piece(0, Some(wrong)).1 {
                Some(found) if found.at_once || wrong.is_seen_later() => seen += 1,
                _ => println!("{}: {} was not seen", work.title(), wrong.name()),
            }
        }
    }
    println!("{} wrong words, {seen} seen", sides.len() * WORDS);
    Ok(seen == sides.len() * WORDS)
}

enum Part {
    /// These seeds, with so many lines each, on memory for so many records.
    Seeds(How, RangeInclusive<u64>, usize, u64),
    /// Every sequence of so many commands, about the first slots or block ends.
    Short(About, u32),
}

/// A script that differs, and where.
struct Found {
    name: String,
    difference: Difference,
    /// Up to the command that differs.
    script: String,
    /// It is no later than the word that was made wrong.
    at_once: bool,
}

impl Part {
    fn title(&self) -> String {
        match self {
            Part::Seeds(how, seeds, lines, room) => {
                let (from, to) = (seeds.start(), seeds.end());
                let (name, large) = (how.name(), *room > BENCH_ROOM);
                let large = if large { "large " } else { "" };
                format!("{large}{name} seeds {from}..{to}, {lines} lines each")
            }
            Part::Short(About::Slots, depth) => format!("judged, every sequence of {depth} commands"),
            Part::Short(About::BlockEnds, depth) => format!("judged, every sequence of {depth} commands about block ends"),
        }
    }

    /// Into so many pieces the work is cut.
    fn pieces(&self) -> u64 {
        match self {
            Part::Seeds(_, seeds, ..) => seeds.end() - seeds.start() + 1,
            Part::Short(about, depth) => short::count(*about, *depth, true).div_ceil(CHUNK),
        }
    }

    fn piece(&self, number: u64, wrong: Option<Wrong>) -> (Tally, Option<Found>) {
        match self {
            Part::Seeds(how, seeds, lines, room) => {
                let seed = seeds.start() + number;
                let mut compared = Compared::new(*how, *lines, *room, wrong);
                give(seed, most_records(seed, *room), &mut compared);
                compared.end();
                compared.done(format!("{} seed {seed}", how.name()))
            }
            Part::Short(about, depth) => {
                let mut compared = Compared::new(How::Judged, usize::MAX, BENCH_ROOM, wrong);
                let first = number * CHUNK;
                let mut at = first;
                let range = first..short::count(*about, *depth, true).min(first + CHUNK);
                short::give(*about, *depth, true, range, |commands| {
                    if compared.full() {
                        return;
                    }
                    compared.start();
                    for &command in commands {
                        compared.command(command);
                    }
                    compared.end();
                    at += 1;
                });
                compared.done(format!("depth {depth} sequence {}", at - 1))
            }
        }
    }

    /// Says whether all agree.
    fn compare(&self, keep: &Path, wrong: Option<Wrong>) -> Result<bool, String> {
        Ok(self.run(keep, wrong)?.is_some())
    }

    /// All pieces, on every processor. Stops at a difference: then there is no tally.
    fn run(&self, keep: &Path, wrong: Option<Wrong>) -> Result<Option<Tally>, String> {
        let start = Instant::now();
        let (next, stop) = (AtomicU64::new(0), AtomicBool::new(false));
        let work = || {
            let mut tally = Tally::default();
            while !stop.load(Ordering::Relaxed) {
                let number = next.fetch_add(1, Ordering::Relaxed);
                if number >= self.pieces() {
                    break;
                }
                let (piece, found) = self.piece(number, wrong);
                tally += &piece;
                if found.is_some() {
                    stop.store(true, Ordering::Relaxed);
                    return (tally, found);
                }
            }
            (tally, None)
        };
        let processors = thread::available_parallelism().map_or(1, usize::from);
        let mut tally = Tally::default();
        let mut found = None;
        thread::scope(|scope| {
            let threads: Vec<_> = (0..processors).map(|_| scope.spawn(work)).collect();
            for thread in threads {
                let (part, difference) = thread.join().map_err(|_| "a check failed")?;
                tally += &part;
                found = found.take().or(difference);
            }
            Ok::<(), String>(())
        })?;
        if let Some(found) = found {
            println!("{found}");
            println!("  kept in:  {}", found.keep(keep)?);
            println!("{}: 1 difference, stopped there", self.title());
            return Ok(None);
        }
        let seconds = start.elapsed().as_secs();
        println!("{}:\n{tally}\n  0 differences, {seconds} s", self.title());
        Ok(Some(tally))
    }
}

/// Small stores mostly, and every eighth seed goes on through all sizes; where there is room for more than on the bench, large ones.
fn most_records(seed: u64, room: u64) -> u64 {
    match seed % 8 {
        _ if room > BENCH_ROOM => room,
        0 => 1 + seed / 8 % room,
        n => 1 << (n + 1).min(6),
    }
}

impl Found {
    /// Answers where the commands were put.
    fn keep(&self, folder: &Path) -> Result<String, String> {
        let odd = |c: char| !c.is_ascii_alphanumeric();
        let file = folder.join(self.name.replace(odd, "-") + ".cmd");
        fs::create_dir_all(folder)
            .and_then(|()| fs::write(&file, &self.script))
            .map_err(|e| format!("{}: {e}", file.display()))?;
        Ok(file.display().to_string())
    }
}

impl fmt::Display for Found {
    fn fmt(&self, f: &mut fmt::Formatter<'_>) -> fmt::Result {
        let Difference {
            number,
            command,
            expected,
            got,
        } = &self.difference;
        writeln!(f, "{}, command {number}", self.name)?;
        writeln!(f, "  command:  {command}")?;
        writeln!(f, "  expected: {expected}")?;
        write!(f, "  got:      {got}")
    }
}
