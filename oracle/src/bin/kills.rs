//! kills [--from SEED] PROGRAM [ARGS..] RUNS: a bench with a journal on a file, `PROGRAM [ARGS..] FILE`, is given lines, killed
//! at some moment and started again on the same file, over and over.
use oracle::exit::exit;
use oracle::journal::generator::{lines, Asked};
use oracle::journal::kills::{Counts, Run};
use oracle::journal::program::Scratch;
use oracle::journal::read_into;
use oracle::rng::Rng;
use oracle::rules::MOST_RECORDS;
use std::env;
use std::ffi::OsString;
use std::fs;
use std::io::{self, Read, Write};
use std::path::Path;
use std::process::{Child, Command, ExitCode, ExitStatus, Stdio};
use std::sync::atomic::{AtomicUsize, Ordering};
use std::thread;
use std::time::{Duration, Instant};

const USAGE: &str = "usage: kills [--from SEED] PROGRAM [ARGS..] RUNS";
/// Where the files of a run that went wrong are kept.
const KEEP: &str = concat!(env!("CARGO_MANIFEST_DIR"), "/target/differences");
/// Each run is given so many lines.
const LINES: usize = 600;
/// So many are given at once; the next when these are answered.
const AT_ONCE: [usize; 4] = [1, 12, LINES, LINES];
/// A file that is longer is not gone on with.
const LONG: usize = 24_000;
/// A program that has not answered by then hangs.
const LIMIT: Duration = Duration::from_secs(10);

fn main() -> ExitCode {
    let words: Vec<OsString> = env::args_os().skip(1).collect();
    exit("kills", run(&words))
}

fn run(words: &[OsString]) -> Result<bool, String> {
    let number = |word: &OsString| {
        word.to_str()
            .and_then(|word| word.parse().ok())
            .ok_or(USAGE)
    };
    let (from, words) = match words {
        [option, from, rest @ ..] if option == "--from" => (number(from)?, rest),
        _ => (1, words),
    };
    let (runs, program) = words.split_last().ok_or(USAGE)?;
    let runs: u64 = number(runs)?;
    if program.is_empty() || runs == 0 {
        return Err(USAGE.into());
    }
    let mut kills = Kills {
        program: program.to_vec(),
        file: Scratch::new(),
        rng: Rng::new(from),
        whole: Duration::ZERO,
        counts: Counts::default(),
        untouched: 0,
    };
    // The first goes to its end: that tells how long one takes.
    for seed in from..=from + runs {
        if let Some(wrong) = kills.run(seed, seed > from)? {
            println!("seed {seed}, {wrong}");
            println!("  kept in:  {KEEP}/kill-{seed}.*");
            println!("{} kills: 1 difference, stopped there", seed - from);
            return Ok(false);
        }
    }
    let Counts {
        answered,
        written,
        beyond,
        left_out,
    } = kills.counts;
    println!("{answered} lines answered, {written} of them written; {beyond} more in the file, {left_out} bytes left out");
    println!(
        "{} runs ended before their first answer; a whole one takes {:?}",
        kills.untouched, kills.whole
    );
    println!("{runs} kills, 0 differences");
    Ok(true)
}

struct Kills {
    program: Vec<OsString>,
    file: Scratch,
    rng: Rng,
    /// How long a run takes that is not killed.
    whole: Duration,
    counts: Counts,
    untouched: u64,
}

impl Kills {
    /// Says what is wrong, if anything is.
    fn run(&mut self, seed: u64, kill: bool) -> Result<Option<String>, String> {
        let mut before = content(&self.file.0)?;
        if before.len() > LONG {
            fs::remove_file(&self.file.0).map_err(|e| e.to_string())?;
            before.clear();
        }
        let reading = read_into(MOST_RECORDS, &before);
        let kept = reading.kept;
        let asked = lines(seed, LINES, reading.left);
        let start = Instant::now();
        let (answers, status) = self
            .start(&asked, kill)
            .map_err(|e| format!("cannot run {}: {e}", self.program[0].display()))?;
        let after = content(&self.file.0)?;
        let run = Run {
            before: &before,
            kept,
            asked: &asked,
            answers: &answers,
            after: &after,
        };
        let mut judged = run.judge();
        if !kill {
            self.whole = start.elapsed();
            let all = judged
                .as_ref()
                .is_ok_and(|counts| counts.answered == asked.len());
            if judged.is_ok() && !(all && status.success()) {
                judged = Err(format!(
                    "its input ended, and it with {status}, not all answered"
                ));
            }
        }
        match judged {
            Ok(counts) => self.count(&counts),
            Err(wrong) => {
                keep(seed, &run).map_err(|e| format!("{KEEP}: {e}"))?;
                return Ok(Some(wrong));
            }
        }
        Ok(None)
    }

    fn count(&mut self, counts: &Counts) {
        self.untouched += u64::from(counts.answered == 0);
        self.counts.answered += counts.answered;
        self.counts.written += counts.written;
        self.counts.beyond += counts.beyond;
        self.counts.left_out += counts.left_out;
    }

    /// Gives the lines, and takes the answers until the program has ended, by itself or by us.
    fn start(&mut self, asked: &[Asked], kill: bool) -> io::Result<(Vec<u8>, ExitStatus)> {
        let mut child = Command::new(&self.program[0])
            .args(&self.program[1..])
            .arg(&self.file.0)
            .stdin(Stdio::piped())
            .stdout(Stdio::piped())
            .spawn()?;
        let mut stdin = child.stdin.take().expect("piped");
        let mut stdout = child.stdout.take().expect("piped");
        let at_once = if kill { self.rng.pick(&AT_ONCE) } else { LINES };
        let seen = &AtomicUsize::new(0);
        let answered = |asked: &[Asked]| {
            asked
                .iter()
                .map(|asked| asked.answer.to_string().len() + 1)
                .sum()
        };
        thread::scope(|scope| {
            // The end of the input would end the program before we do. If it stops reading, its answers will tell.
            let writer = scope.spawn(move || {
                let mut due = 0;
                for some in asked.chunks(at_once) {
                    wait(seen, due);
                    let _ = stdin.write_all(&text(some));
                    due += answered(some);
                }
                kill.then_some(stdin)
            });
            let reader = scope.spawn(move || {
                let (mut answers, mut block) = (vec![], [0; 4096]);
                while let Ok(size @ 1..) = stdout.read(&mut block) {
                    answers.extend_from_slice(&block[..size]);
                    seen.store(answers.len(), Ordering::Relaxed);
                }
                seen.store(usize::MAX, Ordering::Relaxed);
                answers
            });
            if kill {
                self.kill(&mut child, seen, answered(asked))?;
            }
            let answers = reader.join().expect("no panic");
            let status = child.wait()?;
            drop(writer.join());
            Ok((answers, status))
        })
    }

    /// At any time of a whole run, or as soon as so much of `all` is answered.
    fn kill(&mut self, child: &mut Child, seen: &AtomicUsize, all: usize) -> io::Result<()> {
        let share = self.rng.below(1 << 20) as f64 / (1 << 20) as f64;
        if self.rng.chance(1, 2) {
            thread::sleep(self.whole.mul_f64(share));
        } else {
            wait(seen, (all as f64 * share) as usize);
        }
        child.kill()
    }
}

/// Until so much is answered, or the program hangs.
fn wait(seen: &AtomicUsize, due: usize) {
    let start = Instant::now();
    while seen.load(Ordering::Relaxed) < due && start.elapsed() < LIMIT {
        thread::sleep(Duration::from_micros(20));
    }
}

fn text(asked: &[Asked]) -> Vec<u8> {
    let line = |asked: &Asked| [&asked.line[..], b"\n"].concat();
    asked.iter().flat_map(line).collect()
}

/// A file that is not there is empty.
fn content(file: &Path) -> Result<Vec<u8>, String> {
    match fs::read(file) {
        Err(e) if e.kind() != io::ErrorKind::NotFound => Err(format!("{}: {e}", file.display())),
        read => Ok(read.unwrap_or_default()),
    }
}

fn keep(seed: u64, run: &Run) -> io::Result<()> {
    let lines = text(run.asked);
    fs::create_dir_all(KEEP)?;
    for (name, bytes) in [
        ("before", run.before),
        ("cmd", &lines),
        ("ans", run.answers),
        ("after", run.after),
    ] {
        fs::write(format!("{KEEP}/kill-{seed}.{name}"), bytes)?;
    }
    Ok(())
}
