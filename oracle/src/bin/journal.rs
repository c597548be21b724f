//! journal: the second reading of journals, and what is held against it.
use oracle::exit::exit;
use oracle::journal::compare::{cases, Recovers, Said, Work};
use oracle::journal::generator::{bytes, journal};
use oracle::journal::naive::{self, Fault, FAULTS};
use oracle::journal::program::program;
use oracle::journal::recovered::text;
use oracle::journal::{read, serve};
use std::env;
use std::ffi::OsString;
use std::fs;
use std::path::Path;
use std::process::ExitCode;

const USAGE: &str = "usage: journal read FILE | write FOLDER FROM TO \
    | compare [--from SEED] [--to SEED] [--every BYTES] [--times N] [--keep FOLDER] PROGRAM [ARGS..] \
    | third [OPTIONS OF COMPARE] \
    | wrong [FAULT] | bench [--early | --uncut] FILE";
/// Where a journal with a difference is kept, unless --keep names another folder.
const KEEP: &str = concat!(env!("CARGO_MANIFEST_DIR"), "/target/differences");

fn main() -> ExitCode {
    let words: Vec<OsString> = env::args_os().skip(1).collect();
    exit("journal", run(&words))
}

fn run(words: &[OsString]) -> Result<bool, String> {
    let (first, rest) = words.split_first().ok_or(USAGE)?;
    match (first.to_str(), rest) {
        (Some("read"), [file]) => {
            let journal = fs::read(file).map_err(|e| format!("{}: {e}", file.display()))?;
            print!("{}", text(&read(&journal)));
            Ok(true)
        }
        (Some("write"), [folder, from, to]) => write(Path::new(folder), number(from)?, number(to)?),
        (Some("compare"), rest) => compare(rest),
        (Some("third"), rest) => third(rest),
        (Some("wrong"), []) => all_wrong(),
        (Some("wrong"), [name]) => wrong(name.to_str().ok_or(USAGE)?),
        (Some("bench"), [file]) => serve::bench(Path::new(file), None),
        (Some("bench"), [fault, file]) => {
            let fault = fault.to_str().and_then(serve::Fault::named).ok_or(USAGE)?;
            serve::bench(Path::new(file), Some(fault))
        }
        _ => Err(USAGE.into()),
    }
}

fn number(word: &OsString) -> Result<u64, String> {
    let number = word.to_str().and_then(|word| word.parse().ok());
    number.ok_or(USAGE.to_string())
}

/// Each seed's journal, and beside it what is to be read in it.
fn write(folder: &Path, from: u64, to: u64) -> Result<bool, String> {
    if from > to {
        return Err(USAGE.into());
    }
    let put = |name: String, bytes: &[u8]| {
        let file = folder.join(name);
        fs::write(&file, bytes).map_err(|e| format!("{}: {e}", file.display()))
    };
    fs::create_dir_all(folder).map_err(|e| format!("{}: {e}", folder.display()))?;
    for seed in from..=to {
        let journal = bytes(&journal(seed));
        put(format!("seed-{seed}.journal"), &journal)?;
        put(
            format!("seed-{seed}.text"),
            text(&read(&journal)).as_bytes(),
        )?;
    }
    println!("seeds {from}..{to}: written to {}", folder.display());
    Ok(true)
}

/// The options of `compare`, and the words behind them.
fn options(mut words: &[OsString]) -> Result<(Work, &Path, &[OsString]), String> {
    let mut work = Work {
        seeds: 1..=64,
        every: 1,
        times: 100,
    };
    let mut keep = Path::new(KEEP);
    while let [option, value, rest @ ..] = words {
        match option.to_str() {
            Some("--from") => work.seeds = number(value)?..=*work.seeds.end(),
            Some("--to") => work.seeds = *work.seeds.start()..=number(value)?,
            Some("--every") => work.every = number(value)? as usize,
            Some("--times") => work.times = number(value)? as usize,
            Some("--keep") => keep = Path::new(value),
            _ => break,
        }
        words = rest;
    }
    let option = |word: &OsString| word.to_string_lossy().starts_with("--");
    let fine = !words.first().is_some_and(option) && !work.seeds.is_empty() && work.every > 0;
    fine.then_some((work, keep, words)).ok_or(USAGE.to_string())
}

fn compare(words: &[OsString]) -> Result<bool, String> {
    let (work, keep, words) = options(words)?;
    if words.is_empty() {
        return Err(USAGE.into());
    }
    work.compare(|| Ok(program(words)), keep)
}

/// The third reading with no fault.
fn third(words: &[OsString]) -> Result<bool, String> {
    let (work, keep, words) = options(words)?;
    if !words.is_empty() {
        return Err(USAGE.into());
    }
    work.compare(|| Ok(naive(None)), keep)
}

/// What the wrong ones are tried on.
const TRIED: Work = Work {
    seeds: 1..=60,
    every: 7,
    times: 40,
};

fn naive(fault: Option<Fault>) -> Recovers {
    Box::new(move |journal| {
        Ok(Said {
            text: naive::text(fault, journal).into_bytes(),
            at: None,
        })
    })
}

/// The third reading must agree, and all that can be met must be. With each of its faults it must be found out, by the cases
/// and by the seeds.
fn all_wrong() -> Result<bool, String> {
    if !TRIED.compare(|| Ok(naive(None)), Path::new(KEEP))? {
        return Ok(false);
    }
    let missing = TRIED.run(|| Ok(naive(None)))?.0.missing();
    if !missing.is_empty() {
        return Err(format!(
            "{}: never met: {}",
            TRIED.title(),
            missing.join(", ")
        ));
    }
    let mut seen = 0;
    for fault in FAULTS {
        let by_cases = cases(&mut naive(Some(fault)))?;
        let by_seeds = TRIED.run(|| Ok(naive(Some(fault))))?.1;
        for (by, found) in [("the cases", by_cases), ("the seeds", by_seeds)] {
            match found {
                Some(_) => seen += 1,
                None => println!("{fault:?} was not seen by {by}"),
            }
        }
    }
    println!("{} wrong readings, seen {seen} times", FAULTS.len());
    Ok(seen == 2 * FAULTS.len())
}

fn wrong(name: &str) -> Result<bool, String> {
    let fault = FAULTS
        .into_iter()
        .find(|fault| format!("{fault:?}") == name);
    let fault = fault.ok_or(USAGE)?;
    TRIED.compare(|| Ok(naive(Some(fault))), Path::new(KEEP))
}
