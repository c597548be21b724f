//! What another reads in a journal, held against the second reading, byte for byte.
use super::cases::CASES;
use super::edits::each;
use super::generator::journal;
use super::recovered::text;
use super::tally::Tally;
use std::fmt;
use std::fs;
use std::ops::RangeInclusive;
use std::path::Path;
use std::sync::atomic::{AtomicBool, AtomicU64, Ordering};
use std::thread;
use std::time::Instant;

/// The other: what it says to the bytes of a journal, or why it cannot be run. It may be a program, or a library that is
/// linked in.
pub type Recovers = Box<dyn FnMut(&[u8]) -> Result<Said, String>>;

/// The text that `recovered` writes and, of one that tells it, where reading stopped.
#[derive(PartialEq, Eq)]
pub struct Said {
    pub text: Vec<u8>,
    pub at: Option<usize>,
}

pub struct Work {
    pub seeds: RangeInclusive<u64>,
    /// A journal is cut at every so many bytes.
    pub every: usize,
    /// So many times its bits are flipped, and its entries edited.
    pub times: usize,
}

/// A journal that is read otherwise.
pub struct Found {
    pub name: String,
    pub journal: Vec<u8>,
    expected: Said,
    got: Said,
}

impl Work {
    pub fn title(&self) -> String {
        format!("seeds {}..{}", self.seeds.start(), self.seeds.end())
    }

    /// Says whether all agree. A journal that does not is kept in the folder.
    pub fn compare<F>(&self, make: F, keep: &Path) -> Result<bool, String>
    where
        F: Fn() -> Result<Recovers, String> + Sync,
    {
        let start = Instant::now();
        let (tally, found) = match cases(&mut make()?)? {
            None => self.run(make)?,
            found => (Tally::default(), found),
        };
        if let Some(found) = found {
            println!("{found}");
            println!("  kept in:  {}", found.keep(keep)?);
            println!("{}: 1 difference, stopped there", self.title());
            return Ok(false);
        }
        let (journals, seconds) = (tally.journals(), start.elapsed().as_secs_f64());
        println!("{tally}");
        println!("{:.0} journals a second", journals as f64 / seconds);
        println!(
            "{} cases and {}: {journals} journals compared, 0 differences",
            CASES.len(),
            self.title()
        );
        Ok(true)
    }

    /// All seeds, on every processor, each of which makes its own other. Stops at a difference.
    pub fn run<F>(&self, make: F) -> Result<(Tally, Option<Found>), String>
    where
        F: Fn() -> Result<Recovers, String> + Sync,
    {
        let (next, stop) = (AtomicU64::new(*self.seeds.start()), AtomicBool::new(false));
        let work = || {
            let mut tally = Tally::default();
            let mut other = make()?;
            while !stop.load(Ordering::Relaxed) {
                let seed = next.fetch_add(1, Ordering::Relaxed);
                if seed > *self.seeds.end() {
                    break;
                }
                let found = self.seed(seed, &mut other, &mut tally);
                if !matches!(found, Ok(None)) {
                    stop.store(true, Ordering::Relaxed);
                    return found.map(|found| (tally, found));
                }
            }
            Ok((tally, None))
        };
        let processors = thread::available_parallelism().map_or(1, usize::from);
        let mut all = (Tally::default(), None);
        thread::scope(|scope| {
            let threads: Vec<_> = (0..processors).map(|_| scope.spawn(work)).collect();
            for thread in threads {
                let (tally, found) = thread.join().map_err(|_| "a check failed")??;
                all.0 += &tally;
                all.1 = all.1.take().or(found);
            }
            Ok(all)
        })
    }

    fn seed(
        &self,
        seed: u64,
        other: &mut Recovers,
        tally: &mut Tally,
    ) -> Result<Option<Found>, String> {
        let run = journal(seed);
        tally.count_run(&run);
        for (what, bytes) in each(seed, &run, self.every, self.times) {
            let reading = super::read(&bytes);
            tally.count_reading(&what, &bytes, &reading);
            let got = other(&bytes)?;
            let expected = Said {
                text: text(&reading).into_bytes(),
                at: got.at.map(|_| reading.at),
            };
            if got != expected {
                return Ok(Some(Found {
                    name: format!("seed {seed}, {what}"),
                    journal: bytes,
                    expected,
                    got,
                }));
            }
        }
        Ok(None)
    }
}

/// The cases written by hand, which the second reading must meet too.
pub fn cases(other: &mut Recovers) -> Result<Option<Found>, String> {
    for (i, case) in CASES.iter().enumerate() {
        let (journal, expected) = (case.journal(), case.text());
        let reading = super::read(&journal);
        let second = text(&reading);
        if second != expected {
            return Err(format!("case {}: the second reading is {second:?}", i + 1));
        }
        let got = other(&journal)?;
        let expected = Said {
            text: expected.into_bytes(),
            at: got.at.map(|_| reading.at),
        };
        if got != expected {
            return Ok(Some(Found {
                name: format!("case {}", i + 1),
                journal,
                expected,
                got,
            }));
        }
    }
    Ok(None)
}

impl Found {
    /// Answers where the journal was put.
    fn keep(&self, folder: &Path) -> Result<String, String> {
        let odd = |c: char| !c.is_ascii_alphanumeric();
        let file = folder.join(self.name.replace(odd, "-") + ".journal");
        fs::create_dir_all(folder)
            .and_then(|()| fs::write(&file, &self.journal))
            .map_err(|e| format!("{}: {e}", file.display()))?;
        Ok(file.display().to_string())
    }
}

/// The first line that differs; behind the last one stands the place.
impl fmt::Display for Found {
    fn fmt(&self, f: &mut fmt::Formatter<'_>) -> fmt::Result {
        let [expected, got] = [&self.expected, &self.got].map(Said::all);
        let [expected, got] = [&expected, &got].map(|text| lines(text));
        let same = expected
            .iter()
            .zip(&got)
            .take_while(|(a, b)| a == b)
            .count();
        let show = |lines: &[&[u8]]| match lines.get(same) {
            Some(line) => line.escape_ascii().to_string(),
            None => "nothing".to_string(),
        };
        writeln!(f, "{}, line {}", self.name, same + 1)?;
        writeln!(f, "  expected: {}", show(&expected))?;
        write!(f, "  got:      {}", show(&got))
    }
}

impl Said {
    fn all(&self) -> Vec<u8> {
        let at = self
            .at
            .map_or(String::new(), |at| format!("stopped at {at}\n"));
        [&self.text, at.as_bytes()].concat()
    }
}

/// With their newlines, for one may be missing.
fn lines(text: &[u8]) -> Vec<&[u8]> {
    text.split_inclusive(|&byte| byte == b'\n').collect()
}
