//! How often each kind of answer was given, so that a generator that misses one is found out.
use crate::line::lines;
use crate::past::Past;
use crate::script::Script;
use std::collections::BTreeMap;
use std::fmt;

/// Every kind there is. `last` counts those of `out` that end so, `drains 6` polls with six drains,
/// answered `out` or `none`.
const KINDS: [&str; 25] = [
    "ok", "key", "gone", "out", "last", "none", "wake", "wake -", "len", "bad", "no 1", "no 2",
    "no 3", "no 4", "no 6", "no 7", "no 8", "no 11", "drains 0", "drains 1", "drains 2",
    "drains 3", "drains 4", "drains 5", "drains 6",
];
/// Where polls may have a limit; the drains of `yet` are not counted among the others.
const LIMITED: [&str; 2] = ["yet", "no 12"];

#[derive(Default)]
pub struct Tally {
    kinds: BTreeMap<String, u64>,
    past: Past,
}

impl Tally {
    pub fn add(&mut self, script: &Script) {
        self.past += &script.past;
        for line in lines(&script.answers) {
            let line = String::from_utf8_lossy(line);
            let (word, rest) = line.split_once(' ').unwrap_or((&line, ""));
            match word {
                "#" => continue,
                "no" => self.count(&line),
                "wake" if rest == "-" => self.count(&line),
                "out" | "none" => {
                    let last = rest.strip_suffix(" last");
                    if last.is_some() {
                        self.count("last");
                    }
                    let drains = last.unwrap_or(rest).rsplit(' ').next().unwrap_or("");
                    self.count(&format!("drains {drains}"));
                    self.count(word);
                }
                _ => self.count(word),
            }
        }
    }

    fn count(&mut self, kind: &str) {
        assert!(KINDS.contains(&kind) || LIMITED.contains(&kind), "an answer of no known kind: {kind}");
        *self.kinds.entry(kind.to_string()).or_default() += 1;
    }

    /// The kinds that were never met, and the deadlines below elapsed.
    pub fn missing(&self) -> Vec<String> {
        let missing = KINDS.iter().filter(|&&kind| !self.kinds.contains_key(kind));
        missing.map(|kind| kind.to_string()).chain(self.past.missing()).collect()
    }
}

impl fmt::Display for Tally {
    fn fmt(&self, f: &mut fmt::Formatter<'_>) -> fmt::Result {
        let met = LIMITED.iter().filter(|&&kind| self.kinds.contains_key(kind));
        let count = |kind: &&str| format!("{kind}: {}", self.kinds.get(*kind).unwrap_or(&0));
        let counts: Vec<String> = KINDS.iter().chain(met).map(count).collect();
        write!(f, "{}\n{}", counts.join(", "), self.past)
    }
}
