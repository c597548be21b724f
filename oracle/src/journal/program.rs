//! A program that is given a journal as a file: PROGRAM [ARGS..] FILE.
use super::compare::{Recovers, Said};
use std::env;
use std::ffi::OsString;
use std::fs;
use std::io::{self, Read};
use std::path::PathBuf;
use std::process::{self, Command, Stdio};
use std::sync::atomic::{AtomicU64, Ordering};

/// More than is written to any journal: a program that goes on is stopped there.
const MOST: u64 = 1 << 24;
static FILES: AtomicU64 = AtomicU64::new(0);

/// A file of our own, which goes with us.
pub struct Scratch(pub PathBuf);

impl Scratch {
    pub fn new() -> Scratch {
        let number = FILES.fetch_add(1, Ordering::Relaxed);
        Scratch(env::temp_dir().join(format!("journal-{}-{number}", process::id())))
    }
}

impl Default for Scratch {
    fn default() -> Scratch {
        Scratch::new()
    }
}

impl Drop for Scratch {
    fn drop(&mut self) {
        let _ = fs::remove_file(&self.0);
    }
}

pub fn program(words: &[OsString]) -> Recovers {
    let (words, file) = (words.to_vec(), Scratch::new());
    Box::new(move |journal| {
        let cannot = |e: io::Error| format!("cannot run {}: {e}", words[0].display());
        fs::write(&file.0, journal).map_err(|e| format!("{}: {e}", file.0.display()))?;
        let mut child = Command::new(&words[0])
            .args(&words[1..])
            .arg(&file.0)
            .stdin(Stdio::null())
            .stdout(Stdio::piped())
            .spawn()
            .map_err(cannot)?;
        let mut got = vec![];
        let stdout = child.stdout.take().expect("piped");
        stdout.take(MOST).read_to_end(&mut got).map_err(cannot)?;
        if got.len() as u64 == MOST {
            child.kill().map_err(cannot)?;
        }
        let status = child.wait().map_err(cannot)?;
        if !status.success() {
            got.extend_from_slice(format!("it ended with {status}\n").as_bytes());
        }
        Ok(Said {
            text: got,
            at: None,
        })
    })
}
