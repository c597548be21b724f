//! The bench with a journal on a file, as the program `journaled` is to be; and wrong on purpose, to see that kills find it.
use super::{parse, read_into, Patched};
use crate::line::{bare, Answer};
use crate::rules::MOST_RECORDS;
use std::fs::{File, OpenOptions};
use std::io::{self, Read, Seek, SeekFrom, Write};
use std::path::Path;

/// Lines are read by so many bytes at most, and share one sync.
pub const READ: usize = 4096;

#[derive(Clone, Copy, PartialEq, Eq)]
pub enum Fault {
    /// Answers before it writes.
    Early,
    /// Goes on behind what is kept without cutting it there.
    Uncut,
}

impl Fault {
    pub fn named(name: &str) -> Option<Fault> {
        match name {
            "--early" => Some(Fault::Early),
            "--uncut" => Some(Fault::Uncut),
            _ => None,
        }
    }
}

pub fn bench(file: &Path, fault: Option<Fault>) -> Result<bool, String> {
    let served = open(file, fault).and_then(|(file, patched)| serve(file, patched, fault));
    served
        .map(|()| true)
        .map_err(|e| format!("{}: {e}", file.display()))
}

/// The file, cut to what is kept, and the store after that.
fn open(file: &Path, fault: Option<Fault>) -> io::Result<(File, Patched)> {
    let mut options = OpenOptions::new();
    let mut file = options
        .read(true)
        .write(true)
        .create(true)
        .truncate(false)
        .open(file)?;
    let mut journal = vec![];
    file.read_to_end(&mut journal)?;
    let reading = read_into(MOST_RECORDS, &journal);
    let kept = reading.kept as u64;
    if fault != Some(Fault::Uncut) {
        file.set_len(kept)?;
        file.sync_all()?;
    }
    file.seek(SeekFrom::Start(kept))?;
    Ok((file, reading.left))
}

fn serve(mut file: File, mut patched: Patched, fault: Option<Fault>) -> io::Result<()> {
    let mut block = [0; READ];
    let mut line = vec![];
    loop {
        let size = io::stdin().read(&mut block)?;
        let (mut written, mut answers) = (vec![], String::new());
        for piece in block[..size].split_inclusive(|&byte| byte == b'\n') {
            line.extend_from_slice(piece);
            if piece.ends_with(b"\n") {
                answer(&mut patched, &line, &mut written, &mut answers);
                line.clear();
            }
        }
        // A last line needs no newline.
        if size == 0 && !line.is_empty() {
            answer(&mut patched, &line, &mut written, &mut answers);
        }
        if fault == Some(Fault::Early) {
            give(&answers)?;
            answers.clear();
        }
        file.write_all(&written)?;
        file.sync_data()?;
        give(&answers)?;
        if size == 0 {
            return Ok(());
        }
    }
}

fn answer(patched: &mut Patched, line: &[u8], written: &mut Vec<u8>, answers: &mut String) {
    let step = parse(bare(line));
    let answer = step.map_or(Answer::Bad, |step| patched.ask(step));
    if let Some(step) = step {
        written.extend(step.written(answer));
    }
    *answers += &format!("{answer}\n");
}

fn give(answers: &str) -> io::Result<()> {
    let mut stdout = io::stdout();
    stdout.write_all(answers.as_bytes())?;
    stdout.flush()
}
