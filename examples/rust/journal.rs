//! An arm with a journal, which outlives its own end: it is killed twice, once inside a patch and once inside a write, and goes on from its
//! file. Each call's bytes are on the disk before its answer is used.
use ngawdrelo::{Answer, Command, Ending, Entry, Patch, Said, Store};
use std::fs::{self, File, OpenOptions};
use std::io::{self, Read, Seek, SeekFrom, Write};
use std::{env, process};

/// What a timer's value stands for: cut the vacuum, rinse the pump.
const CUT: u64 = 7;
const RINSE: u64 = 9;

const JOURNAL: &str = "arm.journal";

struct Arm {
    store: Store<16>,
    patch: Patch,
    file: File,
}

impl Arm {
    /// The store as the journal has it; the file is cut to what is kept, from where writing goes on.
    fn start() -> io::Result<Arm> {
        let mut file = OpenOptions::new().read(true).write(true).create(true).truncate(false).open(JOURNAL)?;
        let (mut store, mut bytes) = (Store::new(), Vec::new());
        file.read_to_end(&mut bytes)?;
        let (n, found) = (bytes.len() as u64, store.recover(&bytes));
        print!("started: {n} bytes, {} kept", found.kept);
        if found.at > found.kept {
            print!(", {} of a patch that is not closed", found.at - found.kept);
        }
        if n > found.at {
            print!(", {} of an entry that is not whole", n - found.at);
        }
        println!();
        if found.ending != Ending::Cut {
            return Err(io::Error::other("the journal is damaged")); // docs/ANSWERS.md, "After a power cut"
        }
        file.set_len(found.kept)?;
        file.sync_all()?;
        file.seek(SeekFrom::Start(found.kept))?;
        Ok(Arm { store, patch: Patch::new(), file })
    }

    /// Writes the bytes of a step, and waits until they have reached the disk. What cannot be written must not be acted on.
    fn keep(&mut self, bytes: &[u8]) -> io::Result<()> {
        self.file.write_all(bytes)?;
        self.file.sync_all()
    }

    fn kept(&mut self, (said, entry): (Said, Entry)) -> io::Result<Said> {
        self.keep(entry.bytes())?;
        Ok(said)
    }

    /// A call through the journal.
    fn ask(&mut self, command: Command) -> io::Result<Said> {
        let step = self.store.act(command);
        self.kept(step)
    }
}

extern "C" {
    fn raise(signal: i32) -> i32;
}

/// As a power cut: nothing of ours is done any more.
fn die() {
    io::stdout().flush().unwrap();
    unsafe { raise(9) };
}

fn live(life: &str) -> io::Result<()> {
    let mut arm = Arm::start()?;
    match life {
        "1" => {
            arm.ask(Command::Format { n: 16, turn: 1 })?.unwrap();
            if let Ok(Answer::Key(key)) = arm.ask(Command::Insert { value: CUT, when: 420_000, period: 0 })? {
                println!("  cut-off set, key {key}");
            }
            let Ok(Answer::Key(key)) = arm.ask(Command::Insert { value: RINSE, when: 2_400_000, period: 2_400_000 })? else {
                return Ok(());
            };
            println!("  rinse set, key {key}");
            let opened = arm.patch.open(); // all of what follows is kept, or none of it
            arm.kept(opened)?.unwrap();
            arm.ask(Command::Reset { key, when: 60_000 })?.unwrap();
            println!("  in a patch: the rinse is moved to 60000");
            die(); // before it is closed
        }
        "2" => {
            match arm.ask(Command::Poll { now: 60_000 })? {
                Ok(Answer::Out { .. }) => println!("  at 60000 a timer is due"),
                _ => println!("  at 60000 nothing is due: the patch was not kept"),
            }
            if let Ok(Answer::Out { value, key, .. }) = arm.ask(Command::Poll { now: 420_000 })? {
                println!("  at 420000 due: {value}, key {key}");
            }
            let (_, entry) = arm.store.act(Command::Clear); // not answered yet: its bytes are not written, ..
            arm.keep(&entry.bytes()[..9])?; // .. only half of them
            die();
        }
        _ => {
            // the cut-off has come out: its key stays dead over both ends
            if let Err(refusal) = arm.ask(Command::Remove { key: 65_536 })? {
                println!("  refused, number {}: {refusal}", refusal.number());
            }
            if let Ok(Answer::Gone { deadline, .. }) = arm.ask(Command::Remove { key: 65_537 })? {
                println!("  rinse cancelled, it was set for {deadline}");
            }
        }
    }
    Ok(())
}

/// Three lives, each a process of its own; the first two are killed.
fn main() -> io::Result<()> {
    if let Some(life) = env::args().nth(1) {
        return live(&life);
    }
    let _ = fs::remove_file(JOURNAL);
    for life in ["1", "2", "3"] {
        let status = process::Command::new(env::current_exe()?).arg(life).status()?;
        if status.code().is_none() {
            println!("killed");
        }
    }
    Ok(())
}
