//! What recovery costs: a journal of mixed calls, read and made by our code in this process.
use crate::clock::timed;
use crate::ours;
use oracle::journal::{Patched, Step, ENTRY};
use oracle::line::{Answer, Command};
use oracle::rng::Rng;

const SIZES: [u64; 3] = [64, 1024, 65_535];
const RUNS: usize = 3;

/// Prints the entries a second, of the least time of all runs, on stores of each size. Says whether all entries were kept.
pub fn measure(entries: usize) -> bool {
    println!("least of {RUNS} runs, by the thread's processor time");
    SIZES.into_iter().all(|records| {
        let (journal, pending) = journal(records, entries);
        let entries = journal.len() / ENTRY;
        let mut ours = ours::Store::room(records as usize);
        let mut kept = 0;
        let times = [(); RUNS].map(|()| {
            timed(entries, || {
                kept = ours.replay(&journal)[0];
                kept
            })
            .0
        });
        let ns = times.into_iter().fold(f64::INFINITY, f64::min);
        println!(
            "N {records}: {entries} entries, {kept} of {} bytes kept, {pending} timers pending at the end: \
            {ns:.0} ns an entry, {:.0} entries a second",
            journal.len(),
            1e9 / ns
        );
        kept == journal.len() as u64
    })
}

/// Half of the records are filled. Then of 100 steps 25 inserts, a tenth of which repeat, 25 resets, 12 removes, 37 polls one ms on,
/// and an open or close; a full store gets a reset for an insert. Says too how many are pending at the end.
fn journal(records: u64, entries: usize) -> (Vec<u8>, usize) {
    let mut maker = Maker {
        patched: Patched::new(records),
        bytes: vec![],
        live: vec![],
    };
    let rng = &mut Rng::new(records);
    maker.ask(Step::Asks(Command::Format { records, turn: 1 }));
    let mut now = 0;
    while maker.bytes.len() < entries * ENTRY {
        let when = now + 1 + rng.below(4 * records);
        let live = maker.live.len() as u64;
        let filled = live > records / 2 || now > 0;
        match rng.below(100) {
            step if !filled || step < 25 && live < records => {
                let period = if rng.chance(1, 10) {
                    1 + rng.below(4 * records)
                } else {
                    0
                };
                maker.ask(Step::Asks(Command::Insert {
                    value: rng.next(),
                    when,
                    period,
                }));
            }
            0..50 if live > 0 => {
                let key = rng.pick(&maker.live);
                maker.ask(Step::Asks(Command::Reset { key, when }));
            }
            50..62 if live > 0 => {
                let key = rng.pick(&maker.live);
                maker.ask(Step::Asks(Command::Remove { key }));
                maker.live.retain(|&other| other != key);
            }
            99 if maker.patched.is_open() => maker.ask(Step::Close),
            99 => maker.ask(Step::Open),
            _ => {
                now += 1;
                maker.ask(Step::Asks(Command::Poll { now }));
            }
        }
    }
    if maker.patched.is_open() {
        maker.ask(Step::Close);
    }
    (maker.bytes, maker.live.len())
}

struct Maker {
    patched: Patched,
    bytes: Vec<u8>,
    /// Keys of pending timers.
    live: Vec<u64>,
}

impl Maker {
    fn ask(&mut self, step: Step) {
        let answer = self.patched.ask(step);
        self.bytes.extend(step.written(answer));
        match answer {
            Answer::Key(key) => self.live.push(key),
            Answer::Out { key, .. }
                if !self.patched.store().is_some_and(|store| store.holds(key)) =>
            {
                self.live.retain(|&other| other != key)
            }
            _ => (),
        }
    }
}
