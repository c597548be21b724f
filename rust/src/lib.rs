//! A delay queue whose every call is proved: what it answers and every word that it leaves, for any words in the store and any numbers.
//! No heap, no clock, no thread. Times are `u64` milliseconds that you hand in.
//!
//! ```ignore
//! let mut arm = Store::<64>::new();
//! arm.format(64, 1)?;
//! let Answer::Key(key) = arm.insert(7, 70, 0)? else { return };
//! if let Answer::Out { value, .. } = arm.poll(70)? { /* what the value stands for */ }
//! ```
//!
//! The proofs speak of the functions of [`raw`], not of this file, which lends them the words of a [`Store`] and reads the six words of
//! an answer. That the words are valid, aligned, do not overlap and have one caller is what `&mut self` says.
#![no_std]
#![warn(missing_docs)]

pub mod raw;
pub use raw::Refusal;

/// What a call answers that is not refused.
#[derive(Clone, Copy, Debug, PartialEq, Eq)]
pub enum Answer {
    /// Format, reset, clear: done.
    Done,
    /// Insert: the timer's key.
    Key(u64),
    /// Remove: what was cancelled.
    #[allow(missing_docs)]
    Gone { value: u64, deadline: u64 },
    /// Poll: this one is due. If it repeats, it is set again, under the same key.
    #[allow(missing_docs)]
    Out { key: u64, value: u64, deadline: u64, moves: u64, drains: u64 },
    /// Poll: the same, of one that was to repeat and cannot: its key is dead.
    #[allow(missing_docs)]
    Last { key: u64, value: u64, deadline: u64, moves: u64, drains: u64 },
    /// Poll: nothing is due.
    #[allow(missing_docs)]
    Nothing { moves: u64, drains: u64 },
    /// Next wake: look again then, and not before.
    Wake(u64),
    /// Next wake: nothing is set.
    NoWake,
    /// Length: so many are set.
    Length(u64),
    /// Poll with a limit: it is not through. Poll on with the same now.
    #[allow(missing_docs)]
    NotYet { moves: u64, drains: u64 },
}

/// An answer, or why there is none; then nothing has changed.
pub type Said = Result<Answer, Refusal>;

/// What six words say.
pub fn said(words: [u64; 6]) -> Said {
    let [kind, a, b, c, d, e] = words;
    match kind {
        raw::DONE => Ok(Answer::Done),
        raw::KEY => Ok(Answer::Key(a)),
        raw::GONE => Ok(Answer::Gone { value: a, deadline: b }),
        raw::OUT => Ok(Answer::Out { key: a, value: b, deadline: c, moves: d, drains: e }),
        raw::LAST => Ok(Answer::Last { key: a, value: b, deadline: c, moves: d, drains: e }),
        raw::NOTHING => Ok(Answer::Nothing { moves: a, drains: b }),
        raw::WAKE => Ok(Answer::Wake(a)),
        raw::NO_WAKE => Ok(Answer::NoWake),
        raw::LENGTH => Ok(Answer::Length(a)),
        raw::NOT_YET => Ok(Answer::NotYet { moves: a, drains: b }),
        // raw::NO; of other kinds there is raw::NO_COMMAND alone, and a `Command` is one
        _ => Err(Refusal::of(a)),
    }
}

/// A call with its numbers, for a run and for the journal.
#[derive(Clone, Copy, Debug, PartialEq, Eq)]
#[allow(missing_docs)]
pub enum Command {
    Format { n: u64, turn: u64 },
    Insert { value: u64, when: u64, period: u64 },
    Reset { key: u64, when: u64 },
    Remove { key: u64 },
    Poll { now: u64 },
    PollSome { now: u64, limit: u64 },
    Wake,
    Length,
    Clear,
}

impl Command {
    /// Its four words.
    pub const fn words(self) -> [u64; 4] {
        match self {
            Command::Format { n, turn } => [raw::ASK_FORMAT, n, turn, 0],
            Command::Insert { value, when, period } => [raw::ASK_INSERT, value, when, period],
            Command::Reset { key, when } => [raw::ASK_RESET, key, when, 0],
            Command::Remove { key } => [raw::ASK_REMOVE, key, 0, 0],
            Command::Poll { now } => [raw::ASK_POLL, now, 0, 0],
            Command::PollSome { now, limit } => [raw::ASK_POLL_SOME, now, limit, 0],
            Command::Wake => [raw::ASK_WAKE, 0, 0, 0],
            Command::Length => [raw::ASK_LENGTH, 0, 0, 0],
            Command::Clear => [raw::ASK_CLEAR, 0, 0, 0],
        }
    }
}

/// Why a run stopped.
#[derive(Clone, Copy, Debug, PartialEq, Eq)]
pub enum Why {
    /// No command is left.
    NoWords,
    /// The next four words are no command.
    NoCommand,
    /// There is no room for the next answer.
    NoRoom,
}

/// What a step leaves to be written to the journal before its answer is used.
#[derive(Clone, Copy, Debug)]
pub struct Entry {
    bytes: [u8; 36],
    size: u64,
}

impl Entry {
    /// The bytes: 0, 18 or 36.
    pub fn bytes(&self) -> &[u8] {
        &self.bytes[..self.size as usize]
    }
}

/// Whether a patch is open: its calls are kept all, or, where the close is missing, none.
#[derive(Debug, Default)]
pub struct Patch {
    open: u64,
}

impl Patch {
    /// None is open.
    pub const fn new() -> Self {
        Patch { open: 0 }
    }

    /// Opens one, or [`Refusal::BadPatch`].
    pub fn open(&mut self) -> (Said, Entry) {
        self.step(raw::ngawdrelo_open)
    }

    /// Closes it, or [`Refusal::BadPatch`].
    pub fn close(&mut self) -> (Said, Entry) {
        self.step(raw::ngawdrelo_close)
    }

    fn step(&mut self, f: unsafe extern "C" fn(*mut u64, *mut [u64; 6], *mut [u8; 36], *mut u64)) -> (Said, Entry) {
        let (mut words, mut entry) = ([0; 6], Entry { bytes: [0; 36], size: 0 });
        // Safety: four things of our own.
        unsafe { f(&mut self.open, &mut words, &mut entry.bytes, &mut entry.size) };
        (said(words), entry)
    }
}

/// Why reading a journal stopped.
#[derive(Clone, Copy, Debug, PartialEq, Eq)]
pub enum Ending {
    /// It is cut there, which is no damage.
    Cut,
    /// There is no such kind of entry.
    Kind,
    /// A 1 stands where zero is due.
    Zero,
    /// A pair is broken.
    Pair,
    /// A step is refused that is never written.
    Gets(Refusal),
}

/// What was found in a journal.
#[derive(Clone, Copy, Debug, PartialEq, Eq)]
pub struct Recovered {
    /// How many bytes are kept: cut the file there and write on from there.
    pub kept: u64,
    /// Where reading stopped; behind `kept` lies what a patch that is not closed has done.
    pub at: u64,
    /// Why it did.
    pub ending: Ending,
}

/// The front part of a board that counts milliseconds in 32 bits. It must be read again before 2^32 of them are over.
#[derive(Debug, Default)]
pub struct Tick {
    time: u64,
}

impl Tick {
    /// The time is 0.
    pub const fn new() -> Self {
        Tick { time: 0 }
    }

    /// The 64-bit time.
    pub const fn time(&self) -> u64 {
        self.time
    }

    /// The time moves on to the tick, or [`Refusal::TimeOver`].
    pub fn read(&mut self, tick: u32) -> Said {
        let mut words = [0; 6];
        // Safety: two things of our own.
        unsafe { raw::ngawdrelo_tick_read(&mut self.time, tick, &mut words) };
        said(words)
    }
}

/// What the gauge of lateness shows.
#[derive(Clone, Copy, Debug, PartialEq)]
pub enum Light {
    /// Below both limits, or no timer has come out yet.
    Calm,
    /// The smoothed lateness is at or over the slow limit.
    Slow(f64),
    /// The worst is at or over the late limit.
    Late(f64),
}

/// A gauge of lateness.
#[derive(Debug, Default)]
pub struct Gauge {
    smoothed: f64,
    worst: f64,
    any: u64,
}

impl Gauge {
    /// Before any timer.
    pub const fn new() -> Self {
        Gauge { smoothed: 0.0, worst: 0.0, any: 0 }
    }

    /// Notes what a poll at `now` answered.
    pub fn note(&mut self, now: u64, said: Said) {
        let words = match said {
            Ok(Answer::Out { key, value, deadline, moves, drains }) => [raw::OUT, key, value, deadline, moves, drains],
            Ok(Answer::Last { key, value, deadline, moves, drains }) => [raw::LAST, key, value, deadline, moves, drains],
            _ => return,
        };
        // Safety: four things of our own.
        unsafe { raw::ngawdrelo_gauge_note(&mut self.smoothed, &mut self.worst, &mut self.any, now, &words) };
    }

    /// The light at two limits, or [`Refusal::BadLimit`].
    pub fn read(&self, slow: f64, late: f64) -> Result<Light, Refusal> {
        let (mut light, mut value) = ([0; 2], 0.0);
        // Safety: five things of our own.
        unsafe { raw::ngawdrelo_gauge_read(&self.smoothed, &self.worst, &self.any, slow, late, &mut light, &mut value) };
        match light[0] {
            raw::LIGHT_CALM => Ok(Light::Calm),
            raw::LIGHT_SLOW => Ok(Light::Slow(value)),
            raw::LIGHT_LATE => Ok(Light::Late(value)),
            _ => Err(Refusal::of(light[1])),
        }
    }
}

/// A store with memory for N records, 1 to 65,535. It lies where you put it, as in a `static`, and is no store until it is formatted.
/// There is no `Clone`: an older copy must not come back.
#[repr(C)]
pub struct Store<const N: usize> {
    elapsed: u64,
    occupied: [u64; 6],
    tops: [u16; 4],
    hand: u16,
    until: u64,
    heads: [[u16; 64]; 6],
    values: [[u64; 2]; N],
    deadlines: [u64; N],
    turns: [u64; N],
    nexts: [u16; N],
    prevs: [u16; N],
    marks: [u16; N],
}

/// Lends the words of a store to a proved function that may change them, with the numbers of the call.
macro_rules! lend {
    ($f:ident, $s:expr, ($($before:expr),*), ($($behind:expr),*)) => {{
        let s = $s;
        let n = N as u64;
        // Safety: each pointer is to a field of its own, of the length that is given, and `&mut self` is the only one.
        unsafe {
            raw::$f($($before,)* &mut s.elapsed, &mut s.occupied, &mut s.tops, &mut s.hand, &mut s.until, &mut s.heads,
                s.values.as_mut_ptr().cast(), 2 * n, s.deadlines.as_mut_ptr(), n, s.nexts.as_mut_ptr(), n,
                s.prevs.as_mut_ptr(), n, s.turns.as_mut_ptr(), n, s.marks.as_mut_ptr(), n, $($behind),*)
        }
    }};
}

/// The same of one that changes nothing.
macro_rules! show {
    ($f:ident, $s:expr, ($($behind:expr),*)) => {{
        let s = $s;
        let n = N as u64;
        // Safety: as of `lend`; nothing is written through them.
        unsafe {
            raw::$f(&s.elapsed, &s.occupied, &s.tops, &s.hand, &s.until, &s.heads, s.values.as_ptr().cast(), 2 * n,
                s.deadlines.as_ptr(), n, s.nexts.as_ptr(), n, s.prevs.as_ptr(), n, s.turns.as_ptr(), n, s.marks.as_ptr(), n, $($behind),*)
        }
    }};
}

impl<const N: usize> Store<N> {
    /// No store yet: every call but format answers [`Refusal::NotSound`].
    pub const fn new() -> Self {
        Store {
            elapsed: 0,
            occupied: [0; 6],
            tops: [0; 4],
            hand: 0,
            until: 0,
            heads: [[0; 64]; 6],
            values: [[0; 2]; N],
            deadlines: [0; N],
            turns: [0; N],
            nexts: [0; N],
            prevs: [0; N],
            marks: [0; N],
        }
    }

    /// A fresh store of n records, each with the first turn.
    pub fn format(&mut self, n: u64, turn: u64) -> Said {
        let mut words = [0; 6];
        lend!(ngawdrelo_format, self, (), (n, turn, &mut words));
        said(words)
    }

    /// Sets a timer: it comes out at `when`, and then every `period`, if that is not 0.
    pub fn insert(&mut self, value: u64, when: u64, period: u64) -> Said {
        let mut words = [0; 6];
        lend!(ngawdrelo_insert, self, (), (value, when, period, &mut words));
        said(words)
    }

    /// Moves a timer.
    pub fn reset(&mut self, key: u64, when: u64) -> Said {
        let mut words = [0; 6];
        lend!(ngawdrelo_reset, self, (), (key, when, &mut words));
        said(words)
    }

    /// Cancels a timer.
    pub fn remove(&mut self, key: u64) -> Said {
        let mut words = [0; 6];
        lend!(ngawdrelo_remove, self, (), (key, &mut words));
        said(words)
    }

    /// Hands out a timer that is due, or says that none is.
    pub fn poll(&mut self, now: u64) -> Said {
        let mut words = [0; 6];
        lend!(ngawdrelo_poll, self, (), (now, &mut words));
        said(words)
    }

    /// The same with at most `limit` moves: where more are needed the answer is [`Answer::NotYet`].
    pub fn poll_some(&mut self, now: u64, limit: u64) -> Said {
        let mut words = [0; 6];
        lend!(ngawdrelo_poll_some, self, (), (now, limit, &mut words));
        said(words)
    }

    /// When to look again.
    pub fn next_wake(&self) -> Said {
        let mut words = [0; 6];
        show!(ngawdrelo_next_wake, self, (&mut words));
        said(words)
    }

    /// How many timers are set.
    pub fn length(&self) -> Said {
        let mut words = [0; 6];
        show!(ngawdrelo_length, self, (&mut words));
        said(words)
    }

    /// A run of commands, whose store is judged once: how many were answered, and why no more were. What six words say is [`said`].
    pub fn run(&mut self, commands: &[[u64; 4]], answers: &mut [[u64; 6]]) -> (usize, Why) {
        let (mut done, mut why) = (0, 0);
        let (many, room) = (4 * commands.len() as u64, 6 * answers.len() as u64);
        lend!(ngawdrelo_run, self, (), (commands.as_ptr().cast(), many, answers.as_mut_ptr().cast(), room, &mut done, &mut why));
        let why = match why {
            raw::WHY_NO_WORDS => Why::NoWords,
            raw::WHY_NO_COMMAND => Why::NoCommand,
            _ => Why::NoRoom,
        };
        (done as usize, why)
    }

    /// A call through the journal: write the entry's bytes before you use the answer.
    pub fn act(&mut self, command: Command) -> (Said, Entry) {
        let [kind, a, b, c] = command.words();
        let (mut words, mut entry) = ([0; 6], Entry { bytes: [0; 36], size: 0 });
        lend!(ngawdrelo_act, self, (), (kind, a, b, c, &mut words, &mut entry.bytes, &mut entry.size));
        (said(words), entry)
    }

    /// The store after the steps of a journal that are kept. What it was before does not matter.
    pub fn recover(&mut self, bytes: &[u8]) -> Recovered {
        let (mut kept, mut at, mut ending) = (0, 0, [0; 2]);
        lend!(ngawdrelo_recover, self, (), (bytes.as_ptr(), bytes.len() as u64, &mut kept, &mut at, &mut ending));
        let ending = match ending[0] {
            raw::END_CUT => Ending::Cut,
            raw::END_KIND => Ending::Kind,
            raw::END_ZERO => Ending::Zero,
            raw::END_PAIR => Ending::Pair,
            _ => Ending::Gets(Refusal::of(ending[1])),
        };
        Recovered { kept, at, ending }
    }

    /// A poll at the time that a board's tick tells.
    pub fn tick_poll(&mut self, front: &mut Tick, tick: u32) -> Said {
        let mut words = [0; 6];
        lend!(ngawdrelo_tick_poll, self, (&mut front.time), (tick, &mut words));
        said(words)
    }

    /// The same with a limit on moves; while a poll is in hand, at its own now.
    pub fn tick_poll_some(&mut self, front: &mut Tick, tick: u32, limit: u64) -> Said {
        let mut words = [0; 6];
        lend!(ngawdrelo_tick_poll_some, self, (&mut front.time), (tick, limit, &mut words));
        said(words)
    }

    /// Nothing is set any more, and the store's time is 0.
    pub fn clear(&mut self) -> Said {
        let mut words = [0; 6];
        lend!(ngawdrelo_clear, self, (), (&mut words));
        said(words)
    }
}

impl<const N: usize> Default for Store<N> {
    fn default() -> Self {
        Store::new()
    }
}
