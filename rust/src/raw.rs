//! What the archive exports, the kinds of answers and the refusals. Written by tools/header from the proved crate: do not edit it.

use core::fmt;

extern "C" {
    /// The version as one number: 14001 is 0.14.1.
    pub fn ngawdrelo_version(
    ) -> u64;
    /// A fresh store of n records, each with the first turn `turn`. What the store was before does not matter.
    pub fn ngawdrelo_format(
        elapsed: *mut u64,
        occupied: *mut [u64; 6],
        tops: *mut [u16; 4],
        hand: *mut u16,
        until: *mut u64,
        heads: *mut [[u16; 64]; 6],
        values: *mut u64,
        values_length: u64,
        deadlines: *mut u64,
        deadlines_length: u64,
        nexts: *mut u16,
        nexts_length: u64,
        prevs: *mut u16,
        prevs_length: u64,
        turns: *mut u64,
        turns_length: u64,
        marks: *mut u16,
        marks_length: u64,
        n: u64,
        turn: u64,
        answer: *mut [u64; 6],
    );
    /// A timer with the value, at the deadline `when` and then after each period, if it is not 0.
    pub fn ngawdrelo_insert(
        elapsed: *mut u64,
        occupied: *mut [u64; 6],
        tops: *mut [u16; 4],
        hand: *mut u16,
        until: *mut u64,
        heads: *mut [[u16; 64]; 6],
        values: *mut u64,
        values_length: u64,
        deadlines: *mut u64,
        deadlines_length: u64,
        nexts: *mut u16,
        nexts_length: u64,
        prevs: *mut u16,
        prevs_length: u64,
        turns: *mut u64,
        turns_length: u64,
        marks: *mut u16,
        marks_length: u64,
        value: u64,
        when: u64,
        period: u64,
        answer: *mut [u64; 6],
    );
    /// The pending timer that the key names gets the deadline `when`.
    pub fn ngawdrelo_reset(
        elapsed: *mut u64,
        occupied: *mut [u64; 6],
        tops: *mut [u16; 4],
        hand: *mut u16,
        until: *mut u64,
        heads: *mut [[u16; 64]; 6],
        values: *mut u64,
        values_length: u64,
        deadlines: *mut u64,
        deadlines_length: u64,
        nexts: *mut u16,
        nexts_length: u64,
        prevs: *mut u16,
        prevs_length: u64,
        turns: *mut u64,
        turns_length: u64,
        marks: *mut u16,
        marks_length: u64,
        key: u64,
        when: u64,
        answer: *mut [u64; 6],
    );
    /// The pending timer that the key names is taken out: its value and its deadline.
    pub fn ngawdrelo_remove(
        elapsed: *mut u64,
        occupied: *mut [u64; 6],
        tops: *mut [u16; 4],
        hand: *mut u16,
        until: *mut u64,
        heads: *mut [[u16; 64]; 6],
        values: *mut u64,
        values_length: u64,
        deadlines: *mut u64,
        deadlines_length: u64,
        nexts: *mut u16,
        nexts_length: u64,
        prevs: *mut u16,
        prevs_length: u64,
        turns: *mut u64,
        turns_length: u64,
        marks: *mut u16,
        marks_length: u64,
        key: u64,
        answer: *mut [u64; 6],
    );
    /// Hands out a timer that is due at `time`, or none.
    pub fn ngawdrelo_poll(
        elapsed: *mut u64,
        occupied: *mut [u64; 6],
        tops: *mut [u16; 4],
        hand: *mut u16,
        until: *mut u64,
        heads: *mut [[u16; 64]; 6],
        values: *mut u64,
        values_length: u64,
        deadlines: *mut u64,
        deadlines_length: u64,
        nexts: *mut u16,
        nexts_length: u64,
        prevs: *mut u16,
        prevs_length: u64,
        turns: *mut u64,
        turns_length: u64,
        marks: *mut u16,
        marks_length: u64,
        time: u64,
        answer: *mut [u64; 6],
    );
    /// A poll of at most `limit` moves: it hands out a timer that is due at `time`, or none, or tells that it is not yet done and stays in hand.
    pub fn ngawdrelo_poll_some(
        elapsed: *mut u64,
        occupied: *mut [u64; 6],
        tops: *mut [u16; 4],
        hand: *mut u16,
        until: *mut u64,
        heads: *mut [[u16; 64]; 6],
        values: *mut u64,
        values_length: u64,
        deadlines: *mut u64,
        deadlines_length: u64,
        nexts: *mut u16,
        nexts_length: u64,
        prevs: *mut u16,
        prevs_length: u64,
        turns: *mut u64,
        turns_length: u64,
        marks: *mut u16,
        marks_length: u64,
        time: u64,
        limit: u64,
        answer: *mut [u64; 6],
    );
    /// No timer is pending any more, and elapsed is 0.
    pub fn ngawdrelo_clear(
        elapsed: *mut u64,
        occupied: *mut [u64; 6],
        tops: *mut [u16; 4],
        hand: *mut u16,
        until: *mut u64,
        heads: *mut [[u16; 64]; 6],
        values: *mut u64,
        values_length: u64,
        deadlines: *mut u64,
        deadlines_length: u64,
        nexts: *mut u16,
        nexts_length: u64,
        prevs: *mut u16,
        prevs_length: u64,
        turns: *mut u64,
        turns_length: u64,
        marks: *mut u16,
        marks_length: u64,
        answer: *mut [u64; 6],
    );
    /// The time of the next wake. Nothing is changed.
    pub fn ngawdrelo_next_wake(
        elapsed: *const u64,
        occupied: *const [u64; 6],
        tops: *const [u16; 4],
        hand: *const u16,
        until: *const u64,
        heads: *const [[u16; 64]; 6],
        values: *const u64,
        values_length: u64,
        deadlines: *const u64,
        deadlines_length: u64,
        nexts: *const u16,
        nexts_length: u64,
        prevs: *const u16,
        prevs_length: u64,
        turns: *const u64,
        turns_length: u64,
        marks: *const u16,
        marks_length: u64,
        answer: *mut [u64; 6],
    );
    /// How many timers are pending. Nothing is changed.
    pub fn ngawdrelo_length(
        elapsed: *const u64,
        occupied: *const [u64; 6],
        tops: *const [u16; 4],
        hand: *const u16,
        until: *const u64,
        heads: *const [[u16; 64]; 6],
        values: *const u64,
        values_length: u64,
        deadlines: *const u64,
        deadlines_length: u64,
        nexts: *const u16,
        nexts_length: u64,
        prevs: *const u16,
        prevs_length: u64,
        turns: *const u64,
        turns_length: u64,
        marks: *const u16,
        marks_length: u64,
        answer: *mut [u64; 6],
    );
    /// A run of commands, each of four words, on a store that is judged once: the answers, each of six words, how many there are, and why there are no more.
    pub fn ngawdrelo_run(
        elapsed: *mut u64,
        occupied: *mut [u64; 6],
        tops: *mut [u16; 4],
        hand: *mut u16,
        until: *mut u64,
        heads: *mut [[u16; 64]; 6],
        values: *mut u64,
        values_length: u64,
        deadlines: *mut u64,
        deadlines_length: u64,
        nexts: *mut u16,
        nexts_length: u64,
        prevs: *mut u16,
        prevs_length: u64,
        turns: *mut u64,
        turns_length: u64,
        marks: *mut u16,
        marks_length: u64,
        commands: *const u64,
        commands_length: u64,
        answers: *mut u64,
        answers_length: u64,
        done: *mut u64,
        why: *mut u64,
    );
    /// A call of four words, as a command of a run, with the bytes to be written before its answer is given: 0, 18 or 36 of them. Words that are no command are told by the kind 11, and change nothing.
    pub fn ngawdrelo_act(
        elapsed: *mut u64,
        occupied: *mut [u64; 6],
        tops: *mut [u16; 4],
        hand: *mut u16,
        until: *mut u64,
        heads: *mut [[u16; 64]; 6],
        values: *mut u64,
        values_length: u64,
        deadlines: *mut u64,
        deadlines_length: u64,
        nexts: *mut u16,
        nexts_length: u64,
        prevs: *mut u16,
        prevs_length: u64,
        turns: *mut u64,
        turns_length: u64,
        marks: *mut u16,
        marks_length: u64,
        kind: u64,
        a: u64,
        b: u64,
        c: u64,
        answer: *mut [u64; 6],
        bytes: *mut [u8; 36],
        size: *mut u64,
    );
    /// Opens a patch of the journal, with the bytes to be written before its answer is given: 13 where one is open already. It asks nothing of a store.
    pub fn ngawdrelo_open(
        patch: *mut u64,
        answer: *mut [u64; 6],
        bytes: *mut [u8; 36],
        size: *mut u64,
    );
    /// Closes the patch of the journal, with the bytes to be written before its answer is given: 13 where none is open.
    pub fn ngawdrelo_close(
        patch: *mut u64,
        answer: *mut [u64; 6],
        bytes: *mut [u8; 36],
        size: *mut u64,
    );
    /// The store after the steps of a journal that are kept, from no store: the length kept, where reading stopped, and why. What the store was before does not matter.
    pub fn ngawdrelo_recover(
        elapsed: *mut u64,
        occupied: *mut [u64; 6],
        tops: *mut [u16; 4],
        hand: *mut u16,
        until: *mut u64,
        heads: *mut [[u16; 64]; 6],
        values: *mut u64,
        values_length: u64,
        deadlines: *mut u64,
        deadlines_length: u64,
        nexts: *mut u16,
        nexts_length: u64,
        prevs: *mut u16,
        prevs_length: u64,
        turns: *mut u64,
        turns_length: u64,
        marks: *mut u16,
        marks_length: u64,
        bytes: *const u8,
        bytes_length: u64,
        kept: *mut u64,
        at: *mut u64,
        ending: *mut [u64; 2],
    );
    /// Notes in a gauge what a poll at `time` answered. A fresh gauge is all 0.
    pub fn ngawdrelo_gauge_note(
        smoothed: *mut f64,
        worst: *mut f64,
        any: *mut u64,
        time: u64,
        answer: *const [u64; 6],
    );
    /// What a gauge reads at two limits: the light in two words, and the lateness that it shows.
    pub fn ngawdrelo_gauge_read(
        smoothed: *const f64,
        worst: *const f64,
        any: *const u64,
        slow: f64,
        late: f64,
        light: *mut [u64; 2],
        value: *mut f64,
    );
    /// The 64-bit time, 0 at the start, moves on to the 32-bit tick of a board: 10 where it would pass 2^64-1.
    pub fn ngawdrelo_tick_read(
        time: *mut u64,
        tick: u32,
        answer: *mut [u64; 6],
    );
    /// A poll at the 64-bit time that moves on to the 32-bit tick of a board. Where that is refused, with 10, nothing is asked of the store.
    pub fn ngawdrelo_tick_poll(
        time: *mut u64,
        elapsed: *mut u64,
        occupied: *mut [u64; 6],
        tops: *mut [u16; 4],
        hand: *mut u16,
        until: *mut u64,
        heads: *mut [[u16; 64]; 6],
        values: *mut u64,
        values_length: u64,
        deadlines: *mut u64,
        deadlines_length: u64,
        nexts: *mut u16,
        nexts_length: u64,
        prevs: *mut u16,
        prevs_length: u64,
        turns: *mut u64,
        turns_length: u64,
        marks: *mut u16,
        marks_length: u64,
        tick: u32,
        answer: *mut [u64; 6],
    );
    /// A poll of at most `limit` moves at the time that moves on to the tick of a board or, while a poll is in hand, at that poll's own time.
    pub fn ngawdrelo_tick_poll_some(
        time: *mut u64,
        elapsed: *mut u64,
        occupied: *mut [u64; 6],
        tops: *mut [u16; 4],
        hand: *mut u16,
        until: *mut u64,
        heads: *mut [[u16; 64]; 6],
        values: *mut u64,
        values_length: u64,
        deadlines: *mut u64,
        deadlines_length: u64,
        nexts: *mut u16,
        nexts_length: u64,
        prevs: *mut u16,
        prevs_length: u64,
        turns: *mut u64,
        turns_length: u64,
        marks: *mut u16,
        marks_length: u64,
        tick: u32,
        limit: u64,
        answer: *mut [u64; 6],
    );
    /// One line more of another machine's log, without its newline. Keys and deadlines, of 1,024 words or more each, are the inspector's own; the state is all 0 before the first line.
    pub fn ngawdrelo_inspect_line(
        state: *mut [u64; 4],
        keys: *mut u64,
        keys_length: u64,
        deadlines: *mut u64,
        deadlines_length: u64,
        line: *const u8,
        line_length: u64,
    );
}

/// The kind of an answer: format, reset and clear.
pub const DONE: u64 = 0;
/// The kind of an answer: insert: the key.
pub const KEY: u64 = 1;
/// The kind of an answer: remove: value, deadline.
pub const GONE: u64 = 2;
/// The kind of an answer: poll: key, value, deadline, moves, drains.
pub const OUT: u64 = 3;
/// The kind of an answer: poll: key, value, deadline, moves, drains, of a repeating timer that is set no more.
pub const LAST: u64 = 4;
/// The kind of an answer: poll: moves, drains.
pub const NOTHING: u64 = 5;
/// The kind of an answer: next wake.
pub const WAKE: u64 = 6;
/// The kind of an answer: no wake.
pub const NO_WAKE: u64 = 7;
/// The kind of an answer: length.
pub const LENGTH: u64 = 8;
/// The kind of an answer: the number of the refusal.
pub const NO: u64 = 9;
/// The kind of an answer: poll with a limit: moves, drains of this call.
pub const NOT_YET: u64 = 10;
/// The kind of an answer: act: the four words are no command; nothing has changed.
pub const NO_COMMAND: u64 = 11;
/// The kind of a command: n, turn.
pub const ASK_FORMAT: u64 = 1;
/// The kind of a command: value, when, period.
pub const ASK_INSERT: u64 = 2;
/// The kind of a command: key, when.
pub const ASK_RESET: u64 = 3;
/// The kind of a command: key.
pub const ASK_REMOVE: u64 = 4;
/// The kind of a command: time.
pub const ASK_POLL: u64 = 5;
/// The kind of a command: no number.
pub const ASK_CLEAR: u64 = 6;
/// The kind of a command: time, limit.
pub const ASK_POLL_SOME: u64 = 11;
/// The kind of a command: no number.
pub const ASK_WAKE: u64 = 12;
/// The kind of a command: no number.
pub const ASK_LENGTH: u64 = 13;
/// Why a run stopped, as a number.
pub const WHY_NO_WORDS: u64 = 0;
/// Why a run stopped, as a number.
pub const WHY_NO_COMMAND: u64 = 1;
/// Why a run stopped, as a number.
pub const WHY_NO_ROOM: u64 = 2;
/// Why reading stopped, as two words: 0 a cut, 1 a bad kind, 2 a 1 where zero is due, 3 a broken pair, or 4 and the number that a step gets.
pub const END_CUT: u64 = 0;
/// Why reading stopped, as two words: 0 a cut, 1 a bad kind, 2 a 1 where zero is due, 3 a broken pair, or 4 and the number that a step gets.
pub const END_KIND: u64 = 1;
/// Why reading stopped, as two words: 0 a cut, 1 a bad kind, 2 a 1 where zero is due, 3 a broken pair, or 4 and the number that a step gets.
pub const END_ZERO: u64 = 2;
/// Why reading stopped, as two words: 0 a cut, 1 a bad kind, 2 a 1 where zero is due, 3 a broken pair, or 4 and the number that a step gets.
pub const END_PAIR: u64 = 3;
/// Why reading stopped, as two words: 0 a cut, 1 a bad kind, 2 a 1 where zero is due, 3 a broken pair, or 4 and the number that a step gets.
pub const END_GETS: u64 = 4;
/// A reading as two words: 0 calm, 1 slow, 2 late, or 3 and the number of the refusal.
pub const LIGHT_CALM: u64 = 0;
/// A reading as two words: 0 calm, 1 slow, 2 late, or 3 and the number of the refusal.
pub const LIGHT_SLOW: u64 = 1;
/// A reading as two words: 0 calm, 1 slow, 2 late, or 3 and the number of the refusal.
pub const LIGHT_LATE: u64 = 2;
/// A reading as two words: 0 calm, 1 slow, 2 late, or 3 and the number of the refusal.
pub const LIGHT_NO: u64 = 3;

/// Why a call was refused. It has changed nothing.
#[derive(Clone, Copy, Debug, PartialEq, Eq)]
pub enum Refusal {
    /// 1. Format: N is out of range, or a lent slice is too short for it.
    NoRoom,
    /// 2. Any call but format: the store is not sound, or there is none.
    NotSound,
    /// 3. Insert: no record is free.
    Full,
    /// 4. Insert, reset: the deadline lies more than 2^36-1 ahead of elapsed.
    TooFar,
    /// 6. Reset, remove: the key names no timer that is set.
    DeadKey,
    /// 7. Poll: now is before elapsed.
    BackInTime,
    /// 8. Format: the first turn is out of range.
    BadTurn,
    /// 9. The gauge's light: a limit is below zero or no number.
    BadLimit,
    /// 10. A board's tick: its time would pass 2^64-1.
    TimeOver,
    /// 11. Insert, reset: the deadline lies more than an hour below elapsed.
    TooOld,
    /// 12. Insert, reset, remove, next wake, and a poll at another now: a poll is in hand.
    PollInHand,
    /// 13. The journal: a patch is opened while one is open, or closed while none is.
    BadPatch,
    /// A number that no call of this version gives.
    Other(u64),
}

impl Refusal {
    /// The refusal with this number.
    pub const fn of(number: u64) -> Refusal {
        match number {
            1 => Refusal::NoRoom,
            2 => Refusal::NotSound,
            3 => Refusal::Full,
            4 => Refusal::TooFar,
            6 => Refusal::DeadKey,
            7 => Refusal::BackInTime,
            8 => Refusal::BadTurn,
            9 => Refusal::BadLimit,
            10 => Refusal::TimeOver,
            11 => Refusal::TooOld,
            12 => Refusal::PollInHand,
            13 => Refusal::BadPatch,
            other => Refusal::Other(other),
        }
    }

    /// Its number.
    pub const fn number(self) -> u64 {
        match self {
            Refusal::NoRoom => 1,
            Refusal::NotSound => 2,
            Refusal::Full => 3,
            Refusal::TooFar => 4,
            Refusal::DeadKey => 6,
            Refusal::BackInTime => 7,
            Refusal::BadTurn => 8,
            Refusal::BadLimit => 9,
            Refusal::TimeOver => 10,
            Refusal::TooOld => 11,
            Refusal::PollInHand => 12,
            Refusal::BadPatch => 13,
            Refusal::Other(number) => number,
        }
    }
}

/// The sentence of docs/ANSWERS.md, which says what to do too.
impl fmt::Display for Refusal {
    fn fmt(&self, f: &mut fmt::Formatter<'_>) -> fmt::Result {
        f.write_str(match self {
            Refusal::NoRoom => "the new store could not be made",
            Refusal::NotSound => "there is no store, or its memory was damaged",
            Refusal::Full => "every record is in use",
            Refusal::TooFar => "the deadline is more than 795 days ahead of the store's clock",
            Refusal::DeadKey => "the key is dead",
            Refusal::BackInTime => "the time asked about is before the store's clock",
            Refusal::BadTurn => "the new store could not be made",
            Refusal::BadLimit => "a limit is below zero or is no number",
            Refusal::TimeOver => "a board with a 32-bit tick is at the end of its 64-bit time",
            Refusal::TooOld => "the deadline is more than an hour before the store's clock",
            Refusal::PollInHand => "a look is in hand",
            Refusal::BadPatch => "a patch is open already, or none is",
            Refusal::Other(_) => "not a number of ours",
        })
    }
}
