//! Our queue, through the functions that crates/ngawdrelo exports, for C and Rust. oracle/scale-program takes this file too.

#[allow(dead_code)]
#[path = "../../rust/src/raw.rs"]
pub mod raw;

type Heads = [[u16; 64]; 6];

/// A call, as a command of a run: its kind, and its numbers with 0 behind them (crates/run/specs/Groups.antt).
pub type Call = [u64; 4];
/// An answer, as a run writes it: its number, and its numbers with 0 behind them.
pub type Answer = [u64; 6];
/// Of a journal: the length kept, where reading stopped and why, by its number in the order of `Ending` in crates/entries, and the
/// number that a step got there.
pub type Told = [u64; 4];

// the programs that take this file use some of them each
#[allow(unused_imports)]
pub use raw::{ASK_CLEAR as CLEAR, ASK_FORMAT as FORMAT, ASK_INSERT as INSERT, ASK_LENGTH as LENGTH, ASK_POLL as POLL};
#[allow(unused_imports)]
pub use raw::{ASK_POLL_SOME as POLL_SOME, ASK_REMOVE as REMOVE, ASK_RESET as RESET, ASK_WAKE as WAKE};
#[allow(unused_imports)]
pub use raw::{DONE as OK, GONE, KEY, LAST, LENGTH as LEN, NO, NOTHING, NOT_YET, NO_WAKE as NEVER, OUT, WAKE as AT};
#[allow(unused_imports)]
pub use raw::{WHY_NO_COMMAND as NO_COMMAND, WHY_NO_ROOM as NO_ROOM, WHY_NO_WORDS as NO_WORDS};

/// Of `tops`.
pub const N: usize = 0;
pub const EXPIRED: usize = 1;
pub const FREE: usize = 2;
pub const PARKING: usize = 3;

/// A store, lent anew to each call.
#[derive(Clone, PartialEq)]
pub struct Store {
    pub elapsed: u64,
    pub occupied: [u64; 6],
    /// N, and the heads of the expired stack, of the free list and of the parking list.
    pub tops: [u16; 4],
    /// The place whose drain is in hand, or nobody, and the time of its poll.
    pub hand: u16,
    pub until: u64,
    pub heads: Heads,
    /// Two words a record: the value of record i is word 2 i, its period the next.
    pub values: Vec<u64>,
    pub deadlines: Vec<u64>,
    pub nexts: Vec<u16>,
    pub prevs: Vec<u16>,
    pub turns: Vec<u64>,
    pub marks: Vec<u16>,
}

/// Calls the function with the store's parts, and then what follows them.
macro_rules! lend {
    ($function:ident, $store:expr $(, $more:expr)*) => {{
        let s = $store;
        unsafe {
            raw::$function(
                &mut s.elapsed, &mut s.occupied, &mut s.tops, &mut s.hand, &mut s.until, &mut s.heads,
                s.values.as_mut_ptr(), s.values.len() as u64, s.deadlines.as_mut_ptr(), s.deadlines.len() as u64,
                s.nexts.as_mut_ptr(), s.nexts.len() as u64, s.prevs.as_mut_ptr(), s.prevs.len() as u64,
                s.turns.as_mut_ptr(), s.turns.len() as u64, s.marks.as_mut_ptr(), s.marks.len() as u64 $(, $more)*
            )
        }
    }};
}

impl Store {
    pub fn new(n: usize) -> Store {
        let mut store = Store::room(n);
        assert_eq!(store.call([FORMAT, n as u64, 1, 0]), [0; 6], "formatted");
        assert!(store.judge(), "a fresh store must be sound");
        store
    }

    /// Memory for so many records, and no store in it.
    pub fn room(n: usize) -> Store {
        Store {
            elapsed: 0,
            occupied: [0; 6],
            tops: [0; 4],
            hand: 0,
            until: 0,
            heads: [[0; 64]; 6],
            values: vec![0; 2 * n],
            deadlines: vec![0; n],
            nexts: vec![0; n],
            prevs: vec![0; n],
            turns: vec![0; n],
            marks: vec![0; n],
        }
    }

    /// Whether it is sound: next wake judges, and on a sound store does little more.
    pub fn judge(&mut self) -> bool {
        self.call([WAKE, 0, 0, 0])[..2] != [NO, 2]
    }

    /// One call, which judges first.
    pub fn call(&mut self, call: Call) -> Answer {
        let [kind, a, b, c] = call;
        let mut answer = [u64::MAX; 6];
        match kind {
            FORMAT => lend!(ngawdrelo_format, self, a, b, &mut answer),
            INSERT => lend!(ngawdrelo_insert, self, a, b, c, &mut answer),
            RESET => lend!(ngawdrelo_reset, self, a, b, &mut answer),
            REMOVE => lend!(ngawdrelo_remove, self, a, &mut answer),
            POLL => lend!(ngawdrelo_poll, self, a, &mut answer),
            POLL_SOME => lend!(ngawdrelo_poll_some, self, a, b, &mut answer),
            WAKE => lend!(ngawdrelo_next_wake, self, &mut answer),
            LENGTH => lend!(ngawdrelo_length, self, &mut answer),
            CLEAR => lend!(ngawdrelo_clear, self, &mut answer),
            _ => panic!("{call:?} is no call"),
        }
        answer
    }

    /// A run of commands, which judges once: how many were answered, and why no more were.
    pub fn run(&mut self, commands: &[u64], answers: &mut [u64]) -> (usize, u64) {
        let (from, words) = (commands.as_ptr(), commands.len() as u64);
        let (to, room) = (answers.as_mut_ptr(), answers.len() as u64);
        let (mut done, mut why) = (u64::MAX, u64::MAX);
        lend!(ngawdrelo_run, self, from, words, to, room, &mut done, &mut why);
        (done as usize, why)
    }

    /// Recovery from the bytes of a journal, from no store.
    pub fn replay(&mut self, bytes: &[u8]) -> Told {
        let (mut kept, mut at, mut ending) = (u64::MAX, u64::MAX, [u64::MAX; 2]);
        lend!(ngawdrelo_recover, self, bytes.as_ptr(), bytes.len() as u64, &mut kept, &mut at, &mut ending);
        [kept, at, ending[0], ending[1]]
    }
}
