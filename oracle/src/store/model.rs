//! The steps of the wheel in the words of the rules, over plain lists: a second reading that the
//! original's lists and answers are held against.
use crate::rules::{block_end, level, slot, EXPIRED, FARTHEST, OLDEST, PARKED, PARKING, SLOTS, WIDTHS};
use std::collections::VecDeque;

pub struct Model {
    pub elapsed: u64,
    /// Records in each place, head first. "New entries and drained entries now join a list's tail, and
    /// heads still leave first, on slots and expired stack alike" (02 [6]).
    pub lists: Vec<VecDeque<usize>>,
    deadlines: Vec<u64>,
    /// 0 for none; kept when a record leaves.
    pub periods: Vec<u64>,
}

/// What a poll did.
#[derive(PartialEq, Eq, Debug)]
pub struct Polled {
    pub out: Option<usize>,
    pub moves: u64,
    pub drains: u64,
}

/// What is looked at first: its height, its place, its start.
struct First {
    level: usize,
    place: usize,
    start: u64,
}

impl Model {
    pub fn new(records: usize) -> Model {
        Model {
            elapsed: 0,
            lists: vec![VecDeque::new(); EXPIRED + 1],
            deadlines: vec![0; records],
            periods: vec![0; records],
        }
    }

    /// The refusals of a deadline in their order, as sums, where the store subtracts.
    pub fn refused(&self, when: u64) -> Option<u8> {
        let [when, elapsed] = [when, self.elapsed].map(u128::from);
        let [oldest, farthest] = [OLDEST, FARTHEST].map(u128::from);
        let refusals = [
            (11, when + oldest < elapsed),
            (4, when > elapsed + farthest),
        ];
        refusals.into_iter().find_map(|(number, meets)| meets.then_some(number))
    }

    pub fn insert(&mut self, record: usize, when: u64, period: u64) {
        self.periods[record] = period;
        self.place(record, when);
    }

    pub fn reset(&mut self, record: usize, when: u64) {
        self.remove(record);
        self.place(record, when);
    }

    pub fn clear(&mut self) {
        self.elapsed = 0;
        self.lists.iter_mut().for_each(VecDeque::clear);
    }

    fn place(&mut self, record: usize, when: u64) {
        let deadline = when.max(self.elapsed);
        self.deadlines[record] = deadline;
        let place = if deadline == self.elapsed {
            EXPIRED
        } else if deadline > self.elapsed | FARTHEST {
            PARKING
        } else {
            let k = level(self.elapsed, deadline);
            SLOTS * k + slot(k, deadline)
        };
        self.lists[place].push_back(record);
    }

    pub fn remove(&mut self, record: usize) {
        for list in &mut self.lists {
            list.retain(|&other| other != record);
        }
    }

    /// A repeating timer that is handed out has yet to be placed again.
    pub fn poll(&mut self, now: u64) -> Polled {
        let (mut moves, mut drains) = (0, 0);
        let mut out = self.lists[EXPIRED].pop_front();
        while out.is_none() {
            let Some(first) = self.first().filter(|first| first.start <= now) else {
                self.elapsed = now;
                break;
            };
            if first.level == 0 {
                out = self.lists[first.place].pop_front();
            } else {
                moves += self.drain(&first);
                drains += 1;
                self.elapsed = first.start;
            }
        }
        Polled { out, moves, drains }
    }

    /// "The same poll places it at w plus period under the same key" (02 [7]). Answers whether it does.
    pub fn again(&mut self, record: usize) -> bool {
        let next = u128::from(self.deadlines[record]) + u128::from(self.periods[record]);
        let last = u128::from(self.elapsed) + u128::from(FARTHEST);
        let again = self.periods[record] > 0 && next <= last && next < 1 << 64;
        if again {
            self.place(record, next as u64);
        }
        again
    }

    /// At once if a timer has expired, else at the start of the first slot, or of the next block.
    pub fn wake(&self) -> Option<u64> {
        if !self.lists[EXPIRED].is_empty() {
            return Some(self.elapsed);
        }
        self.first().map(|first| first.start)
    }

    /// The lowest level that is not empty, and there the first occupied slot from elapsed on. "When nothing else is
    /// pending" the parking list, from "the next block's start" on.
    fn first(&self) -> Option<First> {
        self.first_slot().or_else(|| {
            (!self.lists[PARKING].is_empty()).then(|| First {
                level: PARKED,
                place: PARKING,
                start: block_end(self.elapsed),
            })
        })
    }

    fn first_slot(&self) -> Option<First> {
        let mut places = (0..WIDTHS.len()).flat_map(|k| {
            let here = slot(k, self.elapsed);
            (here..here + SLOTS).map(move |s| (k, s % SLOTS))
        });
        let occupied = |&(k, s): &(usize, usize)| !self.lists[SLOTS * k + s].is_empty();
        places.find(occupied).map(|(level, s)| {
            let turn = SLOTS as u64 * WIDTHS[level];
            First {
                level,
                place: SLOTS * level + s,
                start: self.elapsed / turn * turn + s as u64 * WIDTHS[level],
            }
        })
    }

    /// Each entry, from the head, goes to the tail of its slot one level down.
    fn drain(&mut self, first: &First) -> u64 {
        let mut moves = 0;
        while let Some(record) = self.lists[first.place].pop_front() {
            let k = first.level - 1;
            let place = SLOTS * k + slot(k, self.deadlines[record]);
            self.lists[place].push_back(record);
            moves += 1;
        }
        moves
    }
}
