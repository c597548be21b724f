//! A poll in hand (02 [10]). The original cannot pause: its poll is made once, whole, and its moves are cut into calls by counting. The lists
//! in between are made by a second reading of the rules, one move at a time, and must end as the original's.
use super::checks::Before;
use crate::rules::{block_end, slot, PARKING, SLOTS, WIDTHS};
use std::collections::{BTreeMap, VecDeque};

pub struct Hand {
    pub now: u64,
    /// What the whole poll hands out.
    pub out: Option<usize>,
    /// What it was made on, where every answer is checked.
    pub before: Option<Before>,
    /// The places that the whole poll drains, each with the moves made once it is empty.
    drained: Vec<(usize, u64)>,
    /// All moves of the whole poll, and those of the calls so far.
    moves: u64,
    made: u64,
    /// None where the first call ends the poll.
    lists: Option<Lists>,
}

impl Hand {
    pub fn new(
        now: u64,
        out: Option<usize>,
        before: Option<Before>,
        drained: Vec<(usize, u64)>,
        moves: u64,
        lists: Option<Lists>,
    ) -> Hand {
        Hand {
            now,
            out,
            before,
            drained,
            moves,
            made: 0,
            lists,
        }
    }

    /// So many moves are still to be made.
    pub fn left(&self) -> u64 {
        self.moves - self.made
    }

    /// One call makes so many moves. Answers its drains: "a drain is counted by the call that empties its slot".
    pub fn make(&mut self, moves: u64, deadline: impl Fn(usize) -> u64) -> u64 {
        let made = self.made + moves;
        let here = self
            .drained
            .iter()
            .filter(|&&(_, end)| self.made < end && end <= made);
        let drains = here.count() as u64;
        self.made = made;
        if let Some(lists) = &mut self.lists {
            assert_eq!(lists.make(moves, deadline), drains, "drains by the rules");
        }
        if self.left() > 0 {
            assert_eq!(
                self.lists().next_place(),
                self.place(),
                "the place in hand by the rules"
            );
        }
        drains
    }

    /// The place that the next move is taken from.
    pub fn place(&self) -> usize {
        let next = self.drained.iter().find(|&&(_, end)| self.made < end);
        next.expect("a move is left").0
    }

    pub fn elapsed(&self) -> u64 {
        self.lists().elapsed
    }

    pub fn lists(&self) -> &Lists {
        self.lists.as_ref().expect("the poll is in hand")
    }

    pub fn into_lists(self) -> Option<Lists> {
        self.lists
    }
}

/// The wheel's lists while nothing is expired, and elapsed.
pub struct Lists {
    pub elapsed: u64,
    /// Those that are not empty, by place.
    pub places: BTreeMap<usize, VecDeque<usize>>,
    /// The place whose drain has begun.
    drain: Option<usize>,
}

impl Lists {
    pub fn new(elapsed: u64, places: BTreeMap<usize, VecDeque<usize>>) -> Lists {
        Lists {
            elapsed,
            places,
            drain: None,
        }
    }

    /// Inside a drain its place, else by a look: the lowest level that is not empty, and there the first occupied slot from elapsed on; where no
    /// slot is, the parking list.
    pub fn next_place(&self) -> usize {
        self.drain.unwrap_or_else(|| {
            let first = *self.places.keys().next().expect("a move is left");
            if first == PARKING {
                return PARKING;
            }
            let level = first / SLOTS;
            let here = slot(level, self.elapsed);
            let slots = (here..here + SLOTS).map(|s| SLOTS * level + s % SLOTS);
            slots
                .into_iter()
                .find(|place| self.places.contains_key(place))
                .expect("not empty")
        })
    }

    /// Where a slot starts: elapsed rounded down to a multiple of 64 widths, plus slot widths. The parking list starts with the next block.
    pub fn start(&self, place: usize) -> u64 {
        if place == PARKING {
            return block_end(self.elapsed);
        }
        let (level, slot) = (place / SLOTS, (place % SLOTS) as u64);
        let turn = SLOTS as u64 * WIDTHS[level];
        self.elapsed / turn * turn + slot * WIDTHS[level]
    }

    /// Moves, each of a head to the tail of its slot one level down. Elapsed stays inside a drain, in the old block while it is the parking list's;
    /// with its last move the drain ends, and elapsed becomes the place's start. Answers the drains that ended.
    fn make(&mut self, moves: u64, deadline: impl Fn(usize) -> u64) -> u64 {
        let mut drains = 0;
        for _ in 0..moves {
            let place = self.next_place();
            let list = self.places.get_mut(&place).expect("not empty");
            let record = list.pop_front().expect("not empty");
            let empty = list.is_empty();
            let level = place / SLOTS - 1;
            let to = SLOTS * level + slot(level, deadline(record));
            self.places.entry(to).or_default().push_back(record);
            self.drain = Some(place);
            if empty {
                self.places.remove(&place);
                self.elapsed = self.start(place);
                self.drain = None;
                drains += 1;
            }
        }
        drains
    }
}
