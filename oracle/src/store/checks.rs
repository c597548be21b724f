//! What must hold of the original's answers and lists. A check that fails is a panic.
use super::model::Polled;
use super::{Hand, Lists, Place, Record, Store};
use crate::rules::{block, level, slot, width, BLOCK_BITS, EXPIRED, LAST_TURN, PARKING, SLOTS};
use std::collections::BTreeSet;

/// What a poll at `now` is made on.
pub struct Before {
    pub now: u64,
    pub elapsed: u64,
    pub heights: Vec<(usize, usize)>,
    /// The expired stack holds something, so the poll pops it.
    pub from_expired: bool,
}

impl Store {
    /// The original must hold the value and deadline that were put in.
    pub fn check_held(&self, record: usize, value: u64, deadline: u64) {
        let record = &self.records[record];
        assert_eq!((value, deadline), (record.value, record.deadline));
    }

    /// A deadline that was handed in is refused, or taken, as the rules say.
    pub(super) fn check_refused(&self, when: u64, number: Option<u8>) {
        if let Some(model) = &self.model {
            assert_eq!(number, model.refused(when), "a refusal by the rules");
        }
    }

    /// Makes the same poll by the rules. The record that came out has not yet left.
    pub fn check_poll(&mut self, before: &Before, out: Option<usize>) {
        let (moves, drains) = self.counted();
        let polled = self.model.as_mut().map(|model| model.poll(before.now));
        assert_eq!(
            polled,
            Some(Polled { out, moves, drains }),
            "a poll by the rules"
        );
        assert_eq!(
            (moves, drains),
            self.counts_by_heights(before, out),
            "heights"
        );
        assert!(drains <= moves && (drains == 0) == (moves == 0));
        self.check_pops(before, out);
        self.check_clock(before, out);
        self.check_least(before, out);
        self.check_first(before, out);
    }

    /// What became of the record that a poll handed out, and whether its answer says rightly that this was
    /// the last time.
    pub(super) fn check_again(&mut self, record: usize, handed: &Record, last: bool) {
        let again = self.model.as_mut().map(|model| model.again(record));
        assert_eq!(again, Some(self.is_pending(record)), "placed again by the rules");
        assert_eq!(last, handed.period > 0 && again == Some(false), "the last time");
        let now = &self.records[record];
        assert_eq!((now.value, now.period), (handed.value, handed.period));
        if self.is_pending(record) {
            assert_eq!(now.place, Place::Wheel, "never on the expired stack");
            assert_eq!(now.deadline, handed.deadline + handed.period);
            assert_eq!(now.turn, handed.turn, "the key stays");
        }
    }

    /// Moves and drains as the original made them. A pop that hands out may empty its slot of level
    /// 0, which is no drain.
    pub fn counted(&self) -> (u64, u64) {
        let counts = self.original.watched().counts();
        (counts.pushes, self.drained().len() as u64)
    }

    /// The places that the original's poll drained, each with the moves made once it was empty.
    pub(super) fn drained(&self) -> Vec<(usize, u64)> {
        let mut emptied = self.original.watched().counts().emptied;
        emptied.retain(|&(list, _)| list >= SLOTS);
        emptied
    }

    /// Every pop is a move, but the one that hands out.
    fn check_pops(&self, before: &Before, out: Option<usize>) {
        let counts = self.original.watched().counts();
        let handed = out.is_some() && !before.from_expired;
        assert_eq!(counts.pops, counts.pushes + handed as u64);
        let level_0 = counts.emptied.iter().filter(|&&(list, _)| list < SLOTS);
        assert!(level_0.count() <= handed as usize);
    }

    /// Moves as heights before less heights after, drains as the slots passed through.
    fn counts_by_heights(&self, before: &Before, out: Option<usize>) -> (u64, u64) {
        let mut moves = 0;
        let mut drained = BTreeSet::new();
        for &(record, before) in &before.heights {
            let after = match out {
                Some(out) if out == record => 0,
                _ => self.height(record),
            };
            moves += (before - after) as u64;
            let deadline = self.records[record].deadline;
            drained.extend((after + 1..=before).map(|k| (k, deadline / width(k))));
        }
        (moves, drained.len() as u64)
    }

    fn check_clock(&self, before: &Before, out: Option<usize>) {
        let expected = match out {
            None => before.now,
            Some(_) if before.from_expired => before.elapsed,
            Some(record) => before.elapsed.max(self.records[record].deadline / 64 * 64),
        };
        assert_eq!(self.elapsed(), expected, "elapsed after a poll");
    }

    /// Handed out: a least deadline, and due. Nothing: none is due.
    fn check_least(&self, before: &Before, out: Option<usize>) {
        let deadline = |record: usize| self.records[record].deadline;
        let deadlines = before.heights.iter().map(|&(record, _)| deadline(record));
        let least = deadlines.min();
        match out {
            Some(out) => {
                assert_eq!(Some(deadline(out)), least);
                assert!(deadline(out) <= before.now);
            }
            None => assert!(least.is_none_or(|due| due > before.now)),
        }
    }

    /// "Among equal deadlines on the wheel the one placed first comes out first, a reset counting as a
    /// new placing; expired ones still precede the wheel" (02 [6]), and among them too. A timer that repeats
    /// is placed anew each time.
    fn check_first(&self, before: &Before, out: Option<usize>) {
        let Some(out) = out else {
            return;
        };
        let rank = |record: usize| {
            let record = &self.records[record];
            (record.place != Place::Expired, record.deadline, record.placed)
        };
        let first = before.heights.iter().map(|&(record, _)| rank(record)).min();
        assert_eq!(Some(rank(out)), first, "first set, first out");
    }

    /// The rules between calls, judged on what the original holds.
    pub fn check_sound(&self) {
        let Some(model) = &self.model else {
            return;
        };
        if let Some(hand) = &self.hand {
            return self.check_hand(hand);
        }
        let lists = self.lists();
        self.check_places(&lists);
        self.check_slots(&lists);
        for (list, expected) in lists.iter().zip(&model.lists) {
            assert!(list.iter().eq(expected), "a list by the rules");
        }
        assert_eq!(self.elapsed(), model.elapsed);
        assert_eq!(self.next_wake(), model.wake());
        let pending = (0..self.size()).filter(|&record| self.is_pending(record));
        assert!(pending.eq(self.pending.iter().copied()));
        assert_eq!(self.original.len(), self.pending.len());
        let periods = self.records.iter().map(|record| &record.period);
        assert!(periods.eq(&model.periods), "periods by the rules");
    }

    /// The lists of a poll that was in hand, now that it ends, are those that the original's whole poll left, with what it handed out.
    pub(super) fn check_lists(&self, mut lists: Lists, out: Option<usize>, now: u64) {
        if let Some(out) = out {
            let place = lists.next_place();
            let list = lists.places.get_mut(&place).expect("not empty");
            assert_eq!((place / SLOTS, list.pop_front()), (0, Some(out)), "the head of a slot of level 0");
            lists.places.retain(|_, list| !list.is_empty());
        }
        let elapsed = if out.is_some() { lists.elapsed } else { now };
        assert_eq!((self.elapsed(), self.filled()), (elapsed, lists.places), "lists by the rules");
    }

    /// While a poll is in hand: every pending record is in one list, and those obey the rule of a drain in hand, its next move at `place`. "The
    /// states that the rules of the poll in hand pass through, before, inside or between drains" (02 [10]).
    fn check_hand(&self, hand: &Hand) {
        let (lists, place) = (hand.lists(), hand.place());
        let (drained, start) = (place / SLOTS, lists.start(place));
        let mut found: Vec<usize> = lists.places.values().flatten().copied().collect();
        found.sort_unstable();
        assert_eq!(found, self.pending, "all are in the lists");
        assert!(drained > 0 && lists.elapsed <= start && start <= hand.now);
        // The slot of elapsed itself is filled by a drain of the list above alone, which starts there: of the parking list at a block's start.
        let crossed = lists.elapsed > 0 && !lists.places.contains_key(&PARKING);
        let own = lists.elapsed.is_multiple_of(width(drained + 1)) && (crossed || lists.elapsed % (1 << BLOCK_BITS) != 0);
        assert!(lists.elapsed < start || own, "elapsed's own slot");
        for (&at, list) in &lists.places {
            let (k, mut of) = (at / SLOTS, list.iter().map(|&record| self.records[record].deadline));
            assert!(k + 1 >= drained, "the levels below are empty");
            if at == PARKING {
                let next = block(start) + u64::from(at != place);
                assert!(of.all(|deadline| block(deadline) == next), "parked");
                continue;
            }
            let begins = |deadline: u64| deadline / width(k) * width(k);
            assert!(of.all(|deadline| {
                at == SLOTS * k + slot(k, deadline)
                    && deadline / width(k + 1) == start / width(k + 1)
                    && (if at == place { begins(deadline) == start } else { begins(deadline) >= start })
                    && (at == place || k < drained || begins(deadline) > start)
            }));
        }
    }

    /// Every record is in exactly one place, and the marks tell which.
    fn check_places(&self, lists: &[Vec<usize>]) {
        let mut found = vec![None; self.records.len()];
        let mut put = |record: usize, place| {
            assert_eq!(found[record].replace(place), None, "record {record}");
        };
        for &record in &lists[EXPIRED] {
            put(record, Place::Expired);
        }
        for &record in lists[..EXPIRED].iter().flatten() {
            put(record, Place::Wheel);
        }
        for record in self.freed.iter().copied().chain(self.fresh..self.size()) {
            put(record, Place::Free);
        }
        for (record, found) in self.records.iter().zip(found) {
            assert_eq!(record.place, found.unwrap_or(Place::Retired));
            assert!(record.place != Place::Retired || record.turn == LAST_TURN);
        }
    }

    /// Deadlines lie in the slots that the rules name, and the occupied bits agree.
    fn check_slots(&self, lists: &[Vec<usize>]) {
        let watched = self.original.watched();
        let elapsed = self.elapsed();
        let occupied = watched.occupied();
        for (place, list) in lists.iter().enumerate() {
            if place < PARKING {
                let bit = occupied[place / SLOTS] >> (place % SLOTS) & 1;
                assert_eq!(bit == 1, !list.is_empty(), "occupied bit");
            }
            for &record in list {
                let (value, deadline) = watched.held(self.records[record].number);
                self.check_held(record, value, deadline);
                if place == PARKING {
                    assert_eq!(block(deadline), block(elapsed) + 1, "parked");
                    continue;
                }
                assert!(deadline >= elapsed && block(deadline) == block(elapsed));
                if place == EXPIRED {
                    assert_eq!(deadline, elapsed, "expired");
                } else {
                    let k = level(elapsed, deadline);
                    assert_eq!(place, SLOTS * k + slot(k, deadline), "slot");
                }
            }
        }
    }
}
