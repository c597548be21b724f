//! The records, their keys and turns, and the refusals: what stands in front of the original.
mod checks;
mod hand;
mod model;

use crate::line::Answer;
use crate::original::Original;
use crate::rules::{height, key, unpack, EXPIRED, FARTHEST, LAST_TURN, OLDEST, PARKED, SLOTS};
use checks::Before;
use hand::{Hand, Lists};
use model::Model;
use std::collections::{BTreeMap, VecDeque};
use std::fmt::Write;
use std::mem;

#[derive(Clone, Copy, PartialEq, Eq, Debug)]
enum Place {
    Free,
    Retired,
    Expired,
    Wheel,
}

#[derive(Clone)]
struct Record {
    turn: u64,
    value: u64,
    /// 0 for none. Leaving keeps it.
    period: u64,
    deadline: u64,
    place: Place,
    /// The original's number for this timer.
    number: usize,
    /// How many placings there were before its last one.
    placed: u64,
}

/// A pending timer, as the original holds it.
#[derive(Clone, Copy, PartialEq, Eq, Debug)]
pub struct Entry {
    /// Slot s of level k is 64 k + s; the parking list comes after the slots, then the expired stack.
    pub place: usize,
    pub record: usize,
    pub turn: u64,
    pub value: u64,
    pub period: u64,
    pub deadline: u64,
}

pub struct Store {
    records: Vec<Record>,
    /// The pending ones, in rising number.
    pending: Vec<usize>,
    /// Records that left and may be taken again, the last freed at the end.
    freed: Vec<usize>,
    /// Records from this one on were never taken.
    fresh: usize,
    /// The record of each number of the original.
    record_of: Vec<usize>,
    placings: u64,
    /// The original's poll, which it has made whole, while calls with a limit are still to make the rest of its moves (02 [10]).
    hand: Option<Hand>,
    original: Original,
    /// Only where every answer is checked.
    model: Option<Model>,
}

impl Store {
    pub fn new(records: usize, turn: u64, checked: bool) -> Store {
        let free = Record {
            turn,
            value: 0,
            period: 0,
            deadline: 0,
            place: Place::Free,
            number: 0,
            placed: 0,
        };
        Store {
            records: vec![free; records],
            pending: vec![],
            freed: vec![],
            fresh: 0,
            record_of: vec![0; records],
            placings: 0,
            hand: None,
            original: Original::new(records),
            model: checked.then(|| Model::new(records)),
        }
    }

    pub fn insert(&mut self, value: u64, when: u64, period: u64) -> Answer {
        if self.hand.is_some() {
            return Answer::No(12);
        }
        if self.freed.is_empty() && self.fresh == self.records.len() {
            return Answer::No(3);
        }
        if let Some(number) = self.refused(when) {
            return Answer::No(number);
        }
        let record = self.take();
        self.records[record].value = value;
        self.records[record].period = period;
        if let Some(model) = &mut self.model {
            model.insert(record, when, period);
        }
        self.put(record, when);
        Answer::Key(self.key(record))
    }

    pub fn reset(&mut self, key: u64, when: u64) -> Answer {
        if self.hand.is_some() {
            return Answer::No(12);
        }
        let Some(record) = self.find(key) else {
            return Answer::No(6);
        };
        if let Some(number) = self.refused(when) {
            return Answer::No(number);
        }
        self.original.reset(self.records[record].number, when);
        if let Some(model) = &mut self.model {
            model.reset(record, when);
        }
        self.place(record, when);
        Answer::Ok
    }

    pub fn remove(&mut self, key: u64) -> Answer {
        if self.hand.is_some() {
            return Answer::No(12);
        }
        let Some(record) = self.find(key) else {
            return Answer::No(6);
        };
        let (value, deadline) = self.original.remove(self.records[record].number);
        self.check_held(record, value, deadline);
        if let Some(model) = &mut self.model {
            model.remove(record);
        }
        self.unpend(record);
        self.leave(record);
        Answer::Gone { value, deadline }
    }

    /// A whole poll is one with no limit.
    pub fn poll(&mut self, now: u64) -> Answer {
        self.poll_some(now, u64::MAX)
    }

    /// "It stops before the move that would exceed the limit and answers "not yet"" (02 [10]). A poll in hand is gone on with at its own now.
    pub fn poll_some(&mut self, now: u64, limit: u64) -> Answer {
        let mut hand = match self.hand.take() {
            Some(hand) if hand.now != now => {
                self.hand = Some(hand);
                return Answer::No(12);
            }
            Some(hand) => hand,
            None if now < self.elapsed() => return Answer::No(7),
            None => self.begin(now, limit),
        };
        let moves = hand.left().min(limit);
        let stops = moves < hand.left();
        let drains = hand.make(moves, |record| self.records[record].deadline);
        if stops {
            self.hand = Some(hand);
            return Answer::Yet { moves, drains };
        }
        let (out, checked) = (hand.out, hand.before.is_some());
        if let Some(lists) = hand.into_lists() {
            self.check_lists(lists, out, now);
        }
        self.end(out, checked, moves, drains)
    }

    /// The original makes its poll, whole. What it hands out has not yet left.
    fn begin(&mut self, now: u64, limit: u64) -> Hand {
        let elapsed = self.elapsed();
        let before = self.model.is_some().then(|| Before {
            now,
            elapsed,
            heights: self.heights(),
            from_expired: self.original.has_expired(),
        });
        let stops = self.may_stop(now, limit);
        let lists = stops.then(|| Lists::new(elapsed, self.filled()));
        let out = self.original.poll(now).map(|(number, value, deadline)| {
            let record = self.record_of[number];
            self.check_held(record, value, deadline);
            record
        });
        if let Some(before) = &before {
            self.check_poll(before, out);
        }
        Hand::new(now, out, before, self.drained(), self.counted().0, lists)
    }

    /// More moves may be needed than the limit allows: something is to be drained, and it lies high enough.
    fn may_stop(&self, now: u64, limit: u64) -> bool {
        let most = PARKED * self.pending.len();
        limit < most as u64 && !self.original.has_expired() && self.wheel_wake().is_some_and(|wake| wake <= now)
    }

    /// The last call of a poll answers.
    fn end(&mut self, out: Option<usize>, checked: bool, moves: u64, drains: u64) -> Answer {
        let Some(record) = out else {
            return Answer::Nothing { moves, drains };
        };
        let key = self.key(record);
        let handed = self.records[record].clone();
        let again = self.again(record);
        match again {
            Some(when) => self.put(record, when),
            None => {
                self.unpend(record);
                self.leave(record);
            }
        }
        let last = handed.period > 0 && again.is_none();
        if checked {
            self.check_again(record, &handed, last);
        }
        Answer::Out {
            key,
            value: handed.value,
            deadline: handed.deadline,
            moves,
            drains,
            last,
        }
    }

    pub fn wake(&self) -> Answer {
        if self.hand.is_some() {
            return Answer::No(12);
        }
        Answer::Wake(self.next_wake())
    }

    pub fn length(&self) -> Answer {
        let length = match self.hand {
            // What the original handed out is still to be.
            Some(_) => self.pending.len(),
            None => self.original.len(),
        };
        Answer::Length(length as u64)
    }

    /// "Clear or format ends it", a poll in hand (02 [10]).
    pub fn clear(&mut self) -> Answer {
        self.hand = None;
        self.original.clear();
        if let Some(model) = &mut self.model {
            model.clear();
        }
        for record in mem::take(&mut self.pending) {
            self.leave(record);
        }
        Answer::Ok
    }

    pub fn size(&self) -> usize {
        self.records.len()
    }

    pub fn elapsed(&self) -> u64 {
        match &self.hand {
            Some(hand) => hand.elapsed(),
            None => self.original.elapsed(),
        }
    }

    /// The now of the poll in hand, and the place that its next move is taken from: a slot's or the parking list's.
    pub fn in_hand(&self) -> Option<(u64, usize)> {
        self.hand.as_ref().map(|hand| (hand.now, hand.place()))
    }

    /// The moves that the poll in hand has still to make.
    pub fn moves_left(&self) -> u64 {
        self.hand.as_ref().map_or(0, Hand::left)
    }

    /// Elapsed whenever the expired stack holds anything, and the wheel's answer otherwise (02 [1]).
    pub fn next_wake(&self) -> Option<u64> {
        if self.original.has_expired() {
            return Some(self.elapsed());
        }
        self.wheel_wake()
    }

    /// `poll_at` as the original has it: it sees the wheel alone.
    pub fn wheel_wake(&self) -> Option<u64> {
        self.original.wake()
    }

    /// The pending records, in rising number.
    pub fn pending(&self) -> &[usize] {
        &self.pending
    }

    /// The records that may be taken, the next first.
    pub fn free(&self) -> impl Iterator<Item = usize> + '_ {
        let freed = self.freed.iter().rev().copied();
        freed.chain(self.fresh..self.size())
    }

    /// Those that never will be again, in rising number.
    pub fn retired(&self) -> impl Iterator<Item = usize> + '_ {
        (0..self.size()).filter(|&record| self.records[record].place == Place::Retired)
    }

    /// All pending timers, by place, head first.
    pub fn entries(&self, into: &mut Vec<Entry>) {
        into.clear();
        if let Some(hand) = &self.hand {
            for (&place, list) in &hand.lists().places {
                into.extend(list.iter().map(|&record| self.entry(place, record)));
            }
            return;
        }
        let watched = self.original.watched();
        watched.each(|place, number, value, deadline| {
            let record = self.record_of[number];
            into.push(Entry {
                place,
                record,
                turn: self.records[record].turn,
                value,
                period: self.records[record].period,
                deadline,
            });
        });
        assert_eq!(into.len(), self.original.len(), "all are in the lists");
    }

    /// A pending timer as the records have it.
    fn entry(&self, place: usize, record: usize) -> Entry {
        let held = &self.records[record];
        Entry {
            place,
            record,
            turn: held.turn,
            value: held.value,
            period: held.period,
            deadline: held.deadline,
        }
    }

    pub fn key(&self, record: usize) -> u64 {
        key(self.records[record].turn, record)
    }

    pub fn deadline(&self, record: usize) -> u64 {
        self.records[record].deadline
    }

    pub fn turn(&self, record: usize) -> u64 {
        self.records[record].turn
    }

    /// Value and period of every record, also of those that have left.
    pub fn values(&self) -> impl Iterator<Item = [u64; 2]> + '_ {
        let records = self.records.iter();
        records.map(|record| [record.value, record.period])
    }

    /// The key names a pending timer.
    pub fn holds(&self, key: u64) -> bool {
        self.find(key).is_some()
    }

    /// Elapsed and all lists, head first: `# e=ELAPSED x=[..] LEVEL.SLOT=[..] ..`, the parking list as 6.0.
    pub fn contents(&self) -> String {
        let lists = self.lists();
        let mut text = format!("# e={} x={}", self.elapsed(), show(&lists[EXPIRED]));
        for (place, list) in lists[..EXPIRED].iter().enumerate() {
            if !list.is_empty() {
                let (level, slot) = (place / SLOTS, place % SLOTS);
                write!(text, " {level}.{slot}={}", show(list)).expect("memory");
            }
        }
        text
    }

    /// The original's lists in record numbers, head first: the slots, the parking list, the expired stack. While a poll is in hand, those in
    /// between.
    fn lists(&self) -> Vec<Vec<usize>> {
        if let Some(hand) = &self.hand {
            let mut lists = vec![vec![]; EXPIRED + 1];
            for (&place, list) in &hand.lists().places {
                lists[place] = list.iter().copied().collect();
            }
            return lists;
        }
        let mut lists = self.original.watched().lists();
        lists.push(self.original.watched().expired());
        for number in lists.iter_mut().flatten() {
            *number = self.record_of[*number];
        }
        lists
    }

    /// The original's lists that are not empty.
    fn filled(&self) -> BTreeMap<usize, VecDeque<usize>> {
        let mut places: BTreeMap<usize, VecDeque<usize>> = BTreeMap::new();
        self.original.watched().each(|place, number, _, _| {
            places.entry(place).or_default().push_back(self.record_of[number]);
        });
        places
    }

    fn is_pending(&self, record: usize) -> bool {
        matches!(self.records[record].place, Place::Expired | Place::Wheel)
    }

    /// The pending record that a key names.
    fn find(&self, key: u64) -> Option<usize> {
        let (turn, record) = unpack(key);
        let named = record < self.records.len()
            && self.is_pending(record)
            && self.records[record].turn == turn;
        named.then_some(record)
    }

    /// Refusals 11 and 4, of a deadline as it was handed in: "it applies before raising to elapsed" (02 [8]).
    fn refused(&self, when: u64) -> Option<u8> {
        let below = self.elapsed().saturating_sub(when);
        let number = if below > OLDEST {
            Some(11)
        } else {
            self.too_far(when)
        };
        self.check_refused(when, number);
        number
    }

    /// Refusal 4. "Refusal 5 is then never given" (02 [12]).
    fn too_far(&self, when: u64) -> Option<u8> {
        let elapsed = self.elapsed();
        (when.saturating_sub(elapsed) > FARTHEST).then_some(4)
    }

    fn take(&mut self) -> usize {
        self.freed.pop().unwrap_or_else(|| {
            self.fresh += 1;
            self.fresh - 1
        })
    }

    /// Where a timer that was handed out is placed again. If refusal 4 would meet that deadline "at the elapsed time after the hand-out, or it
    /// passes 2^64-1", nowhere (02 [7], [12]). Refusal 11 is not asked.
    fn again(&self, record: usize) -> Option<u64> {
        let Record {
            period, deadline, ..
        } = self.records[record];
        let next = deadline.checked_add(period)?;
        (period > 0 && self.too_far(next).is_none()).then_some(next)
    }

    /// Goes into the original, which numbers it anew. A timer that is placed again keeps its record and turn.
    fn put(&mut self, record: usize, when: u64) {
        let number = self.original.insert(self.records[record].value, when);
        self.record_of[number] = record;
        self.records[record].number = number;
        self.place(record, when);
    }

    fn place(&mut self, record: usize, when: u64) {
        if let Err(at) = self.pending.binary_search(&record) {
            self.pending.insert(at, record);
        }
        let elapsed = self.elapsed();
        let record = &mut self.records[record];
        record.deadline = when.max(elapsed);
        record.placed = self.placings;
        self.placings += 1;
        record.place = if when <= elapsed {
            Place::Expired
        } else {
            Place::Wheel
        };
    }

    fn unpend(&mut self, record: usize) {
        let at = self.pending.binary_search(&record).expect("pending");
        self.pending.remove(at);
    }

    fn leave(&mut self, record: usize) {
        if self.records[record].turn == LAST_TURN {
            self.records[record].place = Place::Retired;
        } else {
            self.records[record].turn += 1;
            self.records[record].place = Place::Free;
            self.freed.push(record);
        }
    }

    fn height(&self, record: usize) -> usize {
        match self.records[record].place {
            Place::Wheel => height(self.elapsed(), self.records[record].deadline),
            _ => 0,
        }
    }

    /// Each pending record with its height.
    fn heights(&self) -> Vec<(usize, usize)> {
        let height = |record| (record, self.height(record));
        self.pending.iter().copied().map(height).collect()
    }
}

fn show(list: &[usize]) -> String {
    let records: Vec<String> = list.iter().map(usize::to_string).collect();
    format!("[{}]", records.join(","))
}
