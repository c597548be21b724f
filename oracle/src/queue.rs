//! The original's slab, stacks and wheel, with the steps of `DelayQueue` around them that touch
//! these three. Times are milliseconds from the start, and the wheel's lists are watched.
//!
//! [`crate::whole`] is the same queue with not a line left out; every answer is held against it.

// Whole items of delay_queue.rs, and its methods insert_idx and remove_key.
include!(concat!(env!("OUT_DIR"), "/delay_queue_parts.rs"));

mod watch;

use crate::rules::{EXPIRED, PARKING, SLOTS, WIDTHS};
use std::cell::RefCell;
use std::rc::Rc;
pub use watch::Counts;
use watch::{Notes, Watch};

pub struct Queue {
    slab: SlabStorage<u64>,
    wheel: Wheel<Watch>,
    expired: Stack<u64>,
    notes: Rc<RefCell<Notes>>,
}

impl Queue {
    pub fn new(capacity: usize) -> Queue {
        let (wheel, notes) = watch::wheel();
        Queue {
            slab: SlabStorage::with_capacity(capacity),
            wheel,
            expired: Stack::default(),
            notes,
        }
    }

    /// Answers the slab's number for the new timer.
    pub fn insert(&mut self, value: u64, when: u64) -> usize {
        let when = when.max(self.wheel.elapsed());
        let key = self.slab.insert(Data {
            inner: value,
            when,
            expired: false,
            next: None,
            prev: None,
        });
        self.insert_idx(when, key);
        key.index
    }

    pub fn reset(&mut self, number: usize, when: u64) {
        let key = Key::new(number);
        self.remove_key(&key);
        let when = when.max(self.wheel.elapsed());
        self.slab[key].when = when;
        self.slab[key].expired = false;
        self.insert_idx(when, key);
    }

    /// Answers value and deadline.
    pub fn remove(&mut self, number: usize) -> (u64, u64) {
        let key = Key::new(number);
        self.remove_key(&key);
        let data = self.slab.remove(&key);
        (data.inner, data.when)
    }

    /// A pop of the expired stack, else `Wheel::poll`; answers number, value and deadline.
    pub fn poll(&mut self, now: u64) -> Option<(usize, u64, u64)> {
        use self::wheel::Stack;

        self.notes.borrow_mut().counts = Counts::default();
        let key = match self.expired.pop(&mut self.slab) {
            Some(key) => key,
            None => self.wheel.poll(now, &mut self.slab)?,
        };
        let data = self.slab.remove(&key);
        assert!(data.next.is_none() && data.prev.is_none());
        Some((key.index, data.inner, data.when))
    }

    pub fn clear(&mut self) {
        self.slab.clear();
        self.expired = Stack::default();
        (self.wheel, self.notes) = watch::wheel();
    }

    pub fn has_expired(&self) -> bool {
        self.expired.head.is_some()
    }

    pub fn wake(&self) -> Option<u64> {
        self.wheel.poll_at()
    }

    pub fn len(&self) -> usize {
        self.slab.len()
    }

    pub fn elapsed(&self) -> u64 {
        self.wheel.elapsed()
    }

    /// Value and deadline.
    pub fn held(&self, number: usize) -> (u64, u64) {
        let data = &self.slab[Key::new(number)];
        (data.inner, data.when)
    }

    /// What the last poll did to the wheel's lists, by their places.
    pub fn counts(&self) -> Counts {
        let mut counts = self.notes.borrow().counts.clone();
        for (list, _) in &mut counts.emptied {
            *list = place(*list);
        }
        counts
    }

    /// The expired stack, head first.
    pub fn expired(&self) -> Vec<usize> {
        self.walk(self.expired.head, self.expired.tail)
    }

    /// The wheel's lists, head first; slot s of level k is list 64 k + s. The parking list, the one slot of the seventh
    /// level that is filled, comes after them.
    pub fn lists(&self) -> Vec<Vec<usize>> {
        let notes = self.notes.borrow();
        let ends = notes.heads.iter().zip(&notes.tails);
        let mut lists: Vec<Vec<usize>> = ends.map(|(&head, &tail)| self.walk(head, tail)).collect();
        let mut parked = lists.split_off(PARKING).into_iter().filter(|list| !list.is_empty());
        lists.push(parked.next().unwrap_or_default());
        assert_eq!(parked.next(), None, "one block is parked");
        lists
    }

    /// Tells each timer's list, number, value and deadline: the wheel's lists, then the parking list, then the
    /// expired stack as the last, head first.
    pub fn each(&self, mut tell: impl FnMut(usize, usize, u64, u64)) {
        let notes = self.notes.borrow();
        let heads = notes.heads.iter().chain([&self.expired.head]);
        for (list, &head) in heads.enumerate() {
            let mut at = head;
            while let Some(key) = at {
                let data = &self.slab[key];
                tell(place(list), key.index, data.inner, data.when);
                at = data.next;
            }
        }
    }

    fn walk(&self, head: Option<Key>, tail: Option<Key>) -> Vec<usize> {
        let mut list = vec![];
        let (mut before, mut at) = (None, head);
        while let Some(key) = at {
            assert_eq!(self.slab[key].prev, before, "links must agree both ways");
            list.push(key.index);
            assert!(list.len() <= self.slab.len(), "a list must have an end");
            before = at;
            at = self.slab[key].next;
        }
        assert_eq!(before, tail, "the tail must be the last");
        list
    }

    /// The rows of occupied bits of the six levels. They are private to the wheel, but its debug text shows them.
    pub fn occupied(&self) -> [u64; WIDTHS.len()] {
        let text = format!("{:?}", self.wheel);
        let rows = text.split("occupied: ").skip(1);
        let row = |rest: &str| rest.split(' ').next().unwrap().parse().unwrap();
        rows.map(row).take(WIDTHS.len()).collect::<Vec<_>>().try_into().unwrap()
    }
}

/// The place of one of the wheel's lists, or of the expired stack after them: all slots of the seventh level are the parking list.
fn place(list: usize) -> usize {
    match list.checked_sub(PARKING) {
        None => list,
        Some(slot) if slot < SLOTS => PARKING,
        Some(_) => EXPIRED,
    }
}
