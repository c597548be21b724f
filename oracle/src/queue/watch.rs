//! A stack that hands every call on to the original's `Stack` and notes what happened. The wheel
//! keeps its slots to itself; this is how their heads, tails, moves and drains are seen.
use super::{wheel, Key, SlabStorage, Stack, Wheel};
use crate::rules::{SLOTS, WIDTHS};
use std::cell::RefCell;
use std::rc::Rc;

#[derive(Debug, Default)]
pub struct Notes {
    /// Head and tail of each list as the original's stack holds them now.
    pub heads: Vec<Option<Key>>,
    pub tails: Vec<Option<Key>>,
    pub counts: Counts,
}

#[derive(Clone, Debug, Default)]
pub struct Counts {
    pub pushes: u64,
    pub pops: u64,
    /// The lists that a pop left empty, in order, each with the pops so far.
    pub emptied: Vec<(usize, u64)>,
}

thread_local! {
    /// The notes of the wheel that is being made: `Stack: Default` leaves no other way in.
    static MAKING: RefCell<Rc<RefCell<Notes>>> = RefCell::default();
}

/// A fresh wheel with notes of its own.
pub(super) fn wheel() -> (Wheel<Watch>, Rc<RefCell<Notes>>) {
    let notes = Rc::new(RefCell::new(Notes::default()));
    MAKING.replace(notes.clone());
    let wheel = Wheel::new();
    assert_eq!(notes.borrow().heads.len(), (WIDTHS.len() + 1) * SLOTS);
    (wheel, notes)
}

#[derive(Debug)]
pub(super) struct Watch {
    /// The wheel makes its slots in order, so slot s of level k is list 64 k + s.
    list: usize,
    stack: Stack<u64>,
    notes: Rc<RefCell<Notes>>,
}

impl Default for Watch {
    fn default() -> Watch {
        let notes = MAKING.with_borrow(Rc::clone);
        let list = notes.borrow().heads.len();
        notes.borrow_mut().heads.push(None);
        notes.borrow_mut().tails.push(None);
        Watch {
            list,
            stack: Stack::default(),
            notes,
        }
    }
}

impl Watch {
    fn note(&self, count: impl FnOnce(&mut Counts)) {
        let mut notes = self.notes.borrow_mut();
        notes.heads[self.list] = self.stack.head;
        notes.tails[self.list] = self.stack.tail;
        count(&mut notes.counts);
    }
}

impl wheel::Stack for Watch {
    type Owned = Key;
    type Borrowed = Key;
    type Store = SlabStorage<u64>;

    fn is_empty(&self) -> bool {
        self.stack.is_empty()
    }

    fn push(&mut self, item: Key, store: &mut SlabStorage<u64>) {
        self.stack.push(item, store);
        self.note(|counts| counts.pushes += 1);
    }

    fn pop(&mut self, store: &mut SlabStorage<u64>) -> Option<Key> {
        let popped = self.stack.pop(store)?;
        self.note(|counts| {
            counts.pops += 1;
            if self.stack.head.is_none() {
                counts.emptied.push((self.list, counts.pops));
            }
        });
        Some(popped)
    }

    fn remove(&mut self, item: &Key, store: &mut SlabStorage<u64>) {
        self.stack.remove(item, store);
        self.note(|_| ());
    }

    fn when(item: &Key, store: &SlabStorage<u64>) -> u64 {
        Stack::when(item, store)
    }
}
