//! The original's slab, stacks and wheel with nothing around them but the steps of `DelayQueue` that touch these three. Times are
//! milliseconds from the start. The oracle holds the same steps against the whole original. Entries join a list's tail
//! (oracle/tails.rs).

// Whole items of delay_queue.rs, and its methods insert_idx and remove_key.
include!(concat!(env!("OUT_DIR"), "/delay_queue_parts.rs"));

use crate::script::{Answer, Asked};

pub struct Queue {
    slab: SlabStorage<u64>,
    wheel: Wheel<Stack<u64>>,
    expired: Stack<u64>,
}

impl Queue {
    pub fn new(capacity: usize) -> Queue {
        Queue {
            slab: SlabStorage::with_capacity(capacity),
            wheel: Wheel::new(),
            expired: Stack::default(),
        }
    }

    /// Answers the slab's number for the new timer.
    pub fn insert(&mut self, value: u64, when: u64) -> usize {
        let when = when.max(self.wheel.elapsed());
        let key = self.slab.insert(Data {
            inner: value,
            when,
            expired: false,
            next: None,
            prev: None,
        });
        self.insert_idx(when, key);
        key.index
    }

    pub fn reset(&mut self, number: usize, when: u64) {
        let key = Key::new(number);
        self.remove_key(&key);
        let when = when.max(self.wheel.elapsed());
        self.slab[key].when = when;
        self.slab[key].expired = false;
        self.insert_idx(when, key);
    }

    /// Answers value and deadline.
    pub fn remove(&mut self, number: usize) -> (u64, u64) {
        let key = Key::new(number);
        self.remove_key(&key);
        let data = self.slab.remove(&key);
        (data.inner, data.when)
    }

    /// A pop of the expired stack, else `Wheel::poll`; answers number, value and deadline.
    pub fn poll(&mut self, now: u64) -> Option<(usize, u64, u64)> {
        use self::wheel::Stack;

        let key = match self.expired.pop(&mut self.slab) {
            Some(key) => key,
            None => self.wheel.poll(now, &mut self.slab)?,
        };
        let data = self.slab.remove(&key);
        Some((key.index, data.inner, data.when))
    }

    pub fn wake(&self) -> Option<u64> {
        self.wheel.poll_at()
    }

    pub fn len(&self) -> usize {
        self.slab.len()
    }

    pub fn clear(&mut self) {
        self.slab.clear();
        self.expired = Stack::default();
        self.wheel = Wheel::new();
    }

    pub fn elapsed(&self) -> u64 {
        self.wheel.elapsed()
    }
}

/// The commands of a run, with their answers written as a run of ours writes them, as far as the original has them.
#[inline(never)]
pub fn answers(queue: &mut Queue, commands: &[Asked], answers: &mut [Answer]) {
    for (&[kind, a, b, _], to) in commands.iter().zip(answers) {
        *to = match kind {
            2 => [1, queue.insert(a, b) as u64, 0, 0, 0, 0],
            3 => {
                queue.reset((a & 0xffff) as usize, b);
                [0; 6]
            }
            4 => {
                let (value, deadline) = queue.remove((a & 0xffff) as usize);
                [2, value, deadline, 0, 0, 0]
            }
            1 => {
                *queue = Queue::new(a as usize);
                [0; 6]
            }
            6 => {
                queue.clear();
                [0; 6]
            }
            5 | 11 => match queue.poll(a) {
                Some((number, value, deadline)) => [3, number as u64, value, deadline, 0, 0],
                None => [5, 0, 0, 0, 0, 0],
            },
            13 => [8, queue.len() as u64, 0, 0, 0, 0],
            _ => match queue.wake() {
                Some(time) => [6, time, 0, 0, 0, 0],
                None => [7, 0, 0, 0, 0, 0],
            },
        };
    }
}
