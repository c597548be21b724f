//! The original twice: once with its lists watched, once whole. Each answer must be the same.
use crate::queue::Queue;
use crate::whole::Whole;
use std::fmt::Debug;

pub struct Original {
    watched: Queue,
    whole: Whole,
}

impl Original {
    pub fn new(capacity: usize) -> Original {
        Original {
            watched: Queue::new(capacity),
            whole: Whole::new(capacity),
        }
    }

    pub fn insert(&mut self, value: u64, when: u64) -> usize {
        same(
            self.watched.insert(value, when),
            self.whole.insert(value, when),
        )
    }

    pub fn reset(&mut self, number: usize, when: u64) {
        self.watched.reset(number, when);
        self.whole.reset(number, when);
    }

    pub fn remove(&mut self, number: usize) -> (u64, u64) {
        same(self.watched.remove(number), self.whole.remove(number))
    }

    pub fn poll(&mut self, now: u64) -> Option<(usize, u64, u64)> {
        same(self.watched.poll(now), self.whole.poll(now))
    }

    pub fn clear(&mut self) {
        self.watched.clear();
        self.whole.clear();
    }

    /// Whether the expired stack holds anything.
    pub fn has_expired(&self) -> bool {
        same(self.watched.has_expired(), self.whole.has_expired())
    }

    /// The wheel's answer, `poll_at`.
    pub fn wake(&self) -> Option<u64> {
        same(self.watched.wake(), self.whole.wake())
    }

    pub fn len(&self) -> usize {
        same(self.watched.len(), self.whole.len())
    }

    pub fn elapsed(&self) -> u64 {
        same(self.watched.elapsed(), self.whole.elapsed())
    }

    /// The one whose lists can be seen.
    pub fn watched(&self) -> &Queue {
        &self.watched
    }
}

fn same<T: PartialEq + Debug>(watched: T, whole: T) -> T {
    assert_eq!(watched, whole, "the watched queue against the whole one");
    watched
}
