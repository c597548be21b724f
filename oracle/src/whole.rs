//! The whole `DelayQueue`, seen from inside: build.rs adds this file to delay_queue.rs
//! as a child module. Every call is the queue's own but the poll, whose now is given.
use super::wheel::Stack;
use super::{DelayQueue, Instant, Key};
use std::task::{Context, Poll, Waker};

pub struct Whole(DelayQueue<u64>);

impl Whole {
    pub fn new(capacity: usize) -> Whole {
        Whole(DelayQueue::with_capacity(capacity))
    }

    /// Answers the slab's number for the new timer.
    pub fn insert(&mut self, value: u64, when: u64) -> usize {
        self.0.insert_at(value, Instant(when)).index
    }

    pub fn reset(&mut self, number: usize, when: u64) {
        self.0.reset_at(&Key::new(number), Instant(when))
    }

    /// Answers value and deadline.
    pub fn remove(&mut self, number: usize) -> (u64, u64) {
        let gone = self.0.remove(&Key::new(number));
        (*gone.get_ref(), gone.deadline().0)
    }

    /// A pop of the expired stack, else `Wheel::poll`; answers number, value and deadline.
    pub fn poll(&mut self, now: u64) -> Option<(usize, u64, u64)> {
        let queue = &mut self.0;
        let key = match queue.expired.pop(&mut queue.slab) {
            Some(key) => key,
            None => queue.wheel.poll(now, &mut queue.slab)?,
        };
        let data = queue.slab.remove(&key);
        Some((key.index, data.inner, data.when))
    }

    pub fn clear(&mut self) {
        self.0.clear()
    }

    pub fn has_expired(&self) -> bool {
        !self.0.expired.is_empty()
    }

    pub fn wake(&self) -> Option<u64> {
        self.0.wheel.poll_at()
    }

    pub fn len(&self) -> usize {
        self.0.len()
    }

    pub fn is_empty(&self) -> bool {
        self.0.is_empty()
    }

    pub fn elapsed(&self) -> u64 {
        self.0.wheel.elapsed()
    }

    /// The queue's own poll, its sleeper always done; answers value and deadline.
    pub fn poll_expired(&mut self) -> Option<(u64, u64)> {
        match self.0.poll_expired(&mut Context::from_waker(Waker::noop())) {
            Poll::Ready(out) => out.map(|e| (*e.get_ref(), e.deadline().0)),
            Poll::Pending => unreachable!("the sleeper is always done"),
        }
    }
}
