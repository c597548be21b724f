//! panics: what the whole `DelayQueue` does where the bench refuses, and a few things
//! that are its own. Each case has a queue to itself; a panic is caught and shown.
use oracle::whole::Whole;
use std::fmt::Debug;
use std::panic::{catch_unwind, set_hook, AssertUnwindSafe};

/// Where refusal 4 begins, and the next block.
const BLOCK: u64 = 1 << 36;

fn main() {
    set_hook(Box::new(|_| ()));
    too_far();
    next_block();
    lost_by_reset();
    parked_by_reset();
    clock_gone_back();
    dead_keys();
    keys_after_clear();
    expired_and_wake();
    last_block();
    clear_keeps_now();
    too_old();
}

fn show<R: Debug>(what: &str, call: impl FnOnce() -> R) {
    match catch_unwind(AssertUnwindSafe(call)) {
        Ok(answer) => println!("  {what}: {answer:?}"),
        Err(panic) => {
            let fixed = panic.downcast_ref::<&str>().map(|text| text.to_string());
            let text = panic.downcast_ref::<String>().cloned().or(fixed);
            println!("  {what}: PANIC {:?}", text.unwrap_or_default());
        }
    }
}

fn too_far() {
    println!("1. fresh, insert at 2^36 (refusal 4)");
    let mut q = Whole::new(4);
    show("insert(2^36)", || q.insert(1, BLOCK));
    show("len: the timer was left in the slab", || q.len());
}

fn next_block() {
    println!("2. elapsed 1, insert at 2^36 (refusal 5 before request 12): parked on the seventh level");
    let mut q = Whole::new(4);
    show("poll(1)", || q.poll(1));
    show("insert(2^36)", || q.insert(1, BLOCK));
    show("wake", || q.wake());
    show("poll(2^36-1)", || q.poll(BLOCK - 1));
    show("poll(2^36)", || q.poll(BLOCK));
}

fn lost_by_reset() {
    println!("3. A and B at 5, then reset A to 2^36 (refusal 4)");
    let mut q = Whole::new(4);
    let a = q.insert(1, 5);
    q.insert(2, 5);
    show("reset(A, 2^36)", || q.reset(a, BLOCK));
    show("poll(9)", || q.poll(9));
    show("poll(9): A is never handed out", || q.poll(9));
    show("len: A is still counted", || q.len());
    show("wake", || q.wake());
}

fn parked_by_reset() {
    println!("4. elapsed 1, A at 5, then reset A to 2^36 (refusal 5 before request 12)");
    let mut q = Whole::new(4);
    q.poll(1);
    let a = q.insert(1, 5);
    show("reset(A, 2^36)", || q.reset(a, BLOCK));
    show("reset(A, 9)", || q.reset(a, 9));
    show("reset(A, 2^36)", || q.reset(a, BLOCK));
    show("remove(A)", || q.remove(a));
}

fn clock_gone_back() {
    println!("5. poll back in time (refusal 7)");
    let mut q = Whole::new(4);
    show("poll(5)", || q.poll(5));
    show("poll(4)", || q.poll(4));
    show("elapsed", || q.elapsed());
    q.insert(7, 3);
    show("insert at 3, poll(4): handed out", || q.poll(4));
}

fn dead_keys() {
    println!("6. dead keys (refusal 6)");
    let mut q = Whole::new(4);
    let a = q.insert(1, 5);
    q.remove(a);
    show("remove(A) twice", || q.remove(a));
    show("reset(A, 9)", || q.reset(a, 9));
    show("remove of a key never given", || q.remove(3));
    let b = q.insert(2, 6);
    show("numbers of A and B", || (a, b));
    show("remove(A) takes B away", || q.remove(a));
}

fn keys_after_clear() {
    println!("7. a key from before clear (refusal 6)");
    let mut q = Whole::new(4);
    let a = q.insert(1, 5);
    q.clear();
    let b = q.insert(2, 5);
    show("numbers of A and B", || (a, b));
    show("remove(A) takes B away", || q.remove(a));
}

fn expired_and_wake() {
    println!("8. wake with only an expired timer");
    let mut q = Whole::new(4);
    q.insert(1, 0);
    show("wake", || q.wake());
}

fn last_block() {
    println!("9. the last block of u64");
    let mut q = Whole::new(4);
    show("poll(2^64-70)", || q.poll(u64::MAX - 69));
    show("insert(2^64-1)", || q.insert(1, u64::MAX));
    show("insert(2^64-64)", || q.insert(2, u64::MAX - 63));
    show("wake", || q.wake());
    for _ in 0..3 {
        show("poll(2^64-1)", || q.poll(u64::MAX));
    }
    show("elapsed", || q.elapsed());
    show("insert(2^64-1)", || q.insert(1, u64::MAX));
    show("poll(2^64-1)", || q.poll(u64::MAX));
}

fn clear_keeps_now() {
    println!("10. clear keeps wheel_now, so the queue's own poll puts elapsed back");
    let mut q = Whole::new(4);
    q.insert(1, 100);
    show("poll_expired", || q.poll_expired());
    q.clear();
    show("elapsed after clear", || q.elapsed());
    show("poll_expired on the empty queue", || q.poll_expired());
    show("elapsed now", || q.elapsed());
    q.insert(2, 50);
    show("a timer put in at 50", || q.poll_expired());
}

fn too_old() {
    println!("11. elapsed 10000000, insert at 0, reset to 0 (refusal 11)");
    let mut q = Whole::new(4);
    q.poll(10_000_000);
    show("insert(0): taken", || q.insert(1, 0));
    let a = q.insert(2, 10_000_005);
    show("reset(A, 0): taken", || q.reset(a, 0));
    for _ in 0..2 {
        show("poll(10000000): raised to elapsed", || q.poll(10_000_000));
    }
}
