//! An arm that sleeps from wake to wake: it asks when to look, sleeps until then, and looks. Nothing is lost by that, nothing comes out
//! late, and there is an end to it (`asleep`, `on-time` and `wakes-all` of crates/promises). Here the clock is a number: a board waits for
//! its timer instead.
use ngawdrelo::{Answer, Refusal, Store};

/// One is due at once, others from 7 ms to five hours on, and one in the next block of 2^36 ms, which begins six hours on.
const AFTER: [u64; 7] = [28_800_000, 420_000, 7, 18_000_000, 90_000, 1_000, 0];

const START: u64 = (1 << 36) - 21_600_000;

fn main() -> Result<(), Refusal> {
    let mut arm = Store::<8>::new();
    let mut now = START;
    arm.format(8, 1)?;
    arm.poll(now)?; // nothing is set: this sets the store's time
    for (value, after) in (1..).zip(AFTER) {
        arm.insert(value, START + after, 0)?;
    }
    let mut looks = 0;
    while let Answer::Wake(time) = arm.next_wake()? {
        now = now.max(time); // here it sleeps
        looks += 1;
        // more than one may be due, so look until there is nothing; a look may also only sort, and hand out nothing
        while let Answer::Out { value, deadline, .. } | Answer::Last { value, deadline, .. } = arm.poll(now)? {
            println!("at {}: {value}, due at {}", now - START, deadline - START);
        }
    }
    println!("asleep for good after {looks} wakes");
    Ok(())
}
