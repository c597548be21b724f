//! The rinse pump, which runs every 40 minutes: a timer that repeats. It is set once. Each poll that hands it out sets it again under the
//! same key, so that this key cancels it whenever that is.
use ngawdrelo::{Answer, Refusal, Said, Store};

/// The value of a timer says what to do when it comes out: here, to rinse.
const RINSE: u64 = 9;

/// 40 minutes, in milliseconds.
const EVERY: u64 = 2_400_000;

fn main() -> Result<(), Refusal> {
    let mut pump = Store::<4>::new();
    pump.format(4, 1)?;
    let Answer::Key(key) = act(pump.insert(RINSE, EVERY, EVERY))? else {
        return Ok(());
    };
    act(pump.poll(EVERY))?;
    act(pump.poll(EVERY))?; // it is set for 2 EVERY already
    act(pump.poll(2 * EVERY))?;
    act(pump.poll(3 * EVERY))?;
    act(pump.remove(key))?; // it waits for the fourth time, still under the key that the insert answered
    act(pump.poll(4 * EVERY))?;
    Ok(())
}

/// What the pump does about an answer; this one only says it.
fn act(said: Said) -> Said {
    match said {
        Ok(Answer::Key(key)) => println!("set, its key is {key}"),
        Ok(Answer::Out { key, deadline, .. }) => println!("rinse at {deadline}, its key is {key}"),
        Ok(Answer::Last { key, deadline, .. }) => println!("rinse for the last time at {deadline}, its key was {key}"),
        Ok(Answer::Gone { deadline, .. }) => println!("cancelled, it was due at {deadline}"),
        Ok(Answer::Nothing { .. }) => println!("nothing to do"),
        Err(refusal) => println!("refused, number {}: {refusal}", refusal.number()),
        Ok(_) => {}
    }
    said
}
