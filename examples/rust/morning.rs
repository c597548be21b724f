//! README's morning, line by line: what is asked stands beside, what is answered is written as there.
mod text;
use ngawdrelo::{Answer, Said, Store};

fn say(said: Said) {
    println!("{}", text::text(said));
}

fn main() {
    let mut arm = Store::<4>::new(); // memory for four records; nothing else is needed
    say(arm.format(4, 1)); // f 4 1
    say(arm.insert(7, 70, 0)); // i 7 70 0
    let set = arm.insert(8, 70, 40); // i 8 70 40
    say(set);
    let Ok(Answer::Key(second)) = set else {
        return; // without its timer the arm does not start
    };
    say(arm.next_wake()); // w
    say(arm.poll(70)); // p 70
    say(arm.poll(70)); // p 70
    say(arm.poll(69)); // p 69
    say(arm.poll(68)); // p 68
    say(arm.poll(110)); // p 110
    say(arm.remove(second)); // r 65537
}
