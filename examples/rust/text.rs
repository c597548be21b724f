//! An answer as the bench writes it.
use ngawdrelo::{Answer, Said};

pub fn text(said: Said) -> String {
    match said {
        Ok(Answer::Done) => "ok".to_string(),
        Ok(Answer::Key(key)) => format!("key {key}"),
        Ok(Answer::Gone { value, deadline }) => format!("gone {value} {deadline}"),
        Ok(Answer::Out { key, value, deadline, moves, drains }) => format!("out {key} {value} {deadline} {moves} {drains}"),
        Ok(Answer::Last { key, value, deadline, moves, drains }) => format!("out {key} {value} {deadline} {moves} {drains} last"),
        Ok(Answer::Nothing { moves, drains }) => format!("none {moves} {drains}"),
        Ok(Answer::Wake(time)) => format!("wake {time}"),
        Ok(Answer::NoWake) => "wake -".to_string(),
        Ok(Answer::Length(n)) => format!("len {n}"),
        Ok(Answer::NotYet { moves, drains }) => format!("yet {moves} {drains}"),
        Err(refusal) => format!("no {}", refusal.number()),
    }
}
