//! The bench in Rust: a line in, a line out, as ./replay. With the word `limits` it knows `q now limit` too, as the program replay_paused.
mod text;
use ngawdrelo::{Said, Store};
use std::io::{self, BufRead, Write};

/// A decimal with no sign and no spare zero.
fn number(field: &str) -> Option<u64> {
    let plain = field.bytes().all(|b| b.is_ascii_digit()) && (field.len() == 1 || !field.starts_with('0'));
    if plain { field.parse().ok() } else { None }
}

/// Asks what the line asks, if it asks a call.
fn answer(store: &mut Store<1024>, line: &[u8], limits: bool) -> Option<Said> {
    let line = std::str::from_utf8(line).ok().filter(|l| l.len() <= 80)?;
    let mut fields = line.split(' ');
    let letter = fields.next()?;
    let numbers: Vec<u64> = fields.map(number).collect::<Option<_>>()?;
    match (letter, &numbers[..]) {
        ("f", &[n, turn]) => Some(store.format(n, turn)),
        ("i", &[value, when, period]) => Some(store.insert(value, when, period)),
        ("s", &[key, when]) => Some(store.reset(key, when)),
        ("r", &[key]) => Some(store.remove(key)),
        ("p", &[now]) => Some(store.poll(now)),
        ("q", &[now, limit]) if limits => Some(store.poll_some(now, limit)),
        ("w", &[]) => Some(store.next_wake()),
        ("l", &[]) => Some(store.length()),
        ("c", &[]) => Some(store.clear()),
        _ => None,
    }
}

fn main() -> io::Result<()> {
    let limits = std::env::args().nth(1).as_deref() == Some("limits");
    let mut store = Box::new(Store::<1024>::new());
    let mut out = io::BufWriter::new(io::stdout().lock());
    for line in io::stdin().lock().split(b'\n') {
        match answer(&mut store, &line?, limits) {
            Some(said) => writeln!(out, "{}", text::text(said))?,
            None => writeln!(out, "bad")?,
        }
    }
    out.flush()
}
