//! Lines that no bench may take for a command.
use crate::rng::Rng;

/// Past u64::MAX; cut to 64 bits, the first four would be 0, 1, 9 and 70.
const TOO_LARGE: [&str; 8] = [
    "18446744073709551616",
    "18446744073709551617",
    "18446744073709551625",
    "18446744073709551686",
    "20000000000000000000",
    "99999999999999999999",
    "100000000000000000000",
    "340282366920938463463374607431768211456",
];
const NO_NUMBERS: [&str; 11] = [
    "", "-1", "+1", "-0", "00", "01", "0x1", "1.0", "1e3", "1_000", "\u{661}",
];
/// What may not follow value and deadline: an insert has three fields, no fewer and no more.
const NO_PERIODS: [&str; 7] = ["", " ", " 0 0", " 5 5", " -5", " +5", " 05"];
const NO_SPACES: [&str; 8] = ["", "  ", "\t", ",", "\u{b}", "\u{a0}", "\0", " \t"];
const NO_LETTERS: [&str; 6] = ["", "q", "ii", "#", "0", " "];
const LENGTHS: [usize; 8] = [79, 80, 80, 81, 81, 82, 160, 1000];
const BYTES: &[u8] = b" 019piswr\t\r\0\x7f\x80\xff";

/// A well-formed command spoilt. Now and then it comes out well-formed, and is answered as such.
pub fn malformed(rng: &mut Rng, command: &str) -> Vec<u8> {
    let text = match rng.below(16) {
        0 => String::new(),
        1 => format!("{command} "),
        2 => format!(" {command}"),
        3 => format!("{command}\r"),
        4 => command.to_uppercase(),
        5 => spoil_space(command, rng.pick(&NO_SPACES), rng),
        6 => spoil_space(command, rng.pick(&[" 0", " -", " +"]), rng),
        7 => with_last_field(command, rng.pick(&TOO_LARGE)),
        8 => with_last_field(command, rng.pick(&NO_NUMBERS)),
        9 => without_last_field(command),
        10 => format!("{command} {}", rng.below(3)),
        11 => format!("i {} {}{}", rng.below(9), rng.below(99), rng.pick(&NO_PERIODS)),
        12 => format!("{}{}", rng.pick(&NO_LETTERS), &command[1..]),
        13 => return with_odd_byte(command, rng),
        14 => return long(command, rng),
        _ => return (0..rng.below(12)).map(|_| rng.pick(BYTES)).collect(),
    };
    text.into_bytes()
}

/// One of the spaces replaced.
fn spoil_space(command: &str, by: &str, rng: &mut Rng) -> String {
    let fields: Vec<&str> = command.split(' ').collect();
    let spaces = fields.len() as u64 - 1;
    if spaces == 0 {
        return format!("{command}{by}");
    }
    let at = 1 + rng.below(spaces) as usize;
    format!("{}{by}{}", fields[..at].join(" "), fields[at..].join(" "))
}

fn with_last_field(command: &str, field: &str) -> String {
    match command.rsplit_once(' ') {
        Some((front, _)) => format!("{front} {field}"),
        None => format!("{command} {field}"),
    }
}

fn without_last_field(command: &str) -> String {
    let front = command.rsplit_once(' ').map_or("", |(front, _)| front);
    front.to_string()
}

fn with_odd_byte(command: &str, rng: &mut Rng) -> Vec<u8> {
    let mut line = command.as_bytes().to_vec();
    let at = rng.below(line.len() as u64 + 1) as usize;
    line.insert(at, rng.pick(b"\0\t\r\x0b\x7f\x80\xc3\xff"));
    line
}

/// Lines about 80 bytes long: a command at the front, at the end, or none at all.
fn long(command: &str, rng: &mut Rng) -> Vec<u8> {
    let length = rng.pick(&LENGTHS);
    let missing = length - command.len().min(length);
    let text = match rng.below(5) {
        0 => format!("{command}{}", " ".repeat(missing)),
        1 => format!("{}{command}", " ".repeat(missing)),
        2 => format!("{command}{}", "0".repeat(missing)),
        3 => format!("{}{command}", "p".repeat(missing)),
        _ => format!("p {}", "9".repeat(length - 2)),
    };
    text.into_bytes()
}
