//! The gauge of lateness and its light (request 2) in Rust's own f64, and inputs for it.
use crate::rng::Rng;

/// The cap of a lateness, and the largest number that the program `light` takes.
pub const MOST: u64 = 4_294_967_295;

#[derive(Clone, Copy, PartialEq)]
pub enum Light {
    Calm,
    Slow(f64),
    Late(f64),
}

/// Smoothed and worst, once a timer was handed out.
#[derive(Clone, Copy, Default)]
pub struct Gauge(Option<(f64, f64)>);

pub fn lateness(time: u64, deadline: u64) -> f64 {
    time.saturating_sub(deadline).min(MOST) as f64
}

impl Gauge {
    pub fn note(&mut self, late: f64) {
        self.0 = Some(match self.0 {
            None => (late, late),
            Some((smoothed, worst)) => (smoothed + (late - smoothed) / 8.0, worst.max(late)),
        });
    }

    pub fn numbers(&self) -> (f64, f64) {
        self.0.unwrap_or_default()
    }

    pub fn read(&self, slow: f64, late: f64) -> Result<Light, u64> {
        if slow.is_nan() || late.is_nan() || slow < 0.0 || late < 0.0 {
            return Err(9);
        }
        Ok(match self.0 {
            Some((_, worst)) if worst >= late => Light::Late(worst),
            Some((smoothed, _)) if smoothed >= slow => Light::Slow(smoothed),
            _ => Light::Calm,
        })
    }
}

/// What the program writes to an input.
pub fn text(input: &[u8]) -> String {
    let mut lines: Vec<&[u8]> = input.split(|&b| b == b'\n').collect();
    if lines.last().is_some_and(|line| line.is_empty()) {
        lines.pop();
    }
    let numbers: Option<Vec<u64>> = lines.into_iter().map(amount).collect();
    let Some([slow, late, latenesses @ ..]) = numbers.as_deref() else {
        return "bad\n".into();
    };
    let mut gauge = Gauge::default();
    latenesses.iter().for_each(|&n| gauge.note(n as f64));
    let word = match gauge.read(*slow as f64, *late as f64) {
        Ok(Light::Calm) => "calm",
        Ok(Light::Slow(_)) => "slow",
        Ok(Light::Late(_)) => "late",
        Err(_) => return "bad\n".into(),
    };
    let (smoothed, worst) = gauge.numbers();
    format!("{word} {:016x} {:016x}\n", smoothed.to_bits(), worst.to_bits())
}

/// A decimal as on the bench, at most [`MOST`].
fn amount(line: &[u8]) -> Option<u64> {
    let digits = !line.is_empty() && line.iter().all(u8::is_ascii_digit);
    let spare = line.len() > 1 && line[0] == b'0';
    let number = std::str::from_utf8(line).ok()?.parse().ok()?;
    (digits && !spare && number <= MOST).then_some(number)
}

/// Latenesses of every size, capped ones among them: by how much a time is past its deadline.
fn size(rng: &mut Rng) -> u64 {
    match rng.below(8) {
        0 => 0,
        1 => rng.pick(&[1, 7, 8, MOST - 1, MOST]),
        2 => MOST + rng.below(3),
        3 => rng.next(),
        _ => rng.next() >> (31 + rng.below(33)),
    }
}

/// Hand-outs: times of polls, and deadlines.
pub struct Sequence {
    pub times: Vec<[u64; 2]>,
    /// All are equally late.
    pub equal: bool,
}

pub fn sequence(rng: &mut Rng) -> Sequence {
    let equal = rng.chance(1, 8);
    // a long run of zeros takes smoothed below the normal numbers
    let zeros = if rng.chance(1, 256) { 8192 } else { rng.below(3) * rng.below(64) };
    let first = size(rng);
    let many = rng.below(48);
    let mut late: Vec<u64> = (0..many).map(|_| if equal { first } else { size(rng) }).collect();
    if !equal {
        late.extend((0..zeros).map(|_| 0));
        late.extend((0..rng.below(4)).map(|_| size(rng)));
    }
    let times = late.into_iter().map(|n| {
        let deadline = rng.next() >> rng.below(64);
        match deadline.checked_add(n) {
            // a deadline that lies ahead is not late
            Some(time) if n == 0 => [time - rng.below(time.saturating_add(1)), deadline],
            Some(time) => [time, deadline],
            None => [n, 0],
        }
    });
    Sequence {
        times: times.collect(),
        equal,
    }
}

/// A limit: one that is refused, one beside a number of the gauge, or any.
pub fn limit(rng: &mut Rng, numbers: (f64, f64)) -> f64 {
    let near = if rng.chance(1, 2) { numbers.0 } else { numbers.1 };
    match rng.below(8) {
        0 => rng.pick(&[f64::NAN, -f64::NAN, -1.0, f64::NEG_INFINITY, -f64::from_bits(1)]),
        1 => rng.pick(&[-0.0, 0.0, f64::INFINITY, f64::from_bits(1), MOST as f64]),
        2 | 3 => near,
        4 => near.next_up(),
        5 => near.next_down(),
        _ => f64::from_bits(rng.next()),
    }
}

/// Lines for the program: mostly right, some bad in one place, now and then one line or none.
pub fn lines(seed: u64) -> Vec<u8> {
    let mut rng = Rng::new(seed);
    let count = if rng.chance(1, 8) { rng.below(3) } else { 2 + rng.below(40) };
    let mut lines: Vec<String> = (0..count).map(|_| size(&mut rng).min(MOST).to_string()).collect();
    if rng.chance(1, 64) {
        lines.extend((0..8192).map(|_| "0".to_string()));
    }
    if rng.chance(1, 4) && !lines.is_empty() {
        let at = rng.below(lines.len() as u64) as usize;
        lines[at] = match rng.below(8) {
            0 => String::new(),
            1 => format!("0{}", lines[at]),
            2 => format!("-{}", lines[at]),
            3 => (MOST + 1 + rng.below(3)).to_string(),
            4 => format!("{} ", lines[at]),
            5 => format!("{}\r", lines[at]),
            6 => "1".repeat(19 + rng.below(200) as usize),
            _ => rng.pick(&["1.5", "x", "+1", "1e3", "18446744073709551616", " 1"]).to_string(),
        };
    }
    let mut text = lines.join("\n").into_bytes();
    if rng.chance(1, 2) && !lines.is_empty() {
        text.push(b'\n');
    }
    text
}
