//! Our gauge against Rust's own f64: every bit of smoothed and worst, and the reading at two limits.
use oracle::gauge::{lateness, limit, sequence, Gauge, Light};
use oracle::rng::Rng;
use std::time::Instant;

use crate::ours::raw::{ngawdrelo_gauge_note, ngawdrelo_gauge_read, LIGHT_NO, OUT};

/// Our gauge after hand-outs, each a poll's time and a deadline, read at two limits: 0 calm, 1 slow, 2 late or the number of the refusal; the bits of what the
/// light carries, of smoothed and of worst.
fn ours(times: &[[u64; 2]], slow: f64, late: f64) -> [u64; 4] {
    let (mut smoothed, mut worst, mut any, mut light, mut value) = (0.0, 0.0, 0, [u64::MAX; 2], 0.0);
    // SAFETY: every pointer is to a word, or words, of our own.
    unsafe {
        for &[time, deadline] in times {
            ngawdrelo_gauge_note(&mut smoothed, &mut worst, &mut any, time, &[OUT, 0, 0, deadline, 0, 0]);
        }
        ngawdrelo_gauge_read(&smoothed, &worst, &any, slow, late, &mut light, &mut value);
    }
    let shown = if light[0] == LIGHT_NO { light[1] } else { light[0] };
    [shown, value.to_bits(), smoothed.to_bits(), worst.to_bits()]
}

/// Sequences of the seeds FROM to TO, one each. Says whether all agree.
pub fn compare(from: u64, to: u64) -> bool {
    let start = Instant::now();
    let (mut handed, mut equal, mut denormal, mut lights) = (0, 0, 0, [0u64; 4]);
    for seed in from..=to {
        let mut rng = Rng::new(seed);
        let given = sequence(&mut rng);
        let mut gauge = Gauge::default();
        for [time, deadline] in &given.times {
            gauge.note(lateness(*time, *deadline));
        }
        let numbers = gauge.numbers();
        let (slow, late) = (limit(&mut rng, numbers), limit(&mut rng, numbers));
        let reading = match gauge.read(slow, late) {
            Ok(Light::Calm) => [0, 0],
            Ok(Light::Slow(x)) => [1, x.to_bits()],
            Ok(Light::Late(x)) => [2, x.to_bits()],
            Err(number) => [number, 0],
        };
        let expected = [reading[0], reading[1], numbers.0.to_bits(), numbers.1.to_bits()];
        let told = ours(&given.times, slow, late);
        if told != expected {
            println!("gauge seed {seed}: limits {slow:?} {late:?}, times and deadlines {:?}", given.times);
            println!("  expected: {expected:x?}\n  got:      {told:x?}");
            return false;
        }
        if let Some([time, deadline]) = given.times.first().filter(|_| given.equal) {
            assert_eq!(numbers.0.to_bits(), lateness(*time, *deadline).to_bits(), "seed {seed}: all are equal");
            equal += 1;
        }
        handed += given.times.len();
        denormal += numbers.0.is_subnormal() as u64;
        lights[reading[0].min(3) as usize] += 1;
    }
    let [calm, slow, late, refused] = lights;
    println!("gauge seeds {from}..{to}: {handed} hand-outs; {calm} calm, {slow} slow, {late} late, {refused} refused");
    println!("  smoothed below the normal numbers {denormal}, all latenesses equal {equal}");
    println!("  0 differences, {} s", start.elapsed().as_secs());
    true
}
