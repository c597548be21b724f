//! What may happen to a journal: a cut at any byte, flipped bits, and entries dropped, doubled, swapped or changed.
use super::generator::{bytes, Asked};
use super::{entry, ENTRY};
use crate::rng::Rng;
use std::fmt;

#[derive(PartialEq, Eq)]
pub enum What {
    Whole,
    Cut(usize),
    /// The numbers of the bits, most significant first.
    Flipped(Vec<usize>),
    Edited(String),
}

/// The journal of a run: whole, cut at every so many bytes, and so many times each with flipped bits and edited.
pub fn each(
    seed: u64,
    run: &[Asked],
    every: usize,
    times: usize,
) -> impl Iterator<Item = (What, Vec<u8>)> {
    let whole = bytes(run);
    let rng = &mut Rng::new(seed ^ 0x9E37_79B9);
    let flips: Vec<_> = (0..times).filter_map(|_| flipped(rng, &whole)).collect();
    let edits: Vec<_> = (0..times).map(|_| edited(rng, &whole)).collect();
    let cut = whole.clone();
    // Another seed cuts at other bytes.
    let cuts = (seed as usize % every..whole.len()).step_by(every);
    [(What::Whole, whole), all_written(run)]
        .into_iter()
        .chain(cuts.map(move |at| (What::Cut(at), cut[..at].to_vec())))
        .chain(flips)
        .chain(edits)
}

/// Calls that get 1, 2 or 13 are written too.
fn all_written(run: &[Asked]) -> (What, Vec<u8>) {
    let steps = run.iter().filter_map(|asked| asked.step);
    let bytes = steps.flat_map(|step| step.bytes()).collect();
    (What::Edited("refused calls written".into()), bytes)
}

/// Mostly one bit, or two or three; half of them where a kind or zero stands, which are few.
fn flipped(rng: &mut Rng, whole: &[u8]) -> Option<(What, Vec<u8>)> {
    let entries = whole.len() / ENTRY;
    if entries == 0 {
        return None;
    }
    let mut bytes = whole.to_vec();
    let mut bits = vec![];
    for _ in 0..rng.pick(&[1, 1, 1, 2, 3]) {
        let within = rng.pick(&[4, 16, 8 * ENTRY, 8 * ENTRY]);
        let bit =
            8 * ENTRY * rng.below(entries as u64) as usize + rng.below(within as u64) as usize;
        bytes[bit / 8] ^= 128 >> (bit % 8);
        bits.push(bit);
    }
    Some((What::Flipped(bits), bytes))
}

fn edited(rng: &mut Rng, whole: &[u8]) -> (What, Vec<u8>) {
    let mut entries: Vec<Vec<u8>> = whole.chunks(ENTRY).map(<[u8]>::to_vec).collect();
    let at = rng.below(entries.len() as u64 + 1) as usize;
    let what = match rng.below(6) {
        _ if at == entries.len() => put(rng, &mut entries, at),
        0 => {
            entries.remove(at);
            "dropped"
        }
        1 => {
            entries.insert(at, entries[at].clone());
            "doubled"
        }
        2 => {
            let other = rng.below(entries.len() as u64) as usize;
            entries.swap(at, other);
            "swapped"
        }
        3 => {
            entries[at][0] = (rng.below(16) as u8) << 4;
            "of another kind"
        }
        4 => {
            let from = rng.pick(&[2, 10]);
            entries[at][from..from + 8].fill(0);
            "with a field of 0"
        }
        _ => put(rng, &mut entries, at),
    };
    let mut bytes = entries.concat();
    let mut what = format!("entry {at} {what}");
    if rng.chance(1, 4) {
        bytes.truncate(rng.below(bytes.len() as u64 + 1) as usize);
        what += &format!(" and cut at {}", bytes.len());
    }
    (What::Edited(what), bytes)
}

/// A stranger of any kind.
fn put(rng: &mut Rng, entries: &mut Vec<Vec<u8>>, at: usize) -> &'static str {
    let any = rng.next();
    let first = rng.pick(&[0, 0, 1, 2, 65_536, u64::MAX, any]);
    let second = rng.pick(&[0, 0, 0, 1, 1 << 48, any]);
    entries.insert(at, entry(rng.below(16) as u16, first, second));
    "put in"
}

impl fmt::Display for What {
    fn fmt(&self, f: &mut fmt::Formatter<'_>) -> fmt::Result {
        match self {
            What::Whole => write!(f, "whole"),
            What::Cut(at) => write!(f, "cut at {at}"),
            What::Flipped(bits) => write!(f, "bits {bits:?} flipped"),
            What::Edited(what) => write!(f, "{what}"),
        }
    }
}
