//! Journals: what our recovery reads in the bytes, held against the second reading.
use crate::contents::parts;
use crate::ours;
use crate::wrong::{is_due, make, STORE_WORDS};
use oracle::journal::compare::{Recovers, Said};
use oracle::journal::recovered::{show, Parts};
use oracle::journal::Damage;
use oracle::rng::Rng;
use oracle::rules::MOST_RECORDS;

/// What is told of a journal, and what a store holds.
pub const WORDS: usize = TOLD.len() + STORE_WORDS;
const TOLD: [&str; 4] = ["length kept", "place", "ending", "number"];
/// So many records are made dirty anew before each journal. The others hold what was there at first, or a journal left.
const DIRTY: usize = 256;

/// Our recovery, with all that it says: the length kept, where it stopped and why, and the store, in slices that hold no store. Of a
/// store with a timer in a slot, or a parked one if it is its word, one bit of this word is made wrong, to see that it is found.
pub fn recovers(wrong: Option<usize>) -> Recovers {
    let mut ours = ours::Store::room(MOST_RECORDS as usize);
    let mut rng = Rng::new(9);
    dirty(&mut ours, MOST_RECORDS as usize, &mut rng);
    Box::new(move |journal| {
        dirty(&mut ours, DIRTY, &mut rng);
        let mut told = ours.replay(journal);
        match wrong {
            Some(word) if ours.tops[ours::N] > 0 && is_due(word.saturating_sub(TOLD.len()), &ours) => match told.get_mut(word) {
                Some(told) => *told ^= 1,
                None => make(word - told.len(), &mut ours),
            },
            _ => (),
        }
        Ok(Said {
            text: text_of(told, &ours).into_bytes(),
            at: Some(told[1] as usize),
        })
    })
}

pub fn name(word: usize) -> String {
    match word.checked_sub(TOLD.len()) {
        None => format!("the {}", TOLD[word]),
        Some(word) => crate::wrong::name(word),
    }
}

/// State, heads, and the words of the first records.
fn dirty(ours: &mut ours::Store, records: usize, rng: &mut Rng) {
    let mut word = || rng.next() >> (rng.next() % 64);
    (ours.elapsed, ours.hand, ours.until) = (word(), word() as u16, word());
    ours.occupied.fill_with(&mut word);
    for words in [
        &mut ours.values[..2 * records],
        &mut ours.deadlines[..records],
        &mut ours.turns[..records],
    ] {
        words.fill_with(&mut word);
    }
    let slices = [
        &mut ours.nexts[..records],
        &mut ours.prevs[..records],
        &mut ours.marks[..records],
        &mut ours.tops[..],
    ];
    for words in slices
        .into_iter()
        .chain(ours.heads.iter_mut().map(|row| &mut row[..]))
    {
        words.fill_with(|| word() as u16);
    }
}

/// The text of our words; what is odd in them stands in its place.
fn text_of([kept, _, ending, number]: ours::Told, ours: &ours::Store) -> String {
    let show = |parts: Option<&Parts>| match damage([ending, number]) {
        Ok(damage) => show(kept as usize, damage, parts),
        Err(odd) => odd,
    };
    match parts(ours) {
        _ if ours.tops[ours::N] == 0 => show(None),
        Ok(parts) => show(Some(&parts)),
        Err(odd) => format!("{odd}\n"),
    }
}

fn damage(words: [u64; 2]) -> Result<Option<Damage>, String> {
    match words {
        [0, 0] => Ok(None),
        [1, 0] => Ok(Some(Damage::Kind)),
        [2, 0] => Ok(Some(Damage::Zero)),
        [3, 0] => Ok(Some(Damage::Pair)),
        [4, number @ (1 | 2 | 13)] => Ok(Some(Damage::Refused(number as u8))),
        _ => Err(format!("an ending in words {words:?}\n")),
    }
}
