//! One word of ours made wrong, to see that the comparison finds it.
use crate::ours::{self, Answer, Store};

/// The six words of an answer, and those of a store.
pub const WORDS: usize = 6 + STORE_WORDS;
/// The words of the state (elapsed, the occupied bits, `tops`, the place in hand and the time of its poll), the head of a slot, and seven words of its record and of a parked one.
pub const STORE_WORDS: usize = PARKED_WORDS + NAMES.len();
const STATE_WORDS: usize = 13;
const SLOT_WORDS: usize = STATE_WORDS + 1;
const PARKED_WORDS: usize = SLOT_WORDS + NAMES.len();
/// The words of the state that are the heads of the free list and of the parking list, and the poll in hand.
const FREE: usize = 7 + ours::FREE;
const PARKING: usize = 7 + ours::PARKING;
const HAND: usize = 11;
const UNTIL: usize = 12;
const NOBODY: u16 = 65535;
const NAMES: [&str; 7] = ["value", "period", "deadline", "next", "prev", "turn", "mark"];
/// Not before so many commands.
const FROM: usize = 300;

#[derive(Clone, Copy)]
pub struct Wrong(usize);

impl Wrong {
    pub fn new(word: usize) -> Option<Wrong> {
        (word < WORDS).then_some(Wrong(word))
    }

    pub fn name(self) -> String {
        match self.0 {
            word @ 0..6 => format!("word {word} of an answer"),
            word => name(word - 6),
        }
    }

    /// The free list is compared only before a format and at the end.
    pub fn is_seen_later(self) -> bool {
        self.0 == 6 + FREE
    }

    /// The words of a poll in hand are made wrong while one is.
    pub fn is_due(self, commands: usize, store: &Store) -> bool {
        let in_hand = store.hand != NOBODY;
        let word = self.0.saturating_sub(6);
        commands >= FROM && is_due(word, store) && (in_hand || !matches!(word, HAND | UNTIL))
    }

    pub fn make(self, answers: &mut [Answer], store: &mut Store) {
        match self.0 {
            word @ 0..6 => answers[answers.len() / 2][word] ^= 1,
            word => make(word - 6, store),
        }
    }
}

/// The name of a word of a store.
pub fn name(word: usize) -> String {
    match word {
        0..STATE_WORDS => format!("word {word} of the state"),
        STATE_WORDS => "the head of a slot".to_string(),
        SLOT_WORDS..PARKED_WORDS => format!("the {} of a timer in a slot", NAMES[word - SLOT_WORDS]),
        _ => format!("the {} of a parked timer", NAMES[word - PARKED_WORDS]),
    }
}

/// A slot is not empty, or a timer is parked where it is that one's word.
pub fn is_due(word: usize, store: &Store) -> bool {
    match word {
        PARKING | PARKED_WORDS.. => store.tops[ours::PARKING] != NOBODY,
        _ => slot(store).is_some(),
    }
}

/// Its last bit is another then.
pub fn make(word: usize, store: &mut Store) {
    match word {
        0 => store.elapsed ^= 1,
        1..7 => store.occupied[word - 1] ^= 1,
        7..HAND => store.tops[word - 7] ^= 1,
        HAND => store.hand ^= 1,
        UNTIL => store.until ^= 1,
        _ => make_record(word, store),
    }
}

fn make_record(word: usize, store: &mut Store) {
    let (record, word) = match word.checked_sub(PARKED_WORDS) {
        Some(word) => (usize::from(store.tops[ours::PARKING]), word),
        None => {
            let (level, slot) = slot(store).expect("is due");
            if word == STATE_WORDS {
                store.heads[level][slot] ^= 1;
                return;
            }
            (usize::from(store.heads[level][slot]), word - SLOT_WORDS)
        }
    };
    match word {
        0 => store.values[2 * record] ^= 1,
        1 => store.values[2 * record + 1] ^= 1,
        2 => store.deadlines[record] ^= 1,
        3 => store.nexts[record] ^= 1,
        4 => store.prevs[record] ^= 1,
        5 => store.turns[record] ^= 1,
        _ => store.marks[record] ^= 1,
    }
}

/// The first slot that is not empty.
fn slot(store: &Store) -> Option<(usize, usize)> {
    let level = store.occupied.iter().position(|&row| row != 0)?;
    Some((level, store.occupied[level].trailing_zeros() as usize))
}
