//! Journals with what is to be read in them, written by hand and not by this program.
use super::{entry, ENTRY};

pub struct Case {
    /// First word (kind and zeros), first field, second field.
    entries: &'static [(u16, u64, u64)],
    /// So many bytes are gone at the end.
    gone: usize,
    /// The length kept, and the damage.
    kept: usize,
    damage: &'static str,
    store: &'static str,
}

impl Case {
    pub fn journal(&self) -> Vec<u8> {
        let each = |&(head, first, second): &(u16, u64, u64)| {
            let mut bytes = entry(0, first, second);
            bytes[..2].copy_from_slice(&head.to_be_bytes());
            bytes
        };
        let mut bytes: Vec<u8> = self.entries.iter().flat_map(each).collect();
        bytes.truncate(ENTRY * self.entries.len() - self.gone);
        bytes
    }

    pub fn text(&self) -> String {
        format!("kept {}\ndamage {}\n{}", self.kept, self.damage, self.store)
    }
}

const NONE: &str = "store none\n";
/// After `f 1 1`.
const ONE: &str = "store 1 0\nfree 0..0\nretired\nrec 0..0 turn 1 value 0 deadline 0 period 0\n";
/// After `i 7 70 0` too.
const SET: &str =
    "store 1 0\nfree\nretired\nslot 1 1 0\nrec 0..0 turn 1 value 7 deadline 70 period 0\n";
/// With a period of 40.
const PUMP: &str =
    "store 1 0\nfree\nretired\nslot 1 1 0\nrec 0..0 turn 1 value 7 deadline 70 period 40\n";
/// After `f 2 5`.
const TWO: &str = "store 2 0\nfree 0..1\nretired\nrec 0..1 turn 5 value 0 deadline 0 period 0\n";

/// With a poll at 70 in hand, before its only move.
const HELD: &str =
    "store 1 0\nhand 70 1 1\nfree\nretired\nslot 1 1 0\nrec 0..0 turn 1 value 7 deadline 70 period 0\n";
/// After `f 1 1`, `i 7 70 0` and a clear.
const CLEARED: &str = "store 1 0\nfree 0..0\nretired\nrec 0..0 turn 2 value 7 deadline 70 period 0\n";

/// Where the second block starts.
const BLOCK: u64 = 68_719_476_736;
const FORMAT: (u16, u64, u64) = (0x1000, 1, 1);
const INSERT: (u16, u64, u64) = (0x2000, 7, 70);
const OPEN: (u16, u64, u64) = (0x7000, 0, 0);
const CLOSE: (u16, u64, u64) = (0x8000, 0, 0);
const NINE: (u16, u64, u64) = (0x9000, 7, 70);
const TEN: (u16, u64, u64) = (0xA000, 40, 0);
const ELEVEN: (u16, u64, u64) = (0xB000, 70, 0);

const fn case(
    entries: &'static [(u16, u64, u64)],
    gone: usize,
    kept: usize,
    damage: &'static str,
    store: &'static str,
) -> Case {
    Case {
        entries,
        gone,
        kept,
        damage,
        store,
    }
}

pub const CASES: [Case; 66] = [
    case(&[], 0, 0, "-", NONE),
    case(&[FORMAT], 0, 18, "-", ONE),
    case(
        &[(0x1000, 3, 1 << 40)],
        0,
        18,
        "-",
        "store 3 0\nfree 0..2\nretired\nrec 0..2 turn 1099511627776 value 0 deadline 0 period 0\n",
    ),
    case(
        &[
            (0x1000, 5, 281_474_976_710_655),
            (0x2000, 1, 0),
            (0x2000, 2, 0),
            (0x2000, 3, 70),
            (0x2000, 4, 70),
            (0x2000, 5, 5),
            (0x4000, 18_446_744_073_709_486_084, 0),
        ],
        0,
        126,
        "-",
        "store 5 0\nfree\nretired 4..4\nexpired 0 1\nslot 1 1 2 3\n\
         rec 0..0 turn 281474976710655 value 1 deadline 0 period 0\n\
         rec 1..1 turn 281474976710655 value 2 deadline 0 period 0\n\
         rec 2..2 turn 281474976710655 value 3 deadline 70 period 0\n\
         rec 3..3 turn 281474976710655 value 4 deadline 70 period 0\n\
         rec 4..4 turn 281474976710655 value 5 deadline 5 period 0\n",
    ),
    case(
        &[(0x1000, 65_535, 1)],
        0,
        18,
        "-",
        "store 65535 0\nfree 0..65534\nretired\nrec 0..65534 turn 1 value 0 deadline 0 period 0\n",
    ),
    // Removed in the order 0, 2: taken again in the order 2, 0, and 3 after them. A slot of the last level.
    case(
        &[
            (0x1000, 4, 1),
            (0x2000, 9, 0),
            (0x2000, 9, 0),
            (0x2000, 9, 0),
            (0x4000, 65_536, 0),
            (0x4000, 65_538, 0),
            (0x5000, 5, 0),
            (0x5000, 5, 0),
            (0x2000, 8, 1_073_741_824),
        ],
        0,
        162,
        "-",
        "store 4 5\nfree 2..2 0..0 3..3\nretired\nslot 5 1 1\n\
         rec 0..0 turn 2 value 9 deadline 0 period 0\nrec 1..1 turn 2 value 8 deadline 1073741824 period 0\n\
         rec 2..2 turn 2 value 9 deadline 0 period 0\nrec 3..3 turn 1 value 0 deadline 0 period 0\n",
    ),
    // Cuts, whatever the part holds.
    case(&[FORMAT], 1, 0, "-", NONE),
    case(&[FORMAT], 17, 0, "-", NONE),
    case(&[FORMAT, INSERT], 1, 18, "-", ONE),
    case(&[FORMAT, (0xF000, 0, 0)], 1, 18, "-", ONE),
    case(&[FORMAT, (0x7FFF, 1, 1)], 1, 18, "-", ONE),
    case(&[FORMAT, TEN], 1, 18, "-", ONE),
    case(&[FORMAT, CLOSE], 1, 18, "-", ONE),
    case(&[FORMAT, NINE], 0, 18, "-", ONE),
    case(&[FORMAT, NINE, TEN], 1, 18, "-", ONE),
    case(&[FORMAT, NINE, (0xF000, 0, 0)], 1, 18, "-", ONE),
    case(&[FORMAT, NINE, TEN], 0, 54, "-", PUMP),
    // Bad kinds.
    case(&[(0, 0, 0)], 0, 0, "kind", NONE),
    case(&[FORMAT, (0xC000, 0, 0), INSERT], 0, 18, "kind", ONE),
    case(&[FORMAT, (0xFFFF, 1, 1)], 0, 18, "kind", ONE),
    case(&[FORMAT, NINE, (0, 40, 0)], 0, 18, "kind", ONE),
    // Zeros.
    case(&[(0x1001, 1, 1)], 0, 0, "zero", NONE),
    case(&[FORMAT, (0x2800, 7, 70)], 0, 18, "zero", ONE),
    case(&[FORMAT, (0x4000, 65_536, 1)], 0, 18, "zero", ONE),
    case(&[FORMAT, (0x5000, 5, 1 << 63)], 0, 18, "zero", ONE),
    case(&[FORMAT, (0x6000, 1, 0)], 0, 18, "zero", ONE),
    case(&[FORMAT, (0x7000, 0, 1)], 0, 18, "zero", ONE),
    case(&[FORMAT, (0x8000, 1, 0)], 0, 18, "zero", ONE),
    case(&[FORMAT, (0x9001, 7, 70)], 0, 18, "zero", ONE),
    case(&[FORMAT, (0xA000, 40, 1)], 0, 18, "zero", ONE),
    case(&[FORMAT, NINE, (0xA000, 0, 1)], 0, 18, "zero", ONE),
    case(&[FORMAT, NINE, (0x7000, 0, 1)], 0, 18, "zero", ONE),
    // Pairs.
    case(&[FORMAT, NINE, (0xA000, 0, 0)], 0, 18, "pair", ONE),
    case(&[FORMAT, NINE, INSERT], 0, 18, "pair", ONE),
    case(&[FORMAT, NINE, NINE, TEN], 0, 18, "pair", ONE),
    case(&[FORMAT, TEN], 0, 18, "pair", ONE),
    case(&[TEN], 0, 0, "pair", NONE),
    // Calls that get 1, 2 or 13.
    case(&[FORMAT, INSERT, (0x1000, 0, 0)], 0, 36, "refused-1", SET),
    case(&[(0x1000, 65_536, 1)], 0, 0, "refused-1", NONE),
    case(&[(0x1000, 1, 0), INSERT], 0, 18, "refused-2", NONE),
    case(&[NINE, TEN], 0, 0, "refused-2", NONE),
    case(&[FORMAT, CLOSE], 0, 18, "refused-13", ONE),
    case(&[FORMAT, OPEN, INSERT, OPEN, CLOSE], 0, 18, "refused-13", ONE),
    // Patches, and formats that get 8.
    case(&[FORMAT, OPEN, INSERT], 0, 18, "-", ONE),
    case(&[FORMAT, OPEN, INSERT, CLOSE], 0, 72, "-", SET),
    case(&[FORMAT, OPEN, INSERT, CLOSE, OPEN, (0x1000, 2, 5), CLOSE], 0, 126, "-", TWO),
    case(&[FORMAT, INSERT, OPEN, (0x1000, 2, 5)], 0, 36, "-", SET),
    case(&[FORMAT, INSERT, OPEN, (0x1000, 2, 5), (0x4000, 0, 1)], 0, 36, "zero", SET),
    case(&[FORMAT, INSERT, (0x1000, 2, 0), (0x1000, 2, 1 << 48)], 0, 72, "-", SET),
    // Polls with a limit: in hand, also behind calls that get 12 and a format that gets 8; ended by the last move, by clear, by format.
    case(&[FORMAT, INSERT, ELEVEN], 0, 54, "-", HELD),
    case(&[FORMAT, INSERT, ELEVEN, (0x1000, 1, 0), ELEVEN, (0x5000, 71, 0), INSERT], 0, 126, "-", HELD),
    case(&[FORMAT, INSERT, ELEVEN, OPEN, (0x6000, 0, 0)], 0, 54, "-", HELD),
    case(&[FORMAT, INSERT, ELEVEN, (0x6000, 0, 0)], 0, 72, "-", CLEARED),
    case(&[FORMAT, INSERT, ELEVEN, (0x1000, 2, 5)], 0, 72, "-", TWO),
    case(
        &[FORMAT, INSERT, ELEVEN, (0xB000, 70, 1)],
        0,
        72,
        "-",
        "store 1 64\nfree 0..0\nretired\nrec 0..0 turn 2 value 7 deadline 70 period 0\n",
    ),
    // Inside a drain, and between two: elapsed stays inside.
    case(
        &[(0x1000, 2, 1), (0x2000, 1, 4101), (0x2000, 2, 4101), (0xB000, 4101, 1)],
        0,
        72,
        "-",
        "store 2 0\nhand 4101 2 1\nfree\nretired\nslot 1 0 0\nslot 2 1 1\n\
         rec 0..0 turn 1 value 1 deadline 4101 period 0\nrec 1..1 turn 1 value 2 deadline 4101 period 0\n",
    ),
    case(
        &[(0x1000, 2, 1), (0x2000, 1, 4101), (0x2000, 2, 4101), (0xB000, 4101, 2)],
        0,
        72,
        "-",
        "store 2 4096\nhand 4101 1 0\nfree\nretired\nslot 1 0 0 1\n\
         rec 0..0 turn 1 value 1 deadline 4101 period 0\nrec 1..1 turn 1 value 2 deadline 4101 period 0\n",
    ),
    case(&[FORMAT, INSERT, (0xB001, 70, 0)], 0, 36, "zero", SET),
    case(&[FORMAT, NINE, ELEVEN], 0, 18, "pair", ONE),
    case(&[ELEVEN], 0, 0, "refused-2", NONE),
    case(&[FORMAT, INSERT, ELEVEN], 1, 36, "-", SET),
    // Past the block end: too far at 0, parked from 1 on; the parking list in hand before its first move, inside its drain, and behind it.
    case(&[FORMAT, (0x2000, 7, BLOCK)], 0, 36, "-", ONE),
    case(
        &[FORMAT, (0x5000, 1, 0), (0x2000, 7, BLOCK)],
        0,
        54,
        "-",
        "store 1 1\nfree\nretired\nparked 0\nrec 0..0 turn 1 value 7 deadline 68719476736 period 0\n",
    ),
    case(
        &[FORMAT, (0x5000, 1, 0), (0x2000, 7, BLOCK), (0xB000, BLOCK, 0)],
        0,
        72,
        "-",
        "store 1 1\nhand 68719476736 6 0\nfree\nretired\nparked 0\nrec 0..0 turn 1 value 7 deadline 68719476736 period 0\n",
    ),
    case(
        &[(0x1000, 2, 1), (0x5000, 9, 0), (0x2000, 1, BLOCK + 5), (0x2000, 2, BLOCK), (0xB000, BLOCK + 7, 1)],
        0,
        90,
        "-",
        "store 2 9\nhand 68719476743 6 0\nfree\nretired\nslot 5 0 0\nparked 1\n\
         rec 0..0 turn 1 value 1 deadline 68719476741 period 0\nrec 1..1 turn 1 value 2 deadline 68719476736 period 0\n",
    ),
    case(
        &[(0x1000, 2, 1), (0x5000, 9, 0), (0x2000, 1, BLOCK + 5), (0x2000, 2, BLOCK), (0xB000, BLOCK + 7, 2)],
        0,
        90,
        "-",
        "store 2 68719476736\nhand 68719476743 5 0\nfree\nretired\nslot 5 0 0 1\n\
         rec 0..0 turn 1 value 1 deadline 68719476741 period 0\nrec 1..1 turn 1 value 2 deadline 68719476736 period 0\n",
    ),
];
