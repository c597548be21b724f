//! The numbers and the arithmetic that the rules of the queue speak of.

/// How many milliseconds a slot spans at each level.
pub const WIDTHS: [u64; 6] = [1, 64, 4096, 262_144, 16_777_216, 1_073_741_824];
/// The height of a parked timer, and what the parking list spans: a block.
pub const PARKED: usize = WIDTHS.len();
pub const SLOTS: usize = 64;
/// The places of the parking list and of the expired stack, after the slots; slot s of level k is 64 k + s.
pub const PARKING: usize = WIDTHS.len() * SLOTS;
pub const EXPIRED: usize = PARKING + 1;
/// A deadline lies in elapsed's block of 2^36 milliseconds, or in the next, where it is parked (02 [12]).
pub const BLOCK_BITS: u32 = 36;
/// The farthest that a deadline may lie ahead of elapsed.
pub const FARTHEST: u64 = 68_719_476_735;
/// The farthest that a deadline may lie below elapsed: an hour (02 [8]).
pub const OLDEST: u64 = 3_600_000;
/// The most records that a store may have: the numbers below 65,535, which means nobody.
pub const MOST_RECORDS: u64 = 65_535;
/// The bench has room for so many.
pub const BENCH_ROOM: u64 = 1024;
pub const LAST_TURN: u64 = (1 << 48) - 1;

/// The greatest k with different quotients, 0 if none: by division, where the original counts
/// leading zeros, so that the two can be held against each other.
pub fn level(elapsed: u64, deadline: u64) -> usize {
    (0..WIDTHS.len())
        .rev()
        .find(|&k| elapsed / WIDTHS[k] != deadline / WIDTHS[k])
        .unwrap_or(0)
}

/// The level, or that of the parking list for a deadline in another block than elapsed's.
pub fn height(elapsed: u64, deadline: u64) -> usize {
    if block(elapsed) == block(deadline) {
        level(elapsed, deadline)
    } else {
        PARKED
    }
}

/// What a slot of this height spans, or the parking list.
pub fn width(height: usize) -> u64 {
    WIDTHS.get(height).copied().unwrap_or(1 << BLOCK_BITS)
}

/// Where the next block starts.
pub fn block_end(elapsed: u64) -> u64 {
    (block(elapsed) + 1) << BLOCK_BITS
}

pub fn slot(level: usize, deadline: u64) -> usize {
    (deadline / WIDTHS[level] % SLOTS as u64) as usize
}

pub fn block(time: u64) -> u64 {
    time >> BLOCK_BITS
}

pub fn key(turn: u64, record: usize) -> u64 {
    turn << 16 | record as u64
}

/// The turn and the record number that a key names.
pub fn unpack(key: u64) -> (u64, usize) {
    (key >> 16, (key & 0xffff) as usize)
}
