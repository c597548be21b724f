//! Every small store with a poll in hand, by brute force: our judge calls it sound exactly if a poll with a limit, from a store that it calls
//! sound with no poll in hand, leaves it (02 [10], "exactly the states that the rules of the poll in hand pass through").
use crate::ours::{self, N, NOT_YET, POLL_SOME};
use oracle::rules::{block, slot, EXPIRED, PARKED, PARKING, SLOTS, WIDTHS};
use std::collections::{BTreeMap, BTreeSet, HashSet};

const NOBODY: u16 = 65_535;

/// Times about the starts of slots: from 0 on, from a block's start on, up to its last level, and about two block's starts, so that some are parked
/// while others are not. Of three timers the first six are tried.
const FAMILIES: [[u64; 8]; 3] = [
    [0, 64, 65, 4095, 4096, 4160, 1, 128],
    [
        1 << 36,
        (1 << 36) + 64,
        (1 << 36) + 4096,
        (1 << 36) + 4160,
        (1 << 36) + (1 << 30),
        (1 << 36) + (1 << 30) + 65,
        (1 << 36) + 1,
        (1 << 36) + (1 << 30) + (1 << 24),
    ],
    [
        (1 << 36) - 64,
        (1 << 36) - 1,
        1 << 36,
        (1 << 36) + 65,
        1 << 37,
        (1 << 37) + (1 << 30),
        (1 << 36) + (1 << 24),
        (1 << 37) - 1,
    ],
];

/// The lists that are not empty, by place, records head first.
type Lists = Vec<(usize, Vec<usize>)>;

/// All of a store of such timers but their deadlines.
#[derive(Clone, PartialEq, Eq, Hash, Debug)]
struct State {
    elapsed: u64,
    hand: u16,
    until: u64,
    lists: Lists,
}

#[derive(Default)]
struct Counted {
    tried: u64,
    sound: u64,
    at_rest: u64,
}

/// All stores of up to so many timers. Says whether those judged sound are those reached.
pub fn compare(most: usize) -> bool {
    let mut same = true;
    for timers in 1..=most {
        let mut counted = Counted::default();
        for times in FAMILIES
            .iter()
            .map(|times| &times[..if timers < 3 { 8 } else { 6 }])
        {
            let mut deadlines = vec![];
            same &= each_multiset(times, timers, &mut deadlines, &mut |deadlines| {
                judged_is_reached(deadlines, times, &mut counted)
            });
        }
        let Counted {
            tried,
            sound,
            at_rest,
        } = counted;
        println!("{timers} timers: {tried} stores with a poll in hand judged, {sound} sound, reached from {at_rest} sound ones at rest");
    }
    same
}

/// Deadlines in rising order, with equals.
fn each_multiset(
    times: &[u64],
    left: usize,
    deadlines: &mut Vec<u64>,
    take: &mut impl FnMut(&[u64]) -> bool,
) -> bool {
    if left == 0 {
        return take(deadlines);
    }
    (0..times.len()).all(|first| {
        deadlines.push(times[first]);
        let same = each_multiset(&times[first..], left - 1, deadlines, take);
        deadlines.pop();
        same
    })
}

fn judged_is_reached(deadlines: &[u64], times: &[u64], counted: &mut Counted) -> bool {
    let mut store = ours::Store::room(deadlines.len());
    let (clocks, places, all_lists) = (
        clocks(deadlines, times),
        places(deadlines),
        all_lists(deadlines),
    );
    let mut reached = HashSet::new();
    for (&elapsed, lists) in clocks
        .iter()
        .flat_map(|e| all_lists.iter().map(move |l| (e, l)))
    {
        let rest = State {
            elapsed,
            hand: NOBODY,
            until: 0,
            lists: lists.clone(),
        };
        write(&mut store, deadlines, &rest);
        if store.judge() {
            counted.at_rest += 1;
            reach(&mut store, deadlines, times, &rest, &mut reached);
        }
    }
    let mut sound = 0;
    for (&elapsed, lists) in clocks
        .iter()
        .flat_map(|e| all_lists.iter().map(move |l| (e, l)))
    {
        let mut state = State {
            elapsed,
            hand: 0,
            until: 0,
            lists: lists.clone(),
        };
        write(&mut store, deadlines, &state);
        for (&hand, &until) in places
            .iter()
            .flat_map(|p| times.iter().map(move |t| (p, t)))
        {
            (state.hand, state.until) = (hand, until);
            (store.hand, store.until) = (hand, until);
            counted.tried += 1;
            if store.judge() {
                sound += 1;
                if !reached.contains(&state) {
                    println!("judged sound, but not reached: deadlines {deadlines:?}, {state:?}");
                    return false;
                }
            }
        }
    }
    counted.sound += sound;
    if sound != reached.len() as u64 {
        println!(
            "{} stores are reached, but {sound} are judged sound: deadlines {deadlines:?}",
            reached.len()
        );
    }
    sound == reached.len() as u64
}

/// The stores that polls with a limit leave with "not yet": at each time, with each limit up to all heights.
fn reach(
    store: &mut ours::Store,
    deadlines: &[u64],
    times: &[u64],
    rest: &State,
    reached: &mut HashSet<State>,
) {
    for &now in times {
        for limit in 0..=(PARKED * deadlines.len()) as u64 {
            write(store, deadlines, rest);
            if store.call([POLL_SOME, now, limit, 0])[0] != NOT_YET {
                break;
            }
            reached.insert(read(store));
        }
    }
}

/// The times, and every start of a slot that a deadline lies in, with the millisecond before it; in the deadlines' blocks and the one before.
fn clocks(deadlines: &[u64], times: &[u64]) -> BTreeSet<u64> {
    let mut clocks: BTreeSet<u64> = times.iter().copied().collect();
    for (deadline, width) in deadlines.iter().flat_map(|&d| WIDTHS.map(|w| (d, w))) {
        let start = deadline / width * width;
        clocks.extend([start, start.saturating_sub(1)]);
    }
    let first = block(deadlines[0]).saturating_sub(1);
    clocks.retain(|&clock| block(clock) >= first);
    clocks
}

/// What the word of the place in hand is tried with: every deadline's slot of each level, of less than three timers also the ones beside, the
/// parking list, and what cannot be in hand. Of a single timer every place.
fn places(deadlines: &[u64]) -> Vec<u16> {
    let others = [PARKING as u16, EXPIRED as u16, EXPIRED as u16 + 1, NOBODY - 1];
    if deadlines.len() == 1 {
        return (0..PARKING as u16).chain(others).collect();
    }
    let own = deadlines
        .iter()
        .flat_map(|&deadline| (0..WIDTHS.len()).map(move |k| SLOTS * k + slot(k, deadline)));
    let beside = usize::from(deadlines.len() < 3);
    let own: BTreeSet<u16> = own
        .flat_map(|place| [place, (place + beside) % PARKING])
        .map(|place| place as u16)
        .collect();
    own.into_iter().chain(others).collect()
}

/// Every timer in its slot of each level, on the parking list or on the expired stack, and of less than three also in the slot beside; each list
/// in every order.
fn all_lists(deadlines: &[u64]) -> Vec<Lists> {
    let mut all: Vec<BTreeMap<usize, Vec<usize>>> = vec![BTreeMap::new()];
    for (record, &deadline) in deadlines.iter().enumerate() {
        let mut here: BTreeSet<usize> = (0..WIDTHS.len()).map(|k| SLOTS * k + slot(k, deadline)).collect();
        if deadlines.len() < 3 {
            here.extend(here.clone().iter().map(|place| (place + 1) % PARKING));
        }
        here.extend([PARKING, EXPIRED]);
        let mut more = vec![];
        for (lists, place) in all.iter().flat_map(|l| here.iter().map(move |p| (l, *p))) {
            let length = lists.get(&place).map_or(0, Vec::len);
            for at in 0..=length {
                let mut lists = lists.clone();
                lists.entry(place).or_default().insert(at, record);
                more.push(lists);
            }
        }
        all = more;
    }
    all.into_iter()
        .map(|lists| lists.into_iter().collect())
        .collect()
}

/// The words of such a store, all of whose records are pending at turn 1.
fn write(store: &mut ours::Store, deadlines: &[u64], state: &State) {
    (store.elapsed, store.hand, store.until) = (state.elapsed, state.hand, state.until);
    store.occupied = [0; 6];
    store.tops = [NOBODY; 4];
    store.tops[N] = deadlines.len() as u16;
    store.heads = [[NOBODY; 64]; 6];
    store.deadlines.copy_from_slice(deadlines);
    store.turns.fill(1);
    for (place, list) in &state.lists {
        let (head, tail) = (list[0] as u16, list[list.len() - 1]);
        match *place {
            EXPIRED => store.tops[ours::EXPIRED] = head,
            PARKING => store.tops[ours::PARKING] = head,
            place => {
                store.heads[place / SLOTS][place % SLOTS] = head;
                store.occupied[place / SLOTS] |= 1 << (place % SLOTS);
            }
        }
        let mut before = tail;
        for (i, &record) in list.iter().enumerate() {
            store.prevs[record] = before as u16;
            store.nexts[record] = list.get(i + 1).map_or(NOBODY, |&next| next as u16);
            store.marks[record] = *place as u16;
            before = record;
        }
    }
}

fn read(store: &ours::Store) -> State {
    let mut lists: Lists = vec![];
    for place in 0..=PARKING {
        let mut at = match place {
            PARKING => store.tops[ours::PARKING],
            place => store.heads[place / SLOTS][place % SLOTS],
        };
        let mut list = vec![];
        while at != NOBODY {
            list.push(usize::from(at));
            at = store.nexts[usize::from(at)];
        }
        if !list.is_empty() {
            lists.push((place, list));
        }
    }
    State {
        elapsed: store.elapsed,
        hand: store.hand,
        until: store.until,
        lists,
    }
}
