//! A third reading, made to be wrong on purpose, to see that the comparison finds it: it goes entry by entry, keeps the calls
//! of an open patch apart, and asks no store what a call gets. Without a fault it must agree.
use super::recovered::{show, Parts};
use super::{Damage, Patched, Step, ENTRY};
use crate::line::{Answer, Command};
use crate::rules::{LAST_TURN, MOST_RECORDS};

#[derive(Clone, Copy, PartialEq, Eq, Debug)]
pub enum Fault {
    KeepsUnclosed,
    KeepsUpToDamage,
    DropsClosed,
    FormatCloses,
    TakesSecondOpen,
    TakesLoneClose,
    NineIsPair,
    NineIsKept,
    JudgesParts,
    BlindToZeros,
    BlindToFields,
    PairBeforeZero,
    NineUnjudged,
    TakesPeriod0,
    TenIsKind,
    KnowsTwelve,
    ElevenIsWhole,
    ElevenSwapped,
    TwelveIsLeftOut,
    RefusedFormatEmpties,
    EightIsDamage,
    NoRoom,
    TakesNoStore,
    LeastFirst,
    NoDamage,
}

use Fault::*;

pub const FAULTS: [Fault; 25] = [
    KeepsUnclosed,
    KeepsUpToDamage,
    DropsClosed,
    FormatCloses,
    TakesSecondOpen,
    TakesLoneClose,
    NineIsPair,
    NineIsKept,
    JudgesParts,
    BlindToZeros,
    BlindToFields,
    PairBeforeZero,
    NineUnjudged,
    TakesPeriod0,
    TenIsKind,
    KnowsTwelve,
    ElevenIsWhole,
    ElevenSwapped,
    TwelveIsLeftOut,
    RefusedFormatEmpties,
    EightIsDamage,
    NoRoom,
    TakesNoStore,
    LeastFirst,
    NoDamage,
];

struct Naive {
    fault: Option<Fault>,
    kept: usize,
    steps: Vec<Step>,
    /// The calls of the open patch.
    patch: Option<Vec<Step>>,
    /// A kind 9 that waits for its kind 10: value and when.
    nine: Option<(u64, u64)>,
    store: bool,
}

/// What `recovered` would write.
pub fn text(fault: Option<Fault>, bytes: &[u8]) -> String {
    let mut naive = Naive {
        fault,
        kept: 0,
        steps: vec![],
        patch: None,
        nine: None,
        store: false,
    };
    let mut damage = None;
    let mut at = 0;
    for entry in bytes.chunks(ENTRY) {
        if let Err(found) = naive.entry(entry) {
            damage = Some(found);
            break;
        }
        at += entry.len();
        if naive.patch.is_none() && naive.nine.is_none() && entry.len() == ENTRY {
            naive.kept = at;
        }
    }
    naive.end(at, damage)
}

impl Naive {
    fn has(&self, fault: Fault) -> bool {
        self.fault == Some(fault)
    }

    fn entry(&mut self, entry: &[u8]) -> Result<(), Damage> {
        let kind = bits(entry, 0, 4);
        if entry.len() < ENTRY {
            let judged = self.has(JudgesParts) && !(1..=11).contains(&kind);
            return if judged { Err(Damage::Kind) } else { Ok(()) };
        }
        let [zero, first, second] =
            [(4, 12), (16, 64), (80, 64)].map(|(at, count)| bits(entry, at, count));
        let pair = Err(Damage::Pair);
        let broken = self.nine.is_some() && (kind != 10 || first == 0 && !self.has(TakesPeriod0));
        let most = if self.has(KnowsTwelve) { 12 } else { 11 };
        if kind == 0 || kind > most || self.has(TenIsKind) && kind == 10 && self.nine.is_none() {
            return Err(Damage::Kind);
        }
        if broken && self.has(PairBeforeZero) {
            return pair;
        }
        let unjudged = kind == 9 && self.has(NineUnjudged);
        if zero > 0 && !self.has(BlindToZeros) && !unjudged {
            return Err(Damage::Zero);
        }
        let unused = match kind {
            4 | 5 | 10 => second,
            6..=8 => first.max(second),
            _ => 0,
        };
        if unused > 0 && !self.has(BlindToFields) {
            return Err(Damage::Zero);
        }
        if broken {
            return pair;
        }
        let step = match (kind, self.nine.take()) {
            (1, _) => Command::Format {
                records: first,
                turn: second,
            },
            (2, _) => Command::Insert {
                value: first,
                when: second,
                period: 0,
            },
            (3, _) => Command::Reset {
                key: first,
                when: second,
            },
            (4, _) => Command::Remove { key: first },
            (5, _) => Command::Poll { now: first },
            (11, None) if self.has(ElevenIsWhole) => Command::Poll { now: first },
            (11, None) if self.has(ElevenSwapped) => Command::PollSome {
                now: second,
                limit: first,
            },
            (11, None) => Command::PollSome {
                now: first,
                limit: second,
            },
            (6, _) => Command::Clear,
            (7, _) => return self.open(),
            (8, _) => return self.close(),
            (9, _) => {
                self.nine = Some((first, second));
                return Ok(());
            }
            (10, Some((value, when))) => Command::Insert {
                value,
                when,
                period: first,
            },
            _ => return pair,
        };
        self.call(step)
    }

    fn open(&mut self) -> Result<(), Damage> {
        if self.patch.is_some() && !self.has(TakesSecondOpen) {
            return Err(Damage::Refused(13));
        }
        self.patch.get_or_insert_default();
        Ok(())
    }

    fn close(&mut self) -> Result<(), Damage> {
        match self.patch.take() {
            Some(_) if self.has(DropsClosed) => (),
            Some(steps) => self.steps.extend(steps),
            None if self.has(TakesLoneClose) => (),
            None => return Err(Damage::Refused(13)),
        }
        Ok(())
    }

    fn call(&mut self, command: Command) -> Result<(), Damage> {
        if let Command::Format { records, turn } = command {
            let most = if self.has(NoRoom) { 1024 } else { MOST_RECORDS };
            if records == 0 || records > most {
                return Err(Damage::Refused(1));
            }
            let fine = 0 < turn && turn <= LAST_TURN;
            if !fine && self.has(EightIsDamage) {
                return Err(Damage::Refused(8));
            }
            if !fine && self.has(RefusedFormatEmpties) {
                self.steps.clear();
            }
            self.store |= fine;
            if self.has(FormatCloses) {
                let steps = self.patch.take();
                self.steps.extend(steps.into_iter().flatten());
            }
        } else if !self.store && !self.has(TakesNoStore) {
            return Err(Damage::Refused(2));
        }
        let to = self.patch.as_mut().unwrap_or(&mut self.steps);
        to.push(Step::Asks(command));
        Ok(())
    }

    fn end(mut self, at: usize, mut damage: Option<Damage>) -> String {
        let whole = at / ENTRY * ENTRY;
        let keeps = self.has(KeepsUnclosed) || self.has(KeepsUpToDamage) && damage.is_some();
        if let Some(steps) = self.patch.take().filter(|_| keeps) {
            self.steps.extend(steps);
            self.kept = whole;
        }
        if let (Some((value, when)), None) = (self.nine, damage) {
            if self.has(NineIsPair) {
                damage = Some(Damage::Pair);
            }
            if self.has(NineIsKept) {
                self.kept = whole;
                self.steps.push(Step::Asks(Command::Insert {
                    value,
                    when,
                    period: 0,
                }));
            }
        }
        if self.has(NoDamage) {
            damage = None;
        }
        if self.has(TwelveIsLeftOut) {
            self.kept -= ENTRY * refused_last(&self.steps);
        }
        let left = Patched::after(MOST_RECORDS, &self.steps);
        let mut parts = left.store().map(Parts::of);
        if let (true, Some(parts)) = (self.has(LeastFirst), &mut parts) {
            parts.free.sort_unstable();
        }
        show(self.kept, damage, parts.as_ref())
    }
}

/// How many calls at the end are refused with 12.
fn refused_last(steps: &[Step]) -> usize {
    let mut patched = Patched::new(MOST_RECORDS);
    let answers: Vec<Answer> = steps.iter().map(|&step| patched.ask(step)).collect();
    let last = answers.iter().rev();
    last.take_while(|&&answer| answer == Answer::No(12)).count()
}

/// So many bits from this one on, most significant first.
fn bits(bytes: &[u8], from: usize, count: usize) -> u64 {
    let bit = |at: usize| u64::from(bytes[at / 8] >> (7 - at % 8) & 1);
    (from..from + count).fold(0, |sum, at| 2 * sum + bit(at))
}
