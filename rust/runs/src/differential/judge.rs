//! One comparison: the call made, and its word and every byte held to what they must be.

use super::call::{Call, GUARD, Given, Host, Lends, Lent};
use super::expected::{Expected, expected};
use super::tally::Tally;
use oracle::boards::Dice;
use std::hint::black_box;
use std::sync::atomic::{AtomicU64, Ordering::Relaxed};

/// How many bytes are lent, by how many the answer needs; for a refused call, by 225.
#[derive(Debug, Clone, Copy, PartialEq, Eq)]
pub enum Room {
    Exact,
    /// One fewer than needed.
    Short,
    Empty,
    /// So many more than needed.
    Long(usize),
}

impl Room {
    fn of(self, needed: usize) -> usize {
        match self {
            Room::Exact => needed,
            Room::Short => needed.saturating_sub(1),
            Room::Empty => 0,
            Room::Long(more) => needed + more,
        }
    }

    /// Mostly more than needed, now and then exactly that or less.
    pub fn any(dice: &mut Dice) -> Self {
        match dice.below(8) {
            0 => Room::Exact,
            1 => Room::Short,
            2 if dice.chance(30) => Room::Empty,
            _ => Room::Long(1 + dice.below(40)),
        }
    }
}

/// All that a comparison depends on: made again from this, it comes out the same.
#[derive(Clone)]
pub struct Case {
    pub call: Call,
    pub given: Given,
    pub room: Room,
    /// What the lent bytes hold before the call: [`fill`] of this number.
    pub filled: u64,
}

/// A word, and the bytes after the call: the lent ones with their guards, and the handed ones.
#[derive(Debug, Clone, PartialEq, Eq)]
pub struct Outcome {
    pub word: u32,
    pub lent: Vec<u8>,
    pub given: Vec<u8>,
}

/// A case in which the two outcomes are not the same.
#[derive(Clone)]
pub struct Difference {
    pub case: Case,
    pub expected: Outcome,
    pub got: Outcome,
}

/// How far all the threads are, for whoever watches them.
#[derive(Default)]
pub struct Progress {
    comparisons: AtomicU64,
    differences: AtomicU64,
}

impl Progress {
    /// The comparisons and differences so far.
    pub fn so_far(&self) -> (u64, u64) {
        (
            self.comparisons.load(Relaxed),
            self.differences.load(Relaxed),
        )
    }
}

/// Makes calls and counts what comes of them.
pub struct Judge<'a> {
    host: &'a Host<'a>,
    progress: &'a Progress,
    pub dice: Dice,
    pub tally: Tally,
    /// The two outcomes of the last comparison; kept so that their room is used again.
    expected: Outcome,
    got: Outcome,
}

impl<'a> Judge<'a> {
    /// Nothing is compared yet.
    pub fn new(host: &'a Host<'a>, progress: &'a Progress, seed: u64) -> Self {
        // With room from the start: bytes that lie nowhere are slow to compare, even when there
        // are none of them.
        let nothing = || Outcome {
            word: 0,
            lent: Vec::with_capacity(1024),
            given: Vec::with_capacity(1024),
        };
        Self {
            host,
            progress,
            dice: Dice::new(seed),
            tally: Tally::default(),
            expected: nothing(),
            got: nothing(),
        }
    }

    /// One comparison, counted; where the second referee can be asked the same, two.
    pub fn compare(&mut self, call: Call, given: &Given, room: Room) {
        let (answer, left_out) = expected(&call, given);
        if let Some(as_what) = left_out {
            self.tally.left_out[as_what as usize] += 1;
        }
        self.hold(call, given, room, &answer);
        if let (Call::Game, Ok((_, report))) = (call, &answer) {
            self.tally.games.count(report, given.bytes.len());
        }
        if let Some(second) = call.second() {
            self.hold(second, given, room, &answer);
        }
    }

    /// One call, held to the answer that it must give.
    fn hold(&mut self, call: Call, given: &Given, room: Room, answer: &Expected) {
        let filled = self.dice.roll();
        let differs = self.differs(&call, given, room, filled, answer);
        self.tally.count(&call, self.expected.word >> 16, differs);
        self.progress.comparisons.fetch_add(1, Relaxed);
        if differs {
            self.progress.differences.fetch_add(1, Relaxed);
            self.tally.keep(Difference {
                case: Case {
                    call,
                    given: given.clone(),
                    room,
                    filled,
                },
                expected: self.expected.clone(),
                got: self.got.clone(),
            });
        }
    }

    /// The difference in a case, if there is one; not counted.
    pub fn again(&mut self, case: Case) -> Option<Difference> {
        let (answer, _) = expected(&case.call, &case.given);
        let differs = self.differs(&case.call, &case.given, case.room, case.filled, &answer);
        differs.then(|| Difference {
            case,
            expected: self.expected.clone(),
            got: self.got.clone(),
        })
    }

    fn differs(
        &mut self,
        call: &Call,
        given: &Given,
        room: Room,
        filled: u64,
        answer: &Expected,
    ) -> bool {
        self.lend(call, given, room.of(needed(answer)), filled);
        settle(&mut self.expected, answer, call.lends());
        let mut lent = Lent {
            guarded: &mut self.got.lent,
        };
        self.got.word = (self.host)(call, &self.got.given, &mut lent);
        // Handed bytes are taken to be as they were, unless something says that they may not be.
        black_box(&mut self.got) != &mut self.expected
    }

    /// Both outcomes as before the call. Where nothing is lent there are no guards either.
    fn lend(&mut self, call: &Call, given: &Given, room: usize, filled: u64) {
        let (lent, cells): (_, &[u8]) = match call.lends() {
            Lends::Nothing => (0, &[]),
            Lends::Cells => (2 * GUARD + given.bytes.len(), &given.bytes),
            Lends::Out => (2 * GUARD + room, &[]),
        };
        fill(&mut self.expected.lent, lent, filled);
        if !cells.is_empty() {
            self.expected.lent[GUARD..GUARD + cells.len()].copy_from_slice(cells);
        }
        self.expected.given.clone_from(&given.bytes);
        self.got.lent.clone_from(&self.expected.lent);
        self.got.given.clone_from(&given.bytes);
    }
}

fn needed(answer: &Expected) -> usize {
    answer.as_ref().map_or(225, |(_, bytes)| bytes.len())
}

/// Makes the outcome that is to be of the bytes before the call: the answer to the front of the
/// lent ones, or refusal 13 where it has no room.
fn settle(outcome: &mut Outcome, answer: &Expected, lends: Lends) {
    let room = outcome.lent.len().saturating_sub(2 * GUARD);
    outcome.word = match answer {
        Err(number) => u32::from(*number) << 16,
        Ok((_, bytes)) if lends == Lends::Out && bytes.len() > room => 13 << 16,
        Ok((number, bytes)) => {
            if !bytes.is_empty() {
                outcome.lent[GUARD..GUARD + bytes.len()].copy_from_slice(bytes);
            }
            u32::from(*number)
        }
    };
}

/// So many bytes that only the number decides.
pub fn fill(bytes: &mut Vec<u8>, length: usize, number: u64) {
    let mut dice = Dice::new(number);
    bytes.clear();
    while bytes.len() < length {
        bytes.extend_from_slice(&dice.roll().to_le_bytes());
    }
    bytes.truncate(length);
}
