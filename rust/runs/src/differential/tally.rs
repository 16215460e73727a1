//! What has been compared: counts a function, and its smallest difference.

use super::call::{Call, NAMES};
use super::judge::Difference;

/// The counts of one function.
#[derive(Clone, Default)]
pub struct Count {
    pub comparisons: u64,
    pub differences: u64,
    /// How often each refusal was to be given, by its number.
    pub refusals: [u64; 23],
    pub smallest: Option<Difference>,
}

/// The counts of all functions, in the order of [`NAMES`], and those of the games.
#[derive(Clone, Default)]
pub struct Tally {
    pub counts: [Count; NAMES.len()],
    pub games: Games,
    /// How many questions were not held to the original, in the order of `LeftOut`. A question that
    /// both referees are asked counts once.
    pub left_out: [u64; 6],
}

/// What the games that were not refused came to, by the reading that they are held to.
#[derive(Clone, Default)]
pub struct Games {
    /// The moves that were read: up to a game's fault, or all.
    pub moves: u64,
    /// By the reason's number, 0 for no fault.
    pub reasons: [u64; 4],
    /// Of the games without a fault, by the winner's number.
    pub winners: [u64; 3],
}

impl Games {
    /// Counts the report of a game of so many moves: number, reason and winner come first.
    pub fn count(&mut self, report: &[u8], moves: usize) {
        let (number, reason, winner) = (report[0], report[1], report[2]);
        self.reasons[usize::from(reason)] += 1;
        self.moves += match number {
            0 => moves as u64,
            fault => fault.into(),
        };
        if number == 0 {
            self.winners[usize::from(winner)] += 1;
        }
    }

    fn add(&mut self, more: &Games) {
        self.moves += more.moves;
        for (count, more) in self.reasons.iter_mut().zip(more.reasons) {
            *count += more;
        }
        for (count, more) in self.winners.iter_mut().zip(more.winners) {
            *count += more;
        }
    }
}

impl Count {
    /// Keeps the difference if it is smaller than the smallest so far.
    fn keep(&mut self, difference: Difference) {
        let is_smaller = |kept: &Difference| difference.size() < kept.size();
        if self.smallest.as_ref().is_none_or(is_smaller) {
            self.smallest = Some(difference);
        }
    }

    fn add(&mut self, more: Count) {
        self.comparisons += more.comparisons;
        self.differences += more.differences;
        for (refusals, more) in self.refusals.iter_mut().zip(more.refusals) {
            *refusals += more;
        }
        if let Some(difference) = more.smallest {
            self.keep(difference);
        }
    }
}

impl Tally {
    /// How many comparisons, of all functions.
    pub fn comparisons(&self) -> u64 {
        self.counts.iter().map(|count| count.comparisons).sum()
    }

    /// How many differences, of all functions.
    pub fn differences(&self) -> u64 {
        self.counts.iter().map(|count| count.differences).sum()
    }

    /// The smallest difference of each function that has one.
    pub fn smallest(&self) -> impl Iterator<Item = &Difference> {
        self.counts
            .iter()
            .filter_map(|count| count.smallest.as_ref())
    }

    /// Counts one comparison, of a call that was to be refused so (0: not).
    pub fn count(&mut self, call: &Call, refusal: u32, differs: bool) {
        let count = &mut self.counts[call.number()];
        count.comparisons += 1;
        count.differences += u64::from(differs);
        if refusal > 0 {
            count.refusals[refusal as usize] += 1;
        }
    }

    /// Keeps a difference, if it is its function's smallest.
    pub fn keep(&mut self, difference: Difference) {
        self.counts[difference.case.call.number()].keep(difference);
    }

    /// Adds what another thread has compared.
    pub fn add(&mut self, other: Tally) {
        self.games.add(&other.games);
        for (count, more) in self.counts.iter_mut().zip(other.counts) {
            count.add(more);
        }
        for (count, more) in self.left_out.iter_mut().zip(other.left_out) {
            *count += more;
        }
    }
}
