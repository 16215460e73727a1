//! What has been held to the plain model: counts by what was asked, and the first difference.

use std::fmt::Write;

/// What is asked, then document 02's sentences, by the numbers of their statements.
pub const NAMES: [&str; 13] = [
    "add",
    "take_back",
    "message",
    "take",
    "ask",
    "hear",
    "renju_feed_take",
    "renju_feed_missing",
    "1 the list is the first part",
    "2 where all is heard both are equal",
    "3 who gets all in order catches up",
    "4 a refusal changes nothing",
    "5 no answer claims too much",
];

/// The place in [`NAMES`]: a move is added.
pub const ADD: usize = 0;
/// The place in [`NAMES`]: the last move is taken back.
pub const TAKE_BACK: usize = 1;
/// The place in [`NAMES`]: a message is made.
pub const MESSAGE: usize = 2;
/// The place in [`NAMES`]: a client takes a message.
pub const TAKE: usize = 3;
/// The place in [`NAMES`]: a client is asked what it holds.
pub const ASK: usize = 4;
/// The place in [`NAMES`]: a server hears an answer.
pub const HEAR: usize = 5;
/// The place in [`NAMES`]: the client over lent bytes.
pub const LENT: usize = 6;
/// The place in [`NAMES`]: two held lists are compared.
pub const MISSING: usize = 7;
/// The place in [`NAMES`]: sentence 1.
pub const FIRST_PART: usize = 8;
/// The place in [`NAMES`]: sentence 2.
pub const EQUAL: usize = 9;
/// The place in [`NAMES`]: sentence 3.
pub const CAUGHT_UP: usize = 10;
/// The place in [`NAMES`]: sentence 4.
pub const UNCHANGED: usize = 11;
/// The place in [`NAMES`]: sentence 5.
pub const CLAIMED: usize = 12;

/// The counts of one name.
#[derive(Debug, Clone, Default)]
pub struct Count {
    pub comparisons: u64,
    pub differences: u64,
    /// How often each refusal was to be given, by its number; 0 for an answer.
    pub refusals: [u64; 20],
}

/// The counts of all names, and the first difference.
#[derive(Debug, Clone, Default)]
pub struct Tally {
    pub schedules: u64,
    pub counts: [Count; NAMES.len()],
    pub first: Option<String>,
}

impl Tally {
    /// One comparison of something that was to be refused so (0: not).
    pub fn hold(&mut self, name: usize, refused: u16, same: bool, say: impl FnOnce() -> String) {
        let count = &mut self.counts[name];
        count.comparisons += 1;
        count.refusals[usize::from(refused)] += 1;
        if !same {
            count.differences += 1;
            let text = || format!("difference in {}: {}\n", NAMES[name], say());
            self.first.get_or_insert_with(text);
        }
    }

    fn sum(&self, of: fn(&Count) -> u64) -> u64 {
        self.counts.iter().map(of).sum()
    }

    /// 1 where there is a difference, or nothing was compared.
    pub fn status(&self) -> u8 {
        let clean = self.sum(|count| count.differences) == 0;
        u8::from(!clean || self.sum(|count| count.comparisons) == 0)
    }

    /// The counts in words.
    pub fn report(&self) -> String {
        let mut text = self.first.clone().unwrap_or_default();
        for (name, count) in NAMES.iter().zip(&self.counts) {
            let Count {
                comparisons,
                differences,
                refusals,
            } = count;
            let _ = write!(
                text,
                "{name}: {comparisons} comparisons, {differences} differ"
            );
            for (number, times) in refusals.iter().enumerate().skip(1) {
                if *times > 0 {
                    let _ = write!(text, ", refused {number}: {times}");
                }
            }
            text.push('\n');
        }
        let (schedules, all) = (self.schedules, self.sum(|count| count.comparisons));
        let differences = self.sum(|count| count.differences);
        let _ = writeln!(
            text,
            "{schedules} schedules, {all} comparisons, {differences} differences"
        );
        text
    }
}
