//! What has been compared: counts a function, and its smallest difference, in words.

use super::call::{Call, NAMES};
use std::fmt::Write;

/// A comparison that came out wrong: the bytes handed over, and all of it in words.
#[derive(Debug, Clone, PartialEq, Eq)]
pub struct Difference {
    pub bytes: Vec<u8>,
    pub text: String,
}

/// What makes bytes smaller than others: they are fewer, or else come first in order.
fn size(bytes: &[u8]) -> (usize, &[u8]) {
    (bytes.len(), bytes)
}

impl Difference {
    /// Of a call with the word and lent bytes that it must give, and those that it gave.
    pub fn of(call: &Call, room: usize, must: (u32, &[u8]), got: (u32, &[u8])) -> Self {
        let say = |(word, lent): (u32, &[u8])| match word >> 16 {
            0 => format!("answer {word}, lent and guard bytes {lent:?}"),
            refusal => format!("refusal {refusal}, lent and guard bytes {lent:?}"),
        };
        let name = NAMES[call.number()];
        Self {
            bytes: call.bytes().to_vec(),
            text: format!(
                "difference in {name}: {call:?}, {room} bytes lent\nexpected {}\ngot      {}\n",
                say(must),
                say(got)
            ),
        }
    }
}

/// The counts of one function.
#[derive(Debug, Clone, Default)]
pub struct Count {
    pub comparisons: u64,
    pub differences: u64,
    /// How often each refusal was to be given, by its number; 0 for an answer.
    pub refusals: [u64; 17],
    pub smallest: Option<Difference>,
}

/// The counts of the functions, in the order of [`NAMES`].
#[derive(Debug, Clone, Default)]
pub struct Tally {
    pub counts: [Count; NAMES.len()],
}

impl Tally {
    /// A comparison, by the word that it was to give; whether it differs and is smaller than the
    /// smallest difference so far.
    pub fn count(&mut self, call: &Call, word: u32, differs: bool) -> bool {
        let count = &mut self.counts[call.number()];
        count.comparisons += 1;
        count.refusals[(word >> 16) as usize] += 1;
        count.differences += u64::from(differs);
        let is_smaller = |kept: &Difference| size(call.bytes()) < size(&kept.bytes);
        differs && count.smallest.as_ref().is_none_or(is_smaller)
    }

    /// A difference, in place of the one that was kept.
    pub fn keep(&mut self, call: &Call, found: Difference) {
        self.counts[call.number()].smallest = Some(found);
    }

    /// How many comparisons, of all functions.
    pub fn comparisons(&self) -> u64 {
        self.counts.iter().map(|count| count.comparisons).sum()
    }

    /// How many differences, of all functions.
    pub fn differences(&self) -> u64 {
        self.counts.iter().map(|count| count.differences).sum()
    }

    /// A line for each function, the smallest difference of each that has one, and the total.
    pub fn report(&self) -> String {
        let mut out = String::new();
        for (name, count) in NAMES.iter().zip(&self.counts) {
            let (comparisons, differences) = (count.comparisons, count.differences);
            let given = count.refusals.iter().enumerate().skip(1);
            let given = given.filter(|(_, times)| **times > 0);
            let refusals: Vec<String> = given.map(|(n, times)| format!("{n}: {times}")).collect();
            let (answers, refusals) = (count.refusals[0], refusals.join(", "));
            writeln!(
                out,
                "{name}: {comparisons} comparisons, {differences} differences; answers {answers}, refusals {refusals}"
            )
            .expect("a string takes all");
        }
        for count in &self.counts {
            out += count.smallest.as_ref().map_or("", |found| &found.text);
        }
        let (comparisons, differences) = (self.comparisons(), self.differences());
        out + &format!("{comparisons} comparisons, {differences} differences\n")
    }

    /// The exit status of a run: 1 on any difference.
    pub fn status(&self) -> u8 {
        u8::from(self.differences() > 0)
    }
}
