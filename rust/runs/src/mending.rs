//! Hand-typed move lists: `renju_mend` against a plain reading of document 02, No. 12.
//!
//! One comparison is one call, held to the plain reading in its word and in every byte lent to it,
//! with bytes of guard on both sides. Lists are typed in many ways, and most are damaged.
//!
//! - `plain`: what document 02 says. `typed`: lists, and what is done to them.

pub mod plain;
pub mod typed;

use oracle::boards::Dice;
use plain::Mended;
use renju::raw;
use std::fmt::Write;

/// The function under test: the text, and the bytes lent; its word. Tests put wrong ones here.
pub type Host<'a> = dyn Fn(&[u8], &mut [u8]) -> u32 + 'a;

/// The host interface itself.
pub fn ask(text: &[u8], out: &mut [u8]) -> u32 {
    raw::renju_mend(text, out)
}

/// What has been compared: how often each refusal was to be given (0: an answer), each reason (0:
/// no slip), and the smallest difference, in words.
#[derive(Debug, Clone, Default)]
pub struct Tally {
    pub comparisons: u64,
    pub differences: u64,
    pub refusals: [u64; 14],
    pub reasons: [u64; 5],
    pub smallest: Option<(Vec<u8>, String)>,
}

/// So many lists, from a seed: one in eight as it is typed, the others damaged.
pub fn run(host: &Host, lists: u64, seed: u64) -> Tally {
    let mut tally = Tally::default();
    let mut dice = Dice::new(seed);
    for _ in 0..lists {
        let text = typed::list(&mut dice);
        let needed = plain::read(&text).map_or(0, |mended| mended.lines().len());
        compare(host, &text, typed::room(&mut dice, needed), &mut tally);
    }
    tally
}

/// Bytes before and behind the lent ones, which no call may touch.
const GUARD: usize = 4;

/// What the lent bytes and the guards hold before a call. No line has it.
const FILLED: u8 = 0xee;

/// The word that a call must give, and the lent bytes after it, with their guards.
fn outcome(read: &Result<Mended, u8>, room: usize) -> (u32, Vec<u8>) {
    let mut lent = vec![FILLED; room + 2 * GUARD];
    let refused = |number: u8| u32::from(number) << 16;
    match read.as_ref().map(Mended::lines) {
        Ok(lines) if lines.len() > room => (refused(13), lent),
        Ok(lines) => {
            lent[GUARD..][..lines.len()].copy_from_slice(&lines);
            (lines.len() as u32, lent)
        }
        Err(&number) => (refused(number), lent),
    }
}

/// What a call answers, and the lent bytes after it, with their guards.
fn asked(host: &Host, text: &[u8], room: usize) -> (u32, Vec<u8>) {
    let mut out = vec![FILLED; room + 2 * GUARD];
    let word = host(text, &mut out[GUARD..GUARD + room]);
    (word, out)
}

/// One comparison, counted.
fn compare(host: &Host, text: &[u8], room: usize, tally: &mut Tally) {
    let read = plain::read(text);
    let must = outcome(&read, room);
    tally.comparisons += 1;
    tally.refusals[(must.0 >> 16) as usize] += 1;
    if let Ok(mended) = &read {
        tally.reasons[usize::from(mended.reason)] += 1;
    }
    if asked(host, text, room) == must {
        return;
    }
    tally.differences += 1;
    let smaller = |kept: &(Vec<u8>, String)| text.len() < kept.0.len();
    if tally.smallest.as_ref().is_none_or(smaller) {
        tally.smallest = Some(shrunk(host, text, room));
    }
}

/// A text that differs, without the bytes, one by one from the last, that it does not need.
fn shrunk(host: &Host, text: &[u8], room: usize) -> (Vec<u8>, String) {
    let differs = |text: &[u8]| asked(host, text, room) != outcome(&plain::read(text), room);
    let mut text = text.to_vec();
    for place in (0..text.len()).rev() {
        let mut fewer = text.clone();
        fewer.remove(place);
        if differs(&fewer) {
            text = fewer;
        }
    }
    let say = |(word, lent): (u32, Vec<u8>)| {
        format!("word {word:#x}, lent and guards {}", lent.escape_ascii())
    };
    let words = format!(
        "difference: {:?}, {room} bytes lent\nexpected {}\ngot      {}\n",
        text.escape_ascii().to_string(),
        say(outcome(&plain::read(&text), room)),
        say(asked(host, &text, room))
    );
    (text, words)
}

impl Tally {
    /// The counts, the smallest difference, and the total.
    pub fn report(&self) -> String {
        let counts = |of: &[u64], from: usize| {
            let met = of.iter().enumerate().skip(from);
            let met = met.filter(|(_, times)| **times > 0);
            let met: Vec<String> = met.map(|(n, times)| format!("{n}: {times}")).collect();
            met.join(", ")
        };
        let mut out = String::new();
        let (refusals, reasons) = (counts(&self.refusals, 1), counts(&self.reasons, 0));
        let answers = self.refusals[0];
        writeln!(out, "renju_mend: answers {answers}, refusals {refusals}")
            .expect("a string takes all");
        writeln!(out, "of the lists that are read, by reason: {reasons}")
            .expect("a string takes all");
        out += self.smallest.as_ref().map_or("", |(_, words)| words);
        let (comparisons, differences) = (self.comparisons, self.differences);
        out + &format!("{comparisons} comparisons, {differences} differences\n")
    }

    /// The exit status of a run: 1 on any difference.
    pub fn status(&self) -> u8 {
        u8::from(self.differences > 0)
    }
}
