//! Games to and from SGF: the host's two functions against a plain reading of document 02, No. 10.
//!
//! One comparison is one call, held to the plain reading in its word and in every byte lent to it,
//! with bytes of guard on both sides. A text is a good one, with white space or without, or one that
//! was damaged; each game is written too, and so are games that are refused.
//!
//! - `plain`: what document 02 says. `texts`: games, texts, and what is done to them.

pub mod plain;
pub mod texts;

use oracle::boards::Dice;
use renju::raw;
use std::fmt::Write;

/// The names of the functions, in the order of [`Tally::counts`].
pub const NAMES: [&str; 2] = ["renju_to_sgf", "renju_from_sgf"];

/// A function with what it is handed.
#[derive(Debug, Clone, Copy, PartialEq, Eq)]
pub enum Call<'a> {
    Write { moves: &'a [u8] },
    Read { text: &'a [u8] },
}

/// The functions under test, both behind one: the call, and the bytes lent to it; its word. Tests
/// put wrong ones here.
pub type Host<'a> = dyn Fn(&Call, &mut [u8]) -> u32 + 'a;

/// The host interface itself.
pub fn ask(call: &Call, out: &mut [u8]) -> u32 {
    match *call {
        Call::Write { moves } => raw::renju_to_sgf(moves, out),
        Call::Read { text } => raw::renju_from_sgf(text, out),
    }
}

impl Call<'_> {
    /// The function's place in [`NAMES`].
    fn number(&self) -> usize {
        match self {
            Call::Write { .. } => 0,
            Call::Read { .. } => 1,
        }
    }

    /// What it must answer where there is room: the bytes written.
    fn expected(&self) -> Result<Vec<u8>, u8> {
        match *self {
            Call::Write { moves } => plain::write(moves),
            Call::Read { text } => plain::read(text),
        }
    }
}

/// The counts of one function.
#[derive(Debug, Clone, Default)]
pub struct Count {
    pub comparisons: u64,
    pub differences: u64,
    /// How often each refusal was to be given, by its number; 0 for an answer.
    pub refusals: [u64; 21],
    /// The first difference, in words.
    pub first: Option<String>,
}

/// The counts of both, in the order of [`NAMES`].
#[derive(Debug, Clone, Default)]
pub struct Tally {
    pub counts: [Count; NAMES.len()],
}

impl Tally {
    /// How many comparisons, of both functions.
    pub fn comparisons(&self) -> u64 {
        self.counts.iter().map(|count| count.comparisons).sum()
    }

    /// How many differences, of both functions.
    pub fn differences(&self) -> u64 {
        self.counts.iter().map(|count| count.differences).sum()
    }

    /// A line for each function, its first difference if there is one, and the total.
    pub fn report(&self) -> String {
        let mut out = String::new();
        for (name, count) in NAMES.iter().zip(&self.counts) {
            let (comparisons, differences) = (count.comparisons, count.differences);
            let given = count.refusals.iter().enumerate().skip(1);
            let given = given.filter(|(_, times)| **times > 0);
            let refusals: Vec<String> = given.map(|(n, times)| format!("{n}: {times}")).collect();
            let (answers, refusals) = (count.refusals[0], refusals.join(", "));
            writeln!(
                out,
                "{name}: {comparisons} comparisons, {differences} differences; answers {answers}, refusals {refusals}"
            )
            .expect("a string takes all");
        }
        for count in &self.counts {
            out += count.first.as_deref().unwrap_or_default();
        }
        let (comparisons, differences) = (self.comparisons(), self.differences());
        out + &format!("{comparisons} comparisons, {differences} differences\n")
    }

    /// The exit status of a run: 1 on any difference.
    pub fn status(&self) -> u8 {
        u8::from(self.differences() > 0)
    }
}

/// Bytes before and behind the lent ones, which no call may touch.
const GUARD: usize = 4;

/// What the lent bytes and the guards hold before a call. No code and no byte of a text is this.
const FILLED: u8 = 0xee;

/// One comparison, counted.
fn compare(host: &Host, call: &Call, room: usize, tally: &mut Tally) {
    let mut lent = vec![FILLED; room + 2 * GUARD];
    let word = match call.expected() {
        Ok(bytes) if bytes.len() > room => 13 << 16,
        Ok(bytes) => {
            lent[GUARD..][..bytes.len()].copy_from_slice(&bytes);
            bytes.len() as u32
        }
        Err(number) => u32::from(number) << 16,
    };
    let mut out = vec![FILLED; room + 2 * GUARD];
    let got = host(call, &mut out[GUARD..GUARD + room]);
    let count = &mut tally.counts[call.number()];
    count.comparisons += 1;
    count.refusals[(word >> 16) as usize] += 1;
    if (got, &out) != (word, &lent) {
        count.differences += 1;
        let name = NAMES[call.number()];
        let handed = match *call {
            Call::Write { moves } => format!("{moves:?}"),
            Call::Read { text } => format!("{:?}", String::from_utf8_lossy(text)),
        };
        count.first.get_or_insert_with(|| {
            format!("difference in {name}: {handed}, {room} bytes lent\nexpected {word:#x} {lent:?}\ngot      {got:#x} {out:?}\n")
        });
    }
}

/// So many games, each written, read with white space or without, and read damaged.
pub fn run(host: &Host, games: u64, seed: u64) -> Tally {
    let mut tally = Tally::default();
    let mut dice = Dice::new(seed);
    for _ in 0..games {
        let moves = texts::game(&mut dice);
        let room = texts::room(&mut dice, 14 + 6 * moves.len());
        let written = texts::wrong(&mut dice, &moves);
        compare(host, &Call::Write { moves: &written }, room, &mut tally);
        let text = texts::good(&mut dice, &moves);
        let room = texts::room(&mut dice, moves.len());
        compare(host, &Call::Read { text: &text }, room, &mut tally);
        let text = texts::damaged(&mut dice, &text);
        compare(host, &Call::Read { text: &text }, room, &mut tally);
    }
    tally
}
