//! A call of one of the three functions, and one comparison.

use super::plain;
use super::tally::{Difference, Tally};
use renju::raw;

/// The functions' names, by [`Call::number`].
pub const NAMES: [&str; 3] = ["renju_to_tagged", "renju_from_tagged", "renju_tagged_view"];

/// A function with what it is handed.
#[derive(Debug, Clone, Copy, PartialEq, Eq)]
pub enum Call<'a> {
    Write { moves: &'a [u8], view: u8 },
    Back { record: &'a [u8] },
    View { record: &'a [u8] },
}

/// The functions under test, all behind one: the call, and the bytes lent to it; its word. Tests
/// put wrong ones here.
pub type Host<'a> = dyn Fn(&Call, &mut [u8]) -> u32 + 'a;

/// The host interface itself.
pub fn ask(call: &Call, out: &mut [u8]) -> u32 {
    match *call {
        Call::Write { moves, view } => raw::renju_to_tagged(moves, view, out),
        Call::Back { record } => raw::renju_from_tagged(record, out),
        Call::View { record } => raw::renju_tagged_view(record),
    }
}

impl<'a> Call<'a> {
    /// A game is written in tagged form.
    pub fn write(moves: &'a [u8], view: u8) -> Self {
        Call::Write { moves, view }
    }

    /// A record is taken back to codes.
    pub fn back(record: &'a [u8]) -> Self {
        Call::Back { record }
    }

    /// A record's view is asked.
    pub fn view(record: &'a [u8]) -> Self {
        Call::View { record }
    }

    /// The function's place in [`NAMES`].
    pub fn number(&self) -> usize {
        match self {
            Call::Write { .. } => 0,
            Call::Back { .. } => 1,
            Call::View { .. } => 2,
        }
    }

    /// The bytes that it is handed.
    pub fn bytes(&self) -> &'a [u8] {
        match *self {
            Call::Write { moves, .. } => moves,
            Call::Back { record } | Call::View { record } => record,
        }
    }

    /// The same call with other bytes.
    pub fn with<'b>(&self, bytes: &'b [u8]) -> Call<'b> {
        match *self {
            Call::Write { view, .. } => Call::write(bytes, view),
            Call::Back { .. } => Call::back(bytes),
            Call::View { .. } => Call::view(bytes),
        }
    }

    /// What it must answer: the word, where it is no refusal for room, and the bytes written.
    fn expected(&self) -> Result<(u32, Vec<u8>), u8> {
        let counted = |bytes: Vec<u8>| (bytes.len() as u32, bytes);
        match *self {
            Call::Write { moves, view } => plain::write(moves, view).map(counted),
            Call::Back { record } => plain::back(record).map(counted),
            Call::View { record } => plain::read(record).map(|game| (game.view.into(), Vec::new())),
        }
    }
}

/// Bytes before and behind the lent ones, which no call may touch.
const GUARD: usize = 4;

/// What the lent bytes and the guards hold before a call. No code is this.
const FILLED: u8 = 0xee;

/// The word that a call must give, and the lent bytes after it, with their guards.
fn outcome(call: &Call, room: usize) -> (u32, Vec<u8>, Vec<u8>) {
    let mut lent = vec![FILLED; room + 2 * GUARD];
    let refused = |number: u8| u32::from(number) << 16;
    match call.expected() {
        Ok((_, bytes)) if bytes.len() > room => (refused(13), lent, bytes),
        Ok((word, bytes)) => {
            lent[GUARD..][..bytes.len()].copy_from_slice(&bytes);
            (word, lent, bytes)
        }
        Err(number) => (refused(number), lent, Vec::new()),
    }
}

/// One comparison, counted; what the plain reading writes, whether or not there is room.
pub fn compare(host: &Host, call: &Call, room: usize, tally: &mut Tally) -> Vec<u8> {
    let (word, lent, bytes) = outcome(call, room);
    let differs = asked(host, call, room) != (word, lent);
    if tally.count(call, word, differs) {
        tally.keep(call, shrunk(host, call, room));
    }
    bytes
}

/// What a call answers, and the lent bytes after it, with their guards.
fn asked(host: &Host, call: &Call, room: usize) -> (u32, Vec<u8>) {
    let mut out = vec![FILLED; room + 2 * GUARD];
    let word = host(call, &mut out[GUARD..GUARD + room]);
    (word, out)
}

/// A call that differs, without the bytes, one by one from the last, that it does not need.
fn shrunk(host: &Host, call: &Call, room: usize) -> Difference {
    let mut bytes = call.bytes().to_vec();
    for place in (0..bytes.len()).rev() {
        let mut fewer = bytes.clone();
        fewer.remove(place);
        let call = call.with(&fewer);
        let (word, lent, _) = outcome(&call, room);
        if asked(host, &call, room) != (word, lent) {
            bytes = fewer;
        }
    }
    let call = call.with(&bytes);
    let (word, lent, _) = outcome(&call, room);
    let (got, out) = asked(host, &call, room);
    Difference::of(&call, room, (word, &lent), (got, &out))
}
