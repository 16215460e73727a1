//! What is left out of every comparison with the original: the texts that
//! requests 5 and 13 of document 02 speak of, and the verdicts and lists that meet
//! an eye that completes a five, by request 6. All are written from the requests
//! and look at no answer of the original, so some of what is left out is answered
//! as before.
//!
//! "The point reader now takes exactly one letter and one or two digits after
//! trimming: no plus sign and nothing behind. [..] A second "/", ignored until
//! now, is refused too. The differences from the Rust are recorded and the
//! oracle runs leave those texts out."
//!
//! "on text with no "/" and no "," the oracle runs compare the converter's reader
//! and leave the live entry out."
//!
//! "Where the Rust differs, an example goes into docs/DIFFERENCES.md, and
//! differential runs compare only verdicts and lists that never meet such an
//! eye."

use crate::board::board::Board;
use crate::naive::{self, Answer};
use crate::naive_text::{self, trimmed};
use crate::original::{self, Cells};
use std::fmt::Debug;

/// What a text of bytes below 128 is to read as at the live entry: by the
/// original, and where it is left out by the naive reading.
pub fn read(bytes: &[u8]) -> Result<Cells, u8> {
    if text(bytes) {
        return naive_text::read(bytes);
    }
    original::read(std::str::from_utf8(bytes).expect("bytes below 128 are text"))
}

/// What such a text is to read as by the converter's reader: by the original
/// where that reads it as a diagram, else by the naive reading.
pub fn read_diagram(bytes: &[u8]) -> Result<Cells, u8> {
    if lone(bytes) {
        return original::read(std::str::from_utf8(bytes).expect("bytes below 128 are text"));
    }
    naive_text::read_diagram(bytes)
}

/// A text that the live entry is not held to the original on.
pub fn text(text: &[u8]) -> bool {
    lone(text) || typed(text)
}

/// Request 13: a text with no slash and no comma, a diagram to the original.
pub fn lone(text: &[u8]) -> bool {
    !text.contains(&b'/') && !text.contains(&b',')
}

/// Request 5: stones with a second slash, or stones or moves with such a point.
pub fn typed(text: &[u8]) -> bool {
    match text.iter().filter(|&&b| b == b'/').count() {
        0 => text.contains(&b',') && list(text),
        1 => text.split(|&b| b == b'/').any(list),
        _ => true,
    }
}

/// A comma list with such a point.
pub fn list(text: &[u8]) -> bool {
    text.split(|&b| b == b',').any(point)
}

/// A letter and a plus sign, or a letter, two digits and something behind them.
fn point(text: &[u8]) -> bool {
    match trimmed(text) {
        [b'A'..=b'O' | b'a'..=b'o', behind @ ..] => {
            matches!(behind, [b'+', ..] | [b'0'..=b'9', b'0'..=b'9', _, ..])
        }
        _ => false,
    }
}

/// An answer of the referee that a port is held to. It is the naive reading's;
/// unless it is left out, the original's too.
#[derive(Debug, Clone, PartialEq, Eq)]
pub struct Held<T> {
    pub answer: T,
    pub left_out: bool,
}

/// The two answers to a question, and whether it is left out.
pub struct Both<T> {
    naive: T,
    original: T,
    left_out: bool,
}

impl<T: PartialEq + Debug> Both<T> {
    /// The original's answer, and where that is left out the naive reading's.
    pub fn expected(self) -> T {
        if self.left_out {
            return self.naive;
        }
        self.original
    }

    /// Stops the run where the two differ in an answer that is not left out, and
    /// says of what question.
    fn held(self, asked: &str, cells: &Cells) -> Held<T> {
        let Self {
            naive,
            original,
            left_out,
        } = self;
        assert!(
            left_out || naive == original,
            "{asked}: the naive reading says {naive:?}, the original {original:?}\n{}",
            naive_text::write_diagram(cells)
        );
        Held {
            answer: naive,
            left_out,
        }
    }
}

/// The strict verdict at a point.
pub fn strict(cells: &Cells, board: &Board, p: u8) -> Held<u8> {
    let asked = format!("strict verdict at code {p}");
    both_strict(cells, board, p).held(&asked, cells)
}

/// The strict verdict at a point, by both.
pub fn both_strict(cells: &Cells, board: &Board, p: u8) -> Both<u8> {
    both_verdicts(naive::strict(cells, p.into()), original::strict(board, p))
}

/// The plain verdict at an empty point.
pub fn plain(cells: &Cells, board: &Board, p: u8) -> Held<u8> {
    let asked = format!("plain verdict at code {p}");
    let both = both_verdicts(naive::plain(cells, p.into()), original::plain(board, p));
    both.held(&asked, cells)
}

fn both_verdicts(naive: Answer, original: u8) -> Both<u8> {
    Both {
        naive: naive.verdict,
        original,
        left_out: naive.five_eye,
    }
}

/// The forbidden list.
pub fn forbidden_list(cells: &Cells, board: &Board) -> Held<Vec<(u8, u8)>> {
    both_lists(cells, board).held("forbidden list", cells)
}

/// The forbidden list, by both.
pub fn both_lists(cells: &Cells, board: &Board) -> Both<Vec<(u8, u8)>> {
    let (naive, left_out) = naive::listed(cells);
    Both {
        naive,
        original: original::forbidden_list(board),
        left_out,
    }
}
