//! The depth of a strict question beside its verdict: both by the host interface, on the same bytes.

use std::hint::black_box;

use renju::raw;

use super::race::Race;
use super::rows::{Place, places};
use super::sets::Ready;

/// The depth, which holds the verdict in its low byte, is the other; the verdict is ours.
pub struct Depths<'a> {
    boards: &'a [Ready],
    places: Vec<Place>,
}

impl<'a> Depths<'a> {
    pub fn new(boards: &'a [Ready]) -> Self {
        let places = places(boards);
        Self { boards, places }
    }
}

impl Race for Depths<'_> {
    fn count(&self) -> usize {
        self.places.len()
    }

    fn agrees(&mut self, question: usize) -> bool {
        let (n, code) = self.places[question];
        let cells = &self.boards[n].cells;
        let word = raw::renju_depth(cells, code);
        word >> 16 == 0 && word & 255 == raw::renju_forbidden_strict(cells, code)
    }

    fn other(&mut self, question: usize, calls: usize) {
        let (n, code) = self.places[question];
        let cells = &self.boards[n].cells;
        for _ in 0..calls {
            black_box(raw::renju_depth(black_box(cells), black_box(code)));
        }
    }

    fn ours(&mut self, question: usize, calls: usize) {
        let (n, code) = self.places[question];
        let cells = &self.boards[n].cells;
        for _ in 0..calls {
            black_box(raw::renju_forbidden_strict(
                black_box(cells),
                black_box(code),
            ));
        }
    }
}
