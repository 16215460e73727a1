//! The canonical form of random boards: the least of the eight views, the same in all of them, with the first view that gives it.

#[allow(dead_code)] // One board is for other tests.
mod common;

use renju::{Canonical, Cells, View};
use std::hash::{BuildHasher, RandomState};

fn held(cells: &Cells) {
    let (least, view) = cells.canonical();
    let turned = View::ALL.map(|view| cells.turned(view));
    let bytes = |cells: &Cells| *cells.as_bytes();
    assert_eq!(Some(bytes(&least)), turned.iter().map(bytes).min());
    let first = turned.iter().position(|board| *board == least);
    assert_eq!(first, Some(usize::from(view.number())));
    let (state, key) = (RandomState::new(), Canonical::of(cells));
    assert_eq!(key.cells(), &least);
    for board in turned {
        assert_eq!(board.canonical().0, least);
        assert_eq!(Canonical::from(board), key);
        assert_eq!(state.hash_one(Canonical::of(&board)), state.hash_one(key));
    }
    // It is its own canonical form, in view 0.
    assert_eq!(least.canonical(), (least, View::Same));
}

#[test]
fn the_least_of_the_eight_views() {
    for cells in common::boards(2_000, 20261116) {
        held(&cells);
    }
}

#[test]
fn boards_that_some_views_leave_alone() {
    let boards = ["H8", "H8/G7,I9", "A1,O15/A15,O1", "H1/H15"];
    held(&Cells::new());
    for text in boards {
        held(&text.parse().expect("a board"));
    }
    let other: Cells = "H8/G7".parse().expect("a board");
    let same: Cells = "G7/H8".parse().expect("a board");
    assert_ne!(Canonical::of(&other), Canonical::of(&same));
}
