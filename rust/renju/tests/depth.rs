//! How deep questions go: the sentences of document 02, No. 14, on boards and in all views.

mod common;

use common::boards;
use renju::raw::renju_depth;
use renju::{Cells, Point, Verdict, View};

fn point(text: &str) -> Point {
    text.parse().expect("a point")
}

/// A board of black stones, with a white one in a corner.
fn blacks(stones: &str) -> Cells {
    let text = format!("{}/O15", stones.replace(' ', ","));
    text.parse().expect("a board")
}

#[test]
fn sentences() {
    for (name, stones, at, depth) in [
        ("occupied", "G8 I8 H7 H9", "G8", 0),
        ("nothing near", "G8 I8 H7 H9", "A1", 1),
        ("an overline", "D8 E8 F8 H8 I8", "G8", 1),
        ("a double four", "E8 F8 G8 H9 H10 H11", "H8", 1),
        ("a five", "D8 E8 F8 G8 H9 H10 I9 J10", "H8", 1),
        ("one Two alone", "F8 G8", "H8", 1),
        ("a double three", "G8 I8 H7 H9", "H8", 2),
        ("each eye completes a five", EVERY_EYE_A_FIVE, "H8", 2),
        (
            "another question at an eye",
            "F6 G5 G7 I5 I6 I8 I9 J8",
            "G6",
            3,
        ),
    ] {
        assert_eq!(blacks(stones).depth(point(at)), depth, "{name}");
    }
}

/// A stone at H8 makes a Three up and one across, with the eyes H10 and J8; each of these ends a row of
/// four others.
const EVERY_EYE_A_FIVE: &str = "H9 H11 I8 K8 D10 E10 F10 G10 J4 J5 J6 J7";

/// On boards of all densities: at most the number of empty points, 0 where there is a stone and nowhere
/// else, two at least for a double three; the same in all views; with the verdict beside it.
#[test]
fn bound_views_and_verdict() {
    let mut deep = 0;
    for cells in boards(300, 14) {
        let empty = cells.empty_points().len();
        for point in Point::all() {
            let depth = cells.depth(point);
            deep += usize::from(depth > 2);
            let verdict = cells.verdict(point);
            assert!(usize::from(depth) <= empty);
            assert_eq!(depth == 0, cells.stone(point).is_some());
            assert!(verdict != Verdict::DoubleThree || depth >= 2);
            let word = 256 * u32::from(depth) + u32::from(verdict.number());
            assert_eq!(renju_depth(cells.as_bytes(), point.code()), word);
        }
    }
    assert!(deep > 0, "no question asks deeper than two");
    for cells in boards(60, 15) {
        for view in View::ALL {
            let turned = cells.turned(view);
            for point in Point::all() {
                assert_eq!(turned.depth(point.turned(view)), cells.depth(point));
            }
        }
    }
}
