//! The referee: single points, and the list of crosses.

mod common;

use common::boards;
use renju::{Cells, Colour, Cross, Point, Refusal, Verdict, View};

fn point(text: &str) -> Point {
    text.parse().expect("a point")
}

/// A board by its stones, parted by spaces; a side may have none.
fn cells(blacks: &str, whites: &str) -> Cells {
    let mut cells = Cells::new();
    for (stones, colour) in [(blacks, Colour::Black), (whites, Colour::White)] {
        for stone in stones.split_whitespace() {
            cells.put(point(stone), colour);
        }
    }
    cells
}

/// Cases C6 to C12 of section 8, and the two boards beside them that request 6 answers otherwise
/// than document 01 alone: the eye of a Three completes a five.
#[test]
fn cases() {
    let cross = "G8 I8 H7 H9";
    for (name, blacks, whites, at, strict) in [
        ("C6", "D8 E8 F8 H8 I8", "", "G8", Verdict::Overline),
        ("C7", cross, "", "H8", Verdict::DoubleThree),
        ("C8", cross, "E8 K8", "H8", Verdict::None),
        ("C8", cross, "E8", "H8", Verdict::DoubleThree),
        ("C9", "E8 F8 G8 H9 H10 H11", "", "H8", Verdict::DoubleFour),
        ("C11", "D8 F8 H8 J8", "", "G8", Verdict::DoubleFour),
        ("C12", "E8 F8 G8", "", "H8", Verdict::None),
        ("five", "D5 E6 F8 F9 G8 H6 H9", "", "F6", Verdict::None),
        (
            "five, one question deeper",
            "F6 G5 G7 I5 I6 I8 I9 J8",
            "",
            "G6",
            Verdict::DoubleThree,
        ),
    ] {
        let cells = cells(blacks, whites);
        assert_eq!(cells.verdict(point(at)), strict, "{name}");
        assert_eq!(cells.plain_verdict(point(at)), Ok(strict), "{name}");
    }
    let c10 = cells("D8 E8 F8 G8 H9 H10 H11 I9 J10 K11", "");
    assert_eq!(c10.verdict(point("H8")), Verdict::None);
    assert_eq!(c10.plain_verdict(point("H8")), Ok(Verdict::DoubleFour));
}

/// The list has what the strict verdict says of each point.
#[test]
fn list_and_verdicts() {
    let mut kinds = [0; 4];
    for cells in boards(200, 11) {
        let strict = Point::all().map(|point| Cross {
            point,
            verdict: cells.verdict(point),
        });
        let crosses = cells.forbidden_points();
        let forbidden = strict.filter(|cross| cross.verdict.is_forbidden());
        assert!(crosses.iter().copied().eq(forbidden));
        for cross in &crosses {
            kinds[usize::from(cross.verdict.number())] += 1;
            assert_eq!(cells.plain_verdict(cross.point), Ok(cross.verdict));
        }
    }
    assert_eq!(kinds[0], 0);
    assert!(kinds[1..].iter().all(|&count| count > 0), "{kinds:?}");
}

#[test]
fn occupied_points() {
    for cells in boards(20, 12) {
        for point in Point::all() {
            let plain = cells.plain_verdict(point);
            match cells.stone(point) {
                Some(_) => {
                    assert_eq!(plain, Err(Refusal::Occupied));
                    assert_eq!(cells.verdict(point), Verdict::None);
                }
                None => assert!(plain.is_ok()),
            }
        }
    }
}

/// The turned board's list is the turned list, in code order.
#[test]
fn lists_in_eight_views() {
    for cells in boards(50, 13) {
        for view in View::ALL {
            let turn = |cross: Cross| Cross {
                point: cross.point.turned(view),
                ..cross
            };
            let mut turned: Vec<Cross> = cells.forbidden_points().into_iter().map(turn).collect();
            turned.sort();
            assert_eq!(cells.turned(view).forbidden_points()[..], turned);
        }
    }
}

#[test]
fn lists_compare_by_their_items() {
    let (one, same) = (cells("H8", "A1"), cells("H8", "B1"));
    assert_eq!(one.stones(Colour::Black), same.stones(Colour::Black));
    assert_ne!(one.stones(Colour::White), same.stones(Colour::White));
    assert_eq!(format!("{:?}", one.stones(Colour::Black)), "[Point(H8)]");
    assert_eq!(one.stones(Colour::Black).clone().as_ref(), [point("H8")]);
}
