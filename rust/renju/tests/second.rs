//! The second referee through the safe types, question by question beside the fast one.

mod common;

use common::{Dice, boards};
use renju::{Cells, Colour, Kind, Point, Refusal, Verdict, second};
use std::collections::HashSet;

/// Black's stones, a point, and its strict verdict. It turns on the sixth of the questions that stand
/// inside one another, on the seventh, the ninth and the tenth; in the third, by request 6, on an eye
/// that completes a five, without which it is none.
const NESTED: [(&str, &str, Verdict); 5] = [
    (
        "G7 G9 G10 G11 G12 J7 J8 J9 J10 J11 J12",
        "H9",
        Verdict::None,
    ),
    (
        "D5 D7 D8 D9 D10 G5 G6 G7 G8 G9 G10 G11",
        "E7",
        Verdict::DoubleThree,
    ),
    (
        "B12 C8 C11 D7 D10 E9 E12 F8 F11 F14 G10 H6 H9 H12 I8 I11",
        "G9",
        Verdict::DoubleThree,
    ),
    (
        "D11 D14 E11 E14 F11 F14 G11 G14 H11 H14 I11 I14 J11 J14 K11 K14 L11 L14 M11",
        "L12",
        Verdict::DoubleThree,
    ),
    (
        "B2 C2 C5 D2 D5 E2 E5 F2 F5 G2 G5 H2 H5 I2 I5 J2 J5 K2 K5 L2 L5",
        "C3",
        Verdict::None,
    ),
];

fn blacks(stones: &str) -> Cells {
    let mut cells = Cells::new();
    for stone in stones.split_whitespace() {
        cells.put(stone.parse().expect("a point"), Colour::Black);
    }
    cells
}

/// As in a game: so many moves in turn, each near the one before.
fn game(dice: &mut Dice, moves: usize) -> Cells {
    let (mut cells, mut last) = (Cells::new(), Point::new(7, 7).expect("H8"));
    for colour in Colour::ALL.into_iter().cycle().take(moves) {
        let near = cells.neighbors(last, 2, true).expect("a distance");
        let free = if near.is_empty() {
            cells.empty_points()
        } else {
            near
        };
        last = free[dice.below(free.len())];
        cells.put(last, colour);
    }
    cells
}

/// The same stones, each of the other colour.
fn swapped(cells: &Cells) -> Cells {
    let bytes = cells.as_bytes().map(|byte| (3 - byte) % 3);
    Cells::from_bytes(&bytes).expect("cells")
}

/// Empty, full and nested boards, games, and boards of any density.
fn all_boards() -> Vec<Cells> {
    let mut dice = Dice::new(15);
    let mixed: [u8; 225] = std::array::from_fn(|_| 1 + dice.below(2) as u8);
    let full = [[1; 225], [2; 225], mixed].map(|bytes| Cells::from_bytes(&bytes).expect("cells"));
    let mut all = vec![Cells::new()];
    all.extend(full);
    all.extend(NESTED.map(|(stones, _, _)| blacks(stones)));
    all.extend([8, 20, 40, 80, 150].map(|moves| game(&mut dice, moves)));
    let random = boards(8, 16);
    all.extend(random.iter().map(swapped));
    all.extend(random);
    all
}

#[test]
fn rows_as_by_the_fast_one() {
    let mut seen = HashSet::new();
    for cells in all_boards() {
        for colour in Colour::ALL {
            for kind in Kind::ALL {
                let rows = second::rows(&cells, colour, kind);
                assert_eq!(rows, cells.rows(colour, kind), "{colour:?} {kind}\n{cells}");
                if !rows.is_empty() {
                    seen.insert((colour, kind));
                }
            }
        }
    }
    assert_eq!(seen.len(), 16, "{seen:?}");
}

#[test]
fn rows_through_points_as_by_the_fast_one() {
    for cells in all_boards() {
        for point in Point::all() {
            for colour in Colour::ALL {
                for kind in Kind::ALL {
                    let rows = second::rows_on(&cells, point, colour, kind);
                    let fast = cells.rows_on(point, colour, kind);
                    assert_eq!(rows, fast, "{point} {colour:?} {kind}\n{cells}");
                }
            }
        }
    }
}

#[test]
fn four_eyes_as_by_the_fast_one() {
    let mut most = [0; 2];
    for cells in all_boards() {
        for point in Point::all() {
            for (colour, most) in Colour::ALL.into_iter().zip(&mut most) {
                let eyes = second::four_eyes_on(&cells, point, colour);
                let fast = cells.four_eyes_on(point, colour);
                assert_eq!(eyes, fast, "{point} {colour:?}\n{cells}");
                *most = eyes.len().max(*most);
            }
        }
    }
    assert!(most.iter().all(|&most| most > 2), "{most:?}");
}

#[test]
fn verdicts_as_by_the_fast_one() {
    let mut seen = HashSet::new();
    for cells in all_boards() {
        for point in Point::all() {
            let (plain, strict) = (cells.plain_verdict(point), cells.verdict(point));
            assert_eq!(
                second::plain_verdict(&cells, point),
                plain,
                "{point}\n{cells}"
            );
            let second = second::verdict(&cells, point);
            assert_eq!(second, strict, "{point}\n{cells}");
            seen.extend([plain, Ok(strict)]);
        }
    }
    let refused = HashSet::from([Err(Refusal::Occupied)]);
    let verdicts = Verdict::ALL.map(Ok);
    assert_eq!(seen, refused.into_iter().chain(verdicts).collect());
}

#[test]
fn verdicts_that_turn_on_an_answer_deep_inside() {
    for (stones, at, verdict) in NESTED {
        let (cells, point) = (blacks(stones), at.parse().expect("a point"));
        let second = second::verdict(&cells, point);
        assert_eq!(second, verdict, "{at}\n{cells}");
    }
}

#[test]
fn lists_as_by_the_fast_one() {
    let mut crosses = 0;
    for cells in all_boards() {
        let list = second::forbidden_points(&cells);
        assert_eq!(list, cells.forbidden_points(), "{cells}");
        crosses += list.len();
    }
    assert!(crosses > 20, "{crosses}");
}
