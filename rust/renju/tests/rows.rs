//! Rows of boards and of lines alone.

mod common;

use common::{Dice, boards};
use renju::{Cells, Colour, Kind, Line, Point, ROWS, ROWS_ON, Refusal, Row};
use std::collections::HashSet;

fn cells(text: &str) -> Cells {
    text.parse().expect("a board")
}

fn line(blacks: u16, whites: u16, size: u8) -> Line {
    Line::new(blacks, whites, size).expect("a sound line")
}

/// The lines of cases C1 to C5 of section 8.
#[test]
fn cases_on_lines() {
    use Colour::{Black, White};
    use Kind::{Five, Four, Overlined, Overlining, Sword, Three};
    let c1 = line(0b1111, 0, 5);
    assert_eq!(c1.row_starts(Black, Four), 0b1);
    assert_eq!(c1.row_eyes(Black, Four), 0b10000);
    let c2 = line(0b11100, 0, 15);
    assert_eq!(c2.row_starts(Black, Three), 0b110);
    assert_eq!(c2.row_starts(Black, Sword), 0b111);
    let c3 = line(0, 0b101111, 15);
    assert_eq!(c3.row_starts(White, Four), 0b11);
    assert_eq!(c3.row_eyes(White, Four), 0b10000);
    let c4 = line(0b101111, 0, 15);
    assert_eq!(c4.row_starts(Black, Four), 0);
    assert_eq!(c4.row_starts(Black, Overlining), 0b10);
    let c5 = line(0b111111, 0, 15);
    assert_eq!(c5.row_starts(Black, Five), 0);
    assert_eq!(c5.row_starts(Black, Overlined), 0b10);
    assert_eq!(line(0, 0b111111, 15).row_starts(White, Five), 0b11);
}

/// The starts through a cell are those whose window, or the four cells shared
/// by two, has it.
#[test]
fn starts_through_a_cell() {
    let mut dice = Dice::new(6);
    for _ in 0..500 {
        let size = 5 + dice.below(11) as u8;
        let room = (1u16 << size) - 1;
        let blacks = dice.roll() as u16 & room;
        let whites = dice.roll() as u16 & dice.roll() as u16 & room & !blacks;
        let line = line(blacks, whites, size);
        assert_eq!(
            (line.blacks(), line.whites(), line.size()),
            (blacks, whites, size)
        );
        for (colour, kind) in questions() {
            let width = match kind {
                Kind::Sword | Kind::Four | Kind::Five => 5,
                _ => 4,
            };
            let starts = line.row_starts(colour, kind);
            for cell in 0..size {
                let near = (0..15).filter(|&j| j <= cell && cell < j + width);
                let mask = near.fold(0, |mask, j| mask | 1u16 << j);
                let through = line.row_starts_on(cell, colour, kind);
                assert_eq!(through, Ok(starts & mask));
            }
            let past = line.row_starts_on(size, colour, kind);
            assert_eq!(past, Err(Refusal::Place));
        }
    }
}

fn questions() -> impl Iterator<Item = (Colour, Kind)> {
    let kinds = |colour| Kind::ALL.into_iter().map(move |kind| (colour, kind));
    Colour::ALL.into_iter().flat_map(kinds)
}

/// A line's rows on a board: those of row 8 alone, and no other.
#[test]
fn a_line_on_a_board() {
    let mut dice = Dice::new(7);
    for _ in 0..200 {
        let blacks = dice.roll() as u16 & 0x7fff;
        let whites = dice.roll() as u16 & 0x7fff & !blacks;
        let mut cells = Cells::new();
        for x in 0..15 {
            let point = Point::new(x, 7).unwrap();
            if blacks >> x & 1 != 0 {
                cells.put(point, Colour::Black);
            }
            if whites >> x & 1 != 0 {
                cells.put(point, Colour::White);
            }
        }
        let line = line(blacks, whites, 15);
        for (colour, kind) in questions() {
            let rows = cells.rows(colour, kind);
            let starts = rows.iter().filter(|row| row.key() == 22);
            let mask = starts.fold(0, |mask, row| mask | 1u16 << row.start());
            assert_eq!(mask, line.row_starts(colour, kind));
            let eyes = rows.iter().filter(|row| row.key() == 22);
            let eyes = eyes.flat_map(|row| row.eyes());
            let mask = eyes.fold(0, |mask, p| mask | 1u16 << p.x());
            assert_eq!(mask, line.row_eyes(colour, kind));
        }
    }
}

/// Every stone of a row is the colour's, every eye is empty, and the row goes
/// through all of them but a fifth cell that its two windows do not share.
#[test]
fn points_of_rows() {
    let mut seen = HashSet::new();
    for cells in boards(100, 8) {
        for (colour, kind) in questions() {
            for &row in &cells.rows(colour, kind) {
                check_points(&cells, colour, kind, row);
                seen.insert(row.key());
            }
        }
    }
    assert_eq!(seen.len(), 72, "rows on every line that there is");
}

fn check_points(cells: &Cells, colour: Colour, kind: Kind, row: Row) {
    assert_eq!(row.stones().count() as u32, row.stones_mask().count_ones());
    assert_eq!(row.eyes().count() as u32, row.eyes_mask().count_ones());
    assert!(row.stones().all(|p| cells.stone(p) == Some(colour)));
    assert!(row.eyes().all(|p| cells.stone(p).is_none()));
    let bytes = [row.key(), row.start(), row.stones_mask(), row.eyes_mask()];
    assert_eq!(row.to_bytes(), bytes);
    for point in row.stones().chain(row.eyes()) {
        let through = cells.rows_on(point, colour, kind);
        let expected = !is_unshared(kind, row, point);
        assert_eq!(through.contains(&row), expected, "{row:?} at {point}");
    }
}

/// Whether a point of a row is its fifth cell and the row is on two windows:
/// such a row is through the four cells that both have.
fn is_unshared(kind: Kind, row: Row, point: Point) -> bool {
    let fifth = |mask: u8| mask >> 4 & 1 != 0;
    let last = match (fifth(row.stones_mask()), fifth(row.eyes_mask())) {
        (true, _) => row.stones().last(),
        (_, true) => row.eyes().last(),
        _ => None,
    };
    !matches!(kind, Kind::Sword | Kind::Four | Kind::Five) && last == Some(point)
}

/// A stone on an eye makes the next kind of the row.
#[test]
fn rows_grow_by_their_eyes() {
    use Kind::{Five, Four, Straight, Sword, Three, Two};
    let mut seen = HashSet::new();
    for cells in boards(50, 14) {
        for (kind, next) in [(Two, Three), (Three, Straight), (Sword, Four), (Four, Five)] {
            for colour in Colour::ALL {
                for &row in &cells.rows(colour, kind) {
                    assert!(grows(&cells, colour, row, next), "{kind} {row:?}\n{cells}");
                    seen.insert((kind, colour));
                }
            }
        }
    }
    assert_eq!(seen.len(), 8);
}

fn grows(cells: &Cells, colour: Colour, row: Row, next: Kind) -> bool {
    let place = |row: &Row| (row.key(), row.start());
    row.eyes().all(|eye| {
        let mut more = *cells;
        more.put(eye, colour);
        let rows = more.rows(colour, next);
        rows.iter().any(|other| place(other) == place(&row))
    })
}

/// A straight four has two windows of four stones too, but its eye makes five.
#[test]
fn a_straight_four_is_overlining() {
    let mut cells = cells("E8,F8,G8,H8/A1");
    for kind in [Kind::Straight, Kind::Overlining] {
        let rows = cells.rows(Colour::Black, kind);
        assert_eq!(rows.len(), 1, "{kind}");
        assert!(rows[0].stones().eq(cells.stones(Colour::Black)), "{kind}");
    }
    let eye = "I8".parse().unwrap();
    let overlining = cells.rows(Colour::Black, Kind::Overlining);
    assert!(overlining[0].eyes().eq([eye]));
    cells.put(eye, Colour::Black);
    assert_eq!(cells.rows(Colour::Black, Kind::Five).len(), 1);
    assert!(cells.rows(Colour::Black, Kind::Overlined).is_empty());
}

/// The rows through a point are rows of the board, in the same order.
#[test]
fn rows_through_points() {
    for cells in boards(20, 9) {
        for (colour, kind) in questions() {
            let rows = cells.rows(colour, kind);
            assert!(rows.is_sorted_by_key(|row| (row.key(), row.start())));
            for point in Point::all() {
                let through = cells.rows_on(point, colour, kind);
                assert!(through.is_sorted_by_key(|row| (row.key(), row.start())));
                assert!(through.iter().all(|row| rows.contains(row)));
            }
        }
    }
}

#[test]
fn the_most_rows() {
    let full = Cells::from_bytes(&[2; 225]).unwrap();
    let most = questions().map(|(colour, kind)| full.rows(colour, kind).len());
    assert_eq!(most.max(), Some(ROWS));
    let centre = Point::new(7, 7).unwrap();
    let through = questions().map(|(colour, kind)| full.rows_on(centre, colour, kind).len());
    assert_eq!(through.max(), Some(ROWS_ON));
}

#[test]
fn four_eyes() {
    let open = cells("E8,F8,G8,H8/A1");
    let eyes = |cells: &Cells, at: &str, colour| {
        let eyes = cells.four_eyes_on(at.parse().unwrap(), colour);
        let texts: Vec<String> = eyes.iter().map(Point::to_string).collect();
        texts.join(" ")
    };
    assert_eq!(eyes(&open, "F8", Colour::Black), "D8 I8");
    assert_eq!(eyes(&open, "D8", Colour::Black), "D8");
    assert_eq!(eyes(&open, "F8", Colour::White), "");
    // C3 on row 1: two rows, one eye.
    let split = cells("O15/A1,B1,C1,D1,F1");
    assert_eq!(eyes(&split, "B1", Colour::White), "E1");
    // The point itself, once for each of two lines.
    let cross = cells("H4,H5,H6,H7,D8,E8,F8,G8/A1");
    assert_eq!(eyes(&cross, "H8", Colour::Black), "H8 H8");
}

#[test]
fn four_eyes_are_eyes_of_fours() {
    for cells in boards(50, 10) {
        for colour in Colour::ALL {
            for point in Point::all() {
                let fours = cells.rows_on(point, colour, Kind::Four);
                let eyes: HashSet<Point> = fours.iter().flat_map(|row| row.eyes()).collect();
                let asked = cells.four_eyes_on(point, colour);
                assert_eq!(asked.into_iter().collect::<HashSet<_>>(), eyes);
            }
        }
    }
}
