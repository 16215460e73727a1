//! Cases C1 to C12 of section 8, and a board beside them, on the naive
//! reading and on the original.

use oracle::cases::{BOARD_CASES, LINE_CASES, LineCase, TURNING};
use oracle::naive::{self, BLACK, Kind, WHITE};
use oracle::original;

/// The cells that the naive reading names, which the original's mask must name too.
fn agreed(case: &LineCase, kind: Kind, naive: Vec<usize>, mask: u16) -> Vec<usize> {
    assert_eq!(set_bits(mask), naive, "{} {kind:?}", case.name);
    naive
}

fn starts(case: &LineCase, colour: u8, kind: Kind) -> Vec<usize> {
    let (cells, k) = (case.cells(), original::KINDS[kind as usize]);
    let mask = line_of(&cells).row_starts(original::player(colour), k);
    agreed(case, kind, naive::starts(&cells, colour, kind), mask)
}

fn eyes(case: &LineCase, colour: u8, kind: Kind) -> Vec<usize> {
    let (cells, k) = (case.cells(), original::KINDS[kind as usize]);
    let mask = line_of(&cells).row_eyes(original::player(colour), k);
    agreed(case, kind, naive::row_eyes(&cells, colour, kind), mask)
}

fn set_bits(mask: u16) -> Vec<usize> {
    (0..16).filter(|&i| mask >> i & 1 != 0).collect()
}

fn line_of(cells: &[u8]) -> oracle::board::line::Line {
    let of = |colour: u8| {
        let set = (0..cells.len()).filter(|&i| cells[i] == colour);
        set.fold(0, |m, i| m | 1 << i)
    };
    original::to_line(cells.len() as u8, of(BLACK), of(WHITE))
}

#[test]
fn c1_to_c5() {
    let [c1, c2, c3, c4, c5_black, c5_white] = &LINE_CASES;
    assert_eq!(starts(c1, BLACK, Kind::Four), [0]);
    assert_eq!(eyes(c1, BLACK, Kind::Four), [4]);
    assert_eq!(starts(c2, BLACK, Kind::Three), [1, 2]);
    assert_eq!(starts(c2, BLACK, Kind::Sword), [0, 1, 2]);
    assert_eq!(starts(c3, WHITE, Kind::Four), [0, 1]);
    assert_eq!(eyes(c3, WHITE, Kind::Four), [4]);
    assert!(starts(c4, BLACK, Kind::Four).is_empty());
    assert_eq!(starts(c4, BLACK, Kind::Overlining), [1]);
    assert!(starts(c5_black, BLACK, Kind::Five).is_empty());
    assert_eq!(starts(c5_black, BLACK, Kind::Overlined), [1]);
    assert_eq!(starts(c5_white, WHITE, Kind::Five), [0, 1]);
}

#[test]
fn c6_to_c12() {
    for case in BOARD_CASES {
        let (cells, p) = (case.cells(), case.point());
        let board = original::to_board(&cells);
        let words = format!("{} with white {:?}", case.name, case.whites);
        assert_eq!(naive::strict(&cells, p).verdict, case.strict, "{words}");
        assert_eq!(naive::plain(&cells, p).verdict, case.plain, "{words}");
        assert_eq!(original::strict(&board, p as u8), case.strict, "{words}");
        assert_eq!(original::plain(&board, p as u8), case.plain, "{words}");
    }
}

/// The listing of section 7 names one point of this board.
#[test]
fn listing_example() {
    let cells = original::read("G8,I8,H7,H9/A1").expect("it reads");
    let list = [(naive::DOUBLE_THREE, 112)];
    assert_eq!(naive::forbidden_list(&cells), list);
    assert_eq!(original::forbidden_list(&original::to_board(&cells)), list);
}

#[test]
fn turning_boards() {
    for case in TURNING {
        let (cells, p) = (case.cells(), case.point());
        let answer = naive::strict(&cells, p);
        assert_eq!(answer.verdict, case.by_request_6, "{}", case.on);
        assert_eq!(answer.depth, case.depth, "{}", case.on);
        let board = original::to_board(&cells);
        assert_eq!(
            original::strict(&board, p as u8),
            case.strict,
            "{}",
            case.on
        );
    }
}
