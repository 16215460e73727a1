//! The original's answers as numbers: cell bytes in, bytes and lists out.
//!
//! Each function asks the original one question through its public names
//! and only changes the form of the answer.

use crate::board::board::Board;
use crate::board::forbidden::ForbiddenKind;
use crate::board::grid::Grid;
use crate::board::line::Line;
use crate::board::player::Player;
use crate::board::point::{Direction, Point, Points};
use crate::board::row::{Row, RowKind};

/// 225 cell bytes in code order: 0 empty, 1 black, 2 white.
pub type Cells = [u8; 225];

/// The row kinds by number, in the order they stand in `row.rs`.
pub const KINDS: [RowKind; 8] = [
    RowKind::Two,
    RowKind::Three,
    RowKind::Straight,
    RowKind::Sword,
    RowKind::Four,
    RowKind::Five,
    RowKind::Overlining,
    RowKind::Overlined,
];

/// The colour of a number: 1 Black, 2 White.
pub fn player(colour: u8) -> Player {
    Player::from(colour == 1)
}

/// The point of a code.
pub fn point(code: u8) -> Point {
    Point::try_from(code).expect("a code below 225")
}

fn codes(points: impl Iterator<Item = Point>) -> Vec<u8> {
    points.map(u8::from).collect()
}

/// The original's board with the stones of the cell bytes.
pub fn to_board(cells: &Cells) -> Board {
    let of = |colour: u8| {
        let codes = (0..225u8).filter(|&p| cells[p as usize] == colour);
        Points(codes.map(point).collect())
    };
    Board::from_stones(&of(1), &of(2))
}

/// The stones of the original's board as cell bytes.
pub fn to_cells(board: &Board) -> Cells {
    let mut cells = [0; 225];
    for (p, cell) in cells.iter_mut().enumerate() {
        *cell = match board.stone(point(p as u8)) {
            None => 0,
            Some(Player::Black) => 1,
            Some(Player::White) => 2,
        };
    }
    cells
}

/// A line of its own with the given stones.
pub fn to_line(size: u8, blacks: u16, whites: u16) -> Line {
    let mut line = Line::new(size);
    for i in 0..size {
        if blacks >> i & 1 != 0 {
            line.put(Player::Black, i);
        }
        if whites >> i & 1 != 0 {
            line.put(Player::White, i);
        }
    }
    line
}

fn verdict_number(kind: Option<ForbiddenKind>) -> u8 {
    match kind {
        None => 0,
        Some(ForbiddenKind::DoubleThree) => 1,
        Some(ForbiddenKind::DoubleFour) => 2,
        Some(ForbiddenKind::Overline) => 3,
    }
}

/// The strict verdict.
pub fn strict(board: &Board, code: u8) -> u8 {
    verdict_number(board.forbidden_strict(point(code)))
}

/// The plain verdict; only for empty points.
pub fn plain(board: &Board, code: u8) -> u8 {
    verdict_number(board.forbidden(point(code)))
}

/// The forbidden points, each as its kind and its code.
pub fn forbidden_list(board: &Board) -> Vec<(u8, u8)> {
    let numbers = |(kind, p)| (verdict_number(Some(kind)), u8::from(p));
    board.forbidden_points().into_iter().map(numbers).collect()
}

/// A row's key, start, stones mask and eyes mask. The masks are read off the
/// row's points, each by its cell on the row's own line.
fn row_bytes(row: Row) -> [u8; 4] {
    let start = row.start_index();
    let key = Grid::line_key(start.d, start.i).expect("rows are on stored lines");
    let mask = |points: &mut dyn Iterator<Item = Point>| {
        points.fold(0, |mask, p| mask | 1 << (p.to_index(start.d).j - start.j))
    };
    let stones = mask(&mut row.stones());
    let eyes = mask(&mut row.eyes());
    [key as u8, start.j, stones, eyes]
}

/// The rows of a kind, four bytes each.
pub fn rows(board: &Board, colour: u8, kind: u8) -> Vec<[u8; 4]> {
    let found = board.rows(player(colour), KINDS[kind as usize]);
    found.map(row_bytes).collect()
}

/// The rows of a kind through a point, four bytes each.
pub fn rows_on(board: &Board, code: u8, colour: u8, kind: u8) -> Vec<[u8; 4]> {
    let found = board.rows_on(point(code), player(colour), KINDS[kind as usize]);
    found.map(row_bytes).collect()
}

/// The codes of the four eyes through a point.
pub fn four_eyes_on(board: &Board, code: u8, colour: u8) -> Vec<u8> {
    codes(board.four_eyes_on(point(code), player(colour)))
}

/// The codes of the points around a point, up to a distance, or of the empty ones among them.
pub fn neighbours(board: &Board, code: u8, distance: u8, only_empty: bool) -> Vec<u8> {
    codes(board.neighbors(point(code), distance, only_empty))
}

/// The codes of a side's stones.
pub fn stones(board: &Board, colour: u8) -> Vec<u8> {
    codes(board.stones(player(colour)))
}

/// The codes of the empty points.
pub fn empty_points(board: &Board) -> Vec<u8> {
    codes(board.empty_points())
}

/// The number of a direction: its place in the original's own list.
pub fn direction_number(d: Direction) -> u8 {
    let found = Direction::ALL.iter().position(|&other| other == d);
    found.expect("the list is whole") as u8
}

/// The refusal number of section 2 for an error text of the original.
pub fn refusal_number(error: &str) -> u8 {
    match error {
        "Failed to parse x part." => 3,
        "Failed to parse y part." => 4,
        "Wrong length." => 5,
        "Wrong num of lines" => 6,
        "Wrong line size" => 7,
        other => panic!("an error without a number: {other}"),
    }
}

/// A text read as a board: cell bytes or a refusal number.
pub fn read(text: &str) -> Result<Cells, u8> {
    match text.parse::<Board>() {
        Ok(board) => Ok(to_cells(&board)),
        Err(error) => Err(refusal_number(error)),
    }
}
