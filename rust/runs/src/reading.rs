//! A whole game read by the original: its board, its verdicts and its rows of five, move by move;
//! the verdicts may be those of request 6.

use oracle::board::board::Board;
use oracle::board::row::RowKind;
use oracle::left_out;
use oracle::original::{player, point, to_cells};

/// What a reading makes of a game.
pub struct Reading {
    /// The number of the first faulty move, from 1, or 0.
    pub number: u8,
    /// 0 none, 1 occupied, 2 forbidden to Black, 3 after a five.
    pub reason: u8,
    /// 0 nobody, 1 Black, 2 White.
    pub winner: u8,
    /// The final board, or the one before the fault.
    pub board: Board,
}

/// Who plays the move at a place from 0 on: Black plays moves 1, 3, 5 ..
pub fn mover(place: usize) -> u8 {
    1 + (place % 2) as u8
}

/// Reads at most 225 codes below 225, by the original's own verdicts.
pub fn read(moves: &[u8]) -> Reading {
    read_by(moves, |board, code| {
        board.forbidden_strict(point(code)).is_some()
    })
}

/// Reads them by the verdicts that a port is held to, and says whether one of these is left out of
/// the comparison with the original.
pub fn read_held(moves: &[u8]) -> (Reading, bool) {
    let mut is_left_out = false;
    let reading = read_by(moves, |board, code| {
        let held = left_out::strict(&to_cells(board), board, code);
        is_left_out |= held.left_out;
        held.answer != 0
    });
    (reading, is_left_out)
}

/// Reads them by what says whether a move of Black's is forbidden on a board.
fn read_by(moves: &[u8], mut is_forbidden: impl FnMut(&Board, u8) -> bool) -> Reading {
    let (mut board, mut winner) = (Board::new(), 0);
    for (place, &code) in moves.iter().enumerate() {
        let colour = mover(place);
        let reason = reason(&board, code, colour, winner, &mut is_forbidden);
        if reason != 0 {
            return Reading {
                number: place as u8 + 1,
                reason,
                winner: 0,
                board,
            };
        }
        board.put(player(colour), point(code));
        let mut fives = board.rows_on(point(code), player(colour), RowKind::Five);
        if fives.next().is_some() {
            winner = colour;
        }
    }
    Reading {
        number: 0,
        reason: 0,
        winner,
        board,
    }
}

/// The first reason that applies to a move, 0 for none.
fn reason(
    board: &Board,
    code: u8,
    colour: u8,
    winner: u8,
    is_forbidden: &mut impl FnMut(&Board, u8) -> bool,
) -> u8 {
    if board.stone(point(code)).is_some() {
        1
    } else if colour == 1 && is_forbidden(board, code) {
        2
    } else if winner != 0 {
        3
    } else {
        0
    }
}

impl Reading {
    /// The 228 bytes of the report.
    pub fn bytes(&self) -> Vec<u8> {
        let mut out = vec![self.number, self.reason, self.winner];
        out.extend(to_cells(&self.board));
        out
    }
}
