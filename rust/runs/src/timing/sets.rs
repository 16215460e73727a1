//! The boards that are asked about, made from a seed and ready in every form that a question takes.

use oracle::board::board::Board;
use oracle::board::grid::Grid;
use oracle::boards::{self, Dice, NESTED_DEPTH};
use oracle::original::{self, Cells};
use renju::Point;

/// One board in all its forms, so that no timed call has to make one.
#[derive(Clone)]
pub struct Ready {
    pub cells: Cells,
    pub board: Board,
    /// The original's board without its hash, which the port leaves out.
    pub grid: Grid,
    /// The plain diagram, as the original writes it.
    pub text: String,
}

impl Ready {
    /// The board in all forms.
    pub fn new(cells: Cells) -> Self {
        let board = original::to_board(&cells);
        let text = board.to_string();
        let grid = text.parse().expect("a plain diagram reads back");
        Self {
            cells,
            board,
            grid,
            text,
        }
    }

    /// The codes of the empty points.
    pub fn empty(&self) -> impl Iterator<Item = u8> + '_ {
        (0..225).filter(|&p| self.cells[p as usize] == 0)
    }
}

/// Some boards of one sort, with the words that name them in the table.
pub struct Set {
    pub name: String,
    pub boards: Vec<Ready>,
}

/// How many stones the game boards have.
pub const STONES: [usize; 4] = [8, 20, 40, 80];

/// Games that have reached so many stones.
pub fn games(seed: u64, stones: usize, count: usize) -> Set {
    // Each set has its own dice: more boards of one set leave the others as they are.
    let mut dice = Dice::new(seed.wrapping_mul(1000).wrapping_add(stones as u64));
    let boards = (0..count).map(|_| Ready::new(boards::game_of(&mut dice, stones)));
    Set {
        name: format!("games, {stones} stones"),
        boards: boards.collect(),
    }
}

/// Boards on which some strict question holds three others inside one another, or more.
pub fn nested(seed: u64, count: usize) -> Set {
    let mut dice = Dice::new(seed.wrapping_mul(1000).wrapping_add(999));
    let boards = (0..count).map(|_| Ready::new(boards::nested(&mut dice)));
    Set {
        name: format!("nested {NESTED_DEPTH} deep or more"),
        boards: boards.collect(),
    }
}

/// The moves of one game in turn, Black's first, at most so many.
///
/// The same dice make the same game however long it may become, so each board of it holds one
/// stone more than the board before.
pub fn moves(seed: u64, most: usize) -> Vec<Point> {
    let mut moves = Vec::new();
    let mut last = [0; 225];
    for n in 1..=most {
        let next = boards::game(&mut Dice::new(seed), n);
        let code = (0..225).find(|&p| next[p as usize] != last[p as usize]);
        // A game that is over grows no more.
        let Some(Ok(point)) = code.map(Point::from_code) else {
            break;
        };
        moves.push(point);
        last = next;
    }
    moves
}
