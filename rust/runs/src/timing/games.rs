//! Whole games to be timed, and the race over them: the original asked move by move, against one
//! call of the host interface on the moves.

use std::hint::black_box;

use oracle::board::board::Board;
use oracle::boards::{self, Dice};
use oracle::original::{player, point, strict};
use renju::raw;

use super::race::Race;
use crate::reading::{mover, read, read_held};

/// How many moves the games have.
pub const LENGTHS: [usize; 4] = [20, 60, 120, 225];

/// The longest game that is played as players play: most are over by a five before that. A longer
/// one is a board without a five, put stone by stone.
const PLAYED: usize = 60;

/// Games of so many moves, each move a code, without a fault by the original and by request 6: both
/// sides read all of each.
pub fn games(seed: u64, length: usize, count: usize) -> Vec<Vec<u8>> {
    let mut dice = Dice::new(seed.wrapping_mul(1000).wrapping_add(length as u64));
    let made = std::iter::repeat_with(|| {
        if length <= PLAYED {
            played(&mut dice, length)
        } else {
            put_in_turn(&mut dice, length)
        }
    });
    made.filter(|moves| is_faultless(moves))
        .take(count)
        .collect()
}

/// Whether a game is without a fault, and meets no eye that completes a five.
fn is_faultless(moves: &[u8]) -> bool {
    let (reading, is_left_out) = read_held(moves);
    reading.number == 0 && !is_left_out
}

/// The first game of the dice that gets so far.
fn played(dice: &mut Dice, length: usize) -> Vec<u8> {
    loop {
        let moves = boards::game_moves(dice, length);
        if moves.len() == length {
            return moves.into_iter().map(|p| p as u8).collect();
        }
    }
}

/// The stones of a full board without a five, of either colour in turn, each of Black's where it
/// is not forbidden: no stone makes a five on the way either.
fn put_in_turn(dice: &mut Dice, length: usize) -> Vec<u8> {
    loop {
        let full = without_five(dice);
        let of = |colour| (0..225).filter(|&p| full[p as usize] == colour).collect();
        let left: [Vec<u8>; 2] = [of(1), of(2)];
        if let Some(moves) = in_turn(dice, left, length) {
            return moves;
        }
    }
}

/// So many moves, out of those left to each colour; nothing where Black has no move.
fn in_turn(dice: &mut Dice, mut left: [Vec<u8>; 2], length: usize) -> Option<Vec<u8>> {
    let mut board = Board::new();
    let mut moves = Vec::new();
    while moves.len() < length {
        let colour = mover(moves.len());
        let own = &mut left[usize::from(colour) - 1];
        let may = |code: u8| colour == 2 || strict(&board, code) == 0;
        let tries = (0..100).map(|_| dice.below(own.len()));
        let place = tries.into_iter().find(|&place| may(own[place]))?;
        let code = own.swap_remove(place);
        board.put(player(colour), point(code));
        moves.push(code);
    }
    Some(moves)
}

/// A full board, 113 black stones and 112 white ones, with no five stones of one colour in a row:
/// pairs of stones change places while there is none.
fn without_five(dice: &mut Dice) -> [u8; 225] {
    let mut cells = [0; 225];
    for (p, cell) in cells.iter_mut().enumerate() {
        let (x, y) = (p / 15, p % 15);
        *cell = if (x + 2 * y) % 4 < 2 { 1 } else { 2 };
    }
    for _ in 0..4000 {
        let (a, b) = (dice.below(225), dice.below(225));
        cells.swap(a, b);
        if longest(&cells, a) > 4 || longest(&cells, b) > 4 {
            cells.swap(a, b);
        }
    }
    cells
}

/// How many stones of one colour stand in a row through a point, at most.
fn longest(cells: &[u8; 225], p: usize) -> usize {
    let at = |x: i32, y: i32| {
        let inside = (0..15).contains(&x) && (0..15).contains(&y);
        inside.then(|| cells[(15 * x + y) as usize])
    };
    let (x, y) = ((p / 15) as i32, (p % 15) as i32);
    let run = |dx: i32, dy: i32| {
        let same = |n: &i32| at(x + n * dx, y + n * dy) == Some(cells[p]);
        (1..).take_while(same).count()
    };
    let both = |(dx, dy): (i32, i32)| 1 + run(dx, dy) + run(-dx, -dy);
    let ways = [(0, 1), (1, 0), (1, 1), (1, -1)].map(both);
    ways.into_iter().max().unwrap_or(0)
}

/// A whole game refereed.
pub struct Games {
    games: Vec<Vec<u8>>,
    /// Lent to each call; zeroed once, here.
    out: [u8; renju::REPORT],
}

impl Games {
    /// The questions: each game is one.
    pub fn new(games: Vec<Vec<u8>>) -> Self {
        Self {
            games,
            out: [0; renju::REPORT],
        }
    }
}

impl Race for Games {
    fn count(&self) -> usize {
        self.games.len()
    }

    fn agrees(&mut self, question: usize) -> bool {
        let (reading, _) = read_held(&self.games[question]);
        let word = raw::renju_game(&self.games[question], &mut self.out);
        word == reading.number.into() && self.out[..] == reading.bytes()
    }

    fn other(&mut self, question: usize, calls: usize) {
        for _ in 0..calls {
            black_box(read(black_box(&self.games[question])));
        }
    }

    fn ours(&mut self, question: usize, calls: usize) {
        for _ in 0..calls {
            let moves = black_box(&self.games[question]);
            black_box(raw::renju_game(moves, &mut self.out));
        }
    }
}
