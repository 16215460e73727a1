//! Positions with attacks in them: games, and threes of one side's strewn among stones of the other's.

use super::plain::{self, Cells};
use oracle::boards::{self, Dice, stone_count};

/// A board of one of four sorts.
pub fn board(dice: &mut Dice) -> Cells {
    match dice.below(4) {
        0 => {
            let moves = 10 + dice.below(40);
            boards::game(dice, moves)
        }
        1 => boards::clustered(dice),
        _ => {
            let (side, threes, others) =
                (1 + dice.below(2) as u8, 2 + dice.below(4), dice.below(12));
            strewn(dice, side, threes, others)
        }
    }
}

/// Threes of a side's in windows of five, then single stones of the other's.
pub fn strewn(dice: &mut Dice, side: u8, threes: usize, others: usize) -> Cells {
    let mut cells = [0; 225];
    for _ in 0..threes {
        let (dx, dy) = dice.pick(&[(0, 1), (1, 0), (1, 1), (1, -1)]);
        let (x, y) = (3 + dice.below(9) as i32, 3 + dice.below(9) as i32);
        let skip = [dice.below(5), dice.below(5)];
        for k in 0..5 {
            let (x, y) = (x + (k as i32 - 2) * dx, y + (k as i32 - 2) * dy);
            if !skip.contains(&k) {
                cells[(15 * x + y) as usize] = side;
            }
        }
    }
    for _ in 0..others {
        let p = dice.below(225);
        if cells[p] == 0 {
            cells[p] = 3 - side;
        }
    }
    cells
}

/// A board of 20 to 60 stones and a side for which it is hard: no five stands, neither side can make
/// one, and the side has attacks at ten points or more.
pub fn hard(dice: &mut Dice) -> (Cells, u8) {
    loop {
        let side = 1 + dice.below(2) as u8;
        let (threes, others) = (4 + dice.below(6), 8 + dice.below(25));
        let cells = strewn(dice, side, threes, others);
        if is_hard(&cells, side) {
            return (cells, side);
        }
    }
}

/// A hard board without a line: of one with lines, each one's first point is taken by the other side,
/// until `plan` finds none, and what is left is still hard.
pub fn spoilt(dice: &mut Dice, plan: impl Fn(&Cells, u8) -> Option<u8>) -> (Cells, u8) {
    loop {
        let (mut cells, side) = hard(dice);
        while let Some(p) = plan(&cells, side) {
            cells[usize::from(p)] = plain::other(side);
        }
        if is_hard(&cells, side) {
            return (cells, side);
        }
    }
}

fn is_hard(cells: &Cells, side: u8) -> bool {
    (20..=60).contains(&stone_count(cells)) && plain::is_hard(cells, side)
}
