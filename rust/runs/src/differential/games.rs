//! Whole games to ask about, with faults of every kind planted.

use super::call::{Call, Given};
use super::judge::{Judge, Room};
use crate::reading::{mover, read_held};
use oracle::board::board::Board;
use oracle::board::row::RowKind;
use oracle::boards::Dice;
use oracle::naive_text;
use oracle::original::{self, player, point};

/// How many games are asked with each board.
const EACH: usize = 12;

/// The answer and the bytes of a game's report, by the original, and whether one of its verdicts
/// is left out of the comparison with it and is the naive reading's.
pub fn report(moves: &[u8]) -> ((u16, Vec<u8>), bool) {
    let (reading, is_left_out) = read_held(moves);
    ((reading.number.into(), reading.bytes()), is_left_out)
}

/// Games on both sides of every limit.
pub fn limits(judge: &mut Judge) {
    let all: Vec<u8> = (0..225).collect();
    for length in [0, 1, 2, 224, 225] {
        ask(judge, &all[..length]);
    }
    // A code that is none, first, last and behind a fault; too many moves, good and not.
    for code in [224, 225, 226, 255] {
        ask(judge, &[code]);
        ask(judge, &[112, 112, code]);
        ask(judge, &[&all[..224], &[code]].concat());
        ask(judge, &[&all[..], &[code]].concat());
    }
    ask(judge, &[0; 226]);
    ask(judge, &[7; 4000]);
    // An eye that completes a five, at the first question and one deeper: request 6 reads both
    // otherwise than the original.
    for text in [
        "D5,A15,E6,C15,F8,E15,F9,G15,G8,I15,H6,K15,H9,M15,F6",
        "F6,A15,G5,C15,G7,E15,I5,G15,I6,I15,I8,K15,I9,M15,J8,O15,G6",
    ] {
        let moves = naive_text::points(text.as_bytes()).expect("points");
        let moves: Vec<u8> = moves.into_iter().map(|code| code as u8).collect();
        ask(judge, &moves);
    }
    for room in 0..=230 {
        let given = Given::text(&[112, 113, 113]);
        judge.compare(Call::Game, &given, Room::Long(room));
    }
    let given = Given::text(&[112, 113, 113]);
    judge.compare(Call::Game, &given, Room::Short);
    judge.compare(Call::Game, &given, Room::Empty);
}

fn ask(judge: &mut Judge, moves: &[u8]) {
    let room = Room::any(&mut judge.dice);
    judge.compare(Call::Game, &Given::text(moves), room);
}

/// Some games of their own.
pub fn some(judge: &mut Judge) {
    for _ in 0..EACH {
        let mut moves = game(&mut judge.dice);
        if judge.dice.chance(2) {
            let place = judge.dice.below(moves.len());
            moves[place] = 225 + judge.dice.below(31) as u8;
        }
        ask(judge, &moves);
    }
}

/// What a game's maker leans to. All but the first and the last are in percent.
struct Habits {
    /// How many moves there are at most; play may go on past a fault or a five.
    length: usize,
    /// A move on a stone.
    repeats: usize,
    /// A move of Black's where it is forbidden, if there is such a point.
    forbidden: usize,
    /// A move that makes a five, if there is one.
    wins: usize,
    /// The end of the game at a five.
    ends: usize,
    /// How far from the stones a move is, at most.
    reach: usize,
}

fn habits(dice: &mut Dice) -> Habits {
    Habits {
        length: 1 + dice.pick(&[30, 90, 225]).min(dice.below(225)),
        repeats: dice.pick(&[0, 0, 0, 1, 4]),
        forbidden: dice.pick(&[0, 0, 2, 10]),
        wins: dice.pick(&[0, 5, 60]),
        ends: dice.pick(&[0, 60, 100]),
        reach: 1 + dice.below(3),
    }
}

/// The moves of a game: near one another, as players play, but with faults among them. What is
/// made never looks at ours.
fn game(dice: &mut Dice) -> Vec<u8> {
    let mut habits = habits(dice);
    let mut board = Board::new();
    let mut moves: Vec<u8> = Vec::new();
    while moves.len() < habits.length {
        let colour = mover(moves.len());
        let code = next(dice, &habits, &board, &moves, colour);
        board.put(player(colour), point(code));
        moves.push(code);
        let mut fives = board.rows_on(point(code), player(colour), RowKind::Five);
        if fives.next().is_some() {
            if dice.chance(habits.ends) {
                break;
            }
            // So that two reasons apply to one move.
            (habits.repeats, habits.forbidden) = (30, 50);
        }
    }
    moves
}

/// The next move, by the habits.
fn next(dice: &mut Dice, habits: &Habits, board: &Board, moves: &[u8], colour: u8) -> u8 {
    if moves.is_empty() {
        return dice.below(225) as u8;
    }
    if dice.chance(habits.repeats) {
        return dice.pick(moves);
    }
    if colour == 1 && dice.chance(habits.forbidden) {
        let list = original::forbidden_list(board);
        if !list.is_empty() {
            return dice.pick(&list).1;
        }
    }
    if dice.chance(habits.wins)
        && let Some(code) = winning(dice, board, moves, colour)
    {
        return code;
    }
    near(dice, habits.reach, board, moves)
}

/// A point that makes a five of one of the colour's last stones, if there is one.
fn winning(dice: &mut Dice, board: &Board, moves: &[u8], colour: u8) -> Option<u8> {
    let last = moves.iter().rev().take(12);
    let own = last.filter(|&&code| board.stone(point(code)) == Some(player(colour)));
    let eyes: Vec<u8> = own
        .flat_map(|&code| original::four_eyes_on(board, code, colour))
        .collect();
    (!eyes.is_empty()).then(|| dice.pick(&eyes))
}

/// An empty point near a stone, mostly one of the last; any empty point where none is near; the
/// last point again where none is empty.
fn near(dice: &mut Dice, reach: usize, board: &Board, moves: &[u8]) -> u8 {
    for _ in 0..40 {
        let back = dice.below(moves.len().min(8));
        let from = moves[moves.len() - 1 - back];
        let step = |dice: &mut Dice, at: u8| {
            let to = usize::from(at) + dice.below(2 * reach + 1);
            to.checked_sub(reach).filter(|&to| to < 15)
        };
        let (x, y) = (step(dice, from / 15), step(dice, from % 15));
        if let (Some(x), Some(y)) = (x, y) {
            let code = (15 * x + y) as u8;
            if board.stone(point(code)).is_none() {
                return code;
            }
        }
    }
    let empty = original::empty_points(board);
    if empty.is_empty() {
        return moves[moves.len() - 1];
    }
    dice.pick(&empty)
}
