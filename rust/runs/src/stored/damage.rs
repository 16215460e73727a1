//! Games to be stored, good and wrong ones, and records that were damaged.

use super::plain::bytes_of;
use oracle::boards::Dice;

/// A game that is to be stored.
pub struct Stored {
    pub view: u8,
    pub moves: Vec<u8>,
}

/// A good one: of up to 225 moves, in view 0 every other time.
pub fn game(dice: &mut Dice) -> Stored {
    let length = match dice.below(20) {
        0 => 225,
        1..8 => dice.below(8),
        _ => dice.below(226),
    };
    let view = match dice.below(2) {
        0 => 0,
        _ => dice.below(8) as u8,
    };
    Stored {
        view,
        moves: codes(dice, length),
    }
}

/// One that may be refused: of a few moves more or many more, with a wrong code or a wrong view.
pub fn wrong_game(dice: &mut Dice) -> Stored {
    let mut game = game(dice);
    if dice.chance(20) {
        let length = match dice.below(2) {
            0 => 226 + dice.below(40),
            _ => 2000 + dice.below(63_000),
        };
        game.moves = codes(dice, length);
    }
    if !game.moves.is_empty() && dice.chance(20) {
        let place = dice.below(game.moves.len());
        game.moves[place] = 225 + dice.below(31) as u8;
    }
    if dice.chance(20) {
        game.view = dice.below(256) as u8;
    }
    game
}

/// So many codes of points.
fn codes(dice: &mut Dice, length: usize) -> Vec<u8> {
    (0..length).map(|_| dice.below(225) as u8).collect()
}

/// Mostly as much as is needed or more, now and then less.
pub fn room(dice: &mut Dice, needed: usize) -> usize {
    match dice.below(8) {
        0 => needed.saturating_sub(1),
        1 => dice.below(needed + 1),
        2..5 => needed,
        _ => needed + dice.below(8),
    }
}

/// A good game's record with one to three things done to it, which is not that record any more.
pub fn damaged(dice: &mut Dice, game: &Stored) -> Vec<u8> {
    let good = bytes_of(game.view, &game.moves);
    loop {
        let mut record = good.clone();
        for _ in 0..1 + dice.below(3) {
            damage(dice, &mut record);
        }
        if record != good {
            return record;
        }
    }
}

/// One thing done: mostly in the first nine bytes, where tags, lengths and the view stand.
fn damage(dice: &mut Dice, record: &mut Vec<u8>) {
    let reach = if dice.chance(70) { 9 } else { record.len() };
    let place = dice.below(reach.min(record.len()).max(1));
    let byte = match dice.below(3) {
        0 => dice.below(256) as u8,
        1 => dice.below(4) as u8,
        _ => dice.pick(&[0, 1, 2, 7, 8, 224, 225, 255]),
    };
    match dice.below(6) {
        0 => record.insert(place.min(record.len()), byte),
        1 => record.push(byte),
        2 => record.truncate(place),
        3 if place < record.len() => drop(record.remove(place)),
        4 if record.len() > 4 => record.rotate_left(4),
        _ => {
            if let Some(old) = record.get_mut(place) {
                *old = byte;
            }
        }
    }
}
