//! Games, their texts with white space or without, and texts that were damaged.

use super::plain::text_of;
use oracle::boards::Dice;

/// Moves: mostly a few, now and then as many as a game may have, or more.
pub fn game(dice: &mut Dice) -> Vec<u8> {
    let length = match dice.below(40) {
        0 => 225,
        1 => 226,
        2 => 226 + dice.below(480),
        3..8 => dice.below(226),
        _ => dice.below(12),
    };
    (0..length).map(|_| dice.below(225) as u8).collect()
}

/// The moves, in one of five games with a code that is none.
pub fn wrong(dice: &mut Dice, moves: &[u8]) -> Vec<u8> {
    let mut moves = moves.to_vec();
    if !moves.is_empty() && dice.chance(20) {
        let place = dice.below(moves.len());
        moves[place] = 225 + dice.below(31) as u8;
    }
    moves
}

/// Mostly as much as is needed or more, now and then less.
pub fn room(dice: &mut Dice, needed: usize) -> usize {
    match dice.below(8) {
        0 => needed.saturating_sub(1),
        1 => dice.below(needed + 1),
        2..5 => needed,
        _ => needed + dice.below(8),
    }
}

fn space(dice: &mut Dice) -> u8 {
    dice.pick(b"\t\n\x0b\x0c\r ")
}

/// Where a token ends in a text that was written: before a mark, a name or a value, and at the end.
fn is_between(text: &[u8], place: usize) -> bool {
    let starts = |byte: &u8| b"();[GSBW".contains(byte);
    text.get(place).is_none_or(starts)
}

/// The text of moves, every other time with white space around some of its tokens.
pub fn good(dice: &mut Dice, moves: &[u8]) -> Vec<u8> {
    let text = text_of(moves);
    if dice.below(2) == 0 {
        return text;
    }
    let often = dice.pick(&[2, 20, 100]);
    let mut spaced = Vec::new();
    for place in 0..=text.len() {
        while is_between(&text, place) && dice.chance(often) && dice.chance(60) {
            spaced.push(space(dice));
        }
        spaced.extend(text.get(place));
    }
    spaced
}

/// A text with one to three things done to it, which is not that text any more.
pub fn damaged(dice: &mut Dice, good: &[u8]) -> Vec<u8> {
    loop {
        let mut text = good.to_vec();
        for _ in 0..1 + dice.below(3) {
            damage(dice, &mut text);
        }
        if text != good {
            return text;
        }
    }
}

/// Words of SGF that other programs write, and parts of ours.
const WORDS: [&str; 12] = [
    "FF[4]", "AP[x:1]", "C[a (b)]", "(;W[ig])", "[4]", "GM", "SZ[15]", ";B[hh]", ";W[hh]", "[hh]",
    ")", "B[]",
];

/// One thing done: mostly near the front or the end, else anywhere.
fn damage(dice: &mut Dice, text: &mut Vec<u8>) {
    let length = text.len();
    let place = match dice.below(3) {
        0 => dice.below(20.min(length) + 1),
        1 => length - dice.below(14.min(length) + 1),
        _ => dice.below(length + 1),
    };
    let byte = match dice.below(4) {
        0 => dice.below(256) as u8,
        1 => space(dice),
        2 => dice.pick(b"()[];\\GMSZBW4150"),
        _ => b'`' + dice.below(18) as u8,
    };
    match dice.below(9) {
        0..3 => text.insert(place, byte),
        3 if place < length => drop(text.remove(place)),
        4 => text.truncate(place),
        5 => drop(text.splice(place..place, dice.pick(&WORDS).bytes())),
        6 if place + 1 < length => text.swap(place, place + 1),
        7 if place % 50 == 0 => text.extend(vec![byte; 4097]),
        8 => other_name(&mut text[place..]),
        _ => {
            if let Some(old) = text.get_mut(place) {
                *old = byte;
            }
        }
    }
}

/// The first name of a move, B or W, made the other.
fn other_name(text: &mut [u8]) {
    let name = text.iter_mut().find(|byte| b"BW".contains(byte));
    if let Some(name) = name {
        *name = if *name == b'B' { b'W' } else { b'B' };
    }
}
