//! Lists as they are typed, and what happens to them.

use oracle::boards::Dice;

/// A list: one in eight as it is typed, the others with one to three things done to them.
pub fn list(dice: &mut Dice) -> Vec<u8> {
    let mut text = good(dice);
    if !dice.chance(13) {
        for _ in 0..1 + dice.below(3) {
            damage(dice, &mut text);
        }
    }
    text
}

/// Points, each once, in any order: mostly a few, now and then every one.
fn good(dice: &mut Dice) -> Vec<u8> {
    let mut codes: Vec<u8> = (0..225).collect();
    for place in (1..codes.len()).rev() {
        codes.swap(place, dice.below(place + 1));
    }
    let length = match dice.below(20) {
        0 => 225,
        1..14 => 1 + dice.below(12),
        _ => dice.below(226),
    };
    let items: Vec<String> = codes[..length]
        .iter()
        .map(|&code| item(dice, code))
        .collect();
    items.join(",").into_bytes()
}

/// A point as somebody types it: in either case, with a zero, with space around it.
fn item(dice: &mut Dice, code: u8) -> String {
    let first = if dice.chance(30) { b'a' } else { b'A' };
    let (letter, row) = (char::from(first + code / 15), code % 15 + 1);
    let space = |dice: &mut Dice| dice.pick(&["", "", "", "", " ", "  ", "\t", "\r\n"]);
    let (before, behind) = (space(dice), space(dice));
    if dice.chance(20) {
        return format!("{before}{letter}{row:02}{behind}");
    }
    format!("{before}{letter}{row}{behind}")
}

/// One thing done to a text.
fn damage(dice: &mut Dice, text: &mut Vec<u8>) {
    let place = dice.below(text.len() + 1);
    let byte = match dice.below(4) {
        0 => dice.below(128) as u8,
        1 => dice.pick(b",,;./+- \n"),
        2 => dice.pick(b"0123456789"),
        _ => dice.pick(b"AHOPaop"),
    };
    match dice.below(24) {
        0..6 => text.insert(place, byte),
        6..11 if place < text.len() => drop(text.remove(place)),
        11..16 if place < text.len() => text[place] = byte,
        16 => text.truncate(place),
        17..22 => again(dice, text),
        22 => text.insert(place, 128 + dice.below(128) as u8),
        _ => text.resize(4090 + dice.below(12), b' '),
    }
}

/// An item of the text once more, somewhere, as it was typed.
fn again(dice: &mut Dice, text: &mut Vec<u8>) {
    let mut items: Vec<Vec<u8>> = text
        .split(|&byte| byte == b',')
        .map(<[u8]>::to_vec)
        .collect();
    let item = items[dice.below(items.len())].clone();
    items.insert(dice.below(items.len() + 1), item);
    *text = items.join(&b',');
}

/// Mostly as much as is needed or more, now and then less.
pub fn room(dice: &mut Dice, needed: usize) -> usize {
    match dice.below(8) {
        0 => needed.saturating_sub(1),
        1 => dice.below(needed + 1),
        2..5 => needed,
        _ => needed + dice.below(8),
    }
}
