//! `lines.txt`: answers about one line by itself.

use super::{Records, SEED, byte, mask};
use crate::board::line::Line;
use crate::board::player::Player::{self, Black, White};
use crate::boards::Dice;
use crate::cases::LINE_CASES;
use crate::original::{KINDS, to_line};

/// A line by its size and its two masks.
type Stones = (u8, u16, u16);

pub fn text() -> String {
    let mut dice = Dice::new(SEED + 1);
    let mut out = Records::default();
    out.comment("answers of the original about single lines; the forms are in README.md");
    out.comment("cases C1 to C5");
    for stones in cases() {
        every_question(&mut out, stones);
    }
    out.comment("all lines of size 5");
    for stones in all_of_five() {
        whole_line(&mut out, stones);
    }
    out.comment("sizes 5 to 15, from nearly empty to full");
    for size in sizes(165) {
        let stones = some_line(&mut dice, size);
        whole_line(&mut out, stones);
    }
    out.comment("through one cell, by number, and one window");
    for size in sizes(330) {
        single_questions(&mut out, &mut dice, size);
    }
    out.0
}

/// The sizes 5 to 15 in turn, `count` of them.
fn sizes(count: usize) -> impl Iterator<Item = u8> {
    (5..=15).cycle().take(count)
}

fn cases() -> impl Iterator<Item = Stones> {
    LINE_CASES.iter().map(|case| {
        let stones = case.stones.iter().fold(0, |m, i| m | 1 << i);
        let size = case.size as u8;
        match case.colour {
            1 => (size, stones, 0),
            _ => (size, 0, stones),
        }
    })
}

/// All 243 lines of size 5, by their cells read as digits to base three.
fn all_of_five() -> impl Iterator<Item = Stones> {
    (0..243u32).map(|number| {
        let digit = |i: u32| number / 3u32.pow(i) % 3;
        let of = |colour| {
            (0..5)
                .filter(|&i| digit(i) == colour)
                .fold(0, |m, i| m | 1 << i)
        };
        (5, of(1), of(2))
    })
}

/// A line of one density, mostly of one colour so that rows are common.
fn some_line(dice: &mut Dice, size: u8) -> Stones {
    let density = dice.pick(&[15, 30, 45, 60, 75, 90, 100]);
    let black = dice.pick(&[3, 10, 50, 90, 97, 97]);
    let (mut blacks, mut whites) = (0, 0);
    for i in 0..size {
        if dice.chance(density) {
            let colour = if dice.chance(black) {
                &mut blacks
            } else {
                &mut whites
            };
            *colour |= 1 << i;
        }
    }
    (size, blacks, whites)
}

fn line_of((size, blacks, whites): Stones) -> Line {
    to_line(size, blacks, whites)
}

fn head((size, blacks, whites): Stones) -> Vec<String> {
    vec![byte(size), mask(blacks), mask(whites)]
}

/// One mask for each kind, Black's eight and then White's.
fn sixteen(answer: impl Fn(Player, usize) -> u16) -> Vec<String> {
    let of = |r: Player| (0..8).map(move |k| (r, k));
    of(Black)
        .chain(of(White))
        .map(|(r, k)| mask(answer(r, k)))
        .collect()
}

/// `l`: all starts, all eyes and both bounds.
fn whole_line(out: &mut Records, stones: Stones) {
    let line = line_of(stones);
    let mut fields = head(stones);
    fields.extend(sixteen(|r, k| line.row_starts(r, KINDS[k])));
    fields.extend(sixteen(|r, k| line.row_eyes(r, KINDS[k])));
    fields.extend([Black, White].map(|r| byte(line.score_bound(r))));
    out.record('l', &fields);
}

/// `c`: the starts through one cell.
fn through_cell(out: &mut Records, stones: Stones, cell: u8) {
    let line = line_of(stones);
    let mut fields = head(stones);
    fields.push(byte(cell));
    fields.extend(sixteen(|r, k| line.row_starts_on(cell, r, KINDS[k])));
    out.record('c', &fields);
}

/// `q`: the windows that count, score and are open with a number.
fn by_number(out: &mut Records, stones: Stones, colour: u8, n: u8) {
    let line = line_of(stones);
    let r = crate::original::player(colour);
    let mut fields = head(stones);
    fields.extend([byte(colour), byte(n)]);
    fields.push(mask(line.count_mask(r, n)));
    fields.push(mask(line.score_mask(r, n)));
    fields.push(mask(line.open_starts(r, n)));
    out.record('q', &fields);
}

/// `z`: the empty cells s + k, for s of some starts and k of some cells.
fn eyes_of(out: &mut Records, stones: Stones, starts: u16, cells: u8) {
    let eyes = line_of(stones).eyes_of(starts, cells);
    let mut fields = head(stones);
    fields.extend([mask(starts), byte(cells), mask(eyes)]);
    out.record('z', &fields);
}

/// `g`: one window with its margins.
fn one_window(out: &mut Records, stones: Stones, j: u8) {
    let segment = line_of(stones).segment(j);
    // The margins are public only in the window's text, `-|oo-o-|x`.
    let shown: Vec<char> = segment.to_string().chars().filter(|&c| c != '|').collect();
    let cells = |letter: char| {
        let set = (0..7).filter(|&k| shown[k] == letter);
        set.fold(0u8, |m, k| m | 1 << k)
    };
    let mut fields = head(stones);
    fields.extend([byte(j), byte(cells('o')), byte(cells('x'))]);
    let mut both = |answer: &dyn Fn(Player) -> u8| {
        fields.extend([Black, White].map(|r| byte(answer(r))));
    };
    both(&|r| segment.score(r) as u8);
    both(&|r| segment.count(r));
    both(&|r| segment.is_free(r) as u8);
    both(&|r| segment.is_alive(r) as u8);
    both(&|r| segment.stone_bits(r));
    both(&|r| segment.eye_bits(r));
    out.record('g', &fields);
}

fn every_question(out: &mut Records, stones: Stones) {
    whole_line(out, stones);
    for cell in 0..stones.0 {
        through_cell(out, stones, cell);
    }
    for j in 0..=stones.0 - 5 {
        one_window(out, stones, j);
    }
    for n in 0..16 {
        for colour in [1, 2] {
            by_number(out, stones, colour, n);
        }
    }
}

/// One question of each other sort, each about a line of its own.
fn single_questions(out: &mut Records, dice: &mut Dice, size: u8) {
    let stones = some_line(dice, size);
    through_cell(out, stones, dice.below(size as usize) as u8);
    let stones = some_line(dice, size);
    let (colour, n) = (1 + dice.below(2) as u8, dice.below(16) as u8);
    by_number(out, stones, colour, n);
    let stones = some_line(dice, size);
    one_window(out, stones, dice.below(size as usize - 4) as u8);
    let stones = some_line(dice, size);
    let (starts, cells) = (dice.below(1 << size) as u16, dice.below(256) as u8);
    eyes_of(out, stones, starts, cells);
}
