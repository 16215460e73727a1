//! `texts.txt`: texts read as boards and lines, and both written as text. Texts
//! with no slash and no comma are diagrams to the original (`c`). What requests 5
//! and 13 speak of comes last, under letters of its own, with the answers of the
//! naive reading.

use super::{Records, SEED, byte, cells_field, list, mask};
use crate::board::line::Line;
use crate::board::player::Player::{Black, White};
use crate::board::point::Points;
use crate::board::segment::Segment;
use crate::boards::{self, Dice};
use crate::original::{self, Cells};
use crate::{left_out, naive_text, texts};

pub fn text() -> String {
    let mut dice = Dice::new(SEED + 2);
    let mut out = Records::default();
    let mut ours = Records::default();
    out.comment("answers of the original about texts; the forms are in README.md");
    read_texts(&mut out, &mut ours, &mut dice);
    out.comment("boards written as text");
    for moves in [0, 15, 60] {
        written(&mut out, &boards::game_of(&mut dice, moves.max(1)));
    }
    written(&mut out, &[0; 225]);
    out.comment("points written as text");
    for code in 0..225 {
        let name = original::point(code).to_string();
        out.record('y', &[byte(code), list(name.as_bytes())]);
    }
    out.comment("lines read from text and written as text");
    lines(&mut out, &mut dice);
    out.comment("segments written as text");
    for _ in 0..40 {
        segment_written(&mut out, &mut dice);
    }
    out.comment("lists of points written as text, and read from text");
    for points in [0, 1, 2, 3, 10, 40, 150] {
        list_written(&mut out, &mut dice, points);
    }
    for _ in 0..60 {
        list_read(&mut out, &mut ours, &mut dice);
    }
    out.comment("not the original's answers: texts of requests 5 and 13, by the naive reading");
    out.0 + &ours.0
}

fn read_texts(out: &mut Records, ours: &mut Records, dice: &mut Dice) {
    let mut read = |out: &mut Records, text: &str| {
        let bytes = text.as_bytes();
        if left_out::lone(bytes) {
            read_by(out, 'c', text, original::read(text));
            read_by(ours, 'M', text, naive_text::read(bytes));
            converted(ours, text);
        } else if left_out::typed(bytes) {
            read_by(ours, 'T', text, naive_text::read(bytes));
        } else {
            read_by(out, 't', text, original::read(text));
        }
    };
    out.comment("texts by hand");
    for text in texts::short_examples() {
        read(out, &text);
    }
    read(out, &texts::all_points());
    // Just as long as a text may be.
    read(out, &format!("{:<4096}", "H8,I9/J10"));
    out.comment("diagrams");
    for text in texts::diagram_examples(&boards::game_of(dice, 30)) {
        read(out, &text);
    }
    for cells in [[0; 225], [1; 225], [2; 225]] {
        read(out, &texts::compact(&cells));
    }
    out.comment("good texts, and texts with random changes");
    for i in 0..210 {
        let good = texts::good(dice);
        let text = match i % 7 {
            0 => good,
            _ => texts::mutated(dice, &good),
        };
        read(out, &text);
    }
}

/// `t`: a text read as a board, by the original; `c`: as a diagram; `T` and `M`:
/// as a board, by the naive reading.
fn read_by(out: &mut Records, letter: char, text: &str, answer: Result<Cells, u8>) {
    let bytes = list(text.as_bytes());
    match answer {
        Ok(cells) => out.record(letter, &[bytes, byte(0), cells_field(&cells)]),
        Err(refusal) => out.record(letter, &[bytes, byte(refusal)]),
    }
}

/// `C`: a text converted to stones text, by the naive reading.
fn converted(out: &mut Records, text: &str) {
    let bytes = list(text.as_bytes());
    match naive_text::convert(text.as_bytes()) {
        Ok(stones) => out.record('C', &[bytes, byte(0), list(stones.as_bytes())]),
        Err(refusal) => out.record('C', &[bytes, byte(refusal)]),
    }
}

/// `d` and `D`: a board as a plain and as a numbered diagram.
fn written(out: &mut Records, cells: &Cells) {
    let board = original::to_board(cells);
    let plain = list(board.to_string().as_bytes());
    let numbered = list(board.to_pretty_string().as_bytes());
    out.record('d', &[cells_field(cells), plain]);
    out.record('D', &[cells_field(cells), numbered]);
}

fn lines(out: &mut Records, dice: &mut Dice) {
    for text in [
        "",
        " ",
        "o",
        " o x . ",
        "OX0",
        "\to\n\u{b}x\u{c}\r o",
        "o\u{1}\u{7f}x",
    ] {
        line_read(out, text);
    }
    for cells in 0..=17 {
        let plain: String = (0..cells).map(|_| dice.pick(&['o', 'x', '.'])).collect();
        line_read(out, &plain);
        let other: String = (0..cells)
            .map(|_| dice.pick(&["o", "x ", "\t-", ".", "Q\r", " o"]))
            .collect();
        line_read(out, &other);
    }
    for size in 0..=15 {
        for _ in 0..2 {
            line_written(out, dice, size);
        }
    }
}

fn masks(line: &Line) -> [String; 2] {
    [Black, White].map(|r| mask(line.stones(r).0))
}

/// `i`: a text read as a line.
fn line_read(out: &mut Records, text: &str) {
    let mut fields = vec![list(text.as_bytes())];
    match text.parse::<Line>() {
        Ok(line) => {
            fields.push(byte(line.size));
            fields.extend(masks(&line));
        }
        Err(error) => {
            assert_eq!(original::refusal_number(error), 5);
            fields.push(byte(0xff));
        }
    }
    out.record('i', &fields);
}

/// `I`: a line written as text.
fn line_written(out: &mut Records, dice: &mut Dice, size: u8) {
    let blacks = dice.roll() as u16 & ((1 << size) - 1);
    let whites = dice.roll() as u16 & ((1 << size) - 1) & !blacks;
    let line = original::to_line(size, blacks, whites);
    let mut fields = vec![byte(size)];
    fields.extend(masks(&line));
    fields.push(list(line.to_string().as_bytes()));
    out.record('I', &fields);
}

/// `g`: a segment written as text.
fn segment_written(out: &mut Records, dice: &mut Dice) {
    let blacks = dice.roll() as u8 & 0x7f;
    let whites = dice.roll() as u8 & 0x7f & !blacks;
    let name = Segment::new(blacks, whites).to_string();
    out.record('g', &[byte(blacks), byte(whites), list(name.as_bytes())]);
}

fn some_points(dice: &mut Dice, count: usize) -> Vec<u8> {
    (0..count).map(|_| dice.below(225) as u8).collect()
}

/// `P`: a list of points written as text.
fn list_written(out: &mut Records, dice: &mut Dice, count: usize) {
    let codes = some_points(dice, count);
    let points = Points(codes.iter().map(|&p| original::point(p)).collect());
    out.record('P', &[list(points.to_string().as_bytes()), list(&codes)]);
}

/// A text read as a list of points, every third one as it was written.
fn list_read(out: &mut Records, ours: &mut Records, dice: &mut Dice) {
    let count = 1 + dice.below(12);
    let names = some_points(dice, count);
    let names: Vec<String> = names
        .iter()
        .map(|&p| original::point(p).to_string())
        .collect();
    let good = names.join(dice.pick(&[",", ", ", "\t,"]));
    let text = match dice.below(3) {
        0 => good,
        _ => texts::mutated(dice, &good),
    };
    if left_out::list(text.as_bytes()) {
        let codes = naive_text::points(text.as_bytes());
        let codes = codes.map(|codes| codes.into_iter().map(|code| code as u8).collect());
        return list_by(ours, 'L', &text, codes);
    }
    let codes = text.parse::<Points>().map(Vec::from);
    list_by(out, 'p', &text, codes.map_err(original::refusal_number));
}

/// `p`: a text read as a list of points, by the original; `L`: by the naive
/// reading.
fn list_by(out: &mut Records, letter: char, text: &str, answer: Result<Vec<u8>, u8>) {
    let bytes = list(text.as_bytes());
    match answer {
        Ok(codes) => out.record(letter, &[bytes, byte(0), list(&codes)]),
        Err(refusal) => out.record(letter, &[bytes, byte(refusal)]),
    }
}
