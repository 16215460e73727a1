//! A naive reading of section 7 of document 01, with requests 5 and 13 of
//! document 02: stones and moves, which the live entry takes, and diagrams,
//! which the converter takes.
//!
//! Bytes in, cell bytes or a refusal number out; written from the documents.
//! Where these requests answer otherwise than the original: `left_out`.

use crate::naive::{BLACK, Cells, EMPTY, POINTS, SIDE, WHITE, code};

/// "Space is bytes 9 to 13 and 32."
fn is_space(byte: u8) -> bool {
    (9..=13).contains(&byte) || byte == 32
}

/// "All are trimmed."
pub(crate) fn trimmed(text: &[u8]) -> &[u8] {
    let Some(first) = text.iter().position(|&b| !is_space(b)) else {
        return &[];
    };
    let last = text.iter().rposition(|&b| !is_space(b)).unwrap_or(first);
    &text[first..=last]
}

/// "text over 4,096 bytes" 1, "a text byte of 128 or more" 2.
fn refused_as_text(text: &[u8]) -> Result<(), u8> {
    if text.len() > 4096 {
        return Err(1);
    }
    if text.iter().any(|&b| b >= 128) {
        return Err(2);
    }
    Ok(())
}

/// The live entry. "Text with "/" is stones; else [..] moves", and "text with
/// no "/" and no "," is now one move".
pub fn read(text: &[u8]) -> Result<Cells, u8> {
    refused_as_text(text)?;
    if text.contains(&b'/') {
        stones(trimmed(text))
    } else {
        moves(trimmed(text))
    }
}

/// The converter's reader: "reads them by document 01's diagram rules", every
/// text.
pub fn read_diagram(text: &[u8]) -> Result<Cells, u8> {
    refused_as_text(text)?;
    diagram(trimmed(text))
}

/// The converter: "writes stones text, black then white, each by ascending
/// code. A side without stones can't be written so." 22.
pub fn convert(text: &[u8]) -> Result<String, u8> {
    write_stones(&read_diagram(text)?)
}

fn write_stones(cells: &Cells) -> Result<String, u8> {
    let side = |colour: u8| {
        let stones = (0..POINTS).filter(|&p| cells[p] == colour);
        let names: Vec<String> = stones.map(point_name).collect();
        (!names.is_empty()).then(|| names.join(",")).ok_or(22)
    };
    Ok(side(BLACK)? + "/" + &side(WHITE)?)
}

/// "A1 is 0, H8 is 112, O15 is 224."
fn point_name(p: usize) -> String {
    let letter = char::from(b'A' + (p / SIDE) as u8);
    format!("{letter}{}", p % SIDE + 1)
}

/// "A point: trimmed, a letter A to O or a to o", then "one or two digits
/// [..]: no plus sign and nothing behind. H08 stays good."
pub fn point(text: &[u8]) -> Result<usize, u8> {
    let text = trimmed(text);
    let x = match text.first() {
        Some(&letter @ b'A'..=b'O') => letter - b'A',
        Some(&letter @ b'a'..=b'o') => letter - b'a',
        _ => return Err(3),
    };
    let y = number(&text[1..]).ok_or(4)?;
    Ok(code(x as usize, y - 1))
}

/// "one or two digits", "a number 1 to 15".
fn number(digits: &[u8]) -> Option<usize> {
    if !(1..=2).contains(&digits.len()) || !digits.iter().all(u8::is_ascii_digit) {
        return None;
    }
    let value = digits
        .iter()
        .fold(0, |value, &d| 10 * value + (d - b'0') as usize);
    (1..=15).contains(&value).then_some(value)
}

/// The points between the commas; the first that does not read decides.
pub fn points(text: &[u8]) -> Result<Vec<usize>, u8> {
    text.split(|&b| b == b',').map(point).collect()
}

/// "Moves alternate from Black; a point met again is overwritten."
fn moves(text: &[u8]) -> Result<Cells, u8> {
    let mut cells = [EMPTY; POINTS];
    for (turn, p) in points(text)?.into_iter().enumerate() {
        cells[p] = if turn % 2 == 0 { BLACK } else { WHITE };
    }
    Ok(cells)
}

/// "Stones: two comma lists, black then white; [..] an empty list is refused
/// 3." "3 for a second "/", even with nothing behind it (after the two lists
/// are read)."
fn stones(text: &[u8]) -> Result<Cells, u8> {
    let mut lists = text.split(|&b| b == b'/');
    let mut cells = [EMPTY; POINTS];
    for colour in [BLACK, WHITE] {
        for p in points(lists.next().unwrap_or(&[]))? {
            cells[p] = colour;
        }
    }
    lists.next().map_or(Ok(cells), |_| Err(3))
}

/// "Diagram: 15 lines parted by byte 10, from row 15 down, spaces dropped,
/// 15 cells each, o black, x white, any other byte empty. Too long a line (5)
/// is met before the count of lines (6), then size (7)."
fn diagram(text: &[u8]) -> Result<Cells, u8> {
    let without_spaces =
        |line: &[u8]| -> Vec<u8> { line.iter().copied().filter(|&b| !is_space(b)).collect() };
    let lines: Vec<Vec<u8>> = text.split(|&b| b == 10).map(without_spaces).collect();
    if lines.iter().any(|line| line.len() > SIDE) {
        return Err(5);
    }
    if lines.len() != SIDE {
        return Err(6);
    }
    if lines.iter().any(|line| line.len() != SIDE) {
        return Err(7);
    }
    let mut cells = [EMPTY; POINTS];
    for (down, line) in lines.iter().enumerate() {
        for (x, &byte) in line.iter().enumerate() {
            cells[code(x, 14 - down)] = match byte {
                b'o' => BLACK,
                b'x' => WHITE,
                _ => EMPTY,
            };
        }
    }
    Ok(cells)
}

/// "Plain diagram output: each cell a space and o, x or ".", lines joined by
/// byte 10: 464 bytes."
pub fn write_diagram(cells: &Cells) -> String {
    let letter = |value: u8| match value {
        BLACK => " o",
        WHITE => " x",
        _ => " .",
    };
    let line = |y: usize| (0..SIDE).map(|x| letter(cells[code(x, y)])).collect();
    let lines: Vec<String> = (0..SIDE).rev().map(line).collect();
    lines.join("\n")
}
