//! Every refusal: what the safe types give back, and that no lent byte is changed.

use renju::raw::*;
use renju::{Cells, Colour, Kind, Line, Point, Refusal, Verdict, View};
use std::collections::HashSet;

#[test]
fn numbers_and_meanings() {
    let mut meanings = HashSet::new();
    for (refusal, number) in Refusal::ALL.into_iter().zip(1..) {
        assert_eq!(refusal.number(), number);
        assert_eq!(Refusal::from_number(number), Some(refusal));
        assert_eq!(answer(u32::from(number) << 16), Err(refusal));
        let error: Box<dyn std::error::Error> = Box::new(refusal);
        let (said, meaning) = (error.to_string(), refusal.meaning());
        assert_eq!(said, format!("refused {number}: {meaning}"));
        assert!(meanings.insert(meaning), "{meaning}, twice");
    }
    assert_eq!(Refusal::from_number(0), None);
    assert_eq!(answer(65535), Ok(65535));
}

/// The words of each, as they are read by people.
const MEANINGS: [&str; 22] = [
    "the text has over 4,096 bytes",
    "the text has a byte of 128 or more",
    "a point's letter is not A to O, or there is a second slash",
    "behind a point's letter there is not just a number 1 to 15 of one or two digits",
    "wrong length: a diagram line has over 15 cells",
    "wrong number of lines: a diagram has 15",
    "wrong line size: a diagram line has under 15 cells",
    "no such point: its code is over 224 or a coordinate over 14",
    "unsound: not 225 cell bytes of 0 to 2, or a line with a stone past its end or two on a cell",
    "no such place: the line's size is not 5 to 15, or the cell not on it",
    "the point is occupied",
    "no view, distance, colour, row kind, verdict or reason has this number or name",
    "the lent output is too short",
    "the game has more than 225 moves",
    "the record is malformed",
    "the record is in another view than 0",
    "the move is of another game, or no game number is left",
    "the move's number is not next, or there is no such move",
    "neither list begins the other",
    "the SGF text is outside the subset that is read",
    "the limit of attacks is not 1 to 6",
    "a side has no stones, which stones text can't say",
];

#[test]
fn meanings() {
    assert_eq!(Refusal::ALL.map(Refusal::meaning), MEANINGS);
}

/// A number without a name stays that number, and is no other refusal.
#[test]
fn unknown_numbers() {
    for number in 23..=u16::MAX {
        let refusal = Refusal::from_number(number).expect("a refusal");
        assert_eq!(refusal.number(), number);
        assert_eq!(u16::from(refusal), number);
        assert_eq!(answer(u32::from(number) << 16 | 5), Err(refusal));
        assert!(!Refusal::ALL.contains(&refusal));
        assert!(Refusal::ALL.iter().all(|known| *known < refusal));
    }
    let refusal = Refusal::from_number(300).expect("a refusal");
    assert_eq!(
        refusal.to_string(),
        "refused 300: a refusal that this version does not know"
    );
    assert!(matches!(refusal, Refusal::Unknown { number: 300, .. }));
}

#[test]
fn texts() {
    let long = " ".repeat(4097);
    let row = " .".repeat(15);
    let wide = format!("{row} .\n{row}");
    let short = vec![" ."; 15].join("\n");
    for (text, refusal) in [
        (long.as_str(), Refusal::TextLength),
        ("H8/é1", Refusal::TextByte),
        ("P8,A1", Refusal::XPart),
        ("A1/B1/", Refusal::XPart),
        ("", Refusal::XPart),
        ("P8", Refusal::XPart),
        (&row, Refusal::XPart),
        ("H16,A1", Refusal::YPart),
        ("H123,A1", Refusal::YPart),
        ("H16", Refusal::YPart),
        ("H8 I9", Refusal::YPart),
    ] {
        assert_eq!(Cells::read(text.as_bytes()), Err(refusal), "{text:?}");
        assert_eq!(text.parse::<Cells>(), Err(refusal), "{text:?}");
    }
    assert_eq!(Cells::read(&[128]), Err(Refusal::TextByte));
    for (text, refusal) in [
        (long.as_str(), Refusal::TextLength),
        ("é", Refusal::TextByte),
        (&wide, Refusal::LineLength),
        (&row, Refusal::LineCount),
        ("H8", Refusal::LineCount),
        ("H8,I9/J10", Refusal::LineCount),
        ("", Refusal::LineCount),
        (&short, Refusal::LineSize),
    ] {
        let read = Cells::from_diagram(text.as_bytes());
        assert_eq!(read, Err(refusal), "{text:?}");
        let mut out = [7; 764];
        let word = renju_convert(text.as_bytes(), &mut out);
        assert_eq!(answer(word), Err(refusal), "{text:?}");
        assert_eq!(out, [7; 764]);
    }
}

#[test]
fn numbers_from_outside() {
    assert_eq!(Point::from_code(225), Err(Refusal::Point));
    assert_eq!(Point::new(0, 15), Err(Refusal::Point));
    assert_eq!(Colour::from_number(0), Err(Refusal::Number));
    assert_eq!(Colour::from_number(3), Err(Refusal::Number));
    assert_eq!(Kind::from_number(8), Err(Refusal::Number));
    assert_eq!(View::from_number(8), Err(Refusal::Number));
    for (kind, number) in Kind::ALL.into_iter().zip(0..) {
        assert_eq!(kind.number(), number);
        assert_eq!(Kind::from_number(number), Ok(kind));
    }
    for colour in Colour::ALL {
        assert_eq!(Colour::from_number(colour.number()), Ok(colour));
        assert_eq!(colour.opponent().opponent(), colour);
    }
    for (verdict, number) in Verdict::ALL.into_iter().zip(0..) {
        assert_eq!(verdict.number(), number);
        assert_eq!(Verdict::from_number(number), Ok(verdict));
    }
    assert_eq!(Verdict::from_number(4), Err(Refusal::Number));
}

#[test]
fn cells_and_lines() {
    let bytes = [0; 226];
    assert_eq!(Cells::from_bytes(&bytes), Err(Refusal::Unsound));
    assert_eq!(Cells::from_bytes(&bytes[..224]), Err(Refusal::Unsound));
    assert_eq!(Cells::from_bytes(&[]), Err(Refusal::Unsound));
    for size in (0..5).chain(16..=u8::MAX) {
        assert_eq!(Line::new(0, 0, size), Err(Refusal::Place));
    }
    for size in 5..16 {
        assert!(Line::new(0, 0, size).is_ok());
        assert_eq!(Line::new(1 << size, 0, size), Err(Refusal::Unsound));
        assert_eq!(Line::new(0, 1 << size, size), Err(Refusal::Unsound));
        assert_eq!(Line::new(0b1, 0b1, size), Err(Refusal::Unsound));
    }
}

/// The bytes that `Cells` takes are those that the archive does.
#[test]
fn sound_bytes() {
    let mut bytes = [1; 225];
    for place in 0..225 {
        for byte in 0..=u8::MAX {
            bytes[place] = byte;
            let taken = Cells::from_bytes(&bytes).map(|_| 0);
            assert_eq!(taken, answer(renju_remove(&mut bytes.clone(), 0)));
        }
        bytes[place] = 1;
    }
}

const SPOILT: u8 = 0xa5;

/// A board with some of everything, and the same with one bad byte.
fn good_and_bad() -> ([u8; 225], [u8; 225]) {
    let text = "E8,F8,G8,H9,H10,H11/A1,B1,C1,D1";
    let good = *text.parse::<Cells>().unwrap().as_bytes();
    let mut bad = good;
    bad[224] = 3;
    (good, bad)
}

/// What `ask` says with an output of `len` bytes, and that all of these are as
/// they were if it is a refusal, those past the answer's `bytes` if it is not.
fn kept(len: usize, bytes: usize, ask: impl Fn(&mut [u8]) -> u32) -> u32 {
    let mut out = vec![SPOILT; len];
    let word = ask(&mut out);
    let written = if word < 65536 { bytes } else { 0 };
    assert!(out[written..].iter().all(|&byte| byte == SPOILT));
    word
}

/// With room for the whole answer the count comes back, with a byte less 13.
fn room(count: u32, bytes: usize, ask: impl Fn(&mut [u8]) -> u32) {
    assert_eq!(kept(bytes, bytes, &ask), count);
    assert_eq!(kept(bytes + 7, bytes, &ask), count);
    assert_eq!(kept(bytes - 1, bytes, &ask), 13 << 16);
    assert_eq!(kept(0, bytes, &ask), 13 << 16);
}

/// The functions that both referees have.
struct Referee {
    rows: fn(&[u8], u8, u8, &mut [u8]) -> u32,
    rows_on: fn(&[u8], u8, u8, u8, &mut [u8]) -> u32,
    four_eyes_on: fn(&[u8], u8, u8, &mut [u8]) -> u32,
    forbidden: fn(&[u8], u8) -> u32,
    forbidden_strict: fn(&[u8], u8) -> u32,
    forbidden_points: fn(&[u8], &mut [u8]) -> u32,
}

const REFEREES: [Referee; 2] = [
    Referee {
        rows: renju_rows,
        rows_on: renju_rows_on,
        four_eyes_on: renju_four_eyes_on,
        forbidden: renju_forbidden,
        forbidden_strict: renju_forbidden_strict,
        forbidden_points: renju_forbidden_points,
    },
    Referee {
        rows: renju_second_rows,
        rows_on: renju_second_rows_on,
        four_eyes_on: renju_second_four_eyes_on,
        forbidden: renju_second_forbidden,
        forbidden_strict: renju_second_forbidden_strict,
        forbidden_points: renju_second_forbidden_points,
    },
];

#[test]
fn outputs_of_every_length() {
    let (good, _) = good_and_bad();
    let cells = &good;
    room(225, 225, |out| renju_read(b"H8,I9", out));
    room(464, 464, |out| renju_to_string(cells, out));
    room(527, 527, |out| renju_to_pretty_string(cells, out));
    room(6, 6, |out| renju_stones(cells, 1, out));
    room(215, 215, |out| renju_empty_points(cells, out));
    room(60, 60, |out| renju_neighbors(cells, 112, 14, false, out));
    room(53, 53, |out| renju_neighbors(cells, 112, 14, true, out));
    room(225, 225, |out| renju_turn(cells, 3, out));
    // With left and right changed over, the stones in the columns A to D come last.
    room(4, 225, |out| renju_canonical(cells, out));
    room(3, 228, |out| renju_game(&[112, 113, 113], out));
    room(0, 228, |out| renju_game(&[], out));
    for referee in &REFEREES {
        room(6, 24, |out| (referee.rows)(cells, 1, 3, out));
        room(4, 16, |out| (referee.rows_on)(cells, 112, 1, 3, out));
        room(1, 1, |out| (referee.four_eyes_on)(cells, 0, 2, out));
        room(1, 2, |out| (referee.forbidden_points)(cells, out));
    }
}

/// Refused with any output, and no byte of it is changed.
fn refused(number: u32, ask: impl Fn(&mut [u8]) -> u32) {
    assert_eq!(kept(0, 0, &ask), number << 16);
    assert_eq!(kept(600, 0, &ask), number << 16);
}

/// The order of section 2: 9, 8, 12, then 11 or 13; 14 before 8.
#[test]
fn first_refusal_of_several() {
    let (good, bad) = good_and_bad();
    refused(9, |out| renju_to_string(&bad, out));
    refused(9, |out| renju_to_pretty_string(&bad, out));
    refused(9, |out| renju_stones(&bad, 0, out));
    refused(12, |out| renju_stones(&good, 0, out));
    refused(9, |out| renju_empty_points(&bad, out));
    refused(9, |_| renju_counts(&bad));
    refused(9, |out| renju_neighbors(&bad, 225, 15, true, out));
    refused(8, |out| renju_neighbors(&good, 225, 15, true, out));
    refused(12, |out| renju_neighbors(&good, 224, 15, true, out));
    refused(9, |out| renju_turn(&bad, 8, out));
    refused(12, |out| renju_turn(&good, 8, out));
    refused(9, |out| renju_canonical(&bad, out));
    refused(9, |out| renju_canonical(&good[..224], out));
    refused(3, |out| renju_read(b"P8,H16", out));
    refused(6, |out| renju_read_diagram(b"P8,H16", out));
    let black = vec!["o.............."; 15].join("\n");
    refused(22, |out| renju_convert(black.as_bytes(), out));
    let white = vec!["..............x"; 15].join("\n");
    refused(22, |out| renju_convert(white.as_bytes(), out));
    let empty = vec!["..............."; 15].join("\n");
    refused(22, |out| renju_convert(empty.as_bytes(), out));
    refused(14, |out| renju_game(&[225; 226], out));
    refused(8, |out| renju_game(&[112, 112, 225], out));
    assert_eq!(renju_turn_point(225, 8), 8 << 16);
    assert_eq!(renju_turn_point(224, 8), 12 << 16);
    assert_eq!(renju_depth(&bad, 225), 9 << 16);
    assert_eq!(renju_depth(&good[..224], 0), 9 << 16);
    assert_eq!(renju_depth(&good, 225), 8 << 16);
}

/// .. of the questions that both referees answer.
#[test]
fn first_refusal_of_either_referee() {
    let (good, bad) = good_and_bad();
    for referee in &REFEREES {
        let Referee { rows, rows_on, .. } = referee;
        refused(9, |out| rows(&bad, 3, 8, out));
        refused(9, |out| rows(&good[..224], 3, 8, out));
        refused(12, |out| rows(&good, 3, 7, out));
        refused(12, |out| rows(&good, 2, 8, out));
        refused(9, |out| rows_on(&bad, 225, 3, 8, out));
        refused(8, |out| rows_on(&good, 225, 3, 8, out));
        refused(12, |out| rows_on(&good, 224, 3, 7, out));
        refused(12, |out| rows_on(&good, 224, 2, 8, out));
        let (four_eyes_on, forbidden_points) = (referee.four_eyes_on, referee.forbidden_points);
        refused(9, |out| four_eyes_on(&bad, 225, 3, out));
        refused(8, |out| four_eyes_on(&good, 225, 3, out));
        refused(12, |out| four_eyes_on(&good, 224, 3, out));
        refused(9, |out| forbidden_points(&bad, out));
        refused(9, |out| forbidden_points(&good[..224], out));
        let (plain, strict) = (referee.forbidden, referee.forbidden_strict);
        assert_eq!(plain(&bad, 225), 9 << 16);
        assert_eq!(plain(&good, 225), 8 << 16);
        assert_eq!(plain(&good, 0), 11 << 16);
        assert_eq!(strict(&bad, 225), 9 << 16);
        assert_eq!(strict(&good, 225), 8 << 16);
    }
}

#[test]
fn cells_kept_by_refused_changes() {
    let (good, bad) = good_and_bad();
    let kept = |number: u32, cells: &[u8], ask: &dyn Fn(&mut [u8]) -> u32| {
        let mut lent = cells.to_vec();
        assert_eq!(ask(&mut lent), number << 16);
        assert_eq!(lent, cells);
    };
    kept(9, &bad, &|cells| renju_put(cells, 225, 3));
    kept(8, &good, &|cells| renju_put(cells, 225, 3));
    kept(12, &good, &|cells| renju_put(cells, 112, 3));
    kept(9, &bad, &|cells| renju_remove(cells, 225));
    kept(8, &good, &|cells| renju_remove(cells, 225));
    kept(9, &good[..224], &|cells| renju_put(cells, 112, 1));
    kept(4, &good, &|cells| renju_read(b"H8,H16", cells));
    kept(13, &good[..224], &|cells| renju_read(b"H8,I9", cells));
    kept(6, &good, &|cells| renju_read_diagram(b"H8,I9", cells));
}

#[test]
fn lines_alone() {
    type Ask = fn(u16, u16, u8, u8, u8) -> u32;
    let on: Ask = |blacks, whites, size, colour, kind| {
        renju_line_starts_on(blacks, whites, size, colour, kind, 15)
    };
    let starts: Ask = |b, w, size, colour, kind| renju_line_starts(b, w, size, colour, kind);
    let eyes: Ask = |b, w, size, colour, kind| renju_line_eyes(b, w, size, colour, kind);
    for ask in [on, starts, eyes] {
        assert_eq!(ask(1, 1, 4, 3, 8), 10 << 16);
        assert_eq!(ask(1, 1, 16, 3, 8), 10 << 16);
        assert_eq!(ask(1, 1, 15, 3, 8), 9 << 16);
        assert_eq!(ask(1, 0, 15, 3, 7), 12 << 16);
        assert_eq!(ask(1, 0, 15, 2, 8), 12 << 16);
    }
    assert_eq!(on(1, 0, 15, 1, 0), 10 << 16);
}
