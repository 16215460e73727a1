//! Section 7's examples, read by the original and by the naive reading; those
//! of requests 5 and 13, which the two read differently, with both answers.

use oracle::boards::{self, Dice, SORTS};
use oracle::naive::{BLACK, Cells, EMPTY, POINTS, WHITE};
use oracle::{left_out, naive_text, original};

/// What both readers say, which must be the same.
fn read(text: &str) -> Result<Cells, u8> {
    let original = original::read(text);
    assert_eq!(naive_text::read(text.as_bytes()), original, "{text:?}");
    original
}

/// What both say of a diagram, the naive reading as the converter's reader.
fn read_saved(text: &str) -> Result<Cells, u8> {
    assert!(left_out::lone(text.as_bytes()), "{text:?}");
    let original = original::read(text);
    assert_eq!(
        naive_text::read_diagram(text.as_bytes()),
        original,
        "{text:?}"
    );
    original
}

/// What the original says, and what the naive reading says, of a text that is
/// left out.
fn read_apart(text: &str) -> [Result<Cells, u8>; 2] {
    assert!(left_out::text(text.as_bytes()), "{text:?}");
    [original::read(text), naive_text::read(text.as_bytes())]
}

fn board(blacks: &[usize], whites: &[usize]) -> Cells {
    let mut cells = [EMPTY; POINTS];
    blacks.iter().for_each(|&p| cells[p] = BLACK);
    whites.iter().for_each(|&p| cells[p] = WHITE);
    cells
}

/// The point is put in a list of moves: alone it is a diagram to the original.
#[test]
fn points_that_read() {
    for (text, code) in [("H08", 112), ("h8", 112), (" H15\t", 119), ("O15", 224)] {
        let moves = format!("{text},A1");
        assert_eq!(read(&moves), Ok(board(&[code], &[0])), "{text}");
    }
}

/// docs/DIFFERENCES.md: what the original reads and request 5 refuses.
#[test]
fn points_of_request_5() {
    for (text, code) in [
        ("H123", 116),
        ("H012", 105),
        ("H12x", 116),
        ("H12 3", 116),
        ("H+1", 105),
        ("H+8", 112),
        ("H+12", 105),
    ] {
        let read = Ok(board(&[code], &[0]));
        assert_eq!(read_apart(&format!("{text},A1")), [read, Err(4)], "{text}");
        let read = Ok(board(&[0], &[code]));
        assert_eq!(read_apart(&format!("A1/{text}")), [read, Err(4)], "{text}");
    }
    // The letter is met first.
    assert_eq!(read("+8,A1"), Err(3));
}

/// "3 for a second "/", even with nothing behind it (after the two lists are
/// read)."
#[test]
fn a_second_slash() {
    let read = Ok(board(&[112], &[128]));
    for behind in ["J10", "", " ", "/", "not a point", "I99", ","] {
        let text = format!("H8/I9/{behind}");
        assert_eq!(read_apart(&text), [read, Err(3)], "{text}");
    }
    for (text, refusal) in [
        ("H8/I99/", 4),
        ("H99/I9/", 4),
        ("H8//", 3),
        ("//", 3),
        ("H99/X1/", 4),
    ] {
        assert_eq!(read_apart(text), [Err(refusal); 2], "{text}");
    }
}

#[test]
fn points_refused() {
    for text in ["H8x", "H 8", "H0", "H00", "H16", "H1x", "H", "Hx"] {
        assert_eq!(read(&format!("{text},A1")), Err(4), "{text}");
        assert_eq!(read(&format!("A1/{text}")), Err(4), "{text}");
    }
    assert_eq!(read("P8,A1"), Err(3));
}

#[test]
fn lists() {
    assert_eq!(read("A1,B1,A2"), Ok(board(&[0, 1], &[15])));
    assert_eq!(read("A1,B1,C1,A1"), Ok(board(&[30], &[15, 0])));
    assert_eq!(read("A1/A1"), Ok(board(&[], &[0])));
    for text in ["/", "A1/", "/A1", "A1,", ",A1"] {
        assert_eq!(read(text), Err(3), "{text}");
    }
}

/// docs/DIFFERENCES.md: "text with no "/" and no "," is now one move".
#[test]
fn lone_points() {
    for (text, live) in [
        ("H8", Ok(board(&[112], &[]))),
        (" h08\n", Ok(board(&[112], &[]))),
        ("O15", Ok(board(&[224], &[]))),
        ("", Err(3)),
        (" \n", Err(3)),
        ("P8", Err(3)),
        ("8", Err(3)),
        ("H", Err(4)),
        ("H16", Err(4)),
        ("H8 I9", Err(4)),
        ("H8\nI9", Err(4)),
        ("H123", Err(4)),
    ] {
        assert_eq!(read_apart(text), [Err(6), live], "{text:?}");
    }
    assert_eq!(read_apart(&"o".repeat(16)), [Err(5), Err(4)]);
    // A diagram starts with no column; or with o, which is one.
    for (cell, value, refusal) in [('.', EMPTY, 3), ('x', WHITE, 3), ('o', BLACK, 4)] {
        let diagram = vec![cell.to_string().repeat(15); 15].join("\n");
        assert_eq!(read_apart(&diagram), [Ok([value; POINTS]), Err(refusal)]);
    }
}

/// The converter reads every text as a diagram and writes its stones; a side
/// without stones is refused after 7.
#[test]
fn converted() {
    let convert = |text: &str| naive_text::convert(text.as_bytes());
    let empty = ".".repeat(15);
    let of = |first: &str, last: &str| {
        let mut lines = vec![empty.as_str(); 15];
        (lines[0], lines[14]) = (first, last);
        lines.join("\n")
    };
    let text = of("o............/x", "xo,..........oo");
    assert_eq!(convert(&text), Ok("A15,B1,N1,O1/A1,O15".into()));
    assert_eq!(convert(&of(&empty, "o..............")), Err(22));
    assert_eq!(convert(&of(&empty, "x..............")), Err(22));
    assert_eq!(convert(&of(&empty, "")), Err(6));
    assert_eq!(convert(&of("", "o.............")), Err(6));
    assert_eq!(convert(&of("................", "o..............")), Err(5));
    assert_eq!(convert(&of("o.............", &empty)), Err(7));
    for text in ["H8", "H8,I9", "H8/I9", ""] {
        assert_eq!(convert(text), Err(6), "{text:?}");
    }
    // What it writes reads as the board.
    let mut dice = Dice::new(22);
    for sort in SORTS {
        let cells = boards::of_sort(sort, &mut dice);
        let stones = convert(&naive_text::write_diagram(&cells));
        match [BLACK, WHITE].map(|colour| cells.contains(&colour)) {
            [true, true] => assert_eq!(read(&stones.expect("both sides")), Ok(cells)),
            _ => assert_eq!(stones, Err(22)),
        }
    }
}

#[test]
fn diagrams() {
    let mut dice = Dice::new(21);
    for sort in SORTS {
        let cells = boards::of_sort(sort, &mut dice);
        let board = original::to_board(&cells);
        let plain = board.to_string();
        assert_eq!(plain.len(), 464);
        assert_eq!(plain, naive_text::write_diagram(&cells));
        assert_eq!(read_saved(&plain), Ok(cells));
        let numbered = board.to_pretty_string();
        assert_eq!(numbered.len(), 527);
        assert_eq!(read_saved(&numbered), Err(5));
    }
}

/// "Too long a line (5) is met before the count of lines (6), then size (7)."
#[test]
fn diagram_refusals_in_order() {
    let (good, long, short) = (".".repeat(15), "o".repeat(16), "x".repeat(14));
    let of = |lines: usize, other: &str| {
        let mut all = vec![good.as_str(); lines];
        all[lines / 2] = other;
        all.join("\n")
    };
    assert_eq!(read_saved(&of(15, &good)), Ok([EMPTY; POINTS]));
    assert_eq!(read_saved(&of(15, &long)), Err(5));
    assert_eq!(read_saved(&of(14, &long)), Err(5));
    assert_eq!(read_saved(&of(14, &good)), Err(6));
    assert_eq!(read_saved(&of(16, &short)), Err(6));
    assert_eq!(read_saved(&of(15, &short)), Err(7));
}

/// Each byte below 128 in every place of a point, and as cell and line end of
/// a diagram: the space bytes, digits and letters are exactly the document's.
/// Request 5 refuses what stands behind a point's two digits (any byte but
/// space, comma and slash), a plus sign, and a second slash.
#[test]
fn every_byte_in_every_place() {
    let mut left_out = Vec::new();
    let mut both = |text: &str| {
        if left_out::lone(text.as_bytes()) {
            let _ = read_saved(text);
        } else if left_out::typed(text.as_bytes()) {
            left_out.push(text.to_owned());
        } else {
            let _ = read(text);
        }
    };
    for byte in (0..128u8).map(char::from) {
        for text in [
            format!("{byte}H8,A1"),
            format!("{byte}8,A1"),
            format!("H{byte},A1"),
            format!("H{byte}8,A1"),
            format!("H1{byte},A1"),
            format!("H15{byte},A1"),
            format!("A1/{byte}"),
        ] {
            both(&text);
        }
        let line = format!("o{}{byte}x", ".".repeat(12));
        both(&[line.as_str(); 15].join("\n"));
        both(&[line.as_str(); 15].join(&byte.to_string()));
    }
    let is_refused = |text: &String| naive_text::read(text.as_bytes()).is_err();
    assert!(left_out.iter().all(is_refused));
    assert_eq!(left_out.len(), (128 - 8) + 2 + 3);
}
