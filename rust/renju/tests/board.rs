//! Boards made, read, written, changed and turned.

mod common;

use common::{Dice, boards};
use renju::raw::{renju_view_back, renju_view_then};
use renju::{CELLS, Cells, Colour, DIAGRAM, PRETTY, Point, Refusal, View};
use std::collections::HashSet;

fn point(text: &str) -> Point {
    text.parse().expect("a point")
}

fn cells(text: &str) -> Cells {
    text.parse().expect("a board")
}

#[test]
fn points_by_code_and_by_place() {
    for code in 0..=u8::MAX {
        let made = Point::from_code(code);
        assert_eq!(Point::try_from(code), made);
        if code < 225 {
            let point = made.unwrap();
            assert_eq!((point.code(), u8::from(point)), (code, code));
            assert_eq!(Point::new(point.x(), point.y()), made);
        } else {
            assert_eq!(made, Err(Refusal::Point));
        }
    }
    assert_eq!(Point::new(15, 0), Err(Refusal::Point));
    assert_eq!(Point::new(0, 15), Err(Refusal::Point));
    assert_eq!(Point::new(255, 255), Err(Refusal::Point));
    assert!(Point::all().map(Point::code).eq(0..225));
}

#[test]
fn points_written_and_read() {
    for point in Point::all() {
        let text = point.to_string();
        assert_eq!(text.parse(), Ok(point));
        assert_eq!(format!("\t{}\n", text.to_lowercase()).parse(), Ok(point));
    }
    assert_eq!(point("A1").code(), 0);
    assert_eq!(point("H8").code(), 112);
    assert_eq!(point("O15").code(), 224);
    assert_eq!(format!("{:?}", point("H8")), "Point(H8)");
}

/// The odd points of section 7 and of request 5, and texts that are more than one point.
#[test]
fn odd_points() {
    for (text, same) in [("H08", "H8"), ("\n h15\t", "H15"), ("o01", "O1")] {
        assert_eq!(text.parse(), Ok(point(same)), "{text:?}");
    }
    for text in [
        "H8x", "H 8", "H0", "H00", "H16", "H", "H8,", "H8,A1", "H8/A1", "H,8", "H123", "H012",
        "H12x", "H12,A1", "H12/A1", "H12\nA1", "H+1", "H+12", "H+", "H-1",
    ] {
        assert_eq!(text.parse::<Point>(), Err(Refusal::YPart), "{text:?}");
    }
    for text in ["", " ", "P8", "8", "+8", ",", "/", ",H8", "/H8", "-"] {
        assert_eq!(text.parse::<Point>(), Err(Refusal::XPart), "{text:?}");
    }
    assert_eq!("é8".parse::<Point>(), Err(Refusal::TextByte));
    let long = |bytes| format!("{:bytes$}", "H8").parse::<Point>();
    assert_eq!(long(4096), Ok(point("H8")));
    assert_eq!(long(4097), Err(Refusal::TextLength));
}

/// A point alone is read as a board's text reads a lone one, for all texts of up to five bytes from a
/// small set; a comma and a slash part a board's text, and are bytes like any other in a point's.
#[test]
fn points_as_in_boards() {
    const BYTES: [u8; 11] = *b" \nhP0159,/+";
    let mut texts = vec![Vec::new()];
    let mut met = 0;
    for _ in 0..5 {
        let longer = texts
            .iter()
            .flat_map(|text: &Vec<u8>| BYTES.map(|byte| [&text[..], &[byte]].concat()));
        texts = longer.collect();
        for text in &texts {
            let plain = text.iter().map(|byte| match byte {
                b',' | b'/' => b'.',
                other => *other,
            });
            let board = Cells::read(&plain.collect::<Vec<_>>());
            let alone = board.map(|cells| cells.stones(Colour::Black)[0]);
            assert_eq!(Point::read(text), alone, "{text:?}");
            met += usize::from(alone.is_ok());
        }
    }
    assert!(met > 100, "{met}");
}

#[test]
fn bytes_in_and_out() {
    for cells in boards(50, 1) {
        let bytes = *cells.as_bytes();
        assert_eq!(Cells::from_bytes(&bytes), Ok(cells));
        assert_eq!(Cells::try_from(bytes), Ok(cells));
        assert_eq!(Cells::try_from(&bytes[..]), Ok(cells));
        assert_eq!(<[u8; CELLS]>::from(cells), bytes);
        assert_eq!(cells.as_ref(), bytes);
    }
    assert_eq!(Cells::new().as_bytes(), &[0; CELLS]);
    assert_eq!(Cells::default(), Cells::new());
}

#[test]
fn two_forms_of_text() {
    let stones = cells("H8,J10/I9");
    assert_eq!(stones, cells("H8,I9,J10"));
    assert_eq!(stones, cells(&stones.to_stones().unwrap()));
    // A lone point is one move, Black's.
    assert_eq!(cells(" h08\n").stones(Colour::Black)[..], [point("H8")]);
    assert_eq!(cells("H8").empty_points().len(), 224);
    assert_eq!(Cells::read(b"H8,J10/I9"), Ok(stones));
    // A second slash is refused, whatever stands behind it.
    for text in ["H8/I9/", "H8/I9/J10", "H8//"] {
        assert_eq!(text.parse::<Cells>(), Err(Refusal::XPart), "{text}");
    }
    assert_eq!("H8/I99/".parse::<Cells>(), Err(Refusal::YPart));
    // A point met again is overwritten.
    assert_eq!(cells("H8,H8").stones(Colour::White)[..], [point("H8")]);
}

#[test]
fn diagrams() {
    for cells in boards(50, 2) {
        let plain = cells.to_string();
        assert_eq!(plain.len(), DIAGRAM);
        assert_eq!(Cells::from_diagram(plain.as_bytes()), Ok(cells));
        assert!(plain.parse::<Cells>().is_err());
        let pretty = cells.to_pretty_string();
        assert_eq!(pretty.len(), PRETTY);
        let numbered = Cells::from_diagram(pretty.as_bytes());
        assert_eq!(numbered, Err(Refusal::LineLength));
        // Row 15 comes first; the numbered rows are the plain ones with a number.
        for (n, (row, numbered)) in plain.lines().zip(pretty.lines()).enumerate() {
            assert_eq!(format!("{:2}{row}", 15 - n), numbered);
        }
        assert_eq!(format!("{cells:?}"), format!("Cells(\n{plain}\n)"));
    }
}

/// Black's points and White's, each by ascending code; read, they are the board.
#[test]
fn stones_text() {
    let mut sided = 0;
    for cells in boards(50, 6) {
        let names = |colour| {
            let names: Vec<String> = cells.stones(colour).iter().map(Point::to_string).collect();
            names.join(",")
        };
        let [black, white] = Colour::ALL.map(names);
        if black.is_empty() || white.is_empty() {
            assert_eq!(cells.to_stones(), Err(Refusal::OneSided));
            continue;
        }
        let text = cells.to_stones().unwrap();
        assert_eq!(text, format!("{black}/{white}"));
        assert_eq!(text.parse(), Ok(cells));
        sided += 1;
    }
    assert!(sided > 10, "{sided}");
    assert_eq!(cells("H8").to_stones(), Err(Refusal::OneSided));
    assert_eq!(cells("H8,H8").to_stones(), Err(Refusal::OneSided));
    assert_eq!(cells("O15,A1").to_stones().unwrap(), "O15/A1");
    // A slash and a comma in a diagram are empty cells.
    let mut lines = vec!["..............."; 15];
    (lines[0], lines[14]) = ("/,.............", "x,..../......oo");
    let saved = Cells::from_diagram(lines.join("\n").as_bytes()).unwrap();
    assert_eq!(saved.to_stones().unwrap(), "N1,O1/A1");
}

/// Any sequence of put and remove answers as a plain map.
#[test]
fn put_and_remove_as_a_map() {
    let (mut cells, mut map) = (Cells::new(), [None; CELLS]);
    let mut dice = Dice::new(3);
    for _ in 0..2000 {
        let point = Point::from_code(dice.below(225) as u8).unwrap();
        let place = &mut map[usize::from(point.code())];
        *place = Colour::from_number(dice.below(3) as u8).ok();
        match *place {
            Some(colour) => cells.put(point, colour),
            None => cells.remove(point),
        }
    }
    for (point, stone) in Point::all().zip(map) {
        assert_eq!(cells.stone(point), stone);
    }
}

#[test]
fn stones_and_empty_points() {
    for cells in boards(50, 4) {
        for colour in Colour::ALL {
            let mine = Point::all().filter(|&p| cells.stone(p) == Some(colour));
            assert!(cells.stones(colour).into_iter().eq(mine));
        }
        let empty = Point::all().filter(|&p| cells.stone(p).is_none());
        assert!(cells.empty_points().into_iter().eq(empty));
    }
}

/// A caption that is kept in step move by move is what the points say, and no view changes it.
#[test]
fn counts_of_both_sides() {
    let mut dice = Dice::new(20261116);
    for mut cells in boards(40, 7) {
        for _ in 0..60 {
            let point = Point::from_code(dice.below(225) as u8).unwrap();
            match Colour::from_number(dice.below(3) as u8) {
                Ok(colour) => cells.put(point, colour),
                Err(_) => cells.remove(point),
            }
            let counts = cells.counts();
            let count = |byte| {
                cells
                    .as_bytes()
                    .iter()
                    .filter(|&&cell| cell == byte)
                    .count()
            };
            let told = [counts.empty, counts.black, counts.white].map(usize::from);
            assert_eq!(told, [count(0), count(1), count(2)]);
            assert_eq!(told.iter().sum::<usize>(), CELLS);
        }
        for view in View::ALL {
            assert_eq!(cells.turned(view).counts(), cells.counts());
        }
    }
    assert_eq!(Cells::new().counts().empty, 225);
}

#[test]
fn neighbors_line_by_line() {
    let cells = cells("H8,I9");
    let all = cells.neighbors(point("H8"), 1, false).unwrap();
    let texts: Vec<String> = all.iter().map(Point::to_string).collect();
    let lines = [
        ["H7", "H8", "H9"],
        ["G8", "H8", "I8"],
        ["G7", "H8", "I9"],
        ["G9", "H8", "I7"],
    ];
    assert_eq!(texts, lines.concat());
    for point in Point::all() {
        for distance in 0..15 {
            let all = cells.neighbors(point, distance, false).unwrap();
            assert!(all.len() <= 60);
            let empty = all.into_iter().filter(|&p| cells.stone(p).is_none());
            let asked = cells.neighbors(point, distance, true).unwrap();
            assert!(asked.into_iter().eq(empty));
        }
        let far = cells.neighbors(point, 15, false);
        assert_eq!(far, Err(Refusal::Number));
    }
}

/// Section 6's table.
#[test]
fn views_of_points() {
    for (view, number) in View::ALL.into_iter().zip(0..) {
        assert_eq!(view.number(), number);
        assert_eq!(View::from_number(number), Ok(view));
        for point in Point::all() {
            let (x, y) = (point.x(), point.y());
            let (a, b) = match number {
                0 => (x, y),
                1 => (y, 14 - x),
                2 => (14 - x, 14 - y),
                3 => (14 - y, x),
                4 => (14 - x, y),
                5 => (x, 14 - y),
                6 => (y, x),
                _ => (14 - y, 14 - x),
            };
            assert_eq!(Ok(point.turned(view)), Point::new(a, b));
            assert_eq!(point.turned(view).turned(view.back()), point);
        }
    }
}

#[test]
fn views_of_boards() {
    for cells in boards(20, 5) {
        let views = View::ALL.map(|view| cells.turned(view));
        for (view, turned) in View::ALL.into_iter().zip(views) {
            for point in Point::all() {
                assert_eq!(turned.stone(point.turned(view)), cells.stone(point));
            }
            assert_eq!(turned.turned(view.back()), cells);
        }
        assert_eq!(HashSet::from(views).len(), 8);
    }
}

/// One view after another: of all 64 pairs, each by every point, by boards and by their lists.
#[test]
fn views_one_after_another() {
    assert_eq!(View::LeftRight.then(View::QuarterRight), View::Ascending);
    assert_eq!(View::QuarterRight.then(View::LeftRight), View::Descending);
    let pairs = View::ALL.map(|first| View::ALL.map(|second| (first, second)));
    for (first, second) in pairs.into_iter().flatten() {
        let both = first.then(second);
        for point in Point::all() {
            let twice = point.turned(first).turned(second);
            assert_eq!(point.turned(both), twice, "{first:?}, then {second:?}");
        }
        for cells in boards(3, 7) {
            let twice = cells.turned(first).turned(second);
            assert_eq!(cells.turned(both), twice);
            let list = cells.forbidden_points();
            let turned = list
                .iter()
                .map(|cross| (cross.point.turned(both), cross.verdict));
            let mut turned: Vec<_> = turned.collect();
            turned.sort_by_key(|(point, _)| point.code());
            let asked = twice.forbidden_points();
            assert!(
                asked
                    .iter()
                    .map(|cross| (cross.point, cross.verdict))
                    .eq(turned)
            );
        }
        for third in View::ALL {
            assert_eq!(both.then(third), first.then(second.then(third)));
        }
    }
    for view in View::ALL {
        assert_eq!(view.then(View::Same), view);
        assert_eq!(View::Same.then(view), view);
        assert_eq!(view.then(view.back()), View::Same);
        assert_eq!(view.back().then(view), View::Same);
    }
}

/// Refusal 12 for either view, at every number over 7.
#[test]
fn views_that_are_none() {
    for number in 8..=u8::MAX {
        for good in 0..8 {
            assert_eq!(renju_view_then(number, good), 12 << 16);
            assert_eq!(renju_view_then(good, number), 12 << 16);
        }
        assert_eq!(renju_view_then(number, number), 12 << 16);
        assert_eq!(renju_view_back(number), 12 << 16);
    }
}

/// The least of the eight by the bytes, and the first view that gives it; the same from every view.
#[test]
fn canonical_boards() {
    let symmetric = ["H8", "H8,A1/O15", "A1,O15/A15,O1", "H7,H9/G8,I8"];
    let symmetric = symmetric.map(|text| text.parse::<Cells>().expect("a board"));
    let mut views = [0; 8];
    for cells in boards(200, 5).into_iter().chain(symmetric) {
        let turned = View::ALL.map(|view| (*cells.turned(view).as_bytes(), view));
        let (bytes, first) = turned.into_iter().min().expect("eight");
        let (least, view) = cells.canonical();
        assert_eq!((least.as_bytes(), view), (&bytes, first));
        for each in View::ALL {
            assert_eq!(cells.turned(each).canonical().0, least);
        }
        views[usize::from(view.number())] += 1;
    }
    assert!(views.iter().all(|&times| times > 0), "{views:?}");
}
