//! Hand-typed move lists mended.

use renju::raw::renju_mend;
use renju::{Cells, Colour, MENDED, Mended, Point, Refusal, Slip, mend};

fn mended(text: &str) -> Mended {
    mend(text.as_bytes()).expect("a text")
}

/// The points of a list, as they are written.
fn written(points: &[Point]) -> String {
    let names: Vec<String> = points.iter().map(Point::to_string).collect();
    names.join(",")
}

#[test]
fn lists_and_their_slips() {
    for (text, kept, slip) in [
        ("h8,H08", "H8", Some((2, Slip::Repeat))),
        ("H8,I9", "H8,I9", None),
        ("h8", "H8", None),
        (" h8 ,\tI9\n", "H8,I9", None),
        ("", "", Some((1, Slip::XPart))),
        (" ", "", Some((1, Slip::XPart))),
        (",H8", "", Some((1, Slip::XPart))),
        ("H8,", "H8", Some((2, Slip::XPart))),
        ("H8,,I9", "H8", Some((2, Slip::XPart))),
        ("H8,P1", "H8", Some((2, Slip::XPart))),
        ("H8,H", "H8", Some((2, Slip::YPart))),
        ("H8,H0", "H8", Some((2, Slip::YPart))),
        ("H8,H+1", "H8", Some((2, Slip::YPart))),
        ("H8,H123", "H8", Some((2, Slip::YPart))),
        ("H8,I9/A1", "H8", Some((2, Slip::YPart))),
        // What stands behind the slip counts no more.
        ("H8,P1,H8", "H8", Some((2, Slip::XPart))),
        ("H8,I9,H8,I9", "H8,I9", Some((3, Slip::Repeat))),
    ] {
        let said = mended(text);
        assert_eq!(written(&said.kept), kept, "{text:?}");
        assert_eq!(said.slip, slip, "{text:?}");
        let (item, reason) = slip.map_or((0, 0), |(item, slip)| (item, slip.number()));
        assert_eq!(said.to_string(), format!("{kept}\n{item} {reason}"));
    }
}

/// Every point once, and then one of them again: as many as a board has.
#[test]
fn every_point() {
    let all: Vec<Point> = Point::all().rev().collect();
    let text = written(&all);
    let said = mended(&text);
    assert_eq!((&said.kept[..], said.slip), (&all[..], None));
    for (behind, slip) in [("A1", Slip::Repeat), ("", Slip::XPart), ("A", Slip::YPart)] {
        let said = mended(&format!("{text},{behind}"));
        assert_eq!((&said.kept[..], said.slip), (&all[..], Some((226, slip))));
    }
}

/// What is kept has no point twice, is kept whole when it is mended again, and is read as a board
/// with as many stones.
#[test]
fn what_is_kept() {
    for (step, length) in (1..225).flat_map(|step| [1, 2, 9, 60, 230].map(|length| (step, length)))
    {
        let code = |place: usize| (place * place * step + place) % 225;
        let point = |place| Point::from_code(code(place) as u8).expect("a point");
        let moves: Vec<Point> = (0..length).map(point).collect();
        let kept = mended(&written(&moves)).kept;
        assert!(moves.starts_with(&kept));
        let text = written(&kept);
        let again = mended(&text);
        assert_eq!((&again.kept, again.slip), (&kept, None));
        if !kept.is_empty() {
            let cells: Cells = text.parse().expect("a board");
            let stones = Colour::ALL.map(|colour| cells.stones(colour).len());
            assert_eq!(stones.iter().sum::<usize>(), kept.len());
        }
    }
}

#[test]
fn refused() {
    let long = [b' '; 4097];
    assert_eq!(mend(&long), Err(Refusal::TextLength));
    assert_eq!(mend(&long[1..]), Ok(mended("")));
    assert_eq!(mend(b"H8,\x80"), Err(Refusal::TextByte));
    let mut out = [7; MENDED];
    assert_eq!(renju_mend(b"h8,H08", &mut out[..6]), 13 << 16);
    assert_eq!(renju_mend(&[255; 4097], &mut out), 1 << 16);
    assert_eq!(out, [7; MENDED]);
    assert_eq!(renju_mend(b"h8,H08", &mut out[..7]), 7);
    assert_eq!(out[..7], *b"H8\n2 1\n");
    assert_eq!(out[7..], [7; MENDED][7..]);
}
