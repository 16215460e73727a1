//! Whole games through the safe types: each reason, each winner, the order of the reasons, the
//! board that is handed back, all eight views.

use renju::{Cells, Colour, Moves, Point, Reason, Refusal, Report, View};

fn points(text: &str) -> Vec<Point> {
    let point = |word: &str| {
        word.parse()
            .unwrap_or_else(|_| panic!("{word} is no point"))
    };
    text.split_whitespace().map(point).collect()
}

fn game(text: &str) -> Moves {
    Moves::new(&points(text)).expect("at most 225 moves")
}

fn report(text: &str) -> Report {
    game(text).report()
}

/// Black's points and White's in turn; Black has as many, or one more.
fn in_turn(blacks: &str, whites: &str) -> String {
    let mut whites = whites.split_whitespace();
    let turns = blacks.split_whitespace().flat_map(|black| {
        let white = whites.next().unwrap_or_default();
        [black.to_owned(), white.to_owned()]
    });
    turns.collect::<Vec<_>>().join(" ")
}

#[test]
fn no_moves_and_no_fault() {
    assert_eq!(report("").to_string(), "no fault, nobody has won");
    assert_eq!(report("").cells, Cells::new());
    let played = report("H8 I9 J10");
    assert_eq!(played.fault, None);
    assert_eq!(played.cells, "H8,I9,J10".parse().expect("moves"));
}

#[test]
fn each_reason_with_the_board_before_it() {
    let taken = report("H8 A1 H8 B2");
    assert_eq!(taken.to_string(), "move 3 (H8): occupied");
    assert_eq!(taken.cells, "H8,A1".parse().expect("moves"));
    let cross = in_turn("G8 I8 H7 H9 H8", "A1 A3 A5 A7 A9");
    let forbidden = report(&cross);
    let said = "move 9 (H8): forbidden, DoubleThree";
    assert_eq!(forbidden.to_string(), said);
    let stones = "G8,I8,H7,H9/A1,A3,A5,A7".parse().expect("stones");
    assert_eq!(forbidden.cells, stones);
    // White may play there.
    let whites = report("A1 G8 A3 I8 A5 H7 A7 H9 A9 H8");
    assert_eq!(whites.fault, None);
    let late = report(&in_turn("D8 E8 F8 G8 H8", "A1 A3 A5 A7 A9"));
    assert_eq!(late.to_string(), "move 10 (A9): after a five");
    assert_eq!(late.winner, None);
}

#[test]
fn exactly_five_for_black_five_or_more_for_white() {
    let five = report(&in_turn("D8 E8 F8 G8 H8", "A1 A3 A5 A7"));
    assert_eq!(five.to_string(), "no fault, Black has won");
    // Six in a row: forbidden to Black, a five for White.
    let six = report(&in_turn("D8 E8 F8 H8 I8 G8", "A1 A3 A5 A7 A9"));
    assert_eq!(six.to_string(), "move 11 (G8): forbidden, Overline");
    let white = report(&in_turn("A1 A3 A5 A7 A9 A11", "D8 E8 F8 H8 I8 G8"));
    assert_eq!(white.winner, Some(Colour::White));
    assert_eq!(white.to_string(), "no fault, White has won");
}

#[test]
fn the_lowest_reason_counts() {
    let won = in_turn("A1 A3 A5 A7 A9", "D8 E8 F8 G8 H8");
    // After White's five, on a stone: occupied.
    let last = |moves: &str| report(&format!("{won} {moves}")).fault;
    let reason = |moves: &str| last(moves).map(|fault| fault.reason);
    assert_eq!(reason("D8"), Some(Reason::Occupied));
    assert_eq!(reason("O15"), Some(Reason::AfterFive));
    // After White's five, on a point that is forbidden: forbidden.
    let crossed = in_turn("J5 L5 K4 K6 O1", "D8 E8 F8 G8 H8");
    let fault = report(&format!("{crossed} K5")).fault;
    assert_eq!(fault.map(|fault| fault.reason), Some(Reason::Forbidden));
    assert_eq!(fault.map(|fault| fault.number), Some(11));
}

/// A black stone that completes a five is not forbidden, whatever else it makes.
#[test]
fn a_five_that_makes_two_fours_wins() {
    let blacks = "D8 E8 F8 G8 H9 H10 H11 I9 J10 K11 H8";
    let whites = "A1 A3 A5 A7 A9 A11 A13 C1 C3 C5";
    assert_eq!(report(&in_turn(blacks, whites)).winner, Some(Colour::Black));
}

/// Request 6: an eye that completes a five makes no real Three, at the first question and one
/// deeper. The original forbids the first move and not the second.
#[test]
fn a_three_is_no_five() {
    let corner = "A15 C15 E15 G15 I15 K15 M15 O15";
    let played = report(&in_turn("D5 E6 F8 F9 G8 H6 H9 F6", &corner[..27]));
    assert_eq!(played.to_string(), "no fault, nobody has won");
    let played = report(&in_turn("F6 G5 G7 I5 I6 I8 I9 J8 G6", corner));
    assert_eq!(played.to_string(), "move 17 (G6): forbidden, DoubleThree");
}

#[test]
fn the_report_of_the_turned_moves_is_turned() {
    let games = [
        in_turn("G8 I8 H7 H9 H8", "A1 A3 A5 A7 A9"),
        in_turn("D8 E8 F8 G8 H8", "A1 A3 A5 A7"),
        "H8 I9 H8".to_owned(),
        "C15 A2 O7".to_owned(),
    ];
    for text in &games {
        let said = report(text);
        for view in View::ALL {
            let turned: Vec<Point> = points(text).iter().map(|p| p.turned(view)).collect();
            let other = Moves::new(&turned).expect("as many moves").report();
            assert_eq!(other.winner, said.winner);
            assert_eq!(other.cells, said.cells.turned(view));
            let place = |report: &Report| report.fault.map(|fault| (fault.number, fault.reason));
            assert_eq!(place(&other), place(&said));
        }
    }
}

#[test]
fn refusals() {
    assert_eq!(Moves::from_codes(&[255; 226]), Err(Refusal::ManyMoves));
    assert_eq!(Moves::from_codes(&[0, 0, 225]), Err(Refusal::Point));
    let all: Vec<u8> = (0..225).collect();
    let full = Moves::from_codes(&all).expect("225 moves");
    assert_eq!(full.as_codes(), all);
    assert_eq!(Moves::try_from(&all[..]), Ok(full));
    let [h8, i9]: [Point; 2] = ["H8", "I9"].map(|text| text.parse().expect("a point"));
    assert_eq!(Moves::try_from(&[h8, i9][..]), Ok(game("H8 I9")));
    assert_eq!(format!("{:?}", game("H8 I9")), "[Point(H8), Point(I9)]");
}
