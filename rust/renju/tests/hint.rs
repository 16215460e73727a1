//! Hints: lines of fours planned, checked and refused.

use renju::raw::{renju_win_check, renju_win_plan};
use renju::{Cells, Colour, LINE, Limit, Point};

fn cells(text: &str) -> Cells {
    text.parse().expect("a board")
}

fn points(text: &str) -> Vec<Point> {
    text.split(',')
        .map(|item| item.parse().expect("a point"))
        .collect()
}

fn planned(text: &str, colour: Colour, limit: u8) -> Option<String> {
    let line = cells(text).win_by_fours(colour, Limit::new(limit).expect("a limit"))?;
    let names: Vec<String> = line.iter().map(ToString::to_string).collect();
    Some(names.join(","))
}

#[test]
fn an_open_four() {
    assert_eq!(
        planned("A1/F8,G8,H8", Colour::White, 1).as_deref(),
        Some("E8")
    );
    assert_eq!(
        planned("F8,G8,H8/A1", Colour::Black, 1).as_deref(),
        Some("E8")
    );
    assert_eq!(planned("F8,G8,H8/A1", Colour::White, 6), None);
}

#[test]
fn a_greater_limit_may_give_a_longer_line() {
    let text = "A1/F8,G8,H8,I5,I6,I7";
    assert_eq!(planned(text, Colour::White, 1).as_deref(), Some("E8"));
    assert_eq!(planned(text, Colour::White, 2).as_deref(), Some("D8,E8,I4"));
    let shortest = cells(text).shortest_win_by_fours(Colour::White, Limit::SIX);
    assert_eq!(shortest.expect("a line").len(), 1);
}

#[test]
fn a_five_completed() {
    assert_eq!(
        planned("E8,F8,G8,H8/D8", Colour::Black, 1).as_deref(),
        Some("I8")
    );
    // Six are no five for Black, and one for White.
    assert_eq!(planned("E8,F8,G8,H8,J8/D8", Colour::Black, 1), None);
    assert_eq!(
        planned("D8/E8,F8,G8,H8,J8", Colour::White, 1).as_deref(),
        Some("I8")
    );
}

#[test]
fn the_defender_has_a_five() {
    // "Before each attack, the last one too": no line, though the attacker's five is at hand.
    assert_eq!(
        planned("E8,F8,G8,H8/D8,A1,A2,A3,A4", Colour::Black, 6),
        None
    );
}

#[test]
fn a_standing_five() {
    assert_eq!(
        planned("A1,A2,A3,A4,A5,F8,G8,H8/O1", Colour::Black, 6),
        None
    );
    assert_eq!(
        planned("O1/A1,A2,A3,A4,A5,A6,F8,G8,H8", Colour::White, 6),
        None
    );
}

#[test]
fn a_double_four_is_forbidden_to_black_and_wins_for_white() {
    // H8 makes two fours: a row closed at D8 and a column closed at H4.
    let (black, white) = ("E8,F8,G8,H5,H6,H7/D8,H4", "D8,H4/E8,F8,G8,H5,H6,H7");
    let h8 = points("H8");
    assert!(!cells(black).is_win_by_fours(Colour::Black, &h8));
    assert!(cells(white).is_win_by_fours(Colour::White, &h8));
}

#[test]
fn one_eye_of_three_fours_counts_once() {
    // Three Fours through the new stone, in E8 to I8, F8 to J8 and G8 to K8: their one eye is I8.
    let board = "D8,N8/E8,F8,G8,J8,K8";
    assert!(!cells(board).is_win_by_fours(Colour::White, &points("H8")));
}

#[test]
fn a_reply_that_black_may_not_make() {
    // White's four E8 to H8 leaves I8, where Black would make six in a column: the line ends.
    let board = cells("D8,I5,I6,I7,I9,I10/E8,F8,G8");
    assert!(board.is_win_by_fours(Colour::White, &points("H8")));
    // With one black stone fewer the reply makes a four, and no line begins with H8.
    let board = cells("D8,I5,I6,I7/E8,F8,G8");
    assert!(!board.is_win_by_fours(Colour::White, &points("H8")));
    assert!(!board.is_win_by_fours(Colour::White, &points("H8,I8,A1")));
}

#[test]
fn nothing_may_follow_the_end() {
    let board = cells("A1/F8,G8,H8");
    assert!(board.is_win_by_fours(Colour::White, &points("E8")));
    assert!(!board.is_win_by_fours(Colour::White, &points("E8,D8")));
    assert!(!board.is_win_by_fours(Colour::White, &points("E8,D8,I8")));
    assert!(!board.is_win_by_fours(Colour::White, &[]));
}

#[test]
fn refusals_in_order() {
    let (good, bad) = ([0; 225], [3; 225]);
    let mut out = [7; LINE];
    assert_eq!(renju_win_check(&bad, 3, &[225]), 9 << 16);
    assert_eq!(renju_win_check(&good, 3, &[225]), 8 << 16);
    assert_eq!(renju_win_check(&good, 3, &[224]), 12 << 16);
    assert_eq!(renju_win_check(&good, 1, &[224]), 0);
    assert_eq!(renju_win_plan(&bad, 3, 0, &mut out[..10]), 9 << 16);
    assert_eq!(renju_win_plan(&good, 3, 0, &mut out[..10]), 12 << 16);
    for limit in [0, 7, 255] {
        assert_eq!(renju_win_plan(&good, 1, limit, &mut out[..10]), 21 << 16);
    }
    assert_eq!(renju_win_plan(&good, 1, 6, &mut out[..10]), 13 << 16);
    assert_eq!(renju_win_plan(&good, 1, 6, &mut out), 0);
    assert_eq!(out, [7; LINE]);
}
