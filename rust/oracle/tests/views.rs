//! Section 6: the eight views, on the naive reading and on the original.

use oracle::boards::{self, Dice, SORTS};
use oracle::naive::{self, POINTS};
use oracle::{left_out, original};

/// A turned board has the turned list, and at each turned point the verdict
/// of the point.
#[test]
fn views_keep_verdict_and_list() {
    let mut dice = Dice::new(31);
    let (mut forbidden, mut compared) = (0, 0);
    for i in 0..60 {
        let cells = boards::of_sort(SORTS[i % SORTS.len()], &mut dice);
        let list = naive::forbidden_list(&cells);
        forbidden += list.len();
        for view in 0..8 {
            let turned = naive::turned_board(view, &cells);
            let expected = naive::turned_list(view, &list);
            assert_eq!(naive::forbidden_list(&turned), expected);
            let board = original::to_board(&turned);
            let held = left_out::forbidden_list(&turned, &board);
            assert_eq!(held.answer, expected);
            compared += usize::from(!held.left_out);
            for p in 0..POINTS {
                let at = naive::turned_point(view, p);
                let (a, b) = (naive::strict(&cells, p), naive::strict(&turned, at));
                assert_eq!(a.verdict, b.verdict, "view {view} at {p}");
            }
        }
    }
    assert!(forbidden > 200 && compared > 240);
}

/// Each sends the 225 points to the 225 points, and no two are the same.
#[test]
fn views_are_eight() {
    let of_two_points = |view| [1, 5].map(|p| naive::turned_point(view, p));
    for view in 0..8 {
        let mut seen: Vec<usize> = (0..POINTS).map(|p| naive::turned_point(view, p)).collect();
        seen.sort();
        assert!(seen.into_iter().eq(0..POINTS), "view {view}");
        for other in 0..view {
            assert_ne!(of_two_points(view), of_two_points(other));
        }
    }
}
