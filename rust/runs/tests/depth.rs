//! The run over depths: that it is clean, and that it finds what it is to find, on functions made
//! wrong.

use renju::Cells;
use renju::raw::{renju_forbidden_strict, renju_second_forbidden_strict};
use runs::depth::{Host, ask, compare, expected, search};
use std::process::Command;

#[test]
fn all_codes_of_some_boards() {
    let tally = compare(&ask, 300, 1);
    assert_eq!(tally.status(), 0, "{}", tally.report());
    assert_eq!(tally.comparisons, 300 * 256);
    // Deep questions are among them.
    assert!(tally.depths.len() > 4, "{}", tally.report());
    assert!(tally.depths.iter().all(|&times| times > 0));
}

/// The depths by what each must be, where `change` makes others of them.
fn wrong(change: impl Fn(u32, u32) -> u32 + 'static) -> Box<Host> {
    Box::new(move |cells, code| {
        let word = ask(cells, code);
        if word >> 16 != 0 {
            return word;
        }
        256 * change(word >> 8, word & 255) + (word & 255)
    })
}

#[test]
fn wrong_depths_are_found() {
    let taken_counts_one = wrong(|depth, _| depth.max(1));
    let never_deep = wrong(|depth, _| depth.min(3));
    let one_too_many = wrong(|depth, verdict| depth + u32::from(verdict == 1));
    for host in [taken_counts_one, never_deep, one_too_many] {
        let tally = compare(&host, 40, 1);
        assert_eq!(tally.status(), 1);
        assert!(tally.report().contains("difference at code "));
    }
}

#[test]
fn a_refusal_that_is_missing_is_found() {
    let host = |cells: &[u8], code: u8| ask(cells, code.min(224));
    assert_eq!(compare(&host, 1, 1).differences, 31);
    assert_eq!(expected(&[0; 225], 225), 8 << 16);
    assert_eq!(expected(&[3; 225], 225), 9 << 16);
    assert_eq!(expected(&[0; 224], 0), 9 << 16);
}

/// The verdict in the low byte is that of both referees, on the board with the deepest question known;
/// and the naive reading says the same of every code.
#[test]
fn the_verdict_is_that_of_both_referees() {
    let known = include_str!("../../renju/tests/deepest.txt");
    let cells: Cells = known.lines().next().expect("a board").parse().expect("one");
    let bytes = cells.as_bytes();
    for code in 0..=u8::MAX {
        let word = ask(bytes, code);
        assert_eq!(word, expected(bytes, code));
        let verdict = if word >> 16 == 0 { word & 255 } else { word };
        assert_eq!(verdict, renju_forbidden_strict(bytes, code));
        assert_eq!(verdict, renju_second_forbidden_strict(bytes, code));
    }
}

#[test]
fn the_search_finds_deep_questions() {
    let deep = search(200_000, 1);
    assert!(deep.depth >= 8, "{}", deep.depth);
    assert_eq!(expected(&deep.cells, deep.code) >> 8, deep.depth);
}

#[test]
fn wrong_usage() {
    for wrong in [vec!["x"], vec!["-1"], vec!["1"; 4]] {
        let program = Command::new(env!("CARGO_BIN_EXE_depth"))
            .args(wrong)
            .output();
        let ended = program.expect("it runs");
        assert_eq!(ended.status.code(), Some(2));
        assert!(ended.stdout.is_empty());
        assert!(ended.stderr.starts_with(b"usage: depth "));
    }
}
