//! `boards.txt`: blocks of answers about one board each.

use super::{Records, SEED, byte, cells_field, list};
use crate::board::board::Board;
use crate::boards::{self, Dice};
use crate::cases::{BOARD_CASES, TURNING};
use crate::naive;
use crate::original::{self, Cells};

/// Which of the longer answers a block has beside the verdicts.
#[derive(Clone, Copy, PartialEq)]
enum Extent {
    /// Verdicts, list and stones only.
    Short,
    /// Also rows and answers around points.
    Long,
    /// Also the empty points.
    Full,
}

pub fn text() -> String {
    let mut dice = Dice::new(SEED);
    let mut out = Records::default();
    out.comment("answers of the original about boards; the forms are in README.md");
    for (sort, cells, extent) in chosen(&mut dice) {
        out.comment(&sort);
        block(&mut out, &cells, extent, &mut dice);
    }
    out.0
}

/// A board of the file, with what the comment says of it.
type Chosen = (String, Cells, Extent);

fn chosen(dice: &mut Dice) -> Vec<Chosen> {
    let mut all = vec![
        ("empty board".into(), [0; 225], Extent::Full),
        ("full board, all black".into(), [1; 225], Extent::Short),
        ("full board".into(), full(dice), Extent::Long),
    ];
    all.extend(from_cases());
    let mut sorted = |count, words: &str, make: &mut dyn FnMut(&mut Dice) -> Cells| {
        for i in 0..count {
            let cells = make(dice);
            let extent = match i {
                0 => Extent::Full,
                _ if i < 2 * count / 3 => Extent::Long,
                _ => Extent::Short,
            };
            all.push((described(words, &cells), cells, extent));
        }
    };
    sorted(9, "random", &mut boards::random);
    sorted(12, "clustered", &mut boards::clustered);
    sorted(7, "dense black", &mut boards::dense_black);
    sorted(3, "dense white", &mut dense_white);
    sorted(15, "nested", &mut boards::nested);
    for moves in [8, 20, 40, 80] {
        let mut game = |dice: &mut Dice| boards::game_of(dice, moves);
        sorted(5, "game", &mut game);
    }
    all
}

/// The boards of the table of cases, and those that turn on one answer.
fn from_cases() -> Vec<Chosen> {
    let mut all = Vec::new();
    for case in BOARD_CASES {
        let words = format!("case {} at {}", case.name, case.at);
        let cells = case.cells();
        all.push((described(&words, &cells), cells, Extent::Long));
    }
    for board in TURNING {
        let words = format!("turns at {} on {}", board.at, board.on);
        let cells = board.cells();
        all.push((described(&words, &cells), cells, Extent::Short));
    }
    all
}

/// A dense board with the colours changed over: White's long rows are rare
/// on all other sorts.
fn dense_white(dice: &mut Dice) -> Cells {
    boards::dense_black(dice).map(|v| [0, 2, 1][v as usize])
}

fn described(words: &str, cells: &Cells) -> String {
    let stones = boards::stone_count(cells);
    let depth = naive::depth(cells);
    format!("{words}, {stones} stones, nesting {depth}")
}

fn full(dice: &mut Dice) -> Cells {
    let mut cells = [0; 225];
    for cell in cells.iter_mut() {
        *cell = if dice.chance(60) { 1 } else { 2 };
    }
    cells
}

fn block(out: &mut Records, cells: &Cells, extent: Extent, dice: &mut Dice) {
    let board = original::to_board(cells);
    out.record('b', &[cells_field(cells)]);
    verdicts(out, cells, &board);
    for colour in [1, 2] {
        let stones = original::stones(&board, colour);
        out.record('k', &[byte(colour), list(&stones)]);
    }
    if extent == Extent::Full {
        out.record('m', &[list(&original::empty_points(&board))]);
    }
    if extent != Extent::Short || cells.iter().all(|&v| v == 1) {
        rows(out, &board);
    }
    if extent != Extent::Short {
        rows_on(out, &board, dice);
        four_eyes(out, &board, dice);
        repeated_eyes(out, &board);
        neighbours(out, &board, dice);
    }
}

fn verdicts(out: &mut Records, cells: &Cells, board: &Board) {
    let each = |verdict: &dyn Fn(usize) -> u8| -> String {
        (0..225).map(|p| verdict(p).to_string()).collect()
    };
    let ours = each(&|p| naive::strict(cells, p).verdict);
    let theirs = each(&|p| original::strict(board, p as u8));
    one_or_both(out, 's', ours, theirs);
    let each_empty = |verdict: &dyn Fn(usize) -> u8| -> String {
        let at = |p: usize| match cells[p] {
            0 => verdict(p).to_string(),
            _ => "-".into(),
        };
        (0..225).map(at).collect()
    };
    let ours = each_empty(&|p| naive::plain(cells, p).verdict);
    let theirs = each_empty(&|p| original::plain(board, p as u8));
    one_or_both(out, 'p', ours, theirs);
    let pairs = |pairs: Vec<(u8, u8)>| {
        let bytes: Vec<u8> = pairs.into_iter().flat_map(|(k, p)| [k, p]).collect();
        list(&bytes)
    };
    let (ours, theirs) = (
        naive::forbidden_list(cells),
        original::forbidden_list(board),
    );
    one_or_both(out, 'f', pairs(ours), pairs(theirs));
}

/// The original's answer; where request 6 answers otherwise both, the request's
/// first, under the capital letter.
fn one_or_both(out: &mut Records, letter: char, ours: String, theirs: String) {
    if ours == theirs {
        out.record(letter, &[theirs]);
    } else {
        out.record(letter.to_ascii_uppercase(), &[ours, theirs]);
    }
}

fn rows(out: &mut Records, board: &Board) {
    for colour in [1, 2] {
        for kind in 0..8 {
            let found = original::rows(board, colour, kind).concat();
            out.record('r', &[byte(colour), byte(kind), list(&found)]);
        }
    }
}

/// Points that questions are asked at: corners, edges, centre, and others.
fn asked_point(dice: &mut Dice) -> u8 {
    let special = dice.pick(&[0, 14, 210, 224, 7, 105, 217, 119, 112]);
    let any = dice.below(225) as u8;
    if dice.chance(20) { special } else { any }
}

/// Rows through points: for some pairs of colour and kind the first asked
/// point that has one, and two questions without a row.
fn rows_on(out: &mut Records, board: &Board, dice: &mut Dice) {
    let (mut some, mut none) = (9, 2);
    let first = dice.below(16) as u8;
    for pair in (0..16).map(|i| (first + 5 * i) % 16) {
        let (colour, kind) = (1 + pair / 8, pair % 8);
        for _ in 0..90 {
            let p = asked_point(dice);
            let found = original::rows_on(board, p, colour, kind).concat();
            let met = !found.is_empty();
            let left = if met { &mut some } else { &mut none };
            if *left > 0 {
                *left -= 1;
                out.record('o', &[byte(p), byte(colour), byte(kind), list(&found)]);
            }
            if met {
                break;
            }
        }
    }
}

/// Some four eyes through points: mostly with an answer, one without.
fn four_eyes(out: &mut Records, board: &Board, dice: &mut Dice) {
    let (mut some, mut none) = (5, 1);
    for _ in 0..500 {
        let (p, colour) = (asked_point(dice), 1 + dice.below(2) as u8);
        let found = original::four_eyes_on(board, p, colour);
        let left = if found.is_empty() {
            &mut none
        } else {
            &mut some
        };
        if *left > 0 {
            *left -= 1;
            out.record('e', &[byte(p), byte(colour), list(&found)]);
        }
    }
}

/// Four eyes through empty points that come themselves more than once, as
/// they complete a five on several lines.
fn repeated_eyes(out: &mut Records, board: &Board) {
    let mut left = 2;
    for (p, colour) in (0..225).flat_map(|p| [(p, 1), (p, 2)]) {
        let found = original::four_eyes_on(board, p, colour);
        if left > 0 && found.iter().filter(|&&eye| eye == p).count() > 1 {
            left -= 1;
            out.record('e', &[byte(p), byte(colour), list(&found)]);
        }
    }
}

/// Neighbours at a small distance, at any distance, in both forms.
fn neighbours(out: &mut Records, board: &Board, dice: &mut Dice) {
    for reach in [3, 3, 15] {
        let (p, distance) = (asked_point(dice), dice.below(reach) as u8);
        for only_empty in [false, true] {
            let found = original::neighbours(board, p, distance, only_empty);
            let form = byte(only_empty as u8);
            out.record('n', &[byte(p), byte(distance), form, list(&found)]);
        }
    }
}
