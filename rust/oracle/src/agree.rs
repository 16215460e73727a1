//! The naive reading against the original: counting and comparing. Verdicts and
//! lists that meet an eye that completes a five are left out and counted.

use crate::board::board::Board;
use crate::boards::{self, Dice, SORTS};
use crate::naive::{self, Answer, Cells, EMPTY, KINDS, POINTS};
use crate::naive_text;
use crate::original;

/// What a run has compared so far, and its smallest failing board.
#[derive(Default)]
pub struct Tally {
    pub boards: usize,
    pub comparisons: usize,
    pub differences: usize,
    pub deep: usize,
    pub forbidden: usize,
    pub left_out: LeftOut,
    pub smallest: Option<Failure>,
}

/// How many answers were left out by request 6, and how many of them are others
/// than the original's.
#[derive(Default)]
pub struct LeftOut {
    pub verdicts: usize,
    pub lists: usize,
    pub other_verdicts: usize,
    pub other_lists: usize,
}

/// A board on which the two differ, and the question they differ in.
pub struct Failure {
    pub cells: Cells,
    pub question: String,
}

impl Tally {
    fn compare<T: PartialEq>(
        &mut self,
        cells: &Cells,
        naive: T,
        original: T,
        question: impl FnOnce() -> String,
    ) {
        self.comparisons += 1;
        if naive == original {
            return;
        }
        self.differences += 1;
        let stones = boards::stone_count(cells);
        let smaller = |f: &Failure| stones < boards::stone_count(&f.cells);
        if self.smallest.as_ref().is_none_or(smaller) {
            self.smallest = Some(Failure {
                cells: *cells,
                question: question(),
            });
        }
    }
}

/// Compares both on `count` boards, the five sorts in turn, calling `report`
/// after each one.
pub fn run(count: usize, seed: u64, mut report: impl FnMut(&Tally)) -> Tally {
    let mut dice = Dice::new(seed);
    let mut tally = Tally::default();
    for i in 0..count {
        let cells = boards::of_sort(SORTS[i % SORTS.len()], &mut dice);
        let board = original::to_board(&cells);
        verdicts(&cells, &board, &mut tally);
        // The rest is asked on every third board, which meets all sorts.
        if i % 3 == 0 {
            rows(&cells, &board, &mut tally);
            around_points(&cells, &board, &mut dice, &mut tally);
        }
        tally.boards += 1;
        report(&tally);
    }
    tally
}

/// Strict at every point, plain at every empty point, and the list.
pub fn verdicts(cells: &Cells, board: &Board, tally: &mut Tally) {
    let mut deepest = 0;
    for p in 0..POINTS {
        let answer = naive::strict(cells, p);
        deepest = deepest.max(answer.depth);
        let strict = original::strict(board, p as u8);
        verdict(cells, answer, strict, tally, || format!("strict at {p}"));
        if cells[p] == EMPTY {
            let plain = original::plain(board, p as u8);
            let answer = naive::plain(cells, p);
            verdict(cells, answer, plain, tally, || format!("plain at {p}"));
        }
    }
    let list = original::forbidden_list(board);
    tally.forbidden += list.len();
    tally.deep += usize::from(deepest >= boards::NESTED_DEPTH);
    let (naive, five_eye) = naive::listed(cells);
    if five_eye {
        tally.left_out.lists += 1;
        tally.left_out.other_lists += usize::from(naive != list);
    } else {
        tally.compare(cells, naive, list, || "list".into());
    }
}

/// One verdict, compared unless it is left out.
fn verdict(
    cells: &Cells,
    naive: Answer,
    original: u8,
    tally: &mut Tally,
    question: impl FnOnce() -> String,
) {
    if naive.five_eye {
        tally.left_out.verdicts += 1;
        tally.left_out.other_verdicts += usize::from(naive.verdict != original);
    } else {
        tally.compare(cells, naive.verdict, original, question);
    }
}

/// The rows of the whole board, of every kind and colour.
pub fn rows(cells: &Cells, board: &Board, tally: &mut Tally) {
    for colour in [1, 2] {
        for (k, kind) in KINDS.into_iter().enumerate() {
            let naive = naive::rows(cells, colour, kind);
            let original = original::rows(board, colour, k as u8);
            let question = || format!("rows of colour {colour}, kind {kind:?}");
            tally.compare(cells, naive, original, question);
        }
    }
    let diagram = naive_text::write_diagram(cells);
    tally.compare(cells, diagram, board.to_string(), || "diagram".into());
}

/// Rows and four eyes through some points, and the neighbours of them.
pub fn around_points(cells: &Cells, board: &Board, dice: &mut Dice, tally: &mut Tally) {
    for _ in 0..12 {
        let p = dice.below(POINTS);
        for colour in [1, 2] {
            for (k, kind) in KINDS.into_iter().enumerate() {
                let naive = naive::rows_on(cells, p, colour, kind);
                let original = original::rows_on(board, p as u8, colour, k as u8);
                let question = || format!("rows through {p}, colour {colour}, kind {kind:?}");
                tally.compare(cells, naive, original, question);
            }
            let naive = naive::four_eyes_on(cells, p, colour);
            let original = original::four_eyes_on(board, p as u8, colour);
            let question = || format!("four eyes through {p}, colour {colour}");
            tally.compare(cells, naive, original, question);
        }
        let distance = dice.below(15);
        for only_empty in [false, true] {
            let naive = naive::neighbours(cells, p, distance, only_empty);
            let original = original::neighbours(board, p as u8, distance as u8, only_empty);
            let question = || format!("neighbours of {p} at {distance}, empty {only_empty}");
            tally.compare(cells, naive, original, question);
        }
    }
}
