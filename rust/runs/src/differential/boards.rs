//! All the questions about a board of any sort, and texts to read.

use super::call::{Call, Given, Question};
use super::judge::{Judge, Room};
use oracle::boards::{self, Dice, SORTS};
use oracle::cases::{BOARD_CASES, TURNING};
use oracle::listing;
use oracle::naive_text::{self, write_diagram};
use oracle::original::Cells;
use oracle::texts;

/// The boards of the document's cases, and those whose verdict turns on one answer deep inside.
pub fn cases(judge: &mut Judge) {
    let named = BOARD_CASES.iter().map(|case| case.cells());
    for cells in named.chain(TURNING.iter().map(|case| case.cells())) {
        questions(judge, &cells);
    }
}

/// The board of a number: the five sorts in turn.
pub fn board(judge: &mut Judge, number: usize) {
    let cells = boards::of_sort(SORTS[number % SORTS.len()], &mut judge.dice);
    questions(judge, &cells);
    some_texts(judge, &cells);
}

/// Every question about a board; those with many points to ask at, at some of them.
pub fn questions(judge: &mut Judge, cells: &Cells) {
    let given = Given::cells(cells);
    verdicts(judge, &given);
    whole_board(judge, &given);
    around_points(judge, &given, cells);
    changes(judge, &given, cells);
    let diagram = write_diagram(cells);
    let given = Given::text(diagram.as_bytes());
    for call in [Call::Read, Call::ReadDiagram, Call::Convert] {
        judge.compare(call, &given, Room::Exact);
    }
    if let Ok(stones) = naive_text::convert(diagram.as_bytes()) {
        judge.compare(Call::Read, &Given::text(stones.as_bytes()), Room::Exact);
    }
}

/// Asks with a room of any sort.
fn ask(judge: &mut Judge, call: Call, given: &Given) {
    let room = Room::any(&mut judge.dice);
    judge.compare(call, given, room);
}

/// Both verdicts at every code, and the list.
fn verdicts(judge: &mut Judge, given: &Given) {
    for code in 0..=255 {
        let strict = Call::Fast(Question::ForbiddenStrict { code });
        judge.compare(strict, given, Room::Empty);
        let plain = Call::Fast(Question::Forbidden { code });
        judge.compare(plain, given, Room::Empty);
    }
    ask(judge, Call::Fast(Question::ForbiddenPoints), given);
}

fn whole_board(judge: &mut Judge, given: &Given) {
    for colour in [1, 2] {
        ask(judge, Call::Stones { colour }, given);
        for kind in 0..8 {
            ask(judge, Call::Fast(Question::Rows { colour, kind }), given);
        }
    }
    for call in [Call::EmptyPoints, Call::ToString, Call::ToPrettyString] {
        ask(judge, call, given);
    }
    judge.compare(Call::Counts, given, Room::Empty);
    for view in 0..8 {
        ask(judge, Call::Turn { view }, given);
    }
}

/// Rows, four eyes and neighbours at some points.
fn around_points(judge: &mut Judge, given: &Given, cells: &Cells) {
    for _ in 0..8 {
        let code = some_code(&mut judge.dice, cells);
        for kind in 0..8 {
            let colour = some_colour(&mut judge.dice);
            let rows_on = Call::Fast(Question::RowsOn { code, colour, kind });
            ask(judge, rows_on, given);
        }
        let colour = some_colour(&mut judge.dice);
        let four_eyes_on = Call::Fast(Question::FourEyesOn { code, colour });
        ask(judge, four_eyes_on, given);
        let distance = judge.dice.below(16) as u8;
        let only_empty = judge.dice.chance(50);
        let call = Call::Neighbors {
            code,
            distance,
            only_empty,
        };
        ask(judge, call, given);
    }
}

fn changes(judge: &mut Judge, given: &Given, cells: &Cells) {
    for _ in 0..8 {
        let code = some_code(&mut judge.dice, cells);
        let colour = some_colour(&mut judge.dice);
        judge.compare(Call::Put { code, colour }, given, Room::Empty);
        judge.compare(Call::Remove { code }, given, Room::Empty);
    }
}

/// Half of them codes of stones, where there is more to see; some beyond the board.
fn some_code(dice: &mut Dice, cells: &Cells) -> u8 {
    let code = dice.below(230) as u8;
    let stone = |near: &u8| cells[usize::from(*near)] != 0;
    let later = (code.min(224)..225).find(stone);
    if dice.chance(50) {
        later.unwrap_or(code)
    } else {
        code
    }
}

/// Black and White, now and then another number.
fn some_colour(dice: &mut Dice) -> u8 {
    if dice.chance(3) {
        dice.below(256) as u8
    } else {
        1 + dice.below(2) as u8
    }
}

/// Texts: lists good and damaged, this board's diagram damaged, and one of the listing's.
fn some_texts(judge: &mut Judge, cells: &Cells) {
    let dice = &mut judge.dice;
    let good = texts::good(dice);
    let damaged = texts::mutated(dice, &good);
    let diagram = texts::mutated(dice, &write_diagram(cells));
    let small = texts::mutated(dice, &texts::compact(cells));
    let mut all = [good, damaged, diagram, small]
        .map(String::into_bytes)
        .to_vec();
    if dice.chance(20) {
        all.push(listing::text(dice));
    }
    for text in all {
        let given = Given::text(&text);
        for call in [Call::Read, Call::ReadDiagram, Call::Convert] {
            ask(judge, call, &given);
        }
    }
}
