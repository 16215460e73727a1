//! What a call must answer: refusals by section 2 of document 01, values by the original; what is
//! left out of the comparison with it by the naive reading. Verdicts and lists are asked of the
//! naive reading too where they are not left out.

use super::call::{Call, Given, Question};
use super::games;
use oracle::board::board::Board;
use oracle::left_out::{self, Held};
use oracle::naive;
use oracle::naive_text;
use oracle::original::{self, Cells, KINDS, player, point, to_cells, to_line};

/// The low half of the word and the bytes written, or the refusal. Whether the bytes have room,
/// refusal 13, is for the caller to see: it comes after all the others.
pub type Expected = Result<(u16, Vec<u8>), u8>;

/// What is not held to the original: a text that request 5 speaks of, a verdict, a list or a game
/// that meets an eye that completes a five, by request 6; by request 13 a text with no slash and no
/// comma at the live entry, and one with a slash or a comma as a diagram.
#[derive(Debug, Clone, Copy, PartialEq, Eq)]
pub enum LeftOut {
    Text,
    Verdict,
    List,
    Game,
    Lone,
    Diagram,
}

/// What a call must answer, and as what it is left out of the comparison with the original.
pub fn expected(call: &Call, given: &Given) -> (Expected, Option<LeftOut>) {
    match refusal(call, given) {
        Some(number) => (Err(number), None),
        None => value(call, given),
    }
}

/// The numbers of a call that can be refused.
#[derive(Default)]
struct Numbers {
    size: Option<u8>,
    code: Option<u8>,
    colour: Option<u8>,
    kind: Option<u8>,
    view: Option<u8>,
    distance: Option<u8>,
    cell: Option<u8>,
}

fn numbers(call: &Call) -> Numbers {
    let mut n = Numbers {
        size: call.line().map(|line| line.size),
        ..Numbers::default()
    };
    match *call {
        Call::Put { code, colour } => (n.code, n.colour) = (Some(code), Some(colour)),
        Call::Remove { code } => n.code = Some(code),
        Call::Stones { colour } => n.colour = Some(colour),
        Call::Neighbors { code, distance, .. } => {
            (n.code, n.distance) = (Some(code), Some(distance))
        }
        Call::Fast(question) | Call::Second(question) => n = question_numbers(question),
        Call::Turn { view } => n.view = Some(view),
        Call::TurnPoint { code, view } => (n.code, n.view) = (Some(code), Some(view)),
        Call::LineStarts { colour, kind, .. } | Call::LineEyes { colour, kind, .. } => {
            (n.colour, n.kind) = (Some(colour), Some(kind))
        }
        Call::LineStartsOn {
            colour, kind, cell, ..
        } => (n.colour, n.kind, n.cell) = (Some(colour), Some(kind), Some(cell)),
        Call::ToString | Call::ToPrettyString | Call::EmptyPoints | Call::Counts | Call::Game => {}
        Call::Read | Call::ReadDiagram | Call::Convert => {}
    }
    n
}

/// .. of what both referees are asked.
fn question_numbers(question: Question) -> Numbers {
    let mut n = Numbers::default();
    match question {
        Question::Rows { colour, kind } => (n.colour, n.kind) = (Some(colour), Some(kind)),
        Question::RowsOn { code, colour, kind } => {
            (n.code, n.colour, n.kind) = (Some(code), Some(colour), Some(kind))
        }
        Question::FourEyesOn { code, colour } => (n.code, n.colour) = (Some(code), Some(colour)),
        Question::Forbidden { code } | Question::ForbiddenStrict { code } => n.code = Some(code),
        Question::ForbiddenPoints => {}
    }
    n
}

/// "Order: text 1, 2, [..]; then 10 for size, 9, 8, 12, 10 for place, 11, 13." The original's own
/// refusals, 3 to 7, come with the reading: a text can meet none of those behind them but 22 and 13.
/// Of a game "14 for more than 225 moves, before 8".
fn refusal(call: &Call, given: &Given) -> Option<u8> {
    let n = numbers(call);
    let over = |number: Option<u8>, most: u8| number.is_some_and(|number| number > most);
    let wrong_colour = n.colour.is_some_and(|colour| colour != 1 && colour != 2);
    let wrong_number = over(n.view, 7) || over(n.distance, 14) || wrong_colour || over(n.kind, 7);
    let (is_read, is_game) = (call.takes_a_text(), *call == Call::Game);
    let wrong_move = is_game && given.bytes.iter().any(|&code| code > 224);
    let rules = [
        (1, is_read && given.bytes.len() > 4096),
        (2, is_read && given.bytes.iter().any(|&byte| byte >= 128)),
        (10, n.size.is_some_and(|size| !(5..=15).contains(&size))),
        (9, is_unsound(call, given)),
        (14, is_game && given.bytes.len() > 225),
        (8, over(n.code, 224) || wrong_move),
        (12, wrong_number),
        (
            10,
            n.cell
                .is_some_and(|cell| n.size.is_some_and(|size| cell >= size)),
        ),
        (11, is_occupied(call, given)),
    ];
    rules.iter().find(|rule| rule.1).map(|rule| rule.0)
}

/// "unsound board, line or segment; cell bytes of other length or with a byte over 2".
fn is_unsound(call: &Call, given: &Given) -> bool {
    match call {
        Call::TurnPoint { .. } => false,
        _ if call.takes_a_list() => false,
        _ => match call.line() {
            Some(line) => !line.is_sound(),
            None => given.sound.is_none(),
        },
    }
}

/// "the plain verdict (`forbidden`) at an occupied point".
fn is_occupied(call: &Call, given: &Given) -> bool {
    match (call.question(), &given.sound) {
        (Some(Question::Forbidden { code }), Some((cells, _))) => {
            cells.get(usize::from(code)).is_some_and(|&cell| cell != 0)
        }
        _ => false,
    }
}

/// The answer of a call that is not refused before it is asked.
fn value(call: &Call, given: &Given) -> (Expected, Option<LeftOut>) {
    match (*call, &given.sound) {
        (Call::Read, _) => {
            let read = left_out::read(&given.bytes).map(|cells| (225, cells.to_vec()));
            let lone = left_out::lone(&given.bytes).then_some(LeftOut::Lone);
            let typed = left_out::typed(&given.bytes).then_some(LeftOut::Text);
            (read, lone.or(typed))
        }
        (Call::ReadDiagram, _) => {
            let read = left_out::read_diagram(&given.bytes).map(|cells| (225, cells.to_vec()));
            let is_left_out = !left_out::lone(&given.bytes);
            (read, is_left_out.then_some(LeftOut::Diagram))
        }
        (Call::Convert, _) => {
            let stones = naive_text::convert(&given.bytes);
            (stones.map(|text| list(text.into_bytes(), 1)), None)
        }
        (Call::TurnPoint { code, view }, _) => {
            let turned = naive::turned_point(usize::from(view), usize::from(code));
            (Ok((turned as u16, Vec::new())), None)
        }
        (Call::Game, _) => {
            let (report, is_left_out) = games::report(&given.bytes);
            (Ok(report), is_left_out.then_some(LeftOut::Game))
        }
        (Call::Fast(question) | Call::Second(question), Some((cells, board))) => {
            let (answer, left_out) = of_question(question, cells, board);
            (Ok(answer), left_out)
        }
        (_, Some((cells, board))) => (Ok(of_board(call, cells, board)), None),
        (_, None) => (Ok((of_line(call), Vec::new())), None),
    }
}

/// The original's answer about a board; the views are the document's alone.
fn of_board(call: &Call, cells: &Cells, board: &Board) -> (u16, Vec<u8>) {
    match *call {
        Call::ToString => list(board.to_string().into_bytes(), 1),
        Call::ToPrettyString => list(board.to_pretty_string().into_bytes(), 1),
        Call::Put { code, colour } => {
            let next = board.with_stone(player(colour), point(code));
            (0, to_cells(&next).to_vec())
        }
        Call::Remove { code } => (0, to_cells(&board.without_stone(point(code))).to_vec()),
        Call::Stones { colour } => list(original::stones(board, colour), 1),
        Call::EmptyPoints => list(original::empty_points(board), 1),
        Call::Counts => {
            let [black, white] = [1, 2].map(|colour| original::stones(board, colour).len() as u16);
            (256 * white + black, Vec::new())
        }
        Call::Neighbors {
            code,
            distance,
            only_empty,
        } => list(original::neighbours(board, code, distance, only_empty), 1),
        Call::Turn { view } => list(naive::turned_board(usize::from(view), cells).to_vec(), 1),
        _ => unreachable!("{call:?} is not about a board"),
    }
}

/// .. to what both referees are asked.
fn of_question(
    question: Question,
    cells: &Cells,
    board: &Board,
) -> ((u16, Vec<u8>), Option<LeftOut>) {
    use Question::*;
    let rows = match question {
        Rows { colour, kind } => list(original::rows(board, colour, kind).concat(), 4),
        RowsOn { code, colour, kind } => {
            list(original::rows_on(board, code, colour, kind).concat(), 4)
        }
        FourEyesOn { code, colour } => list(original::four_eyes_on(board, code, colour), 1),
        Forbidden { code } => return of_verdict(left_out::plain(cells, board, code)),
        ForbiddenStrict { code } => return of_verdict(left_out::strict(cells, board, code)),
        ForbiddenPoints => return of_list(left_out::forbidden_list(cells, board)),
    };
    (rows, None)
}

fn of_verdict(held: Held<u8>) -> ((u16, Vec<u8>), Option<LeftOut>) {
    let answer = (held.answer.into(), Vec::new());
    (answer, held.left_out.then_some(LeftOut::Verdict))
}

fn of_list(held: Held<Vec<(u8, u8)>>) -> ((u16, Vec<u8>), Option<LeftOut>) {
    let pairs = held.answer.into_iter();
    let answer = list(pairs.flat_map(|(kind, code)| [kind, code]).collect(), 2);
    (answer, held.left_out.then_some(LeftOut::List))
}

/// A list: how many items of a width there are, and their bytes.
fn list(bytes: Vec<u8>, width: usize) -> (u16, Vec<u8>) {
    ((bytes.len() / width) as u16, bytes)
}

/// The original's mask of a line alone.
fn of_line(call: &Call) -> u16 {
    let line = call.line().expect("a line alone, or it was refused");
    let line = to_line(line.size, line.blacks, line.whites);
    let of = |kind: u8| KINDS[usize::from(kind)];
    match *call {
        Call::LineStarts { colour, kind, .. } => line.row_starts(player(colour), of(kind)),
        Call::LineStartsOn {
            colour, kind, cell, ..
        } => line.row_starts_on(cell, player(colour), of(kind)),
        Call::LineEyes { colour, kind, .. } => line.row_eyes(player(colour), of(kind)),
        _ => unreachable!("{call:?} is not about a line"),
    }
}
