//! The questions of the tables: lists, verdicts, changes and texts. What is timed is one call of
//! the original's own function on a board that stands ready, or of the second referee's on bytes,
//! against one call of the host interface on bytes.

use std::hint::black_box;

use oracle::board::board::Board;
use oracle::board::grid::Grid;
use oracle::board::player::Player;
use oracle::left_out::{both_lists, both_strict};
use oracle::original::{self, Cells};
use renju::raw;

use super::race::Race;
use super::sets::Ready;

/// The first number that is a refusal; below it are answers.
const REFUSAL: u32 = 65_536;

/// The length of the longest list: every point with its kind.
const LIST: usize = 450;

/// Whom ours, the fast one, is timed against.
#[derive(Debug, Clone, Copy, PartialEq, Eq)]
pub enum Other {
    Original,
    /// The second referee of the host interface.
    Second,
}

/// The list of the forbidden points.
pub struct Lists<'a> {
    boards: &'a [Ready],
    other: Other,
    /// Lent to each call; zeroed once, here.
    out: [u8; LIST],
}

impl<'a> Lists<'a> {
    /// The questions: each board is one.
    pub fn new(boards: &'a [Ready], other: Other) -> Self {
        Self {
            boards,
            other,
            out: [0; LIST],
        }
    }
}

/// A list by the host interface, in pairs of kind and code; nothing where it is refused.
fn pairs(ask: fn(&[u8], &mut [u8]) -> u32, cells: &Cells) -> Option<Vec<(u8, u8)>> {
    let mut out = [0; LIST];
    let count = ask(cells, &mut out);
    let pair = |p: &[u8]| (p[0], p[1]);
    let found = out.chunks(2).take(count as usize).map(pair);
    (count < REFUSAL).then(|| found.collect())
}

impl Race for Lists<'_> {
    fn count(&self) -> usize {
        self.boards.len()
    }

    fn agrees(&mut self, question: usize) -> bool {
        let Ready { cells, board, .. } = &self.boards[question];
        let found = match self.other {
            Other::Original => Some(both_lists(cells, board).expected()),
            Other::Second => pairs(raw::renju_second_forbidden_points, cells),
        };
        found.is_some() && found == pairs(raw::renju_forbidden_points, cells)
    }

    // The original's `Vec` is dropped in the timed part: a frame has to do that too.
    fn other(&mut self, question: usize, calls: usize) {
        let Ready { cells, board, .. } = &self.boards[question];
        match self.other {
            Other::Original => {
                for _ in 0..calls {
                    black_box(black_box(board).forbidden_points());
                }
            }
            Other::Second => {
                for _ in 0..calls {
                    let word = raw::renju_second_forbidden_points(black_box(cells), &mut self.out);
                    black_box(word);
                }
            }
        }
    }

    fn ours(&mut self, question: usize, calls: usize) {
        let cells = &self.boards[question].cells;
        for _ in 0..calls {
            black_box(raw::renju_forbidden_points(black_box(cells), &mut self.out));
        }
    }
}

/// A board by number, and an empty point of it.
pub(super) type Place = (usize, u8);

/// Every empty point of every board.
pub(super) fn places(boards: &[Ready]) -> Vec<Place> {
    let of = |(n, board): (usize, &Ready)| board.empty().map(|code| (n, code)).collect::<Vec<_>>();
    boards.iter().enumerate().flat_map(of).collect()
}

/// The strict verdict at one point.
pub struct Verdicts<'a> {
    boards: &'a [Ready],
    other: Other,
    places: Vec<Place>,
}

impl<'a> Verdicts<'a> {
    /// The questions: every empty point of every board is one.
    pub fn new(boards: &'a [Ready], other: Other) -> Self {
        let places = places(boards);
        Self {
            boards,
            other,
            places,
        }
    }
}

impl Race for Verdicts<'_> {
    fn count(&self) -> usize {
        self.places.len()
    }

    fn agrees(&mut self, question: usize) -> bool {
        let (n, code) = self.places[question];
        let Ready { cells, board, .. } = &self.boards[n];
        let verdict = match self.other {
            Other::Original => both_strict(cells, board, code).expected().into(),
            Other::Second => raw::renju_second_forbidden_strict(cells, code),
        };
        verdict < REFUSAL && verdict == raw::renju_forbidden_strict(cells, code)
    }

    fn other(&mut self, question: usize, calls: usize) {
        let (n, code) = self.places[question];
        let Ready { cells, board, .. } = &self.boards[n];
        match self.other {
            Other::Original => {
                let point = original::point(code);
                for _ in 0..calls {
                    black_box(black_box(board).forbidden_strict(black_box(point)));
                }
            }
            Other::Second => {
                for _ in 0..calls {
                    black_box(raw::renju_second_forbidden_strict(
                        black_box(cells),
                        black_box(code),
                    ));
                }
            }
        }
    }

    fn ours(&mut self, question: usize, calls: usize) {
        let (n, code) = self.places[question];
        let cells = &self.boards[n].cells;
        for _ in 0..calls {
            black_box(raw::renju_forbidden_strict(
                black_box(cells),
                black_box(code),
            ));
        }
    }
}

/// Which of the original's two boards is asked: the one that keeps a hash with it, or the lines
/// alone. The port has no hash, so the first is what callers use today and the second does what the
/// port does.
#[derive(Debug, Clone, Copy, PartialEq, Eq)]
pub enum Form {
    Board,
    Grid,
}

impl Form {
    /// Both.
    pub const ALL: [Self; 2] = [Self::Board, Self::Grid];

    /// What the row of the table is called.
    pub fn words(self) -> &'static str {
        match self {
            Self::Board => "games, original's Board",
            Self::Grid => "games, original's Grid",
        }
    }
}

/// A black stone put at an empty point and taken off again: two calls, timed as one.
pub struct Changes {
    /// Boards of its own, for they are changed.
    boards: Vec<Ready>,
    places: Vec<Place>,
    form: Form,
}

impl Changes {
    /// The questions: every empty point of every board is one.
    pub fn new(boards: Vec<Ready>, form: Form) -> Self {
        let places = places(&boards);
        Self {
            boards,
            places,
            form,
        }
    }
}

/// The cells of the original's lines.
fn cells_of(grid: &Grid) -> Cells {
    let mut cells = [0; 225];
    for (code, cell) in cells.iter_mut().enumerate() {
        *cell = match grid.stone(original::point(code as u8)) {
            None => 0,
            Some(Player::Black) => 1,
            Some(Player::White) => 2,
        };
    }
    cells
}

/// Whether the three forms of a board hold the same stones.
fn same(ready: &Ready) -> bool {
    original::to_cells(&ready.board) == ready.cells && cells_of(&ready.grid) == ready.cells
}

impl Race for Changes {
    fn count(&self) -> usize {
        self.places.len()
    }

    fn agrees(&mut self, question: usize) -> bool {
        let (n, code) = self.places[question];
        let (ready, point) = (&mut self.boards[n], original::point(code));
        let before = ready.cells;
        ready.board.put(Player::Black, point);
        ready.grid.put(Player::Black, point);
        let put = raw::renju_put(&mut ready.cells, code, 1) == 0;
        let same_put = same(ready) && ready.cells[code as usize] == 1;
        ready.board.remove(point);
        ready.grid.remove(point);
        let removed = raw::renju_remove(&mut ready.cells, code) == 0;
        put && same_put && removed && same(ready) && ready.cells == before
    }

    fn other(&mut self, question: usize, calls: usize) {
        let (n, code) = self.places[question];
        let (ready, point) = (&mut self.boards[n], original::point(code));
        match self.form {
            Form::Board => {
                for _ in 0..calls {
                    let board: &mut Board = black_box(&mut ready.board);
                    board.put(Player::Black, black_box(point));
                    black_box(&mut *board).remove(black_box(point));
                }
            }
            Form::Grid => {
                for _ in 0..calls {
                    let grid: &mut Grid = black_box(&mut ready.grid);
                    grid.put(Player::Black, black_box(point));
                    black_box(&mut *grid).remove(black_box(point));
                }
            }
        }
    }

    fn ours(&mut self, question: usize, calls: usize) {
        let (n, code) = self.places[question];
        let cells = &mut self.boards[n].cells;
        for _ in 0..calls {
            black_box(raw::renju_put(black_box(cells), black_box(code), 1));
            black_box(raw::renju_remove(black_box(cells), black_box(code)));
        }
    }
}

/// The same on many boards by turns: a stone put on each, then taken off each. A call then reads
/// no cell that the call before has just written, which is how a server with many tables calls.
pub struct Turns {
    boards: Vec<Ready>,
    /// Of each board its empty points.
    places: Vec<Vec<u8>>,
    form: Form,
}

impl Turns {
    /// The questions: the boards by turns.
    pub fn new(boards: Vec<Ready>, form: Form) -> Self {
        let places = boards.iter().map(|board| board.empty().collect()).collect();
        Self {
            boards,
            places,
            form,
        }
    }

    /// The board and the point of a call.
    fn place(&self, question: usize, call: usize) -> (usize, u8) {
        let n = call % self.boards.len();
        (n, self.places[n][question])
    }
}

impl Race for Turns {
    fn count(&self) -> usize {
        self.places.iter().map(Vec::len).min().unwrap_or(0)
    }

    fn agrees(&mut self, question: usize) -> bool {
        (0..self.boards.len()).all(|call| {
            let (n, code) = self.place(question, call);
            let mut alone = Changes {
                boards: vec![self.boards[n].clone()],
                places: vec![(0, code)],
                form: self.form,
            };
            alone.agrees(0)
        })
    }

    fn other(&mut self, question: usize, calls: usize) {
        for call in 0..calls {
            let (n, code) = self.place(question, call);
            let point = black_box(original::point(code));
            match self.form {
                Form::Board => black_box(&mut self.boards[n].board).put(Player::Black, point),
                Form::Grid => black_box(&mut self.boards[n].grid).put(Player::Black, point),
            }
        }
        for call in 0..calls {
            let (n, code) = self.place(question, call);
            let point = black_box(original::point(code));
            match self.form {
                Form::Board => black_box(&mut self.boards[n].board).remove(point),
                Form::Grid => black_box(&mut self.boards[n].grid).remove(point),
            }
        }
    }

    fn ours(&mut self, question: usize, calls: usize) {
        for call in 0..calls {
            let (n, code) = self.place(question, call);
            let cells = black_box(&mut self.boards[n].cells);
            black_box(raw::renju_put(cells, black_box(code), 1));
        }
        for call in 0..calls {
            let (n, code) = self.place(question, call);
            let cells = black_box(&mut self.boards[n].cells);
            black_box(raw::renju_remove(cells, black_box(code)));
        }
    }
}

/// In which form a board is written.
#[derive(Debug, Clone, Copy, PartialEq, Eq)]
pub enum Written {
    /// A plain diagram, which the converter's reader reads.
    Diagram,
    /// Two lists of points, and a list of moves: the live entry.
    Stones,
    Moves,
}

impl Written {
    /// All forms.
    pub const ALL: [Self; 3] = [Self::Diagram, Self::Stones, Self::Moves];

    /// What the row of the table is called.
    pub fn words(self) -> &'static str {
        match self {
            Self::Diagram => "read a diagram",
            Self::Stones => "read stones",
            Self::Moves => "read moves",
        }
    }

    /// The text of the original's board. Moves are by turns, each colour's by code.
    fn text(self, ready: &Ready) -> String {
        let cells = original::to_cells(&ready.board);
        let names = |colour: u8| -> Vec<String> {
            let stone = |code: &u8| cells[usize::from(*code)] == colour;
            let name = |code: u8| format!("{}{}", char::from(b'A' + code / 15), code % 15 + 1);
            (0..225).filter(stone).map(name).collect()
        };
        let (blacks, whites) = (names(1), names(2));
        match self {
            Self::Diagram => ready.text.clone(),
            Self::Stones => format!("{}/{}", blacks.join(","), whites.join(",")),
            Self::Moves => {
                let turn = |n| {
                    [blacks.get(n), whites.get(n)]
                        .into_iter()
                        .flatten()
                        .cloned()
                };
                let moves: Vec<String> = (0..blacks.len()).flat_map(turn).collect();
                moves.join(",")
            }
        }
    }

    fn read(self, text: &[u8], cells: &mut Cells) -> u32 {
        match self {
            Self::Diagram => raw::renju_read_diagram(text, cells),
            Self::Stones | Self::Moves => raw::renju_read(text, cells),
        }
    }
}

/// A text read.
pub struct Texts<'a> {
    boards: Vec<&'a Ready>,
    texts: Vec<String>,
    written: Written,
    form: Form,
    /// Lent to each call; zeroed once, here.
    cells: Cells,
}

impl<'a> Texts<'a> {
    /// The questions: each text is one.
    pub fn new(boards: Vec<&'a Ready>, written: Written, form: Form) -> Self {
        Self {
            texts: boards.iter().map(|ready| written.text(ready)).collect(),
            boards,
            written,
            form,
            cells: [0; 225],
        }
    }
}

impl Race for Texts<'_> {
    fn count(&self) -> usize {
        self.boards.len()
    }

    fn agrees(&mut self, question: usize) -> bool {
        let text = &self.texts[question];
        let answer = self.written.read(text.as_bytes(), &mut self.cells);
        let same = self.cells == self.boards[question].cells;
        answer == 225 && same && original::read(text) == Ok(self.cells)
    }

    fn other(&mut self, question: usize, calls: usize) {
        let text = &self.texts[question];
        for _ in 0..calls {
            match self.form {
                Form::Board => drop(black_box(black_box(text).parse::<Board>())),
                Form::Grid => drop(black_box(black_box(text).parse::<Grid>())),
            }
        }
    }

    fn ours(&mut self, question: usize, calls: usize) {
        let text = self.texts[question].as_bytes();
        for _ in 0..calls {
            black_box(self.written.read(black_box(text), &mut self.cells));
        }
    }
}
