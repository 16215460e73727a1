//! The calls of the host interface: one variant a function, and ours behind them.

use oracle::board::board::Board;
use oracle::original::{self, Cells};
use renju::raw;
use std::ops::{Deref, DerefMut};

/// A line alone, by its stones as masks.
#[derive(Debug, Clone, Copy, PartialEq, Eq)]
pub struct Line {
    pub blacks: u16,
    pub whites: u16,
    pub size: u8,
}

impl Line {
    /// "A line alone is sound when no bit is outside its size and no cell has both colours."
    pub fn is_sound(&self) -> bool {
        let stones = u32::from(self.blacks | self.whites);
        let outside = stones.checked_shr(self.size.into()).unwrap_or(0);
        self.blacks & self.whites == 0 && outside == 0
    }

    /// How many stones the line has.
    pub fn stone_count(&self) -> usize {
        (self.blacks.count_ones() + self.whites.count_ones()) as usize
    }
}

/// What both referees are asked, with the numbers: each has a function for it.
#[derive(Debug, Clone, Copy, PartialEq, Eq)]
pub enum Question {
    Rows { colour: u8, kind: u8 },
    RowsOn { code: u8, colour: u8, kind: u8 },
    FourEyesOn { code: u8, colour: u8 },
    Forbidden { code: u8 },
    ForbiddenStrict { code: u8 },
    ForbiddenPoints,
}

impl Question {
    /// The function's place among those of either referee.
    fn number(&self) -> usize {
        match self {
            Question::Rows { .. } => 0,
            Question::RowsOn { .. } => 1,
            Question::FourEyesOn { .. } => 2,
            Question::Forbidden { .. } => 3,
            Question::ForbiddenStrict { .. } => 4,
            Question::ForbiddenPoints => 5,
        }
    }

    fn lends(&self) -> Lends {
        match self {
            Question::Forbidden { .. } | Question::ForbiddenStrict { .. } => Lends::Nothing,
            _ => Lends::Out,
        }
    }
}

/// A function with its numbers. Bytes that it is handed stand beside it, in [`Given`].
#[derive(Debug, Clone, Copy, PartialEq, Eq)]
pub enum Call {
    Read,
    ToString,
    ToPrettyString,
    Put {
        code: u8,
        colour: u8,
    },
    Remove {
        code: u8,
    },
    Stones {
        colour: u8,
    },
    EmptyPoints,
    /// Both colours' stones, counted.
    Counts,
    Neighbors {
        code: u8,
        distance: u8,
        only_empty: bool,
    },
    /// Of the fast referee.
    Fast(Question),
    Turn {
        view: u8,
    },
    TurnPoint {
        code: u8,
        view: u8,
    },
    LineStarts {
        line: Line,
        colour: u8,
        kind: u8,
    },
    LineStartsOn {
        line: Line,
        colour: u8,
        kind: u8,
        cell: u8,
    },
    LineEyes {
        line: Line,
        colour: u8,
        kind: u8,
    },
    /// Of the second referee.
    Second(Question),
    /// A whole game: the bytes handed over are its moves.
    Game,
    /// A text as a diagram.
    ReadDiagram,
    /// A diagram to stones text.
    Convert,
}

/// The functions' names, by [`Call::number`].
pub const NAMES: [&str; 29] = [
    "renju_read",
    "renju_to_string",
    "renju_to_pretty_string",
    "renju_put",
    "renju_remove",
    "renju_stones",
    "renju_empty_points",
    "renju_neighbors",
    "renju_rows",
    "renju_rows_on",
    "renju_four_eyes_on",
    "renju_forbidden",
    "renju_forbidden_strict",
    "renju_forbidden_points",
    "renju_turn",
    "renju_turn_point",
    "renju_line_starts",
    "renju_line_starts_on",
    "renju_line_eyes",
    "renju_second_rows",
    "renju_second_rows_on",
    "renju_second_four_eyes_on",
    "renju_second_forbidden",
    "renju_second_forbidden_strict",
    "renju_second_forbidden_points",
    "renju_game",
    "renju_counts",
    "renju_read_diagram",
    "renju_convert",
];

/// What a function may write to.
#[derive(Debug, Clone, Copy, PartialEq, Eq)]
pub enum Lends {
    Nothing,
    /// The cells themselves, which it changes.
    Cells,
    /// A buffer for its answer.
    Out,
}

impl Call {
    /// The function's place in [`NAMES`].
    pub fn number(&self) -> usize {
        match self {
            Call::Read => 0,
            Call::ToString => 1,
            Call::ToPrettyString => 2,
            Call::Put { .. } => 3,
            Call::Remove { .. } => 4,
            Call::Stones { .. } => 5,
            Call::EmptyPoints => 6,
            Call::Neighbors { .. } => 7,
            Call::Fast(question) => 8 + question.number(),
            Call::Turn { .. } => 14,
            Call::TurnPoint { .. } => 15,
            Call::LineStarts { .. } => 16,
            Call::LineStartsOn { .. } => 17,
            Call::LineEyes { .. } => 18,
            Call::Second(question) => 19 + question.number(),
            Call::Game => 25,
            Call::Counts => 26,
            Call::ReadDiagram => 27,
            Call::Convert => 28,
        }
    }

    /// The function's name.
    pub fn name(&self) -> &'static str {
        NAMES[self.number()]
    }

    /// What is lent to the call.
    pub fn lends(&self) -> Lends {
        match self {
            Call::Put { .. } | Call::Remove { .. } => Lends::Cells,
            Call::Fast(question) | Call::Second(question) => question.lends(),
            Call::TurnPoint { .. } | Call::Counts => Lends::Nothing,
            _ if self.line().is_some() => Lends::Nothing,
            _ => Lends::Out,
        }
    }

    /// Whether the bytes handed over are no cells: a text, or a game's moves. Each of them counts
    /// by itself, and none has to be there.
    pub fn takes_a_list(&self) -> bool {
        self.takes_a_text() || *self == Call::Game
    }

    /// Whether the bytes handed over are a text.
    pub fn takes_a_text(&self) -> bool {
        matches!(self, Call::Read | Call::ReadDiagram | Call::Convert)
    }

    /// What is asked, where both referees are asked it.
    pub fn question(&self) -> Option<Question> {
        match *self {
            Call::Fast(question) | Call::Second(question) => Some(question),
            _ => None,
        }
    }

    /// The same question to the second referee, where it has a function for it.
    pub fn second(&self) -> Option<Self> {
        match *self {
            Call::Fast(question) => Some(Call::Second(question)),
            _ => None,
        }
    }

    /// The line that is asked about, where it is a line alone.
    pub fn line(&self) -> Option<Line> {
        match *self {
            Call::LineStarts { line, .. } => Some(line),
            Call::LineStartsOn { line, .. } => Some(line),
            Call::LineEyes { line, .. } => Some(line),
            _ => None,
        }
    }

    /// The same question about another line.
    pub fn with_line(mut self, other: Line) -> Self {
        match &mut self {
            Call::LineStarts { line, .. } => *line = other,
            Call::LineStartsOn { line, .. } => *line = other,
            Call::LineEyes { line, .. } => *line = other,
            _ => {}
        }
        self
    }
}

/// The bytes that a call is handed: a text, moves, or cells with the original's board of them, which is
/// made once for all the questions about it.
#[derive(Clone)]
pub struct Given {
    pub bytes: Vec<u8>,
    /// The cells and the original's board: only where the bytes are sound cells.
    pub sound: Option<(Cells, Board)>,
}

impl Given {
    /// No bytes.
    pub fn nothing() -> Self {
        Self::text(&[])
    }

    /// Bytes that are no cells.
    pub fn text(bytes: &[u8]) -> Self {
        Self {
            bytes: bytes.to_vec(),
            sound: None,
        }
    }

    /// Section 2: "cell bytes of other length or with a byte over 2" are unsound.
    pub fn cells(bytes: &[u8]) -> Self {
        let cells = Cells::try_from(bytes).ok();
        let cells = cells.filter(|cells| cells.iter().all(|&cell| cell <= 2));
        Self {
            bytes: bytes.to_vec(),
            sound: cells.map(|cells| (cells, original::to_board(&cells))),
        }
    }
}

/// Bytes before and behind the lent ones, which no call may touch.
pub const GUARD: usize = 16;

/// The lent bytes: it is used as their slice. Their guards are in reach too, so that a test can do
/// what a function behind a C interface could.
pub struct Lent<'a> {
    pub guarded: &'a mut [u8],
}

impl Deref for Lent<'_> {
    type Target = [u8];

    fn deref(&self) -> &[u8] {
        let end = self.guarded.len().saturating_sub(GUARD);
        self.guarded.get(GUARD..end).unwrap_or_default()
    }
}

impl DerefMut for Lent<'_> {
    fn deref_mut(&mut self) -> &mut [u8] {
        let end = self.guarded.len().saturating_sub(GUARD);
        self.guarded.get_mut(GUARD..end).unwrap_or_default()
    }
}

/// The functions under test, all behind one: the call, the bytes handed to it, the bytes lent to
/// it; its word. Tests put wrong ones here.
pub type Host<'a> = dyn Fn(&Call, &[u8], &mut Lent) -> u32 + Sync + 'a;

/// The host interface itself. For `put` and `remove` the lent bytes are the cells.
pub fn ask(call: &Call, given: &[u8], lent: &mut Lent) -> u32 {
    match *call {
        Call::Read => raw::renju_read(given, lent),
        Call::ToString => raw::renju_to_string(given, lent),
        Call::ToPrettyString => raw::renju_to_pretty_string(given, lent),
        Call::Put { code, colour } => raw::renju_put(lent, code, colour),
        Call::Remove { code } => raw::renju_remove(lent, code),
        Call::Stones { colour } => raw::renju_stones(given, colour, lent),
        Call::EmptyPoints => raw::renju_empty_points(given, lent),
        Call::Counts => raw::renju_counts(given),
        Call::Neighbors {
            code,
            distance,
            only_empty,
        } => raw::renju_neighbors(given, code, distance, only_empty, lent),
        Call::Fast(question) => ask_fast(question, given, lent),
        Call::Turn { view } => raw::renju_turn(given, view, lent),
        Call::TurnPoint { code, view } => raw::renju_turn_point(code, view),
        Call::LineStarts { line, colour, kind } => {
            raw::renju_line_starts(line.blacks, line.whites, line.size, colour, kind)
        }
        Call::LineStartsOn {
            line,
            colour,
            kind,
            cell,
        } => raw::renju_line_starts_on(line.blacks, line.whites, line.size, colour, kind, cell),
        Call::LineEyes { line, colour, kind } => {
            raw::renju_line_eyes(line.blacks, line.whites, line.size, colour, kind)
        }
        Call::Second(question) => ask_second(question, given, lent),
        Call::Game => raw::renju_game(given, lent),
        Call::ReadDiagram => raw::renju_read_diagram(given, lent),
        Call::Convert => raw::renju_convert(given, lent),
    }
}

fn ask_fast(question: Question, given: &[u8], lent: &mut Lent) -> u32 {
    use Question::*;
    match question {
        Rows { colour, kind } => raw::renju_rows(given, colour, kind, lent),
        RowsOn { code, colour, kind } => raw::renju_rows_on(given, code, colour, kind, lent),
        FourEyesOn { code, colour } => raw::renju_four_eyes_on(given, code, colour, lent),
        Forbidden { code } => raw::renju_forbidden(given, code),
        ForbiddenStrict { code } => raw::renju_forbidden_strict(given, code),
        ForbiddenPoints => raw::renju_forbidden_points(given, lent),
    }
}

fn ask_second(question: Question, given: &[u8], lent: &mut Lent) -> u32 {
    use Question::*;
    match question {
        Rows { colour, kind } => raw::renju_second_rows(given, colour, kind, lent),
        RowsOn { code, colour, kind } => raw::renju_second_rows_on(given, code, colour, kind, lent),
        FourEyesOn { code, colour } => raw::renju_second_four_eyes_on(given, code, colour, lent),
        Forbidden { code } => raw::renju_second_forbidden(given, code),
        ForbiddenStrict { code } => raw::renju_second_forbidden_strict(given, code),
        ForbiddenPoints => raw::renju_second_forbidden_points(given, lent),
    }
}
