//! Draws a board with its crosses: `picture [--board] [--svg FILE] [OPTION]... [TEXT]`. What the
//! scripts of the repository's root call for `--board` and `--svg`.
//!
//! TEXT, or what standard input has, is stones (`G8,I8/A1`) or moves in turn (`H8,I9`). Of moves
//! the picture shows the numbers too, and both mark the last one. In a terminal the board has
//! colours. Exit status 1 where the text is refused, 2 for wrong usage and where input or output
//! fails.

use std::fs;
use std::io::{self, IsTerminal, Read, Write};
use std::process::ExitCode;
use std::{env, fmt};

use renju::{Cells, Colour, Cross, Moves, Picture, Point, Refusal, SIDE};

const USAGE: &str = "\
usage: picture [--board] [--svg FILE] [OPTION]... [TEXT]
  --board        the board on standard output: the default where there is no --svg
  --svg FILE     the board as a picture into FILE
  --words WORDS  a line under the picture
  --line MOVES   moves that are made on the board, by turns, Black's first
  --white        by turns, White's first
  --games        TEXT is games, a line of moves each: the board of each of them
TEXT is stones (G8,I8/A1) or moves (H8,I9); without it standard input is read.";

/// What is asked for.
#[derive(Default)]
struct Asked {
    board: bool,
    svg: Option<String>,
    words: String,
    line: Option<String>,
    white: bool,
    games: bool,
    text: Option<String>,
}

/// Why nothing is drawn.
enum Failure {
    Refused(Refusal),
    Usage,
    Io(String, io::Error),
}

impl From<Refusal> for Failure {
    fn from(refusal: Refusal) -> Self {
        Self::Refused(refusal)
    }
}

fn main() -> ExitCode {
    match asked(env::args().skip(1)).and_then(|asked| drawn(&asked)) {
        Ok(()) => ExitCode::SUCCESS,
        Err(Failure::Refused(refusal)) => {
            eprintln!("{refusal}");
            ExitCode::from(1)
        }
        Err(Failure::Usage) => {
            eprintln!("{USAGE}");
            ExitCode::from(2)
        }
        Err(Failure::Io(place, error)) => {
            eprintln!("picture: {place}: {error}");
            ExitCode::from(2)
        }
    }
}

fn asked(mut words: impl Iterator<Item = String>) -> Result<Asked, Failure> {
    let mut asked = Asked::default();
    while let Some(word) = words.next() {
        let mut next = || words.next().ok_or(Failure::Usage);
        match word.as_str() {
            "--board" => asked.board = true,
            "--svg" => asked.svg = Some(next()?),
            "--words" => asked.words = next()?,
            "--line" => asked.line = Some(next()?),
            "--white" => asked.white = true,
            "--games" => asked.games = true,
            option if option.starts_with('-') => return Err(Failure::Usage),
            _ if asked.text.is_some() => return Err(Failure::Usage),
            _ => asked.text = Some(word),
        }
    }
    Ok(asked)
}

fn drawn(asked: &Asked) -> Result<(), Failure> {
    let text = match &asked.text {
        Some(text) => text.clone().into_bytes(),
        None => standard_input()?,
    };
    let boards = if asked.games {
        let games = text.strip_suffix(b"\n").unwrap_or(&text);
        let lines = games.split(|&byte| byte == b'\n');
        lines.map(Drawn::game).collect()
    } else {
        vec![Drawn::of(&text, asked)]
    };
    let many = boards.len() > 1;
    for (number, board) in (1..).zip(boards) {
        match board {
            Ok(board) => board.shown(asked, many.then_some(number))?,
            Err(refusal) if asked.games => eprintln!("game {number}: {refusal}"),
            Err(refusal) => return Err(refusal.into()),
        }
    }
    Ok(())
}

fn standard_input() -> Result<Vec<u8>, Failure> {
    let mut bytes = Vec::new();
    let read = io::stdin().read_to_end(&mut bytes);
    read.map_err(|error| Failure::Io("standard input".into(), error))?;
    Ok(bytes)
}

/// A board, and the moves that are known of it.
struct Drawn {
    cells: Cells,
    moves: Vec<Point>,
    words: String,
}

impl Drawn {
    /// The board of a text, with a line of moves made on it.
    fn of(text: &[u8], asked: &Asked) -> Result<Self, Refusal> {
        let mut cells = Cells::read(text)?;
        let words = asked.words.clone();
        let Some(line) = &asked.line else {
            let moves = points(text).unwrap_or_default();
            return Ok(Self {
                cells,
                moves,
                words,
            });
        };
        let moves = points(line.as_bytes())?;
        let first = Colour::ALL[usize::from(asked.white)];
        for (point, colour) in moves
            .iter()
            .zip([first, first.opponent()].into_iter().cycle())
        {
            cells.put(*point, colour);
        }
        Ok(Self {
            cells,
            moves,
            words,
        })
    }

    /// The board of a game, up to the first faulty move.
    fn game(line: &[u8]) -> Result<Self, Refusal> {
        let moves = points(line)?;
        let report = Moves::new(&moves)?.report();
        let good = report
            .fault
            .map_or(moves.len(), |fault| fault.number as usize - 1);
        Ok(Self {
            cells: report.cells,
            moves: moves[..good].to_vec(),
            words: report.to_string(),
        })
    }

    /// The board on standard output, the picture into its file, as asked.
    fn shown(&self, asked: &Asked, number: Option<usize>) -> Result<(), Failure> {
        let crosses = self.cells.forbidden_points();
        if let Some(file) = &asked.svg {
            let picture = Picture::of(&self.cells)
                .crosses(&crosses)
                .words(&self.words);
            let picture = picture.moves(self.moves.iter().copied()).to_string();
            let file = number.map_or(file.clone(), |number| numbered(file, number));
            let written = fs::write(&file, picture);
            written.map_err(|error| Failure::Io(file, error))?;
        }
        if asked.board || asked.svg.is_none() {
            let mut out = io::stdout();
            let colours =
                out.is_terminal() && env::var_os("NO_COLOR").is_none_or(|no| no.is_empty());
            let head = number.map_or(String::new(), |n| format!("game {n}: {}\n", self.words));
            let board = Board {
                cells: &self.cells,
                crosses: &crosses,
                last: self.moves.last().copied(),
                colours,
            };
            let written = write!(out, "{head}{board}").and_then(|()| out.flush());
            written.map_err(|error| Failure::Io("standard output".into(), error))?;
        }
        Ok(())
    }
}

/// The points of a comma list. Stones are none, so they have no moves.
fn points(text: &[u8]) -> Result<Vec<Point>, Refusal> {
    // What is no text has been refused by the reader of boards, or is here.
    Cells::read(text)?;
    let text = String::from_utf8_lossy(text);
    text.split(',').map(|point| point.parse()).collect()
}

/// `game.svg` for the second game is `game-2.svg`.
fn numbered(file: &str, number: usize) -> String {
    match file.rsplit_once('.') {
        Some((stem, end)) if !end.contains('/') && !stem.is_empty() => {
            format!("{stem}-{number}.{end}")
        }
        _ => format!("{file}-{number}"),
    }
}

/// A board for a terminal.
struct Board<'a> {
    cells: &'a Cells,
    crosses: &'a [Cross],
    last: Option<Point>,
    colours: bool,
}

/// On wood, in the terminal's 256 colours; a red cross.
const WOOD: &str = "\x1b[48;5;179;38;5;94m";
const DARK: &str = "\x1b[38;5;16m";
const LIGHT: &str = "\x1b[38;5;231m";
const RED: &str = "\x1b[1;38;5;160m";
const INK: &str = "\x1b[22;38;5;94m";
const PLAIN: &str = "\x1b[0m";

impl Board<'_> {
    /// A colour's word, where there are colours.
    fn dye(&self, word: &'static str) -> &'static str {
        if self.colours { word } else { "" }
    }

    fn point(&self, f: &mut fmt::Formatter<'_>, point: Point) -> fmt::Result {
        let (dye, mark) = match self.cells.stone(point) {
            Some(Colour::Black) => (DARK, "●"),
            // In colours both stones are full, so that neither looks like the other one's.
            Some(Colour::White) if self.colours => (LIGHT, "●"),
            Some(Colour::White) => ("", "○"),
            None if self.crosses.iter().any(|cross| cross.point == point) => (RED, "×"),
            None => ("", "·"),
        };
        write!(f, "{}{mark}{}", self.dye(dye), self.dye(INK))
    }

    /// What stands before a point: the last move has brackets around it.
    fn gap(&self, x: u8, y: u8) -> &'static str {
        let at = |x: u8| Point::new(x, y).is_ok() && Point::new(x, y).ok() == self.last;
        match (at(x), x.checked_sub(1).is_some_and(at)) {
            (true, _) => "(",
            (_, true) => ")",
            _ => " ",
        }
    }
}

impl fmt::Display for Board<'_> {
    fn fmt(&self, f: &mut fmt::Formatter<'_>) -> fmt::Result {
        let letters = "   A B C D E F G H I J K L M N O ";
        for y in (0..SIDE).rev() {
            write!(f, "{}{:>2}", self.dye(WOOD), y + 1)?;
            for x in 0..SIDE {
                f.write_str(self.gap(x, y))?;
                if let Ok(point) = Point::new(x, y) {
                    self.point(f, point)?;
                }
            }
            writeln!(f, "{}{}", self.gap(SIDE, y), self.dye(PLAIN))?;
        }
        writeln!(f, "{}{letters}{}", self.dye(WOOD), self.dye(PLAIN))?;
        let (count, white) = (self.crosses.len(), if self.colours { "●" } else { "○" });
        let dyes = [WOOD, DARK, LIGHT, RED, PLAIN].map(|word| self.dye(word));
        let [wood, dark, light, red, plain] = dyes;
        writeln!(
            f,
            "{}; {count} forbidden to Black  {wood} {dark}● Black  {light}{white} White  {red}× forbidden {plain}",
            self.cells.counts()
        )
    }
}
