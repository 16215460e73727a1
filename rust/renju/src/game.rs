//! A game that is played: whose turn it is, what may be played, and what each move says.
//!
//! It has no rules of its own. Each move is put to the proved referee of whole games, `renju_game`, with
//! the moves before it, and what that says is taken over: the fault, the winner and the board. It takes
//! about 25 ns for each move of the game, 5 µs for the 225th, so that nothing is kept of the rules here.

use crate::named::pad;
use crate::{
    Cells, Colour, Counts, Crosses, Moves, Point, Points, Reason, Record, Refusal, Report, Verdict,
    View, sgf,
};
use core::error::Error;
use core::fmt;
use core::hash::{Hash, Hasher};
use core::str::FromStr;

/// A game that is played, move by move; each move in it was legal.
///
/// A recorded game is a [`Moves`], which may have a faulty move; what comes in as one is tested where it
/// becomes a `Game`. It is plain data by value; the points forbidden to Black are asked once a move and
/// kept. Two games are equal when their moves are.
///
/// # Examples
///
/// ```
/// use renju::{Colour, Game, Illegal, Verdict};
///
/// let mut game: Game = "G8,A1,I8,A3,H7,A5,H9,A7".parse()?;
/// assert_eq!(game.to_move(), Some(Colour::Black));
/// let h8 = "H8".parse()?;
/// assert_eq!(game.play(h8), Err(Illegal::Forbidden(Verdict::DoubleThree)));
/// assert!(!game.legal_points().contains(&h8));
///
/// // Nothing has changed, and another move may be played.
/// assert_eq!(game.play("O15".parse()?), Ok(None));
/// assert_eq!(game.to_move(), Some(Colour::White));
/// assert_eq!(game.undo(), Some("O15".parse()?));
/// # Ok::<(), Box<dyn std::error::Error>>(())
/// ```
#[derive(Clone)]
pub struct Game {
    moves: Moves,
    // The rest is what the archive says of the moves.
    cells: Cells,
    winner: Option<Colour>,
    crosses: Crosses,
}

impl Game {
    /// A game without moves.
    ///
    /// ```
    /// use renju::{Colour, Game};
    ///
    /// assert_eq!(Game::new().to_move(), Some(Colour::Black));
    /// assert_eq!(Game::new(), Game::default());
    /// ```
    #[must_use]
    pub fn new() -> Self {
        Self::of(Moves::empty())
    }

    /// The game of moves in which no one is faulty.
    fn of(moves: Moves) -> Self {
        Self::told(moves, moves.report())
    }

    /// .. with the report of them.
    fn told(moves: Moves, report: Report) -> Self {
        Self {
            moves,
            cells: report.cells,
            winner: report.winner,
            crosses: report.cells.forbidden_points(),
        }
    }

    /// Plays the next move: who has won by it, if anybody.
    ///
    /// # Errors
    ///
    /// Why it is not legal: a stone stands there, the point is forbidden to Black, or the game is won. Then
    /// nothing changes.
    ///
    /// ```
    /// use renju::{Colour, Game, Illegal};
    ///
    /// let mut game: Game = "H1,I1,H2,I2,H3,I3,H4,I4".parse()?;
    /// assert_eq!(game.play("H4".parse()?), Err(Illegal::Occupied));
    /// assert_eq!(game.play("H5".parse()?), Ok(Some(Colour::Black)));
    /// assert_eq!(game.play("I5".parse()?), Err(Illegal::Over(Colour::Black)));
    /// # Ok::<(), Box<dyn std::error::Error>>(())
    /// ```
    pub fn play(&mut self, point: Point) -> Result<Option<Colour>, Illegal> {
        // After 225 legal moves every point has a stone.
        let moves = self.moves.and(point).ok_or(Illegal::Occupied)?;
        let report = moves.report();
        if let Some(fault) = report.fault {
            return Err(self.illegal(fault.reason, point));
        }
        *self = Self::told(moves, report);
        Ok(self.winner)
    }

    /// A reason against a move of this game, with what a player wants to know of it.
    fn illegal(&self, reason: Reason, point: Point) -> Illegal {
        match (reason, self.winner) {
            (Reason::Forbidden, _) => Illegal::Forbidden(self.cells.verdict(point)),
            (Reason::AfterFive, Some(winner)) => Illegal::Over(winner),
            // Without a winner no move is after a five.
            (Reason::Occupied | Reason::AfterFive, _) => Illegal::Occupied,
        }
    }

    /// Plays moves in turn, up to the first that is not legal: those before it stay played.
    ///
    /// # Errors
    ///
    /// The move that is not legal, and why.
    ///
    /// ```
    /// use renju::{Game, Illegal, Point, Unplayable};
    ///
    /// let mut game = Game::new();
    /// let h8: Point = "H8".parse()?;
    /// assert_eq!(game.play_all(["H7".parse()?, h8]), Ok(None));
    /// let said = game.play_all(["I9".parse()?, h8]).unwrap_err();
    /// assert_eq!(said, Unplayable::Faulty { number: 4, point: h8, illegal: Illegal::Occupied });
    /// assert_eq!(game.to_string(), "H7,H8,I9");
    /// # Ok::<(), renju::Refusal>(())
    /// ```
    pub fn play_all(
        &mut self,
        points: impl IntoIterator<Item = Point>,
    ) -> Result<Option<Colour>, Unplayable> {
        for point in points {
            // The number is one more than that of the moves before it, which are at most 225.
            let number = self.moves.points().len() as u16 + 1;
            self.play(point).map_err(|illegal| Unplayable::Faulty {
                number,
                point,
                illegal,
            })?;
        }
        Ok(self.winner)
    }

    /// Takes the last move back, and says which it was; none where there is no move.
    ///
    /// ```
    /// use renju::Game;
    ///
    /// let mut game: Game = "H8,I9".parse()?;
    /// assert_eq!(game.undo(), Some("I9".parse()?));
    /// assert_eq!(game, "H8".parse()?);
    /// assert_eq!(Game::new().undo(), None);
    /// # Ok::<(), Box<dyn std::error::Error>>(())
    /// ```
    pub fn undo(&mut self) -> Option<Point> {
        let last = self.moves.points().next_back()?;
        *self = Self::of(self.moves.without_last());
        Some(last)
    }

    /// Whose turn it is: nobody's where somebody has won or the board is full. It stays Black's where all
    /// that is left is forbidden to Black.
    ///
    /// ```
    /// use renju::{Colour, Game};
    ///
    /// let game: Game = "H1,I1,H2,I2,H3,I3,H4,I4".parse()?;
    /// assert_eq!(game.to_move(), Some(Colour::Black));
    /// let game: Game = "H1,I1,H2,I2,H3,I3,H4,I4,H5".parse()?;
    /// assert_eq!(game.to_move(), None);
    /// # Ok::<(), Box<dyn std::error::Error>>(())
    /// ```
    #[must_use]
    pub fn to_move(&self) -> Option<Colour> {
        let played = self.moves.points().len();
        if self.winner.is_some() || played == crate::MOVES {
            return None;
        }
        Some(Colour::ALL[played % 2])
    }

    /// The moves so far.
    ///
    /// ```
    /// let game: renju::Game = "H8,I9".parse()?;
    /// assert_eq!(game.moves().as_codes(), [112, 128]);
    /// # Ok::<(), Box<dyn std::error::Error>>(())
    /// ```
    #[must_use]
    pub const fn moves(&self) -> &Moves {
        &self.moves
    }

    /// Who has won, if anybody.
    ///
    /// ```
    /// assert_eq!(renju::Game::new().winner(), None);
    /// ```
    #[must_use]
    pub const fn winner(&self) -> Option<Colour> {
        self.winner
    }

    /// The points that can be played now, by code: for Black the empty ones less the forbidden ones, for
    /// White the empty ones, and none where the game is won.
    ///
    /// ```
    /// use renju::Game;
    ///
    /// let mut game: Game = "G8,A1,I8,A3,H7,A5,H9,A7".parse()?;
    /// // All empty ones but H8.
    /// assert_eq!(game.legal_points().len(), 225 - 8 - 1);
    /// game.play("O15".parse()?)?;
    /// assert_eq!(game.legal_points().len(), 225 - 9);
    /// # Ok::<(), Box<dyn std::error::Error>>(())
    /// ```
    #[must_use]
    pub fn legal_points(&self) -> Points {
        let turn = self.to_move();
        let empty = self.cells.empty_points();
        let crossed = |point| self.crosses.iter().any(|cross| cross.point == point);
        let may = |point: &Point| match turn {
            Some(Colour::Black) => !crossed(*point),
            Some(Colour::White) => true,
            None => false,
        };
        let legal = empty.iter().copied().filter(may);
        // At most 225.
        Points::gather(Point::given(0), legal.clone().count() as u16, legal)
    }

    /// The points that are forbidden to Black on the board as it stands, whoever is to move: the crosses
    /// on the table. They are asked once a move, and kept.
    ///
    /// ```
    /// let game: renju::Game = "G8,A1,I8,A3,H7,A5,H9".parse()?;
    /// assert_eq!(game.crosses()[0].to_string(), "H8 DoubleThree");
    /// # Ok::<(), Box<dyn std::error::Error>>(())
    /// ```
    #[must_use]
    pub const fn crosses(&self) -> &Crosses {
        &self.crosses
    }

    /// The board.
    ///
    /// ```
    /// let game: renju::Game = "H8,I9".parse()?;
    /// assert_eq!(game.cells(), &"H8/I9".parse()?);
    /// # Ok::<(), Box<dyn std::error::Error>>(())
    /// ```
    #[must_use]
    pub const fn cells(&self) -> &Cells {
        &self.cells
    }

    /// How many stones each side has, and how many points are empty.
    ///
    /// ```
    /// let game: renju::Game = "H8,I9,J10".parse()?;
    /// assert_eq!(game.counts().to_string(), "2 black, 1 white");
    /// # Ok::<(), Box<dyn std::error::Error>>(())
    /// ```
    #[must_use]
    pub fn counts(&self) -> Counts {
        self.cells.counts()
    }

    /// The referee's report, as [`Moves::report`] has it: no fault, the winner and the board.
    ///
    /// ```
    /// let game: renju::Game = "H8,I9".parse()?;
    /// assert_eq!(game.report(), game.moves().report());
    /// assert_eq!(game.report().to_string(), "no fault, nobody has won");
    /// # Ok::<(), Box<dyn std::error::Error>>(())
    /// ```
    #[must_use]
    pub const fn report(&self) -> Report {
        Report {
            fault: None,
            winner: self.winner,
            cells: self.cells,
        }
    }

    /// The game as a player in a view sees it: each move at its turned point. It is legal too, for the
    /// rules are the same in every view.
    ///
    /// ```
    /// use renju::{Game, View};
    ///
    /// let game: Game = "C15,I9".parse()?;
    /// assert_eq!(game.in_view(View::LeftRight).to_string(), "M15,G9");
    /// # Ok::<(), Box<dyn std::error::Error>>(())
    /// ```
    #[must_use]
    pub fn in_view(&self, view: View) -> Self {
        Self::of(self.moves.turned(view))
    }

    /// The game for storing, with the view that it is shown in. Its moves stay as they were played.
    ///
    /// ```
    /// use renju::{Game, View};
    ///
    /// let game: Game = "H8,I9".parse()?;
    /// let record = game.to_record(View::LeftRight);
    /// assert_eq!(record.to_bytes()[..], [1, 0, 1, 4, 2, 0, 2, 112, 128]);
    /// assert_eq!(Game::try_from(&record)?, game);
    /// # Ok::<(), Box<dyn std::error::Error>>(())
    /// ```
    #[must_use]
    pub const fn to_record(&self, view: View) -> Record {
        Record::new(view, self.moves)
    }

    /// The game's SGF text.
    ///
    /// ```
    /// let game: renju::Game = "H8,I9".parse()?;
    /// assert_eq!(&game.to_sgf()[..], b"(;GM[4]SZ[15];B[hh];W[ig])");
    /// # Ok::<(), Box<dyn std::error::Error>>(())
    /// ```
    #[must_use]
    pub fn to_sgf(&self) -> sgf::Text {
        sgf::write(&self.moves)
    }

    /// The game that an SGF text says, with each move legal.
    ///
    /// # Errors
    ///
    /// The refusal of [`sgf::read`], or the first move that is not legal.
    ///
    /// ```
    /// use renju::{Game, Refusal, Unplayable};
    ///
    /// assert_eq!(Game::from_sgf(b"(;GM[4]SZ[15];B[hh];W[ig])")?.to_string(), "H8,I9");
    /// let twice = Game::from_sgf(b"(;GM[4]SZ[15];B[hh];W[hh])").unwrap_err();
    /// assert_eq!(twice.to_string(), "move 2 (H8): occupied");
    /// let other = Game::from_sgf(b"(;GM[1])").unwrap_err();
    /// assert_eq!(other, Unplayable::Refused(Refusal::OutsideSubset));
    /// # Ok::<(), Unplayable>(())
    /// ```
    pub fn from_sgf(text: &[u8]) -> Result<Self, Unplayable> {
        Self::try_from(&sgf::read(text)?)
    }

    /// The game that a moves text says, with each move legal.
    ///
    /// # Errors
    ///
    /// The refusal of [`Moves::read`], or the first move that is not legal.
    ///
    /// ```
    /// use renju::{Game, Unplayable};
    ///
    /// assert_eq!(Game::read(b"H8,I9")?.moves().as_codes(), [112, 128]);
    /// # Ok::<(), Unplayable>(())
    /// ```
    pub fn read(text: &[u8]) -> Result<Self, Unplayable> {
        Self::try_from(&Moves::read(text)?)
    }
}

impl Default for Game {
    fn default() -> Self {
        Self::new()
    }
}

impl PartialEq for Game {
    fn eq(&self, other: &Self) -> bool {
        self.moves == other.moves
    }
}

impl Eq for Game {}

impl Hash for Game {
    fn hash<H: Hasher>(&self, state: &mut H) {
        self.moves.hash(state);
    }
}

/// The moves text, `H8,I9,J10`, which reads back as the same game where there are moves.
impl fmt::Display for Game {
    fn fmt(&self, f: &mut fmt::Formatter<'_>) -> fmt::Result {
        self.moves.fmt(f)
    }
}

impl fmt::Debug for Game {
    fn fmt(&self, f: &mut fmt::Formatter<'_>) -> fmt::Result {
        write!(f, "Game({self})")
    }
}

/// As [`Game::read`].
impl FromStr for Game {
    type Err = Unplayable;

    fn from_str(text: &str) -> Result<Self, Unplayable> {
        Self::read(text.as_bytes())
    }
}

/// The game of recorded moves, with each of them legal.
///
/// ```
/// use renju::{Game, Moves};
///
/// let moves: Moves = "H8,I9".parse()?;
/// assert_eq!(Game::try_from(&moves)?.moves(), &moves);
/// let said = Game::try_from(&"H8,I9,H8".parse::<Moves>()?).unwrap_err();
/// assert_eq!(said.to_string(), "move 3 (H8): occupied");
/// # Ok::<(), Box<dyn std::error::Error>>(())
/// ```
impl TryFrom<&Moves> for Game {
    type Error = Unplayable;

    fn try_from(moves: &Moves) -> Result<Self, Unplayable> {
        let report = moves.report();
        let Some(fault) = report.fault else {
            return Ok(Self::told(*moves, report));
        };
        let before = Self::of(moves.leading(fault.number.saturating_sub(1)));
        Err(Unplayable::Faulty {
            number: fault.number.into(),
            point: fault.point,
            illegal: before.illegal(fault.reason, fault.point),
        })
    }
}

/// The game of a stored record, its moves as they are stored, whatever its view.
impl TryFrom<&Record> for Game {
    type Error = Unplayable;

    fn try_from(record: &Record) -> Result<Self, Unplayable> {
        Self::try_from(record.moves())
    }
}

/// Points are collected into a `Result`, so that a move that is not legal can't be lost; for the same
/// reason a `Game` is no [`Extend`], whose method gives nothing back: see [`Game::play_all`].
///
/// ```
/// use renju::{Game, Moves, Unplayable};
///
/// let moves: Moves = "H8,I9,J10".parse()?;
/// let game: Result<Game, Unplayable> = moves.points().take(2).collect();
/// assert_eq!(game?.to_string(), "H8,I9");
/// # Ok::<(), Box<dyn std::error::Error>>(())
/// ```
impl FromIterator<Point> for Result<Game, Unplayable> {
    fn from_iter<I: IntoIterator<Item = Point>>(points: I) -> Self {
        let mut game = Game::new();
        game.play_all(points)?;
        Ok(game)
    }
}

/// Why a move is not legal; where several apply, the first of these, as in [`Reason`].
///
/// [`Reason`] is the number in the report of a recorded game; this is what a player is told.
///
/// # Examples
///
/// ```
/// use renju::{Game, Illegal, Reason};
///
/// let mut game: Game = "H8".parse()?;
/// let illegal = game.play("H8".parse()?).unwrap_err();
/// assert_eq!(illegal, Illegal::Occupied);
/// assert_eq!(illegal.reason(), Reason::Occupied);
/// # Ok::<(), Box<dyn std::error::Error>>(())
/// ```
#[derive(Clone, Copy, Debug, PartialEq, Eq, Hash)]
pub enum Illegal {
    /// A stone stands there.
    Occupied,
    /// The point is forbidden to Black, with the kind.
    Forbidden(Verdict),
    /// This side has won.
    Over(Colour),
}

impl Illegal {
    /// The reason that the report of the recorded game has.
    ///
    /// ```
    /// use renju::{Colour, Illegal, Reason};
    ///
    /// assert_eq!(Illegal::Over(Colour::White).reason(), Reason::AfterFive);
    /// ```
    #[must_use]
    pub const fn reason(self) -> Reason {
        match self {
            Self::Occupied => Reason::Occupied,
            Self::Forbidden(_) => Reason::Forbidden,
            Self::Over(_) => Reason::AfterFive,
        }
    }
}

/// As in a report: `occupied`, `forbidden, DoubleThree`, `after a five`.
impl fmt::Display for Illegal {
    fn fmt(&self, f: &mut fmt::Formatter<'_>) -> fmt::Result {
        let reason = self.reason();
        match self {
            Self::Forbidden(kind) => pad(f, format_args!("{reason}, {kind}")),
            Self::Occupied | Self::Over(_) => reason.fmt(f),
        }
    }
}

impl Error for Illegal {}

/// Why moves from outside are no [`Game`].
///
/// # Examples
///
/// ```
/// use renju::Game;
///
/// let said = |text: &str| text.parse::<Game>().unwrap_err().to_string();
/// assert_eq!(said("G8,A1,I8,A3,H7,A5,H9,A7,H8"), "move 9 (H8): forbidden, DoubleThree");
/// assert!(said("H8,Z9").starts_with("refused 3: "));
/// ```
#[derive(Clone, Copy, Debug, PartialEq, Eq, Hash)]
pub enum Unplayable {
    /// They can't be read.
    Refused(Refusal),
    /// They can, and one of them is not legal.
    Faulty {
        /// Its number, from 1.
        number: u16,
        /// Where it was to be played.
        point: Point,
        /// Why it is not legal.
        illegal: Illegal,
    },
}

/// The refusal, or the fault as a report has it: `move 9 (H8): forbidden, DoubleThree`.
impl fmt::Display for Unplayable {
    fn fmt(&self, f: &mut fmt::Formatter<'_>) -> fmt::Result {
        match self {
            Self::Refused(refusal) => refusal.fmt(f),
            Self::Faulty {
                number,
                point,
                illegal,
            } => pad(f, format_args!("move {number} ({point}): {illegal}")),
        }
    }
}

impl Error for Unplayable {
    fn source(&self) -> Option<&(dyn Error + 'static)> {
        match self {
            Self::Refused(refusal) => Some(refusal),
            Self::Faulty { illegal, .. } => Some(illegal),
        }
    }
}

impl From<Refusal> for Unplayable {
    fn from(refusal: Refusal) -> Self {
        Self::Refused(refusal)
    }
}
