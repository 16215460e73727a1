//! Whole games: a list of points in the order of play, and the referee's report of it.

use crate::list::front;
use crate::named::{numbered_and_named, pad};
use crate::raw;
use crate::refusal::done;
use crate::{Cells, Colour, MOVES, Point, REPORT, Refusal, View};
use core::fmt;

/// A recorded game: at most 225 points in the order of play, Black's first.
///
/// Nothing is tested of it but that each move names a point; what is wrong with the play is for
/// [`Moves::report`] to say. It is plain data by value, as [`Cells`] is.
///
/// # Examples
///
/// ```
/// use renju::{Moves, Point, Refusal};
///
/// let points: Result<Vec<Point>, Refusal> =
///     "G8,A1,I8,A3,H7,A5,H9,A7,H8".split(',').map(str::parse).collect();
/// let report = Moves::new(&points?)?.report();
/// assert_eq!(report.to_string(), "move 9 (H8): forbidden, DoubleThree");
/// # Ok::<(), Refusal>(())
/// ```
/// Games are in order as their lists of codes are: by the first code that differs, else the shorter
/// first.
#[derive(Clone, Copy, PartialEq, Eq, PartialOrd, Ord, Hash)]
pub struct Moves {
    // The codes of the moves, then zeros: so the derived order is that of the lists.
    codes: [u8; MOVES],
    length: u8,
}

impl Moves {
    /// The game of these points.
    ///
    /// # Errors
    ///
    /// Refusal 14 for more than 225.
    ///
    /// ```
    /// use renju::{Moves, Refusal};
    ///
    /// let h8 = "H8".parse()?;
    /// assert_eq!(Moves::new(&[h8])?.points().collect::<Vec<_>>(), [h8]);
    /// assert_eq!(Moves::new(&[h8; 226]), Err(Refusal::ManyMoves));
    /// # Ok::<(), renju::Refusal>(())
    /// ```
    pub fn new(points: &[Point]) -> Result<Self, Refusal> {
        Self::made(points.len(), points.iter().map(|point| point.code()))
    }

    /// The game of these codes.
    ///
    /// # Errors
    ///
    /// Refusal 14 for more than 225, then 8 for a code over 224.
    ///
    /// ```
    /// use renju::{Moves, Refusal};
    ///
    /// assert_eq!(Moves::from_codes(&[112, 0])?.points().len(), 2);
    /// assert_eq!(Moves::from_codes(&[112, 225]), Err(Refusal::Point));
    /// assert_eq!(Moves::from_codes(&[225; 226]), Err(Refusal::ManyMoves));
    /// # Ok::<(), renju::Refusal>(())
    /// ```
    pub fn from_codes(codes: &[u8]) -> Result<Self, Refusal> {
        let game = Self::made(codes.len(), codes.iter().copied())?;
        for &code in codes {
            Point::from_code(code)?;
        }
        Ok(game)
    }

    /// No moves.
    pub(crate) const fn empty() -> Self {
        Self {
            codes: [0; MOVES],
            length: 0,
        }
    }

    fn made(length: usize, codes: impl Iterator<Item = u8>) -> Result<Self, Refusal> {
        let mut game = Self::empty();
        if length > MOVES {
            return Err(Refusal::ManyMoves);
        }
        for (place, code) in game.codes.iter_mut().zip(codes) {
            *place = code;
            game.length += 1;
        }
        Ok(game)
    }

    /// The codes of the moves.
    ///
    /// ```
    /// assert_eq!(renju::Moves::from_codes(&[112, 0])?.as_codes(), [112, 0]);
    /// # Ok::<(), renju::Refusal>(())
    /// ```
    #[must_use]
    pub fn as_codes(&self) -> &[u8] {
        front(&self.codes, self.length)
    }

    /// The points in the order of play.
    ///
    /// ```
    /// let game = renju::Moves::from_codes(&[112, 0])?;
    /// assert_eq!(game.points().last(), Some("A1".parse()?));
    /// # Ok::<(), renju::Refusal>(())
    /// ```
    #[must_use]
    pub fn points(&self) -> impl ExactSizeIterator<Item = Point> + DoubleEndedIterator + '_ {
        self.as_codes().iter().map(|&code| Point::given(code))
    }

    /// These moves and one more; none where there are 225 already.
    pub(crate) fn and(&self, point: Point) -> Option<Self> {
        let mut moves = *self;
        *moves.codes.get_mut(usize::from(self.length))? = point.code();
        moves.length += 1;
        Some(moves)
    }

    /// The first moves, as many as are asked for and there are.
    pub(crate) fn leading(&self, count: u8) -> Self {
        let mut moves = *self;
        moves.length = count.min(self.length);
        for code in moves.codes.iter_mut().skip(moves.length.into()) {
            *code = 0;
        }
        moves
    }

    /// The moves but the last.
    pub(crate) fn without_last(&self) -> Self {
        self.leading(self.length.saturating_sub(1))
    }

    /// The moves in a view, each at its turned point.
    ///
    /// ```
    /// use renju::{Moves, View};
    ///
    /// let moves: Moves = "C15,I9".parse()?;
    /// assert_eq!(moves.turned(View::LeftRight).to_string(), "M15,G9");
    /// # Ok::<(), renju::Refusal>(())
    /// ```
    #[must_use]
    pub fn turned(&self, view: View) -> Self {
        let mut moves = *self;
        let turned = self.points().map(|point| point.turned(view).code());
        for (place, code) in moves.codes.iter_mut().zip(turned) {
            *place = code;
        }
        moves
    }

    /// What the referee says of the game: its first faulty move, or its winner, and the board.
    ///
    /// A move is faulty on an occupied point, where it is forbidden to Black by the strict
    /// verdict, and after a five. Black's five is exactly five, White's five or more.
    ///
    /// ```
    /// use renju::{Colour, Moves};
    ///
    /// // Black plays H1 to H5, White beside them.
    /// let game = Moves::from_codes(&[105, 120, 106, 121, 107, 122, 108, 123, 109])?;
    /// let report = game.report();
    /// assert_eq!(report.fault, None);
    /// assert_eq!(report.winner, Some(Colour::Black));
    /// # Ok::<(), renju::Refusal>(())
    /// ```
    #[must_use]
    pub fn report(&self) -> Report {
        let mut out = [0; REPORT];
        // At most 225 moves, each a point, and room for all: never refused.
        let word = raw::renju_game(self.as_codes(), &mut out);
        let [number, reason, winner, cells @ ..] = out;
        done(word, number.into());
        debug_assert!(winner <= 2, "the archive gave winner {winner}");
        Report {
            fault: self.fault(number, reason),
            // 0 is nobody.
            winner: Colour::from_number(winner).ok(),
            cells: Cells { bytes: cells },
        }
    }

    /// The faulty move of a number, 0 for none.
    fn fault(&self, number: u8, reason: u8) -> Option<Fault> {
        let place = number.checked_sub(1)?;
        let (point, reason) = (self.points().nth(place.into()), Reason::from_number(reason));
        let given = point.is_some() && reason.is_ok();
        debug_assert!(given, "the archive gave fault {number}");
        Some(Fault {
            number,
            point: point?,
            reason: reason.ok()?,
        })
    }
}

impl fmt::Debug for Moves {
    fn fmt(&self, f: &mut fmt::Formatter<'_>) -> fmt::Result {
        f.debug_list().entries(self.points()).finish()
    }
}

impl TryFrom<&[u8]> for Moves {
    type Error = Refusal;

    fn try_from(codes: &[u8]) -> Result<Self, Refusal> {
        Self::from_codes(codes)
    }
}

impl TryFrom<&[Point]> for Moves {
    type Error = Refusal;

    fn try_from(points: &[Point]) -> Result<Self, Refusal> {
        Self::new(points)
    }
}

/// Why a move is faulty; where several apply, the first of these.
///
/// # Examples
///
/// ```
/// use renju::{Moves, Reason};
///
/// let fault = Moves::from_codes(&[112, 112])?.report().fault;
/// assert_eq!(fault.map(|fault| fault.reason), Some(Reason::Occupied));
/// # Ok::<(), renju::Refusal>(())
/// ```
#[derive(Clone, Copy, Debug, PartialEq, Eq, PartialOrd, Ord, Hash)]
#[repr(u8)]
pub enum Reason {
    /// 1: a stone stood there.
    Occupied = 1,
    /// 2: the strict verdict forbids the point to Black.
    Forbidden = 2,
    /// 3: one side had made a five.
    AfterFive = 3,
}

impl Reason {
    /// All three, by number.
    ///
    /// ```
    /// use renju::Reason;
    ///
    /// assert_eq!(Reason::ALL.map(Reason::number), [1, 2, 3]);
    /// ```
    pub const ALL: [Self; 3] = [Self::Occupied, Self::Forbidden, Self::AfterFive];

    /// The reason's number, 1 to 3.
    ///
    /// ```
    /// assert_eq!(renju::Reason::AfterFive.number(), 3);
    /// ```
    #[must_use]
    pub const fn number(self) -> u8 {
        self as u8
    }

    /// The reason of a number.
    ///
    /// # Errors
    ///
    /// Refusal 12 for 0, which is no fault, and for a number over 3.
    ///
    /// ```
    /// use renju::{Reason, Refusal};
    ///
    /// assert_eq!(Reason::from_number(2), Ok(Reason::Forbidden));
    /// assert_eq!(Reason::from_number(0), Err(Refusal::Number));
    /// ```
    pub const fn from_number(number: u8) -> Result<Self, Refusal> {
        Ok(match number {
            1 => Self::Occupied,
            2 => Self::Forbidden,
            3 => Self::AfterFive,
            _ => return Err(Refusal::Number),
        })
    }

    /// `occupied`, `forbidden` or `after a five`.
    ///
    /// ```
    /// assert_eq!(renju::Reason::AfterFive.to_string(), "after a five");
    /// ```
    #[must_use]
    pub const fn name(self) -> &'static str {
        match self {
            Self::Occupied => "occupied",
            Self::Forbidden => "forbidden",
            Self::AfterFive => "after a five",
        }
    }
}

numbered_and_named!(Reason);

/// The first faulty move of a game.
///
/// # Examples
///
/// ```
/// let fault = renju::Moves::from_codes(&[112, 0, 112])?.report().fault;
/// assert_eq!(fault.map(|fault| fault.to_string()), Some("move 3 (H8): occupied".to_string()));
/// # Ok::<(), renju::Refusal>(())
/// ```
#[derive(Clone, Copy, Debug, PartialEq, Eq, PartialOrd, Ord, Hash)]
pub struct Fault {
    /// Its number, from 1: Black's are odd.
    pub number: u8,
    /// Where it was played.
    pub point: Point,
    /// Why it is faulty.
    pub reason: Reason,
}

/// `move 3 (H8): occupied`.
impl fmt::Display for Fault {
    fn fmt(&self, f: &mut fmt::Formatter<'_>) -> fmt::Result {
        let Self {
            number,
            point,
            reason,
        } = self;
        pad(f, format_args!("move {number} ({point}): {reason}"))
    }
}

/// What the referee says of a whole game.
///
/// # Examples
///
/// ```
/// use renju::Moves;
///
/// let game = Moves::from_codes(&[112, 0])?;
/// assert_eq!(game.report().to_string(), "no fault, nobody has won");
/// assert_eq!(game.report().cells, "H8/A1".parse()?);
/// # Ok::<(), renju::Refusal>(())
/// ```
#[derive(Clone, Copy, Debug, PartialEq, Eq, Hash)]
pub struct Report {
    /// The first faulty move, if there is one.
    pub fault: Option<Fault>,
    /// Who has won, if anybody; nobody is named where a move was faulty.
    pub winner: Option<Colour>,
    /// The final board, or the board before the faulty move.
    pub cells: Cells,
}

/// The faulty move, with the kind where it is forbidden: `move 9 (H8): forbidden, DoubleThree`; or
/// `no fault, Black has won`, `no fault, nobody has won`.
impl fmt::Display for Report {
    fn fmt(&self, f: &mut fmt::Formatter<'_>) -> fmt::Result {
        match (self.fault, self.winner) {
            (Some(fault), _) if fault.reason == Reason::Forbidden => {
                let verdict = self.cells.verdict(fault.point);
                pad(f, format_args!("{fault}, {verdict}"))
            }
            (Some(fault), _) => fault.fmt(f),
            (None, Some(colour)) => pad(f, format_args!("no fault, {colour} has won")),
            (None, None) => f.pad("no fault, nobody has won"),
        }
    }
}

#[cfg(test)]
mod tests {
    use super::{Moves, Reason};

    fn one() -> Moves {
        Moves::from_codes(&[112]).expect("a game")
    }

    #[test]
    fn a_fault_by_its_number() {
        assert_eq!(one().fault(0, 0), None);
        let fault = one().fault(1, 2).expect("a fault");
        assert_eq!((fault.number, fault.reason), (1, Reason::Forbidden));
        assert_eq!(fault.point.code(), 112);
    }

    #[test]
    #[cfg_attr(debug_assertions, should_panic = "the archive gave fault 2")]
    fn no_fault_past_the_end() {
        assert_eq!(one().fault(2, 1), None);
    }

    #[test]
    #[cfg_attr(debug_assertions, should_panic = "the archive gave fault 1")]
    fn no_fault_without_a_reason() {
        assert_eq!(one().fault(1, 0), None);
    }
}
