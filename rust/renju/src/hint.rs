//! Hints: a win by fours.

use crate::raw;
use crate::refusal::given;
use crate::{CELLS, Cells, Colour, LINE, List, Point, Refusal};
use core::fmt;
use core::str::FromStr;

/// A line of fours: the first attack, its reply, the next attack, and so on;
/// the last point is an attack's.
///
/// ```
/// use renju::{Cells, Colour, Limit, WinLine};
///
/// let cells: Cells = "A1/F8,G8,H8".parse()?;
/// let line: Option<WinLine> = cells.win_by_fours(Colour::White, Limit::ONE);
/// assert_eq!(line.map(|line| line[0].to_string()), Some("E8".to_owned()));
/// # Ok::<(), renju::Refusal>(())
/// ```
pub type WinLine = List<Point, LINE>;

/// How many attacks a line may have, 1 to 6.
///
/// ```
/// use renju::{Limit, Refusal};
///
/// assert_eq!(Limit::new(6)?, Limit::SIX);
/// assert_eq!(Limit::new(0), Err(Refusal::Limit));
/// assert_eq!(Limit::new(7), Err(Refusal::Limit));
/// # Ok::<(), Refusal>(())
/// ```
#[derive(Clone, Copy, Debug, PartialEq, Eq, PartialOrd, Ord, Hash)]
pub struct Limit(u8);

impl Limit {
    /// One attack.
    pub const ONE: Self = Self(1);
    /// Six attacks, the most.
    pub const SIX: Self = Self(6);

    /// The limit of a number.
    ///
    /// # Errors
    ///
    /// Refusal 21 for one outside 1 to 6.
    ///
    /// ```
    /// assert_eq!(renju::Limit::new(3)?.number(), 3);
    /// # Ok::<(), renju::Refusal>(())
    /// ```
    pub const fn new(number: u8) -> Result<Self, Refusal> {
        match number {
            1..=6 => Ok(Self(number)),
            _ => Err(Refusal::Limit),
        }
    }

    /// Its number.
    ///
    /// ```
    /// assert_eq!(renju::Limit::SIX.number(), 6);
    /// ```
    #[must_use]
    pub const fn number(self) -> u8 {
        self.0
    }
}

/// The number.
impl fmt::Display for Limit {
    fn fmt(&self, f: &mut fmt::Formatter<'_>) -> fmt::Result {
        self.0.fmt(f)
    }
}

/// By its number; refusal 21 for any other text.
impl FromStr for Limit {
    type Err = Refusal;

    fn from_str(text: &str) -> Result<Self, Refusal> {
        text.parse().map_or(Err(Refusal::Limit), Self::new)
    }
}

/// As [`Limit::new`].
impl TryFrom<u8> for Limit {
    type Error = Refusal;

    fn try_from(number: u8) -> Result<Self, Refusal> {
        Self::new(number)
    }
}

impl From<Limit> for u8 {
    fn from(limit: Limit) -> Self {
        limit.number()
    }
}

impl Cells {
    /// A line of fours with which the colour, to move, wins against every
    /// reply: of all with at most `limit` attacks the first by comparing codes
    /// from the front. None where there is no such line.
    ///
    /// The first by codes may be longer than need be;
    /// [`Cells::shortest_win_by_fours`] has the fewest attacks.
    ///
    /// ```
    /// use renju::{Cells, Colour, Limit};
    ///
    /// let cells: Cells = "A1/F8,G8,H8,I5,I6,I7".parse()?;
    /// let line = cells.win_by_fours(Colour::White, Limit::new(2)?).unwrap();
    /// let points: Vec<String> = line.iter().map(ToString::to_string).collect();
    /// assert_eq!(points, ["D8", "E8", "I4"]);
    /// assert_eq!(cells.win_by_fours(Colour::Black, Limit::SIX), None);
    /// # Ok::<(), renju::Refusal>(())
    /// ```
    pub fn win_by_fours(&self, colour: Colour, limit: Limit) -> Option<WinLine> {
        let mut codes = [0; LINE];
        // Sound cells, a colour, a limit of 1 to 6 and room for any line: never refused.
        let count = given(raw::renju_win_plan(
            &self.bytes,
            colour.number(),
            limit.number(),
            &mut codes,
        ));
        if count == 0 {
            return None;
        }
        let points = codes.into_iter().map(Point::given);
        Some(WinLine::gather(Point::given(0), count, points))
    }

    /// .. with the fewest attacks: each limit is asked, from 1 on.
    ///
    /// ```
    /// use renju::{Cells, Colour, Limit};
    ///
    /// let cells: Cells = "A1/F8,G8,H8,I5,I6,I7".parse()?;
    /// let line = cells.shortest_win_by_fours(Colour::White, Limit::SIX).unwrap();
    /// assert_eq!(line.len(), 1);
    /// # Ok::<(), renju::Refusal>(())
    /// ```
    #[must_use]
    pub fn shortest_win_by_fours(&self, colour: Colour, limit: Limit) -> Option<WinLine> {
        (1..=limit.number()).find_map(|number| self.win_by_fours(colour, Limit(number)))
    }

    /// Whether a list of points is such a line for the colour, to move, of any
    /// number of attacks.
    ///
    /// ```
    /// use renju::{Cells, Colour};
    ///
    /// let cells: Cells = "A1/F8,G8,H8".parse()?;
    /// assert!(cells.is_win_by_fours(Colour::White, &["E8".parse()?]));
    /// // D8 leaves one eye, at E8, which is the reply; then there is no four left.
    /// assert!(!cells.is_win_by_fours(Colour::White, &["D8".parse()?, "E8".parse()?]));
    /// assert!(!cells.is_win_by_fours(Colour::White, &[]));
    /// # Ok::<(), renju::Refusal>(())
    /// ```
    #[must_use]
    pub fn is_win_by_fours(&self, colour: Colour, line: &[Point]) -> bool {
        // Each point of such a line is empty before its stone, so that it has at most 225.
        let mut codes = [0; CELLS];
        let Some(own) = codes.get_mut(..line.len()) else {
            return false;
        };
        for (code, point) in own.iter_mut().zip(line) {
            *code = point.code();
        }
        // Sound cells, points and a colour: never refused.
        given(raw::renju_win_check(&self.bytes, colour.number(), own)) == 1
    }
}
