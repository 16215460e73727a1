//! The 225 points of the board.

use crate::named::pad;
use crate::raw::{renju_read_point, renju_turn_point};
use crate::refusal::{answer, given};
use crate::{CELLS, Refusal, SIDE, View};
use core::fmt;
use core::str::FromStr;

/// A point of the board: column x and row y, each 0 to 14.
///
/// Its code is 15 x + y: A1 is 0, H8, the centre, is 112, O15 is 224. Points
/// are in order of their codes.
///
/// # Examples
///
/// ```
/// use renju::Point;
///
/// let centre: Point = "H8".parse()?;
/// assert_eq!((centre.x(), centre.y(), centre.code()), (7, 7, 112));
/// assert_eq!(centre.to_string(), "H8");
/// # Ok::<(), renju::Refusal>(())
/// ```
#[derive(Clone, Copy, PartialEq, Eq, PartialOrd, Ord, Hash)]
pub struct Point(u8);

impl Point {
    /// The point of column `x` and row `y`.
    ///
    /// # Errors
    ///
    /// Refusal 8 where one is over 14.
    ///
    /// ```
    /// use renju::{Point, Refusal};
    ///
    /// assert_eq!(Point::new(2, 14)?.to_string(), "C15");
    /// assert_eq!(Point::new(2, 15), Err(Refusal::Point));
    /// # Ok::<(), renju::Refusal>(())
    /// ```
    pub const fn new(x: u8, y: u8) -> Result<Self, Refusal> {
        if x < SIDE && y < SIDE {
            Ok(Self(x * SIDE + y))
        } else {
            Err(Refusal::Point)
        }
    }

    /// The point of a code.
    ///
    /// # Errors
    ///
    /// Refusal 8 for one over 224.
    ///
    /// ```
    /// use renju::{Point, Refusal};
    ///
    /// assert_eq!(Point::from_code(224)?.to_string(), "O15");
    /// assert_eq!(Point::from_code(225), Err(Refusal::Point));
    /// # Ok::<(), renju::Refusal>(())
    /// ```
    pub const fn from_code(code: u8) -> Result<Self, Refusal> {
        if (code as usize) < CELLS {
            Ok(Self(code))
        } else {
            Err(Refusal::Point)
        }
    }

    /// The point of a code that the archive gave: below 225, by contract.
    pub(crate) const fn given(code: u8) -> Self {
        debug_assert!((code as usize) < CELLS, "the archive gave a code over 224");
        Self(code)
    }

    /// The point of a word's answer that is a code: the low byte has it whole.
    fn of_answer(answer: u16) -> Self {
        debug_assert!(answer < 225, "the archive gave code {answer}");
        Self::given(answer as u8)
    }

    /// The point that a text names, alone in it: one letter A to O or a to o and
    /// one or two digits that are a number 1 to 15, with space around them; no
    /// sign, and nothing behind. `parse` reads the same.
    ///
    /// # Errors
    ///
    /// Refusals 1 and 2 are for bytes that can be no text, 3 for the letter, 4
    /// for what is behind it.
    ///
    /// ```
    /// use renju::{Point, Refusal};
    ///
    /// assert_eq!(Point::read(b"h08")?.to_string(), "H8");
    /// assert_eq!(Point::read(b"H8,I9"), Err(Refusal::YPart));
    /// # Ok::<(), renju::Refusal>(())
    /// ```
    pub fn read(text: &[u8]) -> Result<Self, Refusal> {
        answer(renju_read_point(text)).map(Self::of_answer)
    }

    /// All points, by code.
    ///
    /// ```
    /// use renju::Point;
    ///
    /// assert_eq!(Point::all().count(), 225);
    /// assert_eq!(Point::all().nth(15).map(|p| p.to_string()), Some("B1".to_string()));
    /// ```
    pub fn all() -> impl ExactSizeIterator<Item = Self> + DoubleEndedIterator + Clone {
        (0..SIDE * SIDE).map(Self)
    }

    /// 15 x + y.
    ///
    /// ```
    /// assert_eq!(renju::Point::new(7, 7)?.code(), 112);
    /// # Ok::<(), renju::Refusal>(())
    /// ```
    #[must_use]
    pub const fn code(self) -> u8 {
        self.0
    }

    /// The column: 0 for A, 14 for O.
    ///
    /// ```
    /// assert_eq!("C15".parse::<renju::Point>()?.x(), 2);
    /// # Ok::<(), renju::Refusal>(())
    /// ```
    #[must_use]
    pub const fn x(self) -> u8 {
        self.0 / SIDE
    }

    /// The row: 0 for 1, 14 for 15.
    ///
    /// ```
    /// assert_eq!("C15".parse::<renju::Point>()?.y(), 14);
    /// # Ok::<(), renju::Refusal>(())
    /// ```
    #[must_use]
    pub const fn y(self) -> u8 {
        self.0 % SIDE
    }

    /// Where a view sends the point.
    ///
    /// ```
    /// use renju::{Point, View};
    ///
    /// let c15: Point = "C15".parse()?;
    /// assert_eq!(c15.turned(View::LeftRight), "M15".parse()?);
    /// # Ok::<(), renju::Refusal>(())
    /// ```
    #[must_use]
    pub fn turned(self, view: View) -> Self {
        Self::of_answer(given(renju_turn_point(self.0, view.number())))
    }
}

/// As [`Point::read`].
///
/// ```
/// use renju::{Point, Refusal};
///
/// assert_eq!(" h8 ".parse::<Point>(), Point::new(7, 7));
/// assert_eq!("H08".parse::<Point>(), Point::new(7, 7));
/// assert_eq!("P8".parse::<Point>(), Err(Refusal::XPart));
/// assert_eq!("H16".parse::<Point>(), Err(Refusal::YPart));
/// assert_eq!("H123".parse::<Point>(), Err(Refusal::YPart));
/// ```
impl FromStr for Point {
    type Err = Refusal;

    fn from_str(text: &str) -> Result<Self, Refusal> {
        Self::read(text.as_bytes())
    }
}

impl fmt::Debug for Point {
    fn fmt(&self, f: &mut fmt::Formatter<'_>) -> fmt::Result {
        write!(f, "Point({self})")
    }
}

impl TryFrom<u8> for Point {
    type Error = Refusal;

    fn try_from(code: u8) -> Result<Self, Refusal> {
        Self::from_code(code)
    }
}

impl From<Point> for u8 {
    fn from(point: Point) -> u8 {
        point.code()
    }
}

/// `H8`.
impl fmt::Display for Point {
    fn fmt(&self, f: &mut fmt::Formatter<'_>) -> fmt::Result {
        let letter = char::from(b'A' + self.x());
        pad(f, format_args!("{letter}{}", self.y() + 1))
    }
}

#[cfg(test)]
mod tests {
    use super::Point;

    #[test]
    fn every_code_is_given() {
        assert!((0..225).map(Point::of_answer).eq(Point::all()));
    }

    #[test]
    #[cfg_attr(debug_assertions, should_panic = "the archive gave a code over 224")]
    fn no_other_code_is_given() {
        assert_eq!(Point::given(225).code(), 225);
    }

    #[test]
    #[cfg_attr(debug_assertions, should_panic = "the archive gave code 256")]
    fn no_longer_code_is_given() {
        assert_eq!(Point::of_answer(256).code(), 0);
    }
}
