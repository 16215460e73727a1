//! What the referee says of a point, and a point that is forbidden.

use crate::named::{numbered_and_named, pad};
use crate::{Point, Refusal};
use core::fmt;

/// What the referee says of a black stone at a point.
///
/// # Examples
///
/// ```
/// use renju::{Cells, Verdict};
///
/// // A black stone at H8 makes two open threes.
/// let cells: Cells = "G8,I8,H7,H9/A1".parse()?;
/// let verdict = cells.verdict("H8".parse()?);
/// assert_eq!(verdict, Verdict::DoubleThree);
/// assert_eq!(verdict.to_string(), "DoubleThree");
/// # Ok::<(), renju::Refusal>(())
/// ```
#[derive(Clone, Copy, Debug, PartialEq, Eq, PartialOrd, Ord, Hash)]
#[repr(u8)]
pub enum Verdict {
    /// Not forbidden.
    None = 0,
    /// Two threes at once that can both become a straight four, with no five made at the same time.
    DoubleThree = 1,
    /// Two fours at once.
    DoubleFour = 2,
    /// Six or more in a row.
    Overline = 3,
}

impl Verdict {
    /// All four, by number.
    ///
    /// ```
    /// use renju::Verdict;
    ///
    /// let forbidden = Verdict::ALL.into_iter().filter(|verdict| verdict.is_forbidden());
    /// assert!(forbidden.eq([Verdict::DoubleThree, Verdict::DoubleFour, Verdict::Overline]));
    /// ```
    pub const ALL: [Self; 4] = [
        Self::None,
        Self::DoubleThree,
        Self::DoubleFour,
        Self::Overline,
    ];

    /// The verdict's number: 0 none, 1 double three, 2 double four, 3
    /// overline.
    ///
    /// ```
    /// assert_eq!(renju::Verdict::Overline.number(), 3);
    /// ```
    #[must_use]
    pub const fn number(self) -> u8 {
        self as u8
    }

    /// The verdict of a number.
    ///
    /// # Errors
    ///
    /// Refusal 12 for one over 3.
    ///
    /// ```
    /// use renju::{Refusal, Verdict};
    ///
    /// assert_eq!(Verdict::from_number(2), Ok(Verdict::DoubleFour));
    /// assert_eq!(Verdict::from_number(4), Err(Refusal::Number));
    /// ```
    pub const fn from_number(number: u8) -> Result<Self, Refusal> {
        Ok(match number {
            0 => Self::None,
            1 => Self::DoubleThree,
            2 => Self::DoubleFour,
            3 => Self::Overline,
            _ => return Err(Refusal::Number),
        })
    }

    /// Its name, as it stands here.
    ///
    /// ```
    /// use renju::Verdict;
    ///
    /// assert_eq!(Verdict::DoubleFour.name(), "DoubleFour");
    /// assert_eq!("overline".parse(), Ok(Verdict::Overline));
    /// ```
    #[must_use]
    pub const fn name(self) -> &'static str {
        match self {
            Self::None => "None",
            Self::DoubleThree => "DoubleThree",
            Self::DoubleFour => "DoubleFour",
            Self::Overline => "Overline",
        }
    }

    /// Whether the point is forbidden to Black.
    ///
    /// ```
    /// use renju::Verdict;
    ///
    /// assert!(Verdict::Overline.is_forbidden());
    /// assert!(!Verdict::None.is_forbidden());
    /// ```
    #[must_use]
    pub const fn is_forbidden(self) -> bool {
        !matches!(self, Self::None)
    }

    /// The verdict of a number that the archive gave: 0 to 3, by contract.
    pub(crate) fn given(number: u8) -> Self {
        let verdict = Self::from_number(number);
        debug_assert!(verdict.is_ok(), "the archive gave verdict {number}");
        verdict.unwrap_or(Self::None)
    }
}

numbered_and_named!(Verdict);

/// A point that is forbidden to Black, with the kind: a cross on the table.
///
/// # Examples
///
/// ```
/// let cells: renju::Cells = "G8,I8,H7,H9/A1".parse()?;
/// let lines: Vec<String> = cells.forbidden_points().iter().map(|c| c.to_string()).collect();
/// assert_eq!(lines, ["H8 DoubleThree"]);
/// # Ok::<(), renju::Refusal>(())
/// ```
#[derive(Clone, Copy, Debug, PartialEq, Eq, PartialOrd, Ord, Hash)]
pub struct Cross {
    /// Where it is.
    pub point: Point,
    /// Why it is forbidden.
    pub verdict: Verdict,
}

/// `H8 DoubleThree`.
impl fmt::Display for Cross {
    fn fmt(&self, f: &mut fmt::Formatter<'_>) -> fmt::Result {
        pad(f, format_args!("{} {}", self.point, self.verdict))
    }
}

#[cfg(test)]
mod tests {
    use super::Verdict;

    #[test]
    fn given_by_number() {
        for (verdict, number) in Verdict::ALL.into_iter().zip(0..) {
            assert_eq!(Verdict::given(number), verdict);
        }
    }

    #[test]
    #[cfg_attr(debug_assertions, should_panic = "the archive gave verdict 4")]
    fn no_other_is_given() {
        assert_eq!(Verdict::given(4), Verdict::None);
    }
}
