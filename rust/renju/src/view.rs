//! The eight views of the board, and one after another.

use crate::Refusal;
use crate::named::numbered_and_named;
use crate::raw::{renju_view_back, renju_view_then};
use crate::refusal::given;

/// One of the eight ways to lay the board before a player: four turns, and
/// four mirrors (section 6 of document 01). The first letter is x, to the
/// right; the number is y, upwards.
///
/// # Examples
///
/// ```
/// use renju::{Point, View};
///
/// let a1: Point = "A1".parse()?;
/// let corners = View::ALL.map(|view| a1.turned(view).to_string());
/// assert_eq!(corners, ["A1", "A15", "O15", "O1", "O1", "A15", "A1", "O15"]);
/// # Ok::<(), renju::Refusal>(())
/// ```
#[derive(Clone, Copy, Debug, PartialEq, Eq, PartialOrd, Ord, Hash)]
#[repr(u8)]
pub enum View {
    /// 0, (x, y): as it is.
    Same = 0,
    /// 1, (y, 14 − x): a quarter turn clockwise.
    QuarterRight = 1,
    /// 2, (14 − x, 14 − y): half a turn.
    HalfTurn = 2,
    /// 3, (14 − y, x): a quarter turn the other way.
    QuarterLeft = 3,
    /// 4, (14 − x, y): left and right changed over.
    LeftRight = 4,
    /// 5, (x, 14 − y): top and bottom changed over.
    TopBottom = 5,
    /// 6, (y, x): mirrored in the diagonal from A1 to O15.
    Ascending = 6,
    /// 7, (14 − y, 14 − x): mirrored in the diagonal from A15 to O1.
    Descending = 7,
}

impl View {
    /// All eight, by number.
    ///
    /// ```
    /// use renju::{Cells, View};
    ///
    /// // The same crosses in every view, each at its turned point.
    /// let cells: Cells = "E8,F8,G8,H9,H10,H11/A1".parse()?;
    /// for view in View::ALL {
    ///     let cross = cells.turned(view).forbidden_points()[0];
    ///     assert_eq!(cross.point, cells.forbidden_points()[0].point.turned(view));
    /// }
    /// # Ok::<(), renju::Refusal>(())
    /// ```
    pub const ALL: [Self; 8] = [
        Self::Same,
        Self::QuarterRight,
        Self::HalfTurn,
        Self::QuarterLeft,
        Self::LeftRight,
        Self::TopBottom,
        Self::Ascending,
        Self::Descending,
    ];

    /// The view's number, 0 to 7.
    ///
    /// ```
    /// assert_eq!(renju::View::HalfTurn.number(), 2);
    /// ```
    #[must_use]
    pub const fn number(self) -> u8 {
        self as u8
    }

    /// The view of a number.
    ///
    /// # Errors
    ///
    /// Refusal 12 for one over 7.
    ///
    /// ```
    /// use renju::{Refusal, View};
    ///
    /// assert_eq!(View::from_number(4), Ok(View::LeftRight));
    /// assert_eq!(View::from_number(8), Err(Refusal::Number));
    /// ```
    pub const fn from_number(number: u8) -> Result<Self, Refusal> {
        Ok(match number {
            0 => Self::Same,
            1 => Self::QuarterRight,
            2 => Self::HalfTurn,
            3 => Self::QuarterLeft,
            4 => Self::LeftRight,
            5 => Self::TopBottom,
            6 => Self::Ascending,
            7 => Self::Descending,
            _ => return Err(Refusal::Number),
        })
    }

    /// Its name, as it stands here.
    ///
    /// ```
    /// use renju::View;
    ///
    /// assert_eq!(View::QuarterLeft.name(), "QuarterLeft");
    /// assert_eq!("HalfTurn".parse(), Ok(View::HalfTurn));
    /// ```
    #[must_use]
    pub const fn name(self) -> &'static str {
        match self {
            Self::Same => "Same",
            Self::QuarterRight => "QuarterRight",
            Self::HalfTurn => "HalfTurn",
            Self::QuarterLeft => "QuarterLeft",
            Self::LeftRight => "LeftRight",
            Self::TopBottom => "TopBottom",
            Self::Ascending => "Ascending",
            Self::Descending => "Descending",
        }
    }

    /// The view of a number that the archive gave: 0 to 7, by contract.
    pub(crate) fn given(number: u16) -> Self {
        debug_assert!(number < 8, "the archive gave view {number}");
        Self::ALL[usize::from(number & 7)]
    }

    /// The view that equals this one followed by another: whoever has turned
    /// the picture several times keeps one view. Order matters.
    ///
    /// ```
    /// use renju::{Point, View};
    ///
    /// let (mirror, turn) = (View::LeftRight, View::QuarterRight);
    /// assert_eq!(mirror.then(turn), View::Ascending);
    /// assert_eq!(turn.then(mirror), View::Descending);
    /// let h9: Point = "H9".parse()?;
    /// assert_eq!(h9.turned(mirror).turned(turn), h9.turned(mirror.then(turn)));
    /// # Ok::<(), renju::Refusal>(())
    /// ```
    #[must_use]
    pub fn then(self, next: Self) -> Self {
        Self::given(given(renju_view_then(self.number(), next.number())))
    }

    /// The view that takes this one back: a point that a player names in his
    /// own view is the server's point in the view back.
    ///
    /// ```
    /// use renju::{Point, View};
    ///
    /// let h9: Point = "H9".parse()?;
    /// let view = View::QuarterRight;
    /// assert_eq!(h9.turned(view).turned(view.back()), h9);
    /// assert_eq!(view.then(view.back()), View::Same);
    /// # Ok::<(), renju::Refusal>(())
    /// ```
    #[must_use]
    pub fn back(self) -> Self {
        Self::given(given(renju_view_back(self.number())))
    }
}

numbered_and_named!(View);

#[cfg(test)]
mod tests {
    use super::View;

    #[test]
    fn given_by_number() {
        for (view, number) in View::ALL.into_iter().zip(0..) {
            assert_eq!(View::given(number), view);
        }
    }

    #[test]
    #[cfg_attr(debug_assertions, should_panic = "the archive gave view 13")]
    fn no_other_is_given() {
        assert_eq!(View::given(13), View::TopBottom);
    }
}
