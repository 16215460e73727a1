//! A board without its view: a key that is the same in all eight.

use crate::Cells;

/// A board whatever its view: two are equal, and have the same hash, where one is the other in some view.
///
/// It is a key: for a table of boards that were seen, and for counting them.
///
/// # Examples
///
/// ```
/// use renju::{Canonical, Cells, View};
/// use std::collections::HashMap;
///
/// let cells: Cells = "G8,I8,H7/A1".parse()?;
/// let mut seen: HashMap<Canonical, u32> = HashMap::new();
/// for view in View::ALL {
///     *seen.entry(Canonical::of(&cells.turned(view))).or_default() += 1;
/// }
/// assert_eq!(seen[&Canonical::of(&cells)], 8);
/// # Ok::<(), renju::Refusal>(())
/// ```
#[derive(Clone, Copy, Debug, PartialEq, Eq, Hash)]
pub struct Canonical(Cells);

impl Canonical {
    /// The board without its view.
    ///
    /// ```
    /// use renju::{Canonical, Cells};
    ///
    /// let [one, other]: [Cells; 2] = ["C15,I9".parse()?, "M15,G9".parse()?];
    /// assert_ne!(one, other);
    /// assert_eq!(Canonical::of(&one), Canonical::of(&other));
    /// # Ok::<(), renju::Refusal>(())
    /// ```
    #[must_use]
    pub fn of(cells: &Cells) -> Self {
        Self(cells.canonical().0)
    }

    /// The board that stands for all eight.
    ///
    /// ```
    /// use renju::{Canonical, Cells};
    ///
    /// let cells: Cells = "C15,I9".parse()?;
    /// assert_eq!(Canonical::of(&cells).cells(), &cells.canonical().0);
    /// # Ok::<(), renju::Refusal>(())
    /// ```
    #[must_use]
    pub const fn cells(&self) -> &Cells {
        &self.0
    }
}

/// As [`Canonical::of`].
impl From<Cells> for Canonical {
    fn from(cells: Cells) -> Self {
        Self::of(&cells)
    }
}
