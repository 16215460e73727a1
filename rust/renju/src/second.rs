//! The second referee: a slow one over the same cells, for night checks beside the fast one.
//!
//! It keeps the 225 cells and nothing else, and walks them by their coordinates, with no masks and
//! no stored lines, so that its source can be read beside the rules. Its answers are proved to be
//! those of the fast referee, which the methods of [`Cells`] ask: same rows in the same order, same
//! eyes, verdicts, refusals and crosses. What a check at night adds is that the two, as compiled
//! and as they run, say the same of the boards that were played.
//!
//! # Examples
//!
//! ```
//! use renju::{Cells, Point, second};
//!
//! /// Whether both say the same of a board: each verdict, and the list.
//! fn agree(cells: &Cells) -> bool {
//!     let same = |point| cells.verdict(point) == second::verdict(cells, point);
//!     Point::all().all(same) && cells.forbidden_points() == second::forbidden_points(cells)
//! }
//!
//! for board in ["G8,I8,H7,H9/A1", "H8,I9,J10"] {
//!     assert!(agree(&board.parse()?), "{board}");
//! }
//! # Ok::<(), renju::Refusal>(())
//! ```

use crate::referee::SECOND;
use crate::{Cells, Colour, Crosses, Kind, Point, Points, Refusal, Rows, RowsOn, Verdict};

/// A colour's rows of a kind, by the key of their line, then by start: as
/// [`Cells::rows`].
///
/// ```
/// use renju::{Cells, Colour, Kind, second};
///
/// let cells: Cells = "E8,F8,G8,H9,H10,H11/A1".parse()?;
/// let swords = second::rows(&cells, Colour::Black, Kind::Sword);
/// let keys: Vec<u8> = swords.iter().map(|row| row.key()).collect();
/// assert_eq!(keys, [7, 7, 7, 22, 22, 22]);
/// # Ok::<(), renju::Refusal>(())
/// ```
#[must_use]
pub fn rows(cells: &Cells, colour: Colour, kind: Kind) -> Rows {
    SECOND.rows(cells, colour, kind)
}

/// Those through a point, line by line: as [`Cells::rows_on`].
///
/// ```
/// use renju::{Cells, Colour, Kind, second};
///
/// let cells: Cells = "E8,F8,G8,H9,H10,H11/A1".parse()?;
/// let swords = second::rows_on(&cells, "H8".parse()?, Colour::Black, Kind::Sword);
/// assert_eq!(swords.len(), 4);
/// # Ok::<(), renju::Refusal>(())
/// ```
#[must_use]
pub fn rows_on(cells: &Cells, point: Point, colour: Colour, kind: Kind) -> RowsOn {
    SECOND.rows_on(cells, point, colour, kind)
}

/// The points that make a five of a colour's Fours through a point, line by
/// line: as [`Cells::four_eyes_on`].
///
/// ```
/// use renju::{Cells, Colour, second};
///
/// let cells: Cells = "E8,F8,G8,H8/A1".parse()?;
/// let eyes = second::four_eyes_on(&cells, "F8".parse()?, Colour::Black);
/// assert_eq!(eyes.as_slice(), ["D8".parse()?, "I8".parse()?]);
/// # Ok::<(), renju::Refusal>(())
/// ```
#[must_use]
pub fn four_eyes_on(cells: &Cells, point: Point, colour: Colour) -> Points {
    SECOND.four_eyes_on(cells, point, colour)
}

/// The plain verdict: as [`Cells::plain_verdict`].
///
/// # Errors
///
/// Refusal 11 at an occupied point.
///
/// ```
/// use renju::{Cells, Refusal, Verdict, second};
///
/// let cells: Cells = "G8,I8,H7,H9/A1".parse()?;
/// assert_eq!(second::plain_verdict(&cells, "H8".parse()?), Ok(Verdict::DoubleThree));
/// assert_eq!(second::plain_verdict(&cells, "G8".parse()?), Err(Refusal::Occupied));
/// # Ok::<(), renju::Refusal>(())
/// ```
pub fn plain_verdict(cells: &Cells, point: Point) -> Result<Verdict, Refusal> {
    SECOND.plain_verdict(cells, point)
}

/// The strict verdict, that of the rules: as [`Cells::verdict`].
///
/// ```
/// use renju::{Cells, Verdict, second};
///
/// let cells: Cells = "D8,E8,F8,H8,I8/A1".parse()?;
/// assert_eq!(second::verdict(&cells, "G8".parse()?), Verdict::Overline);
/// assert_eq!(second::verdict(&cells, "H8".parse()?), Verdict::None);
/// # Ok::<(), renju::Refusal>(())
/// ```
#[must_use]
pub fn verdict(cells: &Cells, point: Point) -> Verdict {
    SECOND.verdict(cells, point)
}

/// Every point that is forbidden to Black by the strict verdict, with the
/// kind, by code: as [`Cells::forbidden_points`].
///
/// ```
/// use renju::{Cells, second};
///
/// let cells: Cells = "G8,I8,H7,H9/A1".parse()?;
/// let crosses = second::forbidden_points(&cells);
/// assert_eq!(crosses.len(), 1);
/// assert_eq!(crosses[0].to_string(), "H8 DoubleThree");
/// # Ok::<(), renju::Refusal>(())
/// ```
#[must_use]
pub fn forbidden_points(cells: &Cells) -> Crosses {
    SECOND.forbidden_points(cells)
}
