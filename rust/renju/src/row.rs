//! A row that stands on a board.

use crate::Point;

/// A row of one colour's stones: the line it is on, the cell it starts at,
/// which of its five cells hold the stones and which are its eyes, the empty
/// cells that take it further.
///
/// # Examples
///
/// ```
/// use renju::{Cells, Colour, Kind};
///
/// let cells: Cells = "E8,F8,G8,H8/I8".parse()?;
/// let rows = cells.rows(Colour::Black, Kind::Four);
/// // One Four on row 8: D8 makes the five.
/// assert_eq!(rows.len(), 1);
/// assert!(rows[0].eyes().eq(["D8".parse()?]));
/// assert_eq!(rows[0].to_bytes(), [22, 3, 0b11110, 0b00001]);
/// # Ok::<(), renju::Refusal>(())
/// ```
#[derive(Clone, Copy, Debug, PartialEq, Eq, PartialOrd, Ord, Hash)]
pub struct Row {
    key: u8,
    start: u8,
    stones: u8,
    eyes: u8,
}

impl Row {
    /// A row by its four bytes in a list that the archive wrote.
    pub(crate) const fn given([key, start, stones, eyes]: [u8; 4]) -> Self {
        Self {
            key,
            start,
            stones,
            eyes,
        }
    }

    /// The key of its line: vertical 0 to 14, horizontal 15 to 29, ascending
    /// 30 to 50, descending 51 to 71.
    ///
    /// ```
    /// # use renju::{Cells, Colour, Kind};
    /// let cells: Cells = "E8,F8,G8,H8/I8".parse()?;
    /// assert_eq!(cells.rows(Colour::Black, Kind::Four)[0].key(), 15 + 7);
    /// # Ok::<(), renju::Refusal>(())
    /// ```
    #[must_use]
    pub const fn key(self) -> u8 {
        self.key
    }

    /// The cell of its line that it starts at.
    ///
    /// ```
    /// # use renju::{Cells, Colour, Kind};
    /// // The window is D8 to H8.
    /// let cells: Cells = "E8,F8,G8,H8/I8".parse()?;
    /// assert_eq!(cells.rows(Colour::Black, Kind::Four)[0].start(), 3);
    /// # Ok::<(), renju::Refusal>(())
    /// ```
    #[must_use]
    pub const fn start(self) -> u8 {
        self.start
    }

    /// Its stones, bit k for the cell k after the start.
    ///
    /// ```
    /// # use renju::{Cells, Colour, Kind};
    /// let cells: Cells = "E8,F8,G8,H8/I8".parse()?;
    /// assert_eq!(cells.rows(Colour::Black, Kind::Four)[0].stones_mask(), 0b11110);
    /// # Ok::<(), renju::Refusal>(())
    /// ```
    #[must_use]
    pub const fn stones_mask(self) -> u8 {
        self.stones
    }

    /// Its eyes, bit k for the cell k after the start.
    ///
    /// ```
    /// # use renju::{Cells, Colour, Kind};
    /// let cells: Cells = "E8,F8,G8,H8/I8".parse()?;
    /// assert_eq!(cells.rows(Colour::Black, Kind::Four)[0].eyes_mask(), 0b00001);
    /// # Ok::<(), renju::Refusal>(())
    /// ```
    #[must_use]
    pub const fn eyes_mask(self) -> u8 {
        self.eyes
    }

    /// Its stones, as points.
    ///
    /// ```
    /// # use renju::{Cells, Colour, Kind};
    /// let cells: Cells = "E8,F8,G8,H8/I8".parse()?;
    /// let row = cells.rows(Colour::Black, Kind::Four)[0];
    /// assert!(row.stones().eq(cells.stones(Colour::Black)));
    /// # Ok::<(), renju::Refusal>(())
    /// ```
    pub fn stones(self) -> impl Iterator<Item = Point> + Clone {
        self.points(self.stones)
    }

    /// Its eyes, as points.
    ///
    /// ```
    /// # use renju::{Cells, Colour, Kind};
    /// let cells: Cells = "E8,F8,G8,H8/I8".parse()?;
    /// let row = cells.rows(Colour::Black, Kind::Four)[0];
    /// assert_eq!(row.eyes().map(|p| p.to_string()).collect::<Vec<_>>(), ["D8"]);
    /// # Ok::<(), renju::Refusal>(())
    /// ```
    pub fn eyes(self) -> impl Iterator<Item = Point> + Clone {
        self.points(self.eyes)
    }

    /// Key, start, stones mask and eyes mask, as in the lists of the host
    /// interface.
    ///
    /// ```
    /// # use renju::{Cells, Colour, Kind};
    /// let cells: Cells = "E8,F8,G8,H8/I8".parse()?;
    /// let row = cells.rows(Colour::Black, Kind::Four)[0];
    /// assert_eq!(row.to_bytes(), [22, 3, 0b11110, 0b00001]);
    /// # Ok::<(), renju::Refusal>(())
    /// ```
    #[must_use]
    pub const fn to_bytes(self) -> [u8; 4] {
        [self.key, self.start, self.stones, self.eyes]
    }

    /// The points of the row's cells in a mask. Every such cell is on the
    /// line, so none is left out.
    fn points(self, mask: u8) -> impl Iterator<Item = Point> + Clone {
        (0..5u8)
            .filter(move |k| mask >> k & 1 != 0)
            .filter_map(move |k| point_at(self.key, self.start.saturating_add(k)))
    }
}

/// The point at a cell of the line of a key (section 3 of document 01).
fn point_at(key: u8, cell: u8) -> Option<Point> {
    let (x, y) = match key {
        0..=14 => (key, cell),
        15..=29 => (cell, key - 15),
        // Ascending number x + 14 − y; from 14 on the cell is y.
        30..=50 => {
            let number = key - 26;
            let right = number.saturating_sub(14);
            let up = 14u8.saturating_sub(number);
            (cell.saturating_add(right), cell.saturating_add(up))
        }
        // Descending number x + y; from 14 on the cell is 14 − y.
        51..=71 => {
            let number = key - 47;
            let right = number.saturating_sub(14);
            (
                cell.saturating_add(right),
                number.min(14).checked_sub(cell)?,
            )
        }
        _ => return None,
    };
    Point::new(x, y).ok()
}

#[cfg(test)]
mod tests {
    use super::point_at;
    use crate::Point;

    /// Each line has its own points and no other; each point is on four lines.
    #[test]
    fn cells_of_lines() {
        let mut met = [0; 225];
        for key in 0..=u8::MAX {
            for point in (0..=u8::MAX).filter_map(|cell| point_at(key, cell)) {
                met[usize::from(point.code())] += 1;
            }
        }
        // A diagonal of under five cells is no line.
        for (point, times) in Point::all().zip(met) {
            let (x, y) = (i32::from(point.x()), i32::from(point.y()));
            let lines = 2 + i32::from((x - y).abs() <= 10) + i32::from((x + y - 14).abs() <= 10);
            assert_eq!(times, lines, "{point}");
        }
    }

    #[test]
    fn no_point_off_a_line() {
        for (key, cell) in [(0, 15), (29, 15), (72, 0), (255, 0), (40, 15), (61, 15)] {
            assert_eq!(point_at(key, cell), None, "{key} {cell}");
        }
    }
}
