//! What is asked about a board: points, rows, verdicts and crosses.

use crate::raw;
use crate::referee::{FAST, points};
use crate::refusal::{answer, given};
use crate::{CELLS, Cells, Colour, Crosses, Kind, Point, Points, Refusal, Rows, RowsOn, Verdict};

impl Cells {
    /// A colour's stones, by code.
    ///
    /// ```
    /// use renju::{Cells, Colour};
    ///
    /// let cells: Cells = "J10,I9,H8".parse()?;
    /// let blacks = cells.stones(Colour::Black);
    /// assert_eq!(blacks.as_slice(), ["H8".parse()?, "J10".parse()?]);
    /// # Ok::<(), renju::Refusal>(())
    /// ```
    #[must_use]
    pub fn stones(&self, colour: Colour) -> Points {
        let mut codes = [0; CELLS];
        let count = given(raw::renju_stones(&self.bytes, colour.number(), &mut codes));
        points(count, &codes)
    }

    /// The empty points, by code.
    ///
    /// ```
    /// let cells: renju::Cells = "H8,I9".parse()?;
    /// assert_eq!(cells.empty_points().len(), 223);
    /// # Ok::<(), renju::Refusal>(())
    /// ```
    #[must_use]
    pub fn empty_points(&self) -> Points {
        let mut codes = [0; CELLS];
        let count = given(raw::renju_empty_points(&self.bytes, &mut codes));
        points(count, &codes)
    }

    /// The points up to a distance on the four lines through a point, line by
    /// line, the point itself on each; only the empty ones if so asked.
    ///
    /// # Errors
    ///
    /// Refusal 12 for a distance over 14.
    ///
    /// ```
    /// use renju::{Cells, Refusal};
    ///
    /// let cells: Cells = "H8,I9".parse()?;
    /// let (h8, a1) = ("H8".parse()?, "A1".parse()?);
    /// assert_eq!(cells.neighbors(h8, 1, false)?.len(), 12);
    /// // All but I9 and, four times, H8.
    /// assert_eq!(cells.neighbors(h8, 1, true)?.len(), 7);
    /// assert_eq!(cells.neighbors(a1, 15, false), Err(Refusal::Number));
    /// # Ok::<(), renju::Refusal>(())
    /// ```
    pub fn neighbors(
        &self,
        point: Point,
        distance: u8,
        only_empty: bool,
    ) -> Result<Points, Refusal> {
        let (code, mut codes) = (point.code(), [0; CELLS]);
        let count = answer(raw::renju_neighbors(
            &self.bytes,
            code,
            distance,
            only_empty,
            &mut codes,
        ))?;
        Ok(points(count, &codes))
    }

    /// A colour's rows of a kind, by the key of their line, then by start.
    ///
    /// ```
    /// use renju::{Cells, Colour, Kind};
    ///
    /// let cells: Cells = "E8,F8,G8,H9,H10,H11/A1".parse()?;
    /// // Each three has three windows of its own; the vertical one comes first.
    /// let swords = cells.rows(Colour::Black, Kind::Sword);
    /// let keys: Vec<u8> = swords.iter().map(|row| row.key()).collect();
    /// assert_eq!(keys, [7, 7, 7, 22, 22, 22]);
    /// # Ok::<(), renju::Refusal>(())
    /// ```
    #[must_use]
    pub fn rows(&self, colour: Colour, kind: Kind) -> Rows {
        FAST.rows(self, colour, kind)
    }

    /// Those through a point, line by line.
    ///
    /// ```
    /// use renju::{Cells, Colour, Kind};
    ///
    /// let cells: Cells = "E8,F8,G8,H9,H10,H11/A1".parse()?;
    /// // What a stone at H8 makes four of: two windows on each line.
    /// let swords = cells.rows_on("H8".parse()?, Colour::Black, Kind::Sword);
    /// assert_eq!(swords.len(), 4);
    /// # Ok::<(), renju::Refusal>(())
    /// ```
    #[must_use]
    pub fn rows_on(&self, point: Point, colour: Colour, kind: Kind) -> RowsOn {
        FAST.rows_on(self, point, colour, kind)
    }

    /// The points that make a five of a colour's Fours through a point: line
    /// by line, each once a line.
    ///
    /// ```
    /// use renju::{Cells, Colour};
    ///
    /// let cells: Cells = "E8,F8,G8,H8/A1".parse()?;
    /// let eyes = cells.four_eyes_on("F8".parse()?, Colour::Black);
    /// assert_eq!(eyes.as_slice(), ["D8".parse()?, "I8".parse()?]);
    /// # Ok::<(), renju::Refusal>(())
    /// ```
    #[must_use]
    pub fn four_eyes_on(&self, point: Point, colour: Colour) -> Points {
        FAST.four_eyes_on(self, point, colour)
    }

    /// The plain verdict on a black stone at an empty point, whether or not
    /// it completes a five.
    ///
    /// # Errors
    ///
    /// Refusal 11 at an occupied point.
    ///
    /// ```
    /// use renju::{Cells, Refusal, Verdict};
    ///
    /// // H8 makes the five D8 to H8, and two fours besides.
    /// let cells: Cells = "D8,E8,F8,G8,H9,H10,H11,I9,J10,K11/A1".parse()?;
    /// let h8 = "H8".parse()?;
    /// assert_eq!(cells.plain_verdict(h8), Ok(Verdict::DoubleFour));
    /// assert_eq!(cells.verdict(h8), Verdict::None);
    /// assert_eq!(cells.plain_verdict("D8".parse()?), Err(Refusal::Occupied));
    /// # Ok::<(), renju::Refusal>(())
    /// ```
    pub fn plain_verdict(&self, point: Point) -> Result<Verdict, Refusal> {
        FAST.plain_verdict(self, point)
    }

    /// The strict verdict, that of the rules: none at an occupied point and
    /// where a black stone completes a five.
    ///
    /// ```
    /// use renju::{Cells, Verdict};
    ///
    /// let cells: Cells = "D8,E8,F8,H8,I8/A1".parse()?;
    /// assert_eq!(cells.verdict("G8".parse()?), Verdict::Overline);
    /// assert_eq!(cells.verdict("H8".parse()?), Verdict::None);
    /// # Ok::<(), renju::Refusal>(())
    /// ```
    #[must_use]
    pub fn verdict(&self, point: Point) -> Verdict {
        FAST.verdict(self, point)
    }

    /// How deep the strict question at a point goes: 0 at an occupied point, 1
    /// where it asks no other question, else one more than the deepest question
    /// at the eye of a three that the stone would make, those after the answer is
    /// known among them. It is at most the number of empty points. The stack that
    /// a question takes follows from it (docs/PERFORMANCE.md).
    ///
    /// ```
    /// let cells: renju::Cells = "G8,I8,H7,H9/A1".parse()?;
    /// assert_eq!(cells.depth("H8".parse()?), 2);
    /// assert_eq!(cells.depth("O15".parse()?), 1);
    /// assert_eq!(cells.depth("A1".parse()?), 0);
    /// # Ok::<(), renju::Refusal>(())
    /// ```
    #[must_use]
    pub fn depth(&self, point: Point) -> u8 {
        // The depth is the answer's high byte, the verdict its low one.
        (given(raw::renju_depth(&self.bytes, point.code())) >> 8) as u8
    }

    /// Every point that is forbidden to Black by the strict verdict, with the
    /// kind, by code.
    ///
    /// ```
    /// use renju::{Cells, Verdict};
    ///
    /// let cells: Cells = "G8,I8,H7,H9/A1".parse()?;
    /// let crosses = cells.forbidden_points();
    /// assert_eq!(crosses.len(), 1);
    /// assert_eq!(crosses[0].point, "H8".parse()?);
    /// assert_eq!(crosses[0].verdict, Verdict::DoubleThree);
    /// # Ok::<(), renju::Refusal>(())
    /// ```
    #[must_use]
    pub fn forbidden_points(&self) -> Crosses {
        FAST.forbidden_points(self)
    }
}
