//! A line of cells that is asked about alone.

use crate::raw::{renju_line_eyes, renju_line_starts, renju_line_starts_on};
use crate::refusal::{answer, given};
use crate::{Colour, Kind, Refusal};

/// A line of 5 to 15 cells by itself, with no board around it: two masks of
/// stones, bit i for cell i.
///
/// # Examples
///
/// ```
/// use renju::{Colour, Kind, Line};
///
/// // Black on cells 2, 3 and 4 of fifteen.
/// let line = Line::new(0b11100, 0, 15)?;
/// assert_eq!(line.row_starts(Colour::Black, Kind::Three), 0b110);
/// assert_eq!(line.row_starts(Colour::Black, Kind::Sword), 0b111);
/// # Ok::<(), renju::Refusal>(())
/// ```
#[derive(Clone, Copy, Debug, PartialEq, Eq, PartialOrd, Ord, Hash)]
pub struct Line {
    blacks: u16,
    whites: u16,
    size: u8,
}

impl Line {
    /// A line of `size` cells with these stones.
    ///
    /// # Errors
    ///
    /// Refusal 10 for a size that is not 5 to 15, 9 where a stone is past the end
    /// or a cell has both colours.
    ///
    /// ```
    /// use renju::{Line, Refusal};
    ///
    /// assert!(Line::new(0b00011, 0b11000, 5).is_ok());
    /// assert_eq!(Line::new(0, 0, 4), Err(Refusal::Place));
    /// assert_eq!(Line::new(0b1, 0b1, 5), Err(Refusal::Unsound));
    /// assert_eq!(Line::new(0b100000, 0, 5), Err(Refusal::Unsound));
    /// ```
    pub fn new(blacks: u16, whites: u16, size: u8) -> Result<Self, Refusal> {
        // Any question tests the line; this one is not otherwise looked at.
        let (black, two) = (Colour::Black.number(), Kind::Two.number());
        answer(renju_line_starts(blacks, whites, size, black, two))?;
        Ok(Self {
            blacks,
            whites,
            size,
        })
    }

    /// The black stones.
    ///
    /// ```
    /// assert_eq!(renju::Line::new(0b00011, 0b11000, 5)?.blacks(), 0b00011);
    /// # Ok::<(), renju::Refusal>(())
    /// ```
    #[must_use]
    pub const fn blacks(self) -> u16 {
        self.blacks
    }

    /// The white stones.
    ///
    /// ```
    /// assert_eq!(renju::Line::new(0b00011, 0b11000, 5)?.whites(), 0b11000);
    /// # Ok::<(), renju::Refusal>(())
    /// ```
    #[must_use]
    pub const fn whites(self) -> u16 {
        self.whites
    }

    /// How many cells it has.
    ///
    /// ```
    /// assert_eq!(renju::Line::new(0b00011, 0b11000, 5)?.size(), 5);
    /// # Ok::<(), renju::Refusal>(())
    /// ```
    #[must_use]
    pub const fn size(self) -> u8 {
        self.size
    }

    /// Where the colour's rows of a kind start: bit j for a row at cell j.
    ///
    /// ```
    /// use renju::{Colour, Kind, Line};
    ///
    /// // Six in a row are no five of Black's.
    /// let line = Line::new(0b111111, 0, 15)?;
    /// assert_eq!(line.row_starts(Colour::Black, Kind::Five), 0);
    /// assert_eq!(line.row_starts(Colour::Black, Kind::Overlined), 0b10);
    /// # Ok::<(), renju::Refusal>(())
    /// ```
    #[must_use]
    pub fn row_starts(self, colour: Colour, kind: Kind) -> u16 {
        given(renju_line_starts(
            self.blacks,
            self.whites,
            self.size,
            colour.number(),
            kind.number(),
        ))
    }

    /// Those through a cell.
    ///
    /// # Errors
    ///
    /// Refusal 10 for a cell that is not on the line.
    ///
    /// ```
    /// use renju::{Colour, Kind, Line, Refusal};
    ///
    /// let line = Line::new(0b11100, 0, 15)?;
    /// assert_eq!(line.row_starts_on(1, Colour::Black, Kind::Sword), Ok(0b011));
    /// assert_eq!(line.row_starts_on(15, Colour::Black, Kind::Sword), Err(Refusal::Place));
    /// # Ok::<(), renju::Refusal>(())
    /// ```
    pub fn row_starts_on(self, cell: u8, colour: Colour, kind: Kind) -> Result<u16, Refusal> {
        answer(renju_line_starts_on(
            self.blacks,
            self.whites,
            self.size,
            colour.number(),
            kind.number(),
            cell,
        ))
    }

    /// The eyes of the colour's rows of a kind: bit i for cell i.
    ///
    /// ```
    /// use renju::{Colour, Kind, Line};
    ///
    /// // White's xxxx.x: two Fours, one eye.
    /// let line = Line::new(0, 0b101111, 15)?;
    /// assert_eq!(line.row_starts(Colour::White, Kind::Four), 0b11);
    /// assert_eq!(line.row_eyes(Colour::White, Kind::Four), 0b10000);
    /// # Ok::<(), renju::Refusal>(())
    /// ```
    #[must_use]
    pub fn row_eyes(self, colour: Colour, kind: Kind) -> u16 {
        given(renju_line_eyes(
            self.blacks,
            self.whites,
            self.size,
            colour.number(),
            kind.number(),
        ))
    }
}
