//! Moves text, `H8,I9,J10`: a recorded game written, and read back.

use crate::{MOVES, Moves, Point, Refusal, TEXT};
use core::fmt;
use core::str::FromStr;

impl Moves {
    /// The moves of a text: points with commas between them, Black's first, then in turn.
    ///
    /// Unlike [`Cells::read`](crate::Cells::read) it keeps the order of play, and a point that comes
    /// twice, which is for [`Moves::report`] to find.
    ///
    /// # Errors
    ///
    /// Refusals 1 and 2 for bytes that can be no text, 3 and 4 for the first item that is no point, 14
    /// for more than 225 moves. No moves have no text: an empty one is refused 3.
    ///
    /// ```
    /// use renju::{Moves, Refusal};
    ///
    /// assert_eq!(Moves::read(b"h8, I09,H8")?.as_codes(), [112, 128, 112]);
    /// assert_eq!(Moves::read(b"H8,Z9"), Err(Refusal::XPart));
    /// assert_eq!(Moves::read(b"H8,I9/J10"), Err(Refusal::YPart));
    /// assert_eq!(Moves::read(b""), Err(Refusal::XPart));
    /// # Ok::<(), Refusal>(())
    /// ```
    pub fn read(text: &[u8]) -> Result<Self, Refusal> {
        if text.len() > TEXT {
            return Err(Refusal::TextLength);
        }
        let text = core::str::from_utf8(text).map_err(|_| Refusal::TextByte)?;
        if !text.is_ascii() {
            return Err(Refusal::TextByte);
        }
        let (mut codes, mut count) = ([0; MOVES], 0);
        for item in text.split(',') {
            let point: Point = item.parse()?;
            if let Some(code) = codes.get_mut(count) {
                *code = point.code();
            }
            count += 1;
        }
        let codes = codes.get(..count).ok_or(Refusal::ManyMoves)?;
        Self::from_codes(codes)
    }
}

/// As [`Moves::read`].
///
/// ```
/// let moves: renju::Moves = "H8,I9,J10".parse()?;
/// assert_eq!(moves.to_string(), "H8,I9,J10");
/// # Ok::<(), renju::Refusal>(())
/// ```
impl FromStr for Moves {
    type Err = Refusal;

    fn from_str(text: &str) -> Result<Self, Refusal> {
        Self::read(text.as_bytes())
    }
}

/// The moves text, which reads back as the same moves where there are any.
impl fmt::Display for Moves {
    fn fmt(&self, f: &mut fmt::Formatter<'_>) -> fmt::Result {
        for (place, point) in self.points().enumerate() {
            let comma = if place == 0 { "" } else { "," };
            write!(f, "{comma}{point}")?;
        }
        Ok(())
    }
}
