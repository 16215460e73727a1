//! A board as its 225 cells: made, read, written and changed.

use crate::list::front;
use crate::named::pad;
use crate::raw;
use crate::refusal::{answer, done, given};
use crate::{CELLS, Colour, DIAGRAM, PRETTY, Point, Refusal, STONES_TEXT, View};
use alloc::borrow::ToOwned;
use alloc::string::String;
use core::fmt;
use core::str::FromStr;

/// A board: 225 cells by point, each empty, black or white.
///
/// It is plain data of 225 bytes that is always sound, so no question about
/// it can be refused for the cells' sake. It can be copied out from under a
/// lock and asked afterwards. Boards are in order by their cell bytes.
///
/// # Examples
///
/// ```
/// use renju::{Cells, Colour, Verdict};
///
/// let mut cells: Cells = "G8,I8,H7,H9/A1".parse()?;
/// let h8 = "H8".parse()?;
/// assert_eq!(cells.verdict(h8), Verdict::DoubleThree);
///
/// // White at E8 and K8 leaves the row no room to become a straight four.
/// cells.put("E8".parse()?, Colour::White);
/// cells.put("K8".parse()?, Colour::White);
/// assert_eq!(cells.verdict(h8), Verdict::None);
/// # Ok::<(), renju::Refusal>(())
/// ```
#[derive(Clone, Copy, PartialEq, Eq, PartialOrd, Ord, Hash)]
pub struct Cells {
    // By code: 0 empty, 1 black, 2 white.
    pub(crate) bytes: [u8; CELLS],
}

impl Cells {
    /// The empty board.
    ///
    /// ```
    /// use renju::Cells;
    ///
    /// assert_eq!(Cells::new().empty_points().len(), 225);
    /// assert_eq!(Cells::new(), Cells::default());
    /// ```
    #[must_use]
    pub const fn new() -> Self {
        Self { bytes: [0; CELLS] }
    }

    /// The board of 225 cell bytes in code order, 0 empty, 1 black, 2 white.
    ///
    /// # Errors
    ///
    /// Refusal 9 for any other bytes.
    ///
    /// ```
    /// use renju::{Cells, Colour, Refusal};
    ///
    /// let mut bytes = [0; 225];
    /// bytes[112] = 1;
    /// let cells = Cells::from_bytes(&bytes)?;
    /// assert_eq!(cells.stone("H8".parse()?), Some(Colour::Black));
    ///
    /// bytes[112] = 3;
    /// assert_eq!(Cells::from_bytes(&bytes), Err(Refusal::Unsound));
    /// assert_eq!(Cells::from_bytes(&bytes[..100]), Err(Refusal::Unsound));
    /// # Ok::<(), renju::Refusal>(())
    /// ```
    pub fn from_bytes(bytes: &[u8]) -> Result<Self, Refusal> {
        match <[u8; CELLS]>::try_from(bytes) {
            Ok(bytes) if bytes.iter().all(|&byte| byte <= 2) => Ok(Self { bytes }),
            _ => Err(Refusal::Unsound),
        }
    }

    /// The cell bytes, in code order.
    ///
    /// ```
    /// let cells: renju::Cells = "A1,B1,A2".parse()?;
    /// assert_eq!(cells.as_bytes()[..2], [1, 1]);
    /// assert_eq!(cells.as_bytes()[15], 2);
    /// # Ok::<(), renju::Refusal>(())
    /// ```
    #[must_use]
    pub const fn as_bytes(&self) -> &[u8; CELLS] {
        &self.bytes
    }

    /// The board that a text says: stones (`G8,I8/A1`, Black's, then
    /// White's) or moves in turn (`H8,I9`). A lone point is one move, Black's.
    /// A saved diagram is read by [`Cells::from_diagram`].
    ///
    /// # Errors
    ///
    /// Refusals 1 and 2 are for bytes that can be no text, 3 and 4 for
    /// points, 3 also for a second slash.
    ///
    /// ```
    /// use renju::{Cells, Colour, Refusal};
    ///
    /// assert_eq!(Cells::read(b"H8,I9")?, Cells::read(b"H8/I9")?);
    /// assert_eq!(Cells::read(b"H8")?.stones(Colour::Black)[..], ["H8".parse()?]);
    /// assert_eq!(Cells::read(b"H8,P1"), Err(Refusal::XPart));
    /// assert_eq!(Cells::read(b"H8/I9/J10"), Err(Refusal::XPart));
    /// assert_eq!(Cells::read(b""), Err(Refusal::XPart));
    /// # Ok::<(), renju::Refusal>(())
    /// ```
    pub fn read(text: &[u8]) -> Result<Self, Refusal> {
        let mut cells = Self::new();
        let word = raw::renju_read(text, &mut cells.bytes);
        answer(word)?;
        done(word, CELLS);
        Ok(cells)
    }

    /// The board of a saved diagram: 15 lines of 15 cells, from row 15 down, `o`
    /// black, `x` white, any other byte empty, spaces dropped. Every text is
    /// taken for one: a slash or a comma is an empty cell.
    ///
    /// # Errors
    ///
    /// Refusals 1 and 2 are for bytes that can be no text, 5 for a line of over
    /// 15 cells, 6 for other than 15 lines, 7 for a line of under 15 cells.
    ///
    /// ```
    /// use renju::{Cells, Refusal};
    ///
    /// let cells: Cells = "H8,I9".parse()?;
    /// assert_eq!(Cells::from_diagram(cells.to_string().as_bytes())?, cells);
    /// assert_eq!(Cells::from_diagram(b"H8,I9"), Err(Refusal::LineCount));
    /// # Ok::<(), renju::Refusal>(())
    /// ```
    pub fn from_diagram(text: &[u8]) -> Result<Self, Refusal> {
        let mut cells = Self::new();
        let word = raw::renju_read_diagram(text, &mut cells.bytes);
        answer(word)?;
        done(word, CELLS);
        Ok(cells)
    }

    /// The stones text, which [`Cells::read`] reads as the same board: Black's
    /// points by ascending code, a slash, White's.
    ///
    /// # Errors
    ///
    /// Refusal 22 where a side has no stones.
    ///
    /// ```
    /// use renju::{Cells, Refusal};
    ///
    /// let cells: Cells = "I8,A1,H9,G8".parse()?;
    /// assert_eq!(cells.to_stones()?, "H9,I8/A1,G8");
    /// assert_eq!(cells.to_stones()?.parse::<Cells>()?, cells);
    /// assert_eq!(Cells::new().to_stones(), Err(Refusal::OneSided));
    /// # Ok::<(), renju::Refusal>(())
    /// ```
    pub fn to_stones(&self) -> Result<String, Refusal> {
        // The plain diagram reads back, so its stones are those of the board.
        let mut diagram = [0; DIAGRAM];
        done(raw::renju_to_string(&self.bytes, &mut diagram), DIAGRAM);
        let mut out = [0; STONES_TEXT];
        let length = answer(raw::renju_convert(&diagram, &mut out))?;
        Ok(ascii(front(&out, length)).to_owned())
    }

    /// The diagram with its rows numbered and its columns lettered, 527
    /// bytes. It is for people: unlike the plain one it does not read back.
    ///
    /// ```
    /// let cells: renju::Cells = "H8,I9".parse()?;
    /// let text = cells.to_pretty_string();
    /// assert!(text.ends_with(" A B C D E F G H I J K L M N O"));
    /// assert_eq!(text.lines().nth(7), Some(" 8 . . . . . . . o . . . . . . ."));
    /// # Ok::<(), renju::Refusal>(())
    /// ```
    #[must_use]
    pub fn to_pretty_string(&self) -> String {
        let mut out = [0; PRETTY];
        done(raw::renju_to_pretty_string(&self.bytes, &mut out), PRETTY);
        ascii(&out).to_owned()
    }

    /// Puts a stone at a point, in place of what stood there.
    ///
    /// ```
    /// use renju::{Cells, Colour};
    ///
    /// let mut cells = Cells::new();
    /// cells.put("H8".parse()?, Colour::Black);
    /// cells.put("H8".parse()?, Colour::White);
    /// assert_eq!(cells.stone("H8".parse()?), Some(Colour::White));
    /// # Ok::<(), renju::Refusal>(())
    /// ```
    pub fn put(&mut self, point: Point, colour: Colour) {
        // Sound cells, a point and a colour: never refused.
        done(
            raw::renju_put(&mut self.bytes, point.code(), colour.number()),
            0,
        );
    }

    /// Takes the stone off a point; at an empty one nothing changes.
    ///
    /// ```
    /// let mut cells: renju::Cells = "H8,I9".parse()?;
    /// cells.remove("I9".parse()?);
    /// assert_eq!(cells.stone("I9".parse()?), None);
    /// # Ok::<(), renju::Refusal>(())
    /// ```
    pub fn remove(&mut self, point: Point) {
        // Sound cells and a point: never refused.
        done(raw::renju_remove(&mut self.bytes, point.code()), 0);
    }

    /// The stone at a point, if there is one.
    ///
    /// ```
    /// use renju::{Cells, Colour};
    ///
    /// let cells: Cells = "H8,I9".parse()?;
    /// assert_eq!(cells.stone("I9".parse()?), Some(Colour::White));
    /// assert_eq!(cells.stone("J10".parse()?), None);
    /// # Ok::<(), renju::Refusal>(())
    /// ```
    #[must_use]
    pub fn stone(&self, point: Point) -> Option<Colour> {
        let byte = self.bytes.get(usize::from(point.code()))?;
        Colour::from_number(*byte).ok()
    }

    /// How many stones each side has, and how many points are empty: the
    /// caption of a picture.
    ///
    /// ```
    /// let mut cells: renju::Cells = "H8,I9,J10".parse()?;
    /// let counts = cells.counts();
    /// assert_eq!((counts.black, counts.white, counts.empty), (2, 1, 222));
    /// assert_eq!(counts.to_string(), "2 black, 1 white");
    ///
    /// // White in place of a black stone moves one from one count to the other.
    /// cells.put("H8".parse()?, renju::Colour::White);
    /// assert_eq!(cells.counts().to_string(), "1 black, 2 white");
    /// # Ok::<(), renju::Refusal>(())
    /// ```
    #[must_use]
    pub fn counts(&self) -> Counts {
        // Sound cells: never refused. Black's stones are the low byte.
        let word = given(raw::renju_counts(&self.bytes));
        let [white, black] = word.to_be_bytes();
        // The three together are 225, so nothing is cut off.
        let empty = (CELLS as u8).saturating_sub(black).saturating_sub(white);
        Counts {
            black,
            white,
            empty,
        }
    }

    /// The board in a view: at each turned point what stands at the point.
    ///
    /// ```
    /// use renju::{Cells, Colour, View};
    ///
    /// let cells: Cells = "C15,I9".parse()?;
    /// let turned = cells.turned(View::LeftRight);
    /// assert_eq!(turned.stone("M15".parse()?), Some(Colour::Black));
    /// # Ok::<(), renju::Refusal>(())
    /// ```
    #[must_use]
    pub fn turned(&self, view: View) -> Self {
        let mut cells = Self::new();
        // Sound cells, a view and room for all of them: never refused.
        let word = raw::renju_turn(&self.bytes, view.number(), &mut cells.bytes);
        done(word, CELLS);
        cells
    }

    /// The one of the eight turned boards that is least by its cell bytes, and the first view that gives
    /// it: the same board for a position in whatever view it comes, so that games can be looked up by it.
    ///
    /// ```
    /// use renju::{Cells, View};
    ///
    /// let cells: Cells = "C15,I9".parse()?;
    /// let (least, view) = cells.canonical();
    /// assert_eq!(cells.turned(view), least);
    /// for other in View::ALL {
    ///     assert!(cells.turned(other) >= least);
    ///     assert_eq!(cells.turned(other).canonical().0, least);
    /// }
    /// # Ok::<(), renju::Refusal>(())
    /// ```
    #[must_use]
    pub fn canonical(&self) -> (Self, View) {
        let mut cells = Self::new();
        // Sound cells and room for all of them: never refused.
        let view = given(raw::renju_canonical(&self.bytes, &mut cells.bytes));
        (cells, View::given(view))
    }
}

/// How many points are black, white and empty: 225 together.
#[derive(Clone, Copy, Debug, PartialEq, Eq, Hash)]
pub struct Counts {
    /// The points with a black stone.
    pub black: u8,
    /// The points with a white stone.
    pub white: u8,
    /// The points without a stone.
    pub empty: u8,
}

/// The stones of both sides: `2 black, 1 white`.
impl fmt::Display for Counts {
    fn fmt(&self, f: &mut fmt::Formatter<'_>) -> fmt::Result {
        pad(
            f,
            format_args!("{} black, {} white", self.black, self.white),
        )
    }
}

/// A text that was written. Its bytes are ASCII, so there is always one.
fn ascii(bytes: &[u8]) -> &str {
    debug_assert!(bytes.is_ascii(), "the archive wrote no text");
    core::str::from_utf8(bytes).unwrap_or_default()
}

impl Default for Cells {
    fn default() -> Self {
        Self::new()
    }
}

impl AsRef<[u8]> for Cells {
    fn as_ref(&self) -> &[u8] {
        &self.bytes
    }
}

impl TryFrom<&[u8]> for Cells {
    type Error = Refusal;

    fn try_from(bytes: &[u8]) -> Result<Self, Refusal> {
        Self::from_bytes(bytes)
    }
}

impl TryFrom<[u8; CELLS]> for Cells {
    type Error = Refusal;

    fn try_from(bytes: [u8; CELLS]) -> Result<Self, Refusal> {
        Self::from_bytes(&bytes)
    }
}

impl From<Cells> for [u8; CELLS] {
    fn from(cells: Cells) -> Self {
        cells.bytes
    }
}

/// As [`Cells::read`].
impl FromStr for Cells {
    type Err = Refusal;

    fn from_str(text: &str) -> Result<Self, Refusal> {
        Self::read(text.as_bytes())
    }
}

/// The plain diagram, 464 bytes, which [`Cells::from_diagram`] reads back as
/// the same board.
///
/// ```
/// use renju::Cells;
///
/// let cells: Cells = "H8,I9".parse()?;
/// assert_eq!(Cells::from_diagram(cells.to_string().as_bytes())?, cells);
/// # Ok::<(), renju::Refusal>(())
/// ```
impl fmt::Display for Cells {
    fn fmt(&self, f: &mut fmt::Formatter<'_>) -> fmt::Result {
        let mut out = [0; DIAGRAM];
        done(raw::renju_to_string(&self.bytes, &mut out), DIAGRAM);
        f.write_str(ascii(&out))
    }
}

impl fmt::Debug for Cells {
    fn fmt(&self, f: &mut fmt::Formatter<'_>) -> fmt::Result {
        write!(f, "Cells(\n{self}\n)")
    }
}

#[cfg(test)]
mod tests {
    use super::ascii;

    #[test]
    fn texts_are_ascii() {
        assert_eq!(ascii(b"H8,I9"), "H8,I9");
    }

    #[test]
    #[cfg_attr(debug_assertions, should_panic = "the archive wrote no text")]
    fn no_other_text_is_written() {
        assert_eq!(ascii(&[0xff]), "");
    }
}
