//! The eight kinds of rows.

use crate::Refusal;
use crate::named::numbered_and_named;

/// A kind of row, told by the stones in one or two neighbouring windows of
/// five cells (section 4 of document 01).
///
/// A window is dead where it has a stone of the other colour and, for Black,
/// where a black stone stands right beside it. The windows of a row are not
/// dead, but the last two kinds do not mind a black stone beside theirs. A row
/// on two windows starts where the second does.
///
/// # Examples
///
/// ```
/// use renju::{Cells, Colour, Kind};
///
/// // Three in a row with open ends: a Three from either window.
/// let cells: Cells = "G8,H8,I8/A1".parse()?;
/// assert_eq!(cells.rows(Colour::Black, Kind::Three).len(), 2);
/// # Ok::<(), renju::Refusal>(())
/// ```
#[derive(Clone, Copy, Debug, PartialEq, Eq, PartialOrd, Ord, Hash)]
#[repr(u8)]
pub enum Kind {
    /// Two windows with the same two stones: one more on an eye makes a Three.
    Two = 0,
    /// Two windows with the same three stones: one more on the eye makes a
    /// Straight.
    Three = 1,
    /// Two windows with the same four stones: either open end makes a five.
    Straight = 2,
    /// Three stones in a window: one more makes a Four.
    Sword = 3,
    /// Four stones in a window: the eye makes a five. Two Fours can share
    /// their eye: to count fours, count eyes.
    Four = 4,
    /// Five stones in a window; Black's are no part of six.
    Five = 5,
    /// Two windows of four stones each: five stones and a cell among them that
    /// makes six or more, or, as in a straight four, the same four in both.
    Overlining = 6,
    /// Two windows of five stones each: six in a row, or six of more.
    Overlined = 7,
}

impl Kind {
    /// All eight, by number.
    ///
    /// ```
    /// assert_eq!(renju::Kind::ALL.map(|kind| kind.number()), [0, 1, 2, 3, 4, 5, 6, 7]);
    /// ```
    pub const ALL: [Self; 8] = [
        Self::Two,
        Self::Three,
        Self::Straight,
        Self::Sword,
        Self::Four,
        Self::Five,
        Self::Overlining,
        Self::Overlined,
    ];

    /// The kind's number, 0 to 7.
    ///
    /// ```
    /// assert_eq!(renju::Kind::Four.number(), 4);
    /// ```
    #[must_use]
    pub const fn number(self) -> u8 {
        self as u8
    }

    /// The kind of a number.
    ///
    /// # Errors
    ///
    /// Refusal 12 for one over 7.
    ///
    /// ```
    /// use renju::{Kind, Refusal};
    ///
    /// assert_eq!(Kind::from_number(3), Ok(Kind::Sword));
    /// assert_eq!(Kind::from_number(8), Err(Refusal::Number));
    /// ```
    pub const fn from_number(number: u8) -> Result<Self, Refusal> {
        Ok(match number {
            0 => Self::Two,
            1 => Self::Three,
            2 => Self::Straight,
            3 => Self::Sword,
            4 => Self::Four,
            5 => Self::Five,
            6 => Self::Overlining,
            7 => Self::Overlined,
            _ => return Err(Refusal::Number),
        })
    }

    /// Its name, as it stands here.
    ///
    /// ```
    /// use renju::Kind;
    ///
    /// assert_eq!(Kind::Overlining.name(), "Overlining");
    /// assert_eq!("four".parse(), Ok(Kind::Four));
    /// ```
    #[must_use]
    pub const fn name(self) -> &'static str {
        match self {
            Self::Two => "Two",
            Self::Three => "Three",
            Self::Straight => "Straight",
            Self::Sword => "Sword",
            Self::Four => "Four",
            Self::Five => "Five",
            Self::Overlining => "Overlining",
            Self::Overlined => "Overlined",
        }
    }
}

numbered_and_named!(Kind);
