//! The two colours of stones.

use crate::Refusal;
use crate::named::numbered_and_named;
use core::ops::Not;

/// The colour of a stone, and the player who has it.
///
/// # Examples
///
/// ```
/// use renju::Colour;
///
/// assert_eq!(Colour::Black.to_string(), "Black");
/// assert_eq!("black".parse(), Ok(Colour::Black));
/// assert_eq!(!Colour::Black, Colour::White);
/// assert_eq!(u8::from(Colour::White), 2);
/// ```
#[derive(Clone, Copy, Debug, PartialEq, Eq, PartialOrd, Ord, Hash)]
#[repr(u8)]
pub enum Colour {
    /// Black moves first, and has the forbidden points.
    Black = 1,
    /// White has none.
    White = 2,
}

impl Colour {
    /// Both, by number.
    ///
    /// ```
    /// use renju::{Cells, Colour};
    ///
    /// let cells: Cells = "H8,I9,J10".parse()?;
    /// let counts = Colour::ALL.map(|colour| cells.stones(colour).len());
    /// assert_eq!(counts, [2, 1]);
    /// # Ok::<(), renju::Refusal>(())
    /// ```
    pub const ALL: [Self; 2] = [Self::Black, Self::White];

    /// The colour's number, which is its cell byte: 1 Black, 2 White.
    ///
    /// ```
    /// assert_eq!(renju::Colour::White.number(), 2);
    /// ```
    #[must_use]
    pub const fn number(self) -> u8 {
        self as u8
    }

    /// The colour of a number.
    ///
    /// # Errors
    ///
    /// Refusal 12 for any other than 1 and 2.
    ///
    /// ```
    /// use renju::{Colour, Refusal};
    ///
    /// assert_eq!(Colour::from_number(1), Ok(Colour::Black));
    /// assert_eq!(Colour::from_number(0), Err(Refusal::Number));
    /// ```
    pub const fn from_number(number: u8) -> Result<Self, Refusal> {
        match number {
            1 => Ok(Self::Black),
            2 => Ok(Self::White),
            _ => Err(Refusal::Number),
        }
    }

    /// `Black` or `White`.
    ///
    /// ```
    /// assert_eq!(renju::Colour::White.name(), "White");
    /// ```
    #[must_use]
    pub const fn name(self) -> &'static str {
        match self {
            Self::Black => "Black",
            Self::White => "White",
        }
    }

    /// The other colour, which `!` gives too.
    ///
    /// ```
    /// use renju::Colour;
    ///
    /// assert_eq!(Colour::Black.opponent(), Colour::White);
    /// assert_eq!(!Colour::White, Colour::Black);
    /// ```
    #[must_use]
    pub const fn opponent(self) -> Self {
        match self {
            Self::Black => Self::White,
            Self::White => Self::Black,
        }
    }
}

numbered_and_named!(Colour);

/// The other colour.
impl Not for Colour {
    type Output = Self;

    fn not(self) -> Self {
        self.opponent()
    }
}
