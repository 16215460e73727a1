//! Games to and from SGF, the text in which clubs exchange them.
//!
//! A game is written as `(;GM[4]SZ[15]`, then `;B[hh]` for Black's first move, `;W[..]` for White's
//! and so on in turn, then `)`. The two letters, a to o, are the column and the row counted from the
//! top: A1 is `ao`, O15 is `oa`. What is written is read, and so is the same text with white space
//! (bytes 9 to 13 and 32) around its tokens: `(`, `)`, `;`, a property's name such as `GM`, and a value
//! with its brackets such as `[hh]`. Everything else is refused 20: other properties, another order,
//! variations, several games. The referee is not asked: a text may repeat a point.

use crate::list::front;
use crate::raw::{renju_from_sgf, renju_to_sgf};
use crate::refusal::{answer, given};
use crate::{List, MOVES, Moves, Refusal, SGF};

/// The bytes of a game's SGF text, all below 128.
///
/// ```
/// use renju::{Moves, sgf};
///
/// let text: sgf::Text = sgf::write(&Moves::from_codes(&[])?);
/// assert_eq!(&text[..], b"(;GM[4]SZ[15])");
/// # Ok::<(), renju::Refusal>(())
/// ```
pub type Text = List<u8, SGF>;

/// The SGF text of a game, which reads back as the same game.
///
/// ```
/// use renju::{Moves, sgf};
///
/// let text = sgf::write(&Moves::from_codes(&[112, 128])?);
/// assert_eq!(&text[..], b"(;GM[4]SZ[15];B[hh];W[ig])");
/// # Ok::<(), renju::Refusal>(())
/// ```
#[must_use]
pub fn write(game: &Moves) -> Text {
    let mut bytes = [0; SGF];
    // At most 225 moves, each a point, and room for all: never refused.
    let length = given(renju_to_sgf(game.as_codes(), &mut bytes));
    Text::gather(0, length, bytes.into_iter())
}

/// The game that an SGF text says.
///
/// # Errors
///
/// Refusals 1 and 2 are for bytes that can be no text, 20 for a text outside the subset, 14 for more
/// than 225 moves.
///
/// ```
/// use renju::{Refusal, sgf};
///
/// let game = sgf::read(b" ( ; GM[4] SZ[15]\n; B [hh] ; W[ig] )\n")?;
/// assert_eq!(game.as_codes(), [112, 128]);
/// assert_eq!(sgf::read(b"(;GM[4]SZ[15];B[ h h])"), Err(Refusal::OutsideSubset));
/// assert_eq!(sgf::read(b"(;GM[4]SZ[15];W[hh])"), Err(Refusal::OutsideSubset));
/// # Ok::<(), Refusal>(())
/// ```
pub fn read(text: &[u8]) -> Result<Moves, Refusal> {
    let mut codes = [0; MOVES];
    let count = answer(renju_from_sgf(text, &mut codes))?;
    Moves::from_codes(front(&codes, count))
}
