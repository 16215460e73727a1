//! Stored games.

use crate::raw::{renju_from_tagged, renju_tagged_view, renju_to_tagged};
use crate::refusal::{answer, given};
use crate::{List, MOVES, Moves, RECORD, Refusal, View};

/// A stored game: the game, and the view that it is shown in.
///
/// Its bytes are two fields, each a tag, a length in two bytes, high byte
/// first, and a value: tag 1 the view, one byte, 0 to 7; then tag 2 the moves,
/// a point's code each; nothing after. In the old form a game is the codes
/// alone, which [`Moves::from_codes`] reads.
///
/// # Examples
///
/// ```
/// use renju::{Moves, Record, Refusal, View};
///
/// let record = Record::new(View::LeftRight, Moves::from_codes(&[112, 128])?);
/// let bytes = record.to_bytes();
/// assert_eq!(bytes[..], [1, 0, 1, 4, 2, 0, 2, 112, 128]);
/// assert_eq!(Record::try_from(&bytes[..]), Ok(record));
/// assert_eq!(Record::try_from(&bytes[..8]), Err(Refusal::Malformed));
///
/// // The referee's report of a stored game.
/// let report = Record::try_from(&bytes[..])?.moves().report();
/// assert_eq!(report.to_string(), "no fault, nobody has won");
/// # Ok::<(), Refusal>(())
/// ```
#[derive(Clone, Copy, Debug, PartialEq, Eq, PartialOrd, Ord, Hash)]
pub struct Record {
    view: View,
    game: Moves,
}

/// The bytes of a record.
///
/// ```
/// use renju::{Moves, Record, RecordBytes, View};
///
/// let bytes: RecordBytes = Record::new(View::Same, Moves::from_codes(&[])?).to_bytes();
/// assert_eq!(bytes[..], [1, 0, 1, 0, 2, 0, 0]);
/// # Ok::<(), renju::Refusal>(())
/// ```
pub type RecordBytes = List<u8, RECORD>;

/// How many bytes of a record stand before its moves.
const FRONT: usize = 7;

impl Record {
    /// The record of a game in a view. A game of the old form is in view 0,
    /// [`View::Same`].
    ///
    /// ```
    /// use renju::{Moves, Record, View};
    ///
    /// let record = Record::new(View::Same, Moves::from_codes(&[112])?);
    /// assert_eq!(record.to_codes()?[..], [112]);
    /// # Ok::<(), renju::Refusal>(())
    /// ```
    #[must_use]
    pub const fn new(view: View, game: Moves) -> Self {
        Self { view, game }
    }

    /// The view that the game is shown in.
    ///
    /// ```
    /// use renju::{Moves, Record, View};
    ///
    /// let record = Record::new(View::HalfTurn, Moves::from_codes(&[])?);
    /// assert_eq!(record.view(), View::HalfTurn);
    /// # Ok::<(), renju::Refusal>(())
    /// ```
    #[must_use]
    pub const fn view(&self) -> View {
        self.view
    }

    /// The game, its moves as they are stored.
    ///
    /// ```
    /// use renju::Record;
    ///
    /// let record = Record::try_from(&[1, 0, 1, 7, 2, 0, 2, 112, 128][..])?;
    /// assert!(record.moves().points().eq(["H8".parse()?, "I9".parse()?]));
    /// # Ok::<(), renju::Refusal>(())
    /// ```
    #[must_use]
    pub const fn moves(&self) -> &Moves {
        &self.game
    }

    /// The bytes of the record, which read back as the same record.
    ///
    /// ```
    /// use renju::{Moves, Record, View};
    ///
    /// let record = Record::new(View::Same, Moves::from_codes(&[112])?);
    /// assert_eq!(record.to_bytes()[..], [1, 0, 1, 0, 2, 0, 1, 112]);
    /// # Ok::<(), renju::Refusal>(())
    /// ```
    #[must_use]
    pub fn to_bytes(&self) -> RecordBytes {
        let (codes, view) = (self.game.as_codes(), self.view.number());
        let mut bytes = [0; RECORD];
        // At most 225 moves, each a point, a view and room for all: never refused.
        let length = given(renju_to_tagged(codes, view, &mut bytes));
        RecordBytes::gather(0, length, bytes.into_iter())
    }

    /// The game in the old form, a point's code for each move.
    ///
    /// # Errors
    ///
    /// Refusal 16 in another view than 0, which the old form cannot say.
    ///
    /// ```
    /// use renju::{Moves, Record, Refusal, View};
    ///
    /// let game = Moves::from_codes(&[112])?;
    /// assert_eq!(Record::new(View::Same, game).to_codes()?[..], [112]);
    /// assert_eq!(Record::new(View::HalfTurn, game).to_codes(), Err(Refusal::TurnedView));
    /// # Ok::<(), Refusal>(())
    /// ```
    pub fn to_codes(&self) -> Result<List<u8, MOVES>, Refusal> {
        let mut codes = [0; MOVES];
        let count = answer(renju_from_tagged(&self.to_bytes(), &mut codes))?;
        Ok(List::gather(0, count, codes.into_iter()))
    }
}

/// Any bytes may be handed in. Refusals 15, 14, 8.
///
/// ```
/// use renju::{Record, Refusal};
///
/// let bytes = [1, 0, 1, 7, 2, 0, 1, 112];
/// assert_eq!(Record::try_from(&bytes[..])?.view().number(), 7);
/// assert_eq!(Record::try_from(&[112][..]), Err(Refusal::Malformed));
/// # Ok::<(), Refusal>(())
/// ```
impl TryFrom<&[u8]> for Record {
    type Error = Refusal;

    // A record that is not refused is `1 0 1 view 2 high low` and its moves: that it is the one
    // that its view and moves are written as is proved (`read-written` in `crates/stored`). So the
    // moves are what stands behind its front, in any view.
    fn try_from(bytes: &[u8]) -> Result<Self, Refusal> {
        let view = View::given(answer(renju_tagged_view(bytes))?);
        let game = Moves::from_codes(bytes.get(FRONT..).unwrap_or_default())?;
        Ok(Self { view, game })
    }
}
