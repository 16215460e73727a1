//! The refusals, and the word that carries one or an answer.

use crate::named::pad;
use core::error::Error;
use core::fmt;

/// Writes the refusals and what reads them from one list: name, number, meaning.
macro_rules! refusals {
    ($count:literal: $($(#[$doc:meta])* $name:ident = $number:literal, $meaning:literal;)*) => {
        /// Why a question was refused: the numbers of section 2 of document 01, and
        /// from 14 on those of document 02.
        ///
        /// # Examples
        ///
        /// ```
        /// use renju::{Cells, Refusal};
        ///
        /// // A point's row is a number 1 to 15 of one or two digits.
        /// let refused = "H8,H16".parse::<Cells>().unwrap_err();
        /// assert_eq!(refused, Refusal::YPart);
        /// assert_eq!(refused.number(), 4);
        /// assert_eq!(
        ///     refused.to_string(),
        ///     "refused 4: behind a point's letter there is not just a number 1 to 15 of one or two digits"
        /// );
        /// ```
        #[derive(Clone, Copy, Debug, PartialEq, Eq, PartialOrd, Ord, Hash)]
        #[non_exhaustive]
        pub enum Refusal {
            $($(#[$doc])* $name,)*
            /// A number that this crate has no name for: it stays that number.
            /// [`Refusal::from_number`] makes it, and never of a number that has a
            /// name.
            #[non_exhaustive]
            Unknown {
                /// Its number.
                number: u16,
            },
        }

        impl Refusal {
            /// All that have a name, by number.
            ///
            /// ```
            /// use renju::Refusal;
            ///
            /// assert_eq!(Refusal::ALL.len(), 22);
            /// assert_eq!(Refusal::ALL[0].number(), 1);
            /// ```
            pub const ALL: [Self; $count] = [$(Self::$name),*];

            /// The documents' number.
            ///
            /// ```
            /// assert_eq!(renju::Refusal::Occupied.number(), 11);
            /// ```
            #[must_use]
            pub const fn number(self) -> u16 {
                match self {
                    $(Self::$name => $number,)*
                    Self::Unknown { number } => number,
                }
            }

            /// The refusal of a number; none for 0 alone, which is no refusal.
            ///
            /// ```
            /// use renju::Refusal;
            ///
            /// assert_eq!(Refusal::from_number(11), Some(Refusal::Occupied));
            /// assert_eq!(Refusal::from_number(0), None);
            /// // A later version's, say: it stays that number.
            /// assert_eq!(Refusal::from_number(99).map(Refusal::number), Some(99));
            /// ```
            #[must_use]
            pub const fn from_number(number: u16) -> Option<Self> {
                Some(match number {
                    0 => return None,
                    $($number => Self::$name,)*
                    _ => Self::Unknown { number },
                })
            }

            /// What the number means, in words.
            ///
            /// ```
            /// assert_eq!(renju::Refusal::Occupied.meaning(), "the point is occupied");
            /// ```
            #[must_use]
            pub const fn meaning(self) -> &'static str {
                match self {
                    $(Self::$name => $meaning,)*
                    Self::Unknown { .. } => "a refusal that this version does not know",
                }
            }
        }
    };
}

refusals! {
    22:
    /// 1: a text of over 4,096 bytes.
    TextLength = 1, "the text has over 4,096 bytes";
    /// 2: a text byte of 128 or more.
    TextByte = 2, "the text has a byte of 128 or more";
    /// 3: "Failed to parse x part.": a point's letter is not A to O; or a
    /// second slash in a text of stones.
    XPart = 3, "a point's letter is not A to O, or there is a second slash";
    /// 4: "Failed to parse y part.": behind a point's letter there is not just
    /// a number 1 to 15 of one or two digits.
    YPart = 4, "behind a point's letter there is not just a number 1 to 15 of one or two digits";
    /// 5: "Wrong length.": a diagram line of over 15 cells. This and the next two
    /// are for saved diagrams alone.
    LineLength = 5, "wrong length: a diagram line has over 15 cells";
    /// 6: "Wrong num of lines".
    LineCount = 6, "wrong number of lines: a diagram has 15";
    /// 7: "Wrong line size".
    LineSize = 7, "wrong line size: a diagram line has under 15 cells";
    /// 8: a point's code over 224, or a coordinate over 14.
    Point = 8, "no such point: its code is over 224 or a coordinate over 14";
    /// 9: cell bytes of another length than 225 or with one over 2; a line
    /// with a stone past its end or a cell of both colours.
    Unsound = 9, "unsound: not 225 cell bytes of 0 to 2, or a line with a stone past its end or two on a cell";
    /// 10: a line alone of a size outside 5 to 15, or a cell not on it.
    Place = 10, "no such place: the line's size is not 5 to 15, or the cell not on it";
    /// 11: the plain verdict at an occupied point.
    Occupied = 11, "the point is occupied";
    /// 12: a view over 7, a distance over 14, a colour other than 1 and 2, a
    /// row kind over 7. Of this crate's types also any other number or name that
    /// is none of theirs.
    Number = 12, "no view, distance, colour, row kind, verdict or reason has this number or name";
    /// 13: a lent output that is shorter than the whole answer.
    Output = 13, "the lent output is too short";
    /// 14: a game of more than 225 moves.
    ManyMoves = 14, "the game has more than 225 moves";
    /// 15: a malformed record; a view over 7 in it, or a length that disagrees
    /// with the bytes.
    Malformed = 15, "the record is malformed";
    /// 16: a record in another view than 0, taken back to the old form.
    TurnedView = 16, "the record is in another view than 0";
    /// 17: a move of a foreign game; a takeback where no game number is left.
    ForeignGame = 17, "the move is of another game, or no game number is left";
    /// 18: a move whose number is not next; the message of a move that there
    /// is not.
    NotNext = 18, "the move's number is not next, or there is no such move";
    /// 19: two lists of which neither begins the other.
    ApartLists = 19, "neither list begins the other";
    /// 20: an SGF text outside the subset that is read.
    OutsideSubset = 20, "the SGF text is outside the subset that is read";
    /// 21: a limit of attacks outside 1 to 6.
    Limit = 21, "the limit of attacks is not 1 to 6";
    /// 22: a side without stones, which stones text can't say.
    OneSided = 22, "a side has no stones, which stones text can't say";
}

/// The number, then the meaning.
///
/// ```
/// assert_eq!(renju::Refusal::Occupied.to_string(), "refused 11: the point is occupied");
/// ```
impl fmt::Display for Refusal {
    fn fmt(&self, f: &mut fmt::Formatter<'_>) -> fmt::Result {
        let (number, meaning) = (self.number(), self.meaning());
        pad(f, format_args!("refused {number}: {meaning}"))
    }
}

impl Error for Refusal {}

impl From<Refusal> for u16 {
    fn from(refusal: Refusal) -> Self {
        refusal.number()
    }
}

/// The answer in a word of the host interface, or the refusal.
///
/// # Errors
///
/// The refusal in the word's high half, if there is one.
///
/// # Examples
///
/// ```
/// use renju::{Refusal, raw};
///
/// assert_eq!(raw::answer(raw::renju_turn_point(0, 1)), Ok(14));
/// assert_eq!(raw::answer(raw::renju_turn_point(0, 8)), Err(Refusal::Number));
/// ```
pub const fn answer(word: u32) -> Result<u16, Refusal> {
    // Both halves of a u32 are a u16.
    match Refusal::from_number((word >> 16) as u16) {
        None => Ok(word as u16),
        Some(refusal) => Err(refusal),
    }
}

/// The answer in a word that is no refusal.
///
/// The caller has handed over sound cells, numbers in range and room for any
/// answer, and the contracts of `crates/renju` leave no refusal for these: one
/// is told in debug builds, as a panic, and is 0 in others.
#[must_use]
#[track_caller]
pub(crate) fn given(word: u32) -> u16 {
    match answer(word) {
        Ok(answer) => answer,
        Err(refusal) => {
            debug_assert!(false, "the archive refused what it can't refuse: {refusal}");
            0
        }
    }
}

/// Takes a word whose answer says nothing that is not known: no refusal, and
/// this one number, which is looked at in debug builds.
#[track_caller]
pub(crate) fn done(word: u32, known: usize) {
    let answer = given(word);
    debug_assert_eq!(usize::from(answer), known, "the archive's answer");
}

#[cfg(test)]
mod tests {
    use super::{Refusal, done, given};

    #[test]
    fn an_answer_is_given() {
        assert_eq!(given(0), 0);
        assert_eq!(given(0xffff), 0xffff);
        done(225, 225);
    }

    #[test]
    #[cfg_attr(
        debug_assertions,
        should_panic = "the archive refused what it can't refuse: refused 9: "
    )]
    fn a_refusal_that_cannot_be_is_told() {
        assert_eq!(given(9 << 16 | 7), 0);
    }

    #[test]
    #[cfg_attr(debug_assertions, should_panic = "the archive's answer")]
    fn another_answer_is_told() {
        done(224, 225);
    }

    #[test]
    #[cfg_attr(debug_assertions, should_panic = "the archive refused")]
    fn a_refusal_is_not_done() {
        done(13 << 16, 0);
    }

    #[test]
    fn every_number_but_0_is_a_refusal_of_that_number() {
        assert_eq!(Refusal::from_number(0), None);
        for number in 1..=u16::MAX {
            let refusal = Refusal::from_number(number).expect("a refusal");
            assert_eq!(refusal.number(), number);
            let unknown = matches!(refusal, Refusal::Unknown { .. });
            assert_eq!(unknown, number > 22, "{number}");
        }
    }
}
