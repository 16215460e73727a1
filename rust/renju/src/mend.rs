//! Hand-typed move lists mended.

use crate::list::front;
use crate::named::numbered_and_named;
use crate::raw::renju_mend;
use crate::refusal::answer;
use crate::{MENDED, Point, Points, Refusal};
use core::fmt;

/// What is kept of a hand-typed move list, and the first item that slips.
///
/// Of the kept moves no point comes twice, and mended again all of them stay.
///
/// # Examples
///
/// ```
/// use renju::{Slip, mend};
///
/// let mended = mend(b"h8, i9,H08,J10")?;
/// assert_eq!(mended.kept[..], ["H8".parse()?, "I9".parse()?]);
/// assert_eq!(mended.slip, Some((3, Slip::Repeat)));
/// assert_eq!(mended.to_string(), "H8,I9\n3 1");
/// # Ok::<(), renju::Refusal>(())
/// ```
#[derive(Clone, Debug, PartialEq, Eq, Hash)]
pub struct Mended {
    /// The leading moves, in the order of play.
    pub kept: Points,
    /// The number, from 1, of the first item that slips, and why it does.
    pub slip: Option<(usize, Slip)>,
}

/// Why an item of a list slips.
#[derive(Clone, Copy, Debug, PartialEq, Eq, PartialOrd, Ord, Hash)]
#[repr(u8)]
pub enum Slip {
    /// 1: it names a point that is kept already.
    Repeat = 1,
    /// 3: its letter is not A to O.
    XPart = 3,
    /// 4: behind its letter there is not just a number 1 to 15 of one or two
    /// digits.
    YPart = 4,
}

impl Slip {
    /// All three, by number.
    ///
    /// ```
    /// assert_eq!(renju::Slip::ALL.map(renju::Slip::number), [1, 3, 4]);
    /// ```
    pub const ALL: [Self; 3] = [Self::Repeat, Self::XPart, Self::YPart];

    /// Its number: that of the point's refusal, and 1 for a repeat.
    ///
    /// ```
    /// assert_eq!(renju::Slip::YPart.number(), 4);
    /// ```
    #[must_use]
    pub const fn number(self) -> u8 {
        self as u8
    }

    /// The slip of a number.
    ///
    /// # Errors
    ///
    /// Refusal 12 for any other than 1, 3 and 4.
    ///
    /// ```
    /// use renju::{Refusal, Slip};
    ///
    /// assert_eq!(Slip::from_number(3), Ok(Slip::XPart));
    /// assert_eq!(Slip::from_number(2), Err(Refusal::Number));
    /// ```
    pub const fn from_number(number: u8) -> Result<Self, Refusal> {
        Ok(match number {
            1 => Self::Repeat,
            3 => Self::XPart,
            4 => Self::YPart,
            _ => return Err(Refusal::Number),
        })
    }

    /// Its name, as it stands here.
    ///
    /// ```
    /// assert_eq!(renju::Slip::Repeat.name(), "Repeat");
    /// ```
    #[must_use]
    pub const fn name(self) -> &'static str {
        match self {
            Self::Repeat => "Repeat",
            Self::XPart => "XPart",
            Self::YPart => "YPart",
        }
    }
}

numbered_and_named!(Slip);

/// A hand-typed comma list of moves mended: the leading moves up to the first
/// item that does not read as a point or names a point that is kept already.
///
/// The whole text is the list; an empty one is one item, which slips.
///
/// # Errors
///
/// Refusals 1 and 2.
///
/// ```
/// use renju::{Refusal, Slip, mend};
///
/// assert_eq!(mend(b"H8,I9")?.slip, None);
/// assert_eq!(mend(b"H8,I99")?.slip, Some((2, Slip::YPart)));
/// assert_eq!(mend(b"")?.slip, Some((1, Slip::XPart)));
/// assert_eq!(mend(&[b' '; 4097]), Err(Refusal::TextLength));
/// # Ok::<(), Refusal>(())
/// ```
pub fn mend(text: &[u8]) -> Result<Mended, Refusal> {
    let mut out = [0; MENDED];
    let length = answer(renju_mend(text, &mut out))?;
    // Two lines of points, commas and digits, by contract.
    let mut lines = front(&out, length).split(|&byte| byte == b'\n');
    let (first, second) = (lines.next(), lines.next());
    debug_assert!(second.is_some(), "the archive wrote no second line");
    let kept = first.unwrap_or_default().split(|&byte| byte == b',');
    let kept = kept.filter_map(point);
    let kept = Points::gather(Point::given(0), kept.clone().count() as u16, kept);
    let mut numbers = second.unwrap_or_default().split(|&byte| byte == b' ');
    let item = numbers.next().map_or(0, number);
    let reason = numbers.next().map_or(0, number);
    let slip = Slip::ALL
        .into_iter()
        .find(|slip| usize::from(slip.number()) == reason);
    Ok(Mended {
        kept,
        slip: slip.map(|slip| (item, slip)),
    })
}

/// The point of a name that the archive wrote: a letter A to O and a row.
fn point(name: &[u8]) -> Option<Point> {
    let (letter, row) = name.split_first()?;
    let (x, y) = (letter.wrapping_sub(b'A'), number(row).wrapping_sub(1));
    Point::new(x, u8::try_from(y).ok()?).ok()
}

/// The number of digits that the archive wrote.
fn number(digits: &[u8]) -> usize {
    let value = |digit: &u8| usize::from(digit.wrapping_sub(b'0'));
    digits.iter().fold(0, |n, digit| 10 * n + value(digit))
}

/// The kept moves on the first line, the slip's number and reason on the
/// second, `0 0` for none; no line's end behind it.
impl fmt::Display for Mended {
    fn fmt(&self, f: &mut fmt::Formatter<'_>) -> fmt::Result {
        for (place, point) in self.kept.iter().enumerate() {
            let comma = if place == 0 { "" } else { "," };
            write!(f, "{comma}{point}")?;
        }
        let (item, reason) = self
            .slip
            .map_or((0, 0), |(item, slip)| (item, slip.number()));
        write!(f, "\n{item} {reason}")
    }
}

#[cfg(test)]
mod tests {
    use super::{number, point};
    use crate::Point;

    #[test]
    fn names_as_they_are_written() {
        for each in Point::all() {
            let name = std::format!("{each}");
            assert_eq!(point(name.as_bytes()), Some(each));
        }
        for name in ["", "H", "H0", "H16", "P1", "H256", "H257"] {
            assert_eq!(point(name.as_bytes()), None, "{name}");
        }
        assert_eq!((number(b""), number(b"0"), number(b"4096")), (0, 0, 4096));
    }
}
