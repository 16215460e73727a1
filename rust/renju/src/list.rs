//! Lists of fixed room, by value.

use crate::{CELLS, Cross, Point, ROWS, ROWS_ON, Row};
use core::array;
use core::cmp::Ordering;
use core::fmt;
use core::hash::{Hash, Hasher};
use core::iter::Take;
use core::ops::Deref;

/// At most `N` items, on the stack: what a question about a board gives back.
///
/// It is read as a slice.
///
/// # Examples
///
/// ```
/// use renju::{Cells, Colour, Points};
///
/// let cells: Cells = "H8,I9,J10".parse()?;
/// let blacks: Points = cells.stones(Colour::Black);
/// assert_eq!(blacks.len(), 2);
/// assert!(blacks.contains(&"J10".parse()?));
/// for point in &blacks {
///     assert_eq!(cells.stone(*point), Some(Colour::Black));
/// }
/// # Ok::<(), renju::Refusal>(())
/// ```
#[derive(Clone)]
pub struct List<T, const N: usize> {
    // Those from `len` on are there only to fill the room.
    items: [T; N],
    len: usize,
}

/// Points: stones, empty points, neighbours or eyes.
///
/// ```
/// let points: renju::Points = renju::Cells::new().empty_points();
/// assert_eq!(points.len(), 225);
/// ```
pub type Points = List<Point, CELLS>;

/// The points forbidden to Black, by code.
///
/// ```
/// let crosses: renju::Crosses = renju::Cells::new().forbidden_points();
/// assert!(crosses.is_empty());
/// ```
pub type Crosses = List<Cross, CELLS>;

/// Rows of a whole board.
///
/// ```
/// use renju::{Cells, Colour, Kind, Rows};
///
/// let rows: Rows = Cells::new().rows(Colour::Black, Kind::Two);
/// assert!(rows.is_empty());
/// ```
pub type Rows = List<Row, ROWS>;

/// Rows through one point.
///
/// ```
/// use renju::{Cells, Colour, Kind, RowsOn};
///
/// let rows: RowsOn = Cells::new().rows_on("H8".parse()?, Colour::Black, Kind::Two);
/// assert!(rows.is_empty());
/// # Ok::<(), renju::Refusal>(())
/// ```
pub type RowsOn = List<Row, ROWS_ON>;

/// The first `count` of a buffer's items. There are as many, by the archive's contracts or by what was
/// counted here: that is looked at in debug builds, and in others there would be none.
pub(crate) fn front<T>(items: &[T], count: impl Into<usize>) -> &[T] {
    let part = items.get(..count.into());
    debug_assert!(part.is_some(), "more items than there is room for");
    part.unwrap_or_default()
}

impl<T: Copy, const N: usize> List<T, N> {
    /// The first `count` items, as far as there is room.
    pub(crate) fn gather(filler: T, count: u16, items: impl Iterator<Item = T>) -> Self {
        // The longest answer of a question is no longer than its list's room.
        debug_assert!(usize::from(count) <= N, "the archive gave {count} items");
        let len = usize::from(count).min(N);
        let mut list = Self {
            items: [filler; N],
            len,
        };
        for (place, item) in list.items.iter_mut().zip(items.take(len)) {
            *place = item;
        }
        list
    }
}

impl<T, const N: usize> List<T, N> {
    /// The items, as a slice.
    ///
    /// ```
    /// use renju::{Cells, Colour};
    ///
    /// let cells: Cells = "H8,I9".parse()?;
    /// assert_eq!(cells.stones(Colour::White).as_slice(), ["I9".parse()?]);
    /// # Ok::<(), renju::Refusal>(())
    /// ```
    pub fn as_slice(&self) -> &[T] {
        front(&self.items, self.len)
    }
}

impl<T, const N: usize> Deref for List<T, N> {
    type Target = [T];

    fn deref(&self) -> &[T] {
        self.as_slice()
    }
}

impl<T, const N: usize> AsRef<[T]> for List<T, N> {
    fn as_ref(&self) -> &[T] {
        self.as_slice()
    }
}

impl<T, const N: usize> IntoIterator for List<T, N> {
    type Item = T;
    type IntoIter = Take<array::IntoIter<T, N>>;

    fn into_iter(self) -> Self::IntoIter {
        self.items.into_iter().take(self.len)
    }
}

impl<'a, T, const N: usize> IntoIterator for &'a List<T, N> {
    type Item = &'a T;
    type IntoIter = core::slice::Iter<'a, T>;

    fn into_iter(self) -> Self::IntoIter {
        self.iter()
    }
}

impl<T: PartialEq, const N: usize> PartialEq for List<T, N> {
    fn eq(&self, other: &Self) -> bool {
        self.as_slice() == other.as_slice()
    }
}

impl<T: Eq, const N: usize> Eq for List<T, N> {}

/// As slices are: by the first item that differs, else the shorter first.
impl<T: PartialOrd, const N: usize> PartialOrd for List<T, N> {
    fn partial_cmp(&self, other: &Self) -> Option<Ordering> {
        self.as_slice().partial_cmp(other.as_slice())
    }
}

impl<T: Ord, const N: usize> Ord for List<T, N> {
    fn cmp(&self, other: &Self) -> Ordering {
        self.as_slice().cmp(other.as_slice())
    }
}

impl<T: Hash, const N: usize> Hash for List<T, N> {
    fn hash<H: Hasher>(&self, state: &mut H) {
        self.as_slice().hash(state);
    }
}

impl<T: fmt::Debug, const N: usize> fmt::Debug for List<T, N> {
    fn fmt(&self, f: &mut fmt::Formatter<'_>) -> fmt::Result {
        f.debug_list().entries(self).finish()
    }
}

#[cfg(test)]
mod tests {
    use super::{List, front};
    use core::hash::{BuildHasher, BuildHasherDefault};
    use std::hash::DefaultHasher;

    fn list(filler: u8, items: &[u8]) -> List<u8, 4> {
        List::gather(filler, items.len() as u16, items.iter().copied())
    }

    #[test]
    fn the_front_of_a_buffer() {
        assert_eq!(front(&[1, 2, 3], 2u8), [1, 2]);
        assert_eq!(front(&[1, 2, 3], 3u16), [1, 2, 3]);
        assert_eq!(front(&[1, 2, 3], 0u16), []);
    }

    #[test]
    #[cfg_attr(debug_assertions, should_panic = "more items than there is room for")]
    fn no_front_is_longer() {
        assert_eq!(front(&[1, 2, 3], 4u8), []);
    }

    #[test]
    #[cfg_attr(debug_assertions, should_panic = "the archive gave 5 items")]
    fn no_list_is_longer_than_its_room() {
        assert_eq!(list(0, &[1, 2, 3, 4, 5]).as_slice(), [1, 2, 3, 4]);
    }

    /// What only fills the room is no part of a list.
    #[test]
    fn fillers_are_not_looked_at() {
        let hasher = BuildHasherDefault::<DefaultHasher>::default();
        let (one, same, other) = (list(0, &[1, 2]), list(9, &[1, 2]), list(0, &[1, 2, 0]));
        assert_eq!(one, same);
        assert_eq!(hasher.hash_one(&one), hasher.hash_one(&same));
        assert_ne!(one, other);
        assert_ne!(hasher.hash_one(&one), hasher.hash_one(&other));
        assert_ne!(hasher.hash_one(&one), hasher.hash_one(list(0, &[1, 3])));
        assert!(one < other && other < list(0, &[1, 3]) && list(9, &[]) < one);
    }
}
