//! The functions of the host interface as they are, over slices: one `u32` each, the refusal in the
//! high half (0: none), the answer in the low.
//!
//! They are for callers that keep their own buffers. Any bytes and numbers may be handed to them. A
//! refusal leaves every lent byte as it was; an answer changes its own leading bytes of the lent
//! buffer ([`renju_put`], [`renju_remove`], [`renju_feed_take`]: one byte) and no other. No pointer is
//! kept. Cells are 225 bytes in code order, 0 empty, 1 black, 2 white. What each can refuse is said
//! with it; where several apply, the first named is given.
//!
//! # Examples
//!
//! ```
//! use renju::raw::{renju_forbidden_points, renju_read};
//!
//! let (mut cells, mut out) = ([0; 225], [0; 450]);
//! assert_eq!(renju_read(b"G8,I8,H7,H9/A1", &mut cells), 225);
//! // One point: a double three (1) at H8 (112).
//! assert_eq!(renju_forbidden_points(&cells, &mut out), 1);
//! assert_eq!(out[..2], [1, 112]);
//! // With no room for it: refusal 13, and the word has nothing else.
//! assert_eq!(renju_forbidden_points(&cells, &mut out[..1]), 13 << 16);
//! ```

pub use crate::refusal::answer;

/// The version of the host interface that this crate was written for, 2: it is one more whenever a
/// function is added, removed or changed. The archive carries it in a symbol's name,
/// [`renju_interface_2`], which the crate refers to, so that it links with no other version.
///
/// ```
/// use renju::raw;
///
/// assert_eq!(raw::renju_interface_2(), raw::INTERFACE);
/// ```
pub const INTERFACE: u32 = 2;

// Kept in every program that links the crate, also where nothing calls it: an archive of another
// version has no such symbol, and the linker says so. `build.rs` says it earlier, and in words.
#[used]
static LINKED: extern "C" fn() -> u32 = ffi::renju_interface_2;

mod ffi {
    // A slice is two arguments: its pointer, then its length.
    unsafe extern "C" {
        /// The version of the interface, which is its name's too: 2. Never refused.
        ///
        /// ```
        /// assert_eq!(renju::raw::renju_interface_2(), 2);
        /// ```
        #[must_use]
        pub safe fn renju_interface_2() -> u32;
        pub fn renju_read_point(text: *const u8, text_len: usize) -> u32;
        pub fn renju_read(
            text: *const u8,
            text_len: usize,
            cells: *mut u8,
            cells_len: usize,
        ) -> u32;
        pub fn renju_to_string(
            cells: *const u8,
            cells_len: usize,
            out: *mut u8,
            out_len: usize,
        ) -> u32;
        pub fn renju_to_pretty_string(
            cells: *const u8,
            cells_len: usize,
            out: *mut u8,
            out_len: usize,
        ) -> u32;
        pub fn renju_put(cells: *mut u8, cells_len: usize, code: u8, colour: u8) -> u32;
        pub fn renju_remove(cells: *mut u8, cells_len: usize, code: u8) -> u32;
        pub fn renju_stones(
            cells: *const u8,
            cells_len: usize,
            colour: u8,
            out: *mut u8,
            out_len: usize,
        ) -> u32;
        pub fn renju_empty_points(
            cells: *const u8,
            cells_len: usize,
            out: *mut u8,
            out_len: usize,
        ) -> u32;
        pub fn renju_neighbors(
            cells: *const u8,
            cells_len: usize,
            code: u8,
            distance: u8,
            only_empty: bool,
            out: *mut u8,
            out_len: usize,
        ) -> u32;
        pub fn renju_rows(
            cells: *const u8,
            cells_len: usize,
            colour: u8,
            kind: u8,
            out: *mut u8,
            out_len: usize,
        ) -> u32;
        pub fn renju_rows_on(
            cells: *const u8,
            cells_len: usize,
            code: u8,
            colour: u8,
            kind: u8,
            out: *mut u8,
            out_len: usize,
        ) -> u32;
        pub fn renju_four_eyes_on(
            cells: *const u8,
            cells_len: usize,
            code: u8,
            colour: u8,
            out: *mut u8,
            out_len: usize,
        ) -> u32;
        pub fn renju_forbidden(cells: *const u8, cells_len: usize, code: u8) -> u32;
        pub fn renju_forbidden_strict(cells: *const u8, cells_len: usize, code: u8) -> u32;
        pub fn renju_depth(cells: *const u8, cells_len: usize, code: u8) -> u32;
        pub fn renju_forbidden_points(
            cells: *const u8,
            cells_len: usize,
            out: *mut u8,
            out_len: usize,
        ) -> u32;
        pub fn renju_game(moves: *const u8, moves_len: usize, out: *mut u8, out_len: usize) -> u32;
        pub fn renju_turn(
            cells: *const u8,
            cells_len: usize,
            view: u8,
            out: *mut u8,
            out_len: usize,
        ) -> u32;
        pub fn renju_canonical(
            cells: *const u8,
            cells_len: usize,
            out: *mut u8,
            out_len: usize,
        ) -> u32;
        /// Where a view sends a point: the turned code. Refusals 8, 12.
        ///
        /// ```
        /// # use renju::raw::*;
        /// // A quarter turn takes A1 to A15.
        /// assert_eq!(renju_turn_point(0, 1), 14);
        /// assert_eq!(renju_turn_point(225, 1), 8 << 16);
        /// ```
        #[must_use]
        pub safe fn renju_turn_point(code: u8, view: u8) -> u32;
        /// The view that equals the first followed by the second. Refusal 12.
        ///
        /// ```
        /// # use renju::raw::*;
        /// assert_eq!(renju_view_then(4, 1), 6);
        /// assert_eq!(renju_view_then(1, 4), 7);
        /// assert_eq!(renju_view_then(8, 0), 12 << 16);
        /// ```
        #[must_use]
        pub safe fn renju_view_then(first: u8, second: u8) -> u32;
        /// The view that takes a view back. Refusal 12.
        ///
        /// ```
        /// # use renju::raw::*;
        /// assert_eq!(renju_view_back(1), 3);
        /// assert_eq!(renju_view_back(8), 12 << 16);
        /// ```
        #[must_use]
        pub safe fn renju_view_back(view: u8) -> u32;
        /// Where a colour's rows of a kind start on a line alone: a mask, bit j for
        /// cell j. Refusals 10 (size), 9, 12.
        ///
        /// ```
        /// # use renju::raw::*;
        /// // Black on cells 2, 3 and 4 of fifteen: Threes from 1 and from 2.
        /// assert_eq!(renju_line_starts(0b11100, 0, 15, 1, 1), 0b110);
        /// assert_eq!(renju_line_starts(0b11100, 0, 4, 1, 1), 10 << 16);
        /// ```
        #[must_use]
        pub safe fn renju_line_starts(
            blacks: u16,
            whites: u16,
            size: u8,
            colour: u8,
            kind: u8,
        ) -> u32;
        /// Those through a cell: a mask of starts. Refusals 10 (size), 9, 12, 10
        /// (cell).
        ///
        /// ```
        /// # use renju::raw::*;
        /// assert_eq!(renju_line_starts_on(0b11100, 0, 15, 1, 1, 1), 0b010);
        /// assert_eq!(renju_line_starts_on(0b11100, 0, 15, 1, 1, 15), 10 << 16);
        /// ```
        #[must_use]
        pub safe fn renju_line_starts_on(
            blacks: u16,
            whites: u16,
            size: u8,
            colour: u8,
            kind: u8,
            cell: u8,
        ) -> u32;
        /// The eyes of a colour's rows of a kind on a line alone: a mask, bit i for
        /// cell i. Refusals 10 (size), 9, 12.
        ///
        /// ```
        /// # use renju::raw::*;
        /// // Black on cells 0 to 3 of five: a Four, its eye on cell 4.
        /// assert_eq!(renju_line_eyes(0b01111, 0, 5, 1, 4), 0b10000);
        /// assert_eq!(renju_line_eyes(0b01111, 0b00001, 5, 1, 4), 9 << 16);
        /// ```
        #[must_use]
        pub safe fn renju_line_eyes(
            blacks: u16,
            whites: u16,
            size: u8,
            colour: u8,
            kind: u8,
        ) -> u32;
        pub fn renju_second_rows(
            cells: *const u8,
            cells_len: usize,
            colour: u8,
            kind: u8,
            out: *mut u8,
            out_len: usize,
        ) -> u32;
        pub fn renju_second_rows_on(
            cells: *const u8,
            cells_len: usize,
            code: u8,
            colour: u8,
            kind: u8,
            out: *mut u8,
            out_len: usize,
        ) -> u32;
        pub fn renju_second_four_eyes_on(
            cells: *const u8,
            cells_len: usize,
            code: u8,
            colour: u8,
            out: *mut u8,
            out_len: usize,
        ) -> u32;
        pub fn renju_second_forbidden(cells: *const u8, cells_len: usize, code: u8) -> u32;
        pub fn renju_second_forbidden_strict(cells: *const u8, cells_len: usize, code: u8) -> u32;
        pub fn renju_second_forbidden_points(
            cells: *const u8,
            cells_len: usize,
            out: *mut u8,
            out_len: usize,
        ) -> u32;
        pub fn renju_read_diagram(
            text: *const u8,
            text_len: usize,
            cells: *mut u8,
            cells_len: usize,
        ) -> u32;
        pub fn renju_convert(text: *const u8, text_len: usize, out: *mut u8, out_len: usize)
        -> u32;
        pub fn renju_to_tagged(
            moves: *const u8,
            moves_len: usize,
            view: u8,
            out: *mut u8,
            out_len: usize,
        ) -> u32;
        pub fn renju_from_tagged(
            record: *const u8,
            record_len: usize,
            out: *mut u8,
            out_len: usize,
        ) -> u32;
        pub fn renju_tagged_view(record: *const u8, record_len: usize) -> u32;
        pub fn renju_counts(cells: *const u8, cells_len: usize) -> u32;
        pub fn renju_feed_take(
            game: u32,
            held: *mut u8,
            held_len: usize,
            count: u16,
            of_game: u32,
            number: u16,
            code: u8,
        ) -> u32;
        pub fn renju_feed_missing(
            first: *const u8,
            first_len: usize,
            second: *const u8,
            second_len: usize,
        ) -> u32;
        pub fn renju_to_sgf(
            moves: *const u8,
            moves_len: usize,
            out: *mut u8,
            out_len: usize,
        ) -> u32;
        pub fn renju_from_sgf(
            text: *const u8,
            text_len: usize,
            out: *mut u8,
            out_len: usize,
        ) -> u32;
        pub fn renju_mend(text: *const u8, text_len: usize, out: *mut u8, out_len: usize) -> u32;
        pub fn renju_win_check(
            cells: *const u8,
            cells_len: usize,
            colour: u8,
            line: *const u8,
            line_len: usize,
        ) -> u32;
        pub fn renju_win_plan(
            cells: *const u8,
            cells_len: usize,
            colour: u8,
            limit: u8,
            out: *mut u8,
            out_len: usize,
        ) -> u32;
    }
}

pub use ffi::renju_interface_2;
pub use ffi::{renju_line_eyes, renju_line_starts, renju_line_starts_on, renju_turn_point};
pub use ffi::{renju_view_back, renju_view_then};

/// The code of the point that a text names, alone in it. Refusals 1, 2, 3, 4.
///
/// ```
/// # use renju::raw::*;
/// assert_eq!(renju_read_point(b" h08"), 112);
/// assert_eq!(renju_read_point(b"P8"), 3 << 16);
/// assert_eq!(renju_read_point(b"H8,I9"), 4 << 16);
/// ```
#[must_use]
pub fn renju_read_point(text: &[u8]) -> u32 {
    // SAFETY: each pointer has its own slice's length, and no byte is written.
    unsafe { ffi::renju_read_point(text.as_ptr(), text.len()) }
}

/// The board that a text says, stones or moves: 225, its cells written. A lone
/// point is one move. Refusals 1, 2, of 3 and 4 the first that the reading meets,
/// 13.
///
/// ```
/// # use renju::raw::*;
/// let mut cells = [0; 225];
/// assert_eq!(renju_read(b"H8,I9", &mut cells), 225);
/// assert_eq!((cells[112], cells[128]), (1, 2));
/// assert_eq!(renju_read(b"H8", &mut cells), 225);
/// assert_eq!((cells[112], cells[128]), (1, 0));
/// assert_eq!(renju_read(b"H8,P9", &mut cells), 3 << 16);
/// ```
#[must_use]
pub fn renju_read(text: &[u8], cells: &mut [u8]) -> u32 {
    // SAFETY: each pointer has its own slice's length, and what is written is lent as `&mut`.
    unsafe { ffi::renju_read(text.as_ptr(), text.len(), cells.as_mut_ptr(), cells.len()) }
}

/// The board of a saved diagram: 225, its cells written. Every text is taken for
/// a diagram. Refusals 1, 2, 5, 6, 7, 13.
///
/// ```
/// # use renju::raw::*;
/// let mut cells = [0; 225];
/// assert_eq!(renju_read_diagram(b"H8,I9", &mut cells), 6 << 16);
/// let text = vec!["o.............x"; 15].join("\n");
/// assert_eq!(renju_read_diagram(text.as_bytes(), &mut cells), 225);
/// assert_eq!((cells[0], cells[112], cells[224]), (1, 0, 2));
/// ```
#[must_use]
pub fn renju_read_diagram(text: &[u8], cells: &mut [u8]) -> u32 {
    // SAFETY: each pointer has its own slice's length, and what is written is lent as `&mut`.
    unsafe { ffi::renju_read_diagram(text.as_ptr(), text.len(), cells.as_mut_ptr(), cells.len()) }
}

/// A saved diagram converted to stones text: how many bytes, at most 764, the text
/// written. Refusals 1, 2, 5, 6, 7, 22, 13.
///
/// ```
/// # use renju::raw::*;
/// let mut cells = [0; 225];
/// renju_read(b"H8,I9,A1", &mut cells);
/// let (mut diagram, mut out) = ([0; 464], [0; 764]);
/// renju_to_string(&cells, &mut diagram);
/// assert_eq!(renju_convert(&diagram, &mut out), 8);
/// assert!(out.starts_with(b"A1,H8/I9"));
/// assert_eq!(renju_convert(&diagram, &mut out[..7]), 13 << 16);
/// ```
#[must_use]
pub fn renju_convert(text: &[u8], out: &mut [u8]) -> u32 {
    // SAFETY: each pointer has its own slice's length, and what is written is lent as `&mut`.
    unsafe { ffi::renju_convert(text.as_ptr(), text.len(), out.as_mut_ptr(), out.len()) }
}

/// The plain diagram: 464, its bytes written. Refusals 9, 13.
///
/// ```
/// # use renju::raw::*;
/// let mut cells = [0; 225];
/// renju_read(b"H8,I9", &mut cells);
/// let mut out = [0; 464];
/// assert_eq!(renju_to_string(&cells, &mut out), 464);
/// // Row 15 comes first.
/// assert!(out.starts_with(b" . . . . . . . . . . . . . . .\n"));
/// ```
#[must_use]
pub fn renju_to_string(cells: &[u8], out: &mut [u8]) -> u32 {
    // SAFETY: each pointer has its own slice's length, and what is written is lent as `&mut`.
    unsafe { ffi::renju_to_string(cells.as_ptr(), cells.len(), out.as_mut_ptr(), out.len()) }
}

/// The numbered diagram: 527, its bytes written. Refusals 9, 13.
///
/// ```
/// # use renju::raw::*;
/// let mut cells = [0; 225];
/// renju_read(b"H8,I9", &mut cells);
/// let mut out = [0; 527];
/// assert_eq!(renju_to_pretty_string(&cells, &mut out), 527);
/// assert!(out.starts_with(b"15 . . ."));
/// ```
#[must_use]
pub fn renju_to_pretty_string(cells: &[u8], out: &mut [u8]) -> u32 {
    // SAFETY: each pointer has its own slice's length, and what is written is lent as `&mut`.
    unsafe { ffi::renju_to_pretty_string(cells.as_ptr(), cells.len(), out.as_mut_ptr(), out.len()) }
}

/// A stone put at a point: 0, one cell changed. Refusals 9, 8, 12.
///
/// ```
/// # use renju::raw::*;
/// let mut cells = [0; 225];
/// assert_eq!(renju_put(&mut cells, 112, 1), 0);
/// assert_eq!(cells[112], 1);
/// assert_eq!(renju_put(&mut cells, 112, 3), 12 << 16);
/// ```
#[must_use]
pub fn renju_put(cells: &mut [u8], code: u8, colour: u8) -> u32 {
    // SAFETY: each pointer has its own slice's length, and what is written is lent as `&mut`.
    unsafe { ffi::renju_put(cells.as_mut_ptr(), cells.len(), code, colour) }
}

/// A point made empty: 0, one cell changed. Refusals 9, 8.
///
/// ```
/// # use renju::raw::*;
/// let mut cells = [0; 225];
/// renju_read(b"H8,I9", &mut cells);
/// assert_eq!(renju_remove(&mut cells, 112), 0);
/// assert_eq!(cells[112], 0);
/// assert_eq!(renju_remove(&mut cells, 225), 8 << 16);
/// ```
#[must_use]
pub fn renju_remove(cells: &mut [u8], code: u8) -> u32 {
    // SAFETY: each pointer has its own slice's length, and what is written is lent as `&mut`.
    unsafe { ffi::renju_remove(cells.as_mut_ptr(), cells.len(), code) }
}

/// A colour's stones: how many, their codes written, ascending. Refusals 9,
/// 12, 13.
///
/// ```
/// # use renju::raw::*;
/// let mut cells = [0; 225];
/// renju_read(b"G8,I8,H7,H9/A1", &mut cells);
/// let mut out = [0; 225];
/// assert_eq!(renju_stones(&cells, 1, &mut out), 4);
/// assert_eq!(out[..4], [97, 111, 113, 127]);
/// ```
#[must_use]
pub fn renju_stones(cells: &[u8], colour: u8, out: &mut [u8]) -> u32 {
    // SAFETY: each pointer has its own slice's length, and what is written is lent as `&mut`.
    unsafe {
        ffi::renju_stones(
            cells.as_ptr(),
            cells.len(),
            colour,
            out.as_mut_ptr(),
            out.len(),
        )
    }
}

/// The empty points: how many, their codes written, ascending. Refusals 9, 13.
///
/// ```
/// # use renju::raw::*;
/// let mut cells = [0; 225];
/// renju_read(b"G8,I8,H7,H9/A1", &mut cells);
/// let mut out = [0; 225];
/// assert_eq!(renju_empty_points(&cells, &mut out), 220);
/// // A1 has a stone.
/// assert_eq!(out[0], 1);
/// ```
#[must_use]
pub fn renju_empty_points(cells: &[u8], out: &mut [u8]) -> u32 {
    // SAFETY: each pointer has its own slice's length, and what is written is lent as `&mut`.
    unsafe { ffi::renju_empty_points(cells.as_ptr(), cells.len(), out.as_mut_ptr(), out.len()) }
}

/// The points up to a distance on the four lines through a point: how many,
/// their codes written, line by line. At most 60. Refusals 9, 8, 12, 13.
///
/// ```
/// # use renju::raw::*;
/// let (cells, mut out) = ([0; 225], [0; 60]);
/// // A1 on each of its four lines, with A2, B1 and B2.
/// assert_eq!(renju_neighbors(&cells, 0, 1, false, &mut out), 7);
/// assert_eq!(out[..7], [0, 1, 0, 15, 0, 16, 0]);
/// ```
#[must_use]
pub fn renju_neighbors(
    cells: &[u8],
    code: u8,
    distance: u8,
    only_empty: bool,
    out: &mut [u8],
) -> u32 {
    // SAFETY: each pointer has its own slice's length, and what is written is lent as `&mut`.
    unsafe {
        ffi::renju_neighbors(
            cells.as_ptr(),
            cells.len(),
            code,
            distance,
            only_empty,
            out.as_mut_ptr(),
            out.len(),
        )
    }
}

/// A colour's rows of a kind: how many, each in four bytes, key, start, stones
/// mask, eyes mask. At most 572. Refusals 9, 12, 13.
///
/// ```
/// # use renju::raw::*;
/// let mut cells = [0; 225];
/// renju_read(b"E8,F8,G8,H8/I8", &mut cells);
/// let mut out = [0; 4 * 572];
/// // One Four on row 8: its window is D8 to H8, its eye D8.
/// assert_eq!(renju_rows(&cells, 1, 4, &mut out), 1);
/// assert_eq!(out[..4], [22, 3, 0b11110, 0b00001]);
/// ```
#[must_use]
pub fn renju_rows(cells: &[u8], colour: u8, kind: u8, out: &mut [u8]) -> u32 {
    // SAFETY: each pointer has its own slice's length, and what is written is lent as `&mut`.
    unsafe {
        ffi::renju_rows(
            cells.as_ptr(),
            cells.len(),
            colour,
            kind,
            out.as_mut_ptr(),
            out.len(),
        )
    }
}

/// Those through a point: how many, four bytes each. At most 20. Refusals 9,
/// 8, 12, 13.
///
/// ```
/// # use renju::raw::*;
/// let mut cells = [0; 225];
/// renju_read(b"E8,F8,G8,H8/I8", &mut cells);
/// let mut out = [0; 4 * 20];
/// // Through D8, the Four's eye; none through C8.
/// assert_eq!(renju_rows_on(&cells, 52, 1, 4, &mut out), 1);
/// assert_eq!(renju_rows_on(&cells, 37, 1, 4, &mut out), 0);
/// ```
#[must_use]
pub fn renju_rows_on(cells: &[u8], code: u8, colour: u8, kind: u8, out: &mut [u8]) -> u32 {
    // SAFETY: each pointer has its own slice's length, and what is written is lent as `&mut`.
    unsafe {
        ffi::renju_rows_on(
            cells.as_ptr(),
            cells.len(),
            code,
            colour,
            kind,
            out.as_mut_ptr(),
            out.len(),
        )
    }
}

/// The points that make a five of a colour's Fours through a point: how many,
/// their codes written, line by line. Refusals 9, 8, 12, 13.
///
/// ```
/// # use renju::raw::*;
/// let mut cells = [0; 225];
/// renju_read(b"E8,F8,G8,H8/A1", &mut cells);
/// let mut out = [0; 225];
/// // Through F8: D8 and I8.
/// assert_eq!(renju_four_eyes_on(&cells, 82, 1, &mut out), 2);
/// assert_eq!(out[..2], [52, 127]);
/// ```
#[must_use]
pub fn renju_four_eyes_on(cells: &[u8], code: u8, colour: u8, out: &mut [u8]) -> u32 {
    // SAFETY: each pointer has its own slice's length, and what is written is lent as `&mut`.
    unsafe {
        ffi::renju_four_eyes_on(
            cells.as_ptr(),
            cells.len(),
            code,
            colour,
            out.as_mut_ptr(),
            out.len(),
        )
    }
}

/// The plain verdict at an empty point: 0 none, 1 double three, 2 double four,
/// 3 overline. Refusals 9, 8, 11.
///
/// ```
/// # use renju::raw::*;
/// let mut cells = [0; 225];
/// renju_read(b"G8,I8,H7,H9/A1", &mut cells);
/// assert_eq!(renju_forbidden(&cells, 112), 1);
/// assert_eq!(renju_forbidden(&cells, 0), 11 << 16);
/// ```
#[must_use]
pub fn renju_forbidden(cells: &[u8], code: u8) -> u32 {
    // SAFETY: each pointer has its own slice's length, and no byte is written.
    unsafe { ffi::renju_forbidden(cells.as_ptr(), cells.len(), code) }
}

/// The strict verdict, which is none at an occupied point and where a five is
/// completed: 0 to 3. Refusals 9, 8.
///
/// ```
/// # use renju::raw::*;
/// let mut cells = [0; 225];
/// renju_read(b"G8,I8,H7,H9/A1", &mut cells);
/// assert_eq!(renju_forbidden_strict(&cells, 112), 1);
/// assert_eq!(renju_forbidden_strict(&cells, 0), 0);
/// ```
#[must_use]
pub fn renju_forbidden_strict(cells: &[u8], code: u8) -> u32 {
    // SAFETY: each pointer has its own slice's length, and no byte is written.
    unsafe { ffi::renju_forbidden_strict(cells.as_ptr(), cells.len(), code) }
}

/// How deep the strict question at a point goes, with its verdict: 256 times
/// the depth plus the verdict. Refusals 9, 8.
///
/// ```
/// # use renju::raw::*;
/// let mut cells = [0; 225];
/// renju_read(b"G8,I8,H7,H9/A1", &mut cells);
/// // A double three (1), told by one question inside another.
/// assert_eq!(renju_depth(&cells, 112), 2 * 256 + 1);
/// assert_eq!(renju_depth(&cells, 0), 0);
/// ```
#[must_use]
pub fn renju_depth(cells: &[u8], code: u8) -> u32 {
    // SAFETY: each pointer has its own slice's length, and no byte is written.
    unsafe { ffi::renju_depth(cells.as_ptr(), cells.len(), code) }
}

/// The points forbidden to Black: how many, each in two bytes, kind and code,
/// by code. Refusals 9, 13.
///
/// ```
/// # use renju::raw::*;
/// let mut cells = [0; 225];
/// renju_read(b"G8,I8,H7,H9/A1", &mut cells);
/// let mut out = [0; 450];
/// assert_eq!(renju_forbidden_points(&cells, &mut out), 1);
/// assert_eq!(out[..2], [1, 112]);
/// ```
#[must_use]
pub fn renju_forbidden_points(cells: &[u8], out: &mut [u8]) -> u32 {
    // SAFETY: each pointer has its own slice's length, and what is written is lent as `&mut`.
    unsafe { ffi::renju_forbidden_points(cells.as_ptr(), cells.len(), out.as_mut_ptr(), out.len()) }
}

/// A whole game of codes refereed: the number of its first faulty move, from 1,
/// or 0; 228 bytes written: that number, the reason (0 none, 1 occupied, 2
/// forbidden to Black, 3 after a five), the winner (0 nobody, 1 Black, 2 White)
/// and the cells, of the final board or of the one before the fault. Refusals
/// 14, 8, 13.
///
/// ```
/// # use renju::raw::*;
/// let mut out = [0; 228];
/// // Black plays where White stands.
/// assert_eq!(renju_game(&[112, 113, 113], &mut out), 3);
/// assert_eq!(out[..3], [3, 1, 0]);
/// assert_eq!((out[3 + 112], out[3 + 113]), (1, 2));
/// assert_eq!(renju_game(&[112, 225], &mut out), 8 << 16);
/// assert_eq!(renju_game(&[225; 226], &mut out), 14 << 16);
/// ```
#[must_use]
pub fn renju_game(moves: &[u8], out: &mut [u8]) -> u32 {
    // SAFETY: each pointer has its own slice's length, and what is written is lent as `&mut`.
    unsafe { ffi::renju_game(moves.as_ptr(), moves.len(), out.as_mut_ptr(), out.len()) }
}

/// The cells in a view: 225, the turned cells written. Refusals 9, 12, 13.
///
/// ```
/// # use renju::raw::*;
/// let mut cells = [0; 225];
/// renju_read(b"G8,I8,H7,H9/A1", &mut cells);
/// let mut out = [0; 225];
/// assert_eq!(renju_turn(&cells, 1, &mut out), 225);
/// // White's stone at A1 is at A15 now.
/// assert_eq!(out[14], 2);
/// ```
#[must_use]
pub fn renju_turn(cells: &[u8], view: u8, out: &mut [u8]) -> u32 {
    // SAFETY: each pointer has its own slice's length, and what is written is lent as `&mut`.
    unsafe {
        ffi::renju_turn(
            cells.as_ptr(),
            cells.len(),
            view,
            out.as_mut_ptr(),
            out.len(),
        )
    }
}

/// The least of the eight turned boards by its cell bytes: the first view that gives it, its 225 cells
/// written. Refusals 9, 13.
///
/// ```
/// # use renju::raw::*;
/// let mut cells = [0; 225];
/// // Black in a corner, A1; of the four corners O15 comes last.
/// assert_eq!(renju_put(&mut cells, 0, 1), 0);
/// let mut out = [0; 225];
/// assert_eq!(renju_canonical(&cells, &mut out), 2);
/// assert_eq!((out[0], out[224]), (0, 1));
/// assert_eq!(renju_canonical(&cells, &mut out[..224]), 13 << 16);
/// ```
#[must_use]
pub fn renju_canonical(cells: &[u8], out: &mut [u8]) -> u32 {
    // SAFETY: each pointer has its own slice's length, and what is written is lent as `&mut`.
    unsafe { ffi::renju_canonical(cells.as_ptr(), cells.len(), out.as_mut_ptr(), out.len()) }
}

/// As [`renju_rows`], by the second referee, which is slow: it walks the cells
/// by their coordinates. At most 572. Refusals 9, 12, 13.
///
/// ```
/// # use renju::raw::*;
/// let mut cells = [0; 225];
/// renju_read(b"E8,F8,G8,H8/I8", &mut cells);
/// let mut out = [0; 4 * 572];
/// assert_eq!(renju_second_rows(&cells, 1, 4, &mut out), 1);
/// assert_eq!(out[..4], [22, 3, 0b11110, 0b00001]);
/// ```
#[must_use]
pub fn renju_second_rows(cells: &[u8], colour: u8, kind: u8, out: &mut [u8]) -> u32 {
    // SAFETY: each pointer has its own slice's length, and what is written is lent as `&mut`.
    unsafe {
        ffi::renju_second_rows(
            cells.as_ptr(),
            cells.len(),
            colour,
            kind,
            out.as_mut_ptr(),
            out.len(),
        )
    }
}

/// As [`renju_rows_on`], by the second referee. At most 20. Refusals 9, 8, 12,
/// 13.
///
/// ```
/// # use renju::raw::*;
/// let mut cells = [0; 225];
/// renju_read(b"E8,F8,G8,H8/I8", &mut cells);
/// let mut out = [0; 4 * 20];
/// assert_eq!(renju_second_rows_on(&cells, 52, 1, 4, &mut out), 1);
/// assert_eq!(renju_second_rows_on(&cells, 37, 1, 4, &mut out), 0);
/// ```
#[must_use]
pub fn renju_second_rows_on(cells: &[u8], code: u8, colour: u8, kind: u8, out: &mut [u8]) -> u32 {
    // SAFETY: each pointer has its own slice's length, and what is written is lent as `&mut`.
    unsafe {
        ffi::renju_second_rows_on(
            cells.as_ptr(),
            cells.len(),
            code,
            colour,
            kind,
            out.as_mut_ptr(),
            out.len(),
        )
    }
}

/// As [`renju_four_eyes_on`], by the second referee. Refusals 9, 8, 12, 13.
///
/// ```
/// # use renju::raw::*;
/// let mut cells = [0; 225];
/// renju_read(b"E8,F8,G8,H8/A1", &mut cells);
/// let mut out = [0; 225];
/// assert_eq!(renju_second_four_eyes_on(&cells, 82, 1, &mut out), 2);
/// assert_eq!(out[..2], [52, 127]);
/// ```
#[must_use]
pub fn renju_second_four_eyes_on(cells: &[u8], code: u8, colour: u8, out: &mut [u8]) -> u32 {
    // SAFETY: each pointer has its own slice's length, and what is written is lent as `&mut`.
    unsafe {
        ffi::renju_second_four_eyes_on(
            cells.as_ptr(),
            cells.len(),
            code,
            colour,
            out.as_mut_ptr(),
            out.len(),
        )
    }
}

/// As [`renju_forbidden`], by the second referee: 0 to 3. Refusals 9, 8, 11.
///
/// ```
/// # use renju::raw::*;
/// let mut cells = [0; 225];
/// renju_read(b"G8,I8,H7,H9/A1", &mut cells);
/// assert_eq!(renju_second_forbidden(&cells, 112), 1);
/// assert_eq!(renju_second_forbidden(&cells, 0), 11 << 16);
/// ```
#[must_use]
pub fn renju_second_forbidden(cells: &[u8], code: u8) -> u32 {
    // SAFETY: each pointer has its own slice's length, and no byte is written.
    unsafe { ffi::renju_second_forbidden(cells.as_ptr(), cells.len(), code) }
}

/// As [`renju_forbidden_strict`], by the second referee: 0 to 3. Refusals 9, 8.
///
/// ```
/// # use renju::raw::*;
/// let mut cells = [0; 225];
/// renju_read(b"G8,I8,H7,H9/A1", &mut cells);
/// assert_eq!(renju_second_forbidden_strict(&cells, 112), 1);
/// assert_eq!(renju_second_forbidden_strict(&cells, 0), 0);
/// ```
#[must_use]
pub fn renju_second_forbidden_strict(cells: &[u8], code: u8) -> u32 {
    // SAFETY: each pointer has its own slice's length, and no byte is written.
    unsafe { ffi::renju_second_forbidden_strict(cells.as_ptr(), cells.len(), code) }
}

/// As [`renju_forbidden_points`], by the second referee. Refusals 9, 13.
///
/// ```
/// # use renju::raw::*;
/// let mut cells = [0; 225];
/// renju_read(b"G8,I8,H7,H9/A1", &mut cells);
/// let mut out = [0; 450];
/// assert_eq!(renju_second_forbidden_points(&cells, &mut out), 1);
/// assert_eq!(out[..2], [1, 112]);
/// ```
#[must_use]
pub fn renju_second_forbidden_points(cells: &[u8], out: &mut [u8]) -> u32 {
    // SAFETY: each pointer has its own slice's length, and what is written is lent as `&mut`.
    unsafe {
        ffi::renju_second_forbidden_points(cells.as_ptr(), cells.len(), out.as_mut_ptr(), out.len())
    }
}

/// The record of a game's moves, a code each, in a view: 7 and as many bytes as
/// there are moves, written. Refusals 14, 8, 12, 13.
///
/// ```
/// # use renju::raw::*;
/// let mut out = [0; 232];
/// assert_eq!(renju_to_tagged(&[112, 113], 0, &mut out), 9);
/// assert_eq!(out[..9], [1, 0, 1, 0, 2, 0, 2, 112, 113]);
/// assert_eq!(renju_to_tagged(&[112, 225], 8, &mut out), 8 << 16);
/// ```
#[must_use]
pub fn renju_to_tagged(moves: &[u8], view: u8, out: &mut [u8]) -> u32 {
    // SAFETY: each pointer has its own slice's length, and what is written is lent as `&mut`.
    unsafe {
        ffi::renju_to_tagged(
            moves.as_ptr(),
            moves.len(),
            view,
            out.as_mut_ptr(),
            out.len(),
        )
    }
}

/// The moves of a record in view 0: how many, their codes written. Refusals 15,
/// 14, 8, 16, 13.
///
/// ```
/// # use renju::raw::*;
/// let mut out = [0; 225];
/// assert_eq!(renju_from_tagged(&[1, 0, 1, 0, 2, 0, 2, 112, 113], &mut out), 2);
/// assert_eq!(out[..2], [112, 113]);
/// assert_eq!(renju_from_tagged(&[1, 0, 1, 4, 2, 0, 1, 112], &mut out), 16 << 16);
/// assert_eq!(renju_from_tagged(&[112, 113], &mut out), 15 << 16);
/// ```
#[must_use]
pub fn renju_from_tagged(record: &[u8], out: &mut [u8]) -> u32 {
    // SAFETY: each pointer has its own slice's length, and what is written is lent as `&mut`.
    unsafe { ffi::renju_from_tagged(record.as_ptr(), record.len(), out.as_mut_ptr(), out.len()) }
}

/// The view of a record, 0 to 7. Refusals 15, 14, 8.
///
/// ```
/// # use renju::raw::*;
/// assert_eq!(renju_tagged_view(&[1, 0, 1, 4, 2, 0, 1, 112]), 4);
/// assert_eq!(renju_tagged_view(&[1, 0, 1, 8, 2, 0, 1, 112]), 15 << 16);
/// ```
#[must_use]
pub fn renju_tagged_view(record: &[u8]) -> u32 {
    // SAFETY: each pointer has its own slice's length, and no byte is written.
    unsafe { ffi::renju_tagged_view(record.as_ptr(), record.len()) }
}

/// How many stones each side has: 256 times White's plus Black's. Refusal 9.
///
/// ```
/// # use renju::raw::*;
/// let mut cells = [0; 225];
/// cells[112] = 1;
/// cells[113] = 2;
/// cells[114] = 2;
/// assert_eq!(renju_counts(&cells), 2 << 8 | 1);
/// assert_eq!(renju_counts(&cells[1..]), 9 << 16);
/// ```
#[must_use]
pub fn renju_counts(cells: &[u8]) -> u32 {
    // SAFETY: each pointer has its own slice's length, and no byte is written.
    unsafe { ffi::renju_counts(cells.as_ptr(), cells.len()) }
}

/// A message of the move feed at a client that holds `count` moves of game
/// `game` in the leading bytes of `held`: the new count, and the code written
/// behind them. The message is move `number` of game `of_game`. Refusals 17,
/// 18, 8, 14 for a 226th move, and 13 where `held` has no more than `count`
/// bytes.
///
/// ```
/// # use renju::raw::*;
/// let mut held = [0; 225];
/// assert_eq!(renju_feed_take(7, &mut held, 0, 7, 1, 112), 1);
/// assert_eq!(renju_feed_take(7, &mut held, 1, 7, 1, 112), 18 << 16);
/// assert_eq!(renju_feed_take(7, &mut held, 1, 8, 1, 112), 17 << 16);
/// assert_eq!(held[..2], [112, 0]);
/// ```
#[must_use]
pub fn renju_feed_take(
    game: u32,
    held: &mut [u8],
    count: u16,
    of_game: u32,
    number: u16,
    code: u8,
) -> u32 {
    let (pointer, length) = (held.as_mut_ptr(), held.len());
    // SAFETY: each pointer has its own slice's length, and what is written is lent as `&mut`.
    unsafe { ffi::renju_feed_take(game, pointer, length, count, of_game, number, code) }
}

/// Two held lists, one of which begins the other: 0 if they are equal, 1 if the
/// first is longer, 2 if the second is. What the shorter lacks is the longer
/// one from the shorter one's length on. Refusal 19 where neither begins the
/// other.
///
/// ```
/// # use renju::raw::*;
/// assert_eq!(renju_feed_missing(&[112, 96], &[112]), 1);
/// assert_eq!(renju_feed_missing(&[112, 96], &[113]), 19 << 16);
/// ```
#[must_use]
pub fn renju_feed_missing(first: &[u8], second: &[u8]) -> u32 {
    // SAFETY: each pointer has its own slice's length, and no byte is written.
    unsafe { ffi::renju_feed_missing(first.as_ptr(), first.len(), second.as_ptr(), second.len()) }
}

/// A game as SGF text: how many bytes, 14 and six for each move, the text
/// written. Refusals 14, 8, 13.
///
/// ```
/// # use renju::raw::*;
/// let mut out = [0; 1364];
/// assert_eq!(renju_to_sgf(&[112], &mut out), 20);
/// assert_eq!(&out[..20], b"(;GM[4]SZ[15];B[hh])");
/// assert_eq!(renju_to_sgf(&[225], &mut out), 8 << 16);
/// ```
#[must_use]
pub fn renju_to_sgf(moves: &[u8], out: &mut [u8]) -> u32 {
    // SAFETY: each pointer has its own slice's length, and what is written is lent as `&mut`.
    unsafe { ffi::renju_to_sgf(moves.as_ptr(), moves.len(), out.as_mut_ptr(), out.len()) }
}

/// The moves of an SGF text: how many, their codes written. Refusals 1, 2, 20,
/// 14, 13.
///
/// ```
/// # use renju::raw::*;
/// let mut out = [0; 225];
/// assert_eq!(renju_from_sgf(b"(;GM[4] SZ[15] ;B[hh] ;W[ig])", &mut out), 2);
/// assert_eq!(out[..2], [112, 128]);
/// assert_eq!(renju_from_sgf(b"(;GM[4]SZ[19])", &mut out), 20 << 16);
/// ```
#[must_use]
pub fn renju_from_sgf(text: &[u8], out: &mut [u8]) -> u32 {
    // SAFETY: each pointer has its own slice's length, and what is written is lent as `&mut`.
    unsafe { ffi::renju_from_sgf(text.as_ptr(), text.len(), out.as_mut_ptr(), out.len()) }
}

/// A hand-typed comma list of moves mended: how many bytes its two lines have,
/// each ended by byte 10. The first has the leading moves up to the first item
/// that is no point, or a point that is kept already; the second that item's
/// number, from 1, and its reason (3 or 4 of the point, 1 for a repeat), or
/// `0 0`. Refusals 1, 2, 13.
///
/// ```
/// # use renju::raw::*;
/// let mut out = [0; renju::MENDED];
/// assert_eq!(renju_mend(b"h8,H08", &mut out), 7);
/// assert_eq!(out[..7], *b"H8\n2 1\n");
/// assert_eq!(renju_mend(b"\x80", &mut out), 2 << 16);
/// ```
#[must_use]
pub fn renju_mend(text: &[u8], out: &mut [u8]) -> u32 {
    // SAFETY: each pointer has its own slice's length, and what is written is lent as `&mut`.
    unsafe { ffi::renju_mend(text.as_ptr(), text.len(), out.as_mut_ptr(), out.len()) }
}

/// Whether a line of points is a sure win by fours for the colour, to move: 1
/// or 0. Refusals 9, 8, 12.
///
/// ```
/// # use renju::raw::*;
/// let mut cells = [0; 225];
/// assert_eq!(renju_read(b"A1/F8,G8,H8", &mut cells), 225);
/// // E8 (67) makes an open four of White's; H8 (112) has a stone.
/// assert_eq!(renju_win_check(&cells, 2, &[67]), 1);
/// assert_eq!(renju_win_check(&cells, 2, &[112]), 0);
/// assert_eq!(renju_win_check(&cells, 3, &[225]), 8 << 16);
/// ```
#[must_use]
pub fn renju_win_check(cells: &[u8], colour: u8, line: &[u8]) -> u32 {
    // SAFETY: each pointer has its own slice's length, and no byte is written.
    unsafe {
        ffi::renju_win_check(
            cells.as_ptr(),
            cells.len(),
            colour,
            line.as_ptr(),
            line.len(),
        )
    }
}

/// The first such line of at most `limit` attacks, by comparing codes from the
/// front: how many points, their codes written; 0 for no line. Refusals 9, 12,
/// 21, 13 for less room than 11 bytes.
///
/// ```
/// # use renju::raw::*;
/// let (mut cells, mut out) = ([0; 225], [0; 11]);
/// assert_eq!(renju_read(b"A1/F8,G8,H8", &mut cells), 225);
/// assert_eq!(renju_win_plan(&cells, 2, 1, &mut out), 1);
/// assert_eq!(out[0], 67);
/// assert_eq!(renju_win_plan(&cells, 1, 6, &mut out), 0);
/// assert_eq!(renju_win_plan(&cells, 2, 7, &mut out), 21 << 16);
/// ```
#[must_use]
pub fn renju_win_plan(cells: &[u8], colour: u8, limit: u8, out: &mut [u8]) -> u32 {
    // SAFETY: each pointer has its own slice's length, and what is written is lent as `&mut`.
    unsafe {
        ffi::renju_win_plan(
            cells.as_ptr(),
            cells.len(),
            colour,
            limit,
            out.as_mut_ptr(),
            out.len(),
        )
    }
}
