//! A renju referee whose answers are proved to be those of the rules: boards, rows, verdicts and
//! the points that are forbidden to Black.
//!
//! The functions of `crates/renju` are proved for all input and compiled into an archive, which
//! this crate links and makes safe and typed. A board is [`Cells`], 225 bytes by value. Nothing
//! here panics or keeps state, and only texts use the heap. It needs no `std`, and of `alloc` the
//! `String` alone. What the archive's contracts rule out is looked at in debug builds, where it
//! would panic.
//!
//! # A frame server
//!
//! The table is behind a lock, and each frame shows the points that Black may not play. The cells
//! can be copied out, so that the lock is not held while they are asked.
//!
//! ```
//! use renju::{Cells, Colour, Crosses, Point, Refusal};
//! use std::sync::{Mutex, PoisonError};
//!
//! struct Table {
//!     cells: Mutex<Cells>,
//! }
//!
//! impl Table {
//!     fn play(&self, point: Point, colour: Colour) {
//!         let mut cells = self.cells.lock().unwrap_or_else(PoisonError::into_inner);
//!         cells.put(point, colour);
//!     }
//!
//!     fn crosses(&self) -> Crosses {
//!         let cells = *self.cells.lock().unwrap_or_else(PoisonError::into_inner);
//!         cells.forbidden_points()
//!     }
//! }
//!
//! let table = Table {
//!     cells: Mutex::new("G8,I8,H7/A1".parse()?),
//! };
//! assert!(table.crosses().is_empty());
//!
//! table.play("H9".parse()?, Colour::Black);
//! for cross in &table.crosses() {
//!     assert_eq!(cross.to_string(), "H8 DoubleThree");
//!     println!("a cross at column {}, row {}", cross.point.x(), cross.point.y());
//! }
//! # assert_eq!(table.crosses().len(), 1);
//! # Ok::<(), Refusal>(())
//! ```
//!
//! # Whole games
//!
//! [`Moves::report`] reads a list of moves to its first faulty one, or to its winner, and hands the
//! board back.
//!
//! A [`Game`] is one that is played: it knows whose turn it is and what may be played, takes a legal move and
//! says why another is not, and takes moves back.
//!
//! # Checks at night
//!
//! [`second`] asks a second referee the same about rows and verdicts: a slow one, which walks the
//! cells by their coordinates, for checks beside the first.
//!
//! # Stored games
//!
//! A [`Record`] is a [`Moves`] with the view that it is shown in, in the tagged form; games of the
//! old form, a point's code for each move, become records and come back.
//!
//! # A thin client
//!
//! [`feed`] tells a client the moves of a game over a line that loses, repeats and reorders
//! messages, and says when both boards are equal.
//!
//! # Games from and for other programs
//!
//! [`sgf`] writes a [`Moves`] as SGF text and reads it back.
//!
//! # Typed move lists
//!
//! [`mend`] keeps the leading moves of a hand-typed list, and says which item slips and why.
//!
//! # Hints
//!
//! [`Cells::win_by_fours`] finds a line of fours that wins against every reply, and
//! [`Cells::is_win_by_fours`] tells whether a list of points is one.
//!
//! # Pictures
//!
//! [`Cells::to_svg`] draws the board with its crosses as SVG; a [`Picture`] also shows moves, words
//! and a view.
//!
//! # Refusals
//!
//! What can be refused is a `Result` with a [`Refusal`], which has the number that the Rattle and
//! the C functions give too. Numbers and bytes from outside are tested where they become a
//! [`Point`], a [`Colour`], a [`Kind`], a [`View`], a [`Line`], a [`Moves`], a [`Record`] or
//! [`Cells`]; after that there is little left to refuse.
//!
//! "Document 01" in this crate is the project's paper on the rules and the refusals; its sentences
//! stand beside the definitions in `crates/rules/specs`.

#![no_std]
#![deny(unsafe_code)]
#![deny(unsafe_op_in_unsafe_fn)]
#![warn(missing_docs)]
#![warn(clippy::must_use_candidate)]
#![warn(clippy::missing_errors_doc)]
#![warn(clippy::undocumented_unsafe_blocks)]

extern crate alloc;
#[cfg(test)]
extern crate std;

mod canonical;
mod cells;
mod colour;
pub mod feed;
mod game;
mod hint;
mod kind;
mod line;
mod list;
mod mend;
mod moves;
mod moves_text;
mod named;
mod point;
mod questions;
#[allow(unsafe_code)] // The calls into the archive.
pub mod raw;
mod record;
mod referee;
mod refusal;
mod row;
pub mod second;
pub mod sgf;
mod svg;
mod verdict;
mod view;

pub use canonical::Canonical;
pub use cells::{Cells, Counts};
pub use colour::Colour;
pub use game::{Game, Illegal, Unplayable};
pub use hint::{Limit, WinLine};
pub use kind::Kind;
pub use line::Line;
pub use list::{Crosses, List, Points, Rows, RowsOn};
pub use mend::{Mended, Slip, mend};
pub use moves::{Fault, Moves, Reason, Report};
pub use point::Point;
pub use record::{Record, RecordBytes};
pub use refusal::Refusal;
pub use row::Row;
pub use svg::Picture;
pub use verdict::{Cross, Verdict};
pub use view::View;

/// How many columns the board has, and how many rows.
///
/// ```
/// assert!(renju::Point::new(renju::SIDE - 1, renju::SIDE - 1).is_ok());
/// assert!(renju::Point::new(renju::SIDE, 0).is_err());
/// ```
pub const SIDE: u8 = 15;

/// How many cells a board has: 225.
///
/// ```
/// assert_eq!(renju::Cells::new().as_bytes().len(), renju::CELLS);
/// ```
pub const CELLS: usize = 225;

/// How many bytes the plain diagram has.
///
/// ```
/// assert_eq!(renju::Cells::new().to_string().len(), renju::DIAGRAM);
/// ```
pub const DIAGRAM: usize = 464;

/// How many bytes the numbered diagram has.
///
/// ```
/// assert_eq!(renju::Cells::new().to_pretty_string().len(), renju::PRETTY);
/// ```
pub const PRETTY: usize = 527;

/// How many bytes stones text can have: that of a board full of stones, each point
/// of it named once, with a comma or the slash between them.
///
/// ```
/// use renju::Cells;
///
/// let mut bytes = [1; renju::CELLS];
/// bytes[0] = 2;
/// let full = Cells::from_bytes(&bytes)?;
/// assert_eq!(full.to_stones()?.len(), renju::STONES_TEXT);
/// # Ok::<(), renju::Refusal>(())
/// ```
pub const STONES_TEXT: usize = 764;

/// How many rows of a kind a board can have: one for each window of five
/// cells, on a board that is full of White's stones.
///
/// ```
/// use renju::{Cells, Colour, Kind};
///
/// let full = Cells::from_bytes(&[2; renju::CELLS])?;
/// assert_eq!(full.rows(Colour::White, Kind::Five).len(), renju::ROWS);
/// # Ok::<(), renju::Refusal>(())
/// ```
pub const ROWS: usize = 572;

/// How many rows of a kind can go through one point: five windows on each of
/// its four lines.
///
/// ```
/// use renju::{Cells, Colour, Kind};
///
/// let full = Cells::from_bytes(&[2; renju::CELLS])?;
/// let rows = full.rows_on("H8".parse()?, Colour::White, Kind::Five);
/// assert_eq!(rows.len(), renju::ROWS_ON);
/// # Ok::<(), renju::Refusal>(())
/// ```
pub const ROWS_ON: usize = 20;

/// How many moves a game may have: one for each point.
///
/// ```
/// use renju::{Moves, Refusal};
///
/// assert!(Moves::from_codes(&[0; renju::MOVES]).is_ok());
/// assert_eq!(Moves::from_codes(&[0; renju::MOVES + 1]), Err(Refusal::ManyMoves));
/// ```
pub const MOVES: usize = 225;

/// How many bytes the report of a game has: the faulty move's number, the
/// reason, the winner, then the cells.
///
/// ```
/// let mut out = [0; renju::REPORT];
/// assert_eq!(renju::raw::renju_game(&[112, 0, 112], &mut out), 3);
/// assert_eq!(out[..3], [3, 1, 0]);
/// ```
pub const REPORT: usize = 228;

/// How many points a line of at most six attacks can have.
///
/// ```
/// let mut out = [0; renju::LINE];
/// assert_eq!(renju::raw::renju_win_plan(&[0; 225], 1, 6, &mut out), 0);
/// ```
pub const LINE: usize = 11;

/// How many bytes a stored game in tagged form can have: 7, and 225 moves.
///
/// ```
/// use renju::{Moves, Record, View};
///
/// let game = Moves::from_codes(&[0; renju::MOVES])?;
/// assert_eq!(Record::new(View::Same, game).to_bytes().len(), renju::RECORD);
/// # Ok::<(), renju::Refusal>(())
/// ```
pub const RECORD: usize = 232;

/// How many bytes a game's SGF text can have: 14, and six for each of 225 moves.
///
/// ```
/// use renju::{Moves, sgf};
///
/// let game = Moves::from_codes(&[0; renju::MOVES])?;
/// assert_eq!(sgf::write(&game).len(), renju::SGF);
/// # Ok::<(), renju::Refusal>(())
/// ```
pub const SGF: usize = 1364;

/// Room enough for the two lines of any mended list, in bytes.
///
/// ```
/// let mut out = [0; renju::MENDED];
/// assert_eq!(renju::raw::renju_mend(b"H8", &mut out), 7);
/// ```
pub const MENDED: usize = 1152;

/// How many bytes a text may have.
///
/// ```
/// use renju::{Cells, Refusal};
///
/// assert_eq!(Cells::read(&[b' '; renju::TEXT]), Err(Refusal::XPart));
/// assert_eq!(Cells::read(&[b' '; renju::TEXT + 1]), Err(Refusal::TextLength));
/// ```
pub const TEXT: usize = 4096;

// The Rust example of the README runs as a test too.
#[cfg(doctest)]
#[doc = include_str!("../README.md")]
struct Readme;
