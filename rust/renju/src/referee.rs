//! The two referees: the functions of the host interface that each answers with, and what is made
//! of their words and bytes, which is the same for both.
//!
//! Each list is written into a buffer with room for the longest there is, so it is never refused
//! for want of room.

use crate::raw;
use crate::refusal::{answer, given};
use crate::{
    CELLS, Cells, Colour, Cross, Crosses, Kind, List, Point, Points, ROWS, ROWS_ON, Refusal, Row,
    Rows, RowsOn, Verdict,
};

/// The six questions about rows and verdicts, as functions over cell bytes.
pub(crate) struct Referee {
    rows: fn(cells: &[u8], colour: u8, kind: u8, out: &mut [u8]) -> u32,
    rows_on: fn(cells: &[u8], code: u8, colour: u8, kind: u8, out: &mut [u8]) -> u32,
    four_eyes_on: fn(cells: &[u8], code: u8, colour: u8, out: &mut [u8]) -> u32,
    forbidden: fn(cells: &[u8], code: u8) -> u32,
    forbidden_strict: fn(cells: &[u8], code: u8) -> u32,
    forbidden_points: fn(cells: &[u8], out: &mut [u8]) -> u32,
}

/// The one that the methods of [`Cells`] ask.
pub(crate) const FAST: Referee = Referee {
    rows: raw::renju_rows,
    rows_on: raw::renju_rows_on,
    four_eyes_on: raw::renju_four_eyes_on,
    forbidden: raw::renju_forbidden,
    forbidden_strict: raw::renju_forbidden_strict,
    forbidden_points: raw::renju_forbidden_points,
};

/// The one that [`crate::second`] asks.
pub(crate) const SECOND: Referee = Referee {
    rows: raw::renju_second_rows,
    rows_on: raw::renju_second_rows_on,
    four_eyes_on: raw::renju_second_four_eyes_on,
    forbidden: raw::renju_second_forbidden,
    forbidden_strict: raw::renju_second_forbidden_strict,
    forbidden_points: raw::renju_second_forbidden_points,
};

impl Referee {
    pub(crate) fn rows(&self, cells: &Cells, colour: Colour, kind: Kind) -> Rows {
        let (colour, kind) = (colour.number(), kind.number());
        let mut bytes = [0; 4 * ROWS];
        let count = given((self.rows)(&cells.bytes, colour, kind, &mut bytes));
        rows(count, &bytes)
    }

    pub(crate) fn rows_on(
        &self,
        cells: &Cells,
        point: Point,
        colour: Colour,
        kind: Kind,
    ) -> RowsOn {
        let (code, colour, kind) = (point.code(), colour.number(), kind.number());
        let mut bytes = [0; 4 * ROWS_ON];
        let word = (self.rows_on)(&cells.bytes, code, colour, kind, &mut bytes);
        rows(given(word), &bytes)
    }

    pub(crate) fn four_eyes_on(&self, cells: &Cells, point: Point, colour: Colour) -> Points {
        let (code, colour) = (point.code(), colour.number());
        let mut codes = [0; CELLS];
        let count = given((self.four_eyes_on)(&cells.bytes, code, colour, &mut codes));
        points(count, &codes)
    }

    pub(crate) fn plain_verdict(&self, cells: &Cells, point: Point) -> Result<Verdict, Refusal> {
        let number = answer((self.forbidden)(&cells.bytes, point.code()))?;
        Ok(verdict(number))
    }

    pub(crate) fn verdict(&self, cells: &Cells, point: Point) -> Verdict {
        let word = (self.forbidden_strict)(&cells.bytes, point.code());
        verdict(given(word))
    }

    pub(crate) fn forbidden_points(&self, cells: &Cells) -> Crosses {
        let mut pairs = [0; 2 * CELLS];
        let count = given((self.forbidden_points)(&cells.bytes, &mut pairs));
        let filler = cross(&[0, 0]);
        List::gather(filler, count, pairs.as_chunks().0.iter().map(cross))
    }
}

/// The points of a list of codes.
pub(crate) fn points(count: u16, codes: &[u8; CELLS]) -> Points {
    let items = codes.iter().map(|&code| Point::given(code));
    List::gather(Point::given(0), count, items)
}

fn rows<const N: usize>(count: u16, bytes: &[u8]) -> List<Row, N> {
    let items = bytes.as_chunks().0.iter().map(|&row| Row::given(row));
    List::gather(Row::given([0; 4]), count, items)
}

/// A pair of the forbidden list: kind, then code.
fn cross(&[number, code]: &[u8; 2]) -> Cross {
    Cross {
        point: Point::given(code),
        verdict: Verdict::given(number),
    }
}

/// A verdict's number fills no more than the low byte.
fn verdict(number: u16) -> Verdict {
    Verdict::given(number as u8)
}
