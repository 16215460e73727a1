//! `points.txt`: addresses of points and lines, and their way back.

use super::{Records, byte};
use crate::board::grid::{Grid, LINE_COUNT};
use crate::board::point::{Direction, Index};
use crate::original::{direction_number, point};

pub fn text() -> String {
    let mut out = Records::default();
    out.comment("answers of the original about addresses; the forms are in README.md");
    for code in 0..225 {
        for d in Direction::ALL {
            address(&mut out, code, d);
        }
    }
    for key in 0..LINE_COUNT {
        let (d, number) = Grid::line_from_key(key);
        let fields = [key as u8, direction_number(d), number];
        out.record('v', &fields.map(byte));
    }
    for d in Direction::ALL {
        let numbers = match d {
            Direction::Vertical | Direction::Horizontal => 15,
            _ => 29,
        };
        for number in 0..numbers {
            way_back(&mut out, d, number);
        }
    }
    out.0
}

/// `a`: where a point is on its line in one direction.
fn address(out: &mut Records, code: u8, d: Direction) {
    let index = point(code).to_index(d);
    let key = Grid::line_key(d, index.i).map_or(0xff, |key| key as u8);
    let fields = [
        code,
        direction_number(d),
        index.i,
        index.j,
        index.max_j(),
        key,
    ];
    out.record('a', &fields.map(byte));
}

/// `w`: the point at every cell of one line.
fn way_back(out: &mut Records, d: Direction, number: u8) {
    for cell in 0..=Index::new(d, number, 0).max_j() {
        let code = u8::from(Index::new(d, number, cell).to_point());
        let fields = [direction_number(d), number, cell, code];
        out.record('w', &fields.map(byte));
    }
}
