//! The table of the package `renju` with the original beside it: `table_beside [PORT] [SEED]`. Each move is put to both under the table's
//! lock, and the page shows how long either held it. The server, the page and its script are the package's own files.

use oracle::original;
use renju::{Cells, Colour, Point};
use std::process::ExitCode;
use std::time::Instant;

#[path = "../../renju/examples/table/house/mod.rs"]
mod house;

use house::table::Beside;

/// What the original does for a move: is it forbidden, put it, list the crosses. Its board is made before, and the list made numbers after.
fn beside(cells: &Cells, point: Point, colour: Colour) -> Beside {
    let mut board = original::to_board(cells.as_bytes());
    let (player, at) = (
        original::player(colour.number()),
        original::point(point.code()),
    );
    let began = Instant::now();
    let forbidden = board.forbidden_strict(at);
    board.put(player, at);
    let list = board.forbidden_points();
    let held = began.elapsed();
    // Asked, so that the question is not left out.
    std::hint::black_box((forbidden, list));
    Beside {
        held,
        crosses: original::forbidden_list(&board),
    }
}

fn main() -> ExitCode {
    house::main(Some(beside))
}
