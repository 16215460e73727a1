//! The package's frame loop with the original in it, on its own board: `frame [SECONDS] [FILE]`.
//! `cargo run --release --example frame`, in `rust/`, is the same without the original.

use std::process::ExitCode;

use oracle::board::board::Board;
use oracle::original;
use renju::{Colour, Cross, Point, Verdict};
use runs::timing::frames::{self, Other, Told};

/// The original, on the board that a server of its own would keep.
struct Original(Board);

impl Other for Original {
    fn name(&self) -> &'static str {
        "original, under the lock"
    }

    fn put(&mut self, point: Point, colour: Colour) {
        let player = original::player(colour.number());
        self.0.put(player, original::point(point.code()));
    }

    fn clear(&mut self) {
        self.0 = Board::new();
    }

    fn ask(&self) -> Told {
        let list = self.0.forbidden_points();
        Box::new(move || list.into_iter().filter_map(cross).collect())
    }
}

/// A cross of the original's list as ours, by the names of the point and of the kind.
fn cross((kind, point): (impl std::fmt::Debug, impl std::fmt::Display)) -> Option<Cross> {
    let (kind, point) = (format!("{kind:?}"), point.to_string().parse().ok()?);
    let verdict = Verdict::ALL
        .into_iter()
        .find(|verdict| verdict.to_string() == kind)?;
    Some(Cross { point, verdict })
}

fn main() -> ExitCode {
    frames::main(vec![Box::new(Original(Board::new()))])
}
