//! `renju list`: the points forbidden to Black.

use crate::args::{Call, Command};
use crate::failure::{Failure, Status};
use crate::items::{Item, each_board};
use crate::json::{self, Object};
use crate::output::{Output, Paint};
use renju::{Cells, Cross};

pub const COMMAND: Command = Command {
    name: "list",
    words: "[TEXT]...",
    summary: "the points that are forbidden to Black on a board",
    about: "\
Writes each point that is forbidden to Black, with its kind, by code (A1, A2, .. A15, B1, ..), then the count, for each board's
TEXT, or for each line of standard input.",
    options: &[],
    example: "\
$ renju list 'G8,I8,H7,H9/A1'
H8 DoubleThree
forbidden 1",
    run,
};

fn run(call: &Call, output: &mut Output) -> Result<Status, Failure> {
    each_board(call, 0, output, |cells, item, output| {
        if output.style.json {
            output.line(object(cells, item))?;
        } else {
            say(cells, output)?;
        }
        Ok(Status::Fine)
    })
}

fn say(cells: &Cells, output: &mut Output) -> Result<(), Failure> {
    let crosses = cells.forbidden_points();
    for cross in &crosses {
        let kind = output.style.paint(Paint::Red, cross.verdict);
        output.line(format!("{} {kind}", cross.point))?;
    }
    output.line(format!("forbidden {}", crosses.len()))
}

fn object(cells: &Cells, item: &Item) -> String {
    let cross = |cross: Cross| {
        let object = Object::new().text("point", cross.point);
        object.text("kind", cross.verdict).end()
    };
    let crosses = json::list(cells.forbidden_points().into_iter().map(cross));
    let object = Object::new().text("text", String::from_utf8_lossy(&item.text));
    object.field("forbidden", crosses).end()
}
