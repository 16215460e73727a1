//! `renju depth`: how deep the question at a point goes.

use super::verdict::point;
use crate::args::{Call, Command};
use crate::failure::{Failure, Status};
use crate::items::each_board;
use crate::json::Object;
use crate::output::Output;

pub const COMMAND: Command = Command {
    name: "depth",
    words: "POINT [TEXT]...",
    summary: "how deep the question at a point goes",
    about: "\
Writes how deep the referee's question at a point goes, and the verdict: 0 at an occupied point, 1 where no other question is
asked, else one more than the deepest question at the eye of a three that the stone would make.",
    options: &[],
    example: "\
$ renju depth H8 'G8,I8,H7,H9/A1'
H8 2 DoubleThree",
    run,
};

fn run(call: &Call, output: &mut Output) -> Result<Status, Failure> {
    let point = point(call)?;
    each_board(call, 1, output, |cells, item, output| {
        let (depth, verdict) = (cells.depth(point), cells.verdict(point));
        if output.style.json {
            let object = Object::new().text("text", String::from_utf8_lossy(&item.text));
            let object = object.text("point", point).field("depth", depth);
            output.line(object.text("verdict", verdict).end())?;
        } else {
            output.line(format!("{point} {depth} {verdict}"))?;
        }
        Ok(Status::Fine)
    })
}
