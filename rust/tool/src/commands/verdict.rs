//! `renju verdict`: what the referee says of a black stone at a point.

use crate::args::{Call, Command, Opt};
use crate::failure::{Failure, Status};
use crate::items::{Item, each_board};
use crate::json::Object;
use crate::output::{Output, Paint};
use crate::place;
use renju::{Point, Verdict};

pub const COMMAND: Command = Command {
    name: "verdict",
    words: "POINT [TEXT]...",
    summary: "whether a point is forbidden to Black, and why",
    about: "\
Writes the point and the referee's verdict on a black stone there: DoubleThree, DoubleFour, Overline or None. None is also said
of an occupied point, and of one where the stone completes a five.",
    options: &[Opt {
        name: "--plain",
        value: None,
        about: "the plain verdict, whether or not the stone completes a five; an occupied point is refused",
    }],
    example: "\
$ renju verdict H8 'G8,I8,H7,H9/A1'
H8 DoubleThree
$ renju verdict H8 'G8,I8,H7,H9/E8,K8'
H8 None",
    run,
};

fn run(call: &Call, output: &mut Output) -> Result<Status, Failure> {
    let point = point(call)?;
    let plain = call.has("--plain");
    each_board(call, 1, output, |cells, item, output| {
        if !plain {
            return say(cells.verdict(point), point, item, output);
        }
        match cells.plain_verdict(point) {
            Ok(verdict) => say(verdict, point, item, output),
            Err(refusal) => item.refused(output, &place::whole(&item.text, refusal), refusal),
        }
    })
}

/// The point that is the first word.
pub fn point(call: &Call) -> Result<Point, Failure> {
    let word = call.first("POINT")?;
    word.parse().map_err(|refusal| {
        let place = place::of_moves(word.as_bytes(), refusal);
        let said = place.explained(word.as_bytes(), None);
        Failure::usage(said.trim_start_matches("renju: "))
    })
}

fn say(
    verdict: Verdict,
    point: Point,
    item: &Item,
    output: &mut Output,
) -> Result<Status, Failure> {
    if output.style.json {
        let object = Object::new().text("text", String::from_utf8_lossy(&item.text));
        let object = object.text("point", point).text("verdict", verdict);
        output.line(object.field("forbidden", verdict.is_forbidden()).end())?;
        return Ok(Status::Fine);
    }
    let said = if verdict.is_forbidden() {
        output.style.paint(Paint::Red, verdict)
    } else {
        verdict.to_string()
    };
    output.line(format!("{point} {said}"))?;
    Ok(Status::Fine)
}
