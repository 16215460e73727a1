//! `renju svg`: pictures.

use super::turn::view;
use crate::args::{Call, Command, Opt};
use crate::failure::{Failure, Status};
use crate::items::{Item, each_board};
use crate::json::Object;
use crate::output::Output;
use renju::{Cells, Moves, Picture, View};

pub const COMMAND: Command = Command {
    name: "svg",
    words: "[TEXT]...",
    summary: "a board as a picture",
    about: "\
Writes each board as an SVG picture: the stones, for moves with their numbers, and a red cross at each point that is forbidden
to Black. Of moves with a fault the picture is that of those before it. Several pictures stand one behind another; with --json
each is a line.",
    options: &[
        Opt {
            name: "--view",
            value: Some("VIEW"),
            about: "as a player in this view sees it, 0 to 7 or its name (renju turn --help)",
        },
        Opt {
            name: "--words",
            value: Some("TEXT"),
            about: "words under the board",
        },
    ],
    example: "\
$ renju svg 'G8,I8,H7,H9/A1' > board.svg
$ grep -o '<title>H8 DoubleThree</title>' board.svg
<title>H8 DoubleThree</title>",
    run,
};

fn run(call: &Call, output: &mut Output) -> Result<Status, Failure> {
    let view = call.value("--view").map_or(Ok(View::Same), view)?;
    let words = call.value("--words");
    each_board(call, 0, output, |cells, item, output| {
        say(drawn(cells, item, words, view), item, output)
    })
}

/// The picture; moves have their numbers.
fn drawn(cells: &Cells, item: &Item, words: Option<&str>, view: View) -> String {
    let moves = Moves::read(&item.text).ok();
    let report = moves.map(|moves| moves.report());
    let cells = report.as_ref().map_or(cells, |report| &report.cells);
    let mut picture = Picture::of(cells).view(view);
    if let (Some(moves), Some(report)) = (moves, &report) {
        let good = report
            .fault
            .map_or(renju::MOVES, |fault| usize::from(fault.number) - 1);
        picture = picture.moves(moves.points().take(good));
    }
    if let Some(words) = words {
        picture = picture.words(words);
    }
    picture.to_string()
}

fn say(svg: String, item: &Item, output: &mut Output) -> Result<Status, Failure> {
    if output.style.json {
        let object = Object::new().text("text", String::from_utf8_lossy(&item.text));
        output.line(object.text("svg", svg).end())?;
    } else {
        output.line(svg.trim_end())?;
    }
    Ok(Status::Fine)
}
