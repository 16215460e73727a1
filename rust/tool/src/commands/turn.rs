//! `renju turn`: boards and games in another view.

use crate::args::{Call, Command};
use crate::failure::{Failure, Status};
use crate::items::{Item, each_board};
use crate::json::Object;
use crate::output::Output;
use crate::place;
use renju::{Cells, Moves, Refusal, View};

pub const COMMAND: Command = Command {
    name: "turn",
    words: "VIEW [TEXT]...",
    summary: "a board or a game in another view",
    about: "\
Writes each board or game as it is in one of the eight views, moves as moves in their order, stones as stones. A VIEW is a
number or a name, in capitals or not:
  0 Same         1 QuarterRight   2 HalfTurn    3 QuarterLeft
  4 LeftRight    5 TopBottom      6 Ascending   7 Descending (the diagonals that it is mirrored in)
  canonical, the one of the eight that gives the least board by its cell bytes: all eight views of a board have the same",
    options: &[],
    example: "\
$ renju turn leftright C15,I9
M15,G9
$ renju turn 1 'G8,I8,H7,H9/A1'
G8,H7,H9,I8/A15
$ renju turn canonical C15/I9 M15/G9
O3/I9
O3/I9",
    run,
};

/// The view of a number or a name.
pub fn view(word: &str) -> Result<View, Failure> {
    let number: Option<u8> = word.parse().ok();
    let view = number.map_or_else(|| word.parse(), View::from_number);
    view.map_err(|_| {
        let names = View::ALL.map(|view| view.to_string()).join(", ");
        Failure::usage(format!("a view is 0 to 7, or {names}, not \"{word}\""))
    })
}

fn run(call: &Call, output: &mut Output) -> Result<Status, Failure> {
    let word = call.first("VIEW")?;
    // None where each board has its own.
    let given = match word {
        "canonical" => None,
        _ => Some(view(word)?),
    };
    each_board(call, 1, output, |cells, item, output| {
        let view = given.unwrap_or_else(|| cells.canonical().1);
        match turned(cells, &item.text, view) {
            Ok(text) => say(text, item, view, output),
            Err(refusal) => item.refused(output, &place::whole(&item.text, refusal), refusal),
        }
    })
}

/// The same kind of text, turned.
fn turned(cells: &Cells, text: &[u8], view: View) -> Result<String, Refusal> {
    if text.contains(&b'/') {
        return cells.turned(view).to_stones();
    }
    Ok(Moves::read(text)?.turned(view).to_string())
}

fn say(text: String, item: &Item, view: View, output: &mut Output) -> Result<Status, Failure> {
    if output.style.json {
        let object = Object::new().text("text", String::from_utf8_lossy(&item.text));
        let object = object.field("view", view.number());
        output.line(object.text("turned", text).end())?;
    } else {
        output.line(text)?;
    }
    Ok(Status::Fine)
}
