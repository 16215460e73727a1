//! `renju hint`: a win by fours.

use crate::args::{Call, Command, Opt};
use crate::failure::{Failure, Status};
use crate::items::{Item, each_board};
use crate::json::{self, Object};
use crate::output::{Output, Paint};
use renju::{Cells, Colour, Limit, Point, WinLine};

pub const COMMAND: Command = Command {
    name: "hint",
    words: "[TEXT]...",
    summary: "a line of fours that wins against every reply",
    about: "\
Writes a line of fours with which Black, or with --white White, to move, wins against every reply: the first attack, the reply
that it forces, the next attack, to the last one; or `no line`. Of all lines with at most that many attacks it is the first by
the points' codes.",
    options: &[
        Opt {
            name: "--white",
            value: None,
            about: "White is to move",
        },
        Opt {
            name: "--limit",
            value: Some("N"),
            about: "at most N attacks, 1 to 6; 6 where none is given",
        },
        Opt {
            name: "--shortest",
            value: None,
            about: "a line with the fewest attacks",
        },
    ],
    example: "\
$ renju hint --white --limit 2 'A1/F8,G8,H8,I5,I6,I7'
D8,E8,I4
$ renju hint --white --shortest 'A1/F8,G8,H8,I5,I6,I7'
E8",
    run,
};

fn run(call: &Call, output: &mut Output) -> Result<Status, Failure> {
    let limit = limit(call)?;
    let colour = if call.has("--white") {
        Colour::White
    } else {
        Colour::Black
    };
    let find = if call.has("--shortest") {
        Cells::shortest_win_by_fours
    } else {
        Cells::win_by_fours
    };
    each_board(call, 0, output, |cells, item, output| {
        say(find(cells, colour, limit), item, output)
    })
}

fn limit(call: &Call) -> Result<Limit, Failure> {
    let Some(value) = call.value("--limit") else {
        return Ok(Limit::SIX);
    };
    let number = value.parse().ok();
    let limit = number.and_then(|number| Limit::new(number).ok());
    limit.ok_or_else(|| Failure::usage(format!("--limit is 1 to 6, not \"{value}\"")))
}

fn say(line: Option<WinLine>, item: &Item, output: &mut Output) -> Result<Status, Failure> {
    let points: &[Point] = line.as_deref().unwrap_or_default();
    if output.style.json {
        let object = Object::new().text("text", String::from_utf8_lossy(&item.text));
        let list = json::texts(points.iter());
        let list = if line.is_some() {
            list
        } else {
            "null".to_owned()
        };
        output.line(object.field("line", list).end())?;
        return Ok(Status::Fine);
    }
    let names: Vec<String> = points.iter().map(Point::to_string).collect();
    let said = match line {
        Some(_) => output.style.paint(Paint::Green, names.join(",")),
        None => "no line".to_owned(),
    };
    output.line(said)?;
    Ok(Status::Fine)
}
