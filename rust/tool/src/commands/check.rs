//! `renju check`: both referees on files of boards.

use super::files::{Job, Said, Tally, named};
use crate::args::{Call, Command, Opt};
use crate::failure::{Failure, Status};
use crate::json::Object;
use crate::output::{Output, Paint, Style};
use crate::place;
use renju::{Cells, Colour, Kind, Point, second};

pub const COMMAND: Command = Command {
    name: "check",
    words: "[FILE]...",
    summary: "ask both referees everything about the boards of a file",
    about: "\
Asks the fast referee and the second one, which is slow and was written to be read, every question about each board, a line
each, stones or moves, of FILEs or of standard input: rows of each colour and kind, those through each point, four eyes, both
verdicts at each point, the list of forbidden points. Writes a line for each board on which they differ, or that is refused, and
the counts. Their answers are proved to be the same; what this adds is that they are, as compiled and on this machine.",
    options: &[Opt {
        name: "--quiet",
        value: None,
        about: "no bar, and not how fast it went",
    }],
    example: "\
$ printf 'G8,I8,H7,H9/A1\\nH8,I9,J10\\n' | renju check
boards 2, different 0, refused 0",
    run,
};

fn run(call: &Call, output: &mut Output) -> Result<Status, Failure> {
    let style = output.style;
    let job = Job {
        files: &named(call, b'\n'),
        unit: "boards",
        only_faults: true,
        work: |text: &[u8], front: &str| say(text, front, style),
    };
    let tally = job.run(call, output)?;
    let Tally {
        texts,
        faulty,
        refused,
    } = tally;
    if style.json {
        let object = Object::new().field("boards", texts);
        let object = object.field("different", faulty);
        output.line(object.field("refused", refused).end())?;
    } else {
        output.line(format!(
            "boards {texts}, different {faulty}, refused {refused}"
        ))?;
    }
    Ok(tally.status())
}

/// What is said of a board: nothing where both referees agree.
fn say(text: &[u8], front: &str, style: Style) -> Said {
    let (line, tally) = match Cells::read(text) {
        Ok(cells) => match differ(&cells) {
            None => return (Vec::new(), Tally::FINE),
            Some(what) => (different(text, &what, style), Tally::FAULTY),
        },
        Err(refusal) => {
            let place = place::of_board(text, refusal);
            let line = if style.json {
                place.object(text, refusal).end()
            } else {
                let words = format!("refused {}: {}", refusal.number(), place.words);
                style.paint(Paint::Yellow, words)
            };
            (line, Tally::REFUSED)
        }
    };
    let front = if style.json { "" } else { front };
    (format!("{front}{line}\n").into_bytes(), tally)
}

fn different(text: &[u8], what: &str, style: Style) -> String {
    let text = String::from_utf8_lossy(text);
    if style.json {
        return Object::new()
            .text("text", text)
            .text("different", what)
            .end();
    }
    style.paint(Paint::Red, format!("different, {what}: {text}"))
}

/// The first question that the two answer differently.
fn differ(cells: &Cells) -> Option<String> {
    if cells.forbidden_points() != second::forbidden_points(cells) {
        return Some("the forbidden points".to_owned());
    }
    for colour in Colour::ALL {
        for kind in Kind::ALL {
            if cells.rows(colour, kind) != second::rows(cells, colour, kind) {
                return Some(format!("{colour}'s rows of kind {kind}"));
            }
        }
    }
    Point::all().find_map(|point| differ_at(cells, point))
}

/// .. at a point.
fn differ_at(cells: &Cells, point: Point) -> Option<String> {
    if cells.verdict(point) != second::verdict(cells, point) {
        return Some(format!("the verdict at {point}"));
    }
    if cells.plain_verdict(point) != second::plain_verdict(cells, point) {
        return Some(format!("the plain verdict at {point}"));
    }
    for colour in Colour::ALL {
        if cells.four_eyes_on(point, colour) != second::four_eyes_on(cells, point, colour) {
            return Some(format!("{colour}'s four eyes through {point}"));
        }
        for kind in Kind::ALL {
            if cells.rows_on(point, colour, kind) != second::rows_on(cells, point, colour, kind) {
                return Some(format!("{colour}'s rows of kind {kind} through {point}"));
            }
        }
    }
    None
}
