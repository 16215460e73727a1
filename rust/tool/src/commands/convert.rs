//! `renju convert`: saved diagrams and stones text.

use crate::args::{Call, Command, Opt};
use crate::failure::{Failure, Status};
use crate::items::{Item, each_board, whole};
use crate::json::Object;
use crate::output::Output;
use crate::place;
use renju::{Cells, Refusal};
use std::ffi::OsString;
use std::path::Path;

pub const COMMAND: Command = Command {
    name: "convert",
    words: "[FILE]...  |  --back [TEXT]...",
    summary: "saved diagrams as stones text, and boards as diagrams",
    about: "\
Writes the board of each FILE, or of standard input, a saved diagram, as stones text, which the other commands take. A diagram
is 15 lines of 15 cells, from row 15 down: o black, x white, any other byte empty, spaces dropped. A board without stones of one
side has no stones text.

With --back it writes each board's TEXT as a diagram, and with --numbered as one with its rows numbered and its columns
lettered, which does not read back.",
    options: &[
        Opt {
            name: "--back",
            value: None,
            about: "from a board's text to a diagram",
        },
        Opt {
            name: "--numbered",
            value: None,
            about: "with --back: the rows numbered, the columns lettered",
        },
    ],
    example: "\
$ renju convert --back 'G8,I8,H7,H9/A1' | renju convert
G8,H7,H9,I8/A1",
    run,
};

fn run(call: &Call, output: &mut Output) -> Result<Status, Failure> {
    if call.has("--back") {
        let numbered = call.has("--numbered");
        return each_board(call, 0, output, |cells, item, output| {
            diagram(cells, item, numbered, output)
        });
    }
    if call.has("--numbered") {
        return Err(Failure::usage("--numbered goes with --back"));
    }
    let standard_input = [OsString::from("-")];
    let names = if call.words.is_empty() {
        &standard_input[..]
    } else {
        &call.words[..]
    };
    let mut worst = Status::Fine;
    for name in names.iter().map(Path::new) {
        worst = worst.max(stones(name, output)?);
    }
    Ok(worst)
}

fn stones(name: &Path, output: &mut Output) -> Result<Status, Failure> {
    let text = whole(name)?;
    let stones = Cells::from_diagram(&text).and_then(|cells| cells.to_stones());
    match stones {
        Ok(stones) if output.style.json => {
            output.line(Object::new().text("stones", stones).end())?;
        }
        Ok(stones) => output.line(stones)?,
        Err(refusal) => return refused(name, text, refusal, output),
    }
    Ok(Status::Fine)
}

fn refused(
    name: &Path,
    text: Vec<u8>,
    refusal: Refusal,
    output: &mut Output,
) -> Result<Status, Failure> {
    let mut place = place::whole(&[], refusal);
    if name != Path::new("-") {
        place.words = format!("{}: {}", name.display(), place.words);
    }
    Item { text, line: None }.refused(output, &place, refusal)
}

fn diagram(
    cells: &Cells,
    item: &Item,
    numbered: bool,
    output: &mut Output,
) -> Result<Status, Failure> {
    let text = if numbered {
        cells.to_pretty_string()
    } else {
        cells.to_string()
    };
    if output.style.json {
        let object = Object::new().text("text", String::from_utf8_lossy(&item.text));
        output.line(object.text("diagram", text).end())?;
    } else {
        output.line(text)?;
    }
    Ok(Status::Fine)
}
