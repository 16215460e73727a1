//! `renju sgf`: games to and from SGF.

use crate::args::{Call, Command, Opt};
use crate::failure::{Failure, Status};
use crate::items::{Input, Item, STDIN, Texts, each_text, open, standard_input};
use crate::json::Object;
use crate::output::Output;
use crate::place;
use renju::{Moves, sgf};
use std::path::Path;

pub const COMMAND: Command = Command {
    name: "sgf",
    words: "[MOVES]...  |  --back [FILE]...",
    summary: "moves text as SGF, and SGF as moves text",
    about: "\
Writes each game of MOVES, or of the lines of standard input, as SGF text, a line each. With --back it reads SGF from FILEs, or
from standard input, with one game or several in each, and writes a line of moves text for each.

The SGF that is read is what is written, with white space around its tokens: no other property, no variation, no pass. The rest
is refused. The referee is not asked: renju game --sgf FILE... does that.",
    options: &[Opt {
        name: "--back",
        value: None,
        about: "from SGF to moves text",
    }],
    example: "\
$ renju sgf H8,I9
(;GM[4]SZ[15];B[hh];W[ig])
$ renju sgf H8,I9 | renju sgf --back
H8,I9",
    run,
};

fn run(call: &Call, output: &mut Output) -> Result<Status, Failure> {
    if call.has("--back") {
        return back(call, output);
    }
    each_text(call, 0, output, |item, output| {
        let moves = match Moves::read(&item.text) {
            Ok(moves) => moves,
            Err(refusal) => {
                let place = place::of_moves(&item.text, refusal);
                return item.refused(output, &place, refusal);
            }
        };
        let text = String::from_utf8_lossy(&sgf::write(&moves)).into_owned();
        write(&moves, &text, &text, output)
    })
}

fn back(call: &Call, output: &mut Output) -> Result<Status, Failure> {
    if call.words.is_empty() {
        return read(standard_input(), STDIN, output);
    }
    let mut worst = Status::Fine;
    for name in call.words.iter().map(Path::new) {
        let input = open(name)?;
        worst = worst.max(read(input, &name.display().to_string(), output)?);
    }
    Ok(worst)
}

/// The games of one file.
fn read(input: Input, name: &str, output: &mut Output) -> Result<Status, Failure> {
    let mut texts = Texts::new(input, b')');
    let mut worst = Status::Fine;
    while let Some(text) = texts.next(name)? {
        let status = match sgf::read(&text) {
            Ok(moves) => write(
                &moves,
                &String::from_utf8_lossy(&text),
                &moves.to_string(),
                output,
            )?,
            Err(refusal) => {
                let mut place = place::whole(&text, refusal);
                place.words = format!("{name}: {}", place.words);
                let item = Item { text, line: None };
                item.refused(output, &place, refusal)?
            }
        };
        worst = worst.max(status);
    }
    Ok(worst)
}

/// Both texts as JSON, or the one that was asked for.
fn write(moves: &Moves, sgf: &str, asked: &str, output: &mut Output) -> Result<Status, Failure> {
    if output.style.json {
        let object = Object::new().text("moves", moves).text("sgf", sgf.trim());
        output.line(object.end())?;
    } else {
        output.line(asked)?;
    }
    Ok(Status::Fine)
}
