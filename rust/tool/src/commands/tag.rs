//! `renju tag`: stored games, in tagged form.

use super::turn::view;
use crate::args::{Call, Command, Opt};
use crate::failure::{Failure, Status};
use crate::items::{Item, each_text, whole};
use crate::json::Object;
use crate::output::Output;
use crate::place;
use renju::{Moves, Record, Refusal, View};
use std::path::Path;

pub const COMMAND: Command = Command {
    name: "tag",
    words: "[MOVES]...  |  --back [RECORD]...  |  --bytes [FILE]",
    summary: "games as stored records, and back",
    about: "\
Writes each game of MOVES, or of the lines of standard input, as a record in tagged form, its bytes as hexadecimal digits, a
line each: 01 0001 and the view, then 02, how many moves there are in two bytes, and a point's code for each. With --back it
reads such lines and writes moves text, as the moves are stored.

With --bytes it reads a FILE, or standard input, of one game, a code byte for each move, and writes the record's bytes; with
--back too it takes the record's bytes back, which must be in view 0.",
    options: &[
        Opt {
            name: "--back",
            value: None,
            about: "from the record to the moves",
        },
        Opt {
            name: "--view",
            value: Some("VIEW"),
            about: "the view that the record is shown in, 0 to 7 or its name (renju turn --help); 0 where none is given",
        },
        Opt {
            name: "--bytes",
            value: None,
            about: "one game, its bytes as they are",
        },
    ],
    example: "\
$ renju tag --view 4 H8,I9
010001040200027080
$ renju tag --back 010001040200027080
H8,I9",
    run,
};

fn run(call: &Call, output: &mut Output) -> Result<Status, Failure> {
    let shown = call.value("--view").map_or(Ok(View::Same), view)?;
    match (call.has("--bytes"), call.has("--back")) {
        (true, back) => bytes(call, output, shown, back),
        (false, true) => each_text(call, 0, output, untag),
        (false, false) => each_text(call, 0, output, |item, output| tag(item, output, shown)),
    }
}

fn tag(item: &Item, output: &mut Output, view: View) -> Result<Status, Failure> {
    match Moves::read(&item.text) {
        Ok(moves) => write(&Record::new(view, moves), false, output),
        Err(refusal) => {
            let place = place::of_moves(&item.text, refusal);
            item.refused(output, &place, refusal)
        }
    }
}

fn untag(item: &Item, output: &mut Output) -> Result<Status, Failure> {
    let bytes = unhex(&item.text).ok_or(Refusal::Malformed);
    match bytes.and_then(|bytes| Record::try_from(&bytes[..])) {
        Ok(record) => write(&record, true, output),
        Err(refusal) => item.refused(output, &place::whole(&item.text, refusal), refusal),
    }
}

fn write(record: &Record, back: bool, output: &mut Output) -> Result<Status, Failure> {
    let digits: String = record
        .to_bytes()
        .iter()
        .map(|byte| format!("{byte:02x}"))
        .collect();
    if output.style.json {
        let object = Object::new().text("moves", record.moves());
        let object = object.field("view", record.view().number());
        output.line(object.text("record", digits).end())?;
    } else if back {
        output.line(record.moves().to_string())?;
    } else {
        output.line(digits)?;
    }
    Ok(Status::Fine)
}

/// The bytes of hexadecimal digits, two each; none where there are others.
fn unhex(text: &[u8]) -> Option<Vec<u8>> {
    let digit = |byte: &u8| char::from(*byte).to_digit(16);
    let digits: Option<Vec<u32>> = text.trim_ascii().iter().map(digit).collect();
    let digits = digits.filter(|digits| digits.len().is_multiple_of(2))?;
    let byte = |pair: &[u32]| u8::try_from(16 * pair[0] + pair[1]).ok();
    digits.chunks(2).map(byte).collect()
}

/// One game, its bytes as they are.
fn bytes(call: &Call, output: &mut Output, view: View, back: bool) -> Result<Status, Failure> {
    let name = call.words.first().map_or(Path::new("-"), Path::new);
    let text = whole(name)?;
    let made = if back {
        let codes = Record::try_from(&text[..]).and_then(|record| record.to_codes());
        codes.map(|codes| codes.to_vec())
    } else {
        let record = Moves::from_codes(&text).map(|moves| Record::new(view, moves));
        record.map(|record| record.to_bytes().to_vec())
    };
    match made {
        Ok(bytes) => output.write(&bytes).map(|()| Status::Fine),
        Err(refusal) => {
            let item = Item { text, line: None };
            item.refused(output, &place::whole(&[], refusal), refusal)
        }
    }
}
