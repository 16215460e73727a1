//! `renju mend`: hand-typed move lists.

use crate::args::{Call, Command};
use crate::failure::{Failure, Status};
use crate::items::{Item, each_text};
use crate::json::{self, Object};
use crate::output::Output;
use crate::place;
use renju::{Mended, mend};

pub const COMMAND: Command = Command {
    name: "mend",
    words: "[TEXT]...",
    summary: "keep the leading moves of a hand-typed list, and say what slips",
    about: "\
Of each comma list of moves it writes the leading moves up to the first item that is no point, or a point that is kept already;
then, on a second line, that item's number, from 1, and its reason, or 0 0 where no item slips: 1 a point that is kept already,
3 no column A to O, 4 no row 1 to 15, or something behind it. The item is shown in its place on standard error, and the exit
status is then 1.",
    options: &[],
    example: "\
$ renju mend 'h8, i9,H08,J10' 2>&1
renju: item 3, \"H08\": the point is there already
  h8, i9,H08,J10
         ^^^
H8,I9
3 1",
    run,
};

fn run(call: &Call, output: &mut Output) -> Result<Status, Failure> {
    each_text(call, 0, output, |item, output| match mend(&item.text) {
        Ok(mended) => say(item, &mended, output),
        Err(refusal) => item.refused(output, &place::whole(&item.text, refusal), refusal),
    })
}

fn say(item: &Item, mended: &Mended, output: &mut Output) -> Result<Status, Failure> {
    let place = mended
        .slip
        .map(|(number, slip)| place::of_slip(&item.text, number, slip));
    if output.style.json {
        let object = Object::new().field("kept", json::texts(mended.kept.iter()));
        let (number, reason) = mended
            .slip
            .map_or((0, 0), |(number, slip)| (number, slip.number()));
        let object = object.field("item", number).field("reason", reason);
        output.line(object.maybe("why", place.map(|place| place.words)).end())?;
    } else {
        if let Some(place) = place {
            eprintln!("{}", place.explained(&item.text, item.line));
        }
        output.line(mended.to_string())?;
    }
    Ok(Status::found(mended.slip.is_some()))
}
