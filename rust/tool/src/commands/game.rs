//! `renju game`: recorded games refereed.

use super::files::{Job, Said, Tally, named};
use crate::args::{Call, Command, Opt};
use crate::failure::{Failure, Status};
use crate::items::each_text;
use crate::json::Object;
use crate::output::{Output, Paint, Style};
use crate::place;
use renju::{Fault, Moves, Reason, Refusal, Report, sgf};

pub const COMMAND: Command = Command {
    name: "game",
    words: "[FILE]...",
    summary: "referee recorded games: the first faulty move, or the winner",
    about: "\
Reads games, one a line, moves text (H8,I9,J10), from FILEs, or from standard input, and writes a line of report for each, in
input order, and the counts. A report is the first faulty move (`move 9 (H8): forbidden, DoubleThree`; the other reasons are
`occupied` and `after a five`), `no fault, Black has won`, `no fault, nobody has won`, or `refused 3: ..` for a line that is no
game. With several FILEs each report has the file and the game's number in it before it. With --json there are no counts.

Files may be of any size: they are read by lines, on all cores, and the room that is taken does not grow with them. How many
games a second there were is said on standard error.",
    options: &[
        Opt {
            name: "--sgf",
            value: None,
            about: "the files are SGF, with one game or several in each; a game ends at each `)`, so what is refused may count as several",
        },
        Opt {
            name: "--moves",
            value: None,
            about: "the words are games, not files",
        },
        Opt {
            name: "--faults",
            value: None,
            about: "of files, only games with a fault and those refused, each with its number",
        },
        Opt {
            name: "--stream",
            value: None,
            about: "for engines that start many: reports alone, no counts, no speed; status 0 whatever they say",
        },
        Opt {
            name: "--quiet",
            value: None,
            about: "no bar, and not how fast it went",
        },
    ],
    example: "\
$ printf 'H8,I9,J10\\nG8,A1,I8,A3,H7,A5,H9,A7,H8\\nH8,Z9\\n' | renju game
no fault, nobody has won
move 9 (H8): forbidden, DoubleThree
refused 3: item 2, \"Z9\": no column A to O
games 3, faulty 1, refused 1",
    run,
};

fn run(call: &Call, output: &mut Output) -> Result<Status, Failure> {
    let style = output.style;
    let sgf = call.has("--sgf");
    let read = if sgf { sgf::read } else { Moves::read };
    let work = |text: &[u8], front: &str| say(text, read(text), front, style, sgf);
    let tally = if call.has("--moves") {
        if call.has("--faults") {
            return Err(Failure::usage("--faults is for files: leave out --moves"));
        }
        words(call, output, work)?
    } else {
        let job = Job {
            files: &named(call, if sgf { b')' } else { b'\n' }),
            unit: "games",
            only_faults: call.has("--faults"),
            work,
        };
        job.run(call, output)?
    };
    if call.has("--stream") {
        return Ok(Status::Fine);
    }
    if !style.json {
        let Tally {
            texts,
            faulty,
            refused,
        } = tally;
        output.line(format!("games {texts}, faulty {faulty}, refused {refused}"))?;
    }
    Ok(tally.status())
}

/// The games on the command line.
fn words(
    call: &Call,
    output: &mut Output,
    work: impl Fn(&[u8], &str) -> Said,
) -> Result<Tally, Failure> {
    let mut tally = Tally::default();
    each_text(call, 0, output, |item, output| {
        let (said, counts) = work(&item.text, "");
        tally += counts;
        output.write(&said)?;
        Ok(counts.status())
    })?;
    Ok(tally)
}

/// A game's line.
fn say(text: &[u8], moves: Result<Moves, Refusal>, front: &str, style: Style, sgf: bool) -> Said {
    let (line, tally) = match (moves, style.json) {
        (Ok(moves), false) => report(&moves.report(), style),
        (Ok(moves), true) => object(&moves, front),
        (Err(refusal), json) => (
            refused(text, refusal, front, style, sgf, json),
            Tally::REFUSED,
        ),
    };
    let front = if style.json { "" } else { front };
    (format!("{front}{line}\n").into_bytes(), tally)
}

fn report(report: &Report, style: Style) -> (String, Tally) {
    match (report.fault, report.winner) {
        (Some(_), _) => (style.paint(Paint::Red, report), Tally::FAULTY),
        (None, Some(_)) => (style.paint(Paint::Green, report), Tally::FINE),
        (None, None) => (report.to_string(), Tally::FINE),
    }
}

fn refused(
    text: &[u8],
    refusal: Refusal,
    front: &str,
    style: Style,
    sgf: bool,
    json: bool,
) -> String {
    let place = if sgf {
        place::whole(text, refusal)
    } else {
        place::of_moves(text, refusal)
    };
    if json {
        return placed(place.object(text, refusal), front).end();
    }
    let words = format!("refused {}: {}", refusal.number(), place.words);
    style.paint(Paint::Yellow, words)
}

/// The file and the game's number, where they are told.
fn placed(object: Object, front: &str) -> Object {
    match front.trim_end_matches(": ") {
        "" => object,
        place => object.text("place", place),
    }
}

fn object(moves: &Moves, front: &str) -> (String, Tally) {
    let report = moves.report();
    let fault = report.fault.map(|fault| fault_object(&report, fault));
    let object = placed(Object::new().text("moves", moves), front);
    let object = match &fault {
        Some(fault) => object.field("fault", fault),
        None => object.field("fault", "null"),
    };
    let tally = if fault.is_some() {
        Tally::FAULTY
    } else {
        Tally::FINE
    };
    (object.maybe("winner", report.winner).end(), tally)
}

fn fault_object(report: &Report, fault: Fault) -> String {
    let object = Object::new().field("move", fault.number);
    let object = object
        .text("point", fault.point)
        .text("reason", fault.reason);
    match fault.reason {
        Reason::Forbidden => object.text("kind", report.cells.verdict(fault.point)).end(),
        _ => object.end(),
    }
}
