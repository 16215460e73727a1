//! Times the original and the host interface on the same boards, then the second referee beside the
//! fast one, then the depth of a question beside its verdict: `bench [SEED] [quick] [--markdown]`.
//!
//! Exit status 1 if any answer differs, 2 for an argument that is not understood.

use std::env;
use std::process::ExitCode;

use runs::timing::machine;
use runs::timing::suite::{self, Difference, SEED, Settings};
use runs::timing::table::{self, Row};

/// What the arguments ask for.
struct Asked {
    settings: Settings,
    markdown: bool,
}

fn main() -> ExitCode {
    let Some(asked) = read_arguments() else {
        eprintln!("usage: bench [SEED] [quick] [--markdown]");
        return ExitCode::from(2);
    };
    print!("{}", conditions(&asked.settings));
    // Rows come slowly; who waits sees on the error stream that something happens.
    let report = |row: &Row| eprintln!("timed: {}, {}", row.question, row.boards);
    match timed(&asked.settings, report) {
        Ok([rows, second, depths]) => {
            let write = if asked.markdown {
                table::markdown
            } else {
                table::plain
            };
            println!("\n{}", write(&rows, ["original", "ours"]));
            println!("{}", write(&second, ["second", "fast"]));
            println!("{}", write(&depths, ["depth", "verdict"]));
            println!("{}", table::LEGEND);
            ExitCode::SUCCESS
        }
        Err(difference) => {
            eprintln!("{difference}");
            ExitCode::FAILURE
        }
    }
}

/// The rows of the three tables, in their order.
fn timed(settings: &Settings, report: fn(&Row)) -> Result<[Vec<Row>; 3], Difference> {
    Ok([
        suite::run(settings, report)?,
        suite::run_second(settings, report)?,
        suite::run_depths(settings, report)?,
    ])
}

/// A number is the seed; the two words may stand anywhere.
fn read_arguments() -> Option<Asked> {
    let (mut seed, mut quick, mut markdown) = (SEED, false, false);
    for argument in env::args().skip(1) {
        match argument.as_str() {
            "quick" | "--quick" => quick = true,
            "--markdown" => markdown = true,
            number => seed = number.parse().ok()?,
        }
    }
    let settings = if quick {
        Settings::quick(seed)
    } else {
        Settings::usual(seed)
    };
    Some(Asked { settings, markdown })
}

/// Under what conditions the times are taken: enough to take them again. It reads as a list in
/// Markdown too.
fn conditions(settings: &Settings) -> String {
    let Settings {
        seed,
        games,
        nested,
        by_point,
        changed,
        played,
        pace,
        second,
        second_pace,
    } = settings;
    let (rounds, warm_up, sample) = (pace.rounds, pace.warm_up, pace.sample);
    let (slow_rounds, slow_warm_up) = (second_pace.rounds, second_pace.warm_up);
    let (machine, clock) = (machine::kind(), machine::clock());
    format!(
        "\
- Machine: {machine}.
- Seed: {seed}.
- Boards: {games} games of each number of stones and {nested} nested boards. Verdicts are asked at
  every empty point of the first {by_point} of each; put and remove at every empty point of the
  first {changed} games of each number of stones, again and again at one point, then on all these
  boards by turns: a stone put on each, then taken off each.
- Whole games: {played} of each length, without a fault. Those of 20 and 60 moves are played, those
  of 120 and 225 are full boards without a five, put stone by stone. The original is asked at each
  move whether the point is free, for the strict verdict where Black moves, and after the stone is
  put for a five through it.
- Order: {rounds} rounds over all questions after {warm_up} of warm-up. Each question is asked of
  both, one after the other; which goes first changes with the round and with the question.
- Samples: calls that take less than {sample} ns on the faster side go several to a sample, as many
  on either side. Looking at the clock takes {clock} ns of a sample and is not taken off.
- Original: its own functions on a board that stands ready. Lists that it allocates are dropped in
  the timed part.
- Ours: the host calls on 225 cell bytes or on the text. 450 bytes are lent for a list, 225 for a
  board read, zeroed once before the first call and lent again as the last call left them.
- Second: the second referee beside the fast one, host calls both, on the first {second} boards of
  each set: the list, and the strict verdict at every empty point. {slow_rounds} rounds after
  {slow_warm_up} of warm-up.
- Depth: the depth with its verdict beside the verdict alone, host calls both, at every empty point
  of all nested boards, in as many rounds. The ratio says how many times as long the depth takes.
- Answers: all compared, before the timed rounds and after them.
"
    )
}
