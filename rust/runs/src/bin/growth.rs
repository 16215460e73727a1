//! Cost as work grows: `growth [quick] [--svg FILE] [SEED]`. The time of a list against the stones on
//! the board and against nesting depth, as a table on standard output and as a picture in FILE. Exit
//! status 1 where an answer differs from the original's, 2 for wrong usage and a failed write.

use std::process::ExitCode;
use std::{env, fs};

use runs::growth::{self, Group, Measured, Settings};
use runs::timing::race::Pace;
use runs::timing::{curves, machine};

const DEEPEST: &str = include_str!("../../../renju/tests/deepest.txt");

struct Asked {
    seed: u64,
    quick: bool,
    svg: Option<String>,
}

fn main() -> ExitCode {
    let Some(asked) = read_arguments() else {
        eprintln!("usage: growth [quick] [--svg FILE] [SEED]");
        return ExitCode::from(2);
    };
    let settings = settings(&asked);
    println!(
        "machine: {}; seed {}; times in ns for one list",
        machine::kind(),
        asked.seed
    );
    let stones = growth::by_stones(&settings, if asked.quick { 50 } else { 10 });
    let by_stones = told("by stones on the board", &stones, &settings);
    let depths = growth::by_depth(&settings, DEEPEST);
    let by_depth = told("by the depth of the deepest question", &depths, &settings);
    let (Some(by_stones), Some(by_depth)) = (by_stones, by_depth) else {
        eprintln!("an answer differs from the original's");
        return ExitCode::FAILURE;
    };
    if let Some(file) = asked.svg {
        let charts = [
            growth::chart(
                "A list against the stones on the board",
                "stones",
                &by_stones,
            ),
            growth::chart(
                "A list against nesting depth",
                "depth of the deepest question",
                &by_depth,
            ),
        ];
        if let Err(error) = fs::write(&file, curves::svg(&charts)) {
            eprintln!("{file}: {error}");
            return ExitCode::from(2);
        }
    }
    ExitCode::SUCCESS
}

fn read_arguments() -> Option<Asked> {
    let mut asked = Asked {
        seed: runs::timing::suite::SEED,
        quick: false,
        svg: None,
    };
    let mut words = env::args().skip(1);
    while let Some(word) = words.next() {
        match word.as_str() {
            "quick" => asked.quick = true,
            "--svg" => asked.svg = Some(words.next()?),
            number => asked.seed = number.parse().ok()?,
        }
    }
    Some(asked)
}

fn settings(asked: &Asked) -> Settings {
    let pace = Pace {
        warm_up: 2,
        rounds: if asked.quick { 3 } else { 15 },
        sample: 2_000.0,
    };
    Settings {
        seed: asked.seed,
        boards: if asked.quick { 3 } else { 60 },
        looked_at: if asked.quick { 200 } else { 40_000 },
        pace,
    }
}

/// Times all groups, each told as soon as it is known; nothing where an answer differs.
fn told(words: &str, groups: &[Group], settings: &Settings) -> Option<Vec<Measured>> {
    println!("\n{words}\n{}", growth::head());
    let mut rows = Vec::new();
    for group in groups {
        let row = growth::measured(group, &settings.pace)?;
        println!("{}", growth::line(&row));
        rows.push(row);
    }
    Some(rows)
}
