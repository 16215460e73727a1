//! How many tables a referee holds:
//! `load [SECONDS] [--boards games|mixed|nested] [--svg FILE] [--most TABLES] [--seed SEED]`; and
//! `load --told FILE --svg FILE`, which draws what earlier runs have written.
//!
//! N tables at 60 frames a second on all cores; each frame asks its table's list under the lock. A
//! search finds the largest N with p99 of the lock under 100 µs and no frame late, in runs of a tenth
//! of SECONDS (60 if it is not said), then in one of all of them; the original's and ours, on boards
//! of games, on these with nested ones among them, and on nested ones, or on those that are named. Exit
//! status 2 for wrong usage, a file that can't be read as what was told, and a failed write.

use std::process::ExitCode;
use std::{env, fs, thread};

use oracle::board::board::Board;
use renju::Cells;
use runs::load::{self, Found, Outcome, Settings};
use runs::timing::curves::{self, Chart};
use runs::timing::sets::{self, Ready};
use runs::timing::{machine, suite};

struct Asked {
    settings: Settings,
    /// The name of a pool; all three where there is none.
    boards: Option<String>,
    seed: u64,
    svg: Option<String>,
    /// A file that has what was told: nothing is run.
    told: Option<String>,
}

const USAGE: &str =
    "usage: load [SECONDS] [--boards games|mixed|nested] [--svg FILE] [--most TABLES] [--seed SEED]
       load --told FILE --svg FILE    draws what was written by earlier runs";

fn main() -> ExitCode {
    let Some(asked) = read_arguments() else {
        eprintln!("{USAGE}");
        return ExitCode::from(2);
    };
    let charts = match &asked.told {
        Some(file) => read_charts(file),
        None => Ok(run_all(&asked)),
    };
    let drawn = charts.and_then(|charts| draw(&asked, &charts));
    match drawn {
        Ok(()) => ExitCode::SUCCESS,
        Err(error) => {
            eprintln!("{error}");
            ExitCode::from(2)
        }
    }
}

/// The charts of what was told in a file.
fn read_charts(file: &str) -> Result<Vec<Chart>, String> {
    let text = fs::read_to_string(file).map_err(|error| format!("{file}: {error}"))?;
    load::charts(&text).ok_or_else(|| format!("{file}: not what load writes"))
}

/// The picture, where one is wanted.
fn draw(asked: &Asked, charts: &[Chart]) -> Result<(), String> {
    let Some(file) = &asked.svg else {
        return Ok(());
    };
    fs::write(file, curves::svg(charts)).map_err(|error| format!("{file}: {error}"))
}

/// The searches that are asked for, each told as it goes, and all together at the end.
fn run_all(asked: &Asked) -> Vec<Chart> {
    say_conditions(asked);
    let mut summary = Vec::new();
    let mut charts = Vec::new();
    for (name, words, pool) in pools(asked.seed) {
        if asked.boards.as_deref().is_some_and(|wanted| wanted != name) {
            continue;
        }
        let (lines, chart) = searched(&asked.settings, words, &pool);
        summary.extend(lines);
        charts.push(chart);
    }
    println!(
        "\n{:>40} {:>9} {:>16} {:>14}",
        "boards", "referee", "lock under 100", "no frame late"
    );
    println!("{}", summary.join("\n"));
    charts
}

/// Both referees on a pool: a line for what each was found to hold, and the chart.
fn searched(settings: &Settings, words: &'static str, pool: &[Ready]) -> ([String; 2], Chart) {
    let original = held("original", words, |told| {
        load::search::<Board>(pool, settings, told)
    });
    let ours = held("ours", words, |told| {
        load::search::<Cells>(pool, settings, told)
    });
    let lines = [
        found("original", words, &original),
        found("ours", words, &ours),
    ];
    let (original, ours) = (load::dots(&original.tried), load::dots(&ours.tried));
    (lines, load::chart(words, &original, &ours))
}

fn say_conditions(asked: &Asked) {
    let settings = asked.settings;
    println!(
        "machine: {}; seed {}; {} workers; {} s, looked for in runs of {} s; times in µs",
        machine::kind(),
        asked.seed,
        settings.workers,
        settings.seconds,
        settings.seconds / 10.0
    );
}

/// The pools' names.
const POOLS: [&str; 3] = ["games", "mixed", "nested"];

/// The boards that the tables get: the pool's name, what they are, and they.
fn pools(seed: u64) -> [(&'static str, &'static str, Vec<Ready>); 3] {
    let games = load::games(seed, 100);
    let nested = sets::nested(seed, 200).boards;
    let mixed = load::mixed(&games, &nested, 20);
    [
        (POOLS[0], "games", games),
        (POOLS[1], "games, one in 20 nested 4 deep or more", mixed),
        (POOLS[2], "nested 4 deep or more", nested),
    ]
}

fn read_arguments() -> Option<Asked> {
    let mut asked = Asked {
        settings: Settings {
            seconds: 60.0,
            workers: thread::available_parallelism().map_or(1, |n| n.get()),
            most: 1_000_000,
        },
        boards: None,
        seed: suite::SEED,
        svg: None,
        told: None,
    };
    let mut words = env::args().skip(1);
    // What was told is drawn as it is: no other word goes with it.
    let alone = words.len() == 4;
    while let Some(word) = words.next() {
        match word.as_str() {
            "--boards" => {
                asked.boards = Some(words.next().filter(|name| POOLS.contains(&name.as_str()))?);
            }
            "--svg" => asked.svg = Some(words.next()?),
            "--told" => asked.told = Some(words.next()?),
            "--most" => asked.settings.most = words.next()?.parse().ok().filter(|&n| n > 0)?,
            "--seed" => asked.seed = words.next()?.parse().ok()?,
            seconds => asked.settings.seconds = seconds.parse().ok()?,
        }
    }
    let good = (0.1..=3600.0).contains(&asked.settings.seconds);
    let draws = asked.told.is_none() || (asked.svg.is_some() && alone);
    (good && draws).then_some(asked)
}

/// A search, told while it runs.
fn held(
    referee: &str,
    words: &str,
    search: impl FnOnce(&mut dyn FnMut(&Outcome)) -> Found,
) -> Found {
    println!("\n{referee}, {words}");
    println!(
        "{:>8} {:>10} {:>8} {:>8} {:>9} {:>8}",
        "tables", "frames", "p50", "p99", "max", "late"
    );
    search(&mut |outcome| println!("{}", line(outcome)))
}

/// How many tables it is.
fn found(referee: &str, words: &str, found: &Found) -> String {
    format!(
        "{words:>40} {referee:>9} {:>16} {:>14}",
        found.good, found.in_time
    )
}

fn line(outcome: &Outcome) -> String {
    let micros = |nanos: u64| nanos as f64 / 1000.0;
    let held = &outcome.held;
    format!(
        "{:>8} {:>10} {:>8.2} {:>8.2} {:>9.1} {:>8}{}",
        outcome.tables,
        held.count(),
        micros(held.per_mille(500)),
        micros(held.per_mille(990)),
        micros(held.most),
        outcome.late,
        if outcome.is_good() { "" } else { "  not held" }
    )
}
