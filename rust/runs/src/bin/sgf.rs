//! Games to and from SGF against a plain reading of document 02: `sgf [N [SEED]]`. N games, each
//! written, its text read with white space or without, and read damaged. Exit 1 on any difference.

use runs::sgf::{ask, run};
use std::process::ExitCode;
use std::time::Instant;

fn main() -> ExitCode {
    let numbers: Result<Vec<u64>, _> = std::env::args().skip(1).map(|arg| arg.parse()).collect();
    let Some(numbers) = numbers.ok().filter(|numbers| numbers.len() <= 2) else {
        eprintln!("usage: sgf [N [SEED]]");
        return ExitCode::from(2);
    };
    let number = |place: usize, other: u64| numbers.get(place).copied().unwrap_or(other);
    let (games, seed) = (number(0, 1_000_000), number(1, 1));
    println!("{games} games: {games} good texts and {games} damaged ones; seed {seed}");
    let start = Instant::now();
    let tally = run(&ask, games, seed);
    println!("{:.1} s", start.elapsed().as_secs_f64());
    print!("{}", tally.report());
    ExitCode::from(tally.status())
}
