//! Hand-typed move lists against a plain reading of document 02: `mending [N [SEED]]`. N lists, most
//! of them damaged. Exit 1 on any difference.

use runs::mending::{ask, run};
use std::process::ExitCode;
use std::time::Instant;

fn main() -> ExitCode {
    let numbers: Result<Vec<u64>, _> = std::env::args().skip(1).map(|arg| arg.parse()).collect();
    let Some(numbers) = numbers.ok().filter(|numbers| numbers.len() <= 2) else {
        eprintln!("usage: mending [N [SEED]]");
        return ExitCode::from(2);
    };
    let number = |place: usize, other: u64| numbers.get(place).copied().unwrap_or(other);
    let (lists, seed) = (number(0, 1_000_000), number(1, 1));
    println!("{lists} lists, seed {seed}");
    let start = Instant::now();
    let tally = run(&ask, lists, seed);
    println!("{:.1} s", start.elapsed().as_secs_f64());
    print!("{}", tally.report());
    ExitCode::from(tally.status())
}
