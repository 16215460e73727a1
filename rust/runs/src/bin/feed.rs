//! The move feed against a plain model of document 02: `feed [N [SEED]]`, N schedules. Exit 1 on
//! any difference.

use runs::feed::run;
use runs::feed::sides::OURS;
use std::process::ExitCode;
use std::time::Instant;

fn main() -> ExitCode {
    let numbers: Result<Vec<u64>, _> = std::env::args().skip(1).map(|arg| arg.parse()).collect();
    let Some(numbers) = numbers.ok().filter(|numbers| numbers.len() <= 2) else {
        eprintln!("usage: feed [N [SEED]]");
        return ExitCode::from(2);
    };
    let schedules = numbers.first().copied().unwrap_or(1_000_000);
    let seed = numbers.get(1).copied().unwrap_or(1);
    println!("{schedules} schedules of up to 60 moves, seed {seed}");
    let start = Instant::now();
    let tally = run(&OURS, schedules, seed);
    println!("{:.1} s", start.elapsed().as_secs_f64());
    print!("{}", tally.report());
    ExitCode::from(tally.status())
}
