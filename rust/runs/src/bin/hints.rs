//! Hints against a plain search from document 02: `hints [N [SEED]]`, N boards, both colours, every
//! limit; short lines are played out against every reply. Exit 1 on any difference.

use runs::hints::{OURS, run};
use std::process::ExitCode;
use std::time::Instant;

fn main() -> ExitCode {
    let numbers: Result<Vec<u64>, _> = std::env::args().skip(1).map(|arg| arg.parse()).collect();
    let Some(numbers) = numbers.ok().filter(|numbers| numbers.len() <= 2) else {
        eprintln!("usage: hints [N [SEED]]");
        return ExitCode::from(2);
    };
    let number = |place: usize, other: u64| numbers.get(place).copied().unwrap_or(other);
    let (count, seed) = (number(0, 100_000), number(1, 1));
    let start = Instant::now();
    let tally = run(&OURS, count, seed);
    println!("seed {seed}, {:.1} s", start.elapsed().as_secs_f64());
    println!("{}", tally.report());
    ExitCode::from(u8::from(tally.differ != 0))
}
