//! Stored games against a plain reading of document 02: `stored [N [SEED [LONGEST]]]`. Every record
//! of up to LONGEST bytes, nine where it is not said, from a small set, then N games as they are and N
//! damaged records. Exit 1 on any difference.

use runs::stored::call::ask;
use runs::stored::{Plan, run};
use std::process::ExitCode;
use std::time::Instant;

fn main() -> ExitCode {
    let Some(plan) = plan() else {
        eprintln!("usage: stored [N [SEED [LONGEST]]]");
        return ExitCode::from(2);
    };
    println!(
        "every record of up to {} bytes from {:?}; {} games as they are; {} damaged records; seed {}",
        plan.longest, plan.bytes, plan.damaged, plan.damaged, plan.seed
    );
    let start = Instant::now();
    let tally = run(&ask, &plan);
    println!("{:.1} s", start.elapsed().as_secs_f64());
    print!("{}", tally.report());
    ExitCode::from(tally.status())
}

/// The plan that the arguments say; nothing if they are wrong. The bytes are tags, lengths, views
/// and codes, good ones and the first that are not.
fn plan() -> Option<Plan> {
    let numbers: Result<Vec<u64>, _> = std::env::args().skip(1).map(|arg| arg.parse()).collect();
    let numbers = numbers.ok().filter(|numbers| numbers.len() <= 3)?;
    let number = |place: usize, other: u64| numbers.get(place).copied().unwrap_or(other);
    let longest = number(2, 9);
    (longest <= 9).then(|| Plan {
        bytes: vec![0, 1, 2, 3, 7, 8, 224, 225],
        longest: longest as usize,
        damaged: number(0, 1_000_000),
        seed: number(1, 1),
    })
}
