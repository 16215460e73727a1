//! Every function of the host interface that asks of a board, a line, a text or a game against
//! the original: `differential [N [SEED [THREADS]]]`. N is the number of comparisons to reach at
//! least. Exit 1 on any difference.

use runs::differential::call::ask;
use runs::differential::{Plan, report, run, shrink};
use std::process::ExitCode;
use std::time::Instant;

fn main() -> ExitCode {
    let Some(plan) = plan() else {
        eprintln!("usage: differential [N [SEED [THREADS]]]");
        return ExitCode::from(2);
    };
    print!("{}", report::opening(&plan));
    let start = Instant::now();
    let tally = run(&ask, &plan, |comparisons, differences| {
        let seconds = start.elapsed().as_secs();
        eprintln!("{comparisons} comparisons, {differences} differences after {seconds} s");
    });
    let seconds = start.elapsed().as_secs_f64();
    print!("{}", report::counts(&tally));
    print!("{}", report::games(&tally));
    print!("{}", report::left_out(&tally));
    for difference in tally.smallest() {
        let smallest = shrink::shrunk(&ask, difference.clone());
        print!("{}", report::difference(&smallest));
    }
    let rate = tally.comparisons() as f64 / seconds;
    println!("{seconds:.1} s, {rate:.0} comparisons a second");
    print!("{}", report::total(&tally));
    ExitCode::from(u8::from(tally.differences() > 0))
}

/// The plan that the arguments say, two threads where they do not say; nothing if they are wrong.
fn plan() -> Option<Plan> {
    let numbers: Result<Vec<u64>, _> = std::env::args().skip(1).map(|arg| arg.parse()).collect();
    let numbers = numbers.ok().filter(|numbers| numbers.len() <= 3)?;
    let number = |place: usize, other: u64| numbers.get(place).copied().unwrap_or(other);
    let threads = number(2, 2);
    (1..=64).contains(&threads).then_some(Plan {
        comparisons: number(0, 1_000_000),
        seed: number(1, 1),
        threads,
    })
}
