//! Compares the naive reading and the original: `agree N SEED`.

use oracle::agree::{self, Tally};
use oracle::naive_text;
use std::env;
use std::process::ExitCode;
use std::time::Instant;

fn main() -> ExitCode {
    let mut numbers = env::args().skip(1).map(|arg| arg.parse::<u64>());
    let (Some(Ok(count)), Some(Ok(seed)), None) = (numbers.next(), numbers.next(), numbers.next())
    else {
        eprintln!("usage: agree N SEED");
        return ExitCode::from(2);
    };
    let start = Instant::now();
    let tally = agree::run(count as usize, seed, |tally| {
        if tally.boards % 10_000 == 0 {
            let seconds = start.elapsed().as_secs();
            println!("{} boards after {seconds} s", tally.boards);
        }
    });
    print_result(&tally);
    ExitCode::from(u8::from(tally.differences > 0))
}

fn print_result(tally: &Tally) {
    if let Some(failure) = &tally.smallest {
        println!("{}", naive_text::write_diagram(&failure.cells));
        println!("differ in: {}", failure.question);
    }
    println!(
        "of these {} with nesting of 4 or more, {} forbidden points",
        tally.deep, tally.forbidden
    );
    let left_out = &tally.left_out;
    println!(
        "left out by request 6: verdicts {}, lists {}; of these answered otherwise: verdicts {}, lists {}",
        left_out.verdicts, left_out.lists, left_out.other_verdicts, left_out.other_lists
    );
    println!(
        "boards {}, comparisons {}, differences {}",
        tally.boards, tally.comparisons, tally.differences
    );
}
