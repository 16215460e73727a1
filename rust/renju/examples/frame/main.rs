//! A frame loop that asks, beside a player who wants the table's lock, which points are forbidden to
//! Black: `frame [SECONDS] [FILE]`. The package `runs` has the same loop with the original in it.

use std::process::ExitCode;

mod frames;
#[allow(dead_code)] // The benchmarks of the package `runs` use the rest.
mod stats;

fn main() -> ExitCode {
    frames::main(Vec::new())
}
