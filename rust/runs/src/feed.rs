//! The move feed: schedules of a line that loses, repeats and reorders, against a plain model of
//! document 02, No. 8.
//!
//! A schedule is up to 60 moves with takebacks; in between messages are sent, lost, repeated and
//! arrive at clients, clients are asked, and answers are lost, repeated and heard, in any order.
//! After every event what was answered is held to the plain model, and so is the list that it
//! concerns; document 02's sentences are held to both sides as they stand. At the end of each
//! schedule the client of the last game is sent what it lacks, in order.
//!
//! - `plain`: what document 02 says. `sides`: the client, the server and the functions that are
//!   asked, ours or wrong ones. `schedule`: one schedule. `tally`: the counts, and the first
//!   difference.

pub mod plain;
pub mod schedule;
pub mod sides;
pub mod tally;

use oracle::boards::Dice;
use schedule::Schedule;
use sides::Sides;
use tally::Tally;

/// Runs so many schedules against the sides.
pub fn run(sides: &Sides, schedules: u64, seed: u64) -> Tally {
    let mut tally = Tally::default();
    let mut dice = Dice::new(seed);
    for _ in 0..schedules {
        Schedule::new(sides, &mut dice, &mut tally).run();
        tally.schedules += 1;
    }
    tally
}
