//! The differential run: every function of the host interface that asks of a board, a line, a
//! text or a game against the original.
//!
//! One comparison is one host call held to what it must do in all that can be seen of it: the
//! word (answer or refusal), every byte lent to it with the guard bytes before and behind them,
//! and every byte handed to it. Values are the original's; the views, which it has not, are read
//! from document 01, and so are the refusals. A game is read move by move on the original's board,
//! by its verdicts and its rows of five. Lent bytes hold random numbers before each call, so
//! a byte that is written where none should be is seen.
//!
//! Texts that request 5 of document 02 speaks of are left out of the comparison with the original,
//! by `oracle::left_out`, and so are verdicts, lists and games that meet an eye that completes a five
//! (request 6). By request 13 a text with no slash and no comma, a diagram to the original, is compared
//! for the converter's reader and left out for `renju_read`; one with a slash or a comma the other way
//! round. They are held to the naive reading, and counted; so is all that `renju_convert` answers, which
//! the original has not. Every verdict and list is asked of the naive reading; where nothing is left out
//! it must answer as the original does.
//!
//! What the fast referee is asked about rows and verdicts, the second referee is asked right after
//! it: a comparison of its own, held to the same answer.
//!
//! What it cannot notice: that a byte past the end of what is handed over or lent is read, unless
//! the answer tells, or that one is written that is none of these. It hands over no buffers that
//! overlap.
//!
//! - `call`: a call as data, and ours behind it. `expected`: what it must answer.
//! - `judge`: one comparison. `tally`: their counts. `shrink`: smaller differences. `report`:
//!   all of it in words.
//! - `limits`, `lines`, `boards`, `games`: what is asked.

pub mod boards;
pub mod call;
pub mod expected;
pub mod games;
pub mod judge;
pub mod limits;
pub mod lines;
pub mod report;
pub mod shrink;
pub mod tally;

use call::Host;
use judge::{Judge, Progress};
use oracle::boards::Dice;
use std::thread;
use std::time::{Duration, Instant};
use tally::Tally;

/// What a run is to do.
#[derive(Debug, Clone, Copy, PartialEq, Eq)]
pub struct Plan {
    /// How many comparisons to reach at least.
    pub comparisons: u64,
    pub seed: u64,
    pub threads: u64,
}

impl Plan {
    /// How many lines of each size that is not asked whole, for each thread: together about a
    /// tenth of the comparisons, at some 240 a line, and no fewer than fifty.
    pub fn random_lines(&self) -> u64 {
        let sizes = u64::from(15 - lines::whole_sizes(self.comparisons).end());
        (self.comparisons / 10 / 240 / sizes / self.threads).max(50)
    }
}

/// How often a watcher is told how far the run is.
const PAUSE: Duration = Duration::from_secs(5);

/// Runs the plan against a host and tells `watch` the comparisons and differences so far.
pub fn run(host: &Host, plan: &Plan, watch: impl Fn(u64, u64)) -> Tally {
    let progress = Progress::default();
    let mut seeds = Dice::new(plan.seed);
    thread::scope(|scope| {
        let start = |share| {
            let (progress, seed) = (&progress, seeds.roll());
            scope.spawn(move || work(Judge::new(host, progress, seed), plan, share))
        };
        let threads: Vec<_> = (0..plan.threads).map(start).collect();
        let mut told = Instant::now();
        while !threads.iter().all(|thread| thread.is_finished()) {
            thread::sleep(Duration::from_millis(20));
            if told.elapsed() >= PAUSE {
                let (comparisons, differences) = progress.so_far();
                watch(comparisons, differences);
                told = Instant::now();
            }
        }
        let mut tally = Tally::default();
        for thread in threads {
            tally.add(thread.join().expect("a thread that compares to its end"));
        }
        tally
    })
}

/// One thread's share. The limits and the whole sizes of lines are asked however few comparisons
/// are wanted, and boards are at least half of those, however many the rest has come to.
fn work(mut judge: Judge, plan: &Plan, share: u64) -> Tally {
    if share == 0 {
        limits::all(&mut judge);
        games::limits(&mut judge);
        boards::cases(&mut judge);
    }
    lines::whole(&mut judge, plan.comparisons, share, plan.threads);
    lines::random(&mut judge, plan.comparisons, plan.random_lines());
    let own = plan.comparisons.div_ceil(plan.threads);
    let goal = own.max(judge.tally.comparisons() + own / 2);
    for number in 0.. {
        if judge.tally.comparisons() >= goal {
            break;
        }
        boards::board(&mut judge, number);
        games::some(&mut judge);
    }
    judge.tally
}
