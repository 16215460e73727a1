//! Load: many tables at 60 frames a second on all cores, each behind a lock, each frame asking the
//! list. How many tables a referee holds with the lock short and no frame late.

use std::hint::black_box;
use std::sync::{Mutex, MutexGuard, PoisonError};
use std::thread;
use std::time::{Duration, Instant};

use oracle::board::board::Board;
use renju::Cells;

use crate::timing::curves::{Axis, Chart, Curve, Dot, Scale};
use crate::timing::sets::{self, Ready};

/// How long a frame lasts: 60 a second.
pub const FRAME: Duration = Duration::from_nanos(1_000_000_000 / 60);

/// The lock may be held so long at p99, in ns.
pub const LIMIT: u64 = 100_000;

/// A table gets the next board of the pool once in so many frames.
const FRAMES_A_BOARD: usize = 6;

/// What stands on a table, and can be asked under its lock.
pub trait Seat: Clone + Send + Sync {
    /// A board of the pool, as this referee keeps it.
    fn of(ready: &Ready) -> Self;
    /// Asks the list, and says how many points it names.
    fn ask(&self) -> usize;
}

/// The original keeps its own board.
impl Seat for Board {
    fn of(ready: &Ready) -> Self {
        ready.board.clone()
    }

    fn ask(&self) -> usize {
        black_box(self).forbidden_points().len()
    }
}

/// This referee asks cells.
impl Seat for Cells {
    fn of(ready: &Ready) -> Self {
        Cells::from_bytes(&ready.cells).unwrap_or_default()
    }

    fn ask(&self) -> usize {
        black_box(self).forbidden_points().len()
    }
}

/// How long locks were held, in ns: buckets of a thirty-second of a power of two, so that a
/// percentile is told to 3 %.
#[derive(Debug, Clone, PartialEq, Eq)]
pub struct Held {
    counts: Vec<u64>,
    pub most: u64,
}

/// Parts of a power of two, as a power of two.
const PARTS: u32 = 5;

impl Held {
    /// No lock was held yet.
    pub fn new() -> Self {
        Self {
            counts: vec![0; 64 << PARTS],
            most: 0,
        }
    }

    /// A lock that was held so long.
    pub fn add(&mut self, nanos: u64) {
        self.counts[bucket(nanos)] += 1;
        self.most = self.most.max(nanos);
    }

    /// Adds those of another worker.
    pub fn join(&mut self, other: &Self) {
        for (count, more) in self.counts.iter_mut().zip(&other.counts) {
            *count += more;
        }
        self.most = self.most.max(other.most);
    }

    /// How many locks.
    pub fn count(&self) -> u64 {
        self.counts.iter().sum()
    }

    /// The least time that so many of a thousand were below, by the buckets' upper ends; no more than
    /// the longest.
    pub fn per_mille(&self, share: u64) -> u64 {
        let rank = (self.count() * share).div_ceil(1000).max(1);
        let mut seen = 0;
        for (bucket, count) in self.counts.iter().enumerate() {
            seen += count;
            if seen >= rank {
                return upper(bucket).min(self.most);
            }
        }
        self.most
    }
}

impl Default for Held {
    fn default() -> Self {
        Self::new()
    }
}

/// Below 32 each ns has its bucket; above, the five bits behind the first.
fn bucket(nanos: u64) -> usize {
    let first = 63 - nanos.max(1).leading_zeros();
    if first < PARTS {
        return nanos as usize;
    }
    let part = (nanos >> (first - PARTS)) - (1 << PARTS);
    (((first - PARTS + 1) << PARTS) as u64 + part) as usize
}

/// The largest time of a bucket.
fn upper(bucket: usize) -> u64 {
    let (power, part) = (bucket >> PARTS, bucket as u64 & ((1 << PARTS) - 1));
    if power == 0 {
        return part;
    }
    // The last bucket ends where the numbers do.
    let end = u128::from(part + (1 << PARTS) + 1) << (power - 1);
    u64::try_from(end - 1).unwrap_or(u64::MAX)
}

/// What came of so many tables.
#[derive(Debug, Clone)]
pub struct Outcome {
    pub tables: usize,
    pub held: Held,
    /// Frames that were not done when the table's next frame was due.
    pub late: u64,
}

impl Outcome {
    /// Whether no frame was late.
    pub fn is_in_time(&self) -> bool {
        self.late == 0
    }

    /// Short locks, and no frame late.
    pub fn is_good(&self) -> bool {
        self.is_in_time() && self.held.per_mille(990) < LIMIT
    }
}

/// Runs so many tables for so many frames each, on so many workers. The first board of table t is the
/// board t of the pool, which begins again at its end. Its frames are due a little later than those of
/// the table before: all tables together are spread evenly over a frame.
pub fn run<S: Seat>(pool: &[Ready], tables: usize, frames: u32, workers: usize) -> Outcome {
    let pool: Vec<S> = pool.iter().map(S::of).collect();
    let first = |table: usize| Mutex::new(pool[table % pool.len()].clone());
    let seats: Vec<Mutex<S>> = (0..tables).map(first).collect();
    let start = Instant::now() + FRAME;
    let mut outcome = Outcome {
        tables,
        held: Held::new(),
        late: 0,
    };
    thread::scope(|scope| {
        let (seats, pool) = (&seats, &pool);
        let work =
            |worker| scope.spawn(move || work(seats, pool, (worker, workers), (frames, start)));
        let hands: Vec<_> = (0..workers).map(work).collect();
        for hand in hands {
            let (held, late) = hand.join().unwrap_or_default();
            outcome.held.join(&held);
            outcome.late += late;
        }
    });
    outcome
}

/// One worker: every table of its own, frame by frame.
fn work<S: Seat>(
    seats: &[Mutex<S>],
    pool: &[S],
    (worker, workers): (usize, usize),
    (frames, start): (u32, Instant),
) -> (Held, u64) {
    let (mut held, mut late) = (Held::new(), 0);
    for frame in 0..frames {
        let begin = start + FRAME * frame;
        for table in (worker..seats.len()).step_by(workers) {
            let due = begin + FRAME.mul_f64(table as f64 / seats.len() as f64);
            let now = Instant::now();
            if now < due {
                thread::sleep(due - now);
            }
            let (time, end) = asked(&seats[table]);
            held.add(time);
            late += u64::from(end > due + FRAME);
            // The next board, at another frame for each table.
            let place = frame as usize + table;
            if place.is_multiple_of(FRAMES_A_BOARD) {
                *locked(&seats[table]) =
                    pool[(table + place / FRAMES_A_BOARD) % pool.len()].clone();
            }
        }
    }
    (held, late)
}

/// A table is never left half changed, whoever ended while he held its lock.
fn locked<S>(seat: &Mutex<S>) -> MutexGuard<'_, S> {
    seat.lock().unwrap_or_else(PoisonError::into_inner)
}

/// The list under the lock: for how many ns it was held, and when it was free again.
fn asked<S: Seat>(seat: &Mutex<S>) -> (u64, Instant) {
    let board = locked(seat);
    let start = Instant::now();
    black_box(board.ask());
    let end = Instant::now();
    drop(board);
    ((end - start).as_nanos() as u64, end)
}

/// How much is run.
#[derive(Debug, Clone, Copy)]
pub struct Settings {
    pub seconds: f64,
    pub workers: usize,
    /// Tables, at most.
    pub most: usize,
}

impl Settings {
    fn frames(&self, share: f64) -> u32 {
        (self.seconds * share * 60.0).ceil().max(2.0) as u32
    }
}

/// A number of tables that is not held is tried so often: what else the machine does is not the
/// referee's.
const TRIES: usize = 3;

/// What a search found.
#[derive(Debug, Clone)]
pub struct Found {
    /// The most tables with short locks and no frame late.
    pub good: usize,
    /// The most tables with no frame late.
    pub in_time: usize,
    pub tried: Vec<Outcome>,
}

/// The largest numbers of tables that are held, to a twentieth. Short runs, a tenth of the time, look
/// for each; then a whole run must hold it, or one of a tenth less.
pub fn search<S: Seat>(
    pool: &[Ready],
    settings: &Settings,
    told: &mut dyn FnMut(&Outcome),
) -> Found {
    let mut tried = Vec::new();
    let in_time = most::<S>(pool, settings, Outcome::is_in_time, &mut tried, told);
    let whole = tried.iter().rfind(|outcome| outcome.tables == in_time);
    let good = match whole {
        Some(outcome) if outcome.is_good() => in_time,
        _ => most::<S>(pool, settings, Outcome::is_good, &mut tried, told),
    };
    Found {
        good,
        in_time,
        tried,
    }
}

/// The most tables of which something is true.
fn most<S: Seat>(
    pool: &[Ready],
    settings: &Settings,
    is_held: fn(&Outcome) -> bool,
    tried: &mut Vec<Outcome>,
    told: &mut dyn FnMut(&Outcome),
) -> usize {
    let mut attempt = |tables: usize, share: f64| {
        (0..TRIES).any(|_| {
            let outcome = run::<S>(pool, tables, settings.frames(share), settings.workers);
            told(&outcome);
            let held = is_held(&outcome);
            tried.push(outcome);
            held
        })
    };
    let mut most = bracketed(settings.most, |tables| attempt(tables, 0.1));
    while most > 0 && !attempt(most, 1.0) {
        most = most * 9 / 10;
    }
    most
}

/// The largest number that is good, to a twentieth: doubled until one is bad, then halved between.
pub fn bracketed(most: usize, mut is_good: impl FnMut(usize) -> bool) -> usize {
    let (mut good, mut bad) = (0, 1);
    while is_good(bad) {
        good = bad;
        if bad >= most {
            return good;
        }
        bad = (2 * bad).min(most);
    }
    while bad - good > (good / 20).max(1) {
        let middle = good + (bad - good) / 2;
        if is_good(middle) {
            good = middle;
        } else {
            bad = middle;
        }
    }
    good
}

/// The boards of games that the benchmark has, one of each number of stones in turn, so that few
/// tables have boards of all sorts too.
pub fn games(seed: u64, boards: usize) -> Vec<Ready> {
    let sets = sets::STONES.map(|stones| sets::games(seed, stones, boards).boards);
    let mut pool = Vec::new();
    for n in 0..boards {
        pool.extend(sets.iter().map(|set| set[n].clone()));
    }
    pool
}

/// Boards of games, one in so many a nested one.
pub fn mixed(games: &[Ready], nested: &[Ready], one_in: usize) -> Vec<Ready> {
    let mut pool = games.to_vec();
    for (place, board) in pool.iter_mut().step_by(one_in).zip(nested.iter().cycle()) {
        *place = board.clone();
    }
    pool
}

/// The runs of a search as they are drawn: p99 of the lock in µs against the number of tables; what was
/// not held is hollow.
pub fn dots(tried: &[Outcome]) -> Vec<Dot> {
    let dot = |outcome: &Outcome| Dot {
        x: outcome.tables as f64,
        y: outcome.held.per_mille(990) as f64 / 1000.0,
        is_full: outcome.is_good(),
    };
    tried.iter().map(dot).collect()
}

/// Of several runs of one number of tables the last: that is the one that counted.
fn curve(name: &str, colour: &'static str, runs: &[Dot]) -> Curve {
    let mut dots: Vec<Dot> = Vec::new();
    for &new in runs {
        dots.retain(|known| known.x != new.x);
        dots.push(new);
    }
    dots.sort_by(|a, b| a.x.total_cmp(&b.x));
    Curve {
        name: name.to_string(),
        colour,
        dots,
    }
}

/// What the program `load` has told of its runs, drawn: a chart for each sort of boards, in their order.
/// None where there is no search, a line of one can't be read, or a sort has not both referees.
pub fn charts(told: &str) -> Option<Vec<Chart>> {
    let mut searches: Vec<(&str, &str, Vec<Dot>)> = Vec::new();
    let mut lines = told.lines();
    while let Some(line) = lines.next() {
        let Some((referee @ ("original" | "ours"), words)) = line.split_once(", ") else {
            continue;
        };
        // The line of headings, then the runs, up to an empty line.
        let runs = lines.by_ref().skip(1).take_while(|line| !line.is_empty());
        let dots: Option<Vec<Dot>> = runs.map(dot_of).collect();
        searches.push((referee, words, dots?));
    }
    if searches.is_empty() {
        return None;
    }
    let pairs = searches.chunks(2).map(|pair| match pair {
        [("original", words, original), ("ours", same, ours)] if words == same => {
            Some(chart(words, original, ours))
        }
        _ => None,
    });
    pairs.collect()
}

/// A run as it is told: tables, frames, p50, p99, the longest and the late ones, and whether it was not held.
fn dot_of(line: &str) -> Option<Dot> {
    let words: Vec<&str> = line.split_whitespace().collect();
    let ([tables, _, _, p99, _, _], rest) = words.split_first_chunk()?;
    Some(Dot {
        x: tables.parse().ok()?,
        y: p99.parse().ok()?,
        is_full: rest.is_empty(),
    })
}

/// p99 of the lock against the number of tables, the original's and ours. What was not held is hollow.
pub fn chart(words: &str, original: &[Dot], ours: &[Dot]) -> Chart {
    let curves = vec![
        curve("the original", "#b34700", original),
        curve("this referee", "#1257c8", ours),
    ];
    let limit = LIMIT as f64 / 1000.0;
    let dots = || curves.iter().flat_map(|curve| &curve.dots);
    let (x, y) = (
        Axis::of(
            "tables, 60 frames a second each",
            Scale::Tens,
            dots().map(|dot| dot.x),
        ),
        Axis::of(
            "lock held, µs (p99)",
            Scale::Tens,
            dots().map(|dot| dot.y).chain([limit]),
        ),
    );
    Chart {
        words: words.to_string(),
        x,
        y,
        curves,
        limit: Some(limit),
    }
}
