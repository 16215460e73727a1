//! The frame loop: a table behind a lock, 60 frames a second, and a player who makes moves.
//!
//! Each frame asks in one of several ways which points are forbidden to Black, so that each question
//! comes after a rest, as a server's does. While a frame has the lock the player wants it, and once
//! in some frames makes a move when he gets it. Kept of each frame: how long the lock was held, how
//! long the question took, and how long the player waited.

use std::path::{Path, PathBuf};
use std::process::ExitCode;
use std::sync::atomic::{AtomicU32, Ordering};
use std::sync::{Mutex, MutexGuard, PoisonError};
use std::time::{Duration, Instant};
use std::{env, fs, hint, io, thread};

use renju::{Cells, Colour, Cross, Crosses, Picture, Point};

use super::stats::{Histogram, Summary, side_by_side};

const FRAMES_A_SECOND: u32 = 60;
const FRAME: Duration = Duration::from_nanos(1_000_000_000 / FRAMES_A_SECOND as u64);

/// So many frames of each way see the same board; then the player makes a move.
const FRAMES_A_MOVE: usize = 3;

/// Long enough for all of the game, with four ways to ask.
const SECONDS: f64 = 16.0;

/// How long before a frame is due the player is awake, so as to want the lock while it has it.
const EARLY: Duration = Duration::from_micros(300);

/// The game that is played, again and again. None of its boards meets an eye that completes a five,
/// so the original names the same points.
const GAME: &str = "H8,I8,H7,J6,H9,H4,I5,I6,H6,G4,J7,G7,G6,H5,F4,E8,J4,H3,F5,K7,F3,H1,H2,H10,\
    J9,D7,I9,G9,D6,E10,D2,J5,E5,E6,L8,F10,F7,I3,J10,G10,F8,G3,K10,K11,L9,D12,E4,D11,D1,F11,D10,M5,\
    G1,J8,G12,I4,K6,F2,M9,L6,I10,E11,E2,M8,J11,F13,L10,C7,C13,K9,D4,F6,I12,I11,K8,F1,G11,E12,H12,G8";

/// A list, to be told when the lock is free again.
pub type Told = Box<dyn FnOnce() -> Vec<Cross>>;

/// Another referee, with a board of its own on the table.
pub trait Other: Send {
    /// What its way is called.
    fn name(&self) -> &'static str;
    /// Puts a stone on its board.
    fn put(&mut self, point: Point, colour: Colour);
    /// Takes all stones off its board.
    fn clear(&mut self);
    /// Asks for the list, under the lock; what is told of it comes after.
    fn ask(&self) -> Told;
}

/// What the lock guards. A server keeps one board; the others are here to be compared.
struct Table {
    /// How many moves of the game are made.
    moves: usize,
    cells: Cells,
    others: Vec<Box<dyn Other>>,
}

impl Table {
    /// The next move; a game that is over begins again on an empty table.
    fn play(&mut self, game: &[Point]) {
        if self.moves == game.len() {
            self.moves = 0;
            self.cells = Cells::new();
            self.others.iter_mut().for_each(|other| other.clear());
        }
        let (point, colour) = (game[self.moves], Colour::ALL[self.moves % 2]);
        self.cells.put(point, colour);
        self.others
            .iter_mut()
            .for_each(|other| other.put(point, colour));
        self.moves += 1;
    }
}

/// Nobody leaves the table half changed, so it is good even if a thread ended while it held the
/// lock.
fn lock(table: &Mutex<Table>) -> MutexGuard<'_, Table> {
    table.lock().unwrap_or_else(PoisonError::into_inner)
}

/// How a frame asks.
#[derive(Debug, Clone, Copy, PartialEq, Eq)]
enum Way {
    /// Another referee, on its own board, under the lock.
    Other(usize),
    /// This referee, from the cells, under the lock.
    Held,
    /// The cells are copied out, 225 bytes, and asked when the lock is free again.
    Copied,
    /// The same, but the list is kept, and asked once a move: a frame that finds the same board
    /// shows it again.
    Kept,
}

impl Way {
    /// Ours, from the first that comes to mind to the best.
    const OURS: [Self; 3] = [Self::Held, Self::Copied, Self::Kept];

    fn name(self, others: &[&'static str]) -> &'static str {
        match self {
            Self::Other(n) => others[n],
            Self::Held => "ours, under the lock",
            Self::Copied => "ours, copied out",
            Self::Kept => "ours, once a move",
        }
    }
}

/// The list that a frame showed last, and of which board it is.
#[derive(Default)]
struct Shown {
    moves: Option<usize>,
    crosses: Vec<Cross>,
}

/// How long each frame of a way took, in µs.
#[derive(Default)]
struct Times {
    /// While the lock was held.
    held: Vec<f64>,
    /// From when the frame had the lock until it had the list.
    took: Vec<f64>,
    /// How long the player waited for the lock, who wanted it while the frame had it.
    waited: Vec<f64>,
}

/// The tick of the frame that has the lock, and of the last frame in which the player had it.
#[derive(Default)]
struct Ticks {
    frame: AtomicU32,
    player: AtomicU32,
}

fn micros(since: Instant) -> f64 {
    since.elapsed().as_nanos() as f64 / 1000.0
}

/// Runs the loop with these referees beside ours, and reports. Exit status 1 if one ever named other
/// points, 2 for wrong usage and where the picture cannot be written.
pub fn main(others: Vec<Box<dyn Other>>) -> ExitCode {
    let Some((frames, file)) = read_arguments() else {
        eprintln!(
            "usage: frame [SECONDS] [FILE]\nSECONDS is {SECONDS} if it is not said; the last board is drawn into FILE"
        );
        return ExitCode::from(2);
    };
    let game: Vec<Point> = GAME
        .split(',')
        .filter_map(|point| point.parse().ok())
        .collect();
    let names: Vec<_> = others.iter().map(|other| other.name()).collect();
    let mut ways: Vec<Way> = (0..names.len()).map(Way::Other).collect();
    ways.extend(Way::OURS);
    println!("{frames} frames, {FRAMES_A_SECOND} a second ..");
    let table = Mutex::new(Table {
        moves: 0,
        cells: Cells::new(),
        others,
    });
    let (times, different) = serve(&table, &game, &ways, frames);
    let titles: Vec<_> = ways.iter().map(|way| way.name(&names)).collect();
    println!("{}", report(&titles, &times));
    println!("lists compared: {frames}, different: {different}");
    let last = lock(&table);
    match draw(&last.cells, &game[..last.moves], &file) {
        Ok(words) => eprintln!("{words}: {}", file.display()),
        Err(error) => {
            eprintln!("{}: {error}", file.display());
            return ExitCode::from(2);
        }
    }
    ExitCode::from(u8::from(different > 0))
}

/// The number of frames and the file of the picture.
fn read_arguments() -> Option<(u32, PathBuf)> {
    let mut arguments = env::args().skip(1);
    let seconds: f64 = arguments
        .next()
        .map_or(Some(SECONDS), |text| text.parse().ok())?;
    let file = arguments.next().map_or_else(default_file, PathBuf::from);
    let frames = seconds * f64::from(FRAMES_A_SECOND);
    let good = (0.0..=1e6).contains(&seconds) && arguments.next().is_none();
    good.then_some((frames as u32, file))
}

/// Beside the program: in the folder of what was built, not among the sources.
fn default_file() -> PathBuf {
    let program = env::current_exe().unwrap_or_default();
    program.with_file_name("frame.svg")
}

/// Runs the player beside the frame loop until the frames are over: the times of each way, and how
/// many lists were other than the board's.
fn serve(table: &Mutex<Table>, game: &[Point], ways: &[Way], frames: u32) -> (Vec<Times>, usize) {
    let (ticks, start) = (Ticks::default(), Instant::now() + FRAME);
    thread::scope(|scope| {
        let player = scope.spawn(|| player(table, game, &ticks, (start, frames, ways.len())));
        let (mut times, different) = watch(table, game, ways, &ticks, (start, frames));
        for (n, waited) in player.join().unwrap_or_default().into_iter().enumerate() {
            times[n % ways.len()].waited.push(waited);
        }
        (times, different)
    })
}

/// When a frame is due. Counted from the start, so that one late frame does not make all others
/// late.
fn due(start: Instant, frame: u32) -> Instant {
    start + FRAME * frame
}

/// The player: how long he waited for the lock in each frame.
fn player(
    table: &Mutex<Table>,
    game: &[Point],
    ticks: &Ticks,
    (start, frames, ways): (Instant, u32, usize),
) -> Vec<f64> {
    let frames_a_move = (FRAMES_A_MOVE * ways) as u32;
    let mut waited = Vec::new();
    for frame in 0..frames {
        let early = due(start, frame).checked_sub(EARLY).unwrap_or(start);
        thread::sleep(early.saturating_duration_since(Instant::now()));
        while ticks.frame.load(Ordering::Acquire) <= frame {
            hint::spin_loop();
        }
        let wants = Instant::now();
        let mut table = lock(table);
        waited.push(micros(wants));
        if (frame + 1) % frames_a_move == 0 {
            table.play(game);
        }
        drop(table);
        ticks.player.store(frame + 1, Ordering::Release);
    }
    waited
}

/// The frame loop.
fn watch(
    table: &Mutex<Table>,
    game: &[Point],
    ways: &[Way],
    ticks: &Ticks,
    (start, frames): (Instant, u32),
) -> (Vec<Times>, usize) {
    let mut times: Vec<Times> = ways.iter().map(|_| Times::default()).collect();
    let (mut shown, mut different) = (Shown::default(), 0);
    for frame in 0..frames {
        thread::sleep(due(start, frame).saturating_duration_since(Instant::now()));
        let place = frame as usize % ways.len();
        let (moves, crosses) = ask(
            table,
            ways[place],
            &mut shown,
            &mut times[place],
            (ticks, frame),
        );
        different += usize::from(crosses != *crosses_after(game, moves));
        // The player has the lock before the next frame begins.
        while ticks.player.load(Ordering::Acquire) <= frame {
            thread::yield_now();
        }
    }
    (times, different)
}

/// One frame: what is asked under the lock, and the rest of it when the lock is free.
fn ask(
    table: &Mutex<Table>,
    way: Way,
    shown: &mut Shown,
    times: &mut Times,
    (ticks, frame): (&Ticks, u32),
) -> (usize, Vec<Cross>) {
    let table = lock(table);
    let start = Instant::now();
    ticks.frame.store(frame + 1, Ordering::Release);
    let moves = table.moves;
    let found = match way {
        Way::Other(n) => Found::Told(table.others[n].ask()),
        Way::Held => Found::List(table.cells.forbidden_points()),
        Way::Kept if shown.moves == Some(moves) => Found::Same,
        Way::Copied | Way::Kept => Found::Cells(table.cells),
    };
    times.held.push(micros(start));
    drop(table);
    let list = match found {
        Found::Told(told) => told(),
        Found::List(list) => list.to_vec(),
        Found::Same => shown.crosses.clone(),
        Found::Cells(cells) => cells.forbidden_points().to_vec(),
    };
    times.took.push(micros(start));
    if way == Way::Kept {
        shown.moves = Some(moves);
        shown.crosses.clone_from(&list);
    }
    (moves, list)
}

/// What a frame leaves the lock with. A list goes by value: a box would be made under the lock.
#[allow(clippy::large_enum_variant)]
enum Found {
    Told(Told),
    List(Crosses),
    Cells(Cells),
    /// The board that was seen before.
    Same,
}

/// The list of the board after so many moves, outside all that is timed.
fn crosses_after(game: &[Point], moves: usize) -> Crosses {
    let mut cells = Cells::new();
    for (&point, colour) in game[..moves].iter().zip(Colour::ALL.into_iter().cycle()) {
        cells.put(point, colour);
    }
    cells.forbidden_points()
}

/// All ways side by side.
fn report(names: &[&str], times: &[Times]) -> String {
    let held: Vec<_> = times
        .iter()
        .map(|times| Histogram::of(&times.held))
        .collect();
    let bars = side_by_side(names, &held);
    let mut text = format!(
        "In how many frames the lock was held for how long:\n\n{bars}\nµs{:>33} {:>27} {:>20} {:>29}\n",
        "frames", "lock held", "question took", "the player waited"
    );
    let three = format!("{:>8} {:>8} {:>8}", "p50", "p99", "max");
    text += &format!("{:>35} {three}  {:>8} {:>8}  {three}\n", "", "p50", "p99");
    for (name, times) in names.iter().zip(times) {
        let [held, took, waited] =
            [&times.held, &times.took, &times.waited].map(|t| Summary::of(t));
        let three = |s: Summary| format!("{:>8.2} {:>8.2} {:>8.2}", s.p50, s.p99, s.max);
        let two = format!("{:>8.2} {:>8.2}", took.p50, took.p99);
        text += &format!(
            "{name:<28}{:>7} {}  {two}  {}\n",
            held.count,
            three(held),
            three(waited)
        );
    }
    text
}

/// Draws the board into the file, with its crosses and the moves' numbers, and says what it shows.
fn draw(cells: &Cells, moves: &[Point], file: &Path) -> io::Result<String> {
    let crosses = cells.forbidden_points();
    let words = format!(
        "{}; {} points forbidden to Black",
        cells.counts(),
        crosses.len()
    );
    let picture = Picture::of(cells).crosses(&crosses).words(&words);
    fs::write(file, picture.moves(moves.iter().copied()).to_string())?;
    Ok(words)
}
