//! How long a hint takes: `hints_bench [N [SEED]]`, N boards of 20 to 60 stones, every tenth without a
//! line, each with the side for which it is hard, at limit 6: p50, p99 and the worst, and the boards searched, by how many attacks
//! the line has; beside them a plain search on the original's board, which tries every empty point, and
//! one that tries listed ones.
//!
//! `hints_bench N SEED once` asks ours once a board, for a counter of instructions to follow:
//! `valgrind --tool=callgrind --toggle-collect='hints_bench::asked' hints_bench N SEED once`, then
//! the total over the number of plans that it prints.
//!
//! Exit status 2 for an argument that is not understood.

use oracle::board::board::Board;
use oracle::boards::Dice;
use oracle::original::to_board;
use renju::raw::renju_win_plan;
use runs::hints::boards;
use runs::hints::original::{self, Tried};
use runs::hints::plain::{Cells, DOCUMENT};
use std::hint::black_box;
use std::process::ExitCode;
use std::time::{Duration, Instant};

/// Rounds over the set, of which the fastest is taken, question by question.
const ROUNDS: usize = 5;

/// A question, its line and how many boards were searched; none where the original's line differs.
struct Question {
    cells: Cells,
    board: Board,
    side: u8,
    line: Vec<u8>,
    nodes: Option<u64>,
    ours: Duration,
    every: Duration,
    listed: Duration,
}

fn main() -> ExitCode {
    let mut words: Vec<String> = std::env::args().skip(1).collect();
    let once = words.len() == 3 && words.pop().as_deref() == Some("once");
    let numbers: Result<Vec<u64>, _> = words.iter().map(|word| word.parse()).collect();
    let Some(numbers) = numbers.ok().filter(|numbers| numbers.len() <= 2) else {
        eprintln!("usage: hints_bench [N [SEED [once]]]");
        return ExitCode::from(2);
    };
    let number = |place: usize, other: u64| numbers.get(place).copied().unwrap_or(other);
    let mut dice = Dice::new(number(1, 1));
    let hard: Vec<(Cells, u8)> = (0..number(0, 500)).map(|n| hard(&mut dice, n)).collect();
    if once {
        println!("{} plans", asked(&hard));
        return ExitCode::SUCCESS;
    }
    let questions = hard.into_iter();
    let questions = questions.map(|(cells, side)| question(cells, side));
    let mut questions: Vec<Question> = questions.collect();
    for _ in 0..ROUNDS {
        questions.iter_mut().for_each(time);
    }
    report(&questions);
    ExitCode::SUCCESS
}

/// How many plans there are, each asked once.
#[inline(never)]
fn asked(hard: &[(Cells, u8)]) -> usize {
    let plans = hard.iter().map(|(cells, side)| planned(cells, *side));
    plans.map(black_box).count()
}

/// A board, every tenth without a line.
fn hard(dice: &mut Dice, number: u64) -> (Cells, u8) {
    if !number.is_multiple_of(10) {
        return boards::hard(dice);
    }
    boards::spoilt(dice, |cells, side| {
        let (out, points) = planned(cells, side);
        out[..points].first().copied()
    })
}

/// Our plan at limit 6.
fn planned(cells: &Cells, side: u8) -> ([u8; 11], usize) {
    let mut out = [0; 11];
    let points = renju_win_plan(cells, side, 6, &mut out) as usize;
    (out, points)
}

/// A question with its line. Where the original's search says another, ours is held to document 02's:
/// its verdicts are of before request 6.
fn question(cells: Cells, side: u8) -> Question {
    let (out, points) = planned(&cells, side);
    let line = out[..points].to_vec();
    let board = to_board(&cells);
    let (theirs, nodes) = original::plan(&board, side, 6, Tried::Listed);
    let same = theirs == line;
    assert_eq!(
        original::plan(&board, side, 6, Tried::Every),
        (theirs, nodes)
    );
    if !same {
        let must = DOCUMENT.plan(&cells, side, 6).unwrap_or_default();
        assert_eq!(line, must, "side {side}, {cells:?}");
    }
    Question {
        cells,
        board,
        side,
        line,
        nodes: same.then_some(nodes),
        ours: Duration::MAX,
        every: Duration::MAX,
        listed: Duration::MAX,
    }
}

fn took<T>(ask: impl Fn() -> T) -> Duration {
    let start = Instant::now();
    black_box(ask());
    start.elapsed()
}

/// Ours and the two on the original's board, once more.
fn time(question: &mut Question) {
    let (board, side) = (&question.board, question.side);
    let ours = took(|| planned(&question.cells, side));
    let every = took(|| original::plan(board, side, 6, Tried::Every));
    let listed = took(|| original::plan(board, side, 6, Tried::Listed));
    question.ours = question.ours.min(ours);
    question.every = question.every.min(every);
    question.listed = question.listed.min(listed);
}

/// A line for each number of attacks, one for all, and what was left out.
fn report(questions: &[Question]) {
    println!(
        "attacks | boards | nodes p50, p99, most | ours p50, p99, worst | sums: ours; every point, ratio; listed, ratio"
    );
    for attacks in 0..=6 {
        let of = |question: &&Question| question.line.len().div_ceil(2) == attacks;
        show(
            &attacks.to_string(),
            &questions.iter().filter(of).collect::<Vec<_>>(),
        );
    }
    show("all", &questions.iter().collect::<Vec<_>>());
    let left_out = questions
        .iter()
        .filter(|question| question.nodes.is_none())
        .count();
    println!("{left_out} boards whose line differs by request 6 are left out of nodes and sums");
}

fn show(name: &str, questions: &[&Question]) {
    let mut times: Vec<Duration> = questions.iter().map(|question| question.ours).collect();
    let same = questions.iter().filter(|question| question.nodes.is_some());
    let mut nodes: Vec<u64> = same.clone().filter_map(|question| question.nodes).collect();
    if nodes.is_empty() {
        return;
    }
    let sum = |of: fn(&Question) -> Duration| same.clone().map(|&question| of(question)).sum();
    let ours: Duration = sum(|question| question.ours);
    let beside = |theirs: Duration| {
        let ratio = theirs.as_secs_f64() / ours.as_secs_f64();
        format!("{theirs:.1?}, {ratio:.1}")
    };
    println!(
        "{name} | {} | {} | {} | {ours:.1?}; {}; {}",
        questions.len(),
        places(&mut nodes).map(|n| n.to_string()).join(", "),
        places(&mut times)
            .map(|time| format!("{time:.1?}"))
            .join(", "),
        beside(sum(|question| question.every)),
        beside(sum(|question| question.listed)),
    );
}

/// The middle, the 99th of a hundred, and the last, by size.
fn places<T: Ord + Copy>(all: &mut [T]) -> [T; 3] {
    all.sort_unstable();
    let at = |percent: usize| all[(all.len() - 1) * percent / 100];
    [at(50), at(99), at(100)]
}
