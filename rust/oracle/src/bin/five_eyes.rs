//! Boards on which request 6 answers otherwise than the original, made small:
//! `five_eyes N SEED`. Of N boards of each sort, every point with two answers is
//! cleared of the stones that it does not need; then one stone is put for two, as
//! long as that can be done. The smallest board is written for each pair of
//! answers.

use oracle::boards::{self, Dice, SORTS};
use oracle::naive::{self, BLACK, Cells, EMPTY, POINTS};
use oracle::{naive_text, original};
use std::collections::BTreeMap;
use std::env;
use std::process::ExitCode;

fn main() -> ExitCode {
    let mut numbers = env::args().skip(1).map(|arg| arg.parse::<u64>());
    let (Some(Ok(count)), Some(Ok(seed)), None) = (numbers.next(), numbers.next(), numbers.next())
    else {
        eprintln!("usage: five_eyes N SEED");
        return ExitCode::from(2);
    };
    for ((by_original, by_request), (cells, p)) in smallest(count, seed) {
        println!("{}", naive_text::write_diagram(&cells));
        println!(
            "{} stones, at {}: {by_original} by the original, {by_request} by request 6",
            boards::stone_count(&cells),
            original::point(p as u8)
        );
    }
    ExitCode::SUCCESS
}

/// The verdict of the original and that of the naive reading.
fn answers(cells: &Cells, p: usize) -> (u8, u8) {
    let board = original::to_board(cells);
    (
        original::strict(&board, p as u8),
        naive::strict(cells, p).verdict,
    )
}

/// The smallest board met for each pair of answers that differ, with its point.
fn smallest(count: u64, seed: u64) -> BTreeMap<(u8, u8), (Cells, usize)> {
    let mut dice = Dice::new(seed);
    let mut found: BTreeMap<(u8, u8), (Cells, usize)> = BTreeMap::new();
    for sort in (0..count).flat_map(|_| SORTS) {
        let cells = boards::of_sort(sort, &mut dice);
        for p in 0..POINTS {
            let pair = answers(&cells, p);
            if pair.0 == pair.1 {
                continue;
            }
            let small = cleared(&mut dice, &cells, p, pair);
            let stones = boards::stone_count(&small);
            let is_smaller = |(kept, _): &(Cells, usize)| stones < boards::stone_count(kept);
            if found.get(&pair).is_none_or(is_smaller) {
                found.insert(pair, (tightened(small, p, pair), p));
            }
        }
    }
    found
}

/// The board without stones that can go and leave both answers as they are, in
/// some order.
fn cleared(dice: &mut Dice, cells: &Cells, p: usize, pair: (u8, u8)) -> Cells {
    let mut small = *cells;
    let mut stones: Vec<usize> = (0..POINTS).filter(|&q| cells[q] != EMPTY).collect();
    while !stones.is_empty() {
        let q = stones.swap_remove(dice.below(stones.len()));
        let mut next = small;
        next[q] = EMPTY;
        if answers(&next, p) == pair {
            small = next;
        }
    }
    small
}

/// The board with two stones fewer and one black stone more, again and again,
/// while both answers stay as they are.
fn tightened(cells: Cells, p: usize, pair: (u8, u8)) -> Cells {
    let stones: Vec<usize> = (0..POINTS).filter(|&q| cells[q] != EMPTY).collect();
    for (i, &first) in stones.iter().enumerate() {
        for &second in &stones[..i] {
            let mut fewer = cells;
            (fewer[first], fewer[second]) = (EMPTY, EMPTY);
            for q in (0..POINTS).filter(|&q| q != p && fewer[q] == EMPTY) {
                let mut next = fewer;
                next[q] = BLACK;
                if answers(&next, p) == pair {
                    return tightened(next, p, pair);
                }
            }
        }
    }
    cells
}
