//! Lines alone: every line of the smaller sizes, and random ones of the larger.

use super::call::{Call, Given, Line};
use super::judge::{Judge, Room};
use oracle::boards::Dice;

/// How many comparisons a run must reach for every line of sizes 5 to 10 to be asked about.
pub const WHOLE: u64 = 50_000_000;

/// The sizes of which a run asks about every line.
pub fn whole_sizes(comparisons: u64) -> std::ops::RangeInclusive<u8> {
    if comparisons >= WHOLE { 5..=10 } else { 5..=7 }
}

/// Asks about one share of the lines: every line of the whole sizes, every `shares`-th for each.
pub fn whole(judge: &mut Judge, comparisons: u64, share: u64, shares: u64) {
    for size in whole_sizes(comparisons) {
        for number in (share..3u64.pow(size.into())).step_by(shares as usize) {
            questions(judge, numbered(number, size));
        }
    }
}

/// Random lines of the sizes above, as many of each.
pub fn random(judge: &mut Judge, comparisons: u64, each: u64) {
    for size in whole_sizes(comparisons).end() + 1..=15 {
        for _ in 0..each {
            let line = some_line(&mut judge.dice, size);
            questions(judge, line);
        }
    }
}

/// The line whose cells are the digits of a number to base three.
fn numbered(mut number: u64, size: u8) -> Line {
    let (mut blacks, mut whites) = (0, 0);
    for cell in 0..size {
        match number % 3 {
            0 => {}
            1 => blacks |= 1 << cell,
            _ => whites |= 1 << cell,
        }
        number /= 3;
    }
    Line {
        blacks,
        whites,
        size,
    }
}

/// A line of one density, mostly of one colour, so that rows are common.
pub fn some_line(dice: &mut Dice, size: u8) -> Line {
    let (density, black) = (20 + dice.below(80), dice.pick(&[5, 20, 50, 80, 95]));
    let (mut blacks, mut whites) = (0, 0);
    for cell in 0..size {
        if dice.chance(density) {
            let stones = if dice.chance(black) {
                &mut blacks
            } else {
                &mut whites
            };
            *stones |= 1 << cell;
        }
    }
    Line {
        blacks,
        whites,
        size,
    }
}

/// Every question about a line: both colours, all kinds, all cells.
fn questions(judge: &mut Judge, line: Line) {
    for colour in [1, 2] {
        for kind in 0..8 {
            of_a_kind(judge, line, colour, kind, 0..line.size);
        }
    }
}

/// The questions about a line's rows of a colour and a kind: all of them, their eyes, those
/// through some cells.
pub fn of_a_kind(
    judge: &mut Judge,
    line: Line,
    colour: u8,
    kind: u8,
    cells: impl IntoIterator<Item = u8>,
) {
    let nothing = Given::nothing();
    let starts = Call::LineStarts { line, colour, kind };
    judge.compare(starts, &nothing, Room::Empty);
    let eyes = Call::LineEyes { line, colour, kind };
    judge.compare(eyes, &nothing, Room::Empty);
    for cell in cells {
        let through = Call::LineStartsOn {
            line,
            colour,
            kind,
            cell,
        };
        judge.compare(through, &nothing, Room::Empty);
    }
}
