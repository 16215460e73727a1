//! The whole run: the board sets, and every row of the three tables.

use std::fmt;

use super::depths::Depths;
use super::games::{self, Games};
use super::race::{self, Pace, Race};
use super::rows::{Changes, Form, Lists, Other, Texts, Turns, Verdicts, Written};
use super::sets::{self, Set};
use super::table::Row;

/// The seed where none is given.
pub const SEED: u64 = 20_261_115;

/// How much is asked. No part of a set is larger than the set.
#[derive(Debug, Clone, Copy)]
pub struct Settings {
    pub seed: u64,
    /// Boards in each set of games.
    pub games: usize,
    /// Boards in the nested set.
    pub nested: usize,
    /// Boards of a set that are asked point by point: each has some hundred empty points.
    pub by_point: usize,
    /// Boards of a set of games that are changed point by point: a call there is the same work on
    /// any board.
    pub changed: usize,
    /// Whole games of each length.
    pub played: usize,
    pub pace: Pace,
    /// Boards of each set on which the second referee is timed. It is slow, and few say how slow.
    pub second: usize,
    pub second_pace: Pace,
}

impl Settings {
    /// Under a minute.
    pub fn usual(seed: u64) -> Self {
        let pace = Pace {
            warm_up: 2,
            rounds: 15,
            sample: 2_000.0,
        };
        let second_pace = Pace {
            warm_up: 1,
            rounds: 3,
            ..pace
        };
        Self {
            seed,
            games: 100,
            nested: 200,
            by_point: 20,
            changed: 4,
            played: 40,
            pace,
            second: 4,
            second_pace,
        }
    }

    /// A few seconds: to see that it runs, not to learn how fast.
    pub fn quick(seed: u64) -> Self {
        let pace = Pace {
            warm_up: 1,
            rounds: 3,
            sample: 1_000.0,
        };
        Self {
            seed,
            games: 4,
            nested: 6,
            by_point: 1,
            changed: 1,
            played: 2,
            pace,
            second: 1,
            second_pace: Pace { rounds: 1, ..pace },
        }
    }
}

/// A question to which the two gave different answers.
#[derive(Debug, Clone, PartialEq, Eq)]
pub struct Difference {
    pub question: String,
    pub boards: String,
    pub number: usize,
}

impl fmt::Display for Difference {
    fn fmt(&self, f: &mut fmt::Formatter) -> fmt::Result {
        let Self {
            question,
            boards,
            number,
        } = self;
        write!(
            f,
            "the answers differ: {question}, {boards}, number {number}"
        )
    }
}

/// The rows so far, and where each is told as soon as it is known.
struct Growing<F> {
    pace: Pace,
    rows: Vec<Row>,
    report: F,
}

impl<F: FnMut(&Row)> Growing<F> {
    fn add(
        &mut self,
        question: &str,
        boards: &str,
        race: &mut impl Race,
    ) -> Result<(), Difference> {
        let times = race::run(race, &self.pace).map_err(|number| Difference {
            question: question.to_string(),
            boards: boards.to_string(),
            number,
        })?;
        let row = Row::new(question, boards, &times);
        (self.report)(&row);
        self.rows.push(row);
        Ok(())
    }

    /// The list on every board of every set, and the verdict at every empty point of the first
    /// boards of each.
    fn add_verdicts(
        &mut self,
        made: &[Set],
        by_point: usize,
        other: Other,
    ) -> Result<(), Difference> {
        for set in made {
            let mut lists = Lists::new(&set.boards, other);
            self.add("forbidden list", &set.name, &mut lists)?;
        }
        for set in made {
            let mut verdicts = Verdicts::new(&set.boards[..by_point], other);
            self.add("strict verdict", &set.name, &mut verdicts)?;
        }
        Ok(())
    }
}

/// The fast referee against the original: makes the boards, compares all answers and times every
/// row; each is handed to `report` as soon as it is known. The first difference ends the run.
pub fn run(settings: &Settings, report: impl FnMut(&Row)) -> Result<Vec<Row>, Difference> {
    let made = board_sets(settings);
    let games = &made[..sets::STONES.len()];
    let mut table = Growing {
        pace: settings.pace,
        rows: Vec::new(),
        report,
    };
    table.add_verdicts(&made, settings.by_point, Other::Original)?;
    for form in Form::ALL {
        let boards = games.iter().flat_map(|s| &s.boards[..settings.changed]);
        let mut changes = Changes::new(boards.cloned().collect(), form);
        table.add("put and remove", form.words(), &mut changes)?;
    }
    for form in Form::ALL {
        let boards = games.iter().flat_map(|s| &s.boards[..settings.changed]);
        let mut turns = Turns::new(boards.cloned().collect(), form);
        table.add("the same by turns", form.words(), &mut turns)?;
    }
    for written in Written::ALL {
        for form in Form::ALL {
            let boards = games.iter().flat_map(|s| &s.boards).collect();
            let mut texts = Texts::new(boards, written, form);
            table.add(written.words(), form.words(), &mut texts)?;
        }
    }
    for length in games::LENGTHS {
        let made = games::games(settings.seed, length, settings.played);
        let boards = format!("games, {length} moves");
        table.add("whole game", &boards, &mut Games::new(made))?;
    }
    Ok(table.rows)
}

/// The fast referee against the second one, on the first boards of the same sets.
pub fn run_second(settings: &Settings, report: impl FnMut(&Row)) -> Result<Vec<Row>, Difference> {
    let made = board_sets(&Settings {
        games: settings.second,
        nested: settings.second,
        ..*settings
    });
    let mut table = Growing {
        pace: settings.second_pace,
        rows: Vec::new(),
        report,
    };
    table.add_verdicts(&made, settings.second, Other::Second)?;
    Ok(table.rows)
}

/// The depth against the verdict that it holds, at every empty point of the nested boards: how many
/// times as long it takes is the ratio.
pub fn run_depths(settings: &Settings, report: impl FnMut(&Row)) -> Result<Vec<Row>, Difference> {
    let set = sets::nested(settings.seed, settings.nested);
    let mut table = Growing {
        pace: settings.second_pace,
        rows: Vec::new(),
        report,
    };
    let mut depths = Depths::new(&set.boards);
    table.add("depth and verdict", &set.name, &mut depths)?;
    Ok(table.rows)
}

/// The games by their stones, then the nested boards.
fn board_sets(settings: &Settings) -> Vec<Set> {
    let Settings {
        seed,
        games,
        nested,
        ..
    } = *settings;
    let mut made: Vec<Set> = sets::STONES
        .iter()
        .map(|&stones| sets::games(seed, stones, games))
        .collect();
    made.push(sets::nested(seed, nested));
    made
}
