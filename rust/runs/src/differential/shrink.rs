//! Makes a difference smaller: stones and bytes are taken away while it stays.

use super::call::{Given, Host, Line};
use super::judge::{Case, Difference, Judge, Progress};

impl Difference {
    /// What makes one difference smaller than another: fewer stones, then fewer bytes or cells.
    /// A text is as large as it is long, and so is a game.
    pub fn size(&self) -> (usize, usize) {
        let Case { call, given, .. } = &self.case;
        let length = given.bytes.len();
        match call.line() {
            Some(line) => (line.stone_count(), line.size.into()),
            None if call.takes_a_list() => (length, length),
            None => (
                given.bytes.iter().filter(|&&cell| cell != 0).count(),
                length,
            ),
        }
    }
}

/// The difference with all taken away, one by one, that it does not need.
pub fn shrunk(host: &Host, difference: Difference) -> Difference {
    let progress = Progress::default();
    let mut judge = Judge::new(host, &progress, 0);
    let mut smallest = difference;
    loop {
        let before = smallest.size();
        for place in (0..places(&smallest.case)).rev() {
            let smaller = without(&smallest.case, place);
            if let Some(found) = smaller.and_then(|case| judge.again(case)) {
                smallest = found;
            }
        }
        if smallest.size() == before {
            return smallest;
        }
    }
}

/// How many places [`without`] can be asked at.
fn places(case: &Case) -> usize {
    match case.call.line() {
        Some(_) => 32,
        None => case.given.bytes.len(),
    }
}

/// The case without one stone, or, where it is a text or a game, without one byte; nothing where
/// there is none at the place.
fn without(case: &Case, place: usize) -> Option<Case> {
    let mut next = case.clone();
    if let Some(line) = case.call.line() {
        let stones = u32::from(line.blacks) << 16 | u32::from(line.whites);
        let fewer = stones & !(1 << place);
        let (blacks, whites) = ((fewer >> 16) as u16, fewer as u16);
        next.call = case.call.with_line(Line {
            blacks,
            whites,
            ..line
        });
        return (fewer != stones).then_some(next);
    }
    let mut bytes = case.given.bytes.clone();
    if case.call.takes_a_list() {
        bytes.remove(place);
        next.given = Given::text(&bytes);
        return Some(next);
    }
    let was_empty = std::mem::take(&mut bytes[place]) == 0;
    next.given = Given::cells(&bytes);
    (!was_empty).then_some(next)
}
