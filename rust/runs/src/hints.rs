//! Hints: the host's plan and check against a plain search, written from document 02, No. 11, on 225
//! cell values.
//!
//! - `plain`: what document 02 says. `original`: the same search on the original's board. `boards`:
//!   positions with attacks in them. `refused`: what is refused.

pub mod boards;
pub mod original;
pub mod plain;
pub mod refused;

use oracle::boards::Dice;
use plain::{Cells, DOCUMENT};
use renju::raw::{renju_win_check, renju_win_plan};

/// Of the short lines, how many percent are played out against every reply.
const PLAYED: usize = 2;

/// What was asked, and what differed.
#[derive(Debug, Default, Clone, PartialEq, Eq)]
pub struct Tally {
    pub boards: u64,
    pub plans: u64,
    pub lines: u64,
    pub checks: u64,
    pub played: u64,
    /// How often each refusal was to be given, by its number.
    pub refusals: [u64; 22],
    pub differ: u64,
    pub first: Option<String>,
}

/// A plan by cells, side, limit and room.
pub type Plan<'a> = dyn Fn(&[u8], u8, u8, &mut [u8]) -> u32 + 'a;
/// A check by cells, side and list.
pub type Check<'a> = dyn Fn(&[u8], u8, &[u8]) -> u32 + 'a;

/// The two functions that are asked.
pub struct Host<'a> {
    pub plan: &'a Plan<'a>,
    pub check: &'a Check<'a>,
}

/// Ours.
pub const OURS: Host<'static> = Host {
    plan: &renju_win_plan,
    check: &renju_win_check,
};

/// Runs `count` boards, both colours, every limit.
pub fn run(host: &Host<'_>, count: u64, seed: u64) -> Tally {
    let mut tally = Tally::default();
    let mut dice = Dice::new(seed);
    for _ in 0..count {
        let cells = boards::board(&mut dice);
        tally.boards += 1;
        refused::compare(host, &cells, &mut dice, &mut tally);
        for side in [1, 2] {
            // Where six attacks are not enough, fewer are not.
            let most = DOCUMENT.plan(&cells, side, 6);
            for limit in 1..=6 {
                let plan = match (&most, limit) {
                    (None, _) => None,
                    (Some(line), 6) => Some(line.clone()),
                    _ => DOCUMENT.plan(&cells, side, limit),
                };
                let asked = Asked {
                    cells: &cells,
                    side,
                    limit,
                    plan: plan.unwrap_or_default(),
                };
                compare(host, asked, &mut dice, &mut tally);
            }
        }
    }
    tally
}

/// A question, and the plain search's answer: no points for no line.
struct Asked<'a> {
    cells: &'a Cells,
    side: u8,
    limit: u8,
    plan: Vec<u8>,
}

/// One plan: its word, its points, and the bytes behind them; then its line checked, as it is and
/// damaged, and some short lines played out.
fn compare(host: &Host<'_>, asked: Asked<'_>, dice: &mut Dice, tally: &mut Tally) {
    let Asked {
        cells,
        side,
        limit,
        plan,
    } = asked;
    let mut out = [201; 16];
    let word = (host.plan)(cells, side, limit, &mut out);
    let mut want = [201; 16];
    want[..plan.len()].copy_from_slice(&plan);
    tally.plans += 1;
    if (word, out) != (plan.len() as u32, want) {
        tally.differs(format!(
            "plan {side} {limit} {cells:?}: {word} {out:?}, not {plan:?}"
        ));
    }
    let line = if plan.is_empty() {
        vec![dice.below(225) as u8]
    } else {
        tally.lines += 1;
        plan
    };
    for list in [line.clone(), damaged(&line, dice)] {
        tally.checks += 1;
        let word = (host.check)(cells, side, &list);
        let is = DOCUMENT.accepts(cells, side, &list);
        if word != u32::from(is) {
            tally.differs(format!("check {side} {list:?} {cells:?}: {word}, not {is}"));
        }
    }
    if line.len() <= 5 && dice.chance(PLAYED) && DOCUMENT.accepts(cells, side, &line) {
        tally.played += 1;
        if !plain::wins(cells, side, line.len().div_ceil(2) + 1, &line) {
            tally.differs(format!("played {side} {line:?} {cells:?}: no win"));
        }
    }
}

/// A list with one thing wrong, or none.
fn damaged(line: &[u8], dice: &mut Dice) -> Vec<u8> {
    let mut list = line.to_vec();
    let at = dice.below(list.len());
    match dice.below(4) {
        0 => list[at] = dice.below(225) as u8,
        1 => list.push(dice.below(225) as u8),
        2 => list.truncate(at),
        _ => list.insert(at, dice.below(225) as u8),
    }
    list
}

impl Tally {
    fn differs(&mut self, text: String) {
        self.differ += 1;
        self.first.get_or_insert(text);
    }

    /// The counts and the first difference, in words.
    pub fn report(&self) -> String {
        let first = self.first.as_deref().unwrap_or("");
        let given = self.refusals.iter().enumerate();
        let given = given.filter(|(_, times)| **times > 0);
        let given: Vec<String> = given.map(|(n, times)| format!("{n}: {times}")).collect();
        format!(
            "{} boards, {} plans, {} with a line; {} lists checked; {} lines played out against every reply; refused {}; {} differ\n{first}",
            self.boards,
            self.plans,
            self.lines,
            self.checks,
            self.played,
            given.join(", "),
            self.differ
        )
    }
}
