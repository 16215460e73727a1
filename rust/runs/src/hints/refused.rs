//! What is refused of a plan and of a check, in the order of document 02, No. 11: "9, 8, 12 for the
//! side, then 21 for a limit outside 1 to 6, then 13 for an output under 11 bytes".

use super::plain::Cells;
use super::{Host, Tally};
use oracle::boards::Dice;

/// How many of the parts of a question are wrong, in percent.
const WRONG: usize = 30;

/// A plan and a check on the cells of a board, each with some of its parts made wrong. One where
/// nothing is to be refused is not asked.
pub(super) fn compare(host: &Host<'_>, cells: &Cells, dice: &mut Dice, tally: &mut Tally) {
    let cells = damaged(cells, dice);
    let side = either(dice, &[1, 2], &[0, 3, 255]);
    let limit = either(dice, &[1, 2, 3, 4, 5, 6], &[0, 7, 255]);
    let mut out = vec![201; either(dice, &[11, 16], &[0, 10])];
    let list = [112, either(dice, &[0, 224], &[225, 255])];
    let asked = cells_refusal(&cells).or(side_refusal(side));
    let asked = asked.or(number_if(!(1..=6).contains(&limit), 21));
    if let Some(number) = asked.or(number_if(out.len() < 11, 13)) {
        let lent = out.clone();
        let word = (host.plan)(&cells, side, limit, &mut out);
        tally.refused(number, word, out == lent, "plan");
    }
    let listed = cells_refusal(&cells).or(number_if(list[1] > 224, 8));
    if let Some(number) = listed.or(side_refusal(side)) {
        let word = (host.check)(&cells, side, &list);
        tally.refused(number, word, true, "check");
    }
}

impl Tally {
    /// A refusal that must be given, the word that was, and whether the lent bytes are as before.
    fn refused(&mut self, number: u8, word: u32, kept: bool, asked: &str) {
        self.refusals[usize::from(number)] += 1;
        if word != u32::from(number) << 16 || !kept {
            self.differs(format!("{asked} refused {number}: {word:#x}, kept {kept}"));
        }
    }
}

/// The cells as they are, too few, too many, or with a value that none has.
fn damaged(cells: &Cells, dice: &mut Dice) -> Vec<u8> {
    let mut cells = cells.to_vec();
    if !dice.chance(WRONG) {
        return cells;
    }
    match dice.below(3) {
        0 => cells.truncate(dice.below(225)),
        1 => cells.push(0),
        _ => cells[dice.below(225)] = 3 + dice.below(253) as u8,
    }
    cells
}

/// One of the right values, or of the wrong ones.
fn either<T: Copy>(dice: &mut Dice, right: &[T], wrong: &[T]) -> T {
    if dice.chance(WRONG) {
        dice.pick(wrong)
    } else {
        dice.pick(right)
    }
}

fn cells_refusal(cells: &[u8]) -> Option<u8> {
    number_if(cells.len() != 225 || cells.iter().any(|&cell| cell > 2), 9)
}

fn side_refusal(side: u8) -> Option<u8> {
    number_if(side != 1 && side != 2, 12)
}

fn number_if(refused: bool, number: u8) -> Option<u8> {
    refused.then_some(number)
}
