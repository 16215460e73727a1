//! The listing of section 7, as the original would have it, and texts to
//! list.

use crate::boards::{self, Dice};
use crate::left_out;
use crate::naive;
use crate::naive_text::{self, write_diagram};
use crate::original;
use crate::texts;
use std::fmt::Write;

const KINDS: [&str; 4] = ["", "DoubleThree", "DoubleFour", "Overline"];

/// The listing of a text. Refusals 1 and 2 are the port's own: the original
/// reads such texts. A text that is left out is read by the naive reading, and a
/// list that is left out is that of the naive reading.
pub fn listing(text: &[u8]) -> String {
    if text.len() > 4096 {
        return refused(1);
    }
    if !text.is_ascii() {
        return refused(2);
    }
    match left_out::read(text) {
        Ok(cells) => listed(&left_out::forbidden_list(&cells, &original::to_board(&cells)).answer),
        Err(number) => refused(number),
    }
}

/// Whether the list of a text's board is left out of the comparison with the
/// original, by request 6.
pub fn list_is_left_out(text: &[u8]) -> bool {
    let reads = text.len() <= 4096 && text.is_ascii();
    reads && left_out::read(text).is_ok_and(|cells| naive::listed(&cells).1)
}

fn refused(number: u8) -> String {
    format!("refused {number}\n")
}

fn listed(list: &[(u8, u8)]) -> String {
    let mut out = String::new();
    for &(kind, code) in list {
        let (point, kind) = (original::point(code), KINDS[usize::from(kind)]);
        writeln!(out, "{point} {kind}").expect("a string takes all");
    }
    writeln!(out, "forbidden {}", list.len()).expect("a string takes all");
    out
}

/// A text to list: the stones of every sort of board (a diagram where a side has
/// none), lists, and both damaged; now and then a byte of 128 or more, or too many
/// bytes.
pub fn text(dice: &mut Dice) -> Vec<u8> {
    let mut bytes = match dice.below(4) {
        0 | 1 => {
            let sort = dice.pick(&boards::SORTS);
            let diagram = write_diagram(&boards::of_sort(sort, dice));
            let stones = naive_text::convert(diagram.as_bytes());
            stones.unwrap_or(diagram).into_bytes()
        }
        2 => texts::good(dice).into_bytes(),
        _ => {
            let good = texts::good(dice);
            texts::mutated(dice, &good).into_bytes()
        }
    };
    if dice.chance(2) {
        let at = dice.below(bytes.len() + 1);
        bytes.insert(at, 128 + dice.below(128) as u8);
    }
    if dice.chance(2) {
        bytes.resize(4090 + dice.below(12), b' ');
    }
    bytes
}
