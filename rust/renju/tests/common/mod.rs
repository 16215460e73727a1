//! Boards for the tests, made from a seed.

#[path = "../../examples/table/house/dice.rs"]
mod dice;

pub use dice::Dice;
use renju::{CELLS, Cells};

/// A board with some density of stones, two black to one white: with more
/// white ones there would be few rows.
pub fn board(dice: &mut Dice) -> Cells {
    let percent = 5 + dice.below(60);
    let mut bytes = [0; CELLS];
    for byte in &mut bytes {
        if dice.below(100) < percent {
            *byte = if dice.below(3) < 2 { 1 } else { 2 };
        }
    }
    Cells::from_bytes(&bytes).expect("bytes 0 to 2")
}

pub fn boards(count: usize, seed: u64) -> Vec<Cells> {
    let mut dice = Dice::new(seed);
    (0..count).map(|_| board(&mut dice)).collect()
}
