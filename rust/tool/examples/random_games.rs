//! Writes random games, moves text, one a line, for trying the tool on big files: `random_games COUNT SEED`.
//!
//! Each move is at a random legal point near the middle, up to 60 moves or a five; in one game of sixteen the last move is repeated,
//! which is a fault.

#[path = "../../renju/examples/table/house/dice.rs"]
mod dice;

use dice::Dice;
use renju::{Game, Point};
use std::io::{self, BufWriter, Write};

fn main() -> io::Result<()> {
    let number = |place: usize, other: u64| {
        let word = std::env::args().nth(place);
        word.and_then(|word| word.parse().ok()).unwrap_or(other)
    };
    let (count, mut dice) = (number(1, 1000), Dice::new(number(2, 1)));
    let mut out = BufWriter::new(io::stdout().lock());
    for _ in 0..count {
        let (game, repeated) = (random_game(&mut dice), dice.below(16) == 0);
        match game.moves().points().last().filter(|_| repeated) {
            Some(last) => writeln!(out, "{game},{last}")?,
            None => writeln!(out, "{game}")?,
        }
    }
    out.flush()
}

fn random_game(dice: &mut Dice) -> Game {
    let mut game = Game::new();
    for _ in 0..60 {
        let mut side = || (1 + dice.below(13)) as u8;
        if let Ok(point) = Point::new(side(), side()) {
            // What is not legal is left out.
            let _ = game.play(point);
        }
        if game.to_move().is_none() {
            break;
        }
    }
    game
}
