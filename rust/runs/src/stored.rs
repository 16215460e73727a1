//! Stored games: the host's three functions against a plain reading of document 02, No. 4.
//!
//! One comparison is one call, held to the plain reading in its word and in every byte lent to it,
//! with bytes of guard on both sides. First come all records up to some length whose bytes are from
//! a small set; then games, good and wrong, written and read as they are, and as many good games'
//! records that were damaged.
//!
//! - `plain`: what document 02 says. `call`: a call, ours behind it, and one comparison. `tally`:
//!   the counts, and the smallest difference. `damage`: records, and what is done to them.

pub mod call;
pub mod damage;
pub mod plain;
pub mod tally;

use call::{Call, Host};
use oracle::boards::Dice;
use tally::Tally;

/// What a run is to do.
#[derive(Debug, Clone, PartialEq, Eq)]
pub struct Plan {
    /// The bytes that every record is made of.
    pub bytes: Vec<u8>,
    /// How many of them a record has at most.
    pub longest: usize,
    /// How many records are damaged; as many games are written and read as they are.
    pub damaged: u64,
    pub seed: u64,
}

/// Runs the plan against a host.
pub fn run(host: &Host, plan: &Plan) -> Tally {
    let mut tally = Tally::default();
    for length in 0..=plan.longest {
        every(host, &plan.bytes, length, &mut tally);
    }
    let mut dice = Dice::new(plan.seed);
    for _ in 0..plan.damaged {
        whole(host, &mut dice, &mut tally);
        let game = damage::game(&mut dice);
        let record = damage::damaged(&mut dice, &game);
        let room = damage::room(&mut dice, game.moves.len());
        read(host, &record, room, &mut tally);
    }
    tally
}

/// A game written, which may be refused, and its record read, to which nothing was done.
fn whole(host: &Host, dice: &mut Dice, tally: &mut Tally) {
    let game = damage::wrong_game(dice);
    let room = damage::room(dice, game.moves.len() + 7);
    call::compare(host, &Call::write(&game.moves, game.view), room, tally);
    let room = damage::room(dice, game.moves.len());
    read(host, &plain::bytes_of(game.view, &game.moves), room, tally);
}

/// Every record of a length, in the order of their bytes. There is room for the moves of any.
fn every(host: &Host, from: &[u8], length: usize, tally: &mut Tally) {
    let mut places = vec![0; length];
    let mut record = vec![from[0]; length];
    loop {
        read(host, &record, length, tally);
        let Some(last) = places.iter().rposition(|&place| place + 1 < from.len()) else {
            return;
        };
        places[last] += 1;
        places[last + 1..].fill(0);
        for (byte, &place) in record[last..].iter_mut().zip(&places[last..]) {
            *byte = from[place];
        }
    }
}

/// Both questions about bytes; and a record that reads is written again.
fn read(host: &Host, record: &[u8], room: usize, tally: &mut Tally) {
    call::compare(host, &Call::view(record), 0, tally);
    call::compare(host, &Call::back(record), room, tally);
    if let Ok(game) = plain::read(record) {
        let written = call::compare(
            host,
            &Call::write(game.moves, game.view),
            record.len(),
            tally,
        );
        assert_eq!(
            written, record,
            "the plain reading does not read what it writes"
        );
    }
}
