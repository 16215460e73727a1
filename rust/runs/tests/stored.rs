//! The run over stored games: that it is clean, that it meets every refusal, and that it finds what
//! it is to find, on functions made wrong.

use oracle::boards::Dice;
use runs::stored::call::{Call, Host, ask};
use runs::stored::tally::Tally;
use runs::stored::{Plan, damage, plain, run};
use std::process::Command;

/// Few bytes, all that tell the refusals apart; few damaged records.
fn short_run(host: &Host, longest: usize) -> Tally {
    let plan = Plan {
        bytes: vec![0, 1, 2, 8, 225],
        longest,
        damaged: 20_000,
        seed: 1,
    };
    run(host, &plan)
}

#[test]
fn every_short_record_and_damaged_ones() {
    let tally = short_run(&ask, 9);
    assert_eq!(tally.status(), 0, "{}", tally.report());
    // Which refusals each function was to give, 0 for an answer: all that it has.
    let met = tally.counts.each_ref().map(|count| {
        let times = count.refusals.iter().enumerate();
        let met: Vec<usize> = times.filter(|(_, n)| **n > 0).map(|(at, _)| at).collect();
        met
    });
    assert_eq!(met[0], [0, 8, 12, 13, 14]);
    assert_eq!(met[1], [0, 8, 13, 14, 15, 16]);
    assert_eq!(met[2], [0, 8, 14, 15]);
    // All of up to nine of five bytes, the games as they are, and those that were damaged.
    let every: u64 = (0..=9).map(|length| 5u64.pow(length)).sum();
    assert_eq!(tally.counts[1].comparisons, every + 20_000 + 20_000);
}

/// The smallest difference of the function that alone is wrong.
fn smallest(host: &Host, name: &str) -> Vec<u8> {
    let tally = short_run(host, 8);
    assert_eq!(tally.status(), 1);
    let mut found = tally
        .counts
        .iter()
        .filter_map(|count| count.smallest.as_ref());
    let smallest = found.next().expect("a difference");
    assert_eq!(found.next(), None);
    let text = tally.report();
    assert!(text.contains(&format!("difference in {name}: ")), "{text}");
    assert!(text.contains(&smallest.text), "{text}");
    smallest.bytes.clone()
}

/// Asks the host with the bytes at two places changed over, where they are there.
fn swapped(call: &Call, out: &mut [u8], places: (usize, usize)) -> u32 {
    let mut bytes = call.bytes().to_vec();
    if places.1 < bytes.len() {
        bytes.swap(places.0, places.1);
    }
    ask(&call.with(&bytes), out)
}

#[test]
fn a_length_with_its_low_byte_first_is_found() {
    let wrong = |call: &Call, out: &mut [u8]| match call {
        Call::Back { .. } => swapped(call, out, (5, 6)),
        _ => ask(call, out),
    };
    let found = smallest(&wrong, "renju_from_tagged");
    assert_eq!(found, [1, 0, 1, 0, 2, 0, 1, 0]);
}

#[test]
fn a_byte_after_the_moves_is_found() {
    let wrong = |call: &Call, out: &mut [u8]| match call {
        Call::View {
            record: [one @ .., _],
        } if ask(call, out) == 15 << 16 => ask(&Call::view(one), out),
        _ => ask(call, out),
    };
    let found = smallest(&wrong, "renju_tagged_view");
    assert_eq!(found, [1, 0, 1, 0, 2, 0, 0, 0]);
}

#[test]
fn a_view_refused_before_a_code_is_found() {
    let wrong = |call: &Call, out: &mut [u8]| match call {
        Call::Back { record } if ask(call, out) == 8 << 16 && record[3] != 0 => 16 << 16,
        _ => ask(call, out),
    };
    let found = smallest(&wrong, "renju_from_tagged");
    assert_eq!(found, [1, 0, 1, 1, 2, 0, 1, 225]);
}

#[test]
fn a_refusal_that_writes_is_found() {
    let wrong = |call: &Call, out: &mut [u8]| {
        let word = ask(call, out);
        if let (Call::Back { .. }, 15, [first, ..]) = (call, word >> 16, out) {
            *first = 0;
        }
        word
    };
    let found = smallest(&wrong, "renju_from_tagged");
    // No bytes: a byte could be written only with room for one.
    assert_eq!(found, []);
}

#[test]
fn moves_past_the_last_are_found() {
    let wrong = |call: &Call, out: &mut [u8]| match call {
        Call::Write { moves, view } if moves.len() == 226 => {
            ask(&Call::write(&moves[..225], *view), out)
        }
        _ => ask(call, out),
    };
    assert_eq!(smallest(&wrong, "renju_to_tagged").len(), 226);
}

/// What is called damaged is a good game's record no more.
#[test]
fn damaged_is_damaged() {
    let mut dice = Dice::new(1);
    for _ in 0..20_000 {
        let game = damage::game(&mut dice);
        let good = plain::write(&game.moves, game.view).expect("a good game");
        assert_ne!(damage::damaged(&mut dice, &game), good);
    }
}

#[test]
fn wrong_usage() {
    for wrong in [vec!["x"], vec!["-1"], vec!["1", "1", "10"], vec!["1"; 4]] {
        let program = Command::new(env!("CARGO_BIN_EXE_stored"))
            .args(wrong)
            .output();
        let ended = program.expect("it runs");
        assert_eq!(ended.status.code(), Some(2));
        assert!(ended.stdout.is_empty());
        assert!(ended.stderr.starts_with(b"usage: stored "));
    }
}
