//! The run over SGF texts: that it is clean, that it meets every refusal, and that it finds what it
//! is to find, on functions made wrong.

use oracle::boards::Dice;
use runs::sgf::{Call, Host, ask, plain, run, texts};
use std::process::Command;

#[test]
fn good_and_damaged_texts() {
    let tally = run(&ask, 20_000, 1);
    assert_eq!(tally.status(), 0, "{}", tally.report());
    // Which refusals each function was to give, 0 for an answer: all that it has.
    let met = tally.counts.each_ref().map(|count| {
        let times = count.refusals.iter().enumerate();
        let met: Vec<usize> = times.filter(|(_, n)| **n > 0).map(|(at, _)| at).collect();
        met
    });
    assert_eq!(met[0], [0, 8, 13, 14]);
    assert_eq!(met[1], [0, 1, 2, 13, 14, 20]);
}

/// A run over a host that is wrong finds it, in the function that alone is wrong.
fn is_found(host: &Host, name: &str) {
    let tally = run(host, 20_000, 1);
    assert_eq!(tally.status(), 1);
    let wrong = tally.counts.iter().filter(|count| count.differences > 0);
    assert_eq!(wrong.count(), 1);
    let said = tally.report();
    assert!(said.contains(&format!("difference in {name}: ")), "{said}");
}

/// Asks for another text in the place of this one.
fn instead(call: &Call, out: &mut [u8], change: impl Fn(&mut Vec<u8>)) -> u32 {
    let Call::Read { text } = *call else {
        return ask(call, out);
    };
    let mut text = text.to_vec();
    change(&mut text);
    ask(&Call::Read { text: &text }, out)
}

#[test]
fn rows_counted_from_below_are_found() {
    let wrong = |call: &Call, out: &mut [u8]| {
        let word = ask(call, out);
        if let (Call::Read { .. }, 0) = (call, word >> 16) {
            for code in &mut out[..word as usize] {
                *code = *code / 15 * 15 + 14 - *code % 15;
            }
        }
        word
    };
    is_found(&wrong, "renju_from_sgf");
}

#[test]
fn white_first_is_found() {
    let wrong = |call: &Call, out: &mut [u8]| {
        instead(call, out, |text| {
            if text.get(13..15) == Some(&b";W"[..]) {
                text[14] = b'B';
            }
        })
    };
    is_found(&wrong, "renju_from_sgf");
}

#[test]
fn a_variation_let_through_is_found() {
    let wrong = |call: &Call, out: &mut [u8]| {
        instead(call, out, |text| {
            if text.ends_with(b"))") {
                text.pop();
            }
        })
    };
    is_found(&wrong, "renju_from_sgf");
}

#[test]
fn a_space_inside_a_value_is_found() {
    let wrong = |call: &Call, out: &mut [u8]| {
        instead(call, out, |text| {
            let mut inside = false;
            text.retain(|&byte| {
                inside = byte == b'[' || (inside && byte != b']');
                !(inside && byte.is_ascii_whitespace())
            });
        })
    };
    is_found(&wrong, "renju_from_sgf");
}

#[test]
fn moves_past_the_last_are_found() {
    let wrong = |call: &Call, out: &mut [u8]| match *call {
        Call::Write { moves } if moves.len() == 226 => ask(
            &Call::Write {
                moves: &moves[..225],
            },
            out,
        ),
        _ => ask(call, out),
    };
    is_found(&wrong, "renju_to_sgf");
}

/// What is called good reads as its moves; what is called damaged is another text.
#[test]
fn good_is_good_and_damaged_is_damaged() {
    let mut dice = Dice::new(1);
    for _ in 0..20_000 {
        let moves = texts::game(&mut dice);
        let text = texts::good(&mut dice, &moves);
        if text.len() <= 4096 && moves.len() <= 225 {
            assert_eq!(plain::read(&text), Ok(moves));
        }
        assert_ne!(texts::damaged(&mut dice, &text), text);
    }
}

#[test]
fn wrong_usage() {
    for wrong in [vec!["x"], vec!["-1"], vec!["1"; 3]] {
        let program = Command::new(env!("CARGO_BIN_EXE_sgf")).args(wrong).output();
        let ended = program.expect("it runs");
        assert_eq!(ended.status.code(), Some(2));
        assert!(ended.stdout.is_empty());
        assert!(ended.stderr.starts_with(b"usage: sgf "));
    }
}
