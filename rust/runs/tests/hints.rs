//! The run of hints: a short one, and that it can fail.

use runs::hints::plain::{self, Cells, DOCUMENT, Reading};
use runs::hints::{Host, OURS, run};

#[test]
fn no_difference() {
    let tally = run(&OURS, 200, 7);
    assert_eq!(tally.differ, 0, "{}", tally.report());
    assert!(tally.lines > 100, "{}", tally.report());
    assert!(tally.played > 5, "{}", tally.report());
    for number in [8, 9, 12, 13, 21] {
        assert!(tally.refusals[number] > 5, "{}", tally.report());
    }
}

/// That a host is found out.
fn found(host: &Host<'_>) {
    assert!(run(host, 300, 7).differ > 0);
}

#[test]
fn wrong_answers_are_seen() {
    // A plan that says there is never a line, and a check that accepts every list.
    found(&Host {
        plan: &|_, _, _, _| 0,
        ..OURS
    });
    found(&Host {
        check: &|_, _, _| 1,
        ..OURS
    });
}

/// A plan on the board turned by half, and back: a line as good, and the last by codes.
fn later(cells: &[u8], side: u8, limit: u8, out: &mut [u8]) -> u32 {
    let turned: Vec<u8> = cells.iter().rev().copied().collect();
    let word = (OURS.plan)(&turned, side, limit, out);
    let points = usize::try_from(word).map_or(0, |n| n.min(out.len()));
    if word < 12 {
        out[..points]
            .iter_mut()
            .for_each(|code| *code = 224 - *code);
    }
    word
}

#[test]
fn a_later_line_is_seen() {
    found(&Host {
        plan: &later,
        ..OURS
    });
}

/// A plan by a reading that is wrong, and a check by it; what is refused is refused as it should be.
fn by(reading: Reading) {
    let whole = |cells: &[u8]| {
        Cells::try_from(cells)
            .ok()
            .filter(|cells| cells.iter().all(|&c| c < 3))
    };
    let plan = |cells: &[u8], side: u8, limit: u8, out: &mut [u8]| {
        let word = (OURS.plan)(cells, side, limit, &mut out.to_vec());
        let Some(cells) = whole(cells).filter(|_| word < 1 << 16) else {
            return word;
        };
        let line = reading.plan(&cells, side, limit).unwrap_or_default();
        out[..line.len()].copy_from_slice(&line);
        line.len() as u32
    };
    let check = |cells: &[u8], side: u8, list: &[u8]| {
        let word = (OURS.check)(cells, side, list);
        let Some(cells) = whole(cells).filter(|_| word < 1 << 16) else {
            return word;
        };
        u32::from(reading.accepts(&cells, side, list))
    };
    found(&Host {
        plan: &plan,
        ..OURS
    });
    found(&Host {
        check: &check,
        ..OURS
    });
}

#[test]
fn a_forgotten_forbidden_test_is_seen() {
    by(Reading {
        legal: |cells, p, _| cells[usize::from(p)] == 0,
        ..DOCUMENT
    });
}

#[test]
fn one_eye_counted_twice_is_seen() {
    by(Reading {
        eyes: |cells, p, side| plain::windows(cells, p, side, 4),
        ..DOCUMENT
    });
}

#[test]
fn a_five_left_to_the_defender_is_seen() {
    by(Reading {
        quiet: |_, _| true,
        ..DOCUMENT
    });
}

/// A refusal in another order, and one that writes.
#[test]
fn wrong_refusals_are_seen() {
    found(&Host {
        plan: &|cells, side, limit, out| {
            if out.len() < 11 {
                return 13 << 16;
            }
            (OURS.plan)(cells, side, limit, out)
        },
        ..OURS
    });
    found(&Host {
        plan: &|cells, side, limit, out| {
            let word = (OURS.plan)(cells, side, limit, out);
            if word >= 1 << 16
                && let Some(byte) = out.first_mut()
            {
                *byte = 0;
            }
            word
        },
        ..OURS
    });
}
