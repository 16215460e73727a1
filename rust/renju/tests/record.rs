//! Stored games: records made, written, read and refused.

use renju::raw::{renju_from_tagged, renju_tagged_view, renju_to_tagged};
use renju::{CELLS, MOVES, Moves, RECORD, Record, Refusal, View};

/// A game of every length, as codes; every fifteenth point is met again.
fn games() -> impl Iterator<Item = Vec<u8>> {
    let code = |length: usize, number: usize| ((number * 16 + length) % CELLS) as u8;
    (0..=MOVES).map(move |length| (0..length).map(|number| code(length, number)).collect())
}

fn game(codes: &[u8]) -> Moves {
    Moves::from_codes(codes).expect("at most 225 codes below 225")
}

#[test]
fn every_length_in_every_view() {
    for codes in games() {
        for view in View::ALL {
            let record = Record::new(view, game(&codes));
            assert_eq!((record.view(), *record.moves()), (view, game(&codes)));
            let bytes = record.to_bytes();
            let length = (codes.len() as u16).to_be_bytes();
            let front = [1, 0, 1, view.number(), 2, length[0], length[1]];
            assert_eq!(bytes[..], [&front[..], &codes].concat());
            assert_eq!(Record::try_from(&bytes[..]), Ok(record));
        }
    }
}

#[test]
fn old_to_new_to_old() {
    for codes in games() {
        let record = Record::new(View::Same, game(&codes));
        assert_eq!(record.to_codes().unwrap()[..], codes);
        // .. and the other way round, from the bytes.
        let again = Record::try_from(&record.to_bytes()[..]).unwrap();
        let codes = again.to_codes().unwrap();
        assert_eq!(
            Record::new(View::Same, game(&codes)).to_bytes(),
            record.to_bytes()
        );
    }
    for view in View::ALL.into_iter().skip(1) {
        let record = Record::new(view, game(&[]));
        assert_eq!(record.to_codes(), Err(Refusal::TurnedView));
    }
}

/// A record of moves whose length agrees, whatever they are.
fn record(view: u8, moves: &[u8]) -> Vec<u8> {
    let length = (moves.len() as u16).to_be_bytes();
    [&[1, 0, 1, view, 2], &length[..], moves].concat()
}

#[test]
fn malformed_records() {
    let refused = |bytes: &[u8]| assert_eq!(Record::try_from(bytes), Err(Refusal::Malformed));
    let good = record(3, &[112, 113]);
    for length in 0..good.len() {
        refused(&good[..length]);
    }
    refused(&[&good[..], &[0]].concat());
    // The moves first, each twice, the view alone, no tag 1, another tag.
    refused(&[2, 0, 1, 112, 1, 0, 1, 0]);
    refused(&[&good[..4], &good].concat());
    refused(&[&good[..], &good[4..]].concat());
    refused(&good[..4]);
    refused(&good[4..]);
    refused(&[1, 0, 1, 0, 3, 0, 0]);
    // A view of no byte and of two; a view over 7.
    refused(&[1, 0, 0, 2, 0, 0]);
    refused(&[1, 0, 2, 0, 0, 2, 0, 0]);
    refused(&record(8, &[112]));
    // The low byte of the length first.
    refused(&[1, 1, 0, 0, 2, 0, 1, 112]);
    refused(&[1, 0, 1, 0, 2, 1, 0, 112]);
}

/// Of records in each view, with each byte made each other byte: those that are not refused are
/// written as they were read.
#[test]
fn damaged_records_that_read() {
    let mut read = 0;
    for view in View::ALL {
        let good = record(view.number(), &[112, 128, 0]);
        for place in 0..good.len() {
            for byte in (0..=255).filter(|&byte| byte != good[place]) {
                let mut bytes = good.clone();
                bytes[place] = byte;
                if let Ok(record) = Record::try_from(&bytes[..]) {
                    assert_eq!(record.to_bytes()[..], bytes);
                    read += 1;
                }
            }
        }
    }
    // Seven other views, and 224 other codes for each of three moves.
    assert_eq!(read, 8 * (7 + 3 * 224));
}

/// 15, 14, 8, on the way back 16, then 13; no lent byte is changed.
#[test]
fn first_refusal_of_several() {
    let words = |bytes: &[u8]| {
        let mut out = [9; 4];
        let word = renju_from_tagged(bytes, &mut out);
        assert_eq!(out, [9; 4]);
        (word >> 16, renju_tagged_view(bytes) >> 16)
    };
    assert_eq!(words(&record(8, &[225; 226])), (15, 15));
    assert_eq!(words(&record(7, &[225; 226])), (14, 14));
    assert_eq!(words(&record(7, &[0; 65_535])), (14, 14));
    assert_eq!(words(&record(7, &[225; 225])), (8, 8));
    assert_eq!(words(&record(7, &[224; 225])), (16, 0));
    assert_eq!(words(&record(0, &[224; 225])), (13, 0));
    // Longer than two bytes can say: no length agrees.
    assert_eq!(words(&record(0, &[0; 65_536])), (15, 15));
}

/// On writing 14, 8, 12, then 13.
#[test]
fn first_refusal_on_writing() {
    let word = |moves: &[u8], view| {
        let mut out = [9; RECORD - 1];
        let word = renju_to_tagged(moves, view, &mut out);
        assert_eq!(out, [9; RECORD - 1]);
        word >> 16
    };
    assert_eq!(word(&[225; 226], 8), 14);
    assert_eq!(word(&[225; 225], 8), 8);
    assert_eq!(word(&[224; 225], 8), 12);
    assert_eq!(word(&[224; 225], 7), 13);
}

/// With room for the whole answer, or more, its own bytes are written and no other.
#[test]
fn leading_bytes_alone() {
    for more in 0..3 {
        let mut out = vec![9; 9 + more];
        assert_eq!(renju_to_tagged(&[112, 113], 5, &mut out), 9);
        assert_eq!(out, [&record(5, &[112, 113])[..], &vec![9; more]].concat());
        let mut back = vec![9; 2 + more];
        assert_eq!(renju_from_tagged(&record(0, &[112, 113]), &mut back), 2);
        assert_eq!(back, [&[112, 113][..], &vec![9; more]].concat());
    }
}
