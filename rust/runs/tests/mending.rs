//! The run over hand-typed lists: that it is clean, that it meets every refusal and reason, and that
//! it finds what it is to find, on functions made wrong.

use runs::mending::plain::{self, Mended};
use runs::mending::{Host, ask, run};

const LISTS: u64 = 20_000;

#[test]
fn typed_and_damaged_lists() {
    let tally = run(&ask, LISTS, 1);
    assert_eq!(tally.status(), 0, "{}", tally.report());
    assert_eq!(tally.comparisons, LISTS);
    let met = |of: &[u64]| {
        let met = of.iter().enumerate().filter(|(_, times)| **times > 0);
        met.map(|(number, _)| number).collect::<Vec<_>>()
    };
    assert_eq!(met(&tally.refusals), [0, 1, 2, 13]);
    assert_eq!(met(&tally.reasons), [0, 1, 3, 4]);
}

#[test]
fn the_plain_reading() {
    let mended = |kept: &[u8], item, reason| {
        let kept = kept.to_vec();
        Ok(Mended { kept, item, reason })
    };
    assert_eq!(plain::read(b"h8,H08"), mended(&[112], 2, 1));
    assert_eq!(plain::read(b" H8,I9\n"), mended(&[112, 128], 0, 0));
    assert_eq!(plain::read(b""), mended(&[], 1, 3));
    assert_eq!(plain::read(b"H8,I16"), mended(&[112], 2, 4));
    assert_eq!(plain::read(&[255; 4097]), Err(1));
    assert_eq!(plain::read(&[255; 4096]), Err(2));
    assert_eq!(plain::read(b"h8,H08").unwrap().lines(), b"H8\n2 1\n");
}

/// The smallest text on which a wrong function differs, where that is much room.
fn smallest(host: &Host) -> String {
    let tally = run(host, LISTS, 1);
    assert_eq!(tally.status(), 1);
    let (text, words) = tally.smallest.clone().expect("a difference");
    assert!(tally.report().contains(&words));
    String::from_utf8(text).expect("ASCII")
}

/// What a function says that mends by the plain reading, and then makes something of it.
fn wrong(text: &[u8], out: &mut [u8], made: impl Fn(&mut Mended)) -> u32 {
    let mut mended = match plain::read(text) {
        Ok(mended) => mended,
        Err(number) => return u32::from(number) << 16,
    };
    made(&mut mended);
    let lines = mended.lines();
    if lines.len() > out.len() {
        return 13 << 16;
    }
    out[..lines.len()].copy_from_slice(&lines);
    lines.len() as u32
}

#[test]
fn wrong_functions_are_found() {
    // The item's number from 0.
    let from_0 = |text: &[u8], out: &mut [u8]| {
        wrong(text, out, |mended| {
            mended.item = mended.item.saturating_sub(1)
        })
    };
    assert_eq!(smallest(&from_0), "");
    // The repeat kept.
    let kept = |text: &[u8], out: &mut [u8]| {
        wrong(text, out, |mended| {
            if mended.reason == 1 {
                mended.kept.push(mended.kept[0]);
            }
        })
    };
    assert_eq!(smallest(&kept).matches(',').count(), 1);
    // One byte more than the answer written.
    let more = |text: &[u8], out: &mut [u8]| {
        let word = ask(text, out);
        if let Some(byte) = out.get_mut(word as usize) {
            *byte = 0;
        }
        word
    };
    assert_eq!(smallest(&more), "");
}
