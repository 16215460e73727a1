//! The differential run finds nothing in ours, and what is wrong in hosts that are wrong.

use oracle::naive_text::write_diagram;
use oracle::{left_out, original};
use runs::differential::call::{Call, GUARD, Host, Lent, NAMES, Question, ask};
use runs::differential::judge::{Difference, Judge, Progress};
use runs::differential::tally::Tally;
use runs::differential::{Plan, lines, report, run, shrink};
use std::process::Command;

const SHORT: Plan = Plan {
    comparisons: 100_000,
    seed: 7,
    threads: 2,
};

/// The refusals of each function, as the host interface lists them.
const REFUSALS: [&[usize]; 29] = [
    &[1, 2, 3, 4, 13],
    &[9, 13],
    &[9, 13],
    &[8, 9, 12],
    &[8, 9],
    &[9, 12, 13],
    &[9, 13],
    &[8, 9, 12, 13],
    &[9, 12, 13],
    &[8, 9, 12, 13],
    &[8, 9, 12, 13],
    &[8, 9, 11],
    &[8, 9],
    &[9, 13],
    &[9, 12, 13],
    &[8, 12],
    &[9, 10, 12],
    &[9, 10, 12],
    &[9, 10, 12],
    &[9, 12, 13],
    &[8, 9, 12, 13],
    &[8, 9, 12, 13],
    &[8, 9, 11],
    &[8, 9],
    &[9, 13],
    &[8, 13, 14],
    &[9],
    &[1, 2, 5, 6, 7, 13],
    &[1, 2, 5, 6, 7, 13, 22],
];

fn short(host: &Host) -> Tally {
    run(host, &SHORT, |_, _| {})
}

/// The one function in which a short run finds differences, and its smallest, made smaller.
fn only_difference(host: &Host) -> Difference {
    let tally = short(host);
    assert!(tally.differences() > 0, "nothing is found");
    let mut smallest = tally.smallest();
    let found = smallest.next().expect("a difference is kept").clone();
    assert!(smallest.next().is_none(), "only one function is wrong");
    let shrunk = shrink::shrunk(host, found.clone());
    assert!(shrunk.size() <= found.size());
    shrunk
}

#[test]
fn ours_has_no_difference_and_every_refusal_is_met() {
    let tally = short(&ask);
    assert_eq!(tally.differences(), 0);
    assert!(tally.comparisons() >= SHORT.comparisons);
    for ((name, count), refusals) in NAMES.iter().zip(&tally.counts).zip(REFUSALS) {
        let met = (0..23).filter(|&number| count.refusals[number] > 0);
        assert_eq!(met.collect::<Vec<_>>(), refusals, "{name}");
        let refused: u64 = count.refusals.iter().sum();
        assert!(count.comparisons > refused, "{name} answers too");
    }
    assert_both_asked(&tally);
    // Some of each are left out of the comparison with the original, most are not.
    let asked = |call: Call| tally.counts[call.number()].comparisons;
    let verdicts = asked(Call::Fast(Question::ForbiddenStrict { code: 0 }));
    let lists = asked(Call::Fast(Question::ForbiddenPoints));
    let [read, games] = [Call::Read, Call::Game].map(asked);
    for (left_out, of) in tally.left_out.iter().zip([read, verdicts, lists, games]) {
        assert!((1..of / 3).contains(left_out), "{left_out} of {of}");
    }
    // Of a text that is no other refusal's either the live entry or the converter's reader is held
    // to the original, and never both.
    let [.., lone, diagrams] = tally.left_out;
    assert!(lone > 100 && diagrams > 100, "{lone}, {diagrams}");
    assert!(lone + diagrams <= asked(Call::ReadDiagram));
}

/// The second referee's functions are counted under their own names, and asked what the fast one's
/// are.
fn assert_both_asked(tally: &Tally) {
    for (name, second) in NAMES.iter().zip(&tally.counts) {
        let Some(question) = name.strip_prefix("renju_second_") else {
            continue;
        };
        let is_fast = |other: &&str| other.strip_prefix("renju_") == Some(question);
        let (_, fast) = NAMES
            .iter()
            .zip(&tally.counts)
            .find(|(other, _)| is_fast(other))
            .expect("the fast one's");
        assert_eq!(second.comparisons, fast.comparisons, "{name}");
        assert_eq!(second.refusals, fast.refusals, "{name}");
    }
}

#[test]
fn every_line_of_sizes_five_to_ten_has_no_difference() {
    let progress = Progress::default();
    let mut judge = Judge::new(&ask, &progress, 0);
    lines::whole(&mut judge, lines::WHOLE, 0, 1);
    assert_eq!(judge.tally.differences(), 0);
    // 16 pairs of colour and kind, a size's 3^size lines, its cells and two questions more each.
    let each = |size: u32| 16 * 3u64.pow(size) * u64::from(size + 2);
    assert_eq!(judge.tally.comparisons(), (5..=10).map(each).sum::<u64>());
}

#[test]
fn a_wrong_verdict_is_found() {
    let wrong = |call: &Call, given: &[u8], lent: &mut Lent| {
        let word = ask(call, given, lent);
        let strict = matches!(call, Call::Fast(Question::ForbiddenStrict { .. }));
        if strict && word == 1 { 0 } else { word }
    };
    let found = only_difference(&wrong);
    assert_eq!((found.expected.word, found.got.word), (1, 0));
    // Two twos that cross: no double three has fewer stones.
    assert_eq!(found.size(), (4, 225));
    let text = report::difference(&found);
    let (cells, _) = found.case.given.sound.as_ref().expect("sound cells");
    for part in [
        "renju_forbidden_strict: Fast(ForbiddenStrict { code: ",
        &write_diagram(cells),
        "expected word 0x1, answer 1\n",
        "got      word 0x0, answer 0\n",
    ] {
        assert!(text.contains(part), "{part} is not in {text}");
    }
}

#[test]
fn a_wrong_verdict_at_one_point_of_full_boards_is_found() {
    let wrong = |call: &Call, given: &[u8], lent: &mut Lent| {
        let word = ask(call, given, lent);
        let is_full = given.iter().filter(|&&cell| cell != 0).count() > 100;
        let is_here = is_full && *call == Call::Fast(Question::Forbidden { code: 37 });
        if is_here && word < 4 { word ^ 1 } else { word }
    };
    let found = only_difference(&wrong);
    let call = Call::Fast(Question::Forbidden { code: 37 });
    assert_eq!(found.case.call, call);
    assert_eq!(found.size(), (101, 225));
}

/// What the second referee alone says otherwise is told under its own name.
#[test]
fn a_wrong_second_verdict_is_found() {
    let wrong = |call: &Call, given: &[u8], lent: &mut Lent| {
        let word = ask(call, given, lent);
        let strict = matches!(call, Call::Second(Question::ForbiddenStrict { .. }));
        if strict && word == 3 { 2 } else { word }
    };
    let found = only_difference(&wrong);
    assert_eq!((found.expected.word, found.got.word), (3, 2));
    // With the stone itself six in a row: no overline has fewer stones.
    assert_eq!(found.size(), (5, 225));
    let text = report::difference(&found);
    let name = "renju_second_forbidden_strict: Second(ForbiddenStrict { code: ";
    assert!(text.contains(name), "{text}");
}

#[test]
fn a_wrong_pair_of_the_second_list_is_found() {
    let wrong = |call: &Call, given: &[u8], lent: &mut Lent| {
        let word = ask(call, given, lent);
        let is_list = *call == Call::Second(Question::ForbiddenPoints);
        if is_list && (2..65536).contains(&word) {
            lent[3] ^= 1;
        }
        word
    };
    let found = only_difference(&wrong);
    assert_eq!(found.expected.word, found.got.word);
    let text = report::difference(&found);
    assert!(text.contains("renju_second_forbidden_points"), "{text}");
    assert!(text.contains("\nlent byte 3: expected "), "{text}");
}

#[test]
fn a_refusal_of_the_second_that_writes_is_found() {
    let wrong = |call: &Call, given: &[u8], lent: &mut Lent| {
        let word = ask(call, given, lent);
        let is_rows_on = matches!(call, Call::Second(Question::RowsOn { .. }));
        if is_rows_on && word == 13 << 16 && !lent.is_empty() {
            lent[0] ^= 1;
        }
        word
    };
    let found = only_difference(&wrong);
    assert_eq!(found.got.word, 13 << 16);
    let text = report::difference(&found);
    assert!(text.contains("renju_second_rows_on"), "{text}");
}

#[test]
fn a_byte_behind_the_answer_is_found() {
    let wrong = |call: &Call, given: &[u8], lent: &mut Lent| {
        let word = ask(call, given, lent);
        if *call == Call::EmptyPoints
            && let Some(byte) = lent.get_mut(word as usize)
        {
            *byte ^= 1;
        }
        word
    };
    let found = only_difference(&wrong);
    assert_eq!(found.expected.word, found.got.word);
    assert_eq!(found.size(), (0, 225));
    assert!(report::difference(&found).contains("\nlent byte 225: expected "));
}

/// The place that is told, counted from the lent bytes' start and from their end, where
/// `renju_turn` also changes one of the guarded bytes.
fn told_of_guard(place: impl Fn(usize) -> usize + Sync) -> (i64, i64) {
    let wrong = |call: &Call, given: &[u8], lent: &mut Lent| {
        let word = ask(call, given, lent);
        if matches!(call, Call::Turn { .. }) {
            lent.guarded[place(lent.guarded.len())] ^= 1;
        }
        word
    };
    let found = only_difference(&wrong);
    assert_eq!(found.expected.word, found.got.word);
    let text = report::difference(&found);
    let (_, told) = text.split_once("\nlent byte ").expect("a place");
    let (told, _) = told.split_once(':').expect("its end");
    let told: i64 = told.parse().expect("a number");
    (told, told - (found.got.lent.len() - 2 * GUARD) as i64)
}

#[test]
fn a_byte_outside_the_lent_ones_is_found() {
    assert_eq!(told_of_guard(|_| GUARD - 1).0, -1);
    assert_eq!(told_of_guard(|length| length - GUARD).1, 0);
    assert_eq!(told_of_guard(|length| length - 1).1, 15);
}

#[test]
fn a_refusal_that_writes_is_found() {
    let wrong = |call: &Call, given: &[u8], lent: &mut Lent| {
        let word = ask(call, given, lent);
        if *call == Call::Read && word == 3 << 16 && !lent.is_empty() {
            lent[0] ^= 1;
        }
        word
    };
    let found = only_difference(&wrong);
    assert_eq!(found.got.word, 3 << 16);
    // The empty text is one move without a column.
    assert_eq!(found.size(), (0, 0));
}

/// The original's own reading of a text with no slash and no comma, by request 13 the converter's.
#[test]
fn a_diagram_at_the_live_entry_is_found() {
    let wrong = |call: &Call, given: &[u8], lent: &mut Lent| {
        let is_lone = *call == Call::Read && given.is_ascii() && left_out::lone(given);
        if is_lone && given.len() <= 4096 {
            return ask(&Call::ReadDiagram, given, lent);
        }
        ask(call, given, lent)
    };
    let found = only_difference(&wrong);
    assert_eq!((found.expected.word, found.got.word), (3 << 16, 6 << 16));
    assert_eq!(found.size(), (0, 0));
}

/// White before Black; with one stone each the word is the same.
#[test]
fn sides_in_another_order_are_found() {
    let wrong = |call: &Call, given: &[u8], lent: &mut Lent| {
        let word = ask(call, given, lent);
        if *call == Call::Convert && word < 65536 {
            let text = &mut lent[..word as usize];
            let mut sides: Vec<&[u8]> = text.split(|&b| b == b'/').collect();
            sides.reverse();
            let swapped = sides.join(&b'/');
            text.copy_from_slice(&swapped);
        }
        word
    };
    let found = only_difference(&wrong);
    assert_eq!(found.expected.word, found.got.word);
    assert!(report::difference(&found).contains("renju_convert"));
}

/// 13 before 22, where there is no room for any text.
#[test]
fn no_room_before_a_side_without_stones_is_found() {
    let wrong = |call: &Call, given: &[u8], lent: &mut Lent| {
        let word = ask(call, given, lent);
        if *call == Call::Convert && word == 22 << 16 && lent.len() < 5 {
            return 13 << 16;
        }
        word
    };
    let found = only_difference(&wrong);
    assert_eq!((found.expected.word, found.got.word), (22 << 16, 13 << 16));
}

/// The original's own reading, where request 5 reads otherwise.
#[test]
fn the_old_reading_of_texts_is_found() {
    let wrong = |call: &Call, given: &[u8], lent: &mut Lent| {
        let word = ask(call, given, lent);
        let is_left_out = *call == Call::Read && left_out::typed(given);
        match std::str::from_utf8(given).map(original::read) {
            Ok(Ok(cells)) if is_left_out && given.len() <= 4096 && lent.len() >= 225 => {
                lent[..225].copy_from_slice(&cells);
                225
            }
            _ => word,
        }
    };
    let found = only_difference(&wrong);
    assert!([3 << 16, 4 << 16].contains(&found.expected.word));
    assert_eq!(found.got.word, 225);
    // Two points, what parts them, and a second slash or a plus sign.
    assert_eq!(found.size(), (6, 6));
}

/// The original's own verdicts, where request 6 answers otherwise.
#[test]
fn the_old_rule_is_found() {
    let wrong = |call: &Call, given: &[u8], lent: &mut Lent| {
        let word = ask(call, given, lent);
        match call {
            Call::Fast(Question::ForbiddenStrict { code }) if word < 4 => {
                let cells = given.try_into().expect("225 cells");
                original::strict(&original::to_board(cells), *code).into()
            }
            _ => word,
        }
    };
    let found = only_difference(&wrong);
    let words = (found.expected.word, found.got.word);
    assert!([(0, 1), (1, 0)].contains(&words), "{words:?}");
    // A Three whose eye is the fifth point of four stones, and a second Three that shares one.
    assert!((7..=8).contains(&found.size().0), "{:?}", found.size());
}

#[test]
fn refusals_in_another_order_are_found() {
    let wrong = |call: &Call, given: &[u8], lent: &mut Lent| match call {
        Call::Put { code, colour } if *code > 224 && !(1..=2).contains(colour) => {
            let word = ask(call, given, lent);
            if word == 8 << 16 { 12 << 16 } else { word }
        }
        _ => ask(call, given, lent),
    };
    let found = only_difference(&wrong);
    assert_eq!((found.expected.word, found.got.word), (8 << 16, 12 << 16));
    assert_eq!(found.size(), (0, 225));
}

#[test]
fn a_count_too_high_is_found() {
    let wrong = |call: &Call, given: &[u8], lent: &mut Lent| {
        let word = ask(call, given, lent);
        let is_rows = matches!(call, Call::Fast(Question::Rows { kind: 1, .. }));
        word + u32::from(is_rows && (1..65536).contains(&word))
    };
    let found = only_difference(&wrong);
    assert_eq!(found.got.word, found.expected.word + 1);
    assert_eq!(found.size(), (3, 225));
}

#[test]
fn a_wrong_mask_of_a_line_is_found() {
    let wrong = |call: &Call, given: &[u8], lent: &mut Lent| match call {
        Call::LineEyes { line, kind: 4, .. } if line.size == 12 => {
            ask(call, given, lent) & !(1 << 11)
        }
        _ => ask(call, given, lent),
    };
    let found = only_difference(&wrong);
    assert_eq!(found.size(), (4, 12));
    assert!(report::difference(&found).contains("size: 12 }, colour: "));
}

#[test]
fn the_program_says_how_it_went() {
    let program = || Command::new(env!("CARGO_BIN_EXE_differential"));
    let ended = program().args(["1000", "3"]).output().expect("it runs");
    assert_eq!(ended.status.code(), Some(0));
    let text = String::from_utf8(ended.stdout).expect("text");
    assert!(text.starts_with("at least 1000 comparisons, seed 3, 2 threads\n"));
    assert!(text.ends_with(" comparisons, 0 differences\n"));
    for wrong in [
        vec!["x"],
        vec!["1", "-1"],
        vec!["1", "1", "0"],
        vec!["1"; 4],
    ] {
        let ended = program().args(wrong).output().expect("it runs");
        assert_eq!(ended.status.code(), Some(2));
        assert!(ended.stdout.is_empty());
        assert!(ended.stderr.starts_with(b"usage: differential "));
    }
}

/// Every kind of fault is planted, and games without one end in every way.
#[test]
fn games_of_every_kind_are_met() {
    let tally = short(&ask);
    assert!(tally.games.reasons.iter().all(|&count| count > 0));
    assert!(tally.games.winners.iter().all(|&count| count > 0));
    let text = report::games(&tally);
    assert!(text.starts_with("games: "), "{text}");
}

/// The fault's stone left on the board that is handed back.
#[test]
fn a_stone_left_on_is_found() {
    let wrong = |call: &Call, given: &[u8], lent: &mut Lent| {
        let word = ask(call, given, lent);
        if *call == Call::Game && (1..65536).contains(&word) {
            let code = usize::from(given[word as usize - 1]);
            lent[3 + code] = 1 + (word as u8 + 1) % 2;
        }
        word
    };
    let found = only_difference(&wrong);
    assert_eq!(found.expected.word, found.got.word);
    assert!(report::difference(&found).contains(" moves: ["));
}

/// A move on a stone after a five is reported as one after a five.
#[test]
fn reasons_in_another_order_are_found() {
    let wrong = |call: &Call, given: &[u8], lent: &mut Lent| {
        let word = ask(call, given, lent);
        if *call == Call::Game && (1..65536).contains(&word) && lent[1] == 1 {
            let before = &given[..word as usize - 1];
            let mut report = [0; 228];
            if renju::raw::renju_game(before, &mut report) == 0 && report[2] != 0 {
                lent[1] = 3;
            }
        }
        word
    };
    let found = only_difference(&wrong);
    assert_eq!(found.expected.word, found.got.word);
    let reasons = [&found.expected, &found.got].map(|outcome| outcome.lent[GUARD + 1]);
    assert_eq!(reasons, [1, 3]);
    // Five stones of one side, four of the other, and the move: nothing shorter has it.
    assert!(found.size().0 >= 10, "{:?}", found.size());
}
