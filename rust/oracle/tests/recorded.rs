//! The recorded answers: they are what would be recorded now, they keep to
//! their form, and they reach what they are meant to reach.

use oracle::boards::NESTED_DEPTH;
use oracle::naive::{self, Cells};
use oracle::{left_out, naive_text, original, vectors};
use std::fs;
use std::path::Path;

fn recorded(name: &str) -> String {
    read(&format!("vectors/{name}"))
}

/// A file of the repository, by its path from the root.
fn read(path: &str) -> String {
    let root = Path::new(env!("CARGO_MANIFEST_DIR")).join("../..");
    fs::read_to_string(root.join(path)).expect("a recorded file")
}

fn fields_of(text: &str, letter: &str) -> Vec<Vec<String>> {
    fields_of_either(text, [letter; 2])
}

/// The records of either letter, in the file's order.
fn fields_of_either(text: &str, letters: [&str; 2]) -> Vec<Vec<String>> {
    text.lines()
        .map(|line| line.split(' ').map(String::from).collect::<Vec<_>>())
        .filter(|fields| letters.contains(&fields[0].as_str()))
        .collect()
}

fn cells_of(field: &str) -> Cells {
    let values: Vec<u8> = field
        .bytes()
        .map(|b| b".ox".iter().position(|&c| c == b).expect("a cell letter") as u8)
        .collect();
    values.try_into().expect("225 cells")
}

fn bytes_of(field: &str) -> Vec<u8> {
    let pair = |k: usize| u8::from_str_radix(&field[k..k + 2], 16).expect("two digits");
    (0..field.len()).step_by(2).map(pair).collect()
}

#[test]
fn the_programs_replay_what_is_recorded() {
    for (name, _) in vectors::files() {
        if let Some(copy) = vectors::copy(name) {
            assert!(read(&copy) == recorded(name), "{copy} is no copy of {name}");
        }
    }
}

#[test]
fn files_are_what_would_be_recorded_now() {
    for (name, text) in vectors::files() {
        assert!(recorded(name) == text, "{name} is not what record writes");
    }
}

#[test]
fn form_is_kept() {
    let mut total = 0;
    for name in ["boards.txt", "lines.txt", "texts.txt", "points.txt"] {
        let text = recorded(name);
        total += text.len();
        assert!(text.ends_with('\n') && text.is_ascii());
        for line in text.lines().filter(|line| !line.starts_with('#')) {
            assert!(line.as_bytes()[0].is_ascii_alphabetic(), "{line}");
            assert!(line[1..].starts_with(' '), "{line}");
            assert!(line.len() <= 4_200 || line.starts_with('t'), "{line}");
        }
    }
    assert!(total <= 520_000, "{total} bytes");
}

/// The naive reading gives every recorded verdict and list again.
#[test]
fn naive_replays_the_verdicts() {
    let text = recorded("boards.txt");
    let of = |letters: [&str; 2]| fields_of_either(&text, letters);
    let (boards, stricts) = (fields_of(&text, "b"), of(["s", "S"]));
    let (plains, lists) = (of(["p", "P"]), of(["f", "F"]));
    assert_eq!(stricts.len(), boards.len());
    assert_eq!((plains.len(), lists.len()), (boards.len(), boards.len()));
    for i in 0..boards.len() {
        let cells = cells_of(&boards[i][1]);
        let strict: String = (0..225)
            .map(|p| naive::strict(&cells, p).verdict.to_string())
            .collect();
        assert_eq!(strict, stricts[i][1]);
        for (p, plain) in plains[i][1].chars().enumerate() {
            match cells[p] {
                0 => assert_eq!(
                    naive::plain(&cells, p).verdict.to_string(),
                    plain.to_string()
                ),
                _ => assert_eq!(plain, '-'),
            }
        }
        let pairs = naive::forbidden_list(&cells);
        let list: Vec<u8> = pairs.into_iter().flat_map(|(k, p)| [k, p]).collect();
        assert_eq!(list, bytes_of(&lists[i][1]));
    }
}

/// Where request 6 answers otherwise both answers are recorded, under letters of
/// their own, and nowhere else; the second is the original's.
#[test]
fn verdicts_of_request_6_stand_apart() {
    let text = recorded("boards.txt");
    let boards = fields_of(&text, "b");
    let stricts = fields_of_either(&text, ["s", "S"]);
    let mut apart = 0;
    for (board, strict) in boards.iter().zip(&stricts) {
        let board = original::to_board(&cells_of(&board[1]));
        let theirs: String = (0..225)
            .map(|p| original::strict(&board, p).to_string())
            .collect();
        assert_eq!(strict.last(), Some(&theirs));
        let is_apart = strict[0] == "S";
        assert_eq!(strict.len(), if is_apart { 3 } else { 2 });
        assert_eq!(is_apart, strict[1] != theirs);
        apart += usize::from(is_apart);
    }
    assert!((3..boards.len() / 2).contains(&apart), "{apart}");
    for letter in ["P", "F"] {
        let both = fields_of(&text, letter);
        assert!(both.iter().all(|f| f.len() == 3 && f[1] != f[2]));
        assert!(both.len() >= 3, "{letter} {}", both.len());
    }
}

#[test]
fn boards_reach_every_verdict_and_deep_nesting() {
    let text = recorded("boards.txt");
    for verdict in ["0", "1", "2", "3"] {
        let has = |fields: &Vec<String>| fields[1].contains(verdict);
        assert!(fields_of(&text, "s").iter().filter(|f| has(f)).count() >= 10);
    }
    let boards = fields_of(&text, "b");
    let deep = boards
        .iter()
        .filter(|f| naive::depth(&cells_of(&f[1])) >= NESTED_DEPTH);
    assert!(deep.count() >= 10);
}

/// Every kind of row of both colours is met on the board and through a point.
#[test]
fn boards_reach_every_kind_of_row() {
    let text = recorded("boards.txt");
    for (letter, at) in [("r", 1), ("o", 2)] {
        let records = fields_of(&text, letter);
        for colour in ["01", "02"] {
            for kind in 0..8 {
                let kind = format!("{kind:02x}");
                let met = |f: &&Vec<String>| {
                    f[at] == colour && f[at + 1] == kind && !f[at + 2].is_empty()
                };
                assert!(
                    records.iter().filter(met).count() >= 2,
                    "{letter} {colour} {kind}"
                );
            }
        }
    }
}

#[test]
fn texts_meet_every_refusal_and_the_naive_reading() {
    let met = read_as_recorded("t", naive_text::read);
    assert_eq!(met[1..3], [0, 0]);
    assert_eq!(met[5..], [0; 3]);
    assert!(met[0] >= 50 && met[3..5].iter().all(|&n| n >= 5), "{met:?}");
    let met = read_as_recorded("c", naive_text::read_diagram);
    assert_eq!(met[1..5], [0; 4]);
    assert!(met[0] >= 10 && met[5..].iter().all(|&n| n >= 5), "{met:?}");
}

/// Every text with no slash and no comma is recorded three times: as a diagram by
/// the original, as one move, and converted.
#[test]
fn texts_of_request_13_stand_apart() {
    let met = read_as_recorded("M", naive_text::read);
    assert!(met[0] >= 1 && met[3] >= 5 && met[4] >= 5, "{met:?}");
    assert_eq!(met[0] + met[3] + met[4], met.iter().sum());
    let texts = recorded("texts.txt");
    let of = |letter: &str| -> Vec<String> {
        let records = fields_of(&texts, letter);
        records.into_iter().map(|f| f[1].clone()).collect()
    };
    assert!(of("c").iter().all(|text| left_out::lone(&bytes_of(text))));
    assert_eq!(of("c"), of("M"));
    assert_eq!(of("c"), of("C"));
    let mut met = [0; 23];
    for fields in fields_of(&texts, "C") {
        let refusal = bytes_of(&fields[2])[0];
        let answer = match refusal {
            0 => Ok(String::from_utf8(bytes_of(&fields[3])).expect("a text")),
            number => Err(number),
        };
        assert_eq!(naive_text::convert(&bytes_of(&fields[1])), answer);
        met[refusal as usize] += 1;
    }
    assert!([0, 5, 6, 7, 22].iter().all(|&n| met[n] >= 2), "{met:?}");
}

/// Texts that request 5 speaks of are all recorded under letters of their own,
/// each with refusal 3 or 4.
#[test]
fn texts_of_request_5_stand_apart() {
    let met = read_as_recorded("T", naive_text::read);
    assert!(met[3] >= 10 && met[4] >= 10, "{met:?}");
    assert_eq!(met[3] + met[4], met.iter().sum());
    let texts = recorded("texts.txt");
    for (letter, of_board, is_left_out) in [
        ("t", true, false),
        ("T", true, true),
        ("p", false, false),
        ("L", false, true),
    ] {
        let records = fields_of(&texts, letter);
        assert!(records.len() >= 5, "{letter}");
        for fields in records {
            let text = bytes_of(&fields[1]);
            let found = if of_board {
                left_out::typed(&text)
            } else {
                left_out::list(&text)
            };
            assert_eq!(found, is_left_out, "{fields:?}");
        }
    }
}

/// How often each refusal, 0 for none, is recorded under a letter for texts of
/// boards, all of them as the naive reading has it.
fn read_as_recorded(letter: &str, read: fn(&[u8]) -> Result<Cells, u8>) -> [usize; 8] {
    let mut met = [0; 8];
    for fields in fields_of(&recorded("texts.txt"), letter) {
        let refusal = bytes_of(&fields[2])[0];
        let answer = match refusal {
            0 => Ok(cells_of(&fields[3])),
            number => Err(number),
        };
        assert_eq!(read(&bytes_of(&fields[1])), answer);
        met[refusal as usize] += 1;
    }
    met
}
