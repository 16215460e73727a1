//! Files of games and boards: input order on all cores, several files, SGF, long lines, room that does not grow.

mod common;
#[path = "../../renju/examples/table/house/dice.rs"]
mod dice;

use common::{RENJU, fed, folder, run};
use dice::Dice;
use renju::Moves;
use std::io::{BufRead, BufReader, Write};
use std::process::{Command, Stdio};
use std::thread;

/// Lines of games of very different lengths, some of them no games.
fn lines(count: usize, seed: u64) -> Vec<String> {
    let mut dice = Dice::new(seed);
    let mut point = |_| {
        let letter = char::from(b'A' + dice.below(15) as u8);
        let row = 1 + dice.below(15) + 300 * (dice.below(2000) / 1999);
        format!("{letter}{row}")
    };
    let lengths: Vec<u64> = (0..count as u64).map(|n| n * n % 61).collect();
    let line = |length| (0..length).map(&mut point).collect::<Vec<_>>().join(",");
    lengths.into_iter().map(line).collect()
}

/// What the library says of a line, as the program writes it; of a refusal only its number.
fn expected(line: &str) -> String {
    match line.parse::<Moves>() {
        Ok(moves) => moves.report().to_string(),
        Err(refusal) => format!("refused {}", refusal.number()),
    }
}

/// A report without the words behind a refusal's number.
fn short(report: &str) -> &str {
    match report.split_once(": ") {
        Some((front, _)) if front.starts_with("refused ") => front,
        _ => report,
    }
}

#[test]
fn reports_are_the_library_s_in_input_order() {
    let lines = lines(40_000, 20261116);
    let input = lines.join("\n");
    let said = fed(&["game"], input.as_bytes());
    assert_eq!(said.status, 1);
    assert!(said.err.contains("40000 games in "), "{}", said.err);
    let mut reports = said.out.lines();
    let (mut faulty, mut refused) = (0, 0);
    for line in &lines {
        let expected = expected(line);
        assert_eq!(reports.next().map(short), Some(expected.as_str()), "{line}");
        faulty += u32::from(expected.starts_with("move "));
        refused += u32::from(expected.starts_with("refused "));
    }
    assert!(faulty > 1000 && refused > 100);
    let counts = format!("games 40000, faulty {faulty}, refused {refused}");
    assert_eq!(reports.next(), Some(counts.as_str()));
    assert_eq!(reports.next(), None);
}

/// The games of the proved program, and its reports of them.
#[test]
fn reports_are_those_of_the_proved_program() {
    let program = concat!(env!("CARGO_MANIFEST_DIR"), "/../../crates/referee_games");
    let must = std::fs::read_to_string(format!("{program}/stdout")).expect("its reports");
    let said = run(&["game", &format!("{program}/stdin")]).out;
    let said: Vec<&str> = said.lines().map(short).collect();
    assert_eq!(said, must.lines().map(short).collect::<Vec<_>>());
}

#[test]
fn several_files_are_named() {
    let folder = folder("several");
    let file = |name: &str, text: &str| {
        let path = folder.join(name);
        std::fs::write(&path, text).expect("a file");
        path.to_str().expect("a name").to_owned()
    };
    let (one, two) = (file("one", "H8\nH8,H8\n"), file("two", "H8,Z9\nH8,I9"));
    let said = run(&["game", "--quiet", &one, &two]);
    let none = "no fault, nobody has won";
    let wrong = "refused 3: item 2, \"Z9\": no column A to O";
    let reports = format!(
        "{one}:1: {none}\n{one}:2: move 2 (H8): occupied\n{two}:1: {wrong}\n{two}:2: {none}\n"
    );
    assert_eq!(said.out, format!("{reports}games 4, faulty 1, refused 1\n"));
    assert_eq!(said.err, "");
    let faults = run(&["game", "--quiet", "--faults", &one]).out;
    assert_eq!(
        faults,
        "2: move 2 (H8): occupied\ngames 2, faulty 1, refused 0\n"
    );
    let json = run(&["game", "--quiet", "--json", &one, &two]).out;
    assert!(json.starts_with(&format!("{{\"moves\":\"H8\",\"place\":\"{one}:1\"")));
}

/// For engines that start many: what the parts say, one behind another, is what the whole says, and a fault is no failure.
#[test]
fn parts_together_say_what_the_whole_says() {
    let lines = lines(3_000, 7);
    let whole = fed(&["game", "--stream"], lines.join("\n").as_bytes());
    assert_eq!((whole.status, whole.err.as_str()), (0, ""));
    assert_eq!(whole.out.lines().count(), lines.len());
    let part = |part: &[String]| fed(&["game", "--stream"], part.join("\n").as_bytes()).out;
    let parts: Vec<String> = lines.chunks(700).map(part).collect();
    assert_eq!(parts.concat(), whole.out);
}

#[test]
fn sgf_files_are_refereed() {
    let folder = folder("club");
    let path = folder.join("games.sgf");
    let games = "(;GM[4]SZ[15];B[hh]\n;W[ig])\n\n(;GM[4]SZ[15];B[hh];W[hh])\n(;FF[4]GM[4])\n";
    std::fs::write(&path, games).expect("a file");
    let said = run(&["game", "--sgf", path.to_str().expect("a name")]);
    let lines: Vec<&str> = said.out.lines().collect();
    assert_eq!(lines[0], "no fault, nobody has won");
    assert_eq!(lines[1], "move 2 (H8): occupied");
    assert!(lines[2].starts_with("refused 20: "));
    assert_eq!(lines[3], "games 3, faulty 1, refused 1");
    let back = run(&["sgf", "--back", path.to_str().expect("a name")]);
    assert_eq!((back.out.as_str(), back.status), ("H8,I9\nH8,H8\n", 1));
}

#[test]
fn both_referees_on_a_file_of_boards() {
    let boards = "G8,I8,H7,H9/A1\nE8,F8,G8,H9,H10,H11/A1\nH8,I9,J10\nH8/\n";
    let said = fed(&["check", "--quiet"], boards.as_bytes());
    let wrong = "4: refused 3: item 2, \"\": no column A to O\n";
    let counts = "boards 4, different 0, refused 1\n";
    assert_eq!(said.out, format!("{wrong}{counts}"));
    assert_eq!(said.status, 1);
}

#[test]
fn no_games_and_one_without_a_line_s_end() {
    let none = fed(&["game", "--quiet"], b"");
    assert_eq!(none.out, "games 0, faulty 0, refused 0\n");
    assert_eq!((none.err.as_str(), none.status), ("", 0));
    let one = fed(&["game", "--quiet"], b"H8\r\nI9");
    assert!(one.out.ends_with("games 2, faulty 0, refused 0\n"));
}

/// A hundred million bytes, one line of most of them among them, in a tenth of that room.
#[test]
fn room_does_not_grow_with_the_input() {
    let mut command = Command::new(RENJU);
    command.args(["game", "--quiet"]).stdin(Stdio::piped());
    let mut child = command.stdout(Stdio::piped()).spawn().expect("it starts");
    let mut stdin = child.stdin.take().expect("a pipe");
    let mut out = BufReader::new(child.stdout.take().expect("a pipe"));
    let reader = thread::spawn(move || {
        let mut last = [String::new(), String::new()];
        let mut line = String::new();
        while out.read_line(&mut line).is_ok_and(|read| read > 0) {
            last.rotate_left(1);
            last[1] = std::mem::take(&mut line);
        }
        last
    });
    for _ in 0..100 {
        let games = b"H8,I9,J10,H9,H10,G9\n".repeat(5_000);
        stdin.write_all(&games).expect("it reads");
    }
    for _ in 0..90 {
        stdin.write_all(&[b'H'; 1_000_000]).expect("it reads");
    }
    let room = peak(child.id());
    drop(stdin);
    assert!(child.wait().expect("it ends").code() == Some(1));
    let [refused, counts] = reader.join().expect("its lines");
    assert!(refused.starts_with("refused 1: "), "{refused}");
    assert_eq!(counts, "games 500001, faulty 0, refused 1\n");
    match room {
        Some(kilobytes) => assert!(kilobytes < 10_000, "{kilobytes} kB"),
        None => println!("not run: no /proc"),
    }
}

/// The most room that a process had so far, in kilobytes, where the system tells.
fn peak(process: u32) -> Option<u64> {
    let status = std::fs::read_to_string(format!("/proc/{process}/status")).ok()?;
    let line = status.lines().find(|line| line.starts_with("VmHWM:"))?;
    line.split_whitespace().nth(1)?.parse().ok()
}
