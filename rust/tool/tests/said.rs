//! What is said and how it ends: refusals with their place, wrong usage, JSON, colours, pipes that close, output that fails.

mod common;

use common::{RENJU, Said, fed, finish, folder, run};
use std::fs::File;
use std::io::{BufRead, BufReader, Write};
use std::process::{Command, Stdio};

fn said(out: &str, err: &str, status: i32) -> Said {
    let (out, err) = (out.to_owned(), err.to_owned());
    Said { out, err, status }
}

#[test]
fn a_refusal_names_the_item_and_shows_the_place() {
    let wrong = "renju: item 2, \"Z9\": no column A to O\n  H8, Z9 ,J10\n      ^^\n";
    assert_eq!(run(&["list", "H8, Z9 ,J10"]), said("", wrong, 1));
    let line = wrong.replace("item 2", "line 2, item 2");
    let out = "forbidden 0\n";
    assert_eq!(fed(&["list"], b"H8\nH8, Z9 ,J10\n"), said(out, &line, 1));
    let slash = "renju: a second slash\n  H8/I9/J10\n       ^\n";
    assert_eq!(run(&["list", "H8/I9/J10"]), said("", slash, 1));
    let row = run(&["hint", "H8/I16"]).err;
    assert!(row.starts_with("renju: item 2, \"I16\": "), "{row}");
    assert!(row.ends_with("\n  H8/I16\n     ^^^\n"), "{row}");
    let empty = "renju: item 1, \"\": no column A to O\n  \n  ^\n";
    assert_eq!(run(&["list", ""]), said("", empty, 1));
}

/// Of a long text only what is around the place is shown.
#[test]
fn a_long_text_is_cut_around_the_place() {
    let text = format!("{},Z9,{}", ["H8"; 200].join(","), ["I9"; 200].join(","));
    let err = run(&["list", &text]).err;
    let lines: Vec<&str> = err.lines().collect();
    assert_eq!(lines[0], "renju: item 201, \"Z9\": no column A to O");
    assert!(lines[1].len() < 100);
    let at = lines[2].find('^').expect("a caret");
    assert_eq!(&lines[1][at..at + 2], "Z9");
}

#[test]
fn every_command_refuses_with_status_1() {
    for command in ["list", "hint", "mend", "sgf", "tag", "svg"] {
        assert_eq!(run(&[command, "H8,Z9"]).status, 1, "{command}");
    }
    for command in ["verdict", "depth", "turn"] {
        let first = if command == "turn" { "1" } else { "H8" };
        assert_eq!(run(&[command, first, "H8,Z9"]).status, 1, "{command}");
    }
    for (words, input) in [
        (&["game"][..], &b"H8,Z9\n"[..]),
        (&["game"], b"H8,H8\n"),
        (&["check"], b"Z9\n"),
        (&["sgf", "--back"], b"(;GM[1])"),
        (&["tag", "--back"], b"0100\n"),
        (&["tag", "--back"], b"xyz\n"),
        (&["tag", "--bytes"], b"\xff"),
        (&["convert"], b"o\n"),
        (&["convert", "--back"], b"Z9\n"),
        (&["verdict", "--plain", "H8"], b"H8\n"),
    ] {
        assert_eq!(fed(words, input).status, 1, "{words:?}");
    }
}

#[test]
fn wrong_usage_is_status_2() {
    for words in [
        &[][..],
        &["lst"],
        &["list", "--foo"],
        &["list", "-x"],
        &["list", "--json=1"],
        &["list", "--colour", "red", "H8"],
        &["hint", "--limit"],
        &["hint", "--limit", "7", "H8"],
        &["verdict"],
        &["verdict", "Z9", "H8"],
        &["turn", "8", "H8"],
        &["turn", "sideways", "H8"],
        &["game", "--moves", "H8", "--faults"],
        &["convert", "--numbered"],
        &["game", "/no/such/file"],
        &["convert", "/no/such/file"],
        &["sgf", "--back", "/no/such/file"],
        &["--completions", "fish"],
        &["help", "lst"],
    ] {
        let said = run(words);
        assert_eq!((said.status, said.out.as_str()), (2, ""), "{words:?}");
        assert!(said.err.starts_with("renju: "), "{words:?}: {}", said.err);
    }
    assert_eq!(run(&["--version"]).out, "renju 0.1.0\n");
}

/// A directory can be opened and not read: what came before it is written.
#[test]
fn input_that_fails_is_status_2() {
    let folder = folder("unreadable");
    let games = folder.join("games");
    std::fs::write(&games, "H8\n").expect("a file");
    let both = [games.to_str().expect("a name"), "/"];
    let said = run(&["game", "--quiet", both[0], both[1]]);
    assert_eq!(said.status, 2);
    assert_eq!(
        said.out,
        format!("{}:1: no fault, nobody has won\n", both[0])
    );
    assert!(said.err.starts_with("renju: /: "), "{}", said.err);
}

#[test]
fn output_that_fails_is_status_2() {
    let Ok(full) = File::options().write(true).open("/dev/full") else {
        println!("not run: no /dev/full");
        return;
    };
    for words in [&["list", "H8"][..], &["--help"], &["game", "--moves", "H8"]] {
        let mut command = Command::new(RENJU);
        command.args(words).stdin(Stdio::null());
        command.stdout(full.try_clone().expect("a handle"));
        let said = command.output().expect("it runs");
        assert_eq!(said.status.code(), Some(2), "{words:?}");
        let err = String::from_utf8_lossy(&said.stderr);
        assert!(err.starts_with("renju: standard output: "), "{err}");
    }
}

/// Whoever takes one line and goes is not told about it.
#[test]
fn a_pipe_that_closes_ends_it_quietly() {
    let mut command = Command::new(RENJU);
    command.args(["game", "--quiet", "-"]).stdin(Stdio::piped());
    command.stdout(Stdio::piped()).stderr(Stdio::piped());
    let mut child = command.spawn().expect("it starts");
    let mut stdin = child.stdin.take().expect("a pipe");
    let feeder = std::thread::spawn(move || {
        let games = b"H8,I9\n".repeat(1 << 20);
        stdin.write_all(&games).is_err()
    });
    let mut first = String::new();
    let mut out = BufReader::new(child.stdout.take().expect("a pipe"));
    out.read_line(&mut first).expect("a line");
    drop(out);
    let ended = child.wait_with_output().expect("it ends");
    assert_eq!(first, "no fault, nobody has won\n");
    assert_eq!(ended.status.code(), Some(2));
    assert_eq!(String::from_utf8_lossy(&ended.stderr), "");
    assert!(feeder.join().expect("the input"), "it has read all of it");
}

/// Whoever writes a line and waits gets its answer before the next.
#[test]
fn an_answer_does_not_wait_for_the_next_line() {
    for (command, answer) in [
        ("game", "no fault, nobody has won\n"),
        ("list", "forbidden 0\n"),
    ] {
        let mut program = Command::new(RENJU);
        program
            .arg(command)
            .stdin(Stdio::piped())
            .stdout(Stdio::piped());
        let mut child = program.stderr(Stdio::null()).spawn().expect("it starts");
        let mut stdin = child.stdin.take().expect("a pipe");
        let mut out = BufReader::new(child.stdout.take().expect("a pipe"));
        for _ in 0..3 {
            stdin.write_all(b"H8,I9\n").expect("it reads");
            let mut line = String::new();
            out.read_line(&mut line).expect("a line");
            assert_eq!(line, answer);
        }
        drop(stdin);
        assert!(child.wait().expect("it ends").success());
    }
}

#[test]
fn colours_only_where_asked_for() {
    let board = "G8,I8,H7,H9/A1";
    let plain = "H8 DoubleThree\nforbidden 1\n";
    assert_eq!(run(&["list", board]).out, plain);
    assert_eq!(run(&["list", "--colour=never", board]).out, plain);
    let red = "H8 \x1b[31mDoubleThree\x1b[0m\nforbidden 1\n";
    assert_eq!(run(&["list", "--colour", "always", board]).out, red);
}

/// On a terminal, by script(1): red, and not where NO_COLOR is set.
#[test]
fn colours_on_a_terminal() {
    let on_terminal = |none: &str| {
        let line = format!("{RENJU} list G8,I8,H7,H9/A1");
        let mut command = Command::new("script");
        command
            .args(["-qec", &line, "/dev/null"])
            .env("NO_COLOR", none);
        command.stdin(Stdio::null()).output().ok()
    };
    let Some(coloured) = on_terminal("") else {
        println!("not run: no script");
        return;
    };
    let coloured = String::from_utf8_lossy(&coloured.stdout).into_owned();
    assert!(
        coloured.contains("\x1b[31mDoubleThree\x1b[0m"),
        "{coloured}"
    );
    let plain = on_terminal("1").expect("script is there").stdout;
    assert!(!String::from_utf8_lossy(&plain).contains('\x1b'));
}

/// Words, and the line of JSON that is written.
const JSON: &[(&[&str], &str)] = &[
    (
        &["list", "G8,I8,H7,H9/A1"],
        r#"{"text":"G8,I8,H7,H9/A1","forbidden":[{"point":"H8","kind":"DoubleThree"}]}"#,
    ),
    (
        &["list", "H8,\"Z9"],
        r#"{"text":"H8,\"Z9","refused":3,"item":2,"why":"item 2, \"\"Z9\": no column A to O"}"#,
    ),
    (
        &["verdict", "H8", "G8,I8,H7,H9/A1"],
        r#"{"text":"G8,I8,H7,H9/A1","point":"H8","verdict":"DoubleThree","forbidden":true}"#,
    ),
    (
        &["game", "--moves", "H8,H8"],
        r#"{"moves":"H8,H8","fault":{"move":2,"point":"H8","reason":"occupied"},"winner":null}"#,
    ),
    (
        &["game", "--moves", "D8,A1,E8,A3,F8,A5,G8,A7,H8"],
        r#"{"moves":"D8,A1,E8,A3,F8,A5,G8,A7,H8","fault":null,"winner":"Black"}"#,
    ),
    (
        &["sgf", "H8"],
        r#"{"moves":"H8","sgf":"(;GM[4]SZ[15];B[hh])"}"#,
    ),
    (
        &["tag", "--view", "HalfTurn", "H8"],
        r#"{"moves":"H8","view":2,"record":"0100010202000170"}"#,
    ),
    (
        &["mend", "H8,h8"],
        r#"{"kept":["H8"],"item":2,"reason":1,"why":"item 2, \"h8\": the point is there already"}"#,
    ),
    (
        &["hint", "--white", "A1/F8,G8,H8"],
        r#"{"text":"A1/F8,G8,H8","line":["E8"]}"#,
    ),
    (&["hint", "H8"], r#"{"text":"H8","line":null}"#),
    (
        &["depth", "H8", "G8,I8,H7,H9/A1"],
        r#"{"text":"G8,I8,H7,H9/A1","point":"H8","depth":2,"verdict":"DoubleThree"}"#,
    ),
    (
        &["turn", "4", "C15"],
        r#"{"text":"C15","view":4,"turned":"M15"}"#,
    ),
];

#[test]
fn json_lines() {
    for (words, line) in JSON {
        let words = [words, &["--json"][..]].concat();
        let said = run(&words);
        let out = format!("{line}\n");
        assert_eq!((said.out, said.err.as_str()), (out, ""));
    }
}

/// Every command's JSON is read by a reader of JSON, where there is one.
#[test]
fn json_is_json() {
    let board = "G8,I8,H7,H9/A1";
    let reader = "import json,sys\nfor line in sys.stdin: json.loads(line)";
    for words in [
        &["list", board, "\\\"\u{1}"][..],
        &["convert", "--back", board],
        &["svg", board],
        &["game", "--moves", "G8,A1,I8,A3,H7,A5,H9,A7,H8", "Z"],
        &["check", "/dev/null"],
    ] {
        let out = run(&[words, &["--json"]].concat()).out;
        assert!(out.starts_with('{') && out.ends_with("}\n"), "{out}");
        let mut python = Command::new("python3");
        python.args(["-c", reader]);
        if Command::new("python3").arg("--version").output().is_err() {
            println!("not run: no python3");
            return;
        }
        let read = finish(python, out.as_bytes());
        assert_eq!(read.status, 0, "{out}{}", read.err);
    }
}

#[test]
fn what_is_written_is_read_back() {
    let moves = "G8,A1,I8,A3,H7";
    let sgf = run(&["sgf", moves]).out;
    assert_eq!(
        fed(&["sgf", "--back"], sgf.as_bytes()).out,
        format!("{moves}\n")
    );
    let record = run(&["tag", moves]).out;
    assert_eq!(
        run(&["tag", "--back", record.trim()]).out,
        format!("{moves}\n")
    );
    let bytes = finish_bytes(&["tag", "--bytes"], &[112, 128]);
    assert_eq!(bytes, [1, 0, 1, 0, 2, 0, 2, 112, 128]);
    assert_eq!(
        finish_bytes(&["tag", "--bytes", "--back"], &bytes),
        [112, 128]
    );
    let diagram = run(&["convert", "--back", "H8/I9"]).out;
    assert_eq!(fed(&["convert"], diagram.as_bytes()).out, "H8/I9\n");
    let turned = run(&["turn", "quarterright", moves]).out;
    let back = run(&["turn", "QUARTERLEFT", turned.trim()]).out;
    assert_eq!(back, format!("{moves}\n"));
    let numbered = run(&["convert", "--back", "--numbered", "H8/I9"]).out;
    assert!(numbered.ends_with(" A B C D E F G H I J K L M N O\n"));
}

fn finish_bytes(words: &[&str], input: &[u8]) -> Vec<u8> {
    let folder = folder(&format!("bytes{}", words.len()));
    let file = folder.join("game");
    std::fs::write(&file, input).expect("a file");
    let mut command = Command::new(RENJU);
    command.args(words).arg(&file);
    command.output().expect("it runs").stdout
}
