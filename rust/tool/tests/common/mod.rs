//! The program run with words and an input, and what it said.

#![allow(dead_code)] // Each test uses what it needs.

use std::io::Write;
use std::path::{Path, PathBuf};
use std::process::{Command, Output, Stdio};

pub const RENJU: &str = env!("CARGO_BIN_EXE_renju");

/// What a run said, and its exit status.
#[derive(Debug, PartialEq)]
pub struct Said {
    pub out: String,
    pub err: String,
    pub status: i32,
}

impl From<Output> for Said {
    fn from(output: Output) -> Self {
        let text = |bytes| String::from_utf8(bytes).expect("ASCII is written");
        Self {
            out: text(output.stdout),
            err: text(output.stderr),
            status: output.status.code().expect("it ends by itself"),
        }
    }
}

/// The program with words, and nothing to read.
pub fn run(words: &[&str]) -> Said {
    fed(words, b"")
}

/// The program with words and an input.
pub fn fed(words: &[&str], input: &[u8]) -> Said {
    let mut command = Command::new(RENJU);
    command.args(words);
    finish(command, input)
}

/// A command with an input, to its end.
pub fn finish(mut command: Command, input: &[u8]) -> Said {
    command.stdin(Stdio::piped());
    command.stdout(Stdio::piped()).stderr(Stdio::piped());
    let mut child = command.spawn().expect("it starts");
    let mut stdin = child.stdin.take().expect("a pipe");
    let input = input.to_vec();
    // It may end before it has read all, and then there is nobody to write to.
    let feeder = std::thread::spawn(move || stdin.write_all(&input).is_ok());
    let output = child.wait_with_output().expect("it ends");
    feeder.join().expect("the input is written");
    output.into()
}

/// A shell command that finds the program as `renju`, in a folder.
pub fn shell(line: &str, folder: &Path) -> Said {
    let program = Path::new(RENJU).parent().expect("a folder");
    let path = std::env::var("PATH").unwrap_or_default();
    let mut command = Command::new("sh");
    command.args(["-c", line]).current_dir(folder);
    command.env("PATH", format!("{}:{path}", program.display()));
    finish(command, b"")
}

/// A folder of a test's own, empty.
pub fn folder(name: &str) -> PathBuf {
    let folder = Path::new(env!("CARGO_TARGET_TMPDIR")).join(name);
    let _ = std::fs::remove_dir_all(&folder);
    std::fs::create_dir_all(&folder).expect("a folder for the test");
    folder
}

/// The names of the commands, as the help has them.
pub fn commands() -> Vec<String> {
    let help = run(&["--help"]).out;
    let lines = help.lines().filter(|line| line.starts_with("  "));
    let names = lines.filter_map(|line| line.split_whitespace().next());
    names.map(str::to_owned).collect()
}
