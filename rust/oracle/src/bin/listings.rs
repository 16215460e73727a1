//! Lists the text on standard input by the original: `listings`. Runs another
//! program on N texts and holds what it writes to that: `listings PROGRAM N
//! SEED`. Texts and lists that are left out of the comparison with the original
//! are counted, and held to the naive reading.

use oracle::boards::Dice;
use oracle::left_out;
use oracle::listing::{list_is_left_out, listing, text};
use std::io::{Read, Write, stdin};
use std::process::{Command, ExitCode, Stdio};

fn main() -> ExitCode {
    let args: Vec<String> = std::env::args().skip(1).collect();
    match &args[..] {
        [] => list_input(),
        [program, count, seed] => match (count.parse(), seed.parse()) {
            (Ok(count), Ok(seed)) => compare(program, count, seed),
            _ => usage(),
        },
        _ => usage(),
    }
}

fn usage() -> ExitCode {
    eprintln!("usage: listings [PROGRAM N SEED]");
    ExitCode::from(2)
}

fn list_input() -> ExitCode {
    let mut bytes = Vec::new();
    if let Err(error) = stdin().read_to_end(&mut bytes) {
        eprintln!("standard input: {error}");
        return ExitCode::from(2);
    }
    print!("{}", listing(&bytes));
    ExitCode::SUCCESS
}

fn compare(program: &str, count: u64, seed: u64) -> ExitCode {
    let mut dice = Dice::new(seed);
    let (mut refused, mut lines, mut differences) = (0, 0, 0);
    let (mut typed, mut lone, mut lists) = (0, 0, 0);
    for _ in 0..count {
        let bytes = text(&mut dice);
        let expected = listing(&bytes);
        let written = match run(program, &bytes) {
            Ok(written) => written,
            Err(error) => {
                eprintln!("{program}: {error}");
                return ExitCode::from(2);
            }
        };
        refused += u64::from(expected.starts_with("refused"));
        typed += u64::from(left_out::typed(&bytes));
        lone += u64::from(left_out::lone(&bytes));
        lists += u64::from(list_is_left_out(&bytes));
        lines += expected.lines().count();
        if written != expected.as_bytes() {
            differences += 1;
            println!(
                "{}\n{expected}written:\n{}",
                bytes.escape_ascii(),
                written.escape_ascii()
            );
        }
    }
    println!("texts {count}, of these {refused} refused, lines {lines}, differences {differences}");
    println!(
        "left out of the comparison with the original: texts {typed} by request 5, {lone} by request 13, lists {lists} by request 6"
    );
    ExitCode::from(u8::from(differences > 0))
}

/// What the program writes to its standard output; an error where it fails.
/// It need not read all of its input.
fn run(program: &str, input: &[u8]) -> std::io::Result<Vec<u8>> {
    let mut child = Command::new(program)
        .stdin(Stdio::piped())
        .stdout(Stdio::piped())
        .spawn()?;
    if let Some(mut pipe) = child.stdin.take() {
        pipe.write_all(input).or_else(|error| match error.kind() {
            std::io::ErrorKind::BrokenPipe => Ok(()),
            _ => Err(error),
        })?;
    }
    let output = child.wait_with_output()?;
    if !output.status.success() {
        return Err(std::io::Error::other(output.status.to_string()));
    }
    Ok(output.stdout)
}
