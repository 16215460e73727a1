//! The help: of the program, and of each command with its example.

use crate::args::{COMMON, Command, Opt};
use crate::commands::COMMANDS;

/// The lines that a wrong call gets.
pub fn usage() -> String {
    let names: Vec<&str> = COMMANDS.iter().map(|command| command.name).collect();
    format!(
        "usage: renju COMMAND [OPTION]... [WORD]...\ncommands: {}",
        names.join(", ")
    )
}

/// What is said of texts, exit statuses and errors, once for all commands.
pub const TEXTS: &str = "\
A board's text is stones, Black's points, a slash, White's (G8,I8,H7,H9/A1), or moves in turn, Black's first (H8,I9,J10); a lone
point is one move. A point is one letter A to O and one or two digits, 1 to 15: H8, h8 and H08 are one point. Texts are words of the
command line; where there are none they are the lines of standard input.";

pub const STATUSES: &str = "\
Exit status: 0 where all is in order, 1 where something was refused or a fault was found, 2 for wrong usage, and for input or output
that fails.";

pub fn all() -> String {
    let mut text =
        "renju: a proved renju referee\n\nusage: renju COMMAND [OPTION]... [WORD]...\n\n"
            .to_owned();
    for command in COMMANDS {
        text += &format!("  {:8} {}\n", command.name, command.summary);
    }
    text += &format!(
        "\nrenju COMMAND --help says more of each, with an example.\n\n{TEXTS}\n\n{STATUSES}\n\n"
    );
    text += "renju --man writes the man page, renju --completions bash the completions, renju --version the version.\n";
    text
}

pub fn of(command: &Command) -> String {
    let Command {
        name,
        words,
        about,
        example,
        ..
    } = command;
    let mut text = format!("usage: renju {name} [OPTION]... {words}\n\n{about}\n\noptions:\n");
    for option in command.options.iter().chain(COMMON) {
        text += &format!("  {:16} {}\n", spelt(option), option.about);
    }
    let example: Vec<String> = example.lines().map(|line| format!("  {line}")).collect();
    text += &format!("\nexample:\n{}\n\n{STATUSES}\n", example.join("\n"));
    text
}

/// `--limit N`.
pub fn spelt(option: &Opt) -> String {
    match option.value {
        Some(value) => format!("{} {value}", option.name),
        None => option.name.to_owned(),
    }
}
