//! The man page, from the same texts as the help.

use crate::args::{COMMON, Opt};
use crate::commands::COMMANDS;
use crate::help::{STATUSES, TEXTS, spelt};

pub fn page() -> String {
    let mut page = head();
    for command in COMMANDS {
        page += &format!(".SS renju {} {}\n", command.name, escaped(command.words));
        page += &paragraphs(command.about);
        page += &options(command.options);
        page += &format!(".PP\n.nf\n{}\n.fi\n", escaped(command.example));
    }
    page += &format!(".SH OPTIONS OF EVERY COMMAND\n{}", options(COMMON));
    page += &format!(".SH EXIT STATUS\n{}", paragraphs(STATUSES));
    page += &format!(
        ".SH ENVIRONMENT\n.TP\nNO_COLOR\n{}\n",
        "no colours where it is set"
    );
    page
}

fn head() -> String {
    let mut head =
        ".\\\" Written by renju --man.\n.TH RENJU 1 \"\" \"renju\" \"User Commands\"\n".to_owned();
    head += ".SH NAME\nrenju \\- a proved renju referee: boards, games, hints and pictures\n";
    head += ".SH SYNOPSIS\n.B renju\nCOMMAND [OPTION]... [WORD]...\n";
    head += &format!(".SH DESCRIPTION\n{}.SH COMMANDS\n", paragraphs(TEXTS));
    head
}

fn options(options: &[Opt]) -> String {
    let entry = |option: &Opt| {
        let about = escaped(option.about);
        format!(".TP\n.B {}\n{about}\n", escaped(&spelt(option)))
    };
    options.iter().map(entry).collect()
}

/// Paragraphs; lines that are indented stay lines.
fn paragraphs(text: &str) -> String {
    let paragraph = |text: &str| {
        let text = escaped(text);
        if text.contains("\n  ") {
            return format!(".PP\n.nf\n{text}\n.fi\n");
        }
        format!(".PP\n{text}\n")
    };
    text.split("\n\n").map(paragraph).collect()
}

/// What troff would take for its own.
fn escaped(text: &str) -> String {
    let text = text.replace('\\', "\\e").replace('-', "\\-");
    // A line that begins with a dot or a quote would be a request.
    let line = |line: &str| match line.chars().next() {
        Some('.' | '\'') => format!("\\&{line}"),
        _ => line.to_owned(),
    };
    text.lines().map(line).collect::<Vec<_>>().join("\n")
}
