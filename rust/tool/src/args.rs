//! The command line: which command, with which options and words.

use crate::commands::COMMANDS;
use crate::failure::{Failure, Status};
use crate::output::Output;
use crate::{completions, help, man};
use std::ffi::OsString;

/// An option: `--name`, or `--name VALUE`.
pub struct Opt {
    pub name: &'static str,
    pub value: Option<&'static str>,
    pub about: &'static str,
}

/// A command: what it is called with, what it says of itself, what it does.
pub struct Command {
    pub name: &'static str,
    /// The words behind it, as in `[TEXT]...`.
    pub words: &'static str,
    /// A line.
    pub summary: &'static str,
    /// Paragraphs.
    pub about: &'static str,
    pub options: &'static [Opt],
    /// Commands, each behind `$ `, and what they write.
    pub example: &'static str,
    pub run: fn(&Call, &mut Output) -> Result<Status, Failure>,
}

/// The options that every command has.
pub const COMMON: &[Opt] = &[
    Opt {
        name: "--json",
        value: None,
        about: "write a line of JSON for each answer",
    },
    Opt {
        name: "--colour",
        value: Some("WHEN"),
        about: "auto (on a terminal, and where NO_COLOR is not set), always or never",
    },
    Opt {
        name: "--help",
        value: None,
        about: "say how the command is called, with an example",
    },
];

/// A command's options and words.
#[derive(Default)]
pub struct Call {
    options: Vec<(&'static str, String)>,
    pub words: Vec<OsString>,
}

impl Call {
    pub fn has(&self, name: &str) -> bool {
        self.options.iter().any(|(option, _)| *option == name)
    }

    /// The value of an option; the last one counts.
    pub fn value(&self, name: &str) -> Option<&str> {
        let mut given = self.options.iter().rev();
        let (_, value) = given.find(|(option, _)| *option == name)?;
        Some(value)
    }

    /// The first word, which the command can't do without.
    pub fn first(&self, what: &str) -> Result<&str, Failure> {
        let word = self.words.first().and_then(|word| word.to_str());
        word.ok_or_else(|| Failure::usage(format!("a {what} is missing")))
    }
}

/// What the command line asks for.
pub enum Request {
    /// A text: help, the man page, completions, the version.
    Text(String),
    Run(&'static Command, Call),
}

pub fn read(words: Vec<OsString>) -> Result<Request, Failure> {
    let mut words = words.into_iter();
    let Some(first) = words.next() else {
        return Err(Failure::usage(help::usage()));
    };
    let rest: Vec<OsString> = words.collect();
    match &*first.to_string_lossy() {
        "--help" | "-h" => Ok(Request::Text(help::all())),
        "help" => about(rest),
        "--version" | "-V" => Ok(Request::Text(version())),
        "--man" => Ok(Request::Text(man::page())),
        "--completions" => shell(rest),
        name => options(command(name)?, rest),
    }
}

fn version() -> String {
    format!("renju {}\n", env!("CARGO_PKG_VERSION"))
}

fn command(name: &str) -> Result<&'static Command, Failure> {
    let found = COMMANDS.iter().find(|command| command.name == name);
    found.ok_or_else(|| Failure::usage(format!("no command \"{name}\"\n{}", help::usage())))
}

/// `renju help`, `renju help COMMAND`.
fn about(words: Vec<OsString>) -> Result<Request, Failure> {
    let Some(name) = words.first() else {
        return Ok(Request::Text(help::all()));
    };
    let command = command(&name.to_string_lossy())?;
    Ok(Request::Text(help::of(command)))
}

fn shell(words: Vec<OsString>) -> Result<Request, Failure> {
    match words.first() {
        Some(name) if name == "bash" => Ok(Request::Text(completions::bash())),
        _ => Err(Failure::usage("there are completions for bash alone")),
    }
}

fn options(command: &'static Command, words: Vec<OsString>) -> Result<Request, Failure> {
    let (mut call, mut words) = (Call::default(), words.into_iter());
    while let Some(word) = words.next() {
        let text = word.to_str().unwrap_or_default();
        match text {
            "--" => call.words.extend(words.by_ref()),
            "-h" | "--help" => return Ok(Request::Text(help::of(command))),
            _ if text.starts_with("--") => call.options.push(option(command, text, &mut words)?),
            _ if text.starts_with('-') && text.len() > 1 => return Err(unknown(command, text)),
            _ => call.words.push(word),
        }
    }
    Ok(Request::Run(command, call))
}

/// `--name`, `--name VALUE` or `--name=VALUE`.
fn option(
    command: &Command,
    text: &str,
    rest: &mut impl Iterator<Item = OsString>,
) -> Result<(&'static str, String), Failure> {
    let (name, value) = match text.split_once('=') {
        Some((name, value)) => (name, Some(value.to_owned())),
        None => (text, None),
    };
    let mut options = command.options.iter().chain(COMMON);
    let Some(found) = options.find(|option| option.name == name) else {
        return Err(unknown(command, name));
    };
    let value = match (found.value, value) {
        (None, None) => String::new(),
        (None, Some(_)) => return Err(Failure::usage(format!("{name} takes no value"))),
        (Some(_), Some(value)) => value,
        (Some(what), None) => {
            let next = rest.next().and_then(|word| word.into_string().ok());
            next.ok_or_else(|| Failure::usage(format!("{name} takes a {what}")))?
        }
    };
    Ok((found.name, value))
}

fn unknown(command: &Command, option: &str) -> Failure {
    let name = command.name;
    Failure::usage(format!(
        "renju {name} has no option {option}; renju {name} --help names them"
    ))
}
