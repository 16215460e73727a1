//! How the program ends: its exit status, and what it says where it can't go on.

use std::fmt;
use std::io::{self, ErrorKind};
use std::process::ExitCode;

/// The answer to all that was asked.
#[derive(Clone, Copy, PartialEq, Eq, PartialOrd, Ord, Debug)]
pub enum Status {
    /// 0: everything is in order.
    Fine,
    /// 1: something was refused, or a fault was found.
    Found,
}

impl Status {
    pub fn code(self) -> ExitCode {
        ExitCode::from(self as u8)
    }

    /// 1 where something was found.
    pub fn found(found: bool) -> Self {
        if found { Self::Found } else { Self::Fine }
    }
}

/// Why it can't go on.
#[derive(Debug)]
pub enum Failure {
    /// It was called in a wrong way, with the words to say.
    Usage(String),
    /// Reading or writing what is named failed.
    Io(String, io::Error),
}

impl Failure {
    pub fn usage(words: impl Into<String>) -> Self {
        Self::Usage(words.into())
    }

    /// Says why, and gives exit status 2. Whoever closed the pipe has had enough: that is not said.
    pub fn code(self) -> ExitCode {
        if !self.is_closed_pipe() {
            eprintln!("renju: {self}");
        }
        ExitCode::from(2)
    }

    fn is_closed_pipe(&self) -> bool {
        matches!(self, Self::Io(_, error) if error.kind() == ErrorKind::BrokenPipe)
    }
}

impl fmt::Display for Failure {
    fn fmt(&self, f: &mut fmt::Formatter<'_>) -> fmt::Result {
        match self {
            Self::Usage(words) => write!(f, "{words}\nrenju --help says more"),
            Self::Io(name, error) => write!(f, "{name}: {error}"),
        }
    }
}
