//! Standard output: plain lines, JSON lines, colours.

use crate::args::Call;
use crate::failure::{Failure, Status};
use std::io::{self, BufWriter, IsTerminal, Stdout, Write};

/// How answers are written.
#[derive(Clone, Copy, Debug)]
pub struct Style {
    /// As JSON, an object a line.
    pub json: bool,
    /// With colours.
    pub colour: bool,
}

/// What a part of a line is, which its colour follows.
#[derive(Clone, Copy)]
pub enum Paint {
    /// A fault, a cross.
    Red,
    /// A winner.
    Green,
    /// A refusal.
    Yellow,
}

impl Style {
    /// A text in its colour, if there are colours.
    pub fn paint(self, paint: Paint, text: impl ToString) -> String {
        let text = text.to_string();
        if !self.colour {
            return text;
        }
        let number = match paint {
            Paint::Red => 31,
            Paint::Green => 32,
            Paint::Yellow => 33,
        };
        format!("\x1b[{number}m{text}\x1b[0m")
    }
}

pub struct Output {
    pub style: Style,
    out: BufWriter<Stdout>,
}

impl Output {
    /// As the call asks for.
    pub fn new(call: &Call) -> Result<Self, Failure> {
        let colour = match call.value("--colour") {
            None | Some("auto") => coloured(),
            Some("always") => true,
            Some("never") => false,
            Some(other) => {
                let words = format!("--colour is auto, always or never, not \"{other}\"");
                return Err(Failure::usage(words));
            }
        };
        let json = call.has("--json");
        Ok(Self::made(Style { json, colour }))
    }

    /// Without JSON and colours.
    pub fn plain() -> Self {
        Self::made(Style {
            json: false,
            colour: false,
        })
    }

    fn made(style: Style) -> Self {
        let out = BufWriter::with_capacity(1 << 16, io::stdout());
        Self { style, out }
    }

    pub fn write(&mut self, bytes: &[u8]) -> Result<(), Failure> {
        self.out.write_all(bytes).map_err(failed)
    }

    pub fn line(&mut self, text: impl AsRef<str>) -> Result<(), Failure> {
        self.write(text.as_ref().as_bytes())?;
        self.write(b"\n")
    }

    /// Writes out what is kept back.
    pub fn flush(&mut self) -> Result<(), Failure> {
        self.out.flush().map_err(failed)
    }

    /// Writes out what is left, which may fail too.
    pub fn end(mut self, status: Status) -> Result<Status, Failure> {
        self.flush()?;
        Ok(status)
    }
}

fn failed(error: io::Error) -> Failure {
    Failure::Io("standard output".to_owned(), error)
}

/// Colours are for people: on a terminal, and not where NO_COLOR asks for none (no-color.org).
fn coloured() -> bool {
    let refused = std::env::var_os("NO_COLOR").is_some_and(|value| !value.is_empty());
    io::stdout().is_terminal() && !refused
}
