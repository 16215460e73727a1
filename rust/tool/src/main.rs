//! The program `renju`: the daily jobs of a renju house over the proved functions.
//!
//! Each command has its file under `commands/`; what it is called with and says of itself is its entry in `COMMANDS`, from which
//! the help, the man page and the completions are written.

#![forbid(unsafe_code)]

mod args;
mod batches;
mod commands;
mod completions;
mod failure;
mod help;
mod items;
mod json;
mod man;
mod output;
mod place;
mod progress;

use args::Request;
use failure::{Failure, Status};
use output::Output;
use std::process::ExitCode;

fn main() -> ExitCode {
    let words = std::env::args_os().skip(1).collect();
    match answer(words) {
        Ok(status) => status.code(),
        Err(failure) => failure.code(),
    }
}

/// What is asked, done.
fn answer(words: Vec<std::ffi::OsString>) -> Result<Status, Failure> {
    match args::read(words)? {
        Request::Text(text) => {
            let mut output = Output::plain();
            output.write(text.as_bytes())?;
            output.end(Status::Fine)
        }
        Request::Run(command, call) => {
            let mut output = Output::new(&call)?;
            let done = (command.run)(&call, &mut output);
            // What was found so far is written even where the input then fails.
            match done {
                Ok(status) => output.end(status),
                Err(failure) => output.end(Status::Fine).and(Err(failure)),
            }
        }
    }
}
