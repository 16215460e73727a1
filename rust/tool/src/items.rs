//! What a command is asked about: the words of the command line, or the lines of standard input.

use crate::args::Call;
use crate::failure::{Failure, Status};
use crate::output::Output;
use crate::place::{self, Place};
use renju::{Cells, Refusal, TEXT};
use std::fs::File;
use std::io::{self, BufRead, BufReader, IsTerminal, Read};
use std::path::Path;

/// A text, and its line where it came from standard input.
pub struct Item {
    pub text: Vec<u8>,
    pub line: Option<usize>,
}

impl Item {
    /// Says why it was refused: as JSON on standard output, else on standard error, with the place.
    pub fn refused(
        &self,
        output: &mut Output,
        place: &Place,
        refusal: Refusal,
    ) -> Result<Status, Failure> {
        if output.style.json {
            output.line(place.object(&self.text, refusal).end())?;
        } else {
            eprintln!("{}", place.explained(&self.text, self.line));
        }
        Ok(Status::Found)
    }
}

/// What is done with a text.
pub trait Act: FnMut(&Item, &mut Output) -> Result<Status, Failure> {}
impl<F: FnMut(&Item, &mut Output) -> Result<Status, Failure>> Act for F {}

/// Does it with each text: the words from `skip` on, else the lines of standard input.
pub fn each_text(
    call: &Call,
    skip: usize,
    output: &mut Output,
    mut act: impl Act,
) -> Result<Status, Failure> {
    let words = call.words.get(skip..).unwrap_or_default();
    let mut worst = Status::Fine;
    for word in words {
        let text = word.as_encoded_bytes().to_vec();
        worst = worst.max(act(&Item { text, line: None }, output)?);
    }
    if !words.is_empty() {
        return Ok(worst);
    }
    let mut lines = Texts::new(standard_input(), b'\n');
    let mut number = 0;
    while let Some(text) = lines.next(STDIN)? {
        number += 1;
        let line = Some(number);
        worst = worst.max(act(&Item { text, line }, output)?);
        // Whoever writes a line and waits for the answer gets it.
        if lines.waits() {
            output.flush()?;
        }
    }
    Ok(worst)
}

/// .. with each board that a text says; a text that says none is explained.
pub fn each_board(
    call: &Call,
    skip: usize,
    output: &mut Output,
    mut act: impl FnMut(&Cells, &Item, &mut Output) -> Result<Status, Failure>,
) -> Result<Status, Failure> {
    each_text(call, skip, output, |item, output| {
        match Cells::read(&item.text) {
            Ok(cells) => act(&cells, item, output),
            Err(refusal) => {
                let place = place::of_board(&item.text, refusal);
                item.refused(output, &place, refusal)
            }
        }
    })
}

/// What is read.
pub type Input = BufReader<Box<dyn Read>>;

/// How many bytes are read at once.
const BUFFER: usize = 1 << 16;

/// What standard input is called in messages.
pub const STDIN: &str = "standard input";

/// Standard input; whoever sits before a terminal is told that it is read.
pub fn standard_input() -> Input {
    let input = io::stdin();
    if input.is_terminal() {
        eprintln!("renju: reading from the terminal; end with Ctrl-D, or see --help");
    }
    Input::with_capacity(BUFFER, Box::new(input))
}

/// A file by its name; `-` is standard input.
pub fn open(name: &Path) -> Result<Input, Failure> {
    if name.as_os_str() == "-" {
        return Ok(standard_input());
    }
    let failed = |error| Failure::Io(name.display().to_string(), error);
    let file = File::open(name).map_err(failed)?;
    Ok(Input::with_capacity(BUFFER, Box::new(file)))
}

/// All of a file that can be a text: one byte more than that is refused 1.
pub fn whole(name: &Path) -> Result<Vec<u8>, Failure> {
    let mut text = Vec::new();
    let failed = |error| Failure::Io(name.display().to_string(), error);
    let mut part = open(name)?.take(TEXT as u64 + 1);
    part.read_to_end(&mut text).map_err(failed)?;
    Ok(text)
}

/// Texts one after another, each up to a byte that ends it: a line's end, or SGF's bracket, which is part of the text.
///
/// Of a text that is too long only as much is kept as shows that: the room does not grow with it.
pub struct Texts {
    input: Input,
    end: u8,
    /// How many bytes were read.
    pub read: u64,
}

impl Texts {
    pub fn new(input: Input, end: u8) -> Self {
        Self {
            input,
            end,
            read: 0,
        }
    }

    /// Whether the next text must be waited for: what was read is used up.
    pub fn waits(&self) -> bool {
        self.input.buffer().is_empty()
    }

    /// The next text, if there is one.
    pub fn next(&mut self, name: &str) -> Result<Option<Vec<u8>>, Failure> {
        let mut text = Vec::new();
        Ok(self.next_onto(&mut text, name)?.then_some(text))
    }

    /// .. put behind what is there; whether there is one. `name` is what is read, for a failure.
    pub fn next_onto(&mut self, texts: &mut Vec<u8>, name: &str) -> Result<bool, Failure> {
        let (start, mut any) = (texts.len(), false);
        loop {
            let part = match self.input.fill_buf() {
                Ok(part) => part,
                Err(error) if error.kind() == io::ErrorKind::Interrupted => continue,
                Err(error) => return Err(Failure::Io(name.to_owned(), error)),
            };
            let ended = part.iter().position(|&byte| byte == self.end);
            let taken = ended.map_or(part.len(), |at| at + 1);
            let own = &part[..ended.unwrap_or(taken)];
            let room = (start + TEXT + 1).saturating_sub(texts.len());
            texts.extend(&own[..own.len().min(room)]);
            self.input.consume(taken);
            self.read += taken as u64;
            any |= taken > 0;
            if taken == 0 || ended.is_some() {
                return Ok(self.kept(texts, start, any, ended.is_some()));
            }
        }
    }

    /// A text of SGF has its bracket, and what is blank behind the last one is no text.
    fn kept(&self, texts: &mut Vec<u8>, start: usize, any: bool, ended: bool) -> bool {
        if self.end == b'\n' {
            return any;
        }
        if ended {
            texts.push(self.end);
        }
        let blank = texts[start..].trim_ascii().is_empty();
        if blank {
            texts.truncate(start);
        }
        !blank
    }
}

#[cfg(test)]
mod tests {
    use super::*;

    fn texts(input: &'static [u8], end: u8) -> Vec<Vec<u8>> {
        // A buffer of three bytes: texts lie across its ends.
        let mut texts = Texts::new(Input::with_capacity(3, Box::new(input)), end);
        let mut all = Vec::new();
        while let Some(text) = texts.next("the test").expect("no failure") {
            all.push(text);
        }
        assert_eq!(texts.read, input.len() as u64);
        all
    }

    #[test]
    fn lines() {
        assert_eq!(texts(b"", b'\n'), [b""; 0]);
        assert_eq!(texts(b"\n", b'\n'), [b""]);
        assert_eq!(texts(b"H8,I9\n\nJ10", b'\n'), [&b"H8,I9"[..], b"", b"J10"]);
    }

    #[test]
    fn sgf_texts() {
        let all = texts(b"(;GM[4]\nSZ[15])\n(;A)  \n", b')');
        assert_eq!(all, [&b"(;GM[4]\nSZ[15])"[..], b"\n(;A)"]);
        assert_eq!(texts(b"(;A", b')'), [b"(;A"]);
    }

    #[test]
    fn a_long_line_takes_no_more_room() {
        let long: &'static [u8] = vec![b'x'; 3 * TEXT].leak();
        assert_eq!(texts(long, b'\n'), [&long[..TEXT + 1]]);
    }
}
