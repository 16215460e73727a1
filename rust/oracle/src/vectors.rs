//! The recorded answers of the original: the text of every file.
//!
//! The form is strict so that a small reader is enough: one record a line, a
//! letter first, then fields with one space before each.

mod boards;
mod lines;
mod points;
mod readme;
mod texts;

use crate::original::Cells;
use std::fmt::Write;

/// The seed that every recorded file starts from.
pub const SEED: u64 = 20_261_103;

/// Every file's name and whole text, in the order they are written.
pub fn files() -> Vec<(&'static str, String)> {
    let mut files = vec![
        ("boards.txt", boards::text()),
        ("lines.txt", lines::text()),
        ("texts.txt", texts::text()),
        ("points.txt", points::text()),
    ];
    files.push(("README.md", readme::text(&files)));
    files
}

/// Where the copy of a file of records lies that the program that replays them reads: `rt` runs a
/// program on the files of its crate, and takes no link.
#[must_use]
pub fn copy(name: &str) -> Option<String> {
    let of = name.strip_suffix(".txt")?;
    Some(format!("crates/replay_{of}/stdin"))
}

/// Records in the making.
#[derive(Default)]
struct Records(String);

impl Records {
    fn comment(&mut self, words: &str) {
        writeln!(self.0, "# {words}").expect("a String takes all");
    }

    fn record(&mut self, letter: char, fields: &[String]) {
        self.0.push(letter);
        for field in fields {
            self.0.push(' ');
            self.0.push_str(field);
        }
        self.0.push('\n');
    }
}

/// Two digits for a byte.
fn byte(value: u8) -> String {
    format!("{value:02x}")
}

/// Four digits for the mask of a line.
fn mask(value: u16) -> String {
    format!("{value:04x}")
}

/// The bytes of a list or of a text run together, two digits each.
fn list(bytes: &[u8]) -> String {
    bytes.iter().map(|&b| byte(b)).collect()
}

/// 225 characters in code order: `.` empty, `o` black, `x` white.
fn cells_field(cells: &Cells) -> String {
    cells.iter().map(|&v| ['.', 'o', 'x'][v as usize]).collect()
}
