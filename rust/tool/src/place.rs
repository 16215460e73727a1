//! Where a text is wrong: the item, its place, and the words for it.

use crate::json::Object;
use renju::{Point, Refusal, Slip};

/// What is wrong with a text, and where.
pub struct Place {
    /// `item 2, "Z9": no column A to O`, or what the refusal says where no item is to blame.
    pub words: String,
    /// The bytes that are to blame, from and to.
    span: Option<(usize, usize)>,
    item: Option<usize>,
}

/// An item of a text: its number, from 1, and its bytes without the space around them.
struct Item<'a> {
    number: usize,
    start: usize,
    bytes: &'a [u8],
}

impl Item<'_> {
    fn place(&self, why: &str) -> Place {
        let (number, shown) = (self.number, shown(self.bytes));
        Place {
            words: format!("item {number}, \"{shown}\": {why}"),
            span: Some((self.start, self.start + self.bytes.len())),
            item: Some(number),
        }
    }
}

/// The items of a text between these separators.
fn items<'a>(text: &'a [u8], separators: &'static [u8]) -> impl Iterator<Item = Item<'a>> {
    let mut start = 0;
    let parts = text.split(|byte| separators.contains(byte)).enumerate();
    parts.map(move |(place, part)| {
        let at = start;
        start += part.len() + 1;
        let bytes = part.trim_ascii();
        // An empty item stands where its space begins.
        let before = if bytes.is_empty() {
            0
        } else {
            part.len() - part.trim_ascii_start().len()
        };
        Item {
            number: place + 1,
            start: at + before,
            bytes,
        }
    })
}

/// Why a board's text was refused, and where.
pub fn of_board(text: &[u8], refusal: Refusal) -> Place {
    let slash = || second_slash(text).filter(|_| refusal == Refusal::XPart);
    let place = wrong_item(text, b",/", refusal).or_else(slash);
    place.unwrap_or_else(|| whole(text, refusal))
}

/// Why a list of moves was refused, and where. A slash parts nothing in it.
pub fn of_moves(text: &[u8], refusal: Refusal) -> Place {
    wrong_item(text, b",", refusal).unwrap_or_else(|| whole(text, refusal))
}

/// The first item that is no point, where that is what was refused.
fn wrong_item(text: &[u8], separators: &'static [u8], refusal: Refusal) -> Option<Place> {
    if !matches!(refusal, Refusal::XPart | Refusal::YPart) {
        return None;
    }
    items(text, separators).find_map(|item| Some(item.place(why(item.bytes)?)))
}

/// The item of a mended list that slips.
pub fn of_slip(text: &[u8], number: usize, slip: Slip) -> Place {
    let why = match slip {
        Slip::Repeat => "the point is there already",
        Slip::XPart => NO_COLUMN,
        Slip::YPart => NO_ROW,
    };
    let item = items(text, b",").nth(number - 1);
    item.map_or_else(|| whole(text, Refusal::XPart), |item| item.place(why))
}

const NO_COLUMN: &str = "no column A to O";
const NO_ROW: &str = "behind the letter there is not just a row 1 to 15";

/// Why bytes are no point, if they are none.
fn why(bytes: &[u8]) -> Option<&'static str> {
    match Point::read(bytes).err()? {
        Refusal::XPart => Some(NO_COLUMN),
        Refusal::YPart => Some(NO_ROW),
        _ => None,
    }
}

fn second_slash(text: &[u8]) -> Option<Place> {
    let slashes = text.iter().enumerate().filter(|(_, byte)| **byte == b'/');
    let (at, _) = slashes.take(2).nth(1)?;
    Some(Place {
        words: "a second slash".to_owned(),
        span: Some((at, at + 1)),
        item: None,
    })
}

/// A refusal of the whole text; of its bytes the first that is 128 or more.
pub fn whole(text: &[u8], refusal: Refusal) -> Place {
    let byte = text.iter().position(|byte| !byte.is_ascii());
    let at = byte.filter(|_| refusal == Refusal::TextByte);
    Place {
        words: refusal.meaning().to_owned(),
        span: at.map(|at| (at, at + 1)),
        item: None,
    }
}

/// A text's bytes for the eye: what can't be shown is a dot.
fn shown(bytes: &[u8]) -> String {
    let letter = |&byte: &u8| match byte {
        b' '..=b'~' => char::from(byte),
        _ => '.',
    };
    bytes.iter().map(letter).collect()
}

/// How much of a line is shown on either side of the place.
const AROUND: usize = 40;

impl Place {
    /// The words, the text's line and a caret below the place; `line` is its number where there are several.
    pub fn explained(&self, text: &[u8], line: Option<usize>) -> String {
        let line = line.map_or_else(String::new, |number| format!("line {number}, "));
        let mut said = format!("renju: {line}{}", self.words);
        if let Some((from, to)) = self.span {
            let (start, end) = (from.saturating_sub(AROUND), text.len().min(to + AROUND));
            let carets = "^".repeat((to - from).clamp(1, AROUND));
            said += &format!("\n  {}", shown(&text[start..end]));
            said += &format!("\n  {}{carets}", " ".repeat(from - start));
        }
        said
    }

    /// The fields of a refused text.
    pub fn object(&self, text: &[u8], refusal: Refusal) -> Object {
        let object = Object::new().text("text", String::from_utf8_lossy(text));
        let object = object.field("refused", refusal.number());
        let object = match self.item {
            Some(item) => object.field("item", item),
            None => object.field("item", "null"),
        };
        object.text("why", &self.words)
    }
}
