//! Document 02, No. 12, read as it stands: item by item.

/// A mended list: the kept points by code, the slip's number from 1 and its reason, 0 twice for
/// none.
#[derive(Debug, Clone, PartialEq, Eq)]
pub struct Mended {
    pub kept: Vec<u8>,
    pub item: usize,
    pub reason: u8,
}

/// "Space is bytes 9 to 13 and 32."
fn trimmed(mut text: &[u8]) -> &[u8] {
    let is_space = |byte: &u8| matches!(byte, 9..=13 | 32);
    while let Some((byte, rest)) = text.split_first().filter(|(byte, _)| is_space(byte)) {
        debug_assert!(is_space(byte));
        text = rest;
    }
    while let Some((_, rest)) = text.split_last().filter(|(byte, _)| is_space(byte)) {
        text = rest;
    }
    text
}

/// "exactly one letter and one or two digits after trimming": the code; 3 for the letter, then 4.
fn point(item: &[u8]) -> Result<u8, u8> {
    let (letter, digits) = trimmed(item).split_first().ok_or(3)?;
    let x = match letter {
        b'A'..=b'O' => letter - b'A',
        b'a'..=b'o' => letter - b'a',
        _ => return Err(3),
    };
    let row = match *digits {
        [one @ b'0'..=b'9'] => one - b'0',
        [ten @ b'0'..=b'9', one @ b'0'..=b'9'] => 10 * (ten - b'0') + (one - b'0'),
        _ => return Err(4),
    };
    match row {
        1..=15 => Ok(15 * x + row - 1),
        _ => Err(4),
    }
}

/// "keeps the leading moves up to the first item that does not read as a point or names a point
/// already kept". "Refusals: 1, then 2."
pub fn read(text: &[u8]) -> Result<Mended, u8> {
    if text.len() > 4096 {
        return Err(1);
    }
    if !text.is_ascii() {
        return Err(2);
    }
    let mut kept = Vec::new();
    for (place, item) in trimmed(text).split(|&byte| byte == b',').enumerate() {
        let reason = match point(item) {
            Ok(code) if kept.contains(&code) => 1,
            Ok(code) => {
                kept.push(code);
                continue;
            }
            Err(reason) => reason,
        };
        let item = place + 1;
        return Ok(Mended { kept, item, reason });
    }
    let (item, reason) = (0, 0);
    Ok(Mended { kept, item, reason })
}

impl Mended {
    /// "It writes the kept list, then that item's number from 1 and reason".
    pub fn lines(&self) -> Vec<u8> {
        let name = |code: &u8| format!("{}{}", char::from(b'A' + code / 15), code % 15 + 1);
        let names: Vec<String> = self.kept.iter().map(name).collect();
        format!("{}\n{} {}\n", names.join(","), self.item, self.reason).into_bytes()
    }
}
