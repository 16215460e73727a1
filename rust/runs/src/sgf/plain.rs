//! Document 02, No. 10, read as it stands: from the front, one expected word after the other. (The
//! proved reader cuts a text into tokens first.)

/// What is left of a text.
struct Rest<'a>(&'a [u8]);

impl<'a> Rest<'a> {
    /// Without the white space in front: bytes 9 to 13 and 32.
    fn skip(&mut self) {
        while let [9..=13 | 32, rest @ ..] = self.0 {
            self.0 = rest;
        }
    }

    /// Whether these words come next, each with white space before it; then they are taken.
    fn take(&mut self, words: &[&str]) -> bool {
        words.iter().all(|word| {
            self.skip();
            let behind = self.0.strip_prefix(word.as_bytes());
            self.0 = behind.unwrap_or(self.0);
            behind.is_some()
        })
    }

    /// The point of a value such as `[hh]`, which comes next.
    fn point(&mut self) -> Option<u8> {
        self.skip();
        let [
            b'[',
            column @ b'a'..=b'o',
            row @ b'a'..=b'o',
            b']',
            rest @ ..,
        ] = self.0
        else {
            return None;
        };
        self.0 = rest;
        // "the column and the row counted from the top"
        Some((column - b'a') * 15 + 14 - (row - b'a'))
    }
}

/// "Refusals: 1 and 2 first, 20 for anything outside the subset, 14 and 13 after it".
pub fn read(text: &[u8]) -> Result<Vec<u8>, u8> {
    if text.len() > 4096 {
        return Err(1);
    }
    if !text.is_ascii() {
        return Err(2);
    }
    let moves = moves(text).ok_or(20)?;
    if moves.len() > 225 {
        return Err(14);
    }
    Ok(moves)
}

fn moves(text: &[u8]) -> Option<Vec<u8>> {
    let mut rest = Rest(text);
    let mut moves = Vec::new();
    if !rest.take(&["(", ";", "GM", "[4]", "SZ", "[15]"]) {
        return None;
    }
    while !rest.take(&[")"]) {
        let name = if moves.len() % 2 == 0 { "B" } else { "W" };
        if !rest.take(&[";", name]) {
            return None;
        }
        moves.push(rest.point()?);
    }
    rest.skip();
    rest.0.is_empty().then_some(moves)
}

/// "on writing 14, 8, then 13".
pub fn write(moves: &[u8]) -> Result<Vec<u8>, u8> {
    if moves.len() > 225 {
        return Err(14);
    }
    if moves.iter().any(|&code| code > 224) {
        return Err(8);
    }
    Ok(text_of(moves))
}

/// The text of moves, however many they are.
pub fn text_of(moves: &[u8]) -> Vec<u8> {
    let mut text = b"(;GM[4]SZ[15]".to_vec();
    for (number, code) in moves.iter().enumerate() {
        let name = if number % 2 == 0 { b'B' } else { b'W' };
        text.extend([b';', name, b'[', b'a' + code / 15, b'o' - code % 15, b']']);
    }
    text.push(b')');
    text
}
