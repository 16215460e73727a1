//! Document 02, No. 4, read as it stands: fields one after the other, then what they must be.

/// A game that a record says.
#[derive(Debug, Clone, Copy, PartialEq, Eq)]
pub struct Game<'a> {
    pub view: u8,
    pub moves: &'a [u8],
}

/// "fields of a one-byte tag and a two-byte length, high byte first": the tags and values, nothing
/// where a length does not agree with the bytes.
fn fields(mut bytes: &[u8]) -> Option<Vec<(u8, &[u8])>> {
    let mut found = Vec::new();
    while !bytes.is_empty() {
        let (front, rest) = bytes.split_at_checked(3)?;
        let length = u16::from_be_bytes([front[1], front[2]]);
        let (value, behind) = rest.split_at_checked(length.into())?;
        found.push((front[0], value));
        bytes = behind;
    }
    Some(found)
}

/// "15 for a malformed record, a view over 7 or a length that disagrees with the bytes included;
/// then 14 for an agreeing moves length over 225, 8".
pub fn read(record: &[u8]) -> Result<Game<'_>, u8> {
    let fields = fields(record).ok_or(15)?;
    // "tag 1 the view (length 1, value 0 to 7), then tag 2 the moves (0 to 225 codes), each once, in
    // that order, nothing after"
    let [(1, &[view @ 0..=7]), (2, moves)] = fields[..] else {
        return Err(15);
    };
    playable(moves)?;
    Ok(Game { view, moves })
}

/// 14, then 8.
fn playable(moves: &[u8]) -> Result<(), u8> {
    if moves.len() > 225 {
        return Err(14);
    }
    if moves.iter().any(|&code| code > 224) {
        return Err(8);
    }
    Ok(())
}

/// "New to old is given only for view 0": "16 for a view other than 0 on the way back".
pub fn back(record: &[u8]) -> Result<Vec<u8>, u8> {
    let game = read(record)?;
    if game.view != 0 {
        return Err(16);
    }
    Ok(game.moves.to_vec())
}

/// On writing 14, 8, then 12 for a view over 7.
pub fn write(moves: &[u8], view: u8) -> Result<Vec<u8>, u8> {
    playable(moves)?;
    if view > 7 {
        return Err(12);
    }
    Ok(bytes_of(view, moves))
}

/// The bytes of a record, whatever its view and moves are; the length of the moves has two bytes.
pub fn bytes_of(view: u8, moves: &[u8]) -> Vec<u8> {
    let length = (moves.len() as u16).to_be_bytes();
    [&[1, 0, 1, view, 2], &length[..], moves].concat()
}
