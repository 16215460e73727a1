//! What document 02, No. 8, says, as plainly as it can be written: lists of codes, and the counts
//! that were heard.

use renju::feed::{Answer, Message};
use std::collections::BTreeMap;

/// A table: the server's game number, its list of every game, what the client of every game holds,
/// and the counts heard under the present number.
pub struct Plain {
    pub game: u32,
    pub lists: BTreeMap<u32, Vec<u8>>,
    pub held: BTreeMap<u32, Vec<u8>>,
    pub heard: Vec<u16>,
}

/// "17 for a foreign game, then 18 for a number that is not next, then 8, then 14 for a 226th
/// move"; 0 where the client takes it.
pub fn take_refusal(game: u32, count: usize, message: Message) -> u16 {
    if message.game != game {
        17
    } else if usize::from(message.number) != count + 1 {
        18
    } else {
        add_refusal(count, message.code)
    }
}

/// What is refused of a move that is added to so many (0: nothing).
pub fn add_refusal(count: usize, code: u8) -> u16 {
    if code > 224 {
        8
    } else if count >= 225 {
        14
    } else {
        0
    }
}

/// The word of two lists compared: 19 where neither begins the other.
pub fn missing(first: &[u8], second: &[u8]) -> u32 {
    if first == second {
        0
    } else if first.starts_with(second) {
        1
    } else if second.starts_with(first) {
        2
    } else {
        19 << 16
    }
}

impl Plain {
    /// A game begins, with nothing played or held.
    pub fn new(game: u32) -> Self {
        Self {
            game,
            lists: BTreeMap::from([(game, Vec::new())]),
            held: BTreeMap::from([(game, Vec::new())]),
            heard: Vec::new(),
        }
    }

    /// The list of the present game.
    pub fn list(&self) -> &[u8] {
        &self.lists[&self.game]
    }

    /// A move at the server; what is refused of it (0: nothing).
    pub fn add(&mut self, code: u8) -> u16 {
        let list = self.lists.get_mut(&self.game).expect("a list");
        let refused = add_refusal(list.len(), code);
        if refused == 0 {
            list.push(code);
        }
        refused
    }

    /// "A takeback opens a new game number, never used before, with a client started once, empty,
    /// for it."
    pub fn take_back(&mut self) -> u16 {
        let Some(game) = self.game.checked_add(1) else {
            return 17;
        };
        let mut list = self.list().to_vec();
        list.pop();
        self.game = game;
        assert!(self.lists.insert(game, list).is_none());
        assert!(self.held.insert(game, Vec::new()).is_none());
        self.heard.clear();
        0
    }

    /// The message of a move, by its number, or the refusal.
    pub fn message(&self, number: u16) -> Result<Message, u16> {
        let place = usize::from(number).wrapping_sub(1);
        let code = *self.list().get(place).ok_or(18u16)?;
        let game = self.game;
        Ok(Message { game, number, code })
    }

    /// A message at the client of a game.
    pub fn take(&mut self, game: u32, message: Message) -> u16 {
        let held = self.held.get_mut(&game).expect("a client");
        let refused = take_refusal(game, held.len(), message);
        if refused == 0 {
            held.push(message.code);
        }
        refused
    }

    /// What the client of a game answers: how many moves it holds.
    pub fn ask(&self, game: u32) -> Answer {
        let count = self.held[&game].len() as u16;
        Answer { game, count }
    }

    /// An answer at the server; of another game it is not heard.
    pub fn hear(&mut self, answer: Answer) {
        if answer.game == self.game {
            self.heard.push(answer.count);
        }
    }

    /// "the server has heard its full count under that number"
    pub fn holds_all(&self) -> bool {
        let full = self.list().len();
        full == 0 || self.heard.iter().any(|&count| usize::from(count) == full)
    }
}
