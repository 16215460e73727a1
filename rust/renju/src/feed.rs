//! The move feed: a server tells a thin client its moves over a line that
//! loses, repeats and reorders messages.
//!
//! A [`Message`] carries a game number, a move's number from 1 and its code. A
//! [`Client`] takes only the next move of its own game, and answers each
//! message, and whoever asks, with its game number and how many moves it holds.
//! Whatever the line does with messages and answers, as long as it makes none
//! up, the client's list is the first part of the server's list of that game;
//! and once the [`Server`] says [`Server::holds_all`], both lists are equal,
//! and with them both boards and all verdicts, until the server adds a move or
//! takes one back. That is proved of the client and the server in
//! `crates/feed`; the client here is that client by its contract
//! (`renju_feed_take`), the server here is written in Rust and tested.
//!
//! A takeback opens a new game number, one more than the last, and a new client
//! is started for it, once. A client that was started under its number again,
//! after it has told what it held, would be another client to the server:
//! nothing is said of one.
//!
//! # Examples
//!
//! ```
//! use renju::feed::{Client, Server};
//!
//! let mut server = Server::new(7);
//! let mut client = Client::new(7);
//! server.add(112)?;
//! server.add(96)?;
//!
//! // The second message comes first, and is refused: the first is next.
//! let (one, two) = (server.message(1)?, server.message(2)?);
//! assert_eq!(client.take(two).refusal, Some(renju::Refusal::NotNext));
//! server.hear(client.take(one).answer);
//! assert!(!server.holds_all());
//!
//! // What the client is not known to hold is sent again.
//! for number in server.heard() + 1..=server.count() {
//!     let taken = client.take(server.message(number)?);
//!     server.hear(taken.answer);
//! }
//! assert!(server.holds_all());
//! assert_eq!(client.as_codes(), server.as_codes());
//! assert_eq!(client.cells().forbidden_points(), server.cells().forbidden_points());
//! # Ok::<(), renju::Refusal>(())
//! ```

use crate::list::front;
use crate::raw::{renju_feed_missing, renju_feed_take};
use crate::refusal::answer;
use crate::{Cells, Colour, MOVES, Point, Refusal};
use core::fmt;

/// A move of a game, on its way to a client.
///
/// ```
/// use renju::feed::Message;
///
/// let message = Message { game: 258, number: 1, code: 112 };
/// assert_eq!(message.to_bytes(), [0, 0, 1, 2, 0, 1, 112]);
/// assert_eq!(Message::from_bytes(message.to_bytes()), message);
/// ```
#[derive(Clone, Copy, Debug, PartialEq, Eq, PartialOrd, Ord, Hash)]
pub struct Message {
    /// The game that the move is of.
    pub game: u32,
    /// The move's number, from 1.
    pub number: u16,
    /// The code of its point.
    pub code: u8,
}

impl Message {
    /// Seven bytes: the game number in four and the move's number in two, high
    /// byte first, and the code.
    ///
    /// ```
    /// use renju::feed::Message;
    ///
    /// let message = Message { game: 1, number: 225, code: 224 };
    /// assert_eq!(message.to_bytes(), [0, 0, 0, 1, 0, 225, 224]);
    /// ```
    #[must_use]
    pub const fn to_bytes(self) -> [u8; 7] {
        let ([a, b, c, d], [e, f]) = (self.game.to_be_bytes(), self.number.to_be_bytes());
        [a, b, c, d, e, f, self.code]
    }

    /// The message of seven bytes. Any are one: whether it can be taken is for
    /// the client to say.
    ///
    /// ```
    /// use renju::feed::Message;
    ///
    /// assert_eq!(Message::from_bytes([0, 0, 0, 1, 0, 9, 255]).code, 255);
    /// ```
    #[must_use]
    pub const fn from_bytes([a, b, c, d, e, f, code]: [u8; 7]) -> Self {
        Self {
            game: u32::from_be_bytes([a, b, c, d]),
            number: u16::from_be_bytes([e, f]),
            code,
        }
    }
}

/// What a client says of itself, on its way to the server.
///
/// ```
/// use renju::feed::{Answer, Client};
///
/// assert_eq!(Client::new(7).ask(), Answer { game: 7, count: 0 });
/// ```
#[derive(Clone, Copy, Debug, PartialEq, Eq, PartialOrd, Ord, Hash)]
pub struct Answer {
    /// The client's game number.
    pub game: u32,
    /// How many moves it holds.
    pub count: u16,
}

impl Answer {
    /// Six bytes: the game number in four and the count in two, high byte
    /// first.
    ///
    /// ```
    /// use renju::feed::Answer;
    ///
    /// assert_eq!(Answer { game: 258, count: 3 }.to_bytes(), [0, 0, 1, 2, 0, 3]);
    /// ```
    #[must_use]
    pub const fn to_bytes(self) -> [u8; 6] {
        let ([a, b, c, d], [e, f]) = (self.game.to_be_bytes(), self.count.to_be_bytes());
        [a, b, c, d, e, f]
    }

    /// The answer of six bytes.
    ///
    /// ```
    /// use renju::feed::Answer;
    ///
    /// let answer = Answer { game: 7, count: 225 };
    /// assert_eq!(Answer::from_bytes(answer.to_bytes()), answer);
    /// ```
    #[must_use]
    pub const fn from_bytes([a, b, c, d, e, f]: [u8; 6]) -> Self {
        Self {
            game: u32::from_be_bytes([a, b, c, d]),
            count: u16::from_be_bytes([e, f]),
        }
    }
}

/// What a client makes of a message.
///
/// ```
/// use renju::feed::{Client, Message};
///
/// let mut client = Client::new(7);
/// let taken = client.take(Message { game: 7, number: 1, code: 112 });
/// assert_eq!((taken.refusal, taken.answer.count), (None, 1));
/// ```
#[derive(Clone, Copy, Debug, PartialEq, Eq, Hash)]
pub struct Taken {
    /// Why it was not taken, if it was not: 17, 18, 8 or 14.
    pub refusal: Option<Refusal>,
    /// The client's answer, after it.
    pub answer: Answer,
}

/// The moves of a game that somebody holds: at most 225 codes of points.
#[derive(Clone, Copy, PartialEq, Eq, Hash)]
struct Held {
    game: u32,
    // The codes of the moves, then zeros.
    codes: [u8; MOVES],
    count: u16,
}

impl Held {
    const fn new(game: u32) -> Self {
        Self {
            game,
            codes: [0; MOVES],
            count: 0,
        }
    }

    fn take(&mut self, message: Message) -> Result<(), Refusal> {
        let Message { game, number, code } = message;
        let held = (self.game, self.count);
        let word = renju_feed_take(held.0, &mut self.codes, held.1, game, number, code);
        self.count = answer(word)?;
        Ok(())
    }

    fn as_codes(&self) -> &[u8] {
        front(&self.codes, self.count)
    }

    fn cells(&self) -> Cells {
        let mut cells = Cells::new();
        let colours = [Colour::Black, Colour::White].into_iter().cycle();
        for (&code, colour) in self.as_codes().iter().zip(colours) {
            cells.put(Point::given(code), colour);
        }
        cells
    }
}

/// A thin client: its game number, and the moves of that game that it holds.
///
/// ```
/// use renju::feed::{Client, Message};
/// use renju::Refusal;
///
/// let mut client = Client::new(7);
/// let first = Message { game: 7, number: 1, code: 112 };
/// assert_eq!(client.take(first).refusal, None);
/// // Once more, of another game, no point: nothing changes.
/// assert_eq!(client.take(first).refusal, Some(Refusal::NotNext));
/// let foreign = Message { game: 8, number: 2, code: 0 };
/// assert_eq!(client.take(foreign).refusal, Some(Refusal::ForeignGame));
/// let nowhere = Message { game: 7, number: 2, code: 225 };
/// assert_eq!(client.take(nowhere).refusal, Some(Refusal::Point));
/// assert_eq!(client.as_codes(), [112]);
/// ```
#[derive(Clone, Copy, PartialEq, Eq, Hash)]
pub struct Client {
    held: Held,
}

impl fmt::Debug for Client {
    fn fmt(&self, f: &mut fmt::Formatter<'_>) -> fmt::Result {
        let mut said = f.debug_struct("Client");
        said.field("game", &self.held.game);
        said.field("codes", &self.as_codes()).finish()
    }
}

impl Client {
    /// A client started for a game, empty.
    ///
    /// ```
    /// assert!(renju::feed::Client::new(7).as_codes().is_empty());
    /// ```
    #[must_use]
    pub const fn new(game: u32) -> Self {
        Self {
            held: Held::new(game),
        }
    }

    /// A message arrives: the next move of the client's own game is taken.
    /// Refusals 17 for a foreign game, then 18 for a number that is not next,
    /// then 8, then 14 for a 226th move; none changes the client.
    ///
    /// ```
    /// use renju::feed::{Client, Message};
    ///
    /// let mut client = Client::new(7);
    /// client.take(Message { game: 7, number: 1, code: 112 });
    /// assert_eq!(client.as_codes(), [112]);
    /// ```
    pub fn take(&mut self, message: Message) -> Taken {
        let refusal = self.held.take(message).err();
        Taken {
            refusal,
            answer: self.ask(),
        }
    }

    /// Its answer when it is only asked.
    ///
    /// ```
    /// assert_eq!(renju::feed::Client::new(7).ask().game, 7);
    /// ```
    #[must_use]
    pub const fn ask(&self) -> Answer {
        Answer {
            game: self.held.game,
            count: self.held.count,
        }
    }

    /// The codes of the moves that it holds.
    ///
    /// ```
    /// assert_eq!(renju::feed::Client::new(7).as_codes(), []);
    /// ```
    #[must_use]
    pub fn as_codes(&self) -> &[u8] {
        self.held.as_codes()
    }

    /// The board of the moves that it holds; a point met again is overwritten.
    ///
    /// ```
    /// use renju::Cells;
    ///
    /// assert_eq!(renju::feed::Client::new(7).cells(), Cells::new());
    /// ```
    #[must_use]
    pub fn cells(&self) -> Cells {
        self.held.cells()
    }
}

/// The server of one table: its game number, the moves of that game, and how
/// many of them the client is known to hold.
///
/// ```
/// use renju::feed::{Client, Server};
///
/// let mut server = Server::new(7);
/// server.add(112)?;
/// // The last move is taken back, under a new number.
/// assert_eq!(server.take_back()?, 8);
/// let mut client = Client::new(8);
/// server.hear(client.ask());
/// assert!(server.holds_all());
/// # Ok::<(), renju::Refusal>(())
/// ```
#[derive(Clone, Copy, PartialEq, Eq, Hash)]
pub struct Server {
    held: Held,
    heard: u16,
}

impl fmt::Debug for Server {
    fn fmt(&self, f: &mut fmt::Formatter<'_>) -> fmt::Result {
        let mut said = f.debug_struct("Server");
        said.field("game", &self.game());
        said.field("codes", &self.as_codes());
        said.field("heard", &self.heard).finish()
    }
}

impl Server {
    /// The server of a table where nothing is played.
    ///
    /// ```
    /// assert_eq!(renju::feed::Server::new(7).game(), 7);
    /// ```
    #[must_use]
    pub const fn new(game: u32) -> Self {
        Self {
            held: Held::new(game),
            heard: 0,
        }
    }

    /// Its game number.
    ///
    /// ```
    /// assert_eq!(renju::feed::Server::new(7).game(), 7);
    /// ```
    #[must_use]
    pub const fn game(&self) -> u32 {
        self.held.game
    }

    /// How many moves its game has.
    ///
    /// ```
    /// assert_eq!(renju::feed::Server::new(7).count(), 0);
    /// ```
    #[must_use]
    pub const fn count(&self) -> u16 {
        self.held.count
    }

    /// A move is added.
    ///
    /// # Errors
    ///
    /// Refusal 8 for a code over 224, then 14 for a 226th move.
    ///
    /// ```
    /// use renju::{Refusal, feed::Server};
    ///
    /// let mut server = Server::new(7);
    /// assert_eq!(server.add(112), Ok(()));
    /// assert_eq!(server.add(225), Err(Refusal::Point));
    /// ```
    pub fn add(&mut self, code: u8) -> Result<(), Refusal> {
        // Its own next move, so neither 17 nor 18.
        self.held.take(Message {
            game: self.held.game,
            number: self.held.count + 1,
            code,
        })
    }

    /// The last move is taken back (of an empty game: none), and a new game
    /// number opened, which is given.
    ///
    /// # Errors
    ///
    /// Refusal 17 where there is no number left.
    ///
    /// ```
    /// use renju::{Refusal, feed::Server};
    ///
    /// let mut server = Server::new(7);
    /// server.add(112)?;
    /// assert_eq!(server.take_back(), Ok(8));
    /// assert_eq!((server.game(), server.count()), (8, 0));
    /// assert_eq!(Server::new(u32::MAX).take_back(), Err(Refusal::ForeignGame));
    /// # Ok::<(), Refusal>(())
    /// ```
    pub fn take_back(&mut self) -> Result<u32, Refusal> {
        let game = self.held.game.checked_add(1);
        self.held.game = game.ok_or(Refusal::ForeignGame)?;
        self.held.count = self.held.count.saturating_sub(1);
        // Behind the moves there are zeros.
        if let Some(code) = self.held.codes.get_mut(usize::from(self.held.count)) {
            *code = 0;
        }
        self.heard = 0;
        Ok(self.held.game)
    }

    /// The message of a move, by its number from 1.
    ///
    /// # Errors
    ///
    /// Refusal 18 where the game has no such move.
    ///
    /// ```
    /// use renju::{Refusal, feed::Server};
    ///
    /// let mut server = Server::new(7);
    /// server.add(112)?;
    /// assert_eq!(server.message(1)?.code, 112);
    /// assert_eq!(server.message(0), Err(Refusal::NotNext));
    /// assert_eq!(server.message(2), Err(Refusal::NotNext));
    /// # Ok::<(), Refusal>(())
    /// ```
    pub fn message(&self, number: u16) -> Result<Message, Refusal> {
        let place = number.checked_sub(1).ok_or(Refusal::NotNext)?;
        let code = self.as_codes().get(usize::from(place));
        Ok(Message {
            game: self.held.game,
            number,
            code: *code.ok_or(Refusal::NotNext)?,
        })
    }

    /// An answer is heard: for the server's own game number only, and what was
    /// heard before is not lost. An answer that tells more moves than the game
    /// has is no client's of this game.
    ///
    /// ```
    /// use renju::feed::{Answer, Server};
    ///
    /// let mut server = Server::new(7);
    /// server.add(112)?;
    /// server.hear(Answer { game: 6, count: 1 });
    /// assert!(!server.holds_all());
    /// server.hear(Answer { game: 7, count: 1 });
    /// server.hear(Answer { game: 7, count: 0 });
    /// assert!(server.holds_all());
    /// # Ok::<(), renju::Refusal>(())
    /// ```
    pub fn hear(&mut self, answer: Answer) {
        if answer.game == self.held.game && answer.count <= self.held.count {
            self.heard = self.heard.max(answer.count);
        }
    }

    /// How many moves of its game the client is known to hold: what is behind
    /// them may have to be sent again.
    ///
    /// ```
    /// use renju::feed::{Answer, Server};
    ///
    /// let mut server = Server::new(7);
    /// server.add(112)?;
    /// server.hear(Answer { game: 7, count: 1 });
    /// assert_eq!(server.heard(), 1);
    /// # Ok::<(), renju::Refusal>(())
    /// ```
    #[must_use]
    pub const fn heard(&self) -> u16 {
        self.heard
    }

    /// Whether the client of its game is known to hold all moves.
    ///
    /// ```
    /// assert!(renju::feed::Server::new(7).holds_all());
    /// ```
    #[must_use]
    pub const fn holds_all(&self) -> bool {
        self.heard == self.held.count
    }

    /// The codes of the moves of its game.
    ///
    /// ```
    /// let mut server = renju::feed::Server::new(7);
    /// server.add(112)?;
    /// assert_eq!(server.as_codes(), [112]);
    /// # Ok::<(), renju::Refusal>(())
    /// ```
    #[must_use]
    pub fn as_codes(&self) -> &[u8] {
        self.held.as_codes()
    }

    /// The board of the moves of its game; a point met again is overwritten.
    ///
    /// ```
    /// let mut server = renju::feed::Server::new(7);
    /// server.add(112)?;
    /// assert!(server.cells().stone("H8".parse()?).is_some());
    /// # Ok::<(), renju::Refusal>(())
    /// ```
    #[must_use]
    pub fn cells(&self) -> Cells {
        self.held.cells()
    }
}

/// Two held lists compared as plain bytes: if one begins the other, the
/// caller's own part of the longer that the shorter lacks; of equal lists the
/// empty end of the first.
///
/// # Errors
///
/// Refusal 19 where neither begins the other.
///
/// ```
/// use renju::{Refusal, feed::missing};
///
/// let (held, all) = ([112, 96], [112, 96, 80]);
/// let part = missing(&held, &all)?;
/// assert!(std::ptr::eq(part, &all[2..]));
/// assert_eq!(missing(&held, &[112, 97]), Err(Refusal::ApartLists));
/// # Ok::<(), Refusal>(())
/// ```
pub fn missing<'a>(first: &'a [u8], second: &'a [u8]) -> Result<&'a [u8], Refusal> {
    let longer = answer(renju_feed_missing(first, second))?;
    Ok(lacked(longer, first, second))
}

/// The part of the longer list, the second where the archive said 2, that the shorter lacks.
fn lacked<'a>(longer: u16, first: &'a [u8], second: &'a [u8]) -> &'a [u8] {
    let part = match longer {
        2 => second.get(first.len()..),
        _ => first.get(second.len()..),
    };
    debug_assert!(longer <= 2 && part.is_some(), "the archive gave {longer}");
    part.unwrap_or_default()
}

#[cfg(test)]
mod tests {
    use super::lacked;

    #[test]
    fn the_longer_list_has_the_part() {
        assert_eq!(lacked(0, &[1, 2], &[1, 2]), []);
        assert_eq!(lacked(1, &[1, 2], &[1]), [2]);
        assert_eq!(lacked(2, &[1], &[1, 2, 3]), [2, 3]);
    }

    #[test]
    #[cfg_attr(debug_assertions, should_panic = "the archive gave 1")]
    fn the_shorter_list_has_none() {
        assert_eq!(lacked(1, &[1], &[1, 2]), []);
    }
}
