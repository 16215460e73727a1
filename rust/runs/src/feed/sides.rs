//! The two sides of the feed that a run asks: ours, or wrong ones.

use renju::feed::{Answer, Client, Message, Server};
use renju::raw::{renju_feed_missing, renju_feed_take};
use renju::{Cells, Refusal};

/// A client; 0 for what is not refused.
pub trait Thin {
    /// Takes a message; the refusal (0: none), and the answer.
    fn take(&mut self, message: Message) -> (u16, Answer);
    /// What it holds, as an answer.
    fn ask(&self) -> Answer;
    /// The moves that it holds.
    fn codes(&self) -> &[u8];
    /// Its board.
    fn cells(&self) -> Cells;
}

/// A server.
pub trait Serves {
    /// Adds a move; the refusal (0: none).
    fn add(&mut self, code: u8) -> u16;
    /// Takes the last move back; the refusal (0: none).
    fn take_back(&mut self) -> u16;
    /// The message of a move, by its number, or the refusal.
    fn message(&self, number: u16) -> Result<Message, u16>;
    /// Hears an answer.
    fn hear(&mut self, answer: Answer);
    /// Whether it has heard that the client holds all.
    fn holds_all(&self) -> bool;
    /// The number of its game.
    fn game(&self) -> u32;
    /// Its game's moves.
    fn codes(&self) -> &[u8];
    /// Its board.
    fn cells(&self) -> Cells;
}

/// Both, each started with a game number, and the two functions as they are.
pub struct Sides {
    pub client: fn(u32) -> Box<dyn Thin>,
    pub server: fn(u32) -> Box<dyn Serves>,
    pub take: fn(u32, &mut [u8], u16, u32, u16, u8) -> u32,
    pub missing: fn(&[u8], &[u8]) -> u32,
}

/// Those of the crate, and of the host interface.
pub const OURS: Sides = Sides {
    client: |game| Box::new(Client::new(game)),
    server: |game| Box::new(Server::new(game)),
    take: renju_feed_take,
    missing: renju_feed_missing,
};

fn number(refusal: Option<Refusal>) -> u16 {
    refusal.map_or(0, Refusal::number)
}

impl Thin for Client {
    fn take(&mut self, message: Message) -> (u16, Answer) {
        let taken = self.take(message);
        (number(taken.refusal), taken.answer)
    }

    fn ask(&self) -> Answer {
        self.ask()
    }

    fn codes(&self) -> &[u8] {
        self.as_codes()
    }

    fn cells(&self) -> Cells {
        self.cells()
    }
}

impl Serves for Server {
    fn add(&mut self, code: u8) -> u16 {
        number(self.add(code).err())
    }

    fn take_back(&mut self) -> u16 {
        number(self.take_back().err())
    }

    fn message(&self, number: u16) -> Result<Message, u16> {
        self.message(number).map_err(Refusal::number)
    }

    fn hear(&mut self, answer: Answer) {
        self.hear(answer);
    }

    fn holds_all(&self) -> bool {
        self.holds_all()
    }

    fn game(&self) -> u32 {
        self.game()
    }

    fn codes(&self) -> &[u8] {
        self.as_codes()
    }

    fn cells(&self) -> Cells {
        self.cells()
    }
}
