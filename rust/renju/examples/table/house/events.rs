//! One page at the table: its seat, its own server of the move feed, and what it is sent, as server-sent events over its line.
//!
//! Each page has a server and a client of its own, so that what is proved of such a pair holds for every page: whatever the line does,
//! the page's list is the first part of the table's.

use crate::house::line::{Line, Tally};
use renju::Colour;
use renju::feed::{Answer, Server};
use std::time::{Duration, Instant};

/// What a page may do.
#[derive(Clone, Copy, Debug, PartialEq, Eq)]
pub enum Seat {
    /// Plays one side.
    Player(Colour),
    /// Plays both sides, at one screen.
    Both,
    /// Plays neither.
    Watch,
}

impl Seat {
    /// The seat of a name from outside.
    pub fn named(name: &str) -> Option<Self> {
        Some(match name {
            "black" => Self::Player(Colour::Black),
            "white" => Self::Player(Colour::White),
            "both" => Self::Both,
            "watch" => Self::Watch,
            _ => return None,
        })
    }

    /// Whether it may play a colour's move.
    pub fn plays(self, colour: Colour) -> bool {
        match self {
            Self::Player(own) => own == colour,
            Self::Both => true,
            Self::Watch => false,
        }
    }
}

/// How many moves behind those that the page is known to hold are on the line at once.
const WINDOW: u16 = 8;

/// When what was not heard of is sent again.
const AGAIN: Duration = Duration::from_millis(400);

/// How often a poor line hands something over.
const STEP: Duration = Duration::from_millis(60);

/// How often a page that needs nothing gets a sign: so that it is known when it has gone.
const SIGN: Duration = Duration::from_secs(2);

pub struct Page {
    pub number: u32,
    pub seat: Seat,
    /// What the page is sent, and what it is known to hold.
    pub server: Server,
    pub line: Line<String>,
    /// The last move that was put on the line, unless it is time to begin again behind those that were heard of.
    sent: u16,
    /// Whether the page has said the present game number.
    told: bool,
    /// When to begin again.
    again: Instant,
    /// When a poor line next hands something over.
    step: Instant,
    /// The panel that it was shown last, and what the line had done by then.
    panel: (u64, Tally),
}

impl Page {
    pub fn new(number: u32, seat: Seat, server: Server, seed: u64, now: Instant) -> Self {
        Self {
            number,
            seat,
            server,
            line: Line::new(seed),
            sent: 0,
            // The greeting has the number.
            told: true,
            again: now,
            step: now,
            panel: (0, Tally::default()),
        }
    }

    /// A takeback: a new game number, of which the page has to be told.
    pub fn open(&mut self, server: Server, now: Instant) {
        self.server = server;
        (self.sent, self.told, self.again) = (0, false, now);
    }

    /// An answer comes back over the line; a page that asks is sent at once what it lacks, unless something is on its way to it.
    pub fn hear(&mut self, answer: Answer, asks: bool, now: Instant) {
        if !self.line.passes() {
            return;
        }
        self.server.hear(answer);
        self.told |= answer.game == self.server.game();
        if asks && self.line.is_empty() {
            self.again = now;
        }
    }

    /// Puts on the line what the page is not known to hold: each move once, and again when it was not heard of for long.
    fn send(&mut self, shown: &[String], now: Instant) {
        let all = self.told && self.server.holds_all();
        if !all && now >= self.again {
            self.sent = self.server.heard();
            self.again = now + AGAIN;
            if !self.told {
                self.line
                    .put(event("game", &self.server.game().to_string()));
            }
        }
        let last = self.server.count().min(self.server.heard() + WINDOW);
        for number in self.sent + 1..=last {
            let shown = shown.get(usize::from(number) - 1);
            let (Ok(message), Some(shown)) = (self.server.message(number), shown) else {
                return;
            };
            let message = hex(&message.to_bytes());
            self.line.put(event(
                "move",
                &format!("{{\"message\":\"{message}\",{shown}}}"),
            ));
            self.again = now + AGAIN;
        }
        self.sent = self.sent.max(last);
    }

    /// What the page is sent of the feed now: what comes off its line.
    pub fn arrive(&mut self, shown: &[String], now: Instant) -> String {
        self.send(shown, now);
        if self.line.poor && now < self.step {
            return String::new();
        }
        self.step = now + STEP;
        self.line.arrive().concat()
    }

    /// Whether the page lacks the panel after so many changes; it is sent past the line, and is no part of the feed.
    pub fn lacks_panel(&self, changes: u64) -> bool {
        self.panel != (changes, self.line.tally)
    }

    pub fn show_panel(&mut self, changes: u64, members: &str) -> String {
        self.panel = (changes, self.line.tally);
        event("panel", &format!("{{{members},{}}}", self.line_json()))
    }

    fn line_json(&self) -> String {
        let (poor, tally) = (self.line.poor, self.line.tally);
        format!(
            "\"poor\":{poor},\"lost\":{},\"repeated\":{},\"reordered\":{}",
            tally.lost, tally.repeated, tally.reordered
        )
    }

    /// How long the page can be left alone, if nothing happens at the table.
    pub fn rest(&self) -> Duration {
        if !self.line.is_empty() {
            STEP
        } else if self.told && self.server.holds_all() {
            SIGN
        } else {
            AGAIN / 4
        }
    }
}

/// A server-sent event; its data has no line's end in it.
pub fn event(name: &str, data: &str) -> String {
    format!("event: {name}\ndata: {data}\n\n")
}

/// Two digits of base 16 for each byte.
pub fn hex(bytes: &[u8]) -> String {
    bytes.iter().map(|byte| format!("{byte:02x}")).collect()
}
