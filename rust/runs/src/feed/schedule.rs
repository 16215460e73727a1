//! One schedule: a table's server and clients, and the line between them.

use super::plain::{self, Plain};
use super::sides::{Serves, Sides, Thin};
use super::tally::{ADD, ASK, CAUGHT_UP, CLAIMED, EQUAL, FIRST_PART, HEAR, LENT, MESSAGE, MISSING};
use super::tally::{TAKE, TAKE_BACK, Tally, UNCHANGED};
use oracle::boards::Dice;
use renju::feed::{Answer, Message};
use renju::{Point, Refusal};
use std::collections::BTreeMap;

/// How many moves a schedule adds at most.
const MOVES: usize = 60;

/// One run of both sides and of the plain model, over a line that loses, repeats and reorders.
pub struct Schedule<'a> {
    sides: &'a Sides,
    dice: &'a mut Dice,
    tally: &'a mut Tally,
    server: Box<dyn Serves>,
    clients: BTreeMap<u32, Box<dyn Thin>>,
    plain: Plain,
    messages: Vec<Message>,
    answers: Vec<Answer>,
}

impl<'a> Schedule<'a> {
    /// Nothing is played, held or on its way. Now and then few game numbers are left.
    pub fn new(sides: &'a Sides, dice: &'a mut Dice, tally: &'a mut Tally) -> Self {
        let game = match dice.below(8) {
            0 => u32::MAX - dice.below(3) as u32,
            _ => dice.below(1000) as u32,
        };
        Self {
            sides,
            dice,
            tally,
            server: (sides.server)(game),
            clients: BTreeMap::from([(game, (sides.client)(game))]),
            plain: Plain::new(game),
            messages: Vec::new(),
            answers: Vec::new(),
        }
    }

    /// Plays the schedule to its end.
    pub fn run(&mut self) {
        let moves = self.dice.below(MOVES + 1);
        for _ in 0..moves {
            self.add();
            for _ in 0..self.dice.below(10) {
                self.event();
            }
        }
        self.lists();
        self.compare_lists();
        self.lent();
        self.catch_up();
    }

    /// Something happens on the line, at a client or at the server.
    fn event(&mut self) {
        match self.dice.below(100) {
            0..2 => self.take_back(),
            2..30 => self.send(),
            30..35 => drop(lose(&mut self.messages, self.dice)),
            35..40 => repeat(&mut self.messages, self.dice),
            40..70 => self.arrive(),
            70..75 => self.ask(),
            75..78 => drop(lose(&mut self.answers, self.dice)),
            78..82 => repeat(&mut self.answers, self.dice),
            _ => self.hear(),
        }
    }

    fn add(&mut self) {
        let code = match self.dice.below(50) {
            0 => 225 + self.dice.below(31) as u8,
            _ => self.dice.below(225) as u8,
        };
        let before = self.server.codes().to_vec();
        let (must, got) = (self.plain.add(code), self.server.add(code));
        let same = must == got && self.server.codes() == self.plain.list();
        self.tally
            .hold(ADD, must, same, || format!("{code}: {must}, got {got}"));
        if must != 0 {
            let kept = self.server.codes() == before;
            self.tally
                .hold(UNCHANGED, must, kept, || format!("add {code}"));
        }
        self.claims();
    }

    fn take_back(&mut self) {
        let (must, got) = (self.plain.take_back(), self.server.take_back());
        let same = must == got
            && self.server.game() == self.plain.game
            && self.server.codes() == self.plain.list();
        self.tally
            .hold(TAKE_BACK, must, same, || format!("{must}, got {got}"));
        let start = self.sides.client;
        let game = self.plain.game;
        self.clients.entry(game).or_insert_with(|| start(game));
        self.claims();
    }

    /// The message of some move, most often of one that there is.
    fn send(&mut self) {
        let number = self.dice.below(self.plain.list().len() + 2) as u16;
        let (must, got) = (self.plain.message(number), self.server.message(number));
        let refused = must.err().unwrap_or(0);
        self.tally.hold(MESSAGE, refused, must == got, || {
            format!("{number}: {must:?}, got {got:?}")
        });
        self.messages.extend(must);
    }

    /// A game whose client there is: most often the present one.
    fn some_game(&mut self) -> u32 {
        match self.dice.below(6) {
            0 => {
                let games: Vec<u32> = self.clients.keys().copied().collect();
                self.dice.pick(&games)
            }
            _ => self.plain.game,
        }
    }

    fn arrive(&mut self) {
        let game = self.some_game();
        if let Some(message) = lose(&mut self.messages, self.dice) {
            let answer = self.take(game, message);
            self.answers.push(answer);
        }
    }

    /// A message at the client of a game, and its answer.
    fn take(&mut self, game: u32, message: Message) -> Answer {
        let client = self.clients.get_mut(&game).expect("a client");
        let before = client.codes().to_vec();
        let must = (self.plain.take(game, message), self.plain.ask(game));
        let got = client.take(message);
        let held = client.codes();
        let same = must == got && held == self.plain.held[&game];
        self.tally.hold(TAKE, must.0, same, || {
            format!("{message:?} at {game}, {before:?}: {must:?}, got {got:?}, {held:?}")
        });
        let first = self.plain.lists[&game].starts_with(held);
        self.tally.hold(FIRST_PART, 0, first, || {
            format!("game {game} holds {held:?}")
        });
        if must.0 != 0 {
            let kept = held == before;
            self.tally.hold(UNCHANGED, must.0, kept, || {
                format!("{message:?} at {game}, {before:?}, then {held:?}")
            });
        }
        got.1
    }

    fn ask(&mut self) {
        let game = self.some_game();
        let (must, got) = (self.plain.ask(game), self.clients[&game].ask());
        self.tally
            .hold(ASK, 0, must == got, || format!("{must:?}, got {got:?}"));
        self.answers.push(got);
    }

    fn hear(&mut self) {
        if let Some(answer) = lose(&mut self.answers, self.dice) {
            self.heard(answer);
        }
    }

    fn heard(&mut self, answer: Answer) {
        self.plain.hear(answer);
        self.server.hear(answer);
        let (must, got) = (self.plain.holds_all(), self.server.holds_all());
        self.tally.hold(HEAR, 0, must == got, || {
            format!("{answer:?}: holds all {must}, got {got}")
        });
        self.claims();
        if self.server.holds_all() && self.dice.below(8) == 0 {
            self.agree();
        }
    }

    /// Where the server says that the client holds all, it does, whatever was heard when.
    fn claims(&mut self) {
        if !self.server.holds_all() {
            return;
        }
        let held = self.clients[&self.plain.game].codes();
        let all = self.server.codes();
        self.tally.hold(CLAIMED, 0, held == all, || {
            format!("it says that all of {all:?} is held, not {held:?}")
        });
    }

    /// Both lists, both boards, both forbidden lists, and the verdicts at some point are equal.
    fn agree(&mut self) {
        let client = &self.clients[&self.plain.game];
        let (ours, theirs) = (self.server.cells(), client.cells());
        let point = Point::from_code(self.dice.below(225) as u8).expect("a point");
        let verdicts =
            [ours, theirs].map(|cells| (cells.verdict(point), cells.plain_verdict(point)));
        let same = self.server.codes() == client.codes()
            && ours == theirs
            && ours.forbidden_points() == theirs.forbidden_points()
            && verdicts[0] == verdicts[1];
        self.tally.hold(EQUAL, 0, same, || {
            format!("{:?} and {:?}", self.server.codes(), client.codes())
        });
    }

    /// Every client holds the first part of the server's list of its game.
    fn lists(&mut self) {
        for (game, client) in &self.clients {
            let (held, list) = (client.codes(), &self.plain.lists[game]);
            let first = list.starts_with(held) && held == self.plain.held[game];
            self.tally.hold(FIRST_PART, 0, first, || {
                format!("game {game}: {held:?} of {list:?}")
            });
        }
    }

    /// What the client of some game holds, compared with the list of some game, and with a list
    /// that was changed.
    fn compare_lists(&mut self) {
        let (one, other) = (self.some_game(), self.some_game());
        let held = self.clients[&one].codes().to_vec();
        let mut list = self.plain.lists[&other].clone();
        for _ in 0..2 {
            for (first, second) in [(&held, &list), (&list, &held)] {
                let must = plain::missing(first, second);
                let got = (self.sides.missing)(first, second);
                let part = renju::feed::missing(first, second);
                let lies = part.map_err(Refusal::number) == part_of(first, second);
                self.tally
                    .hold(MISSING, (must >> 16) as u16, must == got && lies, || {
                        format!("{first:?}, {second:?}: {must}, got {got}")
                    });
            }
            if list.is_empty() {
                return;
            }
            let place = self.dice.below(list.len());
            list[place] ^= 1;
        }
    }

    /// The function as it is, with any numbers, a list of any length, and bytes of guard behind it.
    fn lent(&mut self) {
        let (game, of_game) = (self.dice.below(2) as u32, self.dice.below(2) as u32);
        let count = self.dice.pick(&[0, 1, 2, 224, 225, 226, 300, u16::MAX]);
        let number = count.wrapping_add(self.dice.pick(&[0, 1, 1, 1, 2]));
        let code = self.dice.pick(&[0, 112, 224, 225, 255]);
        let length = self.dice.pick(&[0, 1, 2, 3, 224, 225, 226, 400]);
        let mut bytes = vec![0xa5; length + 8];
        let mut must_bytes = bytes.clone();
        let message = Message {
            game: of_game,
            number,
            code,
        };
        let mut refused = plain::take_refusal(game, count.into(), message);
        if refused == 0 && length <= usize::from(count) {
            refused = 13;
        }
        let mut must = u32::from(refused) << 16;
        if refused == 0 {
            must = u32::from(count) + 1;
            must_bytes[usize::from(count)] = code;
        }
        let take = self.sides.take;
        let got = take(game, &mut bytes[..length], count, of_game, number, code);
        let same = must == got && bytes == must_bytes;
        self.tally.hold(LENT, refused, same, || {
            format!("{game} {length} {count} {message:?}: {must}, got {got}")
        });
    }

    /// The client of the present game is sent what it lacks, in order, whatever else arrives in
    /// between; then it tells, and old answers come after.
    fn catch_up(&mut self) {
        let game = self.plain.game;
        let lacks = self.plain.held[&game].len()..self.plain.list().len();
        for place in lacks {
            for _ in 0..self.dice.below(3) {
                self.arrive();
            }
            if let Ok(message) = self.server.message(place as u16 + 1) {
                self.take(game, message);
            }
        }
        let (held, all) = (self.clients[&game].codes(), self.plain.list());
        self.tally
            .hold(CAUGHT_UP, 0, held == all, || format!("{held:?} of {all:?}"));
        self.heard(self.clients[&game].ask());
        for _ in 0..self.dice.below(6) {
            self.hear();
        }
        let all = self.server.holds_all();
        self.tally
            .hold(EQUAL, 0, all, || "the full count was heard".to_owned());
        self.agree();
    }
}

/// The part that the shorter of two lists lacks, or 19.
fn part_of<'a>(first: &'a [u8], second: &'a [u8]) -> Result<&'a [u8], u16> {
    first
        .strip_prefix(second)
        .or_else(|| second.strip_prefix(first))
        .ok_or(19)
}

/// Something that is on its way comes off it.
fn lose<T>(line: &mut Vec<T>, dice: &mut Dice) -> Option<T> {
    match line.len() {
        0 => None,
        some => Some(line.swap_remove(dice.below(some))),
    }
}

/// .. or is there once more.
fn repeat<T: Copy>(line: &mut Vec<T>, dice: &mut Dice) {
    if !line.is_empty() {
        line.push(dice.pick(line));
    }
}
