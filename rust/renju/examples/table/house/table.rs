//! What the table's lock guards: the game, the list that is fed to the pages, the pages, and how long the referee took.

use crate::house::events::{Page, Seat, event};
use crate::house::times::Times;
use renju::feed::{Answer, Client, Message, Server};
use renju::{Cells, Colour, Game, Illegal, Kind, Point, Refusal, Verdict, View};
use std::time::{Duration, Instant};

/// How many pages there may be.
pub const PAGES: usize = 16;

/// Another referee beside this one: on a board before a move it asks whether the move is forbidden, puts it, and lists the crosses.
pub type Other = fn(cells: &Cells, point: Point, colour: Colour) -> Beside;

/// What another referee said, and how long it took.
pub struct Beside {
    pub held: Duration,
    /// Kind and code of each cross.
    pub crosses: Vec<(u8, u8)>,
}

/// Why a tap is no move.
#[derive(Clone, Copy, Debug, PartialEq, Eq)]
pub enum No {
    /// There is no such page.
    Unknown,
    /// It is no next move of this game: 17, 18, 8 or 14.
    Refused(Refusal),
    /// The page only watches.
    Watching,
    /// It is the turn of a side that the page does not play.
    Turn(Colour),
    /// The referee says why.
    Illegal(Point, Illegal),
}

impl No {
    /// `"why":"..","kind":1,"code":112`, the last two where the point is forbidden.
    pub fn to_json(self) -> String {
        let why = match self {
            Self::Unknown => "this page is not at the table".to_owned(),
            Self::Refused(refusal) => refusal.to_string(),
            Self::Watching => "this page only watches".to_owned(),
            Self::Turn(colour) => format!("{colour} is to move"),
            Self::Illegal(point, Illegal::Forbidden(kind)) => {
                format!("{point} is forbidden to Black: {}", in_words(kind))
            }
            Self::Illegal(point, Illegal::Occupied) => format!("{point} is occupied"),
            Self::Illegal(_, Illegal::Over(colour)) => {
                format!("the game is over: {colour} has won")
            }
        };
        match self {
            Self::Illegal(point, Illegal::Forbidden(kind)) => {
                format!(
                    "\"why\":\"{why}\",\"kind\":{},\"code\":{}",
                    kind.number(),
                    point.code()
                )
            }
            _ => format!("\"why\":\"{why}\""),
        }
    }
}

/// A kind as players say it.
pub const fn in_words(kind: Verdict) -> &'static str {
    match kind {
        Verdict::None => "no fault",
        Verdict::DoubleThree => "double three",
        Verdict::DoubleFour => "double four",
        Verdict::Overline => "overline",
    }
}

pub struct Table {
    pub game: Game,
    /// The moves of the game, as they are fed: each page has a copy of its own.
    server: Server,
    /// The same moves as a client holds them: a tap is the next message to it, or refused.
    list: Client,
    /// What is shown with each move.
    shown: Vec<String>,
    pages: Vec<Page>,
    /// The pages that ever came.
    came: u32,
    seed: u64,
    other: Option<Other>,
    ours: Times,
    others: Times,
    /// Lists of crosses that the other referee gave too, and those that it gave otherwise.
    compared: [u32; 2],
    /// One more for each change that a panel shows.
    changes: u64,
}

impl Table {
    pub fn new(seed: u64, other: Option<Other>) -> Self {
        Self {
            game: Game::new(),
            server: Server::new(1),
            list: Client::new(1),
            shown: Vec::new(),
            pages: Vec::new(),
            came: 0,
            seed,
            other,
            ours: Times::default(),
            others: Times::default(),
            compared: [0; 2],
            changes: 1,
        }
    }

    /// The server of the feed: the table's game number and its moves.
    pub const fn server(&self) -> &Server {
        &self.server
    }

    /// A page comes, and is greeted with its number and the game's; none where the table is full.
    pub fn sit(&mut self, seat: Seat, now: Instant) -> Option<(u32, String)> {
        if self.pages.len() >= PAGES {
            return None;
        }
        self.came = self.came.checked_add(1)?;
        let seed = self.seed.wrapping_add(self.came.into());
        self.pages
            .push(Page::new(self.came, seat, self.server, seed, now));
        self.changes += 1;
        let greeting = format!("{{\"page\":{},\"game\":{}}}", self.came, self.server.game());
        Some((self.came, event("hello", &greeting)))
    }

    /// A page goes.
    pub fn leave(&mut self, number: u32) {
        self.pages.retain(|page| page.number != number);
        self.changes += 1;
    }

    fn page(&mut self, number: u32) -> Result<&mut Page, No> {
        let mut pages = self.pages.iter_mut();
        pages.find(|page| page.number == number).ok_or(No::Unknown)
    }

    /// A tap, as the message of the move that it would be: where it is the next move of this game, the page's turn and legal, it is played.
    pub fn tap(&mut self, number: u32, message: Message) -> Result<(), No> {
        let seat = self.player(number)?;
        let mut list = self.list;
        if let Some(refusal) = list.take(message).refusal {
            return Err(No::Refused(refusal));
        }
        // The list has taken it, so it is a point.
        let point = Point::from_code(message.code).map_err(No::Refused)?;
        let turn = self.game.to_move();
        if let Some(colour) = turn.filter(|&colour| !seat.plays(colour)) {
            return Err(No::Turn(colour));
        }
        let before = *self.game.cells();
        self.play(point)?;
        self.list = list;
        self.feed(message.code);
        self.compare(&before, point, turn);
        Ok(())
    }

    /// The referee, under the lock, with its time kept: is the move legal, who has won by it, which points are forbidden after it.
    fn play(&mut self, point: Point) -> Result<(), No> {
        let began = Instant::now();
        let played = self.game.play(point);
        let held = began.elapsed();
        played.map_err(|illegal| No::Illegal(point, illegal))?;
        self.ours.keep(held);
        Ok(())
    }

    /// Tells the feeds of a move that was played.
    fn feed(&mut self, code: u8) {
        // The list took the move, so neither feed refuses it: all hold the same.
        let servers = self.pages.iter_mut().map(|page| &mut page.server);
        for server in servers.chain([&mut self.server]) {
            let _ = server.add(code);
        }
        self.shown.push(shown(&self.game));
        self.changes += 1;
    }

    /// Asks the other referee the same, where there is one.
    fn compare(&mut self, before: &Cells, point: Point, turn: Option<Colour>) {
        let (Some(other), Some(colour)) = (self.other, turn) else {
            return;
        };
        let said = other(before, point, colour);
        self.others.keep(said.held);
        let crosses = self.game.crosses().iter();
        let same = crosses
            .map(|cross| (cross.verdict.number(), cross.point.code()))
            .eq(said.crosses);
        let [compared, different] = &mut self.compared;
        *compared = compared.saturating_add(1);
        *different = different.saturating_add(u32::from(!same));
    }

    /// Takes the last move back, under a new game number; refused where there is no number left.
    pub fn take_back(&mut self, number: u32, now: Instant) -> Result<(), No> {
        self.player(number)?;
        self.server.take_back().map_err(No::Refused)?;
        self.game.undo();
        self.shown.pop();
        self.reopen(now);
        Ok(())
    }

    /// A new game: every move is taken back, and at least one number opened.
    pub fn clear(&mut self, number: u32, now: Instant) -> Result<(), No> {
        self.player(number)?;
        self.server.take_back().map_err(No::Refused)?;
        while self.server.count() > 0 {
            self.server.take_back().map_err(No::Refused)?;
        }
        self.game = Game::new();
        self.shown.clear();
        self.reopen(now);
        Ok(())
    }

    /// The seat of a page that may change something.
    fn player(&mut self, number: u32) -> Result<Seat, No> {
        let seat = self.page(number)?.seat;
        if seat == Seat::Watch {
            Err(No::Watching)
        } else {
            Ok(seat)
        }
    }

    /// The feeds begin again with the game number that was opened; the list catches up, as a client does.
    fn reopen(&mut self, now: Instant) {
        self.list = Client::new(self.server.game());
        for number in 1..=self.server.count() {
            if let Ok(message) = self.server.message(number) {
                self.list.take(message);
            }
        }
        for page in &mut self.pages {
            page.open(self.server, now);
        }
        self.changes += 1;
    }

    /// A page says what it holds, and perhaps asks for what it lacks.
    pub fn hear(
        &mut self,
        number: u32,
        answer: Answer,
        asks: bool,
        now: Instant,
    ) -> Result<(), No> {
        self.page(number)?.hear(answer, asks, now);
        Ok(())
    }

    /// Switches a page's line to a poor one, or back.
    pub fn set_line(&mut self, number: u32, poor: bool) -> Result<(), No> {
        self.page(number)?.line.poor = poor;
        self.changes += 1;
        Ok(())
    }

    /// What is written to a page now, and how long it can then be left alone; none where it has gone.
    pub fn events(&mut self, number: u32, now: Instant) -> Option<(String, Duration)> {
        let changes = self.changes;
        let place = self.pages.iter().position(|page| page.number == number)?;
        let page = self.pages.get_mut(place)?;
        let mut text = page.arrive(&self.shown, now);
        let rest = page.rest();
        if page.lacks_panel(changes) {
            let members = self.panel();
            text += &self.pages.get_mut(place)?.show_panel(changes, &members);
        }
        Some((text, rest))
    }

    /// What every panel shows.
    fn panel(&self) -> String {
        let [compared, different] = self.compared;
        let others = self
            .other
            .map_or("null".to_owned(), |_| self.others.to_json());
        format!(
            "\"game\":{},\"count\":{},\"pages\":{},\"ours\":{},\"original\":{others},\"compared\":{compared},\"different\":{different}",
            self.server().game(),
            self.server().count(),
            self.pages.len(),
            self.ours.to_json(),
        )
    }

    /// The game for storing, in a page's view.
    pub fn record(&self, view: View) -> Vec<u8> {
        self.game.to_record(view).to_bytes().to_vec()
    }
}

/// What a page shows with the last move: who has won, and by which stones, the crosses and the caption. A thin client works out none of it.
fn shown(game: &Game) -> String {
    let crosses = game.crosses().iter();
    let crosses: Vec<String> = crosses
        .map(|cross| format!("[{},{}]", cross.verdict.number(), cross.point.code()))
        .collect();
    let five = game
        .winner()
        .map(|colour| game.cells().rows(colour, Kind::Five));
    let mut stones: Vec<u8> = five
        .iter()
        .flatten()
        .flat_map(|row| row.stones())
        .map(Point::code)
        .collect();
    stones.sort_unstable();
    stones.dedup();
    let winner = game.winner().map_or(0, Colour::number);
    let (crosses, caption) = (crosses.join(","), game.counts());
    format!(
        "\"winner\":{winner},\"five\":{stones:?},\"crosses\":[{crosses}],\"caption\":\"{caption}\""
    )
}
