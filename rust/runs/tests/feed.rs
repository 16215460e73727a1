//! The run over the move feed: that it is clean, that it meets every refusal, and that it finds
//! what it is to find, on clients, servers and functions made wrong.

use renju::Cells;
use renju::feed::{Answer, Client, Message, Server};
use renju::raw::{renju_feed_missing, renju_feed_take};
use runs::feed::run;
use runs::feed::sides::{OURS, Serves, Sides, Thin};
use runs::feed::tally::NAMES;
use std::process::Command;

#[test]
fn schedules() {
    let tally = run(&OURS, 3_000, 1);
    assert_eq!(tally.status(), 0, "{}", tally.report());
    let met = tally.counts.each_ref().map(|count| {
        let times = count.refusals.iter().enumerate();
        let met: Vec<usize> = times.filter(|(_, n)| **n > 0).map(|(at, _)| at).collect();
        met
    });
    assert_eq!(met[0], [0, 8]);
    assert_eq!(met[1], [0, 17]);
    assert_eq!(met[2], [0, 18]);
    assert_eq!(met[3], [0, 17, 18]);
    assert_eq!(met[6], [0, 8, 13, 14, 17, 18]);
    assert_eq!(met[7], [0, 19]);
    assert!(tally.counts.iter().all(|count| count.comparisons > 0));
}

/// The names in which the sides are found to be wrong.
fn found(sides: &Sides) -> Vec<&'static str> {
    let tally = run(sides, 300, 2);
    assert_eq!(tally.status(), 1);
    assert!(tally.report().starts_with("difference in "));
    let counts = NAMES.into_iter().zip(&tally.counts);
    counts
        .filter(|(_, count)| count.differences > 0)
        .map(|(name, _)| name)
        .collect()
}

/// A client that is wrong in one way.
struct Wrong {
    client: Client,
    game: u32,
    heard: fn(&mut Client, u32, Message) -> (u16, Answer),
    told: u16,
}

impl Thin for Wrong {
    fn take(&mut self, message: Message) -> (u16, Answer) {
        let (refused, answer) = (self.heard)(&mut self.client, self.game, message);
        let count = answer.count + self.told;
        (refused, Answer { count, ..answer })
    }

    fn ask(&self) -> Answer {
        let answer = self.client.ask();
        let count = answer.count + self.told;
        Answer { count, ..answer }
    }

    fn codes(&self) -> &[u8] {
        self.client.as_codes()
    }

    fn cells(&self) -> Cells {
        self.client.cells()
    }
}

fn wrong(
    game: u32,
    heard: fn(&mut Client, u32, Message) -> (u16, Answer),
    told: u16,
) -> Box<dyn Thin> {
    let client = Client::new(game);
    Box::new(Wrong {
        client,
        game,
        heard,
        told,
    })
}

fn as_it_is(client: &mut Client, _: u32, message: Message) -> (u16, Answer) {
    Thin::take(client, message)
}

/// A move that is held already is taken once more.
fn twice(client: &mut Client, _: u32, message: Message) -> (u16, Answer) {
    let count = client.ask().count;
    let number = match message.number <= count {
        true => count + 1,
        false => message.number,
    };
    Thin::take(client, Message { number, ..message })
}

/// A move of another game is taken.
fn any_game(client: &mut Client, game: u32, message: Message) -> (u16, Answer) {
    Thin::take(client, Message { game, ..message })
}

/// 18 is given before 17.
fn eighteen_first(client: &mut Client, _: u32, message: Message) -> (u16, Answer) {
    match Thin::take(client, message) {
        (17, answer) if message.number != answer.count + 1 => (18, answer),
        taken => taken,
    }
}

#[test]
fn wrong_clients_are_found() {
    let client = |game| wrong(game, twice, 0);
    let names = found(&Sides { client, ..OURS });
    assert!(names.contains(&"take"), "{names:?}");
    assert!(names.contains(&"1 the list is the first part"), "{names:?}");

    let client = |game| wrong(game, any_game, 0);
    let names = found(&Sides { client, ..OURS });
    assert!(names.contains(&"take"), "{names:?}");
    assert!(names.contains(&"4 a refusal changes nothing"), "{names:?}");

    let client = |game| wrong(game, as_it_is, 1);
    let names = found(&Sides { client, ..OURS });
    assert!(names.contains(&"ask"), "{names:?}");
    assert!(names.contains(&"5 no answer claims too much"), "{names:?}");

    let client = |game| wrong(game, eighteen_first, 0);
    assert_eq!(found(&Sides { client, ..OURS }), ["take"]);
}

/// A server that is wrong in one way: it hears answers of any game, or keeps its number.
struct WrongServer {
    server: Server,
    any: bool,
}

impl Serves for WrongServer {
    fn add(&mut self, code: u8) -> u16 {
        Serves::add(&mut self.server, code)
    }

    fn take_back(&mut self) -> u16 {
        match self.any {
            true => Serves::take_back(&mut self.server),
            false => 0,
        }
    }

    fn message(&self, number: u16) -> Result<Message, u16> {
        Serves::message(&self.server, number)
    }

    fn hear(&mut self, answer: Answer) {
        let game = match self.any {
            true => self.server.game(),
            false => answer.game,
        };
        self.server.hear(Answer { game, ..answer });
    }

    fn holds_all(&self) -> bool {
        self.server.holds_all()
    }

    fn game(&self) -> u32 {
        self.server.game()
    }

    fn codes(&self) -> &[u8] {
        self.server.as_codes()
    }

    fn cells(&self) -> Cells {
        self.server.cells()
    }
}

#[test]
fn wrong_servers_are_found() {
    let server = |game| -> Box<dyn Serves> {
        let server = Server::new(game);
        Box::new(WrongServer { server, any: true })
    };
    let names = found(&Sides { server, ..OURS });
    assert!(names.contains(&"hear"), "{names:?}");
    assert!(names.contains(&"5 no answer claims too much"), "{names:?}");

    let server = |game| -> Box<dyn Serves> {
        let server = Server::new(game);
        Box::new(WrongServer { server, any: false })
    };
    let names = found(&Sides { server, ..OURS });
    assert!(names.contains(&"take_back"), "{names:?}");
}

#[test]
fn wrong_functions_are_found() {
    // A byte behind the list is written.
    let take = |game, held: &mut [u8], count, of_game, number, code| {
        let word = renju_feed_take(game, held, count, of_game, number, code);
        if word >= 65536 && !held.is_empty() {
            held[0] = 0;
        }
        word
    };
    assert_eq!(found(&Sides { take, ..OURS }), ["renju_feed_take"]);

    // The second is said to be longer where the first is.
    let missing = |first: &[u8], second: &[u8]| renju_feed_missing(second, first);
    assert_eq!(found(&Sides { missing, ..OURS }), ["renju_feed_missing"]);
}

#[test]
fn the_program() {
    let program = env!("CARGO_BIN_EXE_feed");
    let output = Command::new(program).args(["200", "3"]).output().unwrap();
    assert!(output.status.success());
    let text = String::from_utf8(output.stdout).unwrap();
    assert!(text.contains("200 schedules"), "{text}");
    assert!(text.ends_with(" 0 differences\n"), "{text}");
    let output = Command::new(program).arg("many").output().unwrap();
    assert_eq!(output.status.code(), Some(2));
}
