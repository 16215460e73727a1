//! A server and a thin client over a channel that loses, repeats and reorders: `feed [SEED]`. A
//! game of 40 moves is played with two takebacks, the server sends what the client is not known to
//! hold, and both boards are drawn at the end, with how many messages it took.

use dice::Dice;
use renju::feed::{Answer, Client, Message, Server};
use renju::{CELLS, Cells, Refusal};
use std::process::ExitCode;

#[path = "table/house/dice.rs"]
mod dice;

/// One way of the line. What is put on it comes off it in any order, now and then twice, now and
/// then never. Only bytes travel.
struct Channel<const N: usize> {
    on_the_way: Vec<[u8; N]>,
    put: usize,
    lost: usize,
    repeated: usize,
}

impl<const N: usize> Channel<N> {
    fn new() -> Self {
        let on_the_way = Vec::new();
        Self {
            on_the_way,
            put: 0,
            lost: 0,
            repeated: 0,
        }
    }

    fn put(&mut self, bytes: [u8; N]) {
        self.put += 1;
        self.on_the_way.push(bytes);
    }

    /// What arrives next, if anything does.
    fn next(&mut self, dice: &mut Dice) -> Option<[u8; N]> {
        if self.on_the_way.is_empty() {
            return None;
        }
        let place = dice.below(self.on_the_way.len());
        match dice.below(10) {
            0..3 => {
                self.on_the_way.swap_remove(place);
                self.lost += 1;
                None
            }
            3..5 => {
                self.repeated += 1;
                Some(self.on_the_way[place])
            }
            _ => Some(self.on_the_way.swap_remove(place)),
        }
    }
}

/// Both ends and both ways of the line.
struct Table {
    server: Server,
    client: Client,
    messages: Channel<7>,
    answers: Channel<6>,
    taken: usize,
    refused: usize,
}

impl Table {
    /// One round: the server sends the next moves behind those that the client is known to hold,
    /// or has it asked, and something comes off the line, both ways.
    fn round(&mut self, dice: &mut Dice) -> Result<(), Refusal> {
        let known = self.server.heard();
        for number in known + 1..=self.server.count().min(known + 3) {
            self.messages.put(self.server.message(number)?.to_bytes());
        }
        if dice.below(4) == 0 {
            self.answers.put(self.client.ask().to_bytes());
        }
        for _ in 0..4 {
            if let Some(bytes) = self.messages.next(dice) {
                let taken = self.client.take(Message::from_bytes(bytes));
                self.taken += usize::from(taken.refusal.is_none());
                self.refused += usize::from(taken.refusal.is_some());
                self.answers.put(taken.answer.to_bytes());
            }
            if let Some(bytes) = self.answers.next(dice) {
                self.server.hear(Answer::from_bytes(bytes));
            }
        }
        Ok(())
    }
}

/// A move on a point that is free.
fn play_on(server: &mut Server, dice: &mut Dice) -> Result<(), Refusal> {
    let mut code = dice.below(CELLS) as u8;
    while server.as_codes().contains(&code) {
        code = dice.below(CELLS) as u8;
    }
    server.add(code)
}

/// Plays 40 moves, with a takeback after 15 and one after 30, and goes on until the server knows
/// that the client holds all.
fn play(seed: u64) -> Result<Table, Refusal> {
    let mut dice = Dice::new(seed);
    let mut table = Table {
        server: Server::new(1),
        client: Client::new(1),
        messages: Channel::new(),
        answers: Channel::new(),
        taken: 0,
        refused: 0,
    };
    let mut takebacks = [15, 30].into_iter().peekable();
    while table.server.count() < 40 || !table.server.holds_all() {
        if table.server.count() < 40 {
            play_on(&mut table.server, &mut dice)?;
        }
        if takebacks.next_if_eq(&table.server.count()).is_some() {
            // A new game number, and a client that is started for it, once.
            table.client = Client::new(table.server.take_back()?);
        }
        table.round(&mut dice)?;
    }
    Ok(table)
}

/// Two boards side by side.
fn draw(left: &Cells, right: &Cells) {
    println!("{:32}client", "server");
    let (left, right) = (left.to_string(), right.to_string());
    for (one, other) in left.lines().zip(right.lines()) {
        println!("{one:32}{other}");
    }
}

fn main() -> ExitCode {
    let seed = match std::env::args().nth(1).map(|seed| seed.parse()) {
        None => 1,
        Some(Ok(seed)) => seed,
        Some(Err(_)) => {
            eprintln!("usage: feed [SEED]");
            return ExitCode::from(2);
        }
    };
    let table = match play(seed) {
        Ok(table) => table,
        Err(refusal) => {
            eprintln!("{refusal}");
            return ExitCode::FAILURE;
        }
    };
    let (server, client) = (&table.server, &table.client);
    draw(&server.cells(), &client.cells());
    let (messages, answers) = (&table.messages, &table.answers);
    println!(
        "game {}, {} moves; seed {seed}\n{} messages sent, {} lost, {} repeated; {} taken, {} refused\n\
         {} answers sent, {} lost, {} repeated",
        server.game(),
        server.count(),
        messages.put,
        messages.lost,
        messages.repeated,
        table.taken,
        table.refused,
        answers.put,
        answers.lost,
        answers.repeated
    );
    let same = server.as_codes() == client.as_codes() && server.cells() == client.cells();
    let crosses = server.cells().forbidden_points() == client.cells().forbidden_points();
    println!("equal lists and boards: {same}; equal forbidden points: {crosses}");
    ExitCode::from(u8::from(!(same && crosses)))
}
