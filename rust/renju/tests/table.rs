//! The table of `examples/table`, in this process: what it answers, that no bytes upset it, that a page on a poor line follows, and that
//! the page's script is the proved client of the feed.

#[allow(dead_code)]
#[path = "../examples/table/house/mod.rs"]
mod house;

use house::House;
use house::dice::Dice;
use house::events::{Seat, hex};
use house::http::{self, Method, Status};
use house::routes::{self, Said};
use house::table::{No, PAGES, Table};
use house::times::Times;
use renju::feed::{Client, Message, Server};
use renju::{Colour, Game, Illegal, Point, Refusal, Verdict, View, raw};
use std::collections::BTreeMap;
use std::io::{Read, Write};
use std::net::{Ipv4Addr, Shutdown, SocketAddr, TcpListener, TcpStream};
use std::process::{Command, Stdio};
use std::sync::Arc;
use std::thread;
use std::time::{Duration, Instant};

// ---- requests

fn get(target: &str) -> Vec<u8> {
    format!("GET {target} HTTP/1.1\r\nHost: 127.0.0.1:8225\r\n\r\n").into_bytes()
}

fn post(path: &str, body: &str) -> Vec<u8> {
    let length = body.len();
    format!(
        "POST {path} HTTP/1.1\r\nHost: localhost:8225\r\nContent-Length: {length}\r\n\r\n{body}"
    )
    .into_bytes()
}

/// The reply to a whole request; the events of a page are told by their greeting.
fn reply(house: &House, bytes: &[u8]) -> (u16, String) {
    let request = http::parse(bytes).unwrap().unwrap();
    match routes::answer(house, &request) {
        Said::Reply(reply) => (
            reply.status as u16,
            String::from_utf8_lossy(&reply.body).into_owned(),
        ),
        Said::Events(_, greeting) => (200, greeting),
    }
}

fn tap(game: u32, number: u16, name: &str) -> Message {
    let point: Point = name.parse().unwrap();
    Message {
        game,
        number,
        code: point.code(),
    }
}

/// A page that taps moves in turn; all of them are legal.
fn play(table: &mut Table, page: u32, names: &str) {
    for name in names.split(' ') {
        let (game, number) = (table.server().game(), table.server().count() + 1);
        assert_eq!(table.tap(page, tap(game, number, name)), Ok(()), "{name}");
    }
}

const DOUBLE_THREE: &str = "I5 A15 K5 C15 J4 E15 J6 A13";

/// A table with one page, which plays both sides, after some moves.
fn seated(names: &str) -> House {
    let house = House::new(1, None);
    let greeting = "event: hello\ndata: {\"page\":1,\"game\":1}\n\n";
    assert_eq!(reply(&house, &get("/events?seat=both")).1, greeting);
    play(&mut house.table(), 1, names);
    house
}

fn tap_body(game: u32, number: u16, name: &str) -> String {
    format!(
        "page=1&message={}",
        hex(&tap(game, number, name).to_bytes())
    )
}

#[test]
fn a_forbidden_point_and_a_takeback_by_requests() {
    let house = seated(DOUBLE_THREE);
    assert!(reply(&house, &get("/")).1.contains("<svg id=\"board\""));
    let body = tap_body(1, 9, "J5");
    let why = "{\"why\":\"J5 is forbidden to Black: double three\",\"kind\":1,\"code\":139}";
    assert_eq!(reply(&house, &post("/tap", &body)), (409, why.to_owned()));
    assert_eq!(reply(&house, &post("/takeback", "page=1")).0, 200);
    let server = *house.table().server();
    assert_eq!((server.game(), server.count()), (2, 7));

    // A tap of the game before the takeback is one of a foreign game now.
    let (status, said) = reply(&house, &post("/tap", &body));
    assert_eq!(status, 409);
    assert!(said.contains("refused 17"), "{said}");
    assert_eq!(reply(&house, &post("/new", "page=1")).0, 200);
    let server = *house.table().server();
    assert_eq!((server.game(), server.count()), (9, 0));
}

#[test]
fn a_hint_a_five_and_the_files_by_requests() {
    let house = seated("D2 G15 E2 C13 F2 I15");
    assert_eq!(reply(&house, &get("/hint")).1, "{\"line\":[31]}");
    play(&mut house.table(), 1, "G2 O15 H2");
    assert_eq!(house.table().game.winner(), Some(Colour::Black));
    let (_, said) = reply(&house, &post("/tap", &tap_body(1, 10, "N14")));
    assert_eq!(said, "{\"why\":\"the game is over: Black has won\"}");
    let (_, text) = reply(&house, &get("/game.sgf"));
    assert!(text.starts_with("(;GM[4]SZ[15];B[dn];W[ga]"), "{text}");
    assert!(
        reply(&house, &get("/game.record?view=8"))
            .1
            .contains("refused 12")
    );
    assert!(
        reply(&house, &get("/game.record?view=264"))
            .1
            .contains("refused 12")
    );
    let record = house.table().record(View::HalfTurn);
    assert_eq!(record[..8], [1, 0, 1, 2, 2, 0, 9, 46]);
}

#[test]
fn who_may_play() {
    let (mut table, now) = (Table::new(1, None), Instant::now());
    let mut sit = |name| table.sit(Seat::named(name).unwrap(), now).unwrap().0;
    let (black, white, watch) = (sit("black"), sit("white"), sit("watch"));
    let first = tap(1, 1, "H8");
    assert_eq!(table.tap(white, first), Err(No::Turn(Colour::Black)));
    assert_eq!(table.tap(watch, first), Err(No::Watching));
    assert_eq!(table.tap(99, first), Err(No::Unknown));
    assert_eq!(table.tap(black, first), Ok(()));
    assert_eq!(
        table.tap(black, tap(1, 2, "I9")),
        Err(No::Turn(Colour::White))
    );
    assert_eq!(table.tap(white, first), Err(No::Refused(Refusal::NotNext)));
    assert_eq!(
        table.tap(
            white,
            Message {
                code: 225,
                ..tap(1, 2, "I9")
            }
        ),
        Err(No::Refused(Refusal::Point))
    );
    let again = tap(1, 2, "H8");
    assert_eq!(
        table.tap(white, again),
        Err(No::Illegal("H8".parse().unwrap(), Illegal::Occupied))
    );
    assert_eq!(table.take_back(watch, now), Err(No::Watching));
    assert_eq!(table.server().as_codes(), [112]);

    for _ in 3..PAGES {
        assert!(table.sit(Seat::Watch, now).is_some());
    }
    assert!(table.sit(Seat::Watch, now).is_none());
}

#[test]
fn another_referee_is_held_to_the_same_crosses() {
    fn says_nothing(_: &renju::Cells, _: Point, _: Colour) -> house::table::Beside {
        let held = Duration::from_micros(50);
        house::table::Beside {
            held,
            crosses: Vec::new(),
        }
    }
    let (mut table, now) = (Table::new(1, Some(says_nothing)), Instant::now());
    let page = table.sit(Seat::Both, now).unwrap().0;
    play(&mut table, page, DOUBLE_THREE);
    let (text, _) = table.events(page, now).unwrap();
    // After J6 and after A13 there is a cross, which it does not see.
    assert!(text.contains("\"compared\":8,\"different\":2"), "{text}");
    assert!(
        text.contains("\"original\":{\"count\":8,\"p50\":50.0"),
        "{text}"
    );
}

#[test]
fn views_are_document_01s() {
    type Sent = fn(u8, u8) -> (u8, u8);
    let sent: [Sent; 8] = [
        |x, y| (x, y),
        |x, y| (y, 14 - x),
        |x, y| (14 - x, 14 - y),
        |x, y| (14 - y, x),
        |x, y| (14 - x, y),
        |x, y| (x, 14 - y),
        |x, y| (y, x),
        |x, y| (14 - y, 14 - x),
    ];
    let places = sent.map(|view| {
        let codes = Point::all().map(|point| view(point.x(), point.y()));
        codes.map(|(x, y)| 15 * x + y).collect::<Vec<u8>>()
    });
    let house = House::new(1, None);
    let (_, text) = reply(&house, &get("/views"));
    assert!(text.ends_with(&format!("\"places\":{places:?}}}")));
    // 4 then 1 is 6, 1 then 4 is 7.
    let row = |first: usize| {
        text.split(['[', ']'])
            .nth(2 * first + 2)
            .unwrap()
            .split(", ")
            .collect::<Vec<_>>()
    };
    assert_eq!((row(4)[1], row(1)[4]), ("6", "7"));
}

#[test]
fn times_fall_into_buckets() {
    let mut times = Times::default();
    assert!(
        times
            .to_json()
            .starts_with("{\"count\":0,\"p50\":0.0,\"max\":0.0,\"histogram\":[0, 0, ")
    );
    for micros in [0, 2, 2, 12, 1_000_000] {
        times.keep(Duration::from_micros(micros));
    }
    let mut counts = [0; 37];
    // Below 0.01 µs, from 1.6 µs, from 10 µs, over 100 ms.
    (counts[0], counts[12], counts[16], counts[36]) = (1, 2, 1, 1);
    let said = format!("{{\"count\":5,\"p50\":2.0,\"max\":1000000.0,\"histogram\":{counts:?}}}");
    assert_eq!(times.to_json(), said);
}

// ---- bytes of all sorts

/// Good requests, of which the damaged ones are made.
fn good() -> Vec<Vec<u8>> {
    let message = hex(&tap(1, 1, "H8").to_bytes());
    let mut all: Vec<Vec<u8>> = [
        "/",
        "/style.css",
        "/page.mjs",
        "/client.mjs",
        "/views",
        "/hint",
        "/game.sgf",
        "/game.record?view=2",
    ]
    .map(get)
    .into();
    all.extend(["both", "black", "watch"].map(|seat| get(&format!("/events?seat={seat}"))));
    all.push(get(&format!("/views?long={}", "1".repeat(240))));
    all.push(post("/tap", &format!("page=1&message={message}")));
    all.push(post("/answer", "page=1&answer=000000010001&asks=1"));
    all.push(post("/takeback", "page=1"));
    all.push(post("/new", "page=1"));
    all.push(post("/line", "page=1&poor=1"));
    let long = format!(
        "GET / HTTP/1.1\r\nHost: localhost\r\nOrigin: http://localhost\r\nCookie: {}\r\n\r\n",
        "a=1; ".repeat(300)
    );
    all.push(long.into_bytes());
    all
}

/// A place in some bytes, their end included, and a length from there.
fn part(dice: &mut Dice, length: usize) -> std::ops::Range<usize> {
    let from = dice.below(length + 1);
    from..from + dice.below((length - from).min(40) + 1)
}

/// What is put in where something is put in.
const WORDS: [&str; 9] = [
    "\r\n",
    "\r\n\r\n",
    "%00",
    "99999999999999999999",
    "Content-Length: 5\r\n",
    "Transfer-Encoding: chunked\r\n",
    "-1",
    "&page=1",
    "é",
];

/// Damages bytes in one way of seven.
fn damage(bytes: &mut Vec<u8>, dice: &mut Dice, others: &[Vec<u8>]) {
    let here = part(dice, bytes.len());
    match dice.below(7) {
        0 => drop(bytes.drain(here)),
        1 => bytes.truncate(here.start),
        2 => {
            let noise: Vec<u8> = here.clone().map(|_| dice.below(256) as u8).collect();
            bytes.splice(here, noise);
        }
        3 => {
            let copy = bytes[here.clone()].to_vec();
            bytes.splice(here.end..here.end, copy);
        }
        4 => drop(bytes.splice(
            here.start..here.start,
            WORDS[dice.below(WORDS.len())].bytes(),
        )),
        5 => {
            let other = &others[dice.below(others.len())];
            let there = part(dice, other.len());
            bytes.splice(here, other[there].iter().copied());
        }
        _ => {
            // A letter or a digit for another: what is still a request asks for something else.
            if let Some(byte) = bytes.get_mut(here.start) {
                *byte = b"0123456789abcdefGHz=&? "[dice.below(23)];
            }
        }
    }
}

fn damaged(dice: &mut Dice, good: &[Vec<u8>]) -> Vec<u8> {
    let mut bytes = good[dice.below(good.len())].clone();
    for _ in 0..dice.below(4) {
        damage(&mut bytes, dice, good);
    }
    bytes
}

/// What is at the table is a legal game, and every list of it is the same.
fn assert_sound(table: &Table) {
    assert_eq!(table.game.report(), table.game.moves().report());
    assert_eq!(table.game.moves().report().fault, None);
    assert_eq!(table.server().as_codes(), table.game.moves().as_codes());
}

#[test]
fn no_bytes_upset_the_handler() {
    let (house, good, mut dice) = (House::new(7, None), good(), Dice::new(20_261_116));
    reply(&house, &get("/events?seat=both"));
    let mut counts: BTreeMap<String, u32> = BTreeMap::new();
    for n in 0..100_000 {
        let said = match http::parse(&damaged(&mut dice, &good)) {
            Ok(None) => "front".to_owned(),
            Err(status) => (status as u16).to_string(),
            Ok(Some(request)) => match routes::answer(&house, &request) {
                Said::Reply(reply) => {
                    assert!(reply.to_bytes().len() < 32_768);
                    (reply.status as u16).to_string()
                }
                Said::Events(page, _) => {
                    house.table().events(page, Instant::now());
                    // One page in three stays, so that the table fills and is full.
                    if page % 3 != 0 {
                        house.table().leave(page);
                    }
                    "events".to_owned()
                }
            },
        };
        *counts.entry(said).or_default() += 1;
        if n % 1000 == 0 {
            assert_sound(&house.table());
        }
    }
    assert_sound(&house.table());
    println!("{counts:?}");
    for status in [
        "200", "400", "403", "404", "405", "409", "410", "413", "414", "501", "503", "505",
        "front", "events",
    ] {
        assert!(counts.contains_key(status), "no {status} in {counts:?}");
    }
}

/// Whether bytes are a whole request.
fn whole(bytes: &[u8]) -> Result<bool, Status> {
    http::parse(bytes).map(|request| request.is_some())
}

fn with(headers: &str) -> Result<bool, Status> {
    whole(format!("GET / HTTP/1.1\r\nHost: localhost\r\n{headers}\r\n").as_bytes())
}

#[test]
fn every_bound_of_a_head_is_kept() {
    let (few, many) = ("A: b\r\n".repeat(63), "A: b\r\n".repeat(64));
    assert_eq!(
        (with(&few), with(&many)),
        (Ok(true), Err(Status::LargeHead))
    );
    let long = |length: usize| with(&format!("A: {}\r\n", "b".repeat(length)));
    assert_eq!((long(2045), long(2046)), (Ok(true), Err(Status::LargeHead)));
    let open = |length: usize| whole(&vec![b'a'; length]);
    assert_eq!(
        (open(8191), open(8192)),
        (Ok(false), Err(Status::LargeHead))
    );
    let target = |length: usize| whole(&get(&format!("/{}", "a".repeat(length))));
    assert_eq!(
        (target(255), target(256)),
        (Ok(true), Err(Status::LongTarget))
    );
    assert_eq!(whole(b"GET / HTTP/1.1\r\n\r\n"), Err(Status::BadRequest));
    assert_eq!(with("Host: localhost\r\n"), Err(Status::BadRequest));
    assert_eq!(
        with("Transfer-Encoding: chunked\r\n"),
        Err(Status::BadCoding)
    );
}

#[test]
fn every_bound_of_a_body_is_kept() {
    let body = |length: usize| whole(&post("/tap", &format!("a={}", "1".repeat(length))));
    assert_eq!((body(254), body(255)), (Ok(true), Err(Status::LargeBody)));
    let fields = |names: &str| {
        let fields: Vec<String> = names.chars().map(|name| format!("{name}=1")).collect();
        whole(&post("/tap", &fields.join("&")))
    };
    assert_eq!(
        (fields("abcdefgh"), fields("abcdefghi")),
        (Ok(true), Err(Status::BadRequest))
    );
    assert_eq!(fields("aa"), Err(Status::BadRequest));
    for length in ["-1", "+1", "1,1", "", "0x1", "18446744073709551616"] {
        assert!(
            with(&format!("Content-Length: {length}\r\n")).is_err(),
            "{length}"
        );
    }
}

#[test]
fn pages_of_other_places_are_not_heard() {
    let house = House::new(1, None);
    let from = |host: &str, origin: &str| {
        let bytes = format!("GET /views HTTP/1.1\r\nHost: {host}\r\n{origin}\r\n");
        reply(&house, bytes.as_bytes()).0
    };
    assert_eq!(from("127.0.0.1:8225", ""), 200);
    assert_eq!(
        from("localhost:8225", "Origin: http://localhost:8225\r\n"),
        200
    );
    assert_eq!(
        from("localhost:8225", "Origin: http://example.org\r\n"),
        403
    );
    assert_eq!(from("localhost:8225", "Origin: null\r\n"), 403);
    assert_eq!(from("example.org", ""), 403);
    assert_eq!(from("localhost.example.org:8225", ""), 403);
}

// ---- sockets

fn start(seed: u64) -> (Arc<House>, SocketAddr) {
    let listener = TcpListener::bind((Ipv4Addr::LOCALHOST, 0)).unwrap();
    let address = listener.local_addr().unwrap();
    let house = Arc::new(House::new(seed, None));
    let server = Arc::clone(&house);
    thread::spawn(move || server.listen(&listener));
    (house, address)
}

/// What comes back, up to the end or to the front of a stream of events.
fn over_socket(address: SocketAddr, bytes: &[u8]) -> String {
    let mut stream = TcpStream::connect(address).unwrap();
    stream
        .set_read_timeout(Some(Duration::from_secs(10)))
        .unwrap();
    // The server may have said no, and closed, before all was written.
    let _ = stream.write_all(bytes);
    let _ = stream.shutdown(Shutdown::Write);
    let (mut text, mut part) = (Vec::new(), [0; 4096]);
    while let Ok(count @ 1..) = stream.read(&mut part) {
        text.extend_from_slice(&part[..count]);
        if text.windows(17).any(|word| word == b"text/event-stream") {
            break;
        }
    }
    String::from_utf8_lossy(&text).into_owned()
}

#[test]
fn no_bytes_upset_the_server() {
    let ((house, address), good, mut dice) = (start(3), good(), Dice::new(5));
    let mut replies = 0;
    for _ in 0..3000 {
        let said = over_socket(address, &damaged(&mut dice, &good));
        replies += u32::from(said.starts_with("HTTP/1.1 "));
    }
    // A reply is lost where bytes that nobody reads are left behind it.
    assert!(replies > 2900, "{replies} replies");
    assert!(over_socket(address, &get("/views")).starts_with("HTTP/1.1 200 OK\r\n"));
    assert_sound(&house.table());
}

#[test]
fn too_many_and_too_slow_are_told_so() {
    let (_house, address) = start(4);
    let idle: Vec<TcpStream> = (0..64)
        .map(|_| TcpStream::connect(address).unwrap())
        .collect();
    // Connections are taken in order, so the next one finds every place taken.
    assert!(over_socket(address, &get("/")).starts_with("HTTP/1.1 503 "));
    let mut slow = &idle[0];
    let mut text = String::new();
    slow.write_all(b"GET / HT").unwrap();
    slow.read_to_string(&mut text).unwrap();
    assert!(text.starts_with("HTTP/1.1 408 "), "{text}");
    drop(idle);
    let free = (0..100).any(|_| {
        thread::sleep(Duration::from_millis(20));
        over_socket(address, &get("/")).starts_with("HTTP/1.1 200 ")
    });
    assert!(free);
}

#[test]
fn a_page_that_goes_leaves_its_place() {
    let (house, address) = start(5);
    let mut stream = TcpStream::connect(address).unwrap();
    stream.write_all(&get("/events?seat=watch")).unwrap();
    let mut part = [0; 4096];
    assert!(stream.read(&mut part).unwrap() > 0);
    assert!(house.table().tap(1, tap(1, 1, "H8")) == Err(No::Watching));
    drop(stream);
    let gone = (0..300).any(|_| {
        thread::sleep(Duration::from_millis(20));
        house.table().tap(1, tap(1, 1, "H8")) == Err(No::Unknown)
    });
    assert!(gone);
}

// ---- the feed

/// A page that follows: the proved client, fed with the events' text as the page's script is.
struct Follower {
    page: u32,
    client: Client,
    taken: u32,
    refused: u32,
}

impl Follower {
    fn follow(&mut self, table: &mut Table, now: Instant) {
        let (text, _) = table.events(self.page, now).unwrap();
        for event in text.split_terminator("\n\n") {
            if let Some(number) = event.strip_prefix("event: game\ndata: ") {
                let game = number.parse().unwrap();
                if game > self.client.ask().game {
                    self.client = Client::new(game);
                }
                table
                    .hear(self.page, self.client.ask(), false, now)
                    .unwrap();
            } else if let Some(data) = event.strip_prefix("event: move\ndata: {\"message\":\"") {
                let word = u64::from_str_radix(&data[..14], 16).unwrap();
                let message = Message::from_bytes(word.to_be_bytes()[1..].try_into().unwrap());
                let taken = self.client.take(message);
                self.taken += u32::from(taken.refusal.is_none());
                self.refused += u32::from(taken.refusal.is_some());
                let asks =
                    taken.refusal == Some(Refusal::NotNext) && message.number > taken.answer.count;
                table.hear(self.page, taken.answer, asks, now).unwrap();
            }
        }
    }
}

/// A legal move somewhere.
fn random_move(game: &Game, dice: &mut Dice) -> Option<Point> {
    let legal = game.legal_points();
    legal.get(dice.below(legal.len())).copied()
}

/// The player takes back or plays on, somewhere.
fn play_on(table: &mut Table, player: u32, dice: &mut Dice, now: Instant) {
    if dice.below(12) == 0 {
        table.take_back(player, now).unwrap();
    } else if let Some(point) = random_move(&table.game, dice) {
        let (game, number) = (table.server().game(), table.server().count() + 1);
        let code = point.code();
        table.tap(player, Message { game, number, code }).unwrap();
    }
}

/// A game with takebacks over a poor line: at every step the page's list is a first part of the table's list of that game.
fn follow_a_game(seed: u64) -> (Table, Follower) {
    let (mut table, mut dice, mut now) = (Table::new(seed, None), Dice::new(seed), Instant::now());
    let player = table.sit(Seat::Both, now).unwrap().0;
    let page = table.sit(Seat::Watch, now).unwrap().0;
    table.set_line(page, true).unwrap();
    let mut follower = Follower {
        page,
        client: Client::new(1),
        taken: 0,
        refused: 0,
    };
    // By game number: the table's list as it is, or as it was when the game was left.
    let mut lists: BTreeMap<u32, Vec<u8>> = BTreeMap::new();
    for step in 0..3000 {
        now += Duration::from_millis(20);
        if step < 1000 && dice.below(12) == 0 {
            play_on(&mut table, player, &mut dice, now);
        }
        lists.insert(table.server().game(), table.server().as_codes().to_vec());
        follower.follow(&mut table, now);
        let list = &lists[&follower.client.ask().game];
        assert!(
            list.starts_with(follower.client.as_codes()),
            "seed {seed}, step {step}"
        );
    }
    (table, follower)
}

#[test]
fn a_page_on_a_poor_line_follows() {
    let mut refused = 0;
    for seed in 0..20 {
        let (
            table,
            Follower {
                client,
                refused: some,
                ..
            },
        ) = follow_a_game(seed);
        assert_eq!(client.as_codes(), table.server().as_codes(), "seed {seed}");
        assert_eq!(
            client.cells().forbidden_points(),
            table.game.cells().forbidden_points()
        );
        assert!(some > 0 && table.server().game() > 1);
        assert_sound(&table);
        refused += some;
    }
    println!("{refused} messages refused");
}

#[test]
fn what_is_shown_comes_with_the_move() {
    let (mut table, now) = (Table::new(1, None), Instant::now());
    let page = table.sit(Seat::Both, now).unwrap().0;
    play(&mut table, page, DOUBLE_THREE);
    let (text, _) = table.events(page, now).unwrap();
    let moves: Vec<&str> = text
        .split("\n\n")
        .filter(|event| event.starts_with("event: move"))
        .collect();
    assert_eq!(moves.len(), 8);
    // Black's fourth stone makes the double three: the cross is in its own message.
    assert!(
        moves[5].contains("\"crosses\":[],\"caption\":\"3 black, 3 white\""),
        "{}",
        moves[5]
    );
    assert!(
        moves[6].contains("\"crosses\":[[1,139]],\"caption\":\"4 black, 3 white\""),
        "{}",
        moves[6]
    );
    assert_eq!(
        table.game.cells().verdict(Point::from_code(139).unwrap()),
        Verdict::DoubleThree
    );
}

// ---- the page's script beside the proved client

/// Messages for a client of a game that holds some moves: mostly the next one, else any other.
fn schedule(dice: &mut Dice, length: usize) -> Vec<Message> {
    let (game, mut server, mut messages) = (7, Server::new(7), Vec::new());
    let mut next = 1;
    for _ in 0..length {
        let mut message = Message {
            game,
            number: next,
            code: dice.below(225) as u8,
        };
        match dice.below(12) {
            0 => {
                message.number = [
                    0,
                    1,
                    next - 1,
                    next + 1,
                    next + 2,
                    226,
                    256 + next,
                    u16::MAX,
                ][dice.below(8)]
            }
            1 => {
                message.game = [0, 6, 8, game << 8, game << 16, game << 24, u32::MAX][dice.below(7)]
            }
            2 => message.code = 225 + dice.below(31) as u8,
            3 => {
                message = server
                    .message(1 + dice.below(usize::from(next)) as u16)
                    .unwrap_or(message)
            }
            _ => {}
        }
        if message.game == game && message.number == next && server.add(message.code).is_ok() {
            next += 1;
        }
        messages.push(message);
    }
    messages
}

/// What the proved client says of each message: refusal, whether it asks, answer and list, as the script is to write it.
fn proved(messages: &[Message]) -> String {
    let (mut held, mut count, mut text) = ([0; 225], 0u16, String::new());
    for message in messages {
        let lacks = message.game > 7 || (message.game == 7 && message.number > count + 1);
        let word = raw::renju_feed_take(
            7,
            &mut held,
            count,
            message.game,
            message.number,
            message.code,
        );
        let refusal = word >> 16;
        if refusal == 0 {
            count = word as u16;
        }
        let answer = renju::feed::Answer { game: 7, count }.to_bytes();
        let list = &held[..usize::from(count)];
        text += &format!("{refusal} {lacks} {} {}\n", hex(&answer), hex(list));
    }
    text
}

/// What the page's client writes of messages.
fn under_node(input: String) -> String {
    let script = concat!(env!("CARGO_MANIFEST_DIR"), "/tests/table/client.mjs");
    let mut node = Command::new("node");
    let mut child = node
        .arg(script)
        .stdin(Stdio::piped())
        .stdout(Stdio::piped())
        .spawn()
        .unwrap();
    let mut stdin = child.stdin.take().unwrap();
    let writer = thread::spawn(move || stdin.write_all(input.as_bytes()));
    let output = child.wait_with_output().unwrap();
    writer.join().unwrap().unwrap();
    assert!(output.status.success());
    String::from_utf8(output.stdout).unwrap()
}

#[test]
fn the_script_is_the_proved_client() {
    if Command::new("node").arg("--version").output().is_err() {
        println!("not run: no node");
        return;
    }
    let mut dice = Dice::new(8);
    let (mut input, mut expected) = (String::new(), String::new());
    for n in 0..12 {
        let messages = schedule(&mut dice, 50 + 40 * n);
        input.extend(
            messages
                .iter()
                .map(|message| hex(&message.to_bytes()) + "\n"),
        );
        input += "\n";
        expected += &(proved(&messages) + "\n");
    }
    let said = under_node(input);
    for (place, (one, other)) in said.lines().zip(expected.lines()).enumerate() {
        assert_eq!(one, other, "line {place}");
    }
    assert_eq!(said.len(), expected.len());
    // All that can be said was said.
    for refusal in ["0 ", "17 ", "18 ", "8 ", "14 "] {
        assert!(
            expected.lines().any(|line| line.starts_with(refusal)),
            "no {refusal}"
        );
    }
}

#[test]
fn a_field_is_read_as_it_is_written() {
    let request = http::parse(&post("/tap", "page=12&message=00000001000170"))
        .unwrap()
        .unwrap();
    assert_eq!(
        (request.method, request.path.as_str()),
        (Method::Post, "/tap")
    );
    assert_eq!(request.number("page"), Some(12));
    assert_eq!(request.bytes("message"), Some([0, 0, 0, 1, 0, 1, 0x70]));
    assert_eq!(request.bytes::<6>("message"), None);
    assert_eq!(request.number("message"), Some(1_000_170));
    assert_eq!(request.field("pag"), None);
}
