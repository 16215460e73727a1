//! Which request gets which reply. Each number from outside becomes a point, a view, a message or an answer of the feed by the package's
//! own entries, or is refused.

use crate::house::House;
use crate::house::events::Seat;
use crate::house::http::{JSON, Method, Reply, Request, Status};
use crate::house::table::No;
use renju::feed::{Answer, Message};
use renju::{Limit, Point, View};
use std::time::Instant;

/// What a request gets.
pub enum Said {
    Reply(Reply),
    /// The events of a page, after its greeting.
    Events(u32, String),
}

const HTML: &str = "text/html; charset=utf-8";
const SCRIPT: &str = "text/javascript; charset=utf-8";

pub fn answer(house: &House, request: &Request) -> Said {
    if !is_local(request) {
        return Said::Reply(Reply::bare(Status::Forbidden));
    }
    if (request.method, request.path.as_str()) == (Method::Get, "/events") {
        return sit(house, request);
    }
    Said::Reply(match request.method {
        Method::Get => get(house, request),
        Method::Post => post(house, request),
    })
}

/// A page of another place may have the browser ask here, under its own name or under one that it made point here: neither is heard.
fn is_local(request: &Request) -> bool {
    let host = request.host.as_str();
    let name = host.rsplit_once(':').map_or(host, |(name, _)| name);
    let own = format!("http://{host}");
    matches!(name, "127.0.0.1" | "localhost")
        && request.origin.as_ref().is_none_or(|origin| *origin == own)
}

fn sit(house: &House, request: &Request) -> Said {
    let Some(seat) = request.field("seat").and_then(Seat::named) else {
        return Said::Reply(Reply::bare(Status::BadRequest));
    };
    match house.table().sit(seat, Instant::now()) {
        Some((number, greeting)) => Said::Events(number, greeting),
        None => Said::Reply(Reply::bare(Status::Busy)),
    }
}

fn get(house: &House, request: &Request) -> Reply {
    let ok = |kind, body: &str| Reply::new(Status::Ok, kind, body);
    match request.path.as_str() {
        "/" => ok(HTML, include_str!("../page/page.html")),
        "/style.css" => ok("text/css; charset=utf-8", include_str!("../page/style.css")),
        "/page.mjs" => ok(SCRIPT, include_str!("../page/page.mjs")),
        "/board.mjs" => ok(SCRIPT, include_str!("../page/board.mjs")),
        "/client.mjs" => ok(SCRIPT, include_str!("../page/client.mjs")),
        "/views" => ok(JSON, &views()),
        "/hint" => hint(house),
        "/game.sgf" => file(
            "game.sgf",
            "application/x-go-sgf",
            house.table().game.to_sgf().to_vec(),
        ),
        "/game.record" => record(house, request),
        _ => Reply::bare(Status::NotFound),
    }
}

/// What the browser stores.
fn file(name: &'static str, kind: &'static str, body: Vec<u8>) -> Reply {
    let file = Some(name);
    Reply {
        file,
        ..Reply::new(Status::Ok, kind, body)
    }
}

/// The tagged record in the view that the page names.
fn record(house: &House, request: &Request) -> Reply {
    let number = request
        .number("view")
        .and_then(|number| u8::try_from(number).ok());
    match View::from_number(number.unwrap_or(u8::MAX)) {
        Ok(view) => file(
            "game.record",
            "application/octet-stream",
            house.table().record(view),
        ),
        Err(refusal) => refused(&format!("\"why\":\"{refusal}\"")),
    }
}

/// The views as tables, so that the page has no rule of its own for them: which view one followed by another is, which takes one back,
/// and where each sends every point.
fn views() -> String {
    let then = View::ALL.map(|first| View::ALL.map(|next| first.then(next).number()));
    let back = View::ALL.map(|view| view.back().number());
    let places = View::ALL.map(|view| {
        Point::all()
            .map(|point| point.turned(view).code())
            .collect::<Vec<u8>>()
    });
    format!("{{\"then\":{then:?},\"back\":{back:?},\"places\":{places:?}}}")
}

/// A win by fours for the side to move, with the fewest attacks. The board is copied out, so that the lock is not held for it, and one
/// question is asked at a time.
fn hint(house: &House) -> Reply {
    let (cells, turn) = {
        let table = house.table();
        (*table.game.cells(), table.game.to_move())
    };
    let Some(_one) = house.hint() else {
        return Reply::bare(Status::Busy);
    };
    let line = turn.and_then(|colour| cells.shortest_win_by_fours(colour, Limit::SIX));
    let codes: Vec<u8> = line.iter().flatten().map(|point| point.code()).collect();
    Reply::new(Status::Ok, JSON, format!("{{\"line\":{codes:?}}}"))
}

fn post(house: &House, request: &Request) -> Reply {
    let Some(page) = request.number("page") else {
        return Reply::bare(Status::BadRequest);
    };
    let now = Instant::now();
    let done = match request.path.as_str() {
        "/tap" => {
            let bytes = request.bytes("message");
            bytes.map(|bytes| house.table().tap(page, Message::from_bytes(bytes)))
        }
        "/answer" => {
            let asks = request.field("asks") == Some("1");
            let bytes = request.bytes("answer");
            bytes.map(|bytes| {
                house
                    .table()
                    .hear(page, Answer::from_bytes(bytes), asks, now)
            })
        }
        "/takeback" => Some(house.table().take_back(page, now)),
        "/new" => Some(house.table().clear(page, now)),
        "/line" => {
            let poor = request
                .field("poor")
                .and_then(|word| ["0", "1"].iter().position(|&known| known == word));
            poor.map(|poor| house.table().set_line(page, poor == 1))
        }
        _ => return Reply::bare(Status::NotFound),
    };
    house.changed();
    match done {
        None => Reply::bare(Status::BadRequest),
        Some(Ok(())) => Reply::new(Status::Ok, JSON, "{}"),
        Some(Err(No::Unknown)) => Reply::bare(Status::Gone),
        Some(Err(no)) => refused(&no.to_json()),
    }
}

fn refused(members: &str) -> Reply {
    Reply::new(Status::Conflict, JSON, format!("{{{members}}}"))
}
