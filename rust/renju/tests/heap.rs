//! No question about a board touches the heap.

use renju::feed::{Client, Server, missing};
use renju::{Cells, Colour, Kind, Limit, Moves, Point, Record, View, second};
use std::alloc::{GlobalAlloc, Layout, System};
use std::cell::Cell;
use std::fmt::{self, Write};
use std::hint::black_box;

/// The system's allocator, counting what each thread asks of it.
struct Counting;

thread_local! {
    static ASKED: Cell<usize> = const { Cell::new(0) };
}

// SAFETY: the system's allocator does all the work.
unsafe impl GlobalAlloc for Counting {
    unsafe fn alloc(&self, layout: Layout) -> *mut u8 {
        ASKED.set(ASKED.get() + 1);
        // SAFETY: as the caller's.
        unsafe { System.alloc(layout) }
    }

    unsafe fn dealloc(&self, place: *mut u8, layout: Layout) {
        // SAFETY: as the caller's.
        unsafe { System.dealloc(place, layout) }
    }
}

#[global_allocator]
static COUNTING: Counting = Counting;

/// Takes what is written to it, and keeps nothing.
struct Nowhere;

impl Write for Nowhere {
    fn write_str(&mut self, text: &str) -> fmt::Result {
        black_box(text);
        Ok(())
    }
}

fn ask_the_second(cells: &Cells, point: Point) {
    for colour in Colour::ALL {
        black_box(second::four_eyes_on(cells, point, colour));
        for kind in Kind::ALL {
            black_box(second::rows(cells, colour, kind));
            black_box(second::rows_on(cells, point, colour, kind));
        }
    }
    black_box(second::plain_verdict(cells, point)).unwrap();
    black_box(second::verdict(cells, point));
    black_box(second::forbidden_points(cells));
}

fn store(game: Moves) {
    let bytes = Record::new(View::HalfTurn, game).to_bytes();
    let record = Record::try_from(bytes.as_slice()).unwrap();
    black_box(record.to_codes()).unwrap_err();
}

fn feed(point: Point) {
    let (mut server, mut client) = (Server::new(1), Client::new(1));
    server.add(point.code()).unwrap();
    black_box(missing(client.as_codes(), server.as_codes())).unwrap();
    server.hear(client.take(server.message(1).unwrap()).answer);
    assert_eq!(server.cells(), client.cells());
    server.take_back().unwrap();
}

fn ask_for_a_win(cells: &Cells, point: Point) {
    for colour in Colour::ALL {
        black_box(cells.win_by_fours(colour, Limit::SIX));
        black_box(cells.shortest_win_by_fours(colour, Limit::SIX));
        black_box(cells.is_win_by_fours(colour, &[point]));
    }
}

fn ask_everything(bytes: &[u8], text: &[u8], point: Point) {
    let mut cells = Cells::read(text).unwrap();
    assert_eq!(" h08".parse(), Ok(point));
    write!(Nowhere, "{point:>5}{:20}", cells.counts()).unwrap();
    cells.put(point, Colour::Black);
    cells.remove(point);
    assert_eq!(Ok(cells), Cells::from_bytes(bytes));
    for colour in Colour::ALL {
        black_box(cells.stones(colour));
        black_box(cells.four_eyes_on(point, colour));
        for kind in Kind::ALL {
            black_box(cells.rows(colour, kind));
            black_box(cells.rows_on(point, colour, kind));
        }
    }
    black_box(cells.empty_points());
    black_box(cells.counts());
    black_box(cells.canonical());
    black_box(cells.neighbors(point, 14, true)).unwrap();
    black_box(cells.plain_verdict(point)).unwrap();
    black_box(cells.verdict(point));
    black_box(cells.depth(point));
    ask_for_a_win(&cells, point);
    black_box(renju::mend(text)).ok();
    for cross in &cells.turned(View::HalfTurn).forbidden_points() {
        write!(Nowhere, "{cross}").unwrap();
    }
    let game = Moves::new(&[point, point]).unwrap();
    write!(Nowhere, "{}", game.report()).unwrap();
    ask_the_second(&cells, point);
    store(game);
    feed(point);
    write!(Nowhere, "{cells}").unwrap();
}

#[test]
fn nothing_from_the_heap() {
    let text = b"G8,I8,H7,H9/A1";
    let (cells, point) = (Cells::read(text).unwrap(), Point::new(7, 7).unwrap());
    let before = ASKED.get();
    ask_everything(cells.as_bytes(), text, point);
    assert_eq!(ASKED.get(), before);
    // The count is not idle: a text is on the heap.
    black_box(cells.to_pretty_string());
    assert!(ASKED.get() > before);
}
