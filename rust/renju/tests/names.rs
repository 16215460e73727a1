//! What every type is called and numbered: exact texts, with a width and back again; orders and hashes.

use renju::{
    Cells, Colour, Counts, Cross, Fault, Kind, Limit, Moves, Point, Reason, Record, Refusal,
};
use renju::{Illegal, Report, Slip, Unplayable, Verdict, View, feed, mend, sgf};
use std::collections::{BTreeSet, HashSet};
use std::fmt::{Debug, Display};
use std::hash::{BuildHasher, Hash, RandomState};
use std::str::FromStr;

/// A type of few values: each by its name, in capitals or not, and by its number; nothing else is one.
fn named<T>(all: &[T], names: &[&str], numbers: &[u8])
where
    T: Copy + Debug + Display + Eq + Hash + Ord + FromStr<Err = Refusal>,
    T: TryFrom<u8, Error = Refusal> + Into<u8>,
{
    assert_eq!(all.len(), names.len());
    for ((one, name), number) in all.iter().zip(names).zip(numbers) {
        padded(one, name);
        for text in [*name, &name.to_uppercase(), &name.to_lowercase()] {
            assert_eq!(text.parse::<T>(), Ok(*one));
        }
        for text in [format!("{name} "), format!(" {name}"), format!("{name}s")] {
            assert_eq!(text.parse::<T>(), Err(Refusal::Number));
        }
        assert_eq!((*one).into(), *number);
    }
    for number in 0..=u8::MAX {
        let place = numbers.iter().position(|each| *each == number);
        let one = place.map(|place| all[place]).ok_or(Refusal::Number);
        assert_eq!(T::try_from(number), one);
    }
    assert_eq!("".parse::<T>(), Err(Refusal::Number));
    assert!(all.is_sorted());
    assert_eq!(all.iter().collect::<HashSet<_>>().len(), all.len());
}

/// Written as this text, with any width, on either side and with any fill.
fn padded(one: &impl Display, text: &str) {
    let width = text.len() + 3;
    assert_eq!(one.to_string(), text);
    assert_eq!(format!("{one:width$}|"), format!("{text}   |"));
    assert_eq!(format!("{one:>width$}|"), format!("   {text}|"));
    assert_eq!(format!("{one:*^width$}|"), format!("*{text}**|"));
    assert_eq!(format!("{one:1}|"), format!("{text}|"));
}

#[test]
fn few_values() {
    named(&Colour::ALL, &["Black", "White"], &[1, 2]);
    let kinds = [
        "Two",
        "Three",
        "Straight",
        "Sword",
        "Four",
        "Five",
        "Overlining",
        "Overlined",
    ];
    named(&Kind::ALL, &kinds, &[0, 1, 2, 3, 4, 5, 6, 7]);
    let views = [
        "Same",
        "QuarterRight",
        "HalfTurn",
        "QuarterLeft",
        "LeftRight",
        "TopBottom",
        "Ascending",
        "Descending",
    ];
    named(&View::ALL, &views, &[0, 1, 2, 3, 4, 5, 6, 7]);
    let verdicts = ["None", "DoubleThree", "DoubleFour", "Overline"];
    named(&Verdict::ALL, &verdicts, &[0, 1, 2, 3]);
    let reasons = ["occupied", "forbidden", "after a five"];
    named(&Reason::ALL, &reasons, &[1, 2, 3]);
    named(&Slip::ALL, &["Repeat", "XPart", "YPart"], &[1, 3, 4]);
}

#[test]
fn the_other_colour() {
    assert_eq!(!Colour::Black, Colour::White);
    assert_eq!(!Colour::White, Colour::Black);
}

#[test]
fn limits() {
    for number in 0..=u8::MAX {
        let limit = Limit::new(number);
        assert_eq!(limit.is_ok(), (1..=6).contains(&number));
        assert_eq!(limit, Limit::try_from(number));
        assert_eq!(limit, number.to_string().parse());
        if let Ok(limit) = limit {
            assert_eq!(u8::from(limit), number);
            assert_eq!(
                format!("{limit}{limit:>3}|"),
                format!("{number}  {number}|")
            );
        }
    }
    for text in ["", "six", "-1", "256", " 1"] {
        assert_eq!(text.parse::<Limit>(), Err(Refusal::Limit), "{text}");
    }
    assert!(Limit::ONE < Limit::SIX);
}

#[test]
fn points() {
    let columns = "ABCDEFGHIJKLMNO".chars();
    let names = columns.flat_map(|column| (1..=15).map(move |row| format!("{column}{row}")));
    for (point, name) in Point::all().zip(names) {
        padded(&point, &name);
        assert_eq!(name.parse(), Ok(point));
        assert_eq!(Point::read(name.as_bytes()), Ok(point));
        assert_eq!(Point::try_from(u8::from(point)), Ok(point));
    }
    assert_eq!(Point::read(&[b'H', 200]), Err(Refusal::TextByte));
}

fn point(name: &str) -> Point {
    name.parse().expect("a point")
}

#[test]
fn short_texts() {
    for refusal in Refusal::ALL
        .into_iter()
        .chain(Refusal::from_number(u16::MAX))
    {
        let (number, meaning) = (refusal.number(), refusal.meaning());
        padded(&refusal, &format!("refused {number}: {meaning}"));
    }
    let (point, verdict) = (point("O15"), Verdict::DoubleThree);
    padded(&Cross { point, verdict }, "O15 DoubleThree");
    let (black, white, empty) = (100, 125, 0);
    let counts = Counts {
        black,
        white,
        empty,
    };
    padded(&counts, "100 black, 125 white");
    let fault = Fault {
        number: 225,
        point,
        reason: Reason::AfterFive,
    };
    padded(&fault, "move 225 (O15): after a five");
}

#[test]
fn reports() {
    let report = |codes: &[u8]| Moves::from_codes(codes).expect("a game").report();
    padded(&report(&[112, 0, 112]), "move 3 (H8): occupied");
    padded(&report(&[112, 0]), "no fault, nobody has won");
    let black = [105, 120, 106, 121, 107, 122, 108, 123, 109];
    padded(&report(&black), "no fault, Black has won");
    let white = [0, 105, 2, 106, 4, 107, 30, 108, 32, 109];
    padded(&report(&white), "no fault, White has won");
    let after = [&black[..], &[0]].concat();
    padded(&report(&after), "move 10 (A1): after a five");
    // G8, I8, H7 and H9, and then H8.
    let three = [97, 0, 127, 2, 111, 4, 113, 6, 112];
    padded(&report(&three), "move 9 (H8): forbidden, DoubleThree");
}

#[test]
fn longer_texts() {
    let mended = mend(b"h8, i9,H08").expect("a text");
    assert_eq!(mended.to_string(), "H8,I9\n3 1");
    assert_eq!(mend(b"").expect("a text").to_string(), "\n1 3");
    assert_eq!(mend(b"H8").expect("a text").to_string(), "H8\n0 0");
    let row = " . . . . . . . . . . . . . . .";
    let mut rows = [row; 15];
    assert_eq!(Cells::new().to_string(), rows.join("\n"));
    rows[0] = " x . . . . . . . . . . . . . .";
    rows[14] = " . . . . . . . . . . . . . . o";
    let cells: Cells = "O1/A15".parse().expect("a board");
    assert_eq!(cells.to_string(), rows.join("\n"));
    assert_eq!(format!("{cells:?}"), format!("Cells(\n{cells}\n)"));
}

#[test]
fn in_debug() {
    let moves = Moves::from_codes(&[112, 0]).expect("a game");
    assert_eq!(format!("{moves:?}"), "[Point(H8), Point(A1)]");
    let cells: Cells = "H8,A1,I9".parse().expect("a board");
    let blacks = cells.stones(Colour::Black);
    assert_eq!(format!("{blacks:?}"), "[Point(H8), Point(I9)]");
    let (mut server, mut client) = (feed::Server::new(7), feed::Client::new(7));
    server.add(112).expect("a point");
    client.take(server.message(1).expect("a move"));
    server.hear(client.ask());
    assert_eq!(format!("{client:?}"), "Client { game: 7, codes: [112] }");
    assert_eq!(
        format!("{server:?}"),
        "Server { game: 7, codes: [112], heard: 1 }"
    );
}

#[test]
fn what_is_not_legal() {
    let (number, point) = (225, point("O15"));
    let illegal = [
        (Illegal::Occupied, "occupied"),
        (
            Illegal::Forbidden(Verdict::DoubleThree),
            "forbidden, DoubleThree",
        ),
        (Illegal::Over(Colour::Black), "after a five"),
    ];
    for (illegal, said) in illegal {
        padded(&illegal, said);
        let faulty = Unplayable::Faulty {
            number,
            point,
            illegal,
        };
        padded(&faulty, &format!("move 225 (O15): {said}"));
    }
    let refused = Unplayable::Refused(Refusal::Occupied);
    padded(&refused, "refused 11: the point is occupied");
}

/// Games are in order as their lists are, also where a longer one goes on with zeros.
#[test]
fn orders() {
    let lists: [&[u8]; 7] = [&[], &[0], &[0, 0], &[0, 1], &[1], &[1, 0], &[224]];
    let games: Vec<Moves> = lists
        .iter()
        .map(|codes| Moves::from_codes(codes).expect("a game"))
        .collect();
    assert!(games.is_sorted_by(|one, next| one < next));
    let texts: Vec<sgf::Text> = games.iter().map(sgf::write).collect();
    for (one, other) in [(0, 1), (3, 6), (5, 4), (2, 2)] {
        let (text, bytes) = (
            (&texts[one], &texts[other]),
            (&texts[one][..], &texts[other][..]),
        );
        assert_eq!(text.0.cmp(text.1), bytes.0.cmp(bytes.1));
        assert_eq!(text.0.partial_cmp(text.1), bytes.0.partial_cmp(bytes.1));
        let record = |place: usize| Record::new(View::Same, games[place]);
        assert_eq!(
            record(one).cmp(&record(other)),
            games[one].cmp(&games[other])
        );
    }
    let last = Record::new(View::Same, games[6]);
    assert!(last < Record::new(View::QuarterRight, games[0]));
    let boards = ["H8/A1", "A1/H8", "H8/O15", "H8,I9/A2"];
    let boards = boards.map(|text| text.parse::<Cells>().expect("a board"));
    let sorted: BTreeSet<Cells> = boards.into_iter().collect();
    let bytes: BTreeSet<&[u8; 225]> = boards.iter().map(Cells::as_bytes).collect();
    assert!(sorted.iter().map(Cells::as_bytes).eq(bytes));
}

/// Equal values have equal hashes, and those that differ in one part have others.
fn hashed<T: Hash + PartialEq + Debug>(all: &[T]) {
    let state = RandomState::new();
    for (place, one) in all.iter().enumerate() {
        for (other, two) in all.iter().enumerate() {
            assert_eq!(one == two, place == other, "{one:?}, {two:?}");
            let same = state.hash_one(one) == state.hash_one(two);
            assert_eq!(same, place == other, "{one:?}, {two:?}");
        }
    }
}

#[test]
fn hashes() {
    let boards = ["H8/A1", "A1/H8", "H8,I9/A1"].map(|text| text.parse::<Cells>().expect("a board"));
    hashed(&boards);
    hashed(&boards.map(|cells| cells.stones(Colour::Black)));
    let lists: [&[u8]; 4] = [&[], &[0], &[0, 0], &[0, 1]];
    let games = lists.map(|codes| Moves::from_codes(codes).expect("a game"));
    hashed(&games);
    hashed(&games.map(|game| sgf::write(&game)));
    hashed(&games.map(|game| Record::new(View::Same, game)));
    hashed(&games.map(|game| game.report()));
    hashed(&View::ALL.map(|view| Record::new(view, games[1])));
    let refusals: Vec<Refusal> = (1..40).filter_map(Refusal::from_number).collect();
    hashed(&refusals);
    let lists = [&b"H8"[..], b"H8,I9", b"H8,H8", b"H8,P1", b"H8,I9,H8"];
    hashed(&lists.map(|list| mend(list).expect("a text")));
}

/// A report is told from another by each of its parts.
#[test]
fn parts_of_a_report() {
    let report = Moves::from_codes(&[112]).expect("a game").report();
    let won = Report {
        winner: Some(Colour::Black),
        ..report
    };
    let empty = Report {
        cells: Cells::new(),
        ..report
    };
    hashed(&[report, won, empty]);
}
