//! Games that are played: every step of random ones held to `renju_game`, legal moves and others, to the end and back.

#[allow(dead_code)] // The boards are for other tests.
mod common;

use common::Dice;
use renju::raw::renju_game;
use renju::{
    Cells, Colour, Game, Illegal, MOVES, Moves, Point, REPORT, Reason, Record, Refusal, Unplayable,
    Verdict, View,
};
use std::collections::HashSet;

/// What the archive says of a list of codes: the faulty move's number, the reason, the winner, the cells.
fn told(codes: &[u8]) -> (u8, u8, u8, Cells) {
    let mut out = [0; REPORT];
    assert!(renju_game(codes, &mut out) >> 16 == 0, "{codes:?}");
    let cells = Cells::from_bytes(&out[3..]).expect("sound cells");
    (out[0], out[1], out[2], cells)
}

/// A game is what the archive says of its moves, and its legal points are those that the archive finds no fault with.
fn held(game: &Game) {
    let codes = game.moves().as_codes();
    let (number, _, winner, cells) = told(codes);
    assert_eq!(number, 0);
    assert_eq!(game.winner().map_or(0, Colour::number), winner);
    assert_eq!(game.cells(), &cells);
    assert_eq!(game.crosses(), &cells.forbidden_points());
    assert_eq!(game.counts(), cells.counts());
    assert_eq!(game.report(), game.moves().report());
    if codes.len() == MOVES {
        assert!(game.legal_points().is_empty());
        return;
    }
    let faultless = |point: &Point| told(&[codes, &[point.code()]].concat()).0 == 0;
    let legal: Vec<Point> = Point::all().filter(faultless).collect();
    assert_eq!(game.legal_points()[..], legal);
    let turn = Colour::ALL[codes.len() % 2];
    assert_eq!(
        game.to_move(),
        game.winner().map_or(Some(turn), |_| None),
        "{game}"
    );
}

/// Plays a point, whatever the archive says of it, and holds what is said to that.
fn played(game: &mut Game, point: Point) -> Result<Option<Colour>, Illegal> {
    let before = game.clone();
    let codes = [before.moves().as_codes(), &[point.code()]].concat();
    let said = game.play(point);
    let (number, reason, winner, cells) = told(&codes);
    match said {
        Ok(won) => {
            assert_eq!((number, reason), (0, 0));
            assert_eq!(won.map_or(0, Colour::number), winner);
            assert_eq!(game.moves().as_codes(), codes);
        }
        Err(illegal) => {
            assert_eq!(usize::from(number), codes.len());
            assert_eq!(illegal.reason().number(), reason);
            assert_eq!(game, &before);
            assert_eq!(game.cells(), &cells);
        }
    }
    match said {
        Err(Illegal::Forbidden(kind)) => assert_eq!(kind, cells.verdict(point)),
        Err(Illegal::Over(winner)) => assert_eq!(Some(winner), before.winner()),
        _ => {}
    }
    said
}

/// A point near others, so that rows come about; at times any point.
fn pick(dice: &mut Dice, width: usize) -> Point {
    let low = (15 - width) / 2;
    let mut side = || (low + dice.below(width)) as u8;
    Point::new(side(), side()).expect("a point")
}

/// How often each thing came up: legal moves, each reason, wins of each side, moves taken back.
#[derive(Default, Debug)]
struct Seen {
    legal: u32,
    reasons: [u32; 3],
    wins: [u32; 2],
    undone: u32,
}

impl Seen {
    fn count(&mut self, said: Result<Option<Colour>, Illegal>) {
        match said {
            Ok(None) => self.legal += 1,
            Ok(Some(colour)) => self.wins[usize::from(colour.number() - 1)] += 1,
            Err(illegal) => self.reasons[usize::from(illegal.reason().number() - 1)] += 1,
        }
    }
}

/// Mostly a point anywhere in a square, at times a cross.
fn step(game: &mut Game, dice: &mut Dice, width: usize) -> Result<Option<Colour>, Illegal> {
    let cross = game.crosses().first().map(|cross| cross.point);
    let point = match cross {
        Some(point) if dice.below(4) == 0 => point,
        _ => pick(dice, width),
    };
    played(game, point)
}

fn random_game(dice: &mut Dice, seen: &mut Seen) {
    let mut game = Game::new();
    let (width, mut late) = (5 + dice.below(11), 0);
    for _ in 0..400 {
        if dice.below(8) == 0 {
            let last = game.moves().points().next_back();
            assert_eq!(game.undo(), last);
            seen.undone += 1;
        } else {
            seen.count(step(&mut game, dice, width));
        }
        held(&game);
        late += u32::from(game.winner().is_some());
        if late > 20 {
            break;
        }
    }
    back(game);
}

/// Every move taken back: at each step the game of the moves before.
fn back(mut game: Game) {
    while let Some(last) = game.undo() {
        let again: Game = game.moves().points().collect::<Result<_, _>>().unwrap();
        assert_eq!(again, game);
        held(&game);
        assert!(game.clone().play(last).is_ok());
    }
    assert_eq!(game, Game::new());
    assert_eq!(game.undo(), None);
}

#[test]
fn every_step_is_that_of_the_archive() {
    let (mut dice, mut seen) = (Dice::new(20261116), Seen::default());
    for _ in 0..30 {
        random_game(&mut dice, &mut seen);
    }
    println!("{seen:?}");
    // Nothing was left out.
    assert!(seen.legal > 1000 && seen.undone > 100, "{seen:?}");
    assert!(seen.reasons.iter().all(|&n| n > 20), "{seen:?}");
    assert!(seen.wins.iter().all(|&n| n > 10), "{seen:?}");
}

/// Where several reasons apply, the lowest counts, as in a report.
#[test]
fn the_lowest_reason_counts() {
    let mut game: Game = "J5,D8,L5,E8,K4,F8,K6,G8,O1,H8".parse().expect("a game");
    assert_eq!(game.winner(), Some(Colour::White));
    let play = |game: &mut Game, text: &str| game.play(text.parse().expect("a point"));
    assert_eq!(play(&mut game, "D8"), Err(Illegal::Occupied));
    let kind = Verdict::DoubleThree;
    assert_eq!(play(&mut game, "K5"), Err(Illegal::Forbidden(kind)));
    assert_eq!(play(&mut game, "A1"), Err(Illegal::Over(Colour::White)));
}

/// A full board in which nobody has five in a row: rows of two and two, shifted.
fn full_board() -> Vec<Point> {
    let black = |point: &Point| (point.x() / 2 + point.y()).is_multiple_of(2);
    let (blacks, whites): (Vec<Point>, Vec<Point>) = Point::all().partition(black);
    let mut game = Vec::new();
    let (mut blacks, mut whites) = (blacks.into_iter(), whites.into_iter());
    while game.len() < MOVES {
        let next = if game.len() % 2 == 0 {
            &mut blacks
        } else {
            &mut whites
        };
        match next.next() {
            Some(point) => game.push(point),
            None => break,
        }
    }
    game
}

#[test]
fn a_full_board_has_no_turn_and_no_legal_point() {
    let points = full_board();
    assert_eq!(points.len(), MOVES, "as many black points as that");
    let mut game: Game = points.into_iter().collect::<Result<_, _>>().unwrap();
    assert_eq!((game.winner(), game.to_move()), (None, None));
    held(&game);
    for point in Point::all() {
        assert_eq!(game.play(point), Err(Illegal::Occupied));
    }
    assert_eq!(game.counts().empty, 0);
    assert!(game.undo().is_some());
    assert_eq!(game.to_move(), Some(Colour::Black));
}

#[test]
fn turned_games_have_the_turned_board_and_crosses() {
    let game: Game = "G8,A1,I8,A3,H7,A5,H9,A7".parse().expect("a game");
    for view in View::ALL {
        let turned = game.in_view(view);
        held(&turned);
        assert_eq!(turned.cells(), &game.cells().turned(view));
        assert_eq!(turned.crosses().len(), 1);
        let cross = game.crosses()[0].point.turned(view);
        assert_eq!(turned.crosses()[0].point, cross);
        assert_eq!(turned.in_view(view.back()), game);
    }
}

#[test]
fn texts_records_and_sgf_and_back() {
    let text = "G8,A1,I8,A3,H7,A5,H9,A7,O15";
    let game: Game = text.parse().expect("a game");
    assert_eq!(game.to_string(), text);
    assert_eq!(format!("{game:?}"), format!("Game({text})"));
    assert_eq!(Game::from_sgf(&game.to_sgf()), Ok(game.clone()));
    for view in View::ALL {
        let bytes = game.to_record(view).to_bytes();
        let record = Record::try_from(&bytes[..]).expect("a record");
        assert_eq!(record.view(), view);
        assert_eq!(Game::try_from(&record), Ok(game.clone()));
    }
    let games: HashSet<Game> = [game.clone(), game].into_iter().collect();
    assert_eq!(games.len(), 1);
}

#[test]
fn what_is_no_game_says_why() {
    let said = |text: &str| text.parse::<Game>().expect_err("no game");
    assert_eq!(said("H8,P1"), Unplayable::Refused(Refusal::XPart));
    assert_eq!(said("H8,H8").to_string(), "move 2 (H8): occupied");
    let crossed = "G8,A1,I8,A3,H7,A5,H9,A7,H8,A9";
    assert_eq!(
        said(crossed).to_string(),
        "move 9 (H8): forbidden, DoubleThree"
    );
    let late = said("D8,A1,E8,A3,F8,A5,G8,A7,H8,A9");
    assert_eq!(late.to_string(), "move 10 (A9): after a five");
    let over = Illegal::Over(Colour::Black);
    assert!(matches!(late, Unplayable::Faulty { illegal, .. } if illegal == over));
    assert_eq!(over.reason(), Reason::AfterFive);
    // A report says the same.
    let moves: Moves = crossed.parse().expect("moves");
    assert_eq!(said(crossed).to_string(), moves.report().to_string());
}

#[test]
fn moves_text() {
    let many = |count: usize| vec!["H8"; count].join(",");
    assert_eq!(
        many(MOVES).parse::<Moves>().map(|m| m.points().len()),
        Ok(MOVES)
    );
    assert_eq!(many(MOVES + 1).parse::<Moves>(), Err(Refusal::ManyMoves));
    // What can't be read comes before how many there are, as in ./games.
    let wrong = many(MOVES + 1) + ",H16";
    assert_eq!(wrong.parse::<Moves>(), Err(Refusal::YPart));
    assert_eq!(Moves::read(&[b' '; 4097]), Err(Refusal::TextLength));
    assert_eq!(Moves::read(b"H8,\x80"), Err(Refusal::TextByte));
    assert_eq!("é8".parse::<Moves>(), Err(Refusal::TextByte));
    assert_eq!("H8,,I9".parse::<Moves>(), Err(Refusal::XPart));
}
