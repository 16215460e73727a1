//! The move feed: what a client takes and refuses, what a server sends and hears, and two lists
//! compared.

use renju::feed::{Answer, Client, Message, Server, missing};
use renju::raw::{answer, renju_feed_missing, renju_feed_take};
use renju::{CELLS, MOVES, Refusal};

fn message(game: u32, number: u16, code: u8) -> Message {
    Message { game, number, code }
}

/// A client of game 7 that holds the first codes.
fn client(count: u16) -> Client {
    let mut client = Client::new(7);
    for number in 1..=count {
        let taken = client.take(message(7, number, (number - 1) as u8));
        assert_eq!((taken.refusal, taken.answer.count), (None, number));
    }
    client
}

/// What a client of game 7 with so many moves refuses of a message, in document 02's order.
fn refused(count: u16, message: Message) -> Option<Refusal> {
    if message.game != 7 {
        Some(Refusal::ForeignGame)
    } else if message.number != count + 1 {
        Some(Refusal::NotNext)
    } else if message.code > 224 {
        Some(Refusal::Point)
    } else if count == MOVES as u16 {
        Some(Refusal::ManyMoves)
    } else {
        None
    }
}

/// At every count every number near it, of three games, with a point and without: what is taken is
/// the next of the own game.
#[test]
fn only_the_next_of_its_own_game() {
    let others = [
        (6, 0),
        (7, 224),
        (8, 225),
        (7, 225),
        (7, 255),
        (u32::MAX, 1),
    ];
    for count in 0..=MOVES as u16 {
        let before = client(count);
        let near = [count.saturating_sub(1), count, count + 1, count + 2];
        for number in near.into_iter().chain([0, 1, 256, u16::MAX]) {
            for (game, code) in others {
                let (mut after, sent) = (before, message(game, number, code));
                let (taken, refusal) = (after.take(sent), refused(count, sent));
                assert_eq!(taken.refusal, refusal, "{count} {game} {number} {code}");
                assert_eq!(taken.answer, after.ask());
                match refusal {
                    Some(_) => assert!(after == before),
                    None => assert_eq!(after.as_codes().last(), Some(&code)),
                }
            }
        }
    }
}

/// A count over 225 is refused like any other, and a list with no byte behind the count 13; no
/// byte changes.
#[test]
fn lent_lists() {
    for length in [0, 1, 2, 224, 225, 226, 300] {
        for count in [0, 1, 2, 224, 225, 226, 299, 300, 301, u16::MAX] {
            for number in [count, count.wrapping_add(1), count.wrapping_add(2)] {
                let refusal = if u32::from(number) != u32::from(count) + 1 {
                    18
                } else if count >= 225 {
                    14
                } else if length <= usize::from(count) {
                    13
                } else {
                    0
                };
                let mut held = vec![7; length];
                let word = renju_feed_take(1, &mut held, count, 1, number, 200);
                let mut expected = vec![7; length];
                if refusal == 0 {
                    assert_eq!(word, u32::from(number));
                    expected[usize::from(count)] = 200;
                } else {
                    assert_eq!(word, refusal << 16, "{length} {count} {number}");
                }
                assert_eq!(held, expected);
            }
        }
    }
}

/// A server of game 7 with all the moves that there can be.
fn full() -> Server {
    let mut server = Server::new(7);
    assert!(server.holds_all());
    for code in 0..CELLS as u8 {
        assert_eq!(server.add(code), Ok(()));
        assert!(!server.holds_all());
    }
    server
}

#[test]
fn a_full_server() {
    let mut server = full();
    assert_eq!(server.add(0), Err(Refusal::ManyMoves));
    assert_eq!(server.add(225), Err(Refusal::Point));
    assert_eq!(server.count(), 225);
    for number in 1..=225 {
        let code = (number - 1) as u8;
        assert_eq!(server.message(number), Ok(message(7, number, code)));
    }
    for number in [0, 226, u16::MAX] {
        assert_eq!(server.message(number), Err(Refusal::NotNext));
    }
}

/// Of another game, too much, old: none is heard, or nothing is lost.
#[test]
fn what_a_server_hears() {
    let mut server = full();
    for (game, count, all) in [
        (6, 225, false),
        (8, 225, false),
        (7, 226, false),
        (7, 224, false),
        (7, 225, true),
        (7, 3, true),
        (6, 0, true),
        (7, u16::MAX, true),
    ] {
        server.hear(Answer { game, count });
        assert_eq!(server.holds_all(), all, "{game} {count}");
    }
}

#[test]
fn a_server_takes_back() {
    let mut server = full();
    server.hear(Answer {
        game: 7,
        count: 225,
    });
    assert!(server.holds_all());
    assert_eq!(server.take_back(), Ok(8));
    assert!(!server.holds_all());
    assert_eq!((server.game(), server.count()), (8, 224));
    let mut last = Server::new(u32::MAX);
    last.add(3).unwrap();
    let before = last;
    assert_eq!(last.take_back(), Err(Refusal::ForeignGame));
    assert!(last == before);
    // Of an empty list none is taken back.
    let mut empty = Server::new(0);
    assert_eq!(empty.take_back(), Ok(1));
    assert!(empty == Server::new(1));
}

/// Every two lists of up to four codes of three, and where the part lies.
#[test]
fn two_lists() {
    let mut lists = vec![vec![]];
    for length in 0..4 {
        let longest: Vec<Vec<u8>> = lists
            .iter()
            .filter(|l: &&Vec<u8>| l.len() == length)
            .cloned()
            .collect();
        for list in longest {
            lists.extend([0, 1, 255].map(|code| [&list[..], &[code]].concat()));
        }
    }
    assert_eq!(lists.len(), 1 + 3 + 9 + 27 + 81);
    for first in &lists {
        for second in &lists {
            let word = answer(renju_feed_missing(first, second));
            let part = missing(first, second);
            if first.starts_with(second) {
                assert!(std::ptr::eq(part.unwrap(), &first[second.len()..]));
                assert_eq!(word, Ok(u16::from(first.len() > second.len())));
            } else if second.starts_with(first) {
                assert!(std::ptr::eq(part.unwrap(), &second[first.len()..]));
                assert_eq!(word, Ok(2));
            } else {
                assert_eq!(part, Err(Refusal::ApartLists));
                assert_eq!(word, Err(Refusal::ApartLists));
            }
        }
    }
}

#[test]
fn bytes_there_and_back() {
    for game in [0, 1, 255, 256, 65_536, u32::MAX] {
        for number in [0, 1, 225, 256, u16::MAX] {
            let one = message(game, number, 224);
            assert_eq!(Message::from_bytes(one.to_bytes()), one);
            let count = number;
            let told = Answer { game, count };
            assert_eq!(Answer::from_bytes(told.to_bytes()), told);
        }
    }
}
