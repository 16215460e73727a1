//! Asks each question of the benchmark once, of the original or of the host interface, for a
//! counter of instructions to follow: `once list|strict 8|20|40|80|nested original|ours`, or
//! `once game 20|60|120|225 original|ours`.
//!
//! `valgrind --tool=callgrind --toggle-collect='once::asked' once list 40 ours`, then the total over
//! the number of questions that it prints. Exit status 2 for an argument that is not understood.

use std::env;
use std::process::ExitCode;

use runs::timing::games::{self, Games};
use runs::timing::race::Race;
use runs::timing::rows::{Lists, Other, Verdicts};
use runs::timing::sets::{self, Set};
use runs::timing::suite::{SEED, Settings};

#[derive(Clone, Copy)]
enum Side {
    Original,
    Ours,
}

fn main() -> ExitCode {
    let words: Vec<String> = env::args().skip(1).collect();
    let words: Vec<&str> = words.iter().map(String::as_str).collect();
    let [question, set, side] = words[..] else {
        return usage();
    };
    let Some(side) = side_of(side) else {
        return usage();
    };
    let settings = Settings::usual(SEED);
    let asked = match question {
        "game" => games_of(set, &settings).map(|mut games| asked(&mut games, side)),
        _ => of_boards(question, set, side, &settings),
    };
    let Some(asked) = asked else {
        return usage();
    };
    println!("{asked} questions");
    ExitCode::SUCCESS
}

/// Asks about the boards of a set; none for a word that is not understood.
fn of_boards(question: &str, set: &str, side: Side, settings: &Settings) -> Option<usize> {
    let mut set = set_of(set, settings)?;
    match question {
        "list" => Some(asked(&mut Lists::new(&set.boards, Other::Original), side)),
        "strict" => {
            set.boards.truncate(settings.by_point);
            let mut verdicts = Verdicts::new(&set.boards, Other::Original);
            Some(asked(&mut verdicts, side))
        }
        _ => None,
    }
}

fn usage() -> ExitCode {
    eprintln!("usage: once list|strict 8|20|40|80|nested original|ours");
    eprintln!("       once game 20|60|120|225 original|ours");
    ExitCode::from(2)
}

fn side_of(word: &str) -> Option<Side> {
    match word {
        "original" => Some(Side::Original),
        "ours" => Some(Side::Ours),
        _ => None,
    }
}

/// The boards of the benchmark's row.
fn set_of(word: &str, settings: &Settings) -> Option<Set> {
    if word == "nested" {
        return Some(sets::nested(settings.seed, settings.nested));
    }
    let stones = word.parse().ok()?;
    let known = sets::STONES.contains(&stones);
    known.then(|| sets::games(settings.seed, stones, settings.games))
}

/// The games of the benchmark's row.
fn games_of(word: &str, settings: &Settings) -> Option<Games> {
    let length = word.parse().ok()?;
    let known = games::LENGTHS.contains(&length);
    known.then(|| Games::new(games::games(settings.seed, length, settings.played)))
}

/// What the counter follows: each question once.
#[inline(never)]
fn asked<R: Race>(race: &mut R, side: Side) -> usize {
    for question in 0..race.count() {
        match side {
            Side::Original => race.other(question, 1),
            Side::Ours => race.ours(question, 1),
        }
    }
    race.count()
}
