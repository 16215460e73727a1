//! That the times and tables say what they should, and that a quick run agrees.

use std::process::{Command, Output};
use std::time::{Duration, Instant};

use oracle::boards::{self, Dice};
use oracle::naive;
use runs::reading::{read, read_held};
use runs::timing::depths::Depths;
use runs::timing::games::{self, Games};
use runs::timing::race::{self, Pace, Race, Times};
use runs::timing::rows::{Changes, Form, Lists, Other, Texts, Turns, Verdicts, Written};
use runs::timing::sets::Ready;
use runs::timing::stats::{Histogram, Summary, percentile, side_by_side};
use runs::timing::suite::{self, Settings};
use runs::timing::{machine, sets, table};

#[test]
fn percentiles_of_known_values() {
    let mut values: Vec<f64> = (1..=200).map(f64::from).collect();
    values.reverse();
    assert_eq!(percentile(&values, 50.0), Some(100.0));
    assert_eq!(percentile(&values, 99.0), Some(198.0));
    assert_eq!(percentile(&values, 100.0), Some(200.0));
    assert_eq!(percentile(&values, 0.0), Some(1.0));
    assert_eq!(percentile(&[7.0], 50.0), Some(7.0));
    assert_eq!(percentile(&[], 50.0), None);
    let Summary {
        count,
        p50,
        p99,
        max,
        sum,
    } = Summary::of(&values);
    assert_eq!(
        (count, p50, p99, max, sum),
        (200, 100.0, 198.0, 200.0, 20100.0)
    );
    assert_eq!(Summary::of(&[]), Summary::default());
}

/// Each time lies in the bucket that names it: the buckets touch, begin at 0 and have no end.
#[test]
fn no_bucket_is_labelled_by_a_time_that_it_does_not_hold() {
    let times = [
        0.0, 0.001, 0.0099, 0.01, 0.0159, 0.016, 1.0, 99_999.0, 100_000.0, 1e9,
    ];
    for time in times {
        let (from, to) = Histogram::edges(Histogram::bucket(time));
        assert!(from <= time && time < to, "{time}: {from} to {to}");
    }
    let last = Histogram::bucket(f64::MAX);
    assert_eq!(
        (Histogram::edges(0).0, Histogram::edges(last).1),
        (0.0, f64::INFINITY)
    );
    for bucket in 0..last {
        let (from, to) = Histogram::edges(bucket);
        assert_eq!(
            (Histogram::bucket(from), Histogram::bucket(to)),
            (bucket, bucket + 1)
        );
        assert_eq!(Histogram::edges(bucket + 1).0, to);
        assert!(bucket == 0 || to / from < 1.61, "{from} to {to}");
    }
}

#[test]
fn histograms_side_by_side() {
    let left = Histogram::of(&[20.0, 21.0, 24.9, 42.0]);
    let right = Histogram::of(&[42.0]);
    let text = side_by_side(&["old", "new"], &[left, right]);
    let lines: Vec<&str> = text.lines().collect();
    assert_eq!(lines.len(), 4, "{text}");
    let bars = |line: &str| -> Vec<usize> {
        let bar = |word: &&str| word.starts_with('#');
        line.split_whitespace().filter(bar).map(str::len).collect()
    };
    assert!(lines[1].starts_with("      16       25     3 #"), "{text}");
    assert_eq!(bars(lines[1]), [36]);
    assert_eq!(bars(lines[2]), [0; 0]);
    assert_eq!(bars(lines[3]), [12, 12]);
    // The last bucket has no end, and no times at all still make a table.
    let long = side_by_side(&["old"], &[Histogram::of(&[1e9])]);
    assert!(long.contains("  100000      any     1 #"), "{long}");
    assert_eq!(
        side_by_side(&["old"], &[Histogram::of(&[])])
            .lines()
            .count(),
        2
    );
}

/// Remembers who was asked what, and disagrees on one question.
struct Watched {
    asked: Vec<(char, usize)>,
    wrong: Option<usize>,
}

impl Race for Watched {
    fn count(&self) -> usize {
        3
    }

    fn agrees(&mut self, question: usize) -> bool {
        self.wrong != Some(question)
    }

    fn other(&mut self, question: usize, _: usize) {
        self.asked.push(('o', question));
    }

    fn ours(&mut self, question: usize, _: usize) {
        self.asked.push(('n', question));
    }
}

const ONE_CALL: Pace = Pace {
    warm_up: 1,
    rounds: 3,
    sample: 0.0,
};

#[test]
fn both_are_asked_in_turn_and_as_often() {
    let (asked, wrong) = (Vec::new(), None);
    let mut race = Watched { asked, wrong };
    let times = race::run(&mut race, &ONE_CALL).expect("they agree");
    assert_eq!(
        (times.calls, times.other.len(), times.ours.len()),
        (1, 3, 3)
    );
    // To find out how long a call takes, four pairs of each question come first.
    let rounds = &race.asked[4 * 3 * 2..];
    assert_eq!(rounds.len(), 4 * 3 * 2);
    let mut other_first = [0; 3];
    for (n, pair) in rounds.chunks(2).enumerate() {
        assert_eq!((pair[0].1, pair[1].1), (n % 3, n % 3));
        assert_ne!(pair[0].0, pair[1].0);
        other_first[n % 3] += usize::from(pair[0].0 == 'o');
    }
    assert_eq!(other_first, [2, 2, 2]);
}

/// Takes a tenth of a millisecond for a call, and ten times as long for the first on either side.
struct Slow {
    asked: [bool; 2],
}

impl Slow {
    fn ask(&mut self, side: usize, calls: usize) {
        let first = !std::mem::replace(&mut self.asked[side], true);
        let tenths = if first { calls + 9 } else { calls };
        let (start, time) = (Instant::now(), Duration::from_micros(100) * tenths as u32);
        while start.elapsed() < time {}
    }
}

impl Race for Slow {
    fn count(&self) -> usize {
        1
    }

    fn agrees(&mut self, _: usize) -> bool {
        true
    }

    fn other(&mut self, _: usize, calls: usize) {
        self.ask(0, calls);
    }

    fn ours(&mut self, _: usize, calls: usize) {
        self.ask(1, calls);
    }
}

/// Four calls take 400 µs and eight 800 µs: what the first took is no measure.
#[test]
fn samples_are_as_long_as_they_should_be() {
    let pace = Pace {
        sample: 600_000.0,
        ..ONE_CALL
    };
    let mut race = Slow { asked: [false; 2] };
    let times = race::run(&mut race, &pace).expect("they agree");
    assert_eq!(times.calls, 8);
}

#[test]
fn a_difference_ends_the_run() {
    let (asked, wrong) = (Vec::new(), Some(1));
    let mut race = Watched { asked, wrong };
    assert_eq!(race::run(&mut race, &ONE_CALL).err(), Some(1));
    assert_eq!(race.asked, []);
}

/// A board whose forms say different things: each kind of question sees it.
#[test]
fn every_kind_of_question_sees_a_difference() {
    let good = Ready::new([0; 225]);
    let mut bad = good.clone();
    // G8, I8, H7 and H9, so that H8 is a double three, and these on the cells alone.
    for code in [97, 127, 111, 113] {
        bad.cells[code] = 1;
    }
    let first = |race: &mut dyn Race| (0..race.count()).find(|&n| !race.agrees(n));
    let (good, bad) = ([good.clone(), good], [bad.clone(), bad]);
    assert_eq!(first(&mut Lists::new(&good, Other::Original)), None);
    assert_eq!(first(&mut Lists::new(&bad, Other::Original)), Some(0));
    assert_eq!(first(&mut Verdicts::new(&good, Other::Original)), None);
    assert_eq!(first(&mut Verdicts::new(&bad, Other::Original)), Some(110));
    // The second referee is asked about the same cells as the fast one: there is no difference.
    assert_eq!(first(&mut Lists::new(&bad, Other::Second)), None);
    assert_eq!(first(&mut Verdicts::new(&bad, Other::Second)), None);
    // So are the depth and the verdict; cells that are refused have neither.
    assert_eq!(first(&mut Depths::new(&bad)), None);
    let mut refused = good[0].clone();
    refused.cells[224] = 3;
    assert_eq!(first(&mut Depths::new(&[refused])), Some(0));
    for form in Form::ALL {
        assert_eq!(first(&mut Changes::new(good.to_vec(), form)), None);
        assert_eq!(first(&mut Changes::new(bad.to_vec(), form)), Some(0));
        assert_eq!(first(&mut Turns::new(good.to_vec(), form)), None);
        assert_eq!(first(&mut Turns::new(bad.to_vec(), form)), Some(0));
        for written in Written::ALL {
            let read = |board: &Ready| first(&mut Texts::new(vec![board], written, form));
            let mut board = sets::games(7, 20, 1).boards.remove(0);
            assert_eq!(read(&board), None, "{written:?}");
            let code = board.empty().next().expect("an empty point");
            board.cells[usize::from(code)] = 1;
            assert_eq!(read(&board), Some(0), "{written:?}");
        }
    }
}

/// Each is as long as it should be and has no fault, so that all of it is read.
#[test]
fn the_games_are_read_to_their_end() {
    for length in games::LENGTHS {
        let made = games::games(7, length, 2);
        for moves in &made {
            let (reading, is_left_out) = read_held(moves);
            assert_eq!((moves.len(), reading.number), (length, 0));
            assert_eq!((read(moves).number, is_left_out), (0, false));
        }
        let mut race = Games::new(made);
        assert!(race.agrees(0) && race.agrees(1));
    }
}

#[test]
fn the_moves_of_a_game_make_its_boards() {
    let moves = sets::moves(3791, 60);
    assert_eq!(moves.len(), 60);
    let mut cells = [0; 225];
    for (n, point) in moves.iter().enumerate() {
        assert_eq!(cells[usize::from(point.code())], 0);
        cells[usize::from(point.code())] = if n % 2 == 0 { 1 } else { 2 };
    }
    assert_eq!(cells, boards::game(&mut Dice::new(3791), 60));
}

#[test]
fn the_nested_boards_are_deep() {
    let set = sets::nested(3, 20);
    assert_eq!(
        (set.boards.len(), set.name.as_str()),
        (20, "nested 4 deep or more")
    );
    assert!(
        set.boards
            .iter()
            .all(|ready| naive::depth(&ready.cells) >= 4)
    );
}

#[test]
fn a_ratio_over_one_says_that_ours_is_faster() {
    let times = Times {
        calls: 1,
        other: vec![1.0, 5.0],
        ours: vec![2.0, 2.0],
    };
    assert_eq!(table::Row::new("", "", &times).ratio(), 1.5);
}

#[test]
fn a_quick_run_agrees() {
    let mut told = 0;
    let settings = Settings::quick(3);
    let rows = suite::run(&settings, |_| told += 1).expect("the answers agree");
    assert_eq!((rows.len(), told), (24, 24));
    let second = suite::run_second(&settings, |_| told += 1).expect("the answers agree");
    assert_eq!((second.len(), told), (10, 34));
    let depths = suite::run_depths(&settings, |_| told += 1).expect("the answers agree");
    assert_eq!((depths.len(), told), (1, 35));
    for row in rows.iter().chain(&second).chain(&depths) {
        let name = format!("{} {}", row.question, row.boards);
        assert!(
            row.asked > 0 && row.other.p50 > 0.0 && row.ours.p50 > 0.0,
            "{name}"
        );
    }
    let lines = |text: String| text.lines().count();
    let sides = ["second", "fast"];
    assert_eq!(lines(table::plain(&rows, sides)), 25);
    assert_eq!(lines(table::markdown(&rows, sides)), 26);
    let text = table::plain(&second, sides);
    assert!(
        text.contains("  second p50  second p99  fast p50  "),
        "{text}"
    );
}

fn bench(arguments: &[&str]) -> Output {
    let program = env!("CARGO_BIN_EXE_bench");
    let run = Command::new(program).args(arguments).output();
    run.expect("the program starts")
}

#[test]
fn the_program_prints_a_table() {
    let run = bench(&["quick", "7", "--markdown"]);
    let text = String::from_utf8(run.stdout).expect("UTF-8");
    assert!(run.status.success(), "{text}");
    assert!(text.contains("- Seed: 7.\n"), "{text}");
    let table: Vec<&str> = text.lines().filter(|l| l.starts_with('|')).collect();
    // Three heads, each with a rule below it: the original's rows, the second referee's, the depth's.
    assert_eq!(table.len(), 2 + 24 + 2 + 10 + 2 + 1, "{text}");
    assert!(table.iter().all(|l| l.matches('|').count() == 12), "{text}");
    assert_eq!(bench(&["soon"]).status.code(), Some(2));
}

#[test]
fn the_model_is_that_of_the_first_processor() {
    let told = "processor\t: 0\nmodel name\t: Some Kind @ 2 GHz\nmodel name\t: Other\n";
    assert_eq!(machine::model_name(told), Some("Some Kind @ 2 GHz"));
    assert_eq!(machine::model_name("processor : 0\n"), None);
}
