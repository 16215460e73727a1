//! That the load program counts, searches and draws rightly, and that the programs of load and growth
//! run on little.

use std::fs;
use std::process::{Command, Output};

use oracle::board::board::Board;
use renju::Cells;
use runs::growth::{self, Settings};
use runs::load::{self, Held, bracketed};
use runs::timing::curves::{self, Axis, Chart, Curve, Dot, Scale};
use runs::timing::race::Pace;
use runs::timing::sets;

/// Percentiles by buckets are at least the true ones, and at most a thirty-second more.
#[test]
fn percentiles_by_buckets() {
    let mut held = Held::new();
    assert_eq!((held.count(), held.per_mille(990)), (0, 0));
    for n in 1..=100_000 {
        held.add(n);
    }
    for (share, exact) in [(10, 1000.0), (500, 50_000.0), (990, 99_000.0)] {
        let told = held.per_mille(share) as f64;
        assert!(
            (exact..=exact * 33.0 / 32.0).contains(&told),
            "{share}: {told}"
        );
    }
    assert_eq!((held.per_mille(1000), held.most), (100_000, 100_000));
    for nanos in [0, 1, 31, 32, 33, 63, 64, 1_000_000_007, u64::MAX] {
        let mut one = Held::new();
        one.add(nanos);
        assert_eq!((one.per_mille(1), one.count()), (nanos, 1));
    }
    let mut joined = Held::new();
    joined.join(&held);
    joined.join(&held);
    assert_eq!((joined.count(), joined.most), (200_000, 100_000));
    assert_eq!(joined.per_mille(990), held.per_mille(990));
}

#[test]
fn the_search_finds_the_largest_to_a_twentieth() {
    for most in [0, 1, 2, 3, 19, 100, 1000, 12_345] {
        let found = bracketed(1_000_000, |n| n <= most);
        assert!(
            found <= most && most - found <= most / 20,
            "{most}: {found}"
        );
    }
    let mut asked = Vec::new();
    let all = bracketed(100, |n| {
        asked.push(n);
        true
    });
    assert_eq!((all, asked.last()), (100, Some(&100)));
}

/// Every frame of every table is asked, whoever asks.
#[test]
fn a_small_load_is_run() {
    let pool = sets::games(3, 20, 5).boards;
    for workers in [1, 2] {
        let ours = load::run::<Cells>(&pool, 7, 6, workers);
        assert_eq!((ours.tables, ours.held.count()), (7, 42));
        let original = load::run::<Board>(&pool, 7, 6, workers);
        assert_eq!(original.held.count(), 42);
        assert!(ours.held.most > 0 && original.held.most > 0);
    }
}

#[test]
fn one_board_in_so_many_is_nested() {
    let (games, nested) = (load::games(3, 10), sets::nested(3, 2).boards);
    assert_eq!(games.len(), 40);
    let mixed = load::mixed(&games, &nested, 20);
    let changed = (0..40).filter(|&n| mixed[n].cells != games[n].cells);
    assert_eq!(changed.collect::<Vec<_>>(), [0, 20]);
    assert_eq!(
        (mixed[0].cells, mixed[20].cells),
        (nested[0].cells, nested[1].cells)
    );
}

#[test]
fn marks_of_the_axes() {
    let even = Axis::of("", Scale::Even, [3.0, 220.0]);
    assert_eq!((even.from, even.to, even.marks().len()), (0.0, 220.0, 5));
    assert_eq!(even.share(110.0), 0.5);
    let tens = Axis::of("", Scale::Tens, [0.0, 0.25, 90.0]);
    assert_eq!(tens.marks().len(), 4);
    assert!((tens.from - 0.1).abs() < 1e-9 && (tens.to - 100.0).abs() < 1e-9);
    assert!((tens.share(1.0) - 1.0 / 3.0).abs() < 1e-9);
    // The limit is on the axis even where it is a power of ten.
    assert!(Axis::of("", Scale::Tens, [3.0, 100.0]).to >= 100.0);
}

#[test]
fn a_chart_draws_each_point_and_leaves_the_others_hollow() {
    let dot = |x, y, is_full| Dot { x, y, is_full };
    let curve = Curve {
        name: "one".to_string(),
        colour: "#123456",
        dots: vec![dot(1.0, 2.0, true), dot(10.0, 20.0, false)],
    };
    let chart = Chart {
        words: "words".to_string(),
        x: Axis::of("x", Scale::Tens, [1.0, 10.0]),
        y: Axis::of("y", Scale::Tens, [2.0, 20.0]),
        curves: vec![curve],
        limit: Some(10.0),
    };
    let text = curves::svg(&[chart.clone(), chart]);
    assert_eq!(text.matches("<svg ").count(), 1);
    assert_eq!(text.matches("<polyline ").count(), 2);
    // Two points and the name's own in each of the two charts.
    assert_eq!(text.matches("<circle ").count(), 6);
    assert_eq!(text.matches("r=\"4\" fill=\"#fff\"").count(), 2);
    assert_eq!(text.matches("stroke-dasharray").count(), 2);
    assert!(!text.contains("NaN") && !text.contains("inf"), "{text}");
}

/// Little of everything.
const LITTLE: Settings = Settings {
    seed: 5,
    boards: 2,
    looked_at: 40,
    pace: Pace {
        warm_up: 0,
        rounds: 1,
        sample: 0.0,
    },
};

/// A group has the boards of its number of stones.
#[test]
fn boards_by_stones() {
    let stones = growth::by_stones(&LITTLE, 60);
    let numbers: Vec<_> = stones
        .iter()
        .map(|group| (group.number, group.sort))
        .collect();
    assert_eq!(
        numbers,
        [
            (0, "played"),
            (60, "played"),
            (120, "put in turn"),
            (180, "put in turn")
        ]
    );
    for group in &stones {
        for ready in &group.boards {
            let count = ready.cells.iter().filter(|&&cell| cell != 0).count();
            assert_eq!(count, group.number);
        }
    }
}

/// A group has the boards of its depth, and no more than it should.
#[test]
fn boards_by_depth() {
    let deepest = include_str!("../../renju/tests/deepest.txt");
    let depths = growth::by_depth(&LITTLE, deepest);
    assert_eq!(depths.last().map(|group| group.number), Some(27));
    for group in &depths {
        assert!((1..=2).contains(&group.boards.len()));
        assert!(
            group
                .boards
                .iter()
                .all(|ready| growth::depth_of(&ready.cells) == group.number)
        );
        let measured = growth::measured(group, &LITTLE.pace).expect("the answers agree");
        assert!(measured.ours.p50 > 0.0 && measured.original.p50 > 0.0);
    }
}

/// What was told of the runs is drawn as they were: so many points, as many of them hollow.
fn drawn_again(load: &str, told: &[u8], picture: &str) {
    let (runs, again) = (format!("{picture}.txt"), format!("{picture}.again"));
    fs::write(&runs, told).expect("it is written");
    let run = ran(load, &["--told", &runs, "--svg", &again]);
    assert!(run.status.success() && run.stdout.is_empty());
    let counts = [picture, &again].map(|file| {
        let text = fs::read_to_string(file).expect("a picture");
        ["<polyline ", "<circle ", "fill=\"#fff\""].map(|mark| text.matches(mark).count())
    });
    assert_eq!(counts[0], counts[1]);
    assert_eq!(ran(load, &["--told", &runs]).status.code(), Some(2));
}

#[test]
fn what_was_not_told_is_not_drawn() {
    let load = env!("CARGO_BIN_EXE_load");
    let file = concat!(env!("CARGO_TARGET_TMPDIR"), "/odd.txt");
    for text in [
        "",
        "ours, games\nheadings\n1 2 3\n",
        "ours, games\nheadings\n",
    ] {
        fs::write(file, text).expect("it is written");
        let run = ran(load, &["--told", file, "--svg", "/dev/null"]);
        assert_eq!(run.status.code(), Some(2), "{text}");
    }
    let run = ran(load, &["--told", "/no/such/file", "--svg", "/dev/null"]);
    assert_eq!(run.status.code(), Some(2));
}

/// Tables, p99 and whether they were held; of two runs of one number of tables the last counts.
#[test]
fn what_was_told_is_read() {
    let told = "machine: one\n\noriginal, games\ntables frames p50 p99 max late\n\
        1 360 25.60 39.94 136.3 0\n2 720 27.65 65.53 87.6 7  not held\n\n\
        ours, games\ntables frames p50 p99 max late\n1 360 5.63 10.49 92.5 2  not held\n1 360 5.38 9.73 27.2 0\n";
    let charts = load::charts(told).expect("it is read");
    let dot = |x, y, is_full| Dot { x, y, is_full };
    let curves: Vec<_> = charts.iter().flat_map(|chart| &chart.curves).collect();
    assert_eq!(charts.len(), 1);
    assert_eq!(charts[0].words, "games");
    assert_eq!(
        curves[0].dots,
        [dot(1.0, 39.94, true), dot(2.0, 65.53, false)]
    );
    assert_eq!(curves[1].dots, [dot(1.0, 9.73, true)]);
}

fn ran(program: &str, words: &[&str]) -> Output {
    Command::new(program).args(words).output().expect("it runs")
}

#[test]
fn the_programs_run_on_little() {
    let room = env!("CARGO_TARGET_TMPDIR");
    let (load, growth) = (env!("CARGO_BIN_EXE_load"), env!("CARGO_BIN_EXE_growth"));
    let files = ["load.svg", "growth.svg"].map(|name| format!("{room}/{name}"));
    let run = ran(load, &["0.1", "--most", "2", "--svg", &files[0]]);
    let text = String::from_utf8_lossy(&run.stdout);
    assert!(run.status.success(), "{text}");
    assert_eq!(
        text.lines()
            .rev()
            .take(6)
            .filter(|line| line.contains("ours"))
            .count(),
        3,
        "{text}"
    );
    drawn_again(load, &run.stdout, &files[0]);
    let run = ran(growth, &["quick", "7", "--svg", &files[1]]);
    let text = String::from_utf8_lossy(&run.stdout);
    assert!(
        run.status.success() && text.contains("     27 by depth"),
        "{text}"
    );
    for (file, charts) in files.iter().zip([3, 2]) {
        let picture = std::fs::read_to_string(file).expect("a picture");
        assert_eq!(picture.matches("<polyline ").count(), 2 * charts);
    }
    let run = ran(load, &["0.1", "--most", "2", "--boards", "nested"]);
    let text = String::from_utf8_lossy(&run.stdout);
    assert!(
        text.contains("ours, nested") && !text.contains("games"),
        "{text}"
    );
    assert_eq!(ran(load, &["--boards", "all"]).status.code(), Some(2));
    for (program, words) in [(load, ["now", "--svg"]), (growth, ["now", "--svg"])] {
        assert_eq!(ran(program, &words[..1]).status.code(), Some(2));
        assert_eq!(ran(program, &words[1..]).status.code(), Some(2));
    }
    assert_eq!(
        ran(growth, &["quick", "--svg", room]).status.code(),
        Some(2)
    );
}
