//! Cost as work grows: the time of a list against the stones on the board, and against how deep the
//! deepest question of the board goes (`renju_depth`), ours and the original's.

use oracle::boards::{self, Dice, SORTS};
use renju::{Cells, Point};

use crate::timing::curves::{Axis, Chart, Curve, Dot, Scale};
use crate::timing::games;
use crate::timing::race::{self, Pace};
use crate::timing::rows::{Lists, Other};
use crate::timing::sets::{self, Ready};
use crate::timing::stats::Summary;

/// The boards that belong to one number: of stones, or of a depth.
pub struct Group {
    pub number: usize,
    /// `played`, `put in turn` or `by depth`.
    pub sort: &'static str,
    pub boards: Vec<Ready>,
}

/// What was measured of a group, in ns for one list.
#[derive(Debug, Clone)]
pub struct Measured {
    pub number: usize,
    pub sort: &'static str,
    pub boards: usize,
    pub original: Summary,
    pub ours: Summary,
}

/// How much is measured.
#[derive(Debug, Clone, Copy)]
pub struct Settings {
    pub seed: u64,
    /// Boards for each number.
    pub boards: usize,
    /// Boards that are looked at for their depth, at most.
    pub looked_at: usize,
    pub pace: Pace,
}

/// Games reach so many stones often enough; more come of full boards put stone by stone.
const PLAYED: usize = 100;

/// Boards with so many stones and so many more, up to a full one but for a few points.
pub fn by_stones(settings: &Settings, step: usize) -> Vec<Group> {
    let played = (step..=PLAYED).step_by(step).map(|stones| Group {
        number: stones,
        sort: "played",
        boards: sets::games(settings.seed, stones, settings.boards).boards,
    });
    let mut groups = vec![Group {
        number: 0,
        sort: "played",
        boards: vec![Ready::new([0; 225])],
    }];
    groups.extend(played);
    let full = games::games(settings.seed, 225, settings.boards);
    let more = (step..=220).step_by(step).filter(|&stones| stones > PLAYED);
    groups.extend(more.map(|stones| Group {
        number: stones,
        sort: "put in turn",
        boards: full.iter().map(|moves| put(&moves[..stones])).collect(),
    }));
    groups
}

/// The board after some moves.
fn put(moves: &[u8]) -> Ready {
    let mut cells = [0; 225];
    for (n, &code) in moves.iter().enumerate() {
        cells[usize::from(code)] = if n % 2 == 0 { 1 } else { 2 };
    }
    Ready::new(cells)
}

/// How deep the deepest question of a board goes.
pub fn depth_of(bytes: &[u8; 225]) -> usize {
    let Ok(cells) = Cells::from_bytes(bytes) else {
        return 0;
    };
    let depths = Point::all().map(|point| usize::from(cells.depth(point)));
    depths.max().unwrap_or(0)
}

/// Boards of all sorts by their depth, as many as come up. The deepest board that is known has a
/// group of its own.
pub fn by_depth(settings: &Settings, deepest: &str) -> Vec<Group> {
    let mut dice = Dice::new(settings.seed);
    let mut found: Vec<Vec<Ready>> = Vec::new();
    for n in 0..settings.looked_at {
        let cells = boards::of_sort(SORTS[n % SORTS.len()], &mut dice);
        keep(&mut found, cells, settings.boards);
    }
    if let Some(Ok(known)) = deepest.lines().next().map(|text| text.parse::<Cells>()) {
        keep(&mut found, *known.as_bytes(), settings.boards);
    }
    let groups = found.into_iter().enumerate().map(|(number, boards)| Group {
        number,
        sort: "by depth",
        boards,
    });
    groups.filter(|group| !group.boards.is_empty()).collect()
}

/// Keeps a board with those of its depth, where there is room.
fn keep(found: &mut Vec<Vec<Ready>>, cells: [u8; 225], most: usize) {
    let depth = depth_of(&cells);
    if found.len() <= depth {
        found.resize_with(depth + 1, Vec::new);
    }
    if found[depth].len() < most {
        found[depth].push(Ready::new(cells));
    }
}

/// Times a group. The answers are compared; nothing where two differ.
pub fn measured(group: &Group, pace: &Pace) -> Option<Measured> {
    let times = race::run(&mut Lists::new(&group.boards, Other::Original), pace).ok()?;
    Some(Measured {
        number: group.number,
        sort: group.sort,
        boards: group.boards.len(),
        original: Summary::of(&times.other),
        ours: Summary::of(&times.ours),
    })
}

/// The head of the table of data.
pub fn head() -> String {
    format!(
        "{:>7} {:<12} {:>6} {:>12} {:>12} {:>12} {:>12} {:>8}",
        "number",
        "boards",
        "count",
        "original p50",
        "original p99",
        "ours p50",
        "ours p99",
        "ratio"
    )
}

/// A line of the table of data, times in ns; the ratio is that of the sums.
pub fn line(measured: &Measured) -> String {
    let (original, ours) = (&measured.original, &measured.ours);
    format!(
        "{:>7} {:<12} {:>6} {:>12.0} {:>12.0} {:>12.0} {:>12.0} {:>8.2}",
        measured.number,
        measured.sort,
        measured.boards,
        original.p50,
        original.p99,
        ours.p50,
        ours.p99,
        original.sum / ours.sum
    )
}

/// The mean of a list in µs, of both, against the number.
pub fn chart(words: &str, number: &str, rows: &[Measured]) -> Chart {
    let mean = |summary: &Summary| summary.sum / summary.count.max(1) as f64 / 1000.0;
    let curve = |name: &str, colour, side: fn(&Measured) -> &Summary| Curve {
        name: name.to_string(),
        colour,
        dots: rows
            .iter()
            .map(|row| Dot {
                x: row.number as f64,
                y: mean(side(row)),
                is_full: true,
            })
            .collect(),
    };
    let curves = vec![
        curve("the original", "#b34700", |row| &row.original),
        curve("this referee", "#1257c8", |row| &row.ours),
    ];
    let times = curves
        .iter()
        .flat_map(|curve| curve.dots.iter().map(|dot| dot.y));
    let numbers = rows.iter().map(|row| row.number as f64);
    Chart {
        words: words.to_string(),
        x: Axis::of(number, Scale::Even, numbers),
        y: Axis::of("a list, µs (mean)", Scale::Tens, times.collect::<Vec<_>>()),
        curves,
        limit: None,
    }
}
