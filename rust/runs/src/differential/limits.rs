//! The limits: every number that an argument can be, unsound bytes and lines, lent bytes of every
//! length, long and odd texts.

use super::call::{Call, Given, Line, Question};
use super::judge::{Judge, Room};
use super::lines::{of_a_kind, some_line};
use oracle::boards::{self, Dice, SORTS};
use oracle::naive_text::write_diagram;
use oracle::original::Cells;
use oracle::texts;

/// The numbers to ask with; every one with every other.
struct Numbers {
    codes: Vec<u8>,
    colours: Vec<u8>,
    kinds: Vec<u8>,
    views: Vec<u8>,
    distances: Vec<u8>,
}

/// On both sides of every limit, so that every order of two refusals is met.
fn edges() -> Numbers {
    Numbers {
        codes: vec![0, 112, 224, 225, 255],
        colours: vec![0, 1, 2, 3, 255],
        kinds: vec![0, 4, 7, 8, 255],
        views: vec![0, 7, 8, 255],
        distances: vec![0, 14, 15, 255],
    }
}

/// Few numbers, none of them refused.
fn few() -> Numbers {
    Numbers {
        codes: vec![112],
        colours: vec![1],
        kinds: vec![4],
        views: vec![1],
        distances: vec![4],
    }
}

/// Every number for each argument in turn.
fn every() -> [Numbers; 5] {
    let mut all = [few(), few(), few(), few(), few()];
    let whole: Vec<u8> = (0..=255).collect();
    all[0].codes = whole.clone();
    all[1].colours = whole.clone();
    all[2].kinds = whole.clone();
    all[3].views = whole.clone();
    all[4].distances = whole;
    all
}

/// Every function about a board, with every one of the numbers. The second referee's are asked
/// with the fast one's.
fn calls(numbers: &Numbers) -> Vec<Call> {
    let mut all = vec![Call::ToString, Call::ToPrettyString, Call::Counts];
    all.extend([Call::EmptyPoints, Call::Fast(Question::ForbiddenPoints)]);
    all.extend(numbers.views.iter().map(|&view| Call::Turn { view }));
    for &colour in &numbers.colours {
        all.push(Call::Stones { colour });
        let rows = |&kind| Call::Fast(Question::Rows { colour, kind });
        all.extend(numbers.kinds.iter().map(rows));
    }
    for &code in &numbers.codes {
        all.extend(calls_at(numbers, code));
    }
    all
}

fn calls_at(numbers: &Numbers, code: u8) -> Vec<Call> {
    let mut all = vec![Call::Remove { code }];
    all.push(Call::Fast(Question::Forbidden { code }));
    all.push(Call::Fast(Question::ForbiddenStrict { code }));
    for &distance in &numbers.distances {
        for only_empty in [false, true] {
            all.push(Call::Neighbors {
                code,
                distance,
                only_empty,
            });
        }
    }
    for &colour in &numbers.colours {
        all.push(Call::Put { code, colour });
        all.push(Call::Fast(Question::FourEyesOn { code, colour }));
        let rows_on = |&kind| Call::Fast(Question::RowsOn { code, colour, kind });
        all.extend(numbers.kinds.iter().map(rows_on));
    }
    all
}

/// Exactly full, one short, empty, long.
fn rooms() -> [Room; 5] {
    [
        Room::Exact,
        Room::Short,
        Room::Empty,
        Room::Long(1),
        Room::Long(500),
    ]
}

/// Asks at all limits.
pub fn all(judge: &mut Judge) {
    boards(judge);
    unsound_cells(judge);
    points(judge);
    lines(judge);
    texts(judge);
}

/// The empty board, full boards, some of every sort: all limits of numbers and of rooms.
fn boards(judge: &mut Judge) {
    let mut all: Vec<Cells> = vec![[0; 225], [1; 225], [2; 225]];
    all.push(std::array::from_fn(|_| 1 + judge.dice.below(2) as u8));
    all.extend(SORTS.map(|sort| boards::of_sort(sort, &mut judge.dice)));
    for cells in &all {
        let given = Given::cells(cells);
        for call in calls(&edges()) {
            for room in rooms() {
                judge.compare(call, &given, room);
            }
        }
        for call in every().iter().flat_map(calls) {
            judge.compare(call, &given, Room::Long(30));
        }
    }
}

/// Wrong lengths, and a byte over 2 at each place. What the numbers are must make no difference.
fn unsound_cells(judge: &mut Judge) {
    for length in [0, 1, 450].into_iter().chain(220..=230) {
        let cells: Vec<u8> = (0..length).map(|_| judge.dice.below(3) as u8).collect();
        with_any_room(judge, &cells, &edges());
    }
    for place in 0..225 {
        for wrong in [3, 255, 4 + judge.dice.below(251) as u8] {
            let mut cells = boards::random(&mut judge.dice);
            cells[place] = wrong;
            let numbers = if place % 56 == 0 { edges() } else { few() };
            with_any_room(judge, &cells, &numbers);
        }
    }
}

fn with_any_room(judge: &mut Judge, cells: &[u8], numbers: &Numbers) {
    let given = Given::cells(cells);
    for call in calls(numbers) {
        let room = Room::any(&mut judge.dice);
        judge.compare(call, &given, room);
    }
}

/// Every code in every view, and every number for both.
fn points(judge: &mut Judge) {
    let nothing = Given::nothing();
    for code in 0..=255 {
        for view in 0..=255 {
            judge.compare(Call::TurnPoint { code, view }, &nothing, Room::Empty);
        }
    }
}

fn lines(judge: &mut Judge) {
    let edges = edges();
    for line in odd_lines(&mut judge.dice) {
        for &colour in &edges.colours {
            for &kind in &edges.kinds {
                of_a_kind(judge, line, colour, kind, [0, 4, 5, 14, 15, 16, 255]);
            }
        }
    }
    for size in 5..=15 {
        let line = some_line(&mut judge.dice, size);
        for number in 0..=255 {
            of_a_kind(judge, line, number, 4, [0]);
            of_a_kind(judge, line, 1, number, [0]);
        }
        of_a_kind(judge, line, 2, 4, 0..=255);
    }
}

/// Lines of every size that a number can be, sound and not; in the right sizes each bit outside
/// and each cell with both colours.
fn odd_lines(dice: &mut Dice) -> Vec<Line> {
    let mut all = Vec::new();
    for size in 0..=255 {
        for (blacks, whites) in [(0, 0), (1, 0), (0, 31), (1, 1), (0x8000, 0), (0, 0xffff)] {
            all.push(Line {
                blacks,
                whites,
                size,
            });
        }
    }
    for size in 5..=15 {
        for bit in 0..16 {
            let mut line = some_line(dice, size);
            let stones = if dice.chance(50) {
                &mut line.blacks
            } else {
                &mut line.whites
            };
            *stones |= 1 << bit;
            all.push(line);
            line.blacks |= 1 << bit;
            line.whites |= 1 << bit;
            all.push(line);
        }
        all.push(some_line(dice, size));
    }
    all
}

/// Texts made by hand, every byte in several places, and lengths around the longest.
fn texts(judge: &mut Judge) {
    let mut all: Vec<Vec<u8>> = Vec::new();
    all.extend(texts::short_examples().into_iter().map(String::into_bytes));
    all.push(texts::all_points().into_bytes());
    for sort in SORTS {
        let cells = boards::of_sort(sort, &mut judge.dice);
        all.extend(
            texts::diagram_examples(&cells)
                .into_iter()
                .map(String::into_bytes),
        );
        all.extend(with_byte(&mut judge.dice, write_diagram(&cells).as_bytes()));
    }
    for good in ["G8,I8,H7,H9/A1", "H8,I9,o15", "H8", ""] {
        all.extend(with_byte(&mut judge.dice, good.as_bytes()));
    }
    all.extend(long_texts(&mut judge.dice));
    for text in &all {
        let given = Given::text(text);
        for room in rooms() {
            for call in [Call::Read, Call::ReadDiagram, Call::Convert] {
                judge.compare(call, &given, room);
            }
        }
    }
}

/// The text with each of the 256 bytes somewhere.
fn with_byte(dice: &mut Dice, text: &[u8]) -> Vec<Vec<u8>> {
    let changed = |byte: u8| {
        let mut next = text.to_vec();
        next.insert(dice.below(text.len() + 1), byte);
        next
    };
    (0..=255).map(changed).collect()
}

/// Texts around 4,096 bytes and far longer: filled up with spaces in front or behind, or with
/// points; some with a byte of 128, which is seen only where the length is right.
fn long_texts(dice: &mut Dice) -> Vec<Vec<u8>> {
    let diagram = write_diagram(&boards::clustered(dice));
    let mut all = Vec::new();
    for length in [4094, 4095, 4096, 4097, 4098, 8192, 65536, 70000] {
        for good in ["", "G8,I8,H7,H9/A1", "H8,I9,", "H8", &diagram] {
            let spaces = vec![b' '; length - good.len()];
            let behind = [good.as_bytes(), &spaces].concat();
            all.push([&spaces, good.as_bytes()].concat());
            let mut wrong = behind.clone();
            wrong[length - 1] = 128;
            all.extend([behind, wrong]);
        }
        all.push(b"H8,".repeat(length)[..length].to_vec());
        all.push(b"H8/".repeat(length)[..length].to_vec());
        all.push(vec![b'.'; length]);
        all.push(vec![b'\n'; length]);
    }
    all
}
