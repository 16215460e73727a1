//! A naive reading of sections 3 to 6 of document 01, with requests 6 and 14
//! of document 02, cell by cell.
//!
//! A board is 225 cell values and a line is its values one after another.
//! Nothing here is packed into bits: the two masks of a row are added up
//! from single cells at the very end. It is written from the document and
//! shares nothing with the original.

use std::sync::LazyLock;

/// "Cell bytes are 225 bytes in code order: 0 empty, 1 black, 2 white."
pub type Cells = [u8; POINTS];

/// How many points a side of the board has.
pub const SIDE: usize = 15;
/// How many points the board has.
pub const POINTS: usize = SIDE * SIDE;

/// The byte of an empty cell.
pub const EMPTY: u8 = 0;
/// The byte of a black stone, and Black's number.
pub const BLACK: u8 = 1;
/// The byte of a white stone, and White's number.
pub const WHITE: u8 = 2;

/// "none as a number is 0", "1 DoubleThree, 2 DoubleFour, 3 Overline".
pub const NONE: u8 = 0;
/// The number of a double three.
pub const DOUBLE_THREE: u8 = 1;
/// The number of a double four.
pub const DOUBLE_FOUR: u8 = 2;
/// The number of an overline.
pub const OVERLINE: u8 = 3;

/// "a direction over 3 (section 4's order)": vertical, horizontal,
/// ascending, descending.
pub const DIRECTIONS: [usize; 4] = [0, 1, 2, 3];

/// The eight row kinds, numbered in the order of `row.rs`.
#[derive(Debug, Clone, Copy, PartialEq, Eq)]
pub enum Kind {
    Two,
    Three,
    Straight,
    Sword,
    Four,
    Five,
    Overlining,
    Overlined,
}

pub use Kind::*;

/// The kinds by their numbers.
pub const KINDS: [Kind; 8] = [
    Two, Three, Straight, Sword, Four, Five, Overlining, Overlined,
];

/// "in a lent output each is four bytes: key, start, stones mask, eyes mask
/// (bit k for cell j + k)."
pub type Row = [u8; 4];

/// "x and y run 0 to 14; code = 15x + y."
pub fn code(x: usize, y: usize) -> usize {
    SIDE * x + y
}

/// The x and y of a code.
pub fn place(code: usize) -> (usize, usize) {
    (code / SIDE, code % SIDE)
}

/// "Vertical line x holds cells y; horizontal line y holds cells x.
/// Ascending number is x + 14 − y, with cell x if that number is below 14,
/// else y. Descending number is x + y, with cell x if below 14, else
/// 14 − y." The answer is the line's number and the cell.
pub fn address(p: usize, direction: usize) -> (usize, usize) {
    let (x, y) = place(p);
    match direction {
        0 => (x, y),
        1 => (y, x),
        2 => (x + 14 - y, if x + 14 - y < 14 { x } else { y }),
        _ => (x + y, if x + y < 14 { x } else { 14 - y }),
    }
}

/// "15; for diagonal number i, i + 1 up to 14, then 29 − i".
pub fn line_size(direction: usize, number: usize) -> usize {
    match direction {
        0 | 1 => SIDE,
        _ if number <= 14 => number + 1,
        _ => 29 - number,
    }
}

/// "Diagonals are numbered 0 to 28; only 4 to 24 are stored, 21 each way.
/// Keys: vertical 0 to 14, horizontal 15 to 29, ascending 30 to 50,
/// descending 51 to 71."
pub fn line_key(direction: usize, number: usize) -> Option<usize> {
    match direction {
        0 => Some(number),
        1 => Some(15 + number),
        _ if !(4..=24).contains(&number) => None,
        2 => Some(30 + number - 4),
        _ => Some(51 + number - 4),
    }
}

/// The points of the 72 stored lines by key, and for every point the stored
/// lines through it with its cell on each. Made once, from [`address`].
struct Lines {
    points: Vec<Vec<usize>>,
    through: Vec<Vec<(usize, usize)>>,
}

static LINES: LazyLock<Lines> = LazyLock::new(|| {
    let mut points: Vec<Vec<usize>> = vec![Vec::new(); 72];
    let mut through: Vec<Vec<(usize, usize)>> = vec![Vec::new(); POINTS];
    for (p, through) in through.iter_mut().enumerate() {
        for d in DIRECTIONS {
            let (number, cell) = address(p, d);
            if let Some(key) = line_key(d, number) {
                points[key].resize(line_size(d, number), POINTS);
                points[key][cell] = p;
                through.push((key, cell));
            }
        }
    }
    Lines { points, through }
});

/// One stored line as it is read: its key and its values in cell order.
struct Seen {
    key: usize,
    size: usize,
    values: [u8; SIDE],
}

impl Seen {
    fn new(cells: &Cells, key: usize) -> Self {
        let points = &LINES.points[key];
        let mut values = [EMPTY; SIDE];
        for (value, &p) in values.iter_mut().zip(points) {
            *value = cells[p];
        }
        Self {
            key,
            size: points.len(),
            values,
        }
    }

    fn cells(&self) -> &[u8] {
        &self.values[..self.size]
    }
}

/// The stored lines through a point (vertical, horizontal, ascending,
/// descending), each with the point's cell.
fn lines_through(cells: &Cells, p: usize) -> impl Iterator<Item = (Seen, usize)> + '_ {
    LINES.through[p]
        .iter()
        .map(|&(key, cell)| (Seen::new(cells, key), cell))
}

/// The point at a cell of a stored line.
pub fn point_at(key: usize, cell: usize) -> usize {
    LINES.points[key][cell]
}

fn other(colour: u8) -> u8 {
    if colour == BLACK { WHITE } else { BLACK }
}

/// "A window at j is cells j to j+4, with j+5 at most the line's size."
fn window(line: &[u8], j: usize) -> Option<&[u8]> {
    if j + 5 <= line.len() {
        Some(&line[j..j + 5])
    } else {
        None
    }
}

/// "It is free for a colour when it has no stone of the other."
pub fn is_free(line: &[u8], j: usize, colour: u8) -> bool {
    window(line, j).is_some_and(|five| five.iter().all(|&v| v != other(colour)))
}

/// "its count of own stones", dead or not.
pub fn count(line: &[u8], j: usize, colour: u8) -> usize {
    window(line, j).map_or(0, |five| five.iter().filter(|&&v| v == colour).count())
}

/// "It is dead if not free, and for Black also if a black stone stands at
/// j−1 or j+5."
pub fn is_dead(line: &[u8], j: usize, colour: u8) -> bool {
    let before = j > 0 && line[j - 1] == BLACK;
    let after = j + 5 < line.len() && line[j + 5] == BLACK;
    !is_free(line, j, colour) || colour == BLACK && (before || after)
}

/// "Its score is its count of own stones, 0 to 5, and −1 if dead."
pub fn score(line: &[u8], j: usize, colour: u8) -> i8 {
    if is_dead(line, j, colour) {
        -1
    } else {
        count(line, j, colour) as i8
    }
}

/// "windows j−1 and j both score n and cell j+4 is empty."
pub fn is_open(line: &[u8], j: usize, colour: u8, n: i8) -> bool {
    j > 0
        && window(line, j).is_some_and(|five| five[4] == EMPTY)
        && score(line, j, colour) == n
        && score(line, j - 1, colour) == n
}

/// The window "is free" and holds n, "counted without the dead rule."
pub fn holds(line: &[u8], j: usize, colour: u8, n: usize) -> bool {
    is_free(line, j, colour) && count(line, j, colour) == n
}

/// "Overlining, Overlined at j: windows j−1 and j are both free and both
/// hold 4, or both 5, counted without the dead rule."
fn both_hold(line: &[u8], j: usize, colour: u8, n: usize) -> bool {
    j > 0 && holds(line, j, colour, n) && holds(line, j - 1, colour, n)
}

/// "Sword, Four, Five at j: score 3, 4, 5. Two, Three, Straight at j:
/// windows j−1 and j both score 2, 3, 4 and cell j+4 is empty." The other
/// two are `both_hold`.
pub fn is_row(line: &[u8], j: usize, colour: u8, kind: Kind) -> bool {
    if window(line, j).is_none() {
        return false;
    }
    match kind {
        Sword => score(line, j, colour) == 3,
        Four => score(line, j, colour) == 4,
        Five => score(line, j, colour) == 5,
        Two => is_open(line, j, colour, 2),
        Three => is_open(line, j, colour, 3),
        Straight => is_open(line, j, colour, 4),
        Overlining => both_hold(line, j, colour, 4),
        Overlined => both_hold(line, j, colour, 5),
    }
}

/// "A row is through cell i when i is in its window, or, for the kinds on
/// two windows, in the four shared cells j to j+3."
pub fn is_through(j: usize, i: usize, kind: Kind) -> bool {
    match kind {
        Sword | Four | Five => j <= i && i <= j + 4,
        _ => j <= i && i <= j + 3,
    }
}

/// "Eyes are the row's empty cells: of five cells, or of the shared four for
/// Two, Three and Straight."
pub fn eyes(line: &[u8], j: usize, kind: Kind) -> impl Iterator<Item = usize> + '_ {
    let last = match kind {
        Two | Three | Straight => j + 3,
        _ => j + 4,
    };
    (j..=last).filter(|&i| line[i] == EMPTY)
}

/// Every start of a row on the line, ascending.
pub fn starts(line: &[u8], colour: u8, kind: Kind) -> Vec<usize> {
    (0..line.len())
        .filter(|&j| is_row(line, j, colour, kind))
        .collect()
}

/// The starts of the rows through cell i, ascending.
pub fn starts_on(line: &[u8], i: usize, colour: u8, kind: Kind) -> Vec<usize> {
    (i.saturating_sub(4)..=i)
        .filter(|&j| is_through(j, i, kind) && is_row(line, j, colour, kind))
        .collect()
}

/// Every cell that is an eye of one of the line's rows, each once, ascending.
pub fn row_eyes(line: &[u8], colour: u8, kind: Kind) -> Vec<usize> {
    let found = starts(line, colour, kind);
    (0..line.len())
        .filter(|&i| {
            found
                .iter()
                .any(|&j| eyes(line, j, kind).any(|eye| eye == i))
        })
        .collect()
}

/// "`score_bound` is 0 when the other colour has more than size − 5 stones
/// on the line, else the own stones plus one."
pub fn score_bound(line: &[u8], colour: u8) -> usize {
    let stones = |c: u8| line.iter().filter(|&&v| v == c).count();
    if stones(other(colour)) > line.len() - 5 {
        0
    } else {
        stones(colour) + 1
    }
}

/// A cell list as a mask: two to the power k for each k, added up.
pub fn mask(cells: impl IntoIterator<Item = usize>) -> u32 {
    cells.into_iter().map(|k| 2u32.pow(k as u32)).sum()
}

/// The four bytes of the row at j: "key, start, stones mask, eyes mask".
fn row_bytes(line: &Seen, j: usize, colour: u8, kind: Kind) -> Row {
    let cells = line.cells();
    let stones = (0..5).filter(|&k| cells[j + k] == colour);
    let eyes = eyes(cells, j, kind).map(|i| i - j);
    [
        line.key as u8,
        j as u8,
        mask(stones) as u8,
        mask(eyes) as u8,
    ]
}

/// "Rows come by line key, then start".
pub fn rows(cells: &Cells, colour: u8, kind: Kind) -> Vec<Row> {
    let mut found = Vec::new();
    for key in 0..LINES.points.len() {
        let line = Seen::new(cells, key);
        for j in starts(line.cells(), colour, kind) {
            found.push(row_bytes(&line, j, colour, kind));
        }
    }
    found
}

/// The rows through a point: those through its cell on each line through it.
pub fn rows_on(cells: &Cells, p: usize, colour: u8, kind: Kind) -> Vec<Row> {
    let mut found = Vec::new();
    for (line, i) in lines_through(cells, p) {
        for j in starts_on(line.cells(), i, colour, kind) {
            found.push(row_bytes(&line, j, colour, kind));
        }
    }
    found
}

/// "Four eyes through a point: line by line (vertical, horizontal,
/// ascending, descending), each cell once a line, ascending."
pub fn four_eyes_on(cells: &Cells, p: usize, colour: u8) -> Vec<u8> {
    let mut found = Vec::new();
    for (line, i) in lines_through(cells, p) {
        let fours = starts_on(line.cells(), i, colour, Four);
        for cell in 0..line.size {
            let is_eye = |&j: &usize| eyes(line.cells(), j, Four).any(|eye| eye == cell);
            if fours.iter().any(is_eye) {
                found.push(point_at(line.key, cell) as u8);
            }
        }
    }
    found
}

/// "`neighbors` takes distance d, 0 to 14, and names the cells from −d to +d
/// in each direction in that order, short diagonals too, the point itself
/// each time; the empty-only form drops stones."
pub fn neighbours(cells: &Cells, p: usize, distance: usize, only_empty: bool) -> Vec<u8> {
    let (x, y) = place(p);
    let d = distance as isize;
    let mut found = Vec::new();
    for (dx, dy) in [(0, 1), (1, 0), (1, 1), (1, -1)] {
        for step in -d..=d {
            let (a, b) = (x as isize + dx * step, y as isize + dy * step);
            if !(0..15).contains(&a) || !(0..15).contains(&b) {
                continue;
            }
            let q = code(a as usize, b as usize);
            if !only_empty || cells[q] == EMPTY {
                found.push(q as u8);
            }
        }
    }
    found
}

/// A verdict, with how many strict questions stood inside one another, and
/// whether on the way to it, at any level, the eye of a Three completed a five.
/// Where none did, request 6 changes nothing: the original answers the same.
#[derive(Debug, Clone, Copy, PartialEq, Eq)]
pub struct Answer {
    pub verdict: u8,
    pub depth: usize,
    pub five_eye: bool,
}

impl Answer {
    /// Of a question that asks no other.
    fn quick(verdict: u8, depth: usize) -> Self {
        Self {
            verdict,
            depth,
            five_eye: false,
        }
    }
}

/// Where a row starts: the line's key and the cell.
type Start = (usize, usize);

/// The starts of Black's rows of a kind through a point, with their lines.
fn black_starts(lines: &[(Seen, usize)], kind: Kind) -> Vec<Start> {
    let mut found = Vec::new();
    for (line, i) in lines {
        for j in starts_on(line.cells(), *i, BLACK, kind) {
            found.push((line.key, j));
        }
    }
    found
}

/// "“More than one” means starts on two lines, or on one line a set not
/// contained in {j, j+1}."
pub fn more_than_one(starts: &[Start]) -> bool {
    let Some(&(line, first)) = starts.first() else {
        return false;
    };
    let lowest = starts.iter().map(|s| s.1).min().unwrap_or(first);
    let two_lines = starts.iter().any(|s| s.0 != line);
    two_lines || starts.iter().any(|s| s.1 != lowest && s.1 != lowest + 1)
}

/// "The plain verdict at an empty p, first that applies: Overline: some line
/// has an Overlining through p. DoubleFour: more than one Sword through p.
/// DoubleThree: more than one Two through p, and on the board with Black at
/// p more than one real Three through p." "Nothing is asked after the first
/// kind that applies."
pub fn plain(cells: &Cells, p: usize) -> Answer {
    let lines: Vec<_> = lines_through(cells, p).collect();
    if !black_starts(&lines, Overlining).is_empty() {
        Answer::quick(OVERLINE, 0)
    } else if more_than_one(&black_starts(&lines, Sword)) {
        Answer::quick(DOUBLE_FOUR, 0)
    } else if more_than_one(&black_starts(&lines, Two)) {
        real_threes(cells, p)
    } else {
        Answer::quick(NONE, 0)
    }
}

/// "on the board with Black at p more than one real Three through p." "A
/// Three is real when its eye completes no black five on that board and the
/// strict verdict there is none, at every level of nesting."
fn real_threes(cells: &Cells, p: usize) -> Answer {
    let mut next = *cells;
    next[p] = BLACK;
    let mut real = Vec::new();
    let mut answer = Answer::quick(NONE, 0);
    for (line, i) in lines_through(&next, p) {
        for j in starts_on(line.cells(), i, BLACK, Three) {
            let eye = eyes(line.cells(), j, Three).next().expect("one eye");
            let eye = point_at(line.key, eye);
            let is_five = completes_five(&next, eye);
            let nested = strict(&next, eye);
            answer.depth = answer.depth.max(nested.depth);
            answer.five_eye |= is_five || nested.five_eye;
            if !is_five && nested.verdict == NONE {
                real.push((line.key, j));
            }
            if more_than_one(&real) {
                answer.verdict = DOUBLE_THREE;
                return answer;
            }
        }
    }
    answer
}

/// "a black Four goes through p (p completes a five)".
fn completes_five(cells: &Cells, p: usize) -> bool {
    lines_through(cells, p).any(|(line, i)| !starts_on(line.cells(), i, BLACK, Four).is_empty())
}

/// "The strict verdict is none at an occupied point or where a black Four
/// goes through p (p completes a five); otherwise it is the plain one."
pub fn strict(cells: &Cells, p: usize) -> Answer {
    if cells[p] != EMPTY {
        return Answer::quick(NONE, 0);
    }
    if completes_five(cells, p) {
        return Answer::quick(NONE, 1);
    }
    let mut answer = plain(cells, p);
    answer.depth += 1;
    answer
}

/// How deep a strict question goes, document 02, No. 14: "0 at an occupied
/// point; 1 where nothing nested is asked; else one more than the deepest
/// question at the eye of any Three through the point on the board with the
/// stone, also those after the answer is known; an eye that completes a five
/// counts 1."
pub fn question_depth(cells: &Cells, p: usize) -> usize {
    if cells[p] != EMPTY {
        return 0;
    }
    if !asks_nested(cells, p) {
        return 1;
    }
    let mut next = *cells;
    next[p] = BLACK;
    let mut deepest = 0;
    for (line, i) in lines_through(&next, p) {
        for j in starts_on(line.cells(), i, BLACK, Three) {
            let eye = eyes(line.cells(), j, Three).next().expect("one eye");
            let eye = point_at(line.key, eye);
            let five = completes_five(&next, eye);
            let depth = if five { 1 } else { question_depth(&next, eye) };
            deepest = deepest.max(depth);
        }
    }
    deepest + 1
}

/// Whether the strict question at an empty point asks about a Three: no five is
/// completed, neither Overline nor DoubleFour applies, and more than one Two
/// goes through the point.
fn asks_nested(cells: &Cells, p: usize) -> bool {
    let lines: Vec<_> = lines_through(cells, p).collect();
    !completes_five(cells, p)
        && black_starts(&lines, Overlining).is_empty()
        && !more_than_one(&black_starts(&lines, Sword))
        && more_than_one(&black_starts(&lines, Two))
}

/// "The forbidden list holds each empty point whose strict verdict is a
/// kind, by ascending code: kind byte (..), then code."
pub fn forbidden_list(cells: &Cells) -> Vec<(u8, u8)> {
    listed(cells).0
}

/// The list, and whether one of its verdicts met an eye that completes a five.
pub fn listed(cells: &Cells) -> (Vec<(u8, u8)>, bool) {
    let mut list = Vec::new();
    let mut five_eye = false;
    for p in (0..POINTS).filter(|&p| cells[p] == EMPTY) {
        let answer = strict(cells, p);
        five_eye |= answer.five_eye;
        if answer.verdict != NONE {
            list.push((answer.verdict, p as u8));
        }
    }
    (list, five_eye)
}

/// The deepest nesting that a strict question meets at any point.
pub fn depth(cells: &Cells) -> usize {
    (0..POINTS)
        .map(|p| strict(cells, p).depth)
        .max()
        .unwrap_or(0)
}

/// "0: (x, y). 1: (y, 14−x). 2: (14−x, 14−y). 3: (14−y, x). 4: (14−x, y).
/// 5: (x, 14−y). 6: (y, x). 7: (14−y, 14−x)."
pub fn turned_point(view: usize, p: usize) -> usize {
    let (x, y) = place(p);
    match view {
        0 => code(x, y),
        1 => code(y, 14 - x),
        2 => code(14 - x, 14 - y),
        3 => code(14 - y, x),
        4 => code(14 - x, y),
        5 => code(x, 14 - y),
        6 => code(y, x),
        _ => code(14 - y, 14 - x),
    }
}

/// "The turned board holds at each turned point what the board holds at the
/// point, and nothing else".
pub fn turned_board(view: usize, cells: &Cells) -> Cells {
    let mut turned = [EMPTY; POINTS];
    for p in 0..POINTS {
        turned[turned_point(view, p)] = cells[p];
    }
    turned
}

/// "the turned list names the turned points with their kinds, put in code
/// order."
pub fn turned_list(view: usize, list: &[(u8, u8)]) -> Vec<(u8, u8)> {
    let mut turned: Vec<_> = list
        .iter()
        .map(|&(kind, p)| (kind, turned_point(view, p as usize) as u8))
        .collect();
    turned.sort_by_key(|&(_, p)| p);
    turned
}
